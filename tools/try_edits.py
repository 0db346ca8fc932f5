#!/usr/bin/env python3
"""Tries edits that the prover must refuse and that the gate does not try:
tools/edits/CRATE/NAME.edit.

    tools/try_edits.py                 says of each edit whether it can be applied, in no time: the
                                       text that it changes stands exactly once in its file
    tools/try_edits.py CRATE ..        tries those of some crates
    tools/try_edits.py --changed REV   those of the crates that differ from a revision
    tools/try_edits.py --all           all of them, which takes hours

It makes a copy of the repository's crates in which these edits stand in place of those of the gate,
and runs `rt ci CRATE ..` there, which proves and tries what no earlier run on this machine has: a
crate's proof and its tests are kept by their text. The copy is thrown away afterwards. It needs
Python 3 and `rt`.
"""

import argparse
import pathlib
import shutil
import subprocess
import sys
import tempfile

ROOT = pathlib.Path(__file__).resolve().parent.parent
EDITS = ROOT / "tools" / "edits"


def fault(edit, crate):
    """Why the edit cannot be applied to that crate's files, or None."""
    texts, path, old = {}, None, None
    for line in edit.read_text().splitlines():
        word, _, rest = line.partition(": ")
        if word == "file":
            path = crate / rest.strip()
            texts.setdefault(path, path.read_text())
        elif word == "old":
            old = rest
        elif word in ("new", "new:"):
            found = texts[path].count(old)
            if found != 1:
                return f"its text stands {found} times in {path.relative_to(crate)}: {old.strip()}"
            texts[path] = texts[path].replace(old, rest)
    return None


def edits():
    return sorted(EDITS.glob("*/*.edit"))


def lost():
    """The edits that cannot be applied, each with why."""
    found = [(edit, fault(edit, ROOT / "crates" / edit.parent.name)) for edit in edits()]
    return [f"{edit.relative_to(ROOT)}: {why}" for edit, why in found if why]


def with_edits():
    """The crates that have edits here."""
    return sorted(path.name for path in EDITS.iterdir())


def changed(revision):
    """Those of them that differ from a revision, in their files or in their edits."""
    asked = ["git", "diff", "--name-only", revision, "--", "crates", "tools/edits"]
    lines = subprocess.run(asked, cwd=ROOT, check=True, stdout=subprocess.PIPE, text=True).stdout
    parts = [pathlib.PurePath(line).parts for line in lines.splitlines()]
    found = {part[1] if part[0] == "crates" else part[2] for part in parts if len(part) > 2}
    return [name for name in with_edits() if name in found]


def tried(names):
    """The status of `rt ci` on a copy where these crates have the edits of tools/edits, and no
    others have any."""
    with tempfile.TemporaryDirectory() as folder:
        for name in ("crates.txt", "HANDLES"):
            shutil.copy(ROOT / name, folder)
        left_out = shutil.ignore_patterns("out", "must-fail")
        shutil.copytree(ROOT / "crates", f"{folder}/crates", symlinks=True, ignore=left_out)
        for name in names:
            shutil.copytree(EDITS / name, f"{folder}/crates/{name}/must-fail")
        return subprocess.run(["rt", "ci", *names], cwd=folder).returncode


def applied():
    """Whether all edits can be applied, once that is printed."""
    wrong = lost()
    print("".join(f"{line}\n" for line in wrong), end="")
    print(f"try_edits: {len(edits())} edits, {len(wrong)} that cannot be applied")
    return not wrong


def main():
    form = argparse.RawDescriptionHelpFormatter
    asked = argparse.ArgumentParser(description=__doc__, formatter_class=form)
    asked.add_argument("crates", metavar="CRATE", nargs="*")
    asked.add_argument("--changed", metavar="REV")
    asked.add_argument("--all", action="store_true")
    words = asked.parse_args()
    names = with_edits() if words.all else words.crates
    names = names + (changed(words.changed) if words.changed else [])
    unknown = [name for name in names if not (EDITS / name).is_dir()]
    if unknown:
        sys.exit(f"no edits in tools/edits for: {' '.join(unknown)}")
    if words.changed:
        print(f"try_edits: of crates that differ from {words.changed}: {' '.join(names) or 'none'}")
    if names:
        sys.exit(tried(sorted(set(names))))
    sys.exit(not applied())


if __name__ == "__main__":
    main()
