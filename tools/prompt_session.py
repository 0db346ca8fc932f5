#!/usr/bin/env python3
"""Replays recorded sessions of `ctt prompt`, and compares what is answered.

    tools/prompt_session.py PROGRAM            says which sessions differ, and where
    tools/prompt_session.py PROGRAM --write    writes the answers that the program gives

A session stands in `examples/prompt/NAME.session`, behind the module `NAME.ctt`: what is typed
stands on lines that begin with `> `, and what is answered on the lines behind each.
"""
import os
import pathlib
import shutil
import subprocess
import sys
import tempfile

FOLDER = pathlib.Path(__file__).resolve().parent.parent / "examples" / "prompt"
LIMIT = 60  # seconds that one session may take
TYPED = "> "


def typed(text):
    """The lines of a session that are typed."""
    return [line.removeprefix(TYPED) for line in text.splitlines() if line.startswith(TYPED)]


def answers(program, folder, module, lines):
    """What a prompt prints for each line: what it has printed more than for the lines before."""
    printed = [""]
    for count in range(1, len(lines) + 1):
        given = "".join(line + "\n" for line in lines[:count])
        ran = subprocess.run([program, "prompt", module], cwd=folder, input=given, text=True,
                             stdout=subprocess.PIPE, stderr=subprocess.STDOUT, timeout=LIMIT)
        if ran.returncode or not ran.stdout.startswith(printed[-1]):
            raise ValueError(f"status {ran.returncode}, {ran.stdout!r} behind {printed[-1]!r}")
        printed.append(ran.stdout)
    return [after[len(before):] for before, after in zip(printed, printed[1:])]


def replayed(program, path):
    """The text of a session as the program answers it. Nothing is stored."""
    lines = typed(path.read_text())
    with tempfile.TemporaryDirectory() as folder:
        for module in FOLDER.glob("*.ctt"):
            shutil.copy(module, folder)
        held = sorted(os.listdir(folder))
        found = answers(program, folder, path.stem, lines)
        if sorted(os.listdir(folder)) != held:
            raise ValueError(f"{sorted(os.listdir(folder))} in place of {held}")
    return "".join(f"{TYPED}{line}\n{answer}" for line, answer in zip(lines, found))


def difference(program, path, write):
    """What is wrong with a session, or None."""
    try:
        text = replayed(program, path)
    except (OSError, ValueError, subprocess.TimeoutExpired) as error:
        return str(error)
    wanted = path.read_text()
    if write:
        path.write_text(text)
        return None
    pairs = enumerate(zip(text.splitlines() + [""], wanted.splitlines() + [""]), start=1)
    at = next((f"line {at}: {found!r} in place of {line!r}" for at, (found, line) in pairs
               if found != line), "another end")
    return None if text == wanted else at


def sessions(program, write=False):
    """How many sessions pass and fail on a program."""
    program, paths = pathlib.Path(program).resolve(), sorted(FOLDER.glob("*.session"))
    found = {path.name: difference(program, path, write) for path in paths}
    wrong = {name: what for name, what in found.items() if what}
    print(f"sessions of prompt: {len(found) - len(wrong)} passed, {len(wrong)} failed", flush=True)
    for name, what in wrong.items():
        print(f"    {name}: {what}")
    return len(found) - len(wrong), len(wrong)


def main(words):
    if len(words) not in (1, 2) or words[1:] not in ([], ["--write"]):
        sys.exit(__doc__.strip())
    sys.exit(sessions(words[0], bool(words[1:]))[1] > 0)


if __name__ == "__main__":
    main(sys.argv[1:])
