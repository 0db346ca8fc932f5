#!/usr/bin/env python3
"""Checks the modules of `examples`, and what the pages say that the program prints.

    python3 tools/examples.py PROGRAM [PAGE ..]

Each module of `examples` checks, to the bytes of the derivation beside it where one is stored, and
each derivation replays as one of its module. In pages, a fenced block that begins with `$ ` is what
a reader would see who types it, with the program as `ctt`: after each command stands what it
prints, refusals with their lines and normal forms too. It runs in a folder with `examples`, `tools`
and `editors` in it; `$ cat FILE` writes the file where it isn't there yet. Of a command of `ctt`
alone the status is the one that its first line wants. Of tables, the texts in `docs/LANGUAGE.md`
that have an answer are answered so, or are read where they stand for a production, and the lines in
`docs/FORMAT.md` are those of `two.drv`. `docs/CAUSES.md` has a heading for each cause of `outcomes`.
With a PAGE the blocks of that page alone are typed.
"""
import pathlib
import re
import shutil
import subprocess
import sys
import tempfile

ROOT = pathlib.Path(__file__).resolve().parent.parent
EXAMPLES = ROOT / "examples"
PAGES = ["README.md", *sorted(f"docs/{path.name}" for path in (ROOT / "docs").glob("*.md")),
         "editors/README.md"]
STATUSES = {"yes:": 0, "no:": 1, "usage:": 2, "fault:": 3, "spent:": 4, "": 5}
LIMIT = 600  # seconds that one command may take: a build without proofs is slow at univalence


class Folder:
    """A folder with the examples in it, where commands are typed."""

    def __init__(self, program, path):
        self.program, self.at, self.status = program, pathlib.Path(path), 0
        shutil.copytree(EXAMPLES, self.at / "examples")
        for name in ("tools", "editors"):
            (self.at / name).symlink_to(ROOT / name)

    def run(self, command):
        """What a command prints. The shell knows the status of the one before it."""
        typed = f'ctt() {{ "{self.program}" "$@"; }}\n(exit {self.status})\n{command}\n'
        ran = subprocess.run(["sh", "-c", typed], cwd=self.at, timeout=LIMIT,
                             stdout=subprocess.PIPE, stderr=subprocess.STDOUT)
        self.status = ran.returncode
        return ran.stdout.decode(errors="replace")

    def type(self, command, shown):
        """Types a command, and says what is wrong if it does not print what is shown."""
        verb, _, name = command.partition(" ")
        if verb == "cd":
            self.at = self.at / name
            return None
        if verb == "cat" and not (self.at / name).exists():
            (self.at / name).write_text(shown)
            return None
        printed = self.run(command)
        if printed != shown:
            return f"`{command}` prints {printed!r}, not {shown!r}"
        if re.fullmatch(r"ctt [^|;&<>]*", command) and self.status != wanted_status(printed):
            return f"`{command}` ends with {self.status}"
        return None


def wanted_status(printed):
    """The status that what is printed wants: 0 of a normal form, which has no word of those."""
    return STATUSES.get(printed.partition(" ")[0], 0)


def in_folder(program, steps):
    """What is wrong with these steps, each a command and what it prints, in a folder of their
    own."""
    with tempfile.TemporaryDirectory() as path:
        folder = Folder(program, path)
        return [wrong for wrong in (folder.type(*step) for step in steps) if wrong]


def blocks(text):
    """The blocks of a page that are typed, as steps."""
    for block in re.findall(r"^```\w*\n(\$ .*?)^```$", text, re.M | re.S):
        steps = re.split(r"^\$ ", block, flags=re.M)[1:]
        yield [tuple(step.partition("\n")[::2]) for step in steps]


def examples():
    """The modules of the examples, as steps. `check` wrote their derivations, but for `two.drv`; long
    ones are not stored."""
    paths = [path for glob in ("*.ctt", "evaluation/*.ctt", "prompt/*.ctt")
             for path in EXAMPLES.glob(glob)]
    for path in sorted(paths):
        module, folder = path.stem, path.parent.relative_to(ROOT)
        file = "two.drv" if module == "Two" else f"{module}.drv"
        if not (path.parent / file).exists():
            yield [(f"cd {folder}", ""), (f"ctt check {module} | cut -d ' ' -f 1", "yes:\n"),
                   (f"ctt replay {file} --of {module} | cut -d ' ' -f 1", "yes:\n")]
            continue
        text = (path.parent / file).read_text()
        rows, roots = text.count("\n"), len(re.findall("^r ", text, re.M))
        steps = [(f"cd {folder}", ""),
                 (f"ctt replay {file} --of {module}", f"yes: {rows} rows, {roots} roots\n"),
                 (f"mv {file} stored", ""),
                 (f"ctt check {module} | cut -d ' ' -f 1", "yes:\n")]
        yield steps + ([] if module == "Two" else [(f"cmp {file} stored", "")])


# Tables of docs/LANGUAGE.md.

WITHIN = {
    "module": "{}", "item": "module m where\n{}", "def": "module m where\n{}",
    "block": "module m where\nx : U = U where\n  {}", "tele": "module m where\nx {} : U = U",
    "exp": "module m where\nx : U = {}", "system": "module m where\nx : U = comp U U {}",
    "side": "module m where\nx : U = comp U U [ {} ]",
    "formula": "module m where\nx : U = U @ ({})",
}
WITHIN |= {f"exp{k}": WITHIN["exp"] for k in range(1, 6)}
WITHIN |= {"conj": WITHIN["formula"], "neg": WITHIN["formula"]}
READ = re.compile(
    "yes|no: (Unbound|NameKind|GlueSide|MissingFile|CannotInfer|Wanted|UInU|Mismatch)")


def table(text, head):
    """The rows of the tables with this head, each with its cells."""
    for body in re.findall(re.escape(head) + r"\n\|[-|]*\n((?:\|.*\n)*)", text):
        for row in body.splitlines():
            yield [cell.strip() for cell in re.split(r"(?<!\\)\|", row)[1:-1]]


def answered(program, text):
    """What `check` prints of a module of this text."""
    with tempfile.TemporaryDirectory() as path:
        pathlib.Path(path, "m.ctt").write_text(text)
        return Folder(program, path).run("ctt check m")


def language(program):
    """What is wrong in the tables of docs/LANGUAGE.md: each text is answered so, or is read."""
    text = (ROOT / "docs/LANGUAGE.md").read_text()
    answers = ["| Text | Answer | Why |", "| Text | Answer | Mend it by |"]
    for cells in (row for head in answers for row in table(text, head)):
        wanted = re.sub(r"^`(\w+)` at (\d+).*", r"no: \1 at \2 in m.ctt\n", cells[1])
        spelt, again = re.fullmatch(r"`(.*?)`(, and once more)?", cells[0]).groups()
        lines = [spelt] * (2 if again else 1)
        printed = answered(program, "\n".join(["module m where", *lines, ""]))
        if printed != wanted:
            yield f"{cells[0]} is answered by {printed!r}"
    for production, example in table(text, "| Production | Example |"):
        within = WITHIN[production.split(",")[0].split()[0].strip("`")]
        for spelt in re.findall(r"`([^`]*)`", example):
            printed = answered(program, within.format(spelt.replace("\\\\", "\\")) + "\n")
            if not READ.match(printed):
                yield f"{production}: `{spelt}` is answered by {printed!r}"


def rows():
    """What is wrong in the table of rows of docs/FORMAT.md."""
    text = (ROOT / "docs/FORMAT.md").read_text()
    lines = [line.strip("`") for _, line, _ in table(text, "| Row | Line | Means |")]
    if lines != (EXAMPLES / "two.drv").read_text().splitlines():
        yield "the table of rows is not two.drv"


def causes():
    """The causes that have no heading in docs/CAUSES.md."""
    named = (ROOT / "crates/outcomes/src/refusal.rt").read_text()
    headings = re.findall(r"^### (\w+)", (ROOT / "docs/CAUSES.md").read_text(), re.M)
    for cause in sorted(set(re.findall(r"Cause::(\w+) => \"", named)) - set(headings)):
        yield f"{cause} is not there"


def main():
    if len(sys.argv) < 2:
        sys.exit(__doc__.strip())
    program, pages = pathlib.Path(sys.argv[1]).resolve(), sys.argv[2:]
    wrong, done = [], 0
    for steps in [] if pages else examples():
        wrong += in_folder(program, steps)
        done += 1
    for page in pages or PAGES:
        text = (ROOT / page).read_text()
        for steps in blocks(text):
            wrong += [f"{page}: {what}" for what in in_folder(program, steps)]
            done += 1
    wrong += [f"docs/LANGUAGE.md: {what}" for what in language(program)]
    wrong += [f"docs/FORMAT.md: {what}" for what in rows()]
    wrong += [f"docs/CAUSES.md: {what}" for what in causes()]
    for what in wrong:
        print(f"examples: {what}")
    print(f"examples: {len(wrong)} wrong, of {done} modules and blocks, and of the tables")
    return 1 if wrong else 0


if __name__ == "__main__":
    sys.exit(main())
