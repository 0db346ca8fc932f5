#!/usr/bin/env python3
"""Shows the place of a refusal in the text, with its line and column.

    tools/where.py PROGRAM WORD ..     runs the program with these words
    ctt check M | tools/where.py       reads its answer from standard input
    tools/where.py FILE BYTE           shows the place behind so many bytes of a file

An answer `no: CAUSE at AT in PATH` or `spent: N at AT in PATH` is printed as

    PATH:LINE:COLUMN: CAUSE
    the line of the text
         ^
    the further lines of the answer

and any other as it is. Lines and columns count from 1, and a column is a character. Before the
other words may stand `--brief`, for one line an answer, with what was found and wanted behind it
and without the text, as editors read it; and `--bytes`, for columns that count bytes, as Vim's do.
The status is that of the program, or 0.
"""
import pathlib
import re
import subprocess
import sys

PLACED = re.compile(rb"(?:no: (\w+)|(spent: \d+)) at (\d+) in (.*)")


class Place:
    """Where a byte of a text stands."""

    def __init__(self, path, at):
        self.path, text = path, pathlib.Path(path).read_bytes()
        start = text.rfind(b"\n", 0, at) + 1
        self.line, self.before = text.count(b"\n", 0, at) + 1, text[start:at]
        self.text = text[start:].partition(b"\n")[0].rstrip(b"\r").decode(errors="replace")

    def head(self, in_bytes=False):
        """`PATH:LINE:COLUMN`"""
        before = self.before if in_bytes else self.before.decode(errors="replace")
        return f"{self.path}:{self.line}:{len(before) + 1}"

    def shown(self):
        """The line of the text, and below it a mark at the place. A tab stays one."""
        before = self.before.decode(errors="replace")
        return [self.text, "".join("\t" if char == "\t" else " " for char in before) + "^"]


def told(answer, options):
    """An answer of the program with its place, or as it is where it has none."""
    first, _, further = answer.partition(b"\n")
    found = PLACED.fullmatch(first)
    more = further.decode(errors="replace")
    try:
        cause, spent, at, path = found.groups()
        place = Place(path.decode(errors="surrogateescape"), int(at))
    except (AttributeError, OSError):
        return answer.decode(errors="replace")
    head = f"{place.head('--bytes' in options)}: {(cause or spent).decode()}"
    if "--brief" in options:
        return ": ".join([head, *filter(None, [", ".join(more.splitlines())])]) + "\n"
    return "\n".join([head, *place.shown(), more])


def main(words):
    options = set()
    while words[:1] in (["--brief"], ["--bytes"]):
        options.add(words.pop(0))
    if words[:1] in (["-h"], ["--help"]):
        sys.exit(__doc__.strip())
    if len(words) == 2 and words[1].isdigit():
        place = Place(words[0], int(words[1]))
        print("\n".join([place.head("--bytes" in options), *place.shown()]))
        return 0
    if words:
        ran = subprocess.run(words, stdout=subprocess.PIPE)
        answer, status = ran.stdout, ran.returncode
    else:
        answer, status = sys.stdin.buffer.read(), 0
    sys.stdout.write(told(answer, options))
    return status


if __name__ == "__main__":
    sys.exit(main(sys.argv[1:]))
