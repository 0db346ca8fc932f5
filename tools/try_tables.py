#!/usr/bin/env python3
"""Runs the tables of `tests` on the programs that read them.

A table is text with a case a line or a few, as `crates/tables` says: what is asked, an input, and
the answer that is wanted. A program of `crates` reads it from its input, prints each case that it
answers otherwise, and at its end how many it answers so and how many not. A new case costs no
proof.
"""
import pathlib
import re
import shutil
import subprocess
import sys
import tempfile

ROOT = pathlib.Path(__file__).resolve().parent.parent
TABLES = {
    "row_cases": "rows.txt",
    "normality_cases": "normality.txt",
    "file_cases": "files.txt",
    "grammar_cases": "grammar.txt",
    "resolver_cases": "resolver.txt",
    "session_cases": "session.txt",
}
COUNTS = re.compile(r"^(\d+) passed, (\d+) failed$", re.M)
LIMIT = 120  # seconds that one table may take


def last_count(said):
    """How many passed and failed by the last line of a text that says so. With none, one failed."""
    found = COUNTS.findall(said)
    return tuple(map(int, found[-1])) if found else (0, 1)


def counted(crate, said):
    """How many cases passed and failed by what a program printed, which is shown where any did. A
    program that does not come to its end fails once."""
    passed, failed = last_count(said)
    print(f"tests/{TABLES[crate]}: {passed} passed, {failed} failed", flush=True)
    if failed:
        print(said)
    return passed, failed


def proved(crate):
    """The table of a crate, on the program that the gate has built."""
    with open(ROOT / "tests" / TABLES[crate], "rb") as table:
        try:
            ran = subprocess.run([ROOT / "crates" / crate / "out" / crate], stdin=table,
                                 stdout=subprocess.PIPE, stderr=subprocess.STDOUT, timeout=LIMIT)
        except (OSError, subprocess.TimeoutExpired) as error:
            return counted(crate, f"{error}\n")
    return counted(crate, ran.stdout.decode(errors="replace"))


def unproved(crate):
    """The same, on a build without proofs."""
    with tempfile.TemporaryDirectory() as folder:
        shutil.copy(ROOT / "tests" / TABLES[crate], f"{folder}/table")
        ran = subprocess.run(["rt", "try", "--cases", folder], cwd=ROOT / "crates" / crate,
                             stdout=subprocess.PIPE, stderr=subprocess.STDOUT)
    return counted(crate, ran.stdout.decode(errors="replace"))


def main(names):
    unknown = [name for name in names if name not in TABLES]
    if unknown:
        sys.exit(f"no table for: {' '.join(unknown)}")
    failed = [proved(crate)[1] for crate in names or TABLES]
    sys.exit(any(failed))


if __name__ == "__main__":
    main(sys.argv[1:])
