#!/usr/bin/env python3
"""Builds and runs a program over the crates of this repository, in a copy that is thrown away
afterwards.

usage: python3 bench/library.py NAME [WORD ..]

The program's text is bench/timing/NAME.txt; it may use each crate that crates.txt lists, or names
as used by one. It is proved safe like any other program of the repository, built, and run; what it
prints is printed. Then it is run for each WORD, with that word alone, and a line says how many
megabytes of memory that took at its peak.
"""

import os
import re
import shutil
import subprocess
import sys
import tempfile

from runs import measured

BENCH = os.path.dirname(os.path.abspath(__file__))
ROOT = os.path.dirname(BENCH)
PROGRAM = "timing"


def listed(lines):
    """The names of the crates that the lines of crates.txt list, and of those that they use."""
    plain = [line.split("#")[0] for line in lines]
    crates = [line.split(":") for line in plain if ":" in line]
    return sorted({name for crate, uses in crates for name in [crate.split()[0], *uses.split()]})


def used(text, names):
    """The crates among those names from which the program brings something in."""
    return [name for name in names
            if re.search(rf"^(use |ghost use Rattle\.){name}\b", text, re.MULTILINE)]


def make(folder, text):
    """Makes the copy in that folder; answers the folder of the program's crate."""
    shutil.copytree(os.path.join(ROOT, "crates"), os.path.join(folder, "crates"),
                    ignore=shutil.ignore_patterns("out"))
    with open(os.path.join(ROOT, "crates.txt")) as file:
        lines = file.read().splitlines()
    lines.append(f"{PROGRAM}: {' '.join(used(text, listed(lines)))}")
    with open(os.path.join(folder, "crates.txt"), "w") as file:
        file.write("".join(line + "\n" for line in lines))
    crate = os.path.join(folder, "crates", PROGRAM)
    os.makedirs(os.path.join(crate, "src"))
    with open(os.path.join(crate, "src", "main.rt"), "w") as file:
        file.write(text)
    return crate


def main():
    if len(sys.argv) < 2:
        sys.exit(__doc__.strip())
    with open(os.path.join(BENCH, "timing", f"{sys.argv[1]}.txt")) as file:
        text = file.read()
    with tempfile.TemporaryDirectory() as folder:
        crate = make(folder, text)
        done = subprocess.run(["rt", "run"], cwd=crate, capture_output=True, text=True)
        print(done.stdout, end="")
        for word in sys.argv[2:] if done.returncode == 0 else []:
            told, peak = measured([os.path.join(crate, "out", PROGRAM), word])
            print(f"{told.rstrip()}, {peak / 1e6:,.0f} MB")
    if done.returncode != 0:
        print(done.stderr, end="", file=sys.stderr)
    sys.exit(done.returncode)


if __name__ == "__main__":
    main()
