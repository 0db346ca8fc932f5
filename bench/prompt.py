#!/usr/bin/env python3
"""Times `ctt prompt` on a module of N direct definitions, each the successor of the one before.

usage: python3 bench/prompt.py PROGRAM [N ..]

Each N is 1,000 where none is named. A line tells the milliseconds from start to the first answer,
the best of three runs; the milliseconds of an answer where each is read before the next line is
written, the middle one and the longest of 1,000; the lines a second where all are given at once;
and the peak of memory.
"""

import os
import pathlib
import statistics
import subprocess
import sys
import tempfile
import time

from checks import before
from runs import measured

RUNS = 3
LINES = 1000
DEEP = 20  # of the definitions that are asked for: their answers have so many successors


def asked(at):
    """A line, an expression of some forms over one of the first definitions, and its answer."""
    deep = at % DEEP
    return f"(\\(x : nat) -> suc x) d{deep}", "(suc " * (deep + 1) + "zero" + ")" * (deep + 1)


class Prompt:
    """A prompt that runs, of which each answer is read before the next line is written."""

    def __init__(self, program, folder):
        self.started = subprocess.Popen([program, "prompt", "Bench"], cwd=folder, text=True,
                                        stdin=subprocess.PIPE, stdout=subprocess.PIPE)

    def ask(self, at):
        """The seconds of the answer to a line."""
        line, answer = asked(at)
        start = time.perf_counter()
        self.started.stdin.write(line + "\n")
        self.started.stdin.flush()
        found = self.started.stdout.readline()
        seconds = time.perf_counter() - start
        if found != answer + "\n":
            sys.exit(f"{line}: {found!r}")
        return seconds

    def close(self):
        self.started.communicate(":q\n")


def first(program, folder):
    """The seconds from start to the first answer."""
    start = time.perf_counter()
    prompt = Prompt(program, folder)
    prompt.ask(0)
    seconds = time.perf_counter() - start
    prompt.close()
    return seconds


def each(program, folder):
    """The seconds of each answer, but the first."""
    prompt = Prompt(program, folder)
    prompt.ask(0)
    seconds = [prompt.ask(at) for at in range(LINES)]
    prompt.close()
    return seconds


def at_once(program, folder):
    """The seconds of all lines, which are given at once, and the peak of memory in bytes."""
    lines = pathlib.Path(folder, "lines")
    lines.write_text("".join(asked(at)[0] + "\n" for at in range(LINES)))
    command = ["sh", "-c", f"exec '{program}' prompt Bench < lines"]
    start = time.perf_counter()
    found, peak = measured(command, folder)
    seconds = time.perf_counter() - start
    if found != "".join(asked(at)[1] + "\n" for at in range(LINES)):
        sys.exit(f"all at once: {found[:200]!r}")
    return seconds, peak


def measure(program, folder, count):
    lines = ["module Bench where", *(before(at) for at in range(count))]
    pathlib.Path(folder, "Bench.ctt").write_text("".join(line + "\n" for line in lines))
    start = min(first(program, folder) for _ in range(RUNS))
    answers = each(program, folder)
    seconds, peak = at_once(program, folder)
    print(f"{count}: first answer {start * 1000:.1f} ms; an answer "
          f"{statistics.median(answers) * 1000:.2f} ms, at most {max(answers) * 1000:.2f} ms; "
          f"{LINES / max(seconds - start, 1e-9):.0f} lines a second; {peak / 1e6:.0f} MB")


def main():
    if len(sys.argv) < 2:
        sys.exit(__doc__.strip())
    program = os.path.abspath(sys.argv[1])
    for count in [int(word) for word in sys.argv[2:]] or [1000]:
        if count < DEEP:
            sys.exit(f"at least {DEEP} definitions")
        with tempfile.TemporaryDirectory() as folder:
            measure(program, folder, count)


if __name__ == "__main__":
    main()
