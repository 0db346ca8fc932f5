#!/usr/bin/env python3
"""Times `ctt check` and `ctt replay --of` on modules of N direct definitions.

usage: python3 bench/checks.py PROGRAM [SHAPE ..] [N ..]

`before`: each definition is the successor of the one before. `first`: each is that of the first
one. `lambdas`: each is a function of thirty numbers, written as a lambda in a lambda. `teles`: each
has a tele of thirty names. A line tells the milliseconds of `check`, each the best of three runs,
the definitions a second, the bytes of the derivation a definition, the peak of memory, and the
milliseconds of `replay --of`.
"""

import os
import pathlib
import sys
import tempfile

from runs import measured, timed

RUNS = 3
DEEP = 30
VARIABLES = [f"x{at}" for at in range(DEEP)]


def before(at):
    return f"d{at} : nat = {f'suc d{at - 1}' if at else 'zero'}"


def first(at):
    return f"d{at} : nat = {'suc d0' if at else 'zero'}"


def lambdas(at):
    names = "".join(f"\\({name} : nat) -> " for name in VARIABLES)
    return f"d{at} : {'nat -> ' * DEEP}nat = {names}suc x{at % DEEP}"


def teles(at):
    return f"d{at} ({' '.join(VARIABLES)} : nat) : nat = suc x{at % DEEP}"


SHAPES = {"before": before, "first": first, "lambdas": lambdas, "teles": teles}


def best(command, folder):
    """The answer of a command, and the least seconds of its runs."""
    runs = [timed(command, folder) for _ in range(RUNS)]
    return runs[0][0], min(seconds for _, seconds in runs)


def measure(program, folder, shape, count):
    lines = ["module Bench where", *(SHAPES[shape](at) for at in range(count))]
    pathlib.Path(folder, "Bench.ctt").write_text("".join(line + "\n" for line in lines))
    command = [program, "check", "Bench"]
    answer, seconds = best(command, folder)
    if answer != f"yes: {count} definitions\n":
        sys.exit(f"{shape} {count}: {answer}")
    _, peak = measured(command, folder)
    size = pathlib.Path(folder, "Bench.drv").stat().st_size
    judged, replayed = best([program, "replay", "Bench.drv", "--of", "Bench"], folder)
    if not judged.startswith("yes"):
        sys.exit(f"{shape} {count}: replay: {judged}")
    print(f"{shape} {count}: check {seconds * 1000:.1f} ms, "
          f"{count / seconds:.0f} definitions a second, {size / count:.0f} bytes a definition, "
          f"{peak / 1e6:.0f} MB; replay {replayed * 1000:.1f} ms")


def main():
    if len(sys.argv) < 2:
        sys.exit(__doc__.strip())
    words = sys.argv[2:]
    shapes = [word for word in words if word in SHAPES] or list(SHAPES)
    counts = [int(word) for word in words if word.isdigit()] or [100, 1000, 10000]
    program = os.path.abspath(sys.argv[1])
    with tempfile.TemporaryDirectory() as folder:
        for shape in shapes:
            for count in counts:
                measure(program, folder, shape, count)


if __name__ == "__main__":
    main()
