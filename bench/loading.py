#!/usr/bin/env python3
"""Times `ctt check`, and `replay --of` of what it stores, on modules that import one another.

usage: python3 bench/loading.py PROGRAM [SHAPE ..] [N ..]

Each of N modules (at most 250) defines the successor of what an imported one defines. `chain`: each
imports the one before. `star`: the last imports all others. `all`: each imports all before it. A
line tells the milliseconds of both, each the best of three runs, and the peak of memory of `check`.
"""

import os
import pathlib
import sys
import tempfile

from checks import best
from runs import measured


def chain(at, count):
    return [at - 1] if at else []


def star(at, count):
    return list(range(at)) if at == count - 1 else []


def every(at, count):
    return list(range(at))


SHAPES = {"chain": chain, "star": star, "all": every}


def write(folder, shape, count):
    """Writes the modules, the last of which is the one to check."""
    for at in range(count):
        imports = SHAPES[shape](at, count)
        body = f"suc d{imports[-1]}" if imports else "zero"
        lines = [f"module M{at} where", *(f"import M{other}" for other in imports),
                 f"d{at} : nat = {body}"]
        pathlib.Path(folder, f"M{at}.ctt").write_text("".join(line + "\n" for line in lines))


def measure(program, folder, shape, count):
    write(folder, shape, count)
    last = f"M{count - 1}"
    command = [program, "check", last]
    answer, seconds = best(command, folder)
    if answer != f"yes: {count} definitions\n":
        sys.exit(f"{shape} {count}: {answer}")
    _, peak = measured(command, folder)
    judged, replayed = best([program, "replay", f"{last}.drv", "--of", last], folder)
    if not judged.startswith("yes"):
        sys.exit(f"{shape} {count}: replay: {judged}")
    print(f"{shape} {count}: check {seconds * 1000:.1f} ms, {peak / 1e6:.0f} MB; "
          f"replay {replayed * 1000:.1f} ms")


def main():
    if len(sys.argv) < 2:
        sys.exit(__doc__.strip())
    words = sys.argv[2:]
    shapes = [word for word in words if word in SHAPES] or list(SHAPES)
    counts = [int(word) for word in words if word.isdigit()] or [50, 125, 250]
    program = os.path.abspath(sys.argv[1])
    with tempfile.TemporaryDirectory() as folder:
        for shape in shapes:
            for count in counts:
                measure(program, folder, shape, count)


if __name__ == "__main__":
    main()
