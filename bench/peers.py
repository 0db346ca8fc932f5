#!/usr/bin/env python3
"""Times Agda and coqc on the shapes of definitions that `checks.py` times `ctt check` on.

usage: python3 bench/peers.py [SHAPE ..] [N ..]

A line tells the shape, the number of definitions, and of each peer that is installed the
milliseconds of the best of three runs, less those of a module that has the numbers alone.
"""

import pathlib
import shutil
import subprocess
import sys
import tempfile
import time

from checks import DEEP, RUNS, SHAPES, VARIABLES

AGDA = "module Bench where\ndata N : Set where\n  zero : N\n  suc : N → N\n"
COQ = "Inductive N : Set := zero : N | suc : N -> N.\n"


def body(shape, at):
    """A definition, as the list of names that its lambda binds, and what it gives."""
    if shape == "before":
        return [], f"suc d{at - 1}" if at else "zero"
    if shape == "first":
        return [], "suc d0" if at else "zero"
    return VARIABLES, f"suc x{at % DEEP}"


def agda(shape, at):
    names, gives = body(shape, at)
    type_of = "(" + " ".join(names) + " : N) → N" if shape == "teles" else "N → " * len(names) + "N"
    if shape == "teles":
        return f"d{at} : {type_of}\nd{at} {' '.join(names)} = {gives}\n"
    lambdas = "".join(f"λ ({name} : N) → " for name in names)
    return f"d{at} : {type_of}\nd{at} = {lambdas}{gives}\n"


def coq(shape, at):
    names, gives = body(shape, at)
    if shape == "teles":
        return f"Definition d{at} ({' '.join(names)} : N) : N := {gives}.\n"
    lambdas = "".join(f"fun ({name} : N) => " for name in names)
    return f"Definition d{at} : {'N -> ' * len(names)}N := {lambdas}{gives}.\n"


PEERS = {
    "agda": (AGDA, agda, "Bench.agda",
             ["agda", "--no-libraries", "--ignore-interfaces", "Bench.agda"]),
    "coqc": (COQ, coq, "Bench.v", ["coqc", "-q", "Bench.v"]),
}


def seconds(folder, peer, text):
    _, _, name, words = PEERS[peer]
    pathlib.Path(folder, name).write_text(text)
    best = float("inf")
    for _ in range(RUNS):
        start = time.perf_counter()
        subprocess.run(words, cwd=folder, check=True, capture_output=True)
        best = min(best, time.perf_counter() - start)
    return best


def main():
    words = sys.argv[1:]
    shapes = [word for word in words if word in SHAPES] or list(SHAPES)
    counts = [int(word) for word in words if word.isdigit()] or [100, 1000]
    peers = [peer for peer in PEERS if shutil.which(PEERS[peer][3][0])]
    with tempfile.TemporaryDirectory() as folder:
        starts = {peer: seconds(folder, peer, PEERS[peer][0]) for peer in peers}
        print(", ".join(f"{peer} starts in {starts[peer] * 1000:.0f} ms" for peer in peers))
        for shape in shapes:
            for count in counts:
                told = []
                for peer in peers:
                    head, written, _, _ = PEERS[peer]
                    text = head + "".join(written(shape, at) for at in range(count))
                    taken = seconds(folder, peer, text) - starts[peer]
                    told.append(f"{peer} {taken * 1000:.0f} ms")
                print(f"{shape} {count}: {', '.join(told)}")


if __name__ == "__main__":
    main()
