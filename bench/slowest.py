#!/usr/bin/env python3
"""Lists what takes longest in the proof of a crate: the parts of it that a check writes, by the
time since the part before.

Run it after a check from nothing, as `rm -rf out/incremental; rt check --jobs 1` (or
`rt check --test --jobs 1`) in the crate's folder. `Lts` is the borrow checker's part of a function,
which grows with the values that are dropped on its early returns; `Answers` holds the answers to
its goals; in a cycle of calls, `Tie` puts the functions together. The first part counts from the
one before it, so the start of the check is left out.

    python3 bench/slowest.py CRATE [N]
"""

import collections
import pathlib
import re
import sys

CRATES = pathlib.Path(__file__).resolve().parent.parent / "crates"


def part_of(path, crate):
    """The part of a crate's proof that a file belongs to, as `proofs.places.Under.bind.Proof`."""
    name = re.sub(r"(\.decls)?\.oantt$", "", path.name)
    return name.removeprefix(f"Rattle-{crate}-")


def seconds_of(folder, crate):
    """The seconds of each part, all that was written for it taken together."""
    written = sorted((file.stat().st_mtime, file) for file in folder.rglob("*.oantt"))
    found = collections.Counter()
    for (before, _), (at, file) in zip(written, written[1:]):
        found[part_of(file, crate)] += at - before
    return found


def main():
    if len(sys.argv) not in (2, 3):
        sys.exit(__doc__)
    crate, count = sys.argv[1], int(sys.argv[2]) if len(sys.argv) == 3 else 10
    found = seconds_of(CRATES / crate / "out" / "incremental", crate)
    for part, seconds in found.most_common(count):
        print(f"{seconds:8.1f}  {part}")
    print(f"{sum(found.values()):8.1f}  in all, {len(found)} parts")


if __name__ == "__main__":
    main()
