#!/usr/bin/env python3
"""Runs the tables of `tests`, the cases of `try_program.py` and, on what the gate has built, the
sessions of prompts and the library of examples, and ends with one line that counts them all.

    tools/run_cases.py             on builds without proofs, by `rt try`: some minutes
    tools/run_cases.py --after     on the programs that the gate has built, as `.ci/run` does, which
                                   hands on what the gate says; its last line is counted too

It looks besides whether the edits of tools/edits still apply. The status is 0 only where nothing
failed.
"""
import concurrent.futures
import pathlib
import re
import subprocess
import sys

import prompt_session
import try_edits
import try_program
import try_tables

LIBRARY = pathlib.Path(__file__).resolve().parent / "library.py"
ENDED = re.compile(r"rt ci ended with (\d+)\n")


def gate(lines):
    """The status of the gate and what its last line counts, once its lines are shown."""
    last = ""
    for line in lines:
        ended = ENDED.fullmatch(line)
        if ended:
            return int(ended[1]), try_tables.last_count(last)
        print(line, end="", flush=True)
        last = line
    return 1, (0, 1)


def library():
    """The counts of the modules of `examples/library`, checked and replayed."""
    words = [sys.executable, str(LIBRARY), "--ctt", str(try_program.PROGRAM)]
    said = subprocess.run(words, capture_output=True, text=True).stdout
    print(said, end="", flush=True)
    return try_tables.last_count(said.rstrip("\n").rpartition("\n")[2])


def proved():
    """The status of the gate, and its counts and, where it passes, those of what it has built."""
    status, count = gate(sys.stdin)
    if status:
        return status, [count]
    tables = map(try_tables.proved, try_tables.TABLES)
    sessions = [try_program.prompts(), prompt_session.sessions(try_program.PROGRAM)]
    return 0, [count, *tables, try_program.proved(), *sessions, library()]


def unproved():
    """The counts on builds without proofs, two of which are made at a time."""
    with concurrent.futures.ThreadPoolExecutor(2) as pool:
        program = pool.submit(try_program.unproved)
        tables = list(pool.map(try_tables.unproved, try_tables.TABLES))
        return [*tables, program.result()]


def main(words):
    if words not in ([], ["--after"]):
        sys.exit(__doc__.strip())
    status, counts = proved() if words else (0, unproved())
    lost = try_edits.lost()
    print("".join(f"{line}\n" for line in lost), end="")
    passed, failed = sum(count[0] for count in counts), sum(count[1] for count in counts)
    failed = max(failed + len(lost), status > 0)
    print(f"{passed} passed, {failed} failed")
    sys.exit(status or failed > 0)


if __name__ == "__main__":
    main(sys.argv[1:])
