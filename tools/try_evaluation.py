#!/usr/bin/env python3
"""Tries the evaluation of terms on the program `evaluating`.

    tools/try_evaluation.py PROGRAM [NAME ..]

For each derivation of `univalence.py`, or for those named, the program reads its file, normalises
what its roots type and has the judge replay the answers. Those whose normal form is known are
compared with it. The last line counts all.
"""
import pathlib
import subprocess
import sys

TOOLS = pathlib.Path(__file__).resolve().parent
NAMES = ("pairs functions paths swap identity ends out universe path_line neutral_line side glued "
         "again composed module_out backwards ua_functions ua_pairs module_composed").split()
NORMAL = {"out": "((suc zero),zero)", "module_out": "((suc zero),zero)"}


def answered(program, name):
    """The lines of the program on the derivation of that name."""
    script = [sys.executable, TOOLS / "univalence.py", name]
    file = subprocess.run(script, stdout=subprocess.PIPE, check=True).stdout
    return subprocess.run([program], input=file, stdout=subprocess.PIPE).stdout.decode()


def is_right(name, said):
    """Whether each root has a normal form, and the one that is known."""
    lines = said.splitlines()
    faults = ("row ", "Misfit", "Unfit", "Memory")
    if not lines or any(line.startswith(faults[0]) or line.split(": ", 1)[-1].startswith(faults[1:])
                        for line in lines):
        return False
    return name not in NORMAL or lines[-1] == f"root {len(lines) - 1}: {NORMAL[name]}"


def main(program, names):
    failed = 0
    for name in names or NAMES:
        said = answered(program, name)
        if not is_right(name, said):
            failed += 1
            print(f"{name}:\n{said}", end="")
    count = len(names or NAMES)
    print(f"{count - failed} passed, {failed} failed")
    sys.exit(failed > 0)


if __name__ == "__main__":
    if len(sys.argv) < 2:
        sys.exit(__doc__.strip())
    main(sys.argv[1], sys.argv[2:])
