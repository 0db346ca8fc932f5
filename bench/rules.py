#!/usr/bin/env python3
"""Times `ctt replay` on nodes of each family of rules, at parts that depend on variables.

usage: python3 bench/rules.py PROGRAM [N] [RULE ..]

A line tells a family's rows a second, and those of its slowest rule alone; with the names of rules,
those of each of these alone.
"""

import os
import pathlib
import sys
import tempfile

sys.path.insert(0, str(pathlib.Path(__file__).resolve().parent.parent / "tools"))
import rule_cases
from sides import seconds


def time_rules(program, path, count, names):
    """Tells how fast nodes of each of these rules alone are judged."""
    for file in rule_cases.files():
        uses, empty = file.uses(), seconds(program, path, file.rows)
        rules = (rule.name for family in file.families for rule in family.rules)
        for name in (name for name in rules if name in names):
            spent = seconds(program, path, file.rows + [" ".join(uses[name])] * count) - empty
            print(f"{name:<12} {count / spent:>10.0f}")


def main():
    if len(sys.argv) < 2:
        sys.exit(__doc__.strip())
    program = os.path.abspath(sys.argv[1])
    count = next((int(word) for word in sys.argv[2:] if word.isdigit()), 200_000)
    names = [word for word in sys.argv[2:] if not word.isdigit()]
    with tempfile.TemporaryDirectory() as folder:
        path = pathlib.Path(folder, "rules.drv")
        if names:
            time_rules(program, path, count, names)
            return
        print(f"{'family':>10} {'rows/s':>10}  {'slowest rule':<12} {'rows/s':>10}")
        for file in rule_cases.files():
            uses, empty = file.uses(), seconds(program, path, file.rows)
            for family in file.families:
                lines = {rule.name: " ".join(uses[rule.name]) for rule in family.rules}
                speed = {name: count / (seconds(program, path, file.rows + [line] * count) - empty)
                         for name, line in lines.items()}
                mixed = list(lines.values()) * (count // len(lines))
                mean = len(mixed) / (seconds(program, path, file.rows + mixed) - empty)
                worst = min(speed, key=speed.get)
                print(f"{family.variant:>10} {mean:>10.0f}  {worst:<12} {speed[worst]:>10.0f}")


if __name__ == "__main__":
    main()
