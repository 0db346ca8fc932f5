#!/usr/bin/env python3
"""Checks and replays each module of `examples/library`, and prints what that costs.

    python3 tools/library.py --ctt PROGRAM [--turns] [--limit SECONDS] [MODULE ..]

A module passes where `check` says yes with as many definitions as it and its imports have, and
`replay --of` says yes of the derivation with two roots for each of its judgements. Where its heading
says what `ctt normal` prints, that is compared. Times are the processor's. With `--turns` the least
power of two is found that suffices as the budget of each question. Everything is written in a
temporary folder. The last line counts modules, and the status is 0 only where none failed.
"""
import argparse
import os
import pathlib
import re
import shutil
import subprocess
import sys
import tempfile

LIBRARY = pathlib.Path(__file__).resolve().parent.parent / "examples" / "library"
DEFINITION = re.compile(r"^(?!module |import )[^\W\d][\w']*(?= [(:])", re.M)
NORMAL = re.compile(r"`ctt normal (\w+) (\w+)`\s+prints\s+`([^`]*)`")
MOST_TURNS = 1 << 29


class Failed(Exception):
    """What a module did in place of what it must."""


def text_of(module):
    """The text of a module, comments included."""
    return (LIBRARY / f"{module}.ctt").read_text()


def bare(text):
    """A text without its comments."""
    return re.sub(r"\{-.*?-\}|--[^\n]*", "", text, flags=re.S)


def reached(module, seen):
    """Adds to those that were seen the modules that a module's imports reach, and itself behind them."""
    if module not in seen:
        for other in re.findall(r"^import (\w+)", bare(text_of(module)), re.M):
            reached(other, seen)
        seen.append(module)
    return seen


def definitions(module):
    """The number of definitions at the top level of a module and of those that its imports reach."""
    return sum(len(DEFINITION.findall(bare(text_of(each)))) for each in reached(module, []))


class Program:
    """The program, in a folder that holds the modules."""

    def __init__(self, path, folder, limit):
        self.path, self.at, self.limit = str(pathlib.Path(path).resolve()), folder, limit

    def run(self, *words):
        """What a run prints, its status, and its milliseconds of the processor."""
        before = os.times()
        try:
            ran = subprocess.run([self.path, *words], cwd=self.at, timeout=self.limit, text=True,
                                 stdin=subprocess.DEVNULL, stdout=subprocess.PIPE, stderr=subprocess.STDOUT)
        except subprocess.TimeoutExpired:
            raise Failed(f"{' '.join(words)}: no answer within {self.limit} seconds") from None
        after = os.times()
        used = sum(after[2:4]) - sum(before[2:4])
        return ran.stdout, ran.returncode, round(used * 1000)

    def yes(self, wanted, *words):
        """The groups of a run's line, which must be as wanted, and its milliseconds."""
        text, status, used = self.run(*words)
        found = re.fullmatch(wanted + "\n", text)
        if status or not found:
            raise Failed(f"{' '.join(words)}: {text.strip()!r}, status {status}")
        return found.groups(), used


def least_turns(program, module):
    """The least power of two that suffices as the budget of each question of a check."""
    turns = 1
    while turns <= MOST_TURNS:
        text, status, _ = program.run("check", module, "--turns", str(turns))
        if status == 0:
            return turns
        if not text.startswith("spent: "):
            raise Failed(f"check {module} --turns {turns}: {text.strip()!r}, status {status}")
        turns *= 2
    raise Failed(f"check {module}: spent at {MOST_TURNS}")


def line_of(program, module, turns):
    """The line of a module that passes."""
    count = definitions(module)
    _, check = program.yes(f"yes: {count} definitions", "check", module)
    drv = program.at / f"{module}.drv"
    (rows, roots), replay = program.yes(r"yes: (\d+) rows, (\d+) roots", "replay", drv.name, "--of", module)
    if int(roots) < 2 * count:
        raise Failed(f"replay {drv.name}: {roots} roots for {count} definitions")
    for of, name, value in NORMAL.findall(text_of(module)):
        program.yes(re.escape(value), "normal", of, name)
    least = f"{least_turns(program, module):>12,}" if turns else ""
    return f"{module:14}{count:>12}{check:>12,}{int(rows):>12,}{drv.stat().st_size:>12,}{replay:>12,}{least}"


def main():
    words = argparse.ArgumentParser(description=__doc__.splitlines()[0])
    words.add_argument("--ctt", required=True, metavar="PROGRAM", help="the program's path")
    words.add_argument("--turns", action="store_true", help="find the least budget, to a power of two")
    words.add_argument("--limit", type=float, default=600, metavar="SECONDS", help="for each run of the program")
    words.add_argument("modules", nargs="*", metavar="MODULE", help="those of the library where none is named")
    asked = words.parse_args()
    modules = asked.modules or sorted(path.stem for path in LIBRARY.glob("*.ctt"))
    heads = ["definitions", "check ms", "rows", "bytes", "replay ms"] + ["turns"] * asked.turns
    print(f"{'module':14}" + "".join(f"{head:>12}" for head in heads))
    failed = 0
    with tempfile.TemporaryDirectory() as folder:
        for path in LIBRARY.glob("*.ctt"):
            shutil.copy(path, folder)
        program = Program(asked.ctt, pathlib.Path(folder), asked.limit)
        for module in modules:
            try:
                line = line_of(program, module, asked.turns)
            except Failed as wrong:
                failed += 1
                line = f"{module:14}{wrong}"
            print(line, flush=True)
    print(f"{len(modules) - failed} passed, {failed} failed")
    sys.exit(failed > 0)


if __name__ == "__main__":
    main()
