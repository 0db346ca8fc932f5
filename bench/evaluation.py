#!/usr/bin/env python3
"""Measures `ctt check`, `ctt normal` and `ctt replay` on modules that have to be evaluated.

usage: python3 bench/evaluation.py PROGRAM [--limit S] [--runs N] [--moves] [FAMILY ..]

Each family is one shape of text at several sizes, its numerals made by doubling. A line tells the
seconds of the processor (user and system, the least of N runs, 5 where no other number is given,
and of one where that takes more than 3 seconds) and the megabytes at the peak of the question, the
rows and bytes of its derivation, the seconds of `replay` of it, and the least power of two of turns
that suffices. An answer of no is a line as well: its derivation is that of the refusal.

After a family's lines stand the exponents by which its seconds, rows and bytes grow between the
sizes: 1 is linear, 2 quadratic. In families whose sizes count doublings they stand for what one
more step multiplies by. Runs of under 20 milliseconds are left out there. A question that takes
more than S seconds of the processor (20) is stopped, and the larger ones of its family are not
asked. With `--moves`, after each line of `normal` the moves: the exact least turns, the turns a
second and the rows a turn, the check of the module taken off both.
"""

import argparse
import itertools
import math
import os
import pathlib
import re
import resource
import subprocess
import sys
import tempfile

ROOT = pathlib.Path(__file__).resolve().parent.parent
LIBRARY = ROOT / "examples" / "library"
UNIVALENCE = ROOT / "examples" / "evaluation" / "Univalence.ctt"
MOST_TURNS = 1_000_000_000
LONG_RUN = 3
SHORT_RUN = 0.02

PATH = ["Path (A : U) (a b : A) : U = PathP (<_> A) a b"]
COMPOSED = PATH + [
    "compPath (A : U) (a b c : A) (p : Path A a b) (q : Path A b c) : Path A a c =",
    "  <i> comp (<_> A) (p @ i) [ (i=0) -> <_> a, (i=1) -> q ]"]
PLUS = [
    "plus (m n : nat) : nat = natrec (\\(_ : nat) -> nat) m (\\(_ r : nat) -> suc r) n",
    "double (n : nat) : nat = plus n n"]


def numerals(*wanted):
    """Definitions of those numerals and of what they are made of: `n7` is twice `n3` and one."""
    needed = set()
    for number in wanted:
        while number not in needed:
            needed.add(number)
            number //= 2
    lines = []
    for number in sorted(needed):
        twice = f"double n{number // 2}" if number > 1 else "n0"
        body = f"suc ({twice})" if number % 2 else twice if number else "zero"
        lines.append(f"n{number} : nat = {body}")
    return PLUS + lines


def sums(size):
    return numerals(size) + [f"asked : nat = plus n{size} n{size}"]


def numeral(size):
    return numerals(size) + [f"asked : nat = n{size}"]


def spine(size):
    """A function of so many arguments, ten of them a definition, and its eta expansion."""
    lines = ["A0 : U = nat", "e0 (f : A0) : A0 = f"]
    names = " ".join(f"x{at}" for at in range(10))
    for step in range(1, size // 10 + 1):
        lines.append(f"A{step} : U = {'nat -> ' * 10}A{step - 1}")
        body = f"\\({names} : nat) -> e{step - 1} (f {names})"
        lines.append(f"e{step} (f : A{step}) : A{step} = {body}")
    return lines + [f"asked : A{size // 10} -> A{size // 10} = e{size // 10}"]


def recursion(size):
    return numerals(size) + [f"asked : nat -> nat = \\(x : nat) -> plus x n{size}"]


def cube(size):
    """A composition whose face is that of a cube: each of its names is 0 or 1."""
    names = size // 2
    lines = ["P0 (A : U) (x : A) : U = A", "c0 (A : U) (x : A) : P0 A x = x"]
    for at in range(1, names + 1):
        before = f"c{at - 1} A x"
        lines.append(f"P{at} (A : U) (x : A) : U = PathP (<_> P{at - 1} A x) ({before}) ({before})")
        lines.append(f"c{at} (A : U) (x : A) : P{at} A x = <_> {before}")
    sides = ", ".join(f"(k{at}={end}) -> <_> x" for at in range(names) for end in (0, 1))
    bound = " ".join(f"k{at}" for at in range(names))
    return lines + [f"asked (A : U) (x : A) : P{names} A x = <{bound}> comp (<_> A) x [ {sides} ]"]


def corners(size):
    """A composition of numbers on a face of so many conjunctions of two equations of five names."""
    lines = ["P0 : U = nat", "c0 : P0 = zero"]
    for at in range(1, 6):
        lines.append(f"P{at} : U = PathP (<_> P{at - 1}) c{at - 1} c{at - 1}")
        lines.append(f"c{at} : P{at} = <_> c{at - 1}")
    pairs = itertools.product(itertools.combinations(range(5), 2), (0, 1), (0, 1))
    sides = [f"(k{one}={left})(k{two}={right}) -> <_> zero" for (one, two), left, right in pairs]
    system = ", ".join(sides[:size])
    return lines + [f"asked : P5 = <k0 k1 k2 k3 k4> comp (<_> nat) zero [ {system} ]"]


def univalence():
    """The definitions of the example, but for the last."""
    lines = UNIVALENCE.read_text().splitlines()
    ends = next(at for at, line in enumerate(lines) if line.startswith("swapped "))
    return [line for line in lines[1:ends] if line and not line.startswith("--")]


def transports(size):
    return univalence() + numerals(size) + [
        "times (n : nat) : P = natrec (\\(_ : nat) -> P) (zero, suc zero)",
        "  (\\(_ : nat) (r : P) -> transport (ua P P swap_equiv) r) n",
        f"asked : P = times n{size}"]


def doubled(size, more):
    """Two chains of loops, each composed with itself so many times: the last are compared."""
    lines, loop = list(COMPOSED), "(A : U) (a : A) (p : Path A a a) : Path A a a"
    for name in "de":
        lines.append(f"{name}0 {loop} = p")
        for at in range(1, size + 1):
            last = f"({name}{at - 1} A a p)"
            lines.append(f"{name}{at} {loop} = compPath A a a a {last} {last}")
    right = f"e{size} A a p"
    if more:
        right = f"compPath A a a a ({right}) (<_> a)"
    goal = f"Path (Path A a a) (d{size} A a p) ({right})"
    return lines + [f"asked (A : U) (a : A) (p : Path A a a) : {goal} = <_> d{size} A a p"]


def itself(size):
    return doubled(size, False)


def one_more(size):
    return doubled(size, True)


def by_eta(size):
    """The same chain against one whose loops are written point by point."""
    lines, loop = list(COMPOSED), "(A : U) (a : A) (p : Path A a a) : Path A a a"
    lines += [f"d0 {loop} = p", f"e0 {loop} = <i> p @ i"]
    for at in range(1, size + 1):
        lines.append(f"d{at} {loop} = compPath A a a a (d{at - 1} A a p) (d{at - 1} A a p)")
        last = f"(<i> e{at - 1} A a p @ i)"
        lines.append(f"e{at} {loop} = compPath A a a a {last} {last}")
    goal = f"Path (Path A a a) (d{size} A a p) (e{size} A a p)"
    return lines + [f"asked (A : U) (a : A) (p : Path A a a) : {goal} = <_> d{size} A a p"]


def rewritten(size):
    """So many loops composed, one after another, against the same with a constant one behind."""
    lines, loop = list(COMPOSED), "(A : U) (a : A) (p : Path A a a) : Path A a a"
    lines.append(f"d0 {loop} = p")
    for at in range(1, size + 1):
        lines.append(f"d{at} {loop} = compPath A a a a (d{at - 1} A a p) p")
    right = f"compPath A a a a (d{size} A a p) (<_> a)"
    goal = f"Path (Path A a a) (d{size} A a p) ({right})"
    return lines + [f"asked (A : U) (a : A) (p : Path A a a) : {goal} = <_> d{size} A a p"]


def copies(size):
    """A sum against a copy of it, whose definition is another."""
    copied = PLUS[0].replace("plus", "copied", 1)
    left, right = f"plus n{size} n{size}", f"copied n{size} n{size}"
    return PATH + numerals(size) + [copied, f"asked : Path nat ({left}) ({right}) = <_> {left}"]


def unlike(size):
    """The two halves of a number, and two other parts of it."""
    return numerals(size, size // 2, size + size // 2), f"plus n{size} n{size}", \
        f"plus n{size // 2} n{size + size // 2}"


def regrouped(size):
    lines, left, right = unlike(size)
    return PATH + lines + [f"asked : Path nat ({left}) ({right}) = <_> {left}"]


def arguments(size):
    lines, left, right = unlike(size)
    goal = f"Path nat (f ({left})) (f ({right}))"
    return PATH + lines + [f"asked (f : nat -> nat) : {goal} = <_> f ({left})"]


def sigmas(size):
    pairs = "(_ : nat) * " * size
    return [f"left : U = {pairs}nat", f"right : U = {pairs}(nat -> nat)",
            "asked (x : left) : right = x"]


def forms(size):
    """So many definitions, each of some twenty forms, fourteen of which tell its number."""
    lines = []
    for at in range(size):
        bits = [("suc" if at >> bit & 1 else "f") + " (" for bit in range(14)]
        lines += [f"d{at} (n : nat) (p : (_ : nat) * nat) (f : nat -> nat) : (_ : nat) * nat =",
                  "  (natrec (\\(_ : nat) -> nat) p.1 (\\(k r : nat) -> suc r) n,",
                  f"   {''.join(bits)}n{')' * len(bits)})"]
    return lines


# Each family: what is asked, its text at a size, and the sizes.
FAMILIES = {
    "sums": ("normal", sums, [10, 100, 1000]),
    "numeral": ("normal", numeral, [100, 1000, 10000]),
    "spine": ("normal", spine, [10, 100, 200, 1000]),
    "recursion": ("normal", recursion, [10, 100, 1000]),
    "cube": ("check", cube, [4, 10, 20]),
    "corners": ("check", corners, [5, 10, 20, 40]),
    "transports": ("normal", transports, [1, 10, 100, 1000]),
    "itself": ("check", itself, [1, 2, 4, 8, 14]),
    "one_more": ("check", one_more, [1, 2, 4, 6, 8, 10, 12, 14]),
    "by_eta": ("check", by_eta, [1, 2, 4, 6, 8, 10, 12, 14]),
    "rewritten": ("check", rewritten, [4, 8, 16, 32]),
    "copies": ("check", copies, [5, 50, 500]),
    "regrouped": ("check", regrouped, [6, 50, 500]),
    "arguments": ("check", arguments, [6, 50, 500]),
    "sigmas": ("check", sigmas, [50, 100, 200, 400]),
    "forms": ("check", forms, [100, 1000, 10000]),
}
DOUBLING = {"one_more", "by_eta"}


class Stopped(Exception):
    """A run that took more than the limit."""


class Program:
    """The program, in a folder of modules, with a limit on the seconds of the processor."""

    def __init__(self, path, folder, limit, runs):
        self.path, self.at, self.limit, self.runs = path, folder, limit, runs
        self.input = b""

    def run(self, *words, limit=None):
        """What a run prints, its status, its seconds of the processor, and its peak in bytes."""
        limit = limit or self.limit

        def limited():
            resource.setrlimit(resource.RLIMIT_CPU, (math.ceil(limit), math.ceil(limit) + 1))

        with tempfile.TemporaryFile() as out, tempfile.NamedTemporaryFile("r") as told, \
                tempfile.TemporaryFile() as given:
            given.write(self.input)
            given.seek(0)
            words = ["/usr/bin/time", "-q", "-o", told.name, "-f", "%M", self.path, *words]
            process = subprocess.Popen(words, cwd=self.at, stdin=given, stdout=out,
                                       preexec_fn=limited)
            _, status, usage = os.wait4(process.pid, 0)
            process.returncode = os.waitstatus_to_exitcode(status)
            seconds = usage.ru_utime + usage.ru_stime
            peak = told.read().split()
            if process.returncode not in range(6) or not peak:
                raise Stopped(f"stopped after {seconds:.0f} s, {peak[-1] if peak else '?'} KB")
            out.seek(0)
            return out.read().decode(), process.returncode, seconds, int(peak[-1]) * 1024

    def best(self, *words):
        """What a command prints, its status, and the least seconds and bytes of some runs."""
        text, status, least, peak = self.run(*words)
        for _ in range(self.runs - 1 if least <= LONG_RUN else 0):
            _, _, seconds, bytes_ = self.run(*words)
            least, peak = min(least, seconds), min(peak, bytes_)
        return text, status, least, peak

    def suffices(self, words, turns):
        text, _, _, _ = self.run(*words, "--turns", str(turns), limit=2 * self.limit)
        return not text.startswith("spent: ")

    def least_power(self, words):
        """The least power of two of turns that suffices."""
        turns = 1
        while not self.suffices(words, turns):
            turns *= 2
        return turns

    def least_turns(self, words, power):
        """The least number of turns that suffices, which the power of two is the first above."""
        low, high = power // 2, power
        while low + 1 < high:
            middle = (low + high) // 2
            low, high = (low, middle) if self.suffices(words, middle) else (middle, high)
        return high


def rows_of(path):
    return path.read_bytes().count(b"\n")


class Line:
    """A question of a module, and what it cost."""

    def __init__(self, program, words):
        budget = ["--turns", str(MOST_TURNS)]
        text, status, self.seconds, self.peak = program.best(*words, *budget)
        if status not in (0, 1):
            sys.exit(f"{' '.join(words)}: {text.strip()}, status {status}")
        self.answer = "yes" if status == 0 else text.split()[1]
        name = ".".join(words[1:] if status == 0 else [words[1], "no"])
        self.file = program.at / f"{name}.drv"
        self.rows, self.bytes = rows_of(self.file), self.file.stat().st_size
        _, judged, self.replay, _ = program.best("replay", self.file.name)
        if judged:
            sys.exit(f"replay {self.file.name}: status {judged}")
        self.turns = program.least_power(words)

    def told(self, name):
        return (f"{name:22}{self.answer:>10}{self.seconds:>9.3f}{self.peak / 1e6:>8.0f}"
                f"{self.rows:>11,}{self.bytes:>13,}{self.replay:>9.3f}{self.turns:>12,}")


HEAD = (f"{'question':22}{'answer':>10}{'seconds':>9}{'MB':>8}{'rows':>11}{'bytes':>13}"
        f"{'replay':>9}{'turns':>12}")


def ask(program, name, words):
    """The line of a question, printed; none where it was stopped."""
    try:
        line = Line(program, words)
    except Stopped as stopped:
        print(f"{name:22}  {stopped}", flush=True)
        return None
    print(line.told(name), flush=True)
    return line


def growth(family, lines):
    """How a family's figures grow from size to size."""
    told = []
    for (small, one), (large, two) in itertools.pairwise(lines):
        step = large / small if family not in DOUBLING else None
        rates = {"seconds": (one.seconds, two.seconds), "replay": (one.replay, two.replay),
                 "rows": (one.rows, two.rows), "bytes": (one.bytes, two.bytes),
                 "MB": (one.peak, two.peak)}
        parts = []
        for what, (before, after) in rates.items():
            if what in ("seconds", "replay") and before < SHORT_RUN:
                continue
            ratio = after / before
            rate = math.log(ratio) / math.log(step) if step else ratio ** (1 / (large - small))
            parts.append(f"{what} {'^' if step else 'x'}{rate:.2f}")
        told.append(f"  {small} to {large}: {', '.join(parts)}")
    return told


def moves(program, words, line):
    """The turns of a question of `normal`, a second and a row, without the check of the module."""
    check = Line(program, ["check", words[1]])
    turns = program.least_turns(words, line.turns)
    seconds = line.seconds - check.seconds
    return (f"  {turns:,} turns, {turns / seconds:,.0f} a second, "
            f"{line.rows / turns:.2f} rows a turn; "
            f"the check {check.seconds:.3f} s, at most {check.turns:,} turns")


def measure(program, family, with_moves):
    job, text, sizes = FAMILIES[family]
    lines = []
    for size in sizes:
        module = f"{family.capitalize().replace('_', '')}{size}"
        body = "".join(line + "\n" for line in [f"module {module} where", *text(size)])
        (program.at / f"{module}.ctt").write_text(body)
        words = [job, module] + (["asked"] if job == "normal" else [])
        line = ask(program, f"{family} {size}", words)
        if line is None:
            break
        lines.append((size, line))
        if with_moves and job == "normal":
            print(moves(program, words, line), flush=True)
    for told in growth(family, lines):
        print(told, flush=True)


def measure_library(program):
    """The modules of the library, each with what it imports."""
    for path in sorted(LIBRARY.glob("*.ctt")):
        (program.at / path.name).write_text(path.read_text())
    for path in sorted(LIBRARY.glob("*.ctt")):
        ask(program, path.stem, ["check", path.stem])


def measure_example(program):
    """The example of univalence: its check, and what it says that is computed."""
    text = UNIVALENCE.read_text().replace("module Univalence", "module Example")
    (program.at / "Example.ctt").write_text(text)
    ask(program, "Univalence (example)", ["check", "Example"])
    ask(program, "  normal swapped", ["normal", "Example", "swapped"])


def main():
    words = argparse.ArgumentParser(description=re.split(r"\n\n", __doc__)[0])
    words.add_argument("program", metavar="PROGRAM")
    words.add_argument("--limit", type=float, default=20, metavar="S",
                       help="seconds of the processor a run")
    words.add_argument("--runs", type=int, default=5, metavar="N")
    words.add_argument("--moves", action="store_true")
    words.add_argument("families", nargs="*", metavar="FAMILY",
                       help=f"of example, library, {', '.join(FAMILIES)}; else all")
    asked = words.parse_intermixed_args()
    whole = {"example": measure_example, "library": measure_library}
    print(HEAD)
    for family in asked.families or [*whole, *FAMILIES]:
        with tempfile.TemporaryDirectory() as folder:
            path = os.path.abspath(asked.program)
            program = Program(path, pathlib.Path(folder), asked.limit, asked.runs)
            if family in whole:
                whole[family](program)
            else:
                measure(program, family, asked.moves)


if __name__ == "__main__":
    main()
