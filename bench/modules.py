#!/usr/bin/env python3
"""Times `ctt replay FILE --of MODULE` on modules of N definitions, each of which uses the one
before.

usage: python3 bench/modules.py PROGRAM [SHAPE ..] [N ..]

Each FILE is right, and its roots are the judgements of the module. `suc`: each definition is the
successor of the one before. `arrow`: the type of functions from the one before to itself, which is
so used where it stands and under a variable. `binary`: the type of its functions of two arguments,
so that it is used under one variable and under two.
"""

import os
import sys
import tempfile

from replay import File
from runs import measured, timed

RUNS = 3


class Definitions(File):
    """The rows that derive definitions, one after another, and the lines of their module."""

    def __init__(self):
        super().__init__()
        self.lines = ["module Bench where"]
        self.nil, self.is_nil = self.contexts[0]

    def define(self, ty, body, is_type, is_body):
        self.lines.append(f"d{len(self.lines) - 1} : {ty} = {body}")
        self.row(f"r {is_type}")
        self.row(f"r {is_body}")

    def texts(self):
        return "".join(row + "\n" for row in self.rows), "".join(line + "\n" for line in self.lines)


class SmallTypes(Definitions):
    """Definitions of small types, by those before them."""

    def __init__(self):
        super().__init__()
        self.universe = self.row("t U")
        self.is_universe = self.row(f"n ty.univ {self.nil} {self.is_nil}")
        self.shifts = [self.row(f"s shift {by}") for by in range(3)]
        self.identity = self.row(f"n sub.id {self.nil} {self.is_nil}")

    def define_type(self, body, is_body):
        self.define("U", body, self.is_universe, is_body)

    def under(self, context, by, is_sub, tree, is_tree):
        """The context with a variable of a type, and the node of the shift from there."""
        is_type = self.row(f"n ty.u {context} {tree} {is_tree}")
        longer = self.row(f"c var {context} {tree}")
        words = f"{context} {self.shifts[by]} {self.nil} {tree} {is_sub} {is_type}"
        return longer, self.row(f"n sub.wk {words}")

    def weakened(self, context, by, is_sub, tree, is_tree):
        """A small type under a shift, and its node."""
        words = f"{context} {self.shifts[by]} {self.nil} {tree} {self.universe} {is_sub} {is_tree}"
        return self.row(f"x {tree} {self.shifts[by]}"), self.row(f"n tm.sub {words}")

    def functions(self, context, domain, is_domain, codomain, is_codomain):
        """A type of functions, and its node."""
        node = self.row(f"n pi.u {context} {domain} {codomain} {is_domain} {is_codomain}")
        return self.row(f"t pi {domain} {codomain}"), node


def successors(count):
    file = Definitions()
    is_type = file.is_type(file.nil, file.is_nil)
    tree, node = file.row("t zero"), file.row(f"n zero {file.nil} {file.is_nil}")
    file.define("nat", "zero", is_type, node)
    for before in range(count - 1):
        node = file.row(f"n suc {file.nil} {tree} {node}")
        tree = file.row(f"t suc {tree}")
        file.define("nat", f"suc d{before}", is_type, node)
    return file.texts()


def arrows(count):
    file = SmallTypes()
    tree, node = file.nat, file.row(f"n nat.u {file.nil} {file.is_nil}")
    file.define_type("nat", node)
    for before in range(count - 1):
        one, is_up = file.under(file.nil, 0, file.identity, tree, node)
        tree, node = file.functions(file.nil, tree, node, *file.weakened(one, 1, is_up, tree, node))
        file.define_type(f"d{before} -> d{before}", node)
    return file.texts()


def binaries(count):
    file = SmallTypes()
    tree, node = file.nat, file.row(f"n nat.u {file.nil} {file.is_nil}")
    file.define_type("nat", node)
    for before in range(count - 1):
        one, is_up = file.under(file.nil, 0, file.identity, tree, node)
        second = file.weakened(one, 1, is_up, tree, node)
        two, is_up_twice = file.under(one, 1, is_up, *second)
        inner = file.functions(one, *second, *file.weakened(two, 2, is_up_twice, tree, node))
        tree, node = file.functions(file.nil, tree, node, *inner)
        file.define_type(f"(x y : d{before}) -> d{before}", node)
    return file.texts()


SHAPES = {"suc": successors, "arrow": arrows, "binary": binaries}


def measure(program, folder, shape, count):
    rows, lines = SHAPES[shape](count)
    for name, text in [("bench.drv", rows), ("Bench.ctt", lines)]:
        with open(os.path.join(folder, name), "w") as file:
            file.write(text)
    command = [program, "replay", "bench.drv", "--of", "Bench"]
    runs = [timed(command, folder) for _ in range(RUNS)]
    for answer, _ in runs:
        if answer != f"yes: {rows.count(chr(10))} rows, {2 * count} roots\n":
            sys.exit(f"{shape}, {count} definitions: {answer}")
    seconds = min(seconds for _, seconds in runs)
    _, memory = measured(command, folder)
    print(f"{shape:>6} {count:>7} {seconds:>8.3f} {seconds / count * 1e6:>8.1f} {memory:>12} "
          f"{memory / count:>7.0f}", flush=True)


def main():
    if len(sys.argv) < 2:
        sys.exit(__doc__.strip())
    program = os.path.abspath(sys.argv[1])
    shapes = [word for word in sys.argv[2:] if word in SHAPES] or list(SHAPES)
    counts = [int(word) for word in sys.argv[2:] if word.isdigit()] or [100, 1_000, 10_000]
    print(f"{'shape':>6} {'defs':>7} {'seconds':>8} {'us/def':>8} {'memory':>12} {'a def':>7}")
    with tempfile.TemporaryDirectory() as folder:
        for shape in shapes:
            for count in counts:
                measure(program, folder, shape, count)


if __name__ == "__main__":
    main()
