#!/usr/bin/env python3
"""Times `ctt replay` on files of about N rows, of five shapes.

usage: python3 bench/replay.py PROGRAM [SHAPE ..] [N ..]

`suc`: successors of zero. `lam`: functions of many arguments, each derived under the context of
those before it. `app`: one function applied to what it gave before, so that each argument's type is
an instance. `sub`: a term weakened entry by entry along a context. `comp`: compositions over one
line, each of what the one before gave, on the face that is true nowhere.
"""

import os
import sys
import tempfile

from runs import measured, timed


class File:
    """The rows of a derivation file; each call adds one and answers with its number."""

    def __init__(self):
        self.rows = ["rules 1"]
        self.nil = self.row("c nil")
        self.nat = self.row("t nat")
        self.contexts = [(self.nil, self.row("n ctx.nil"))]

    def row(self, line):
        self.rows.append(line)
        return len(self.rows) - 1

    def is_type(self, context, node):
        """The node that nat is a type in the context of a node."""
        universe = self.row(f"n nat.u {context} {node}")
        return self.row(f"n ty.u {context} {self.nat} {universe}")

    def deeper(self):
        """Adds a variable of type nat to the last context; answers that, and nat as its type."""
        context, node = self.contexts[-1]
        nat_there = self.is_type(context, node)
        longer = self.row(f"c var {context} {self.nat}")
        self.contexts.append((longer, self.row(f"n ctx.var {context} {self.nat} {nat_there}")))
        return context, nat_there

    def text(self, node):
        self.row(f"r {node}")
        return "".join(row + "\n" for row in self.rows), len(self.rows)


def successors(count):
    file = File()
    tree = file.row("t zero")
    node = file.row(f"n zero {file.nil} {file.contexts[0][1]}")
    for _ in range(count // 2):
        node = file.row(f"n suc {file.nil} {tree} {node}")
        tree = file.row(f"t suc {tree}")
    return file.text(node)


def functions(count):
    file = File()
    before = [file.deeper() for _ in range(count // 7)]
    up = file.row("s shift 1")
    tree = file.row("t var 0")
    ty = file.row(f"x {file.nat} {up}")
    node = file.row(f"n tm.var {before[-1][0]} {file.nat} {before[-1][1]}")
    for context, nat_there in reversed(before):
        node = file.row(f"n lam {context} {file.nat} {tree} {ty} {nat_there} {node}")
        tree = file.row(f"t lam {file.nat} {tree}")
        ty = file.row(f"t pi {file.nat} {ty}")
    return file.text(node)


def applications(count):
    file = File()
    nil, nat_there = file.deeper()
    one, _ = file.contexts[1]
    up = file.row("s shift 1")
    file.row(f"x {file.nat} {up}")
    variable = file.row("t var 0")
    is_variable = file.row(f"n tm.var {nil} {file.nat} {nat_there}")
    is_next = file.row(f"n suc {one} {variable} {is_variable}")
    after = file.row(f"t suc {variable}")
    function = file.row(f"t lam {file.nat} {after}")
    is_function = file.row(f"n lam {nil} {file.nat} {after} {file.nat} {nat_there} {is_next}")
    tree = file.row("t zero")
    node = file.row(f"n zero {nil} {file.contexts[0][1]}")
    for _ in range(count // 2):
        node = file.row(f"n app {nil} {function} {tree} {file.nat} {file.nat} {is_function} {node}")
        tree = file.row(f"t app {function} {tree}")
    return file.text(node)


def weakenings(count):
    file = File()
    up = file.row("s shift 1")
    identity = file.row("s shift 0")
    nil, nat_there = file.deeper()
    tree = file.row("t var 0")
    ty = file.row(f"x {file.nat} {up}")
    node = file.row(f"n tm.var {nil} {file.nat} {nat_there}")
    for _ in range(count // 9):
        context, is_context = file.contexts[-1]
        same = file.row(f"n sub.id {context} {is_context}")
        _, nat_there = file.deeper()
        longer = file.contexts[-1][0]
        weaken = file.row(f"n sub.wk {context} {identity} {context} {file.nat} {same} {nat_there}")
        node = file.row(f"n tm.sub {longer} {up} {context} {tree} {ty} {weaken} {node}")
        tree = file.row(f"x {tree} {up}")
        ty = file.row(f"x {ty} {up}")
    return file.text(node)


def compositions(count):
    file = File()
    nil, is_nil = file.contexts[0]
    line = file.row(f"c name {nil}")
    over_line = file.is_type(line, file.row(f"n ctx.name {nil} {is_nil}"))
    face = file.row("t f0")
    within = file.row(f"c face {nil} {face}")
    is_within = file.row(f"n ctx.face {nil} {face} {is_nil}")
    side_line = file.row(f"c name {within}")
    is_side_line = file.row(f"n ctx.name {within} {is_within}")
    zero = file.row("t zero")
    side = file.row(f"n zero {side_line} {is_side_line}")
    side_at_start = file.row(f"n zero {within} {is_within}")
    same = file.row("s shift 0")
    identity = file.row(f"n sub.id {nil} {is_nil}")
    narrowing = file.row(f"n sub.wkface {nil} {same} {nil} {face} {identity}")
    tree, node = zero, file.row(f"n zero {nil} {is_nil}")
    for _ in range(count // 4):
        there = file.row(f"n tm.sub {within} {same} {nil} {tree} {file.nat} {narrowing} {node}")
        equal = file.row(f"n tmeq.absurd {within} {tree} {zero} {file.nat} {there} {side_at_start}")
        parts = f"{nil} {file.nat} {face} {zero} {tree}"
        node = file.row(f"n comp {parts} {over_line} {side} {node} {equal}")
        tree = file.row(f"t comp {file.nat} {face} {zero} {tree}")
    return file.text(node)


SHAPES = {"suc": successors, "lam": functions, "app": applications, "sub": weakenings,
          "comp": compositions}


def measure(program, path, shape, wanted):
    text, count = SHAPES[shape](wanted)
    with open(path, "w") as file:
        file.write(text)
    command = [program, "replay", path]
    runs = [timed(command) for _ in range(5)]
    for answer, _ in runs:
        if answer != f"yes: {count} rows, 1 roots\n":
            sys.exit(f"{shape}, {count} rows: {answer}")
    seconds = min(seconds for _, seconds in runs)
    _, memory = measured(command)
    print(
        f"{shape:>5} {count:>9} {len(text):>10} {seconds:>8.3f} {count / seconds:>10.0f} "
        f"{len(text) / seconds / 1e6:>6.1f} {memory:>12} {memory / count:>6.0f}"
    )


def main():
    if len(sys.argv) < 2:
        sys.exit(__doc__.strip())
    program = os.path.abspath(sys.argv[1])
    shapes = [word for word in sys.argv[2:] if word in SHAPES] or list(SHAPES)
    counts = [int(word) for word in sys.argv[2:] if word.isdigit()] or [10_000, 100_000, 1_000_000]
    print(f"{'shape':>5} {'rows':>9} {'bytes':>10} {'seconds':>8} {'rows/s':>10} {'MB/s':>6} "
          f"{'memory':>12} {'a row':>6}")
    with tempfile.TemporaryDirectory() as folder:
        for shape in shapes:
            for count in counts:
                measure(program, os.path.join(folder, "bench.drv"), shape, count)


if __name__ == "__main__":
    main()
