#!/usr/bin/env python3
"""Times `ctt replay` on nodes whose side conditions are faces and formulas.

usage: python3 bench/sides.py PROGRAM

A line tells the microseconds a node, of the best of three runs, the reading of the rows before the
nodes left out.
"""

import itertools
import os
import pathlib
import sys
import tempfile

from runs import timed


class Rows:
    """Rows of a file, each kept once, and named by their numbers."""

    def __init__(self):
        self.lines = ["rules 1"]
        self.numbers = {}

    def row(self, *words):
        line = " ".join(map(str, words))
        if line not in self.numbers:
            self.numbers[line] = len(self.lines)
            self.lines.append(line)
        return self.numbers[line]

    def tree(self, operator, *kids):
        return self.row("t", operator, *kids)


def named_context(rows, count):
    """A context of so many names, with its node."""
    ctx = rows.row("c", "nil")
    node = rows.row("n", "ctx.nil")
    for _ in range(count):
        outer, ctx = ctx, rows.row("c", "name", ctx)
        node = rows.row("n", "ctx.name", outer, node)
    return ctx, node


def circle(rows, count, start=0):
    """The face (i=0) /\\ (j=1) for each name i and the next one j, joined."""
    ends = [(rows.tree("eq0", rows.tree("var", k)), rows.tree("eq1", rows.tree("var", k)))
            for k in range(count)]
    whole = None
    for k in range(count):
        one = rows.tree("meet", ends[k][0], ends[(k + 1 + start) % count][1])
        whole = one if whole is None else rows.tree("join", whole, one)
    return whole


def under_faces(rows, faces, count):
    """The identity from a context of names with so many faces to the names alone."""
    ctx, node = names, _ = named_context(rows, count)
    identity = rows.row("s", "shift", 0)
    sub = rows.row("n", "sub.id", ctx, node)
    for face in faces(rows):
        sub = rows.row("n", "sub.wkface", ctx, identity, names, face, sub)
        ctx = rows.row("c", "face", ctx, face)
    return ctx, identity, names, sub


def is_face(count):
    """`ctx.face` with a circle of twelve names: is it a face?"""
    rows = Rows()
    ctx, node = named_context(rows, 12)
    return rows, [f"n ctx.face {ctx} {circle(rows, 12)} {node}"] * count


def holds(count):
    """`sub.face` with a circle of twelve names, where another turn of it is the face."""
    rows = Rows()
    ctx, sub, names, node = under_faces(rows, lambda r: [circle(r, 12)], 12)
    return rows, [f"n sub.face {ctx} {sub} {names} {circle(rows, 12)} {node}"] * count


def twenty_faces(count):
    """`sub.face` with the first of twenty faces of the context."""
    def faces(rows):
        return [circle(rows, 6, start) for start in range(5)] * 4

    rows = Rows()
    ctx, sub, names, node = under_faces(rows, faces, 6)
    return rows, [f"n sub.face {ctx} {sub} {names} {circle(rows, 6)} {node}"] * count


def shared(count):
    """`sub.form` with a formula of 2^40 operators in 41 rows."""
    rows = Rows()
    ctx, node = named_context(rows, 1)
    formula = rows.tree("var", 0)
    for _ in range(40):
        formula = rows.tree("min", formula, formula)
    sub = rows.row("s", "shift", 0)
    identity = rows.row("n", "sub.id", ctx, node)
    return rows, [f"n sub.form {ctx} {sub} {ctx} {formula} {identity}"] * count


def new_faces(rows, count):
    """So many faces over a context of sixteen names, no two of them one: three equations each."""
    ends = [rows.tree(end, rows.tree("var", k)) for k in range(16) for end in ("eq0", "eq1")]
    for first, second, third in itertools.islice(itertools.combinations(ends, 3), count):
        yield rows.tree("meet", rows.tree("meet", first, second), third)


def new_systems(count):
    """`sys.ty` over two faces that are new each time, with the rows that it stands on"""
    def is_type(ctx, node):
        return rows.row("n", "ty.u", ctx, nat, rows.row("n", "nat.u", ctx, node))

    def under(ctx, node, face):
        inner = rows.row("c", "face", ctx, face)
        return inner, rows.row("n", "ctx.face", ctx, face, node)

    rows = Rows()
    nat, true = rows.tree("nat"), rows.tree("f1")
    ctx, node = named_context(rows, 16)
    known = Rows()
    known.lines, known.numbers = list(rows.lines), dict(rows.numbers)
    faces = new_faces(rows, 2 * count)
    for p, q in zip(faces, faces):
        p = rows.tree("join", true, p)
        left, right = under(ctx, node, p), under(ctx, node, q)
        both = under(*left, q)
        same = rows.row("n", "tyeq.refl", both[0], nat, is_type(*both))
        parts = (ctx, p, q, nat, nat, is_type(*left), is_type(*right), same)
        rows.row("n", "sys.ty", *parts)
    return known, rows.lines[len(known.lines):]


def seconds(program, path, lines):
    """The least seconds of three runs on a file of these lines."""
    path.write_text("".join(line + "\n" for line in lines))
    runs = [timed([program, "replay", path]) for _ in range(3)]
    if any(answer != f"yes: {len(lines)} rows, 0 roots\n" for answer, _ in runs):
        sys.exit(runs[0][0])
    return min(spent for _, spent in runs)


def main():
    if len(sys.argv) < 2:
        sys.exit(__doc__.strip())
    program = os.path.abspath(sys.argv[1])
    with tempfile.TemporaryDirectory() as folder:
        path = pathlib.Path(folder, "sides.drv")
        for shape, count in ((is_face, 2000), (holds, 2000), (twenty_faces, 1000), (shared, 200),
                             (new_systems, 2000)):
            rows, nodes = shape(count)
            spent = seconds(program, path, rows.lines + nodes) - seconds(program, path, rows.lines)
            about = shape.__doc__.splitlines()[0]
            print(f"{about:<80} {spent / count * 1e6:>8.1f} microseconds a node")


if __name__ == "__main__":
    main()
