#!/usr/bin/env python3
"""Typings of neutral forms, whose normal forms settle formulas and faces, as a derivation file.

    python3 tools/normal_cases.py > cases.drv
    evaluating < cases.drv

The program prints the normal form of what each root types. `NAME ..` takes these cases alone.
"""
import sys

import judge
import kan
import univalence
from deriving import Scope
from kan import app, bind, eq0, eq1, fst, join, lam, least, neg, papp, pathp, plam
from univalence import I0, I1, NAT, U, ZERO, N, suc

ONE = suc(ZERO)
SAME = judge.shift_by(0)
J, K = N("j"), N("k")


def greatest(left, right):
    return ("max", left, right)


def meet(left, right):
    return ("meet", left, right)


# Faces over two names: one conjunction, two of which one is written twice over, and none.
FACES = [
    eq1(neg(J)),
    join(eq0(neg(K)), join(eq0(J), meet(eq0(J), eq1(K)))),
    meet(eq0(J), eq1(J)),
]


def formulas(book):
    """A path at formulas."""
    of = pathp(lambda _: NAT, ZERO, ONE)
    s = Scope().var("p", of).name("j", "k")
    for r in (J, neg(least(neg(J), neg(K))), greatest(least(J, K), J), neg(neg(K)),
              least(J, neg(J))):
        book.root(book.at(s, "papp", N("p"), r, *of[1:]))


def bodies(book):
    """A path whose body is at a formula."""
    s = Scope().var("p", pathp(lambda _: NAT, ZERO, ONE))
    path = s.of(N("p"))
    line = ("papp", judge.apply(path, judge.shift_by(1)), ("var", 0))
    for end, rule in ((I0, "path.left"), (I1, "path.right")):
        moved = book.end(s.ctx, line, neg(neg(end)), end)
        book.joined(moved, book.node(rule, s.ctx, path, NAT, ZERO, ONE))
    body = s.of(bind(lambda i: papp(N("p"), neg(neg(i)))), 1)
    book.root(book.node("plam", s.ctx, NAT, body, ZERO, ONE))


def types_of_paths(book):
    """Types of paths over a line that a rule rewrites, in the universe and as types."""
    s = Scope().var("A", U).var("a", N("A"))
    A, a = s.of(N("A")), s.of(N("a"))
    redex = s.of(app(lam(U, lambda x: x), N("A")))
    book.node("pi.beta", s.ctx, U, ("var", 0), A, U)
    book.node("tyeq.u", s.ctx, redex, A)
    book.node("tyeq.sym", s.ctx, redex, A)
    book.node("tm.conv", s.ctx, a, A, redex)
    line = judge.apply(redex, judge.shift_by(1))
    book.derived(("Tm", s.name("i").ctx, line, U))
    book.root(book.node("path.u", s.ctx, line, a, a))
    book.root(book.node("ty.u", s.ctx, ("pathp", line, a, a)))
    book.root(book.node("path.ty", s.ctx, line, a, a))


def line_of(i):
    return papp(N("P"), i)


def path_of(i):
    return papp(N("f"), i)


def over_line():
    """A line of types, its ends, and a path over it."""
    s = Scope().var("P", pathp(lambda _: U, NAT, NAT)).var("u", line_of(I0)).var("v", line_of(I1))
    return s.var("f", pathp(line_of, N("u"), N("v"))).name("j", "k")


def compositions(book):
    """Compositions along a neutral line, with sides and with none."""
    s = over_line()
    for face in FACES:
        tree = s.of(kan.comp(line_of, face, path_of, path_of(I0)))
        book.root(book.node("comp", s.ctx, *tree[1:]))


def fixed_names(book):
    """A side in which a variable stands whose type a face fixes."""
    s = Scope().var("P", pathp(lambda _: U, NAT, NAT)).name("j").var("x", line_of(J)).name("k")
    face = join(eq0(J), eq1(K))
    tree = s.of(kan.comp(lambda _: line_of(J), face, lambda _: N("x"), N("x")))
    book.root(book.node("comp", s.ctx, *tree[1:]))


def moved(book, s, r, end):
    """`f r = f end` over the line at the end, where both formulas are the same."""
    name = s.name("z")
    line = name.of(path_of(N("z")))
    subs = [judge.push(SAME, s.of(formula)) for formula in (r, end)]
    fits = book.node("ty.int", s.ctx, *subs, name.ctx, name.of(line_of(N("z"))))
    book.node("tm.conv", s.ctx, s.of(path_of(r)), *fits[2:4])
    equal = book.end(s.ctx, line, s.of(r), s.of(end))
    return book.node("tmeq.conv", s.ctx, *equal[2:5], fits[3])


def systems(book):
    """A composition whose sides are a system of two."""
    s, i = over_line(), N("i")
    p, q = eq0(J), eq0(K)
    both = join(p, q)
    twice = neg(neg(i))
    on = s.face(both).name("i")
    left, right = on.face(p), on.face(q)
    equal = moved(book, left.face(q), twice, i)
    book.node("tmeq.sym", *equal[1:])
    moved(book, right, twice, i)
    tree, of = on.of(("sys", p, q, path_of(i), path_of(twice))), on.of(line_of(i))
    sides = [book.node(rule, on.ctx, *tree[1:], of) for rule in ("sys.left", "sys.right")]
    book.node("sys.tm", on.ctx, *tree[1:], of)
    # the start
    to0, start = judge.push(SAME, I0), s.face(both)
    first, second = start.face(p), start.face(q)
    equal = book.node("tmeq.sub", first.ctx, to0, left.ctx, *sides[0][2:])
    book.node("tmeq.sym", *equal[1:])
    equal = book.node("tmeq.sub", second.ctx, to0, right.ctx, *sides[1][2:])
    equal = book.joined(equal, moved(book, second, neg(neg(I0)), I0))
    book.node("tmeq.sym", *equal[1:])
    book.node("tm.sub", start.ctx, to0, on.ctx, tree, of)
    book.node("tmeq.cover", start.ctx, start.of(p), start.of(q), start.of(path_of(I0)),
              judge.apply(tree, to0), equal[4])
    line = s.of(bind(line_of), 1)
    book.root(book.node("comp", s.ctx, line, s.of(both), tree, s.of(path_of(I0))))


def glued(book):
    """Glued types, their elements, and these unglued."""
    for face in FACES:
        s = Scope().var("A", U).var("T", U).var("w", kan.equiv(N("T"), N("A"))).name("j", "k")
        parts = (N("A"), face, N("T"), N("w"))
        book.root(book.at(s, "glue.ty", *parts))
        book.root(book.at(s, "glue.u", *parts))
        s = s.var("c", N("T")).var("b", ("Glue", *parts))
        image = app(fst(N("w")), N("c"))
        book.root(book.at(s, "glue", *parts, N("c"), image))
        for element in (N("b"), kan.glue(face, N("c"), image)):
            book.root(book.at(s, "unglue", *parts, element))


CASES = [formulas, bodies, types_of_paths, compositions, fixed_names, systems, glued]


if __name__ == "__main__":
    cases = univalence.Book()
    for case in CASES:
        if not sys.argv[1:] or case.__name__ in sys.argv[1:]:
            case(cases)
    sys.stdout.write(cases.lines())
