#!/usr/bin/env python3
"""Terms and types with the texts of their normal forms, tried on the program `evaluating`.

    tools/normal_table.py PROGRAM [NAME ..]

For each case, or for those named, the program normalises what the roots of a derivation file type.
The texts are compared with those of the table; the files of the normal forms are read again, each
tree is tested to be normal by `normal_trees.py`, and its normal form must have the same text. The
last line counts all.
"""
import collections
import subprocess
import sys

import judge
import kan
import normal_cases
import normal_trees
import univalence
from deriving import ID, Scope
from kan import (EMPTY, F0, I0, I1, app, bind, eq0, eq1, fst, join, lam, least, neg, pair, papp,
                 pathp, pi, plam, sig, snd)
from normal_cases import J, K, ONE, greatest, line_of, meet
from univalence import NAT, U, ZERO, N, suc

# A case: the texts of the normal forms of its roots, and what writes these into a book.
Case = collections.namedtuple("Case", "name texts write")
CASES = []


def case(name, text, s, tree, of=None):
    """The case of a term, at a type or at that which its form tells."""
    def write(book):
        at = s.of(tree)
        book.root(("Tm", s.ctx, at, s.of(of) if of else book.type_of(s.ctx, at)))
    CASES.append(Case(name, [text], write))


def type_case(name, text, s, tree):
    CASES.append(Case(name, [text], lambda book: book.root(("Ty", s.ctx, s.of(tree)))))


def written(*texts):
    """The case of a function that writes its own roots."""
    def add(function):
        CASES.append(Case(function.__name__, texts, function))
        return function
    return add


def same(of):
    return lam(of, lambda x: x)


def arrow(A, B):
    return pi(A, lambda _: B)


SMALL_NAT = app(same(U), NAT)


def is_number(book, s):
    """The type of numbers is what the identity gives for it."""
    redex = s.of(SMALL_NAT)
    book.node("pi.beta", s.ctx, U, ("var", 0), NAT, U)
    book.node("tyeq.u", s.ctx, redex, NAT)
    book.node("tyeq.sym", s.ctx, redex, NAT)


# Functions.

f, n, x = N("f"), N("n"), N("x")
AT = Scope().var("f", arrow(NAT, NAT)).var("n", NAT)
FAMILY = Scope().var("F", arrow(NAT, U)).var("n", NAT)

case("app", "(x0 x1)", AT, app(f, n))
case("app of lam", "(suc x1)", AT, app(lam(NAT, suc), n))
case("app at a redex", "(x0 x1)", AT, app(f, app(same(NAT), n)))
case("app of a redex", "(x0 x1)", AT, app(app(same(arrow(NAT, NAT)), f), n))
case("app of a redex at a redex", "(x0 (x0 x1))", AT,
     app(app(same(arrow(NAT, NAT)), f), app(f, app(same(NAT), n))))
case("app twice", "(\\(x2 : nat) -> x1)", AT, app(lam(NAT, lambda x: lam(NAT, lambda _: x)), n))
case("lam", "(\\(x0 : nat) -> x0)", Scope(), lam(NAT, lambda x: app(same(NAT), x)))
case("lam of a redex", "(\\(x0 : nat) -> x0)", Scope(), same(SMALL_NAT))
case("lam of two redexes", "(\\(x0 : nat) -> x0)", Scope(),
     lam(SMALL_NAT, lambda x: app(same(SMALL_NAT), x)))
case("lam of lam", "(\\(x0 : nat) -> (\\(x1 : nat) -> x0))", Scope(),
     lam(NAT, lambda x: lam(NAT, lambda y: app(lam(NAT, lambda _: x), y))))
case("eta of functions", "(\\(x2 : nat) -> (x0 x2))", AT, lam(NAT, lambda x: app(f, x)))
case("a variable for a function", "x0", AT, f)
case("app of a function of a pair", "(x0 x1)", AT, app(fst(pair(f, n)), n))
type_case("pi", "((x2 : nat) -> nat)", AT, arrow(SMALL_NAT, SMALL_NAT))
case("pi, small", "((x2 : nat) -> nat)", AT, arrow(SMALL_NAT, SMALL_NAT))
type_case("pi over a family", "((x2 : (x0 x1)) -> (x0 x1))", FAMILY,
          arrow(app(N("F"), n), app(N("F"), app(same(NAT), n))))
type_case("a type of functions to types", "((x0 : nat) -> U)", Scope(), arrow(SMALL_NAT, U))

# Pairs.

PAIR = sig(NAT, lambda _: NAT)
c = N("c")
PAIRED = Scope().var("c", PAIR).var("n", NAT).var("g", arrow(NAT, PAIR))

case("fst", "x0.1", PAIRED, fst(c))
case("snd", "x0.2", PAIRED, snd(c))
case("fst of pair", "x1", PAIRED, fst(pair(n, ZERO)))
case("snd of pair", "zero", PAIRED, snd(pair(n, ZERO)))
case("fst of a redex", "(x2 x1).1", PAIRED, fst(app(N("g"), app(same(NAT), n))))
case("snd of a redex", "(x2 x1).2", PAIRED, snd(app(N("g"), app(same(NAT), n))))
case("pair of redexes", "(x1,(suc x1))", PAIRED,
     pair(app(same(NAT), n), app(lam(NAT, suc), n)), PAIR)
case("eta of pairs", "(x0.1,x0.2)", PAIRED, pair(fst(c), snd(c)), PAIR)
case("a variable for a pair", "x0", PAIRED, c)
type_case("sig", "((x3 : nat) * nat)", PAIRED, sig(SMALL_NAT, lambda _: SMALL_NAT))
case("sig, small", "((x3 : nat) * nat)", PAIRED, sig(SMALL_NAT, lambda _: SMALL_NAT))

OVER = sig(NAT, lambda x: app(N("F"), x))
DEPENDENT = (FAMILY.var("k", pi(NAT, lambda x: app(N("F"), x))).var("h", arrow(NAT, OVER)))

case("app over a family", "(x2 x1)", DEPENDENT, app(N("k"), app(same(NAT), n)))
case("pair over a family", "(x1,(x2 x1))", DEPENDENT,
     pair(app(same(NAT), n), app(N("k"), app(same(NAT), n))), OVER)
case("snd over a family", "(x3 x1).2", DEPENDENT, snd(app(N("h"), app(same(NAT), n))))
case("app at a pair over a family", "((x4 x1) (x2 x1))",
     DEPENDENT.var("e", pi(NAT, lambda x: arrow(app(N("F"), x), NAT))),
     app(app(N("e"), app(same(NAT), n)), app(N("k"), app(same(NAT), n))))

# Numbers.


def plus(n, m):
    return ("natrec", bind(lambda _: NAT), n, lam(NAT, lambda _: lam(NAT, suc)), m)


case("zero", "zero", Scope(), ZERO)
case("suc", "(suc x1)", AT, suc(n))
case("suc of a redex", "(suc (x0 x1))", AT, suc(app(f, app(same(NAT), n))))
case("natrec at zero", "(suc x1)", AT, plus(suc(n), ZERO))
case("natrec at suc", "(suc (suc x1))", AT, plus(n, suc(ONE)))
RECURSION = "(natrec (\\(x2 : nat) -> nat) {} (\\(x2 : nat) -> (\\(x3 : nat) -> (suc x3))) {})"
case("natrec", RECURSION.format("x1", "(x0 x1)"), AT, plus(n, app(f, n)))
case("natrec of redexes", RECURSION.format("x1", "(x0 x1)"), AT,
     plus(app(same(NAT), n), app(f, app(same(NAT), n))))
case("natrec at a redex", "(suc x1)", AT, plus(n, app(lam(NAT, suc), ZERO)))
case("natrec at a half", "(suc (suc x1))", AT, plus(n, fst(pair(suc(ONE), ZERO))))
case("natrec at natrec", RECURSION.format("(suc (suc x1))", "(x0 x1)"), AT,
     plus(plus(n, suc(ONE)), plus(app(f, n), ZERO)))


@written("(natrec (\\(x1 : nat) -> nat) zero (\\(x1 : nat) -> (\\(x2 : nat) -> x2)) x0)", "zero")
def motives(book):
    """Recursions whose motive is a redex, over a variable and over zero."""
    s = Scope().var("n", NAT)
    for scope in (s, s.var("x", NAT), s.var("x", SMALL_NAT), s.var("x", NAT).var("y", SMALL_NAT)):
        is_number(book, scope)
    step = lam(NAT, lambda _: same(SMALL_NAT))
    for number in (n, ZERO):
        tree = s.of(("natrec", bind(lambda _: SMALL_NAT), ZERO, step, number))
        book.root(("Tm", s.ctx, tree, book.type_of(s.ctx, tree)))


# Paths.

PATH = pathp(lambda _: NAT, ZERO, ONE)
p = N("p")
NAMED = Scope().var("p", PATH).name("j", "k")

FORMULAS = [
    ("a name", J, "(x0 @ i1)"),
    ("neg of a name", neg(J), "(x0 @ -i1)"),
    ("0", I0, "zero"),
    ("1", I1, "(suc zero)"),
    ("neg of 0", neg(I0), "(suc zero)"),
    ("min with 0", least(J, I0), "zero"),
    ("max with 1", greatest(K, I1), "(suc zero)"),
    ("min with 1", least(I1, K), "(x0 @ i2)"),
    ("neg of neg", neg(neg(K)), "(x0 @ i2)"),
    ("neg of min", neg(least(J, neg(K))), "(x0 @ (-i1 \\/ i2))"),
    ("neg of max", neg(greatest(J, neg(K))), "(x0 @ (-i1 /\\ i2))"),
    ("a name and its neg", least(neg(J), J), "(x0 @ (i1 /\\ -i1))"),
    ("a name or its neg", greatest(neg(J), J), "(x0 @ (i1 \\/ -i1))"),
    ("one product in another", greatest(least(J, K), J), "(x0 @ i1)"),
    ("products in order", greatest(K, least(neg(J), J)), "(x0 @ ((i1 /\\ -i1) \\/ i2))"),
    ("min over max", least(K, greatest(J, neg(K))), "(x0 @ ((i1 /\\ i2) \\/ (i2 /\\ -i2)))"),
    ("a product twice", greatest(least(J, K), least(K, J)), "(x0 @ (i1 /\\ i2))"),
]
for about, formula, text in FORMULAS:
    case(f"papp at {about}", text, NAMED, papp(p, formula))

case("papp of a redex", "(x0 @ (i1 /\\ i2))", NAMED, papp(app(same(PATH), p), least(K, J)))
case("eta of paths", "(<i3> (x0 @ i3))", NAMED, plam(lambda i: papp(p, i)),
     pathp(lambda _: NAT, papp(p, I0), papp(p, I1)))
case("plam of a redex", "(<i3> (x0 @ (i1 /\\ i3)))", NAMED,
     plam(lambda i: app(same(NAT), papp(p, least(i, J)))),
     pathp(lambda _: NAT, app(same(NAT), papp(p, least(I0, J))),
           app(same(NAT), papp(p, least(I1, J)))))
case("pathp, small", "(PathP (<i3> nat) (x0 @ i1) (suc zero))", NAMED,
     pathp(lambda _: NAT, papp(p, neg(neg(J))), app(same(NAT), ONE)))
type_case("pathp", "(PathP (<i3> nat) (x0 @ i1) (suc zero))", NAMED,
          pathp(lambda _: NAT, papp(p, neg(neg(J))), app(same(NAT), ONE)))


@written("(suc (x0 @ i1))", "(x0 @ (i1 \\/ i2))")
def betas(book):
    """Written paths at formulas."""
    s = NAMED
    for line, r in ((lambda i: suc(papp(p, i)), J), (lambda i: papp(p, greatest(i, K)), J)):
        ends = s.of(line(I0)), s.of(line(I1))
        book.root(book.node("papp", s.ctx, s.of(plam(line)), s.of(r), NAT, *ends))


# Names that faces fix, and faces that are true nowhere.


def faced(*faces):
    s = NAMED
    for face in faces:
        s = s.face(face)
    return s


case("a name at 0", "zero", faced(eq0(J)), papp(p, J))
case("neg of a name at 0", "(suc zero)", faced(eq0(J)), papp(p, neg(J)))
case("min with a name at 1", "(x0 @ i2)", faced(eq1(J)), papp(p, least(K, J)))
case("two names that are fixed", "(suc zero)", faced(meet(eq0(J), eq1(K))),
     papp(p, least(K, neg(J))))
case("a name of a formula that is 1", "(suc zero)", faced(eq1(least(J, K))), papp(p, J))
case("a fixed name under a name", "(<i3> (x0 @ i3))", faced(eq0(J)),
     plam(lambda i: papp(p, greatest(i, J))),
     pathp(lambda _: NAT, papp(p, greatest(I0, J)), papp(p, greatest(I1, J))))
case("nowhere, a variable", "x0", faced(eq0(J), eq1(J)), p)
case("nowhere, papp", "zero", faced(eq0(J), eq1(J)), papp(p, K))
case("nowhere, app of lam", "(suc zero)", faced(meet(eq0(J), eq1(J))), app(lam(NAT, suc), ZERO))
case("nowhere, lam", "(\\(x3 : nat) -> x3)", faced(F0), same(SMALL_NAT))
case("nowhere, eta of paths", "(<i3> zero)", faced(F0), plam(lambda i: papp(p, i)),
     pathp(lambda _: NAT, papp(p, I0), papp(p, I1)))
type_case("nowhere, empty", "nat", faced(F0), EMPTY)
case("nowhere, empty of a type", "zero", faced(F0), EMPTY, arrow(NAT, NAT))

LINED = Scope().var("P", pathp(lambda _: U, NAT, NAT)).name("j", "k")
FIXED = LINED.face(eq1(J))
type_case("a type at a fixed name", "nat", FIXED, line_of(J))
case("lam at a fixed name", "(\\(x3 : nat) -> x3)", FIXED, same(line_of(J)))
case("a variable of a fixed type", "x3", FIXED.var("x", line_of(J)), x)
case("app of a fixed type", "(x4 x3)", FIXED.var("x", line_of(J)).var("f", arrow(line_of(J), NAT)),
     app(f, x))
AFTER = LINED.var("x", line_of(J)).var("f", arrow(line_of(J), NAT))
case("fixed after its variables", "(x4 x3)", AFTER.face(eq0(J)), app(f, x))
case("fixed after its variables, and not", "(x4 x3)", AFTER.face(eq0(K)), app(f, x))


# The type of a path whose ends have a name that is fixed after it.
ENDED = NAMED.var("t", pathp(lambda _: NAT, papp(p, greatest(J, K)), papp(p, least(J, K))))
case("an end with a fixed name", "(x0 @ i2)", ENDED.face(eq0(J)), papp(N("t"), I0))
case("an end that is one of the path", "zero", ENDED.face(eq0(J)), papp(N("t"), I1))
case("a product in another at a fixed name", "(x0 @ i2)", NAMED.face(eq1(J)),
     papp(p, greatest(least(J, K), least(K, neg(K)))))


# Systems.


def nowhere(book, s, left, right, of):
    """The two are equal where no face is true."""
    book.at(s, "tmeq.absurd", left, right, of)


@written("x1", "(x0 x1)", "x1", "x1")
def sides_of_systems(book):
    """Systems where a face is true: the left one, the right one, both, and where none is."""
    faces = eq0(J), eq1(J)
    a, b = n, app(f, n)
    for face in (eq0(J), eq1(J)):
        s = AT.name("j").face(face)
        inner = s.face(faces[0]).face(faces[1])
        nowhere(book, inner, a, b, NAT)
        book.root(book.at(s, "sys.tm", *faces, a, b, NAT))
    s = AT.name("j").face(eq0(J))
    book.root(book.at(s, "sys.tm", eq0(J), eq0(J), a, a, NAT))
    s = AT.name("j").face(F0)
    nowhere(book, s.face(F0).face(F0), a, b, NAT)
    book.root(book.at(s, "sys.tm", F0, F0, a, b, NAT))


@written("nat", "(x0 x1)")
def types_of_systems(book):
    """Systems of types."""
    for face in (eq0(J), eq1(J)):
        s = FAMILY.name("j").face(face)
        inner = s.face(eq0(J)).face(eq1(J))
        trees = NAT, app(N("F"), n)
        for tree in trees:
            book.derived(("Ty", inner.ctx, inner.of(tree)))
        book.at(inner, "tyeq.absurd", *trees)
        book.root(book.at(s, "sys.ty", eq0(J), eq1(J), *trees))


# Compositions.

TYPED = Scope().var("A", U).var("a", N("A"))


@written("(comp (<i2> x0) x1 [])", "(comp (<i2> nat) (x0 x1) [])", "zero",
         "(suc (comp (<i2> nat) x1 []))", "(suc (comp (<i2> nat) (x0 x1) []))")
def transports(book):
    """Compositions without sides."""
    book.root(book.transport(TYPED, lambda _: N("A"), N("a")))
    for tree in (app(f, app(same(NAT), n)), ZERO, suc(n), app(lam(NAT, suc), app(f, n))):
        book.root(book.transport(AT, lambda _: NAT, tree))


@written("(\\(x2 : x0) -> (comp (<i3> x0) (x1 (comp (<i3> x0) x2 [])) []))",
         "((comp (<i2> x0) x1.1 []),(comp (<i2> x0) x1.2 []))",
         "(<i4> (comp (<i5> x0) (x3 @ i4) [ (i4=0) -> <i5> x1, (i4=1) -> <i5> x2 ]))")
def transports_along_forms(book):
    """Compositions along types of functions, of pairs and of paths."""
    A = N("A")
    for of in (arrow(A, A), sig(A, lambda _: A)):
        s = Scope().var("A", U).var("t", of)
        book.root(book.transport(s, lambda _: of, N("t")))
    of = pathp(lambda _: A, N("u"), N("v"))
    s = Scope().var("A", U).var("u", A).var("v", A).var("t", of)
    book.root(book.transport(s, lambda _: of, N("t")))


def faced_comp(book, s, face, side, base, end):
    """A composition of numbers with a constant side on a face, where a name is at an end and the
    base, a path at that name, is what the side is."""
    inner = s.face(face)
    path = inner.of(base[1])
    equal = book.end(inner.ctx, ("papp", judge.apply(path, judge.shift_by(1)), ("var", 0)),
                     inner.of(base[2]), end)
    rule = "path.left" if end == I0 else "path.right"
    book.joined(equal, book.node(rule, inner.ctx, path, *book.type_of(inner.ctx, path)[1:]))
    return book.node("comp", s.ctx, NAT, s.of(face), inner.name("i").of(side), s.of(base))


FROM_ONE = Scope().var("n", NAT).var("q", pathp(lambda _: NAT, ONE, suc(n)))
FROM_ONE = FROM_ONE.var("r", pathp(lambda _: NAT, n, ZERO)).name("j", "k")
q, r = N("q"), N("r")


@written("(comp (<i5> nat) (x1 @ i3) [ (i3=0) -> <i5> (suc zero) ])",
         "(comp (<i5> nat) (x2 @ i3) [ (i3=0) -> <i5> x0 ])",
         "(comp (<i5> nat) (x2 @ i3) [ (i3=1) -> <i5> zero ])",
         "(comp (<i5> nat) (x1 @ i3) [ (i3=0) -> <i5> (suc zero) ])",
         "(comp (<i5> nat) (x1 @ i3) [ (i3=0) -> <i5> (suc zero) ])")
def sides(book):
    """Compositions of numbers with a side; faces that are one conjunction, written otherwise."""
    s = FROM_ONE
    book.root(faced_comp(book, s, eq0(J), ONE, papp(q, J), I0))
    book.root(faced_comp(book, s, eq0(J), n, papp(r, J), I0))
    book.root(faced_comp(book, s, eq1(J), ZERO, papp(r, J), I1))
    book.root(faced_comp(book, s, eq1(neg(J)), ONE, papp(q, J), I0))
    book.root(faced_comp(book, s, join(eq0(J), meet(eq1(K), eq0(J))), ONE, papp(q, J), I0))


@written("(suc zero)", "x0")
def sides_that_hold(book):
    """Compositions where the face of a side is true."""
    s = FROM_ONE.face(eq0(J))
    book.root(faced_comp(book, s, eq0(J), ONE, papp(q, J), I0))
    book.root(faced_comp(book, s, eq0(J), n, papp(r, J), I0))


@written("(comp (<i5> nat) (x1 @ i3) [])")
def sides_that_never_apply(book):
    """A composition whose side is on a face that is true nowhere."""
    s = FROM_ONE
    face = meet(eq0(K), eq1(K))
    inner = s.face(face)
    nowhere(book, inner, papp(q, J), ONE, NAT)
    book.root(book.node("comp", s.ctx, NAT, s.of(face), ONE, s.of(papp(q, J))))


def comp_node(book, s, of, face, tube, base):
    """A composition along a type that does not vary."""
    parts = s.of(bind(lambda _: of), 1), s.of(face), s.of(bind(tube), 1), s.of(base)
    return book.node("comp", s.ctx, *parts)


def path_end(book, s, path, formula, end):
    """A path is its end at a formula that is it, in a scope."""
    tree = s.of(path)
    line = ("papp", judge.apply(tree, judge.shift_by(1)), ("var", 0))
    rule = "path.left" if end == I0 else "path.right"
    ended = book.node(rule, s.ctx, tree, *book.type_of(s.ctx, tree)[1:])
    at = s.of(formula)
    return ended if at == end else book.joined(book.end(s.ctx, line, at, end), ended)


def two_sided(book, s, sides, base):
    """A composition of numbers with two sides, on faces that are never true at once. A side is its
    face, its tube, and what derives that the base is its start, in the scope of both faces."""
    (left, first, _), (right, second, _) = sides
    both = join(left, right)
    on = s.face(both)
    under, i = on.name("i"), N("i")
    inner = under.face(left).face(right)
    nowhere(book, inner, first(i), second(i), NAT)
    tube = book.at(under, "sys.tm", left, right, first(i), second(i), NAT)[2]
    to_start = judge.push(ID, I0)
    for rule, (face, _, derive) in zip(("sys.left", "sys.right"), sides):
        there = on.face(face)
        start = derive(book, there)
        side = book.at(under, rule, left, right, first(i), second(i), NAT)
        side = book.node("tmeq.sub", there.ctx, to_start, *side[1:])
        if start is not None:
            book.joined(start, side)
        else:
            book.node("tmeq.sym", *side[1:])
    book.node("tm.sub", on.ctx, to_start, under.ctx, tube, NAT)
    parts = [on.of(left), on.of(right), on.of(base), judge.apply(tube, to_start)]
    book.node("tmeq.cover", on.ctx, *parts, NAT)
    return book.node("comp", s.ctx, NAT, s.of(both), tube, s.of(base))


@written("(comp (<i5> nat) (x1 @ i3) [ (i3=0) -> <i5> (suc zero), (i3=1) -> <i5> (suc x0) ])",
         "(comp (<i5> nat) (x2 @ i3) [ (i3=0) -> <i5> x0, (i3=1) -> <i5> zero ])")
def ends_as_sides(book):
    """Compositions of numbers whose sides are the ends of a path, the last written first."""
    for path, start, stop in ((q, ONE, suc(n)), (r, n, ZERO)):
        sides = [(eq1(J), lambda _: stop, lambda book, s: path_end(book, s, path, J, I1)),
                 (eq0(J), lambda _: start, lambda book, s: path_end(book, s, path, J, I0))]
        book.root(two_sided(book, FROM_ONE, sides, papp(path, J)))


@written("(comp (<i5> nat) (suc zero) [ (i3=0) -> <i5> (x1 @ i5), (i3=1) -> <i5> (suc zero) ])",
         "(comp (<i5> nat) (suc zero) [ (i3=0) -> <i5> (x1 @ i5) ])")
def sides_that_vary(book):
    """Compositions of numbers with a side that is a successor and one that is not."""
    def start(book, s):
        equal = path_end(book, s, q, I0, I0)
        return book.node("tmeq.sym", *equal[1:])
    s, face = FROM_ONE, eq0(J)
    sides = [(face, lambda i: papp(q, i), start), (eq1(J), lambda _: ONE, lambda book, s: None)]
    book.root(two_sided(book, s, sides, ONE))
    start(book, s.face(face))
    book.root(comp_node(book, s, NAT, face, lambda i: papp(q, i), ONE))


@written("(suc (comp (<i5> nat) (x2 @ i3) [ (i3=0) -> <i5> x0 ]))",
         "(suc (comp (<i5> nat) (x2 @ i3) [ (i3=0) -> <i5> x0, (i3=1) -> <i5> zero ]))", "zero")
def successors_as_sides(book):
    """Compositions of numbers where all are successors, or all zero."""
    s = FROM_ONE
    ends = {I0: (eq0(J), n), I1: (eq1(J), ZERO)}

    def start(end):
        def derive(book, s):
            equal = path_end(book, s, r, J, end)
            return book.node("suc.cong", *equal[1:4])
        return derive
    start(I0)(book, s.face(eq0(J)))
    book.root(comp_node(book, s, NAT, eq0(J), lambda _: suc(n), suc(papp(r, J))))
    sides = [(face, lambda _, a=a: suc(a), start(end)) for end, (face, a) in ends.items()]
    book.root(two_sided(book, s, sides, suc(papp(r, J))))
    book.root(comp_node(book, s, NAT, join(eq0(J), eq1(K)), lambda _: ZERO, ZERO))


@written("(comp (<i5> nat) (x1 @ i3) [ (i3=0) -> <i5> (suc zero) ])")
def fixed_in_sides(book):
    """A side in which the name stands that its face fixes."""
    s, face = FROM_ONE, eq0(J)
    inner = s.face(face)
    equal = path_end(book, inner, q, least(J, I0), I0)
    book.joined(path_end(book, inner, q, J, I0), book.node("tmeq.sym", *equal[1:]))
    book.root(comp_node(book, s, NAT, face, lambda i: papp(q, least(J, i)), papp(q, J)))


@written("(comp (<i6> nat) (comp (<i6> nat) (x1 @ i3) [ (i3=0) -> <i6> (suc zero) ]) [])",
         "(suc zero)")
def nested_compositions(book):
    """Compositions of a composition, without and with its face true."""
    for s in (FROM_ONE.name("l"), FROM_ONE.face(eq0(J)).name("l")):
        base = faced_comp(book, s, eq0(J), ONE, papp(q, J), I0)[2]
        parts = s.ctx + (("face", F0),), base, EMPTY, NAT
        book.node("tm.sub", parts[0], ID, s.ctx, base, NAT)
        book.node("tmeq.absurd", *parts)
        book.root(book.node("comp", s.ctx, NAT, F0, EMPTY, base))


# Glued types, and compositions along them and in the universe.

A, T, w, b = N("A"), N("T"), N("w"), N("b")
GLUED = Scope().var("A", U).var("T", U).var("w", kan.equiv(T, A)).name("j", "k")
GLUED = GLUED.var("c", T).var("d", pathp(lambda _: T, c, c))


def glued(face):
    return ("Glue", A, face, T, w)


@written("(Glue x0 [ (i3=0) -> (x1,x2), (i3=1) -> (x1,x2) ])", "(Glue x0 [ (i3=1) -> (x1,x2) ])",
         "(Glue x0 [ (i3=0) -> (x1,x2), (i4=0) -> (x1,x2) ])", "(Glue x0 [])")
def glued_types(book):
    """Faces in another order, one that another implies, and one that is true nowhere."""
    for face in (join(eq1(J), eq0(J)), join(meet(eq1(K), eq1(J)), eq0(neg(J))),
                 eq0(least(K, J)), eq1(least(K, neg(K)))):
        book.root(book.at(GLUED, "glue.u", *glued(face)[1:]))


@written("x1", "x1", "x1")
def glued_types_that_hold(book):
    """Glued types whose face is true."""
    for s, face in ((GLUED.face(eq0(J)), eq0(J)), (GLUED.face(eq1(K)), join(eq0(J), eq1(K)))):
        book.root(book.at(s, "glue.u", *glued(face)[1:]))
    book.root(book.at(GLUED.face(eq0(J)), "glue.ty", *glued(eq0(J))[1:]))


@written("x5", "(x2.1 x7)", "(x2.1 x5)")
def elements_that_hold(book):
    """An element, and others unglued, where the face is true."""
    s, face = GLUED.face(eq0(J)), eq0(J)
    parts = glued(face)[1:]
    image = app(fst(w), c)
    book.root(book.at(s, "glue", *parts, c, image))
    under = s.var("b", glued(face))
    book.root(book.at(under, "unglue", *parts, b))
    book.root(book.at(s, "unglue", *parts, kan.glue(face, c, image)))


@written("(glue (unglue x7 [ (i3=0) -> (x1,x2) ]) [ (i3=0) -> x7 ])")
def eta_of_glue(book):
    """An element of what it is unglued."""
    face = eq0(J)
    s, parts = GLUED.var("b", glued(face)), glued(face)[1:]
    inner = s.face(face)
    book.at(s, "glue.tyface", *parts)
    book.at(inner, "tm.conv", b, ("Glue", *parts), T)
    equal = book.at(s, "unglue.face", *parts, b)
    book.node("tmeq.sym", *equal[1:])
    book.root(book.at(s, "glue", *parts, b, ("unglue", face, T, w, b)))


@written("(Glue x0 [ (i4=0) -> (x1,x2) ])", "(Glue x0 [])")
def glued_types_at_fixed_names(book):
    """Glued types as ends of a path, where a name of their faces is fixed."""
    faces = join(eq0(K), eq0(J)), meet(eq0(K), eq0(J))
    s = GLUED.var("p", pathp(lambda _: U, *map(glued, faces))).face(eq1(J))
    for end in (I0, I1):
        book.root(book.at(s, "papp", N("p"), end, U, *map(glued, faces)))


@written("(Glue x0 [ (i4=0) -> ((Glue x0 [ (i3=0) -> (x1,x2) ]),x7) ])",
         "(Glue x0 [ (i3=0) -> (x1,x7) ])",
         "(Glue x0 [ (i3=0) -> (x1,x7), (i4=1) -> ((Glue x0 [ (i3=0) -> (x1,x2) ]),x7) ])")
def nested_glued_types(book):
    """A glued type on a face of another, which may be true there."""
    inner = glued(eq0(J))
    s = GLUED.var("v", kan.equiv(inner, A))
    for face in (eq0(K), eq0(J), join(eq1(K), eq0(J))):
        book.root(book.at(s, "glue.u", A, face, inner, N("v")))


def element(book, s):
    """A composition of elements of T with a side where j is 0."""
    path_end(book, s.face(eq0(J)), N("d"), J, I0)
    return comp_node(book, s, T, eq0(J), lambda _: c, papp(N("d"), J))[2]


@written("(glue (x2.1 (comp (<i7> x1) (x6 @ i3) [ (i3=0) -> <i7> x5 ]))"
         " [ (i4=0) -> (comp (<i7> x1) (x6 @ i3) [ (i3=0) -> <i7> x5 ]) ])",
         "(glue (x2.1 (comp (<i7> x1) (x6 @ i3) [ (i3=0) -> <i7> x5 ])) [ (i3=0) -> x5 ])",
         "(x2.1 (comp (<i7> x1) (x6 @ i3) [ (i3=0) -> <i7> x5 ]))")
def nested_systems(book):
    """A composition on a face, where its own face is true or not."""
    s = GLUED
    tree = element(book, s)
    parts = [s.of(part) for part in (A, T, w)]
    image = ("app", ("fst", parts[2]), tree)
    for face in (eq0(K), eq0(J)):
        element(book, s.face(face))
        face = s.of(face)
        claim = book.node("glue", s.ctx, parts[0], face, *parts[1:], tree, image)
        book.root(claim)
    book.root(book.node("unglue", s.ctx, parts[0], face, *parts[1:], claim[2]))


@written("(Glue nat [])", None, None)
def in_the_universe(book):
    """Compositions of types, without sides and with one."""
    book.root(book.transport(Scope(), lambda _: U, NAT))
    s = LINED
    path_end(book, s.face(eq0(J)), N("P"), J, I0)
    book.root(comp_node(book, s, U, eq0(J), lambda _: NAT, papp(N("P"), J)))
    s = LINED.face(eq0(J))
    book.root(comp_node(book, s, U, join(eq1(K), F0), lambda _: NAT, NAT))


@written(None, None)
def along_glued_types(book):
    """Compositions along a glued type whose face holds the line's name or not."""
    for face in (eq0(K), join(eq1(K), eq0(J))):
        s = GLUED.var("b", glued(face))
        book.root(book.transport(s, lambda _: glued(face), b))


# The cases of `normal_cases.py`.


COMP = "(comp (<i6> (x0 @ i6)) x1 {})"
SIDE = "({}) -> <i6> (x3 @ i6)"
GLUE_SIDE = "({}) -> (x1,x2)"


def glue_texts(*faces):
    """The texts of a glued type, twice, of an element, and of two elements unglued."""
    def system(side):
        sides = [side.format(face) for face in faces]
        return "[ " + ", ".join(sides) + " ]" if sides else "[]"
    of, at = system(GLUE_SIDE), system("({}) -> x5")
    return [f"(Glue x0 {of})"] * 2 + [f"(glue (x2.1 x5) {at})", f"(unglue x6 {of})", "(x2.1 x5)"]


OLD = {
    "formulas": ["(x0 @ i1)", "(x0 @ (i1 \\/ i2))", "(x0 @ i1)", "(x0 @ i2)",
                 "(x0 @ (i1 /\\ -i1))"],
    "bodies": ["(<i1> (x0 @ i1))"],
    "types_of_paths": ["(PathP (<i2> x0) x1 x1)"] * 2,
    "compositions": [COMP.format("[ " + SIDE.format("i4=0") + " ]"),
                     COMP.format("[ " + SIDE.format("i4=0") + ", " + SIDE.format("i5=1") + " ]"),
                     COMP.format("[]")],
    "fixed_names": ["(comp (<i4> (x0 @ i1)) x2 [ (i1=0) -> <i4> x2, (i3=1) -> <i4> x2 ])"],
    "systems": [COMP.format("[ " + SIDE.format("i4=0") + ", " + SIDE.format("i5=0") + " ]")],
    "glued": glue_texts("i3=0") + glue_texts("i3=0", "i4=1") + glue_texts(),
}
for function in normal_cases.CASES:
    CASES.append(Case(function.__name__, OLD[function.__name__], function))


# Running them.


def ran(program, lines, *words):
    """What the program prints on these lines."""
    done = subprocess.run([program, *words], input="".join(lines).encode(), stdout=subprocess.PIPE)
    return done.stdout.decode()


def normal_texts(program, lines):
    return [line.split(": ", 1)[-1] for line in ran(program, lines).splitlines()]


def faults(program, one):
    """What is wrong with the answers on a case."""
    book = univalence.Book()
    one.write(book)
    lines = [line + "\n" for line in book.rows]
    found = normal_texts(program, lines)
    if len(found) != len(one.texts):
        yield f"{len(found)} answers, not {len(one.texts)}"
    for wanted, text in zip(one.texts, found):
        if wanted not in (None, text):
            yield f"{text}, not {wanted}"
    files = ran(program, lines, "forms").split("rules 1\n")[1:]
    if len(files) != len(found):
        yield f"{len(files)} files of normal forms, not {len(found)}"
    for text, file in zip(found, files):
        yield from form_faults(program, text, ["rules 1\n" + file])


def form_faults(program, text, lines):
    """What is wrong with the file of a normal form."""
    again = normal_texts(program, lines)
    if again != [text]:
        yield f"{text} is not its own normal form: {again}"
    for tree, fault in normal_trees.root_faults("".join(lines).splitlines()):
        if fault is not None:
            yield f"{text} is not normal: {fault} in {tree}"


def main(program, names):
    cases = [one for one in CASES if not names or one.name in names]
    failed = 0
    for one in cases:
        wrong = list(faults(program, one))
        failed += bool(wrong)
        for fault in wrong:
            print(f"{one.name}: {fault}")
    print(f"{len(cases) - failed} passed, {failed} failed")
    sys.exit(failed > 0)


if __name__ == "__main__":
    if len(sys.argv) < 2:
        sys.exit(__doc__.strip())
    main(sys.argv[1], sys.argv[2:])
