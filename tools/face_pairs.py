#!/usr/bin/env python3
"""Pairs of terms and types with parts under faces, as derivation files, and what is expected.

    tools/face_pairs.py NAME > NAME.drv     the roots are the pairs, each of two typings
    tools/face_pairs.py PROGRAM             compares all on `evaluating`, and counts the wrong answers
"""
import subprocess
import sys

import judge
import kan
from deriving import Scope
from kan import app, bind, eq0, eq1, fst, join, lam, pair, papp, pathp, plam, snd
from univalence import (
    EMPTY, F0, I0, I1, ID, NAT, U, ZERO, Book, N, derive_glue_line, derive_id_equiv, suc)

ONE = suc(ZERO)


class Pairs(Book):
    """A book of pairs, and whether each is equal, or else the first steps of its trail."""

    def __init__(self):
        super().__init__()
        self.expected = []

    def pair(self, left, right, expected):
        for claim in (left, right):
            self.rows.append(f"r {self.derived(claim)}")
        self.expected.append(expected)

    def terms(self, s, left, right, of, expected):
        of = s.of(of)
        self.pair(("Tm", s.ctx, s.of(left), of), ("Tm", s.ctx, s.of(right), of), expected)

    def types(self, s, left, right, expected):
        self.pair(("Ty", s.ctx, s.of(left)), ("Ty", s.ctx, s.of(right)), expected)

    def absurd(self, s, left, right, of):
        return self.node("tmeq.absurd", s.ctx, s.of(left), s.of(right), s.of(of))

    def redex(self, s, of, tree):
        """A term that a rule rewrites to another."""
        of, tree = s.of(of), s.of(tree)
        up = judge.apply(of, judge.shift_by(1))
        self.node("lam", s.ctx, of, ("var", 0), up)
        self.node("app", s.ctx, ("lam", of, ("var", 0)), tree, of, up)
        return ("app", ("lam", of, ("var", 0)), tree)


def path_eta(book, s, p, of):
    """`plam (p @ i)`, derived."""
    ctx, c, of = s.ctx, s.of(N(p)), s.of(of)
    book.node("path.left", ctx, c, *of[1:])
    book.node("path.right", ctx, c, *of[1:])
    tree = s.of(plam(lambda i: papp(N(p), i)))
    return book.node("plam", ctx, of[1], tree[1], *of[2:])


def paths(book):
    of = pathp(lambda _: NAT, ZERO, ONE)
    s = Scope().var("p", of).var("q", of)
    p, q = path_eta(book, s, "p", of), path_eta(book, s, "q", of)
    var = lambda word: ("Tm", s.ctx, s.of(N(word)), s.of(of))
    book.derived(var("p"))
    book.derived(var("q"))
    book.pair(p, var("p"), "equal")
    book.pair(var("q"), q, "equal")
    book.pair(p, var("q"), "differ [Under, Into(0)]")
    book.pair(p, q, "differ [Under, Into(0)]")
    t = s.name("i", "j")
    i, j = N("i"), N("j")
    at = lambda r: book.node("papp", t.ctx, t.of(N("p")), t.of(r), NAT, ZERO, ONE)
    book.pair(at(("min", i, j)), at(("min", j, i)), "equal")
    book.pair(at(("min", i, j)), at(("max", j, i)), "differ [Into(1)]")
    book.pair(at(("min", i, ("neg", i))), at(("min", i, ("neg", i))), "equal")
    u = t.face(eq0(i))
    at = lambda r: book.node("papp", u.ctx, u.of(N("p")), u.of(r), NAT, ZERO, ONE)
    book.pair(at(("max", i, j)), at(j), "equal")
    book.pair(at(("min", i, j)), at(I0), "equal")
    book.pair(at(j), at(("neg", j)), "differ [Into(1)]")
    types = lambda n: ("pathp", NAT, ZERO, n)
    book.types(s, types(ONE), types(suc(ONE)), "differ [Into(2), Into(0)]")


def comp_node(book, s, line, p, b, a):
    return book.node("comp", s.ctx, s.of(bind(line), 1), s.of(p), s.of(bind(b), 1), s.of(a))


def no_side(book, s, line, a):
    """comp line f0 empty a"""
    inner = s.face(F0)
    ctx = inner.ctx
    tree = s.of(bind(line), 1)
    of = judge.MADE["at"](tree, I0)
    a = s.of(a)
    book.derived(("Tm", s.ctx, a, of))
    book.node("tm.sub", ctx, ID, s.ctx, a, of)
    book.moved_line(s.ctx, tree)
    book.node("tmeq.absurd", ctx, a, EMPTY, of)
    return book.node("comp", s.ctx, tree, F0, EMPTY, a)


def bases(book):
    s = Scope().var("A", U).var("F", kan.pi(NAT, lambda _: U)).var("a", N("A")).var("b", N("A"))
    s = s.var("n", NAT).var("c", app(N("F"), N("n")))
    A = N("A")
    a, b = (no_side(book, s, lambda _: A, N(word)) for word in "ab")
    redex = book.redex(s, A, N("a"))
    inner = s.ctx + (("face", F0),)
    of = s.of(A)
    book.node("tm.sub", inner, ID, s.ctx, redex, of)
    book.moved_line(s.ctx, judge.apply(of, judge.shift_by(1)))
    book.node("tmeq.absurd", inner, redex, EMPTY, of)
    made = book.node("comp", s.ctx, judge.apply(of, judge.shift_by(1)), F0, EMPTY, redex)
    book.pair(a, a, "equal")
    book.pair(a, b, "differ [Into(3)]")
    book.pair(a, made, "equal")
    book.pair(made, b, "differ [Into(3)]")
    c = no_side(book, s, lambda _: app(N("F"), N("n")), N("c"))
    book.pair(c, c, "equal")
    book.pair(c, ("Tm", s.ctx, s.of(N("c")), c[3]), "differ []")
    book.pair(a, ("Tm", s.ctx, s.of(N("a")), a[3]), "differ []")


def sided(book, s, A, p, side, base):
    """comp A p side base, where the side at 0 is the base on p by an equation derived before."""
    return comp_node(book, s, lambda _: A, p, side, base)


def sides(book):
    A, a = N("A"), N("a")
    loop = pathp(lambda _: N("A"), N("a"), N("a"))
    s = Scope().var("A", U).var("a", A).var("P", loop).var("Q", loop).name("i")
    i = N("i")

    def made(p, word):
        t = s.face(p)
        path = t.of(N(word))
        left = book.node("path.left", t.ctx, path, *t.of(loop)[1:])
        book.derived(("TmEq", t.ctx, left[3], left[2], left[4]))
        return comp_node(book, s, lambda _: A, p, lambda j: papp(N(word), j), a)

    P = made(eq0(i), "P")
    again = made(join(eq0(i), F0), "P")
    Q = made(eq0(i), "Q")
    other = made(eq1(i), "P")
    both = made(join(eq0(i), eq1(i)), "P")
    swapped = made(join(eq1(i), eq0(i)), "P")
    both_q = made(join(eq0(i), eq1(i)), "Q")
    book.pair(P, again, "equal")
    book.pair(P, Q, "differ [Into(2), Into(0)]")
    book.pair(P, other, "differ [Into(1)]")
    book.pair(again, both, "differ [Into(1)]")
    book.pair(both, swapped, "equal")
    book.pair(swapped, both_q, "differ [Into(2), Into(0)]")
    none = no_side(book, s, lambda _: A, a)
    book.pair(none, P, "differ [Into(1)]")
    # a system of P and Q, against P alone
    p = join(eq0(i), eq1(i))
    t = s.face(p)
    u = t.name("j")
    of = A
    first, second = u.face(eq0(i)), u.face(eq1(i))
    j = N("j")
    for v, word in ((first, "P"), (second, "Q"), (second, "P")):
        book.derived(("Tm", v.ctx, v.of(papp(N(word), j)), v.of(A)))
    meet = first.face(eq1(i))
    for word in "PQ":
        book.derived(("Tm", meet.ctx, meet.of(papp(N(word), j)), meet.of(A)))
    for word, expected in (("Q", "differ [Into(2), Into(0)]"), ("P", "equal")):
        system = ("sys", eq0(i), eq1(i), papp(N("P"), j), papp(N(word), j))
        if word == "Q":
            book.absurd(meet, papp(N("P"), j), papp(N("Q"), j), A)
            nowhere = t.face(eq0(i)).face(eq1(i))
            for name in "PQ":
                book.derived(("Tm", nowhere.ctx, nowhere.of(papp(N(name), I0)), nowhere.of(A)))
            book.absurd(nowhere, papp(N("P"), I0), papp(N("Q"), I0), A)
        parts = [u.of(tree) for tree in system[1:]] + [u.of(A)]
        whole = book.node("sys.tm", u.ctx, *parts)
        # its start is a
        zero = judge.push(ID, I0)
        for rule, v, face, at in (("sys.left", first, eq0(i), "P"), ("sys.right", second, eq1(i), word)):
            e = book.node(rule, u.ctx, *parts)
            there = t.face(face)
            e = book.node("tmeq.sub", there.ctx, zero, v.ctx, *e[2:])
            start = book.node("path.left", there.ctx, there.of(N(at)), *there.of(loop)[1:])
            e = book.joined(e, start)
            book.node("tmeq.sym", *e[1:])
        start = judge.MADE["at"](whole[2], I0)
        book.derived(("Tm", t.ctx, start, t.of(A)))
        book.node("tmeq.cover", t.ctx, t.of(eq0(i)), t.of(eq1(i)), t.of(a), start, t.of(A))
        book.pair(book.node("comp", s.ctx, u.of(A), s.of(p), whole[2], s.of(a)), both, expected)


def scope_of_glued():
    T, A = N("T"), N("A")
    s = Scope().var("T", U).var("A", U).var("w", kan.equiv(T, A)).var("v", kan.equiv(T, A))
    return s.name("i")


def glued_type(p, w="w"):
    return ("Glue", N("A"), p, N("T"), N(w))


def glue_types(book):
    s = scope_of_glued()
    i = N("i")
    X = glued_type(eq0(i))
    book.types(s, X, glued_type(join(eq0(i), F0)), "equal")
    book.types(s, X, glued_type(eq0(i), "v"), "differ [Into(3)]")
    book.types(s, X, glued_type(eq1(i)), "differ [Into(1)]")
    book.types(s, X, N("A"), "differ []")
    book.types(s, X, NAT, "differ []")
    both = join(eq0(i), eq1(i))
    book.types(s, glued_type(both), glued_type(join(eq1(i), eq0(i))), "equal")
    book.types(s, glued_type(both), glued_type(both, "v"), "differ [Into(3)]")
    small = lambda tree: book.node("glue.u", s.ctx, *s.of(tree)[1:])
    book.pair(small(X), small(glued_type(join(eq0(i), F0))), "equal")
    book.pair(small(X), small(glued_type(eq0(i), "v")), "differ [Into(3)]")
    book.pair(small(X), small(glued_type(eq1(i))), "differ [Into(1)]")
    redex = book.redex(s, U, X)
    book.pair(("Ty", s.ctx, redex), ("Ty", s.ctx, s.of(X)), "equal")
    book.pair(("Ty", s.ctx, s.of(glued_type(join(eq0(i), F0)))), ("Ty", s.ctx, redex), "equal")
    book.pair(("Ty", s.ctx, s.of(glued_type(eq1(i)))), ("Ty", s.ctx, redex), "differ [Into(1)]")
    there = s.face(eq0(i))
    book.types(there, X, N("T"), "equal")
    book.types(there, X, N("A"), "differ []")
    book.types(there, N("T"), glued_type(eq0(i), "v"), "equal")
    nowhere = there.face(eq1(i))
    book.types(nowhere, N("T"), N("A"), "equal")
    book.terms(nowhere, N("w"), N("v"), kan.equiv(N("T"), N("A")), "equal")


def glue_elements(book):
    s = scope_of_glued()
    i = N("i")
    p = eq0(i)
    X = glued_type(p)
    s = s.var("x", X).var("y", X)
    A, T, w = N("A"), N("T"), N("w")
    un = lambda word, face=p: ("unglue", face, T, w, N(word))
    t = s.face(p)

    def made(word, face=p, base=None):
        """glue p x (unglue x), of x"""
        parts = s.of(("Glue", A, face, T, w))[1:]
        t = s.face(face)
        of = t.of(X)
        book.node("glue.tyface", s.ctx, *s.of(X)[1:])
        eq = book.node("glue.tyface", s.ctx, *parts)
        term = t.of(N(word))
        book.derived(("Tm", t.ctx, term, of))
        same = book.nodes.get(("TyEq", t.ctx, of, t.of(T)))
        if same is None:
            u = s.face(p)
            book.node("tyeq.sub", t.ctx, ID, u.ctx, u.of(X), u.of(T))
        book.node("tm.conv", t.ctx, term, of, t.of(T))
        unglued = s.of(un(word))
        e = book.node("unglue.face", s.ctx, *s.of(X)[1:], s.of(N(word)))
        e = book.node("tmeq.sub", t.ctx, ID, s.face(p).ctx, *e[2:])
        book.node("tmeq.sym", *e[1:])
        book.derived(("Tm", s.ctx, unglued, s.of(A)))
        return book.node("glue", s.ctx, *parts, s.of(N(word)), unglued)

    x, y = made("x"), made("y")
    var = lambda word: ("Tm", s.ctx, s.of(N(word)), s.of(X))
    book.pair(x, var("x"), "equal")
    book.pair(var("y"), y, "equal")
    book.pair(x, y, "differ []")
    book.pair(x, var("y"), "differ []")
    book.pair(var("x"), var("y"), "differ []")
    book.terms(s, un("x"), un("y"), A, "differ [Into(3)]")
    book.terms(s, un("x"), un("x"), A, "equal")
    of = ("Tm", s.ctx, s.of(un("x")), s.of(A))
    again = book.node("unglue", s.ctx, *s.of(X)[1:], x[2])
    book.pair(of, again, "equal")
    redex = book.redex(s, X, N("x"))
    book.pair(("Tm", s.ctx, redex, s.of(X)), x, "equal")
    unglued = book.node("unglue", s.ctx, *s.of(X)[1:], redex)
    book.pair(unglued, of, "equal")
    # another face that is the same, with its own type
    q = join(p, F0)
    Y = glued_type(q)
    for word in "xy":
        book.derived(("Tm", s.ctx, s.of(N(word)), s.of(X)))
    eq = types_equal(book, s, X, Y)
    conv = book.node("tm.conv", s.ctx, s.of(N("x")), s.of(X), s.of(Y))
    other = book.node("unglue", s.ctx, *s.of(Y)[1:], s.of(N("x")))
    book.pair(other, of, "equal")
    book.node("tm.conv", s.ctx, s.of(N("y")), s.of(X), s.of(Y))
    wrong = book.node("unglue", s.ctx, *s.of(Y)[1:], s.of(N("y")))
    book.pair(wrong, of, "differ [Into(3)]")
    book.pair(conv, book.node("tm.conv", s.ctx, x[2], s.of(X), s.of(Y)), "equal")


def types_equal(book, s, X, Y):
    """Glue A p T w = Glue A q T w"""
    _, A, p, T, w = s.of(X)
    t = s.face(X[2])
    for claim in (("TyEq", t.ctx, T, T), ("TmEq", t.ctx, w, w, t.of(kan.equiv(N("T"), N("A"))))):
        book.derived(claim)
    return book.node("glue.tycong", s.ctx, A, A, p, s.of(Y)[2], T, T, w, w)


def glue_lines(book):
    """A glued type with two sides, of equivalences that are one by eta, that are others, and at
    which the sides stand in another order."""
    derive_id_equiv(book)
    A, B, e, f = map(N, "ABef")
    of = kan.equiv(A, B)
    s = Scope().var("A", U).var("B", U).var("e", of).var("f", of)
    halves = pair(fst(e), snd(e))
    lines = {name: derive_glue_line(book, s, A, B, tree)[0]
             for name, tree in (("e", e), ("f", f), ("halves", halves))}
    book.pair(lines["e"], lines["e"], "equal")
    book.pair(lines["e"], lines["halves"], "equal")
    book.pair(lines["halves"], lines["e"], "equal")
    book.pair(lines["e"], lines["f"], "differ [Into(3)]")
    book.pair(lines["halves"], lines["f"], "differ [Into(3), First, Into(0)]")
    types = [book.node("ty.u", *lines[name][1:3]) for name in ("e", "halves", "f")]
    book.pair(types[0], types[1], "equal")
    book.pair(types[1], types[2], "differ [Into(3), First, Into(0)]")
    t = s.name("i")
    moved = book.redex(t, U, made(lines["halves"][2]))
    book.pair(("Ty", t.ctx, moved), types[0], "equal")
    large = book.node("glue.ty", *lines["e"][1:2], *lines["e"][2][1:])
    book.pair(large, types[1], "equal")
    book.pair(types[2], large, "differ [Into(3)]")


def made(tree):
    """A tree over the indices of a scope, where one with names is wanted."""
    return tree


def glue_faces(book):
    """Elements of a glued type that are one, unglued, and differ where the face is true."""
    T, A, base, h = N("T"), N("A"), N("o"), N("h")
    constant = lam(T, lambda _: base)
    s = Scope().var("T", U).var("A", U).var("o", A).var("h", kan.is_equiv(T, A, constant))
    s = s.var("c", T).var("d", T).name("i")
    i = N("i")
    map_ = pair(constant, h)
    book.derived(("Tm", s.ctx, s.of(map_), s.of(kan.equiv(T, A))))
    elements = {}
    p = join(eq0(i), eq1(i))
    t = s.face(p)
    for word in "cd":
        w, f, x = t.of(map_), t.of(constant), t.of(N(word))
        of = t.of(kan.equiv(T, A))
        book.derived(("Tm", t.ctx, w, of))
        first = book.node("sig.beta1", t.ctx, *w[1:], *of[1:])
        image = book.node("app.cong", t.ctx, first[2], f, x, x, *of[1][1:])
        beta = book.node("pi.beta", t.ctx, f[1], f[2], x, of[1][2])
        book.joined(image, beta)
        elements[word] = book.at(s, "glue", A, p, T, map_, N(word), base)
    c, d = elements["c"], elements["d"]
    book.pair(c, c, "equal")
    book.pair(c, d, "differ []")
    redex = book.redex(s, elements["d"][3], elements["d"][2])
    book.pair(("Tm", s.ctx, redex, d[3]), d, "equal")
    book.pair(c, ("Tm", s.ctx, redex, d[3]), "differ []")
    there = s.face(eq1(i))
    for one, other, expected in (("c", "d", "differ []"), ("c", "c", "equal")):
        left, right = elements[one], elements[other]
        left = book.node("tm.sub", there.ctx, ID, *left[1:])
        right = book.node("tm.sub", there.ctx, ID, *right[1:])
        book.pair(left, right, expected)


TESTS = {test.__name__: test for test in (
    paths, bases, sides, glue_types, glue_elements, glue_lines, glue_faces)}


def compared(program, name):
    """How many answers of a test are wrong."""
    book = Pairs()
    TESTS[name](book)
    lines = "".join(line + "\n" for line in book.rows)
    verdict = judge.answer(lines.encode())
    said = subprocess.run([program, "pairs"], input=lines.encode(), stdout=subprocess.PIPE).stdout
    found = said.decode().splitlines()
    failed = 0
    for at, expected in enumerate(book.expected):
        line = found[at] if at < len(found) else "nothing"
        if not line.startswith(f"pair {at}: {expected}"):
            failed += 1
            print(f"{name} {at}: expected {expected}; {line}")
    if len(found) != len(book.expected):
        print(name, verdict, found)
    return failed, len(book.expected)


def main(word):
    if word in TESTS:
        book = Pairs()
        TESTS[word](book)
        sys.stdout.write("".join(line + "\n" for line in book.rows))
        return
    failed, count = map(sum, zip(*(compared(word, name) for name in TESTS)))
    print(f"{count - failed} passed, {failed} failed")
    sys.exit(failed > 0)


if __name__ == "__main__":
    main(sys.argv[1])
