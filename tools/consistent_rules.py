#!/usr/bin/env python3
"""Writes `tests/consistent_rules.drv`: uses of the rules of systems, composition and Glue at parts
that are variables, lines that depend on their name, and faces over names, where the faces of each
context are true at some point, but for `empty`. A node after each takes what it concludes.

    python3 tools/consistent_rules.py
"""
import pathlib

import judge
from deriving import Book, Scope, wants
from kan import (I0, I1, app, bind, eq0, eq1, equiv, fst, glue, join, least, neg, op, pair, papp,
                 pathp, pi, plam, unglue)

FILE = pathlib.Path(__file__).resolve().parent.parent / "tests" / "consistent_rules.drv"

meet, glue_type = op("meet"), op("Glue")
NAT, U = ("nat",), ("U",)
I, J, K, M, V = (("name", word) for word in "ijkmv")

# Variables that are paths, each from a variable to another: a line of types, elements of it,
# numbers, functions, equivalences.
F, S, N, H, W = (("name", word) for word in "Fsnhw")
F0, S0, N0, H0 = (("name", word + "0") for word in "Fsnh")


def line(r):
    return papp(F, r)


def element(r):
    return papp(S, r)


def number(r):
    return papp(N, r)


def equivalence(r):
    return papp(W, r)


def other_line(r):
    return line(neg(r))


def other_element(r):
    return element(neg(r))


def image(r):
    """That of an element of the other line."""
    return app(fst(equivalence(r)), other_element(r))


def to_element(r, v):
    return pathp(lambda _: line(r), v, element(r))


def functions(r):
    return pi(line(r), lambda v: to_element(r, v))


def equivalences(r):
    return equiv(other_line(r), line(r))


def with_path(scope, path, over):
    for r, end in ((I0, "0"), (I1, "1")):
        scope = scope.var(path[1] + end, over(r))
    return scope.var(path[1], pathp(over, *(("name", path[1] + end) for end in "01")))


NAMES = Scope().name("k", "m")
NUMBERS = with_path(NAMES, N, lambda _: NAT)
LINES = with_path(with_path(NAMES, F, lambda _: U), S, line)
FUNCTIONS = with_path(LINES, H, functions)
EQUIVALENCES = with_path(LINES, W, equivalences)


class Uses(Book):
    """A book with uses of rules for their own sake, and equations of named trees."""

    def use(self, name, parts):
        """A use where each context of the premises has points, but for rules that want none."""
        for _, ctx, *_ in wants(name, parts):
            if not any(judge.points(ctx)) and not name.startswith("empty"):
                raise ValueError(f"{name} in {ctx}")
        self.taken(self.node(name, *parts))

    def starts(self, scope, path):
        """A path at 0 is where it starts."""
        return self.start(scope.ctx, scope.of(path))

    def ends(self, scope, line, r, end):
        """`line(r) = line(end)`, where these have one value."""
        return self.end(scope.ctx, scope.name("i").of(line(I)), scope.of(r), scope.of(end))

    def same_again(self, scope, line, r):
        """`again(line, r) = line(r)`"""
        return self.beta(scope.ctx, scope.name("i").of(line(I)), scope.of(r))


def again(line, r):
    return papp(plam(line), r)


# Systems: on (k=0) along one name, on (m=1) along the other, against its direction. Where both are
# true the sides are not the same tree, but equal.


def systems(book):
    p, q = eq0(K), eq1(M)
    for scope, along, rules, rest in ((LINES, line, "sys.ty sys.tyleft sys.tyright", []),
                                      (NUMBERS, number, "sys.tm sys.left sys.right", [NAT])):
        here = scope.face(join(p, q))
        both = here.face(p).face(q)
        book.joined(book.ends(both, along, M, I1), book.ends(both, along, neg(K), I1))
        for rule in rules.split():
            book.use(rule, [here.ctx, *map(here.of, (p, q, along(M), along(neg(K)), *rest))])
    nowhere = LINES.face(eq0(K)).face(eq1(K))
    book.use("empty.ty", [nowhere.ctx])
    book.use("empty.tm", [nowhere.ctx, nowhere.of(line(M))])


# Composition, where (k=0) or (m=1).


BOX = join(eq0(K), eq1(M))


def composition(scope, over, face, side, base):
    """The parts of a composition: what stands over its name, its face, sides and base."""
    sides = scope.face(face).name("i")
    return [scope.ctx, *over, scope.of(face), sides.of(side), scope.of(base)]


def compositions(book):
    for scope, path in ((LINES, S), (NUMBERS, N), (FUNCTIONS, H)):
        book.starts(scope.face(BOX), path)
    book.use("comp.zero", [NAMES.ctx, NAMES.of(BOX)])
    book.use("comp.suc", composition(NUMBERS, [], BOX, number(I), N0))
    for rule in ("comp", "comp.face"):
        book.use(rule, of_elements())
    book.use("comp.cong", equal_compositions(book))
    book.use("comp.pi", composition(FUNCTIONS, family(FUNCTIONS), BOX, papp(H, I), H0))
    book.use("comp.sig", composition(LINES, family(LINES), BOX, loop(I), loop(I0)))
    over = LINES.name("i")
    square = [LINES.name("i", "j").of(line(corner(I, J))),
              *(over.of(element(corner(I, end))) for end in (I0, I1))]
    book.use("comp.path", composition(LINES, square, BOX, across(I), across(I0)))


def of_elements():
    return composition(LINES, [LINES.name("i").of(line(I))], BOX, element(I), S0)


def family(scope):
    """A line, and types that depend on its elements."""
    over = scope.name("i")
    return [over.of(line(I)), over.var("v", line(I)).of(to_element(I, V))]


def loop(r):
    return pair(element(r), plam(lambda _: element(r)))


def corner(r, t):
    return least(r, neg(t))


def across(r):
    return plam(lambda t: element(corner(r, t)))


def equal_compositions(book):
    """The parts of two: the line, the face, the sides and the base of one are other trees."""
    over, sides = LINES.name("i"), LINES.face(BOX).name("i")
    book.same_again(over, line, I)
    book.same_again(sides, element, I)
    book.starts(LINES, S)
    return [LINES.ctx, over.of(line(I)), over.of(again(line, I)), LINES.of(BOX),
            LINES.of(join(eq1(M), eq0(K))), sides.of(element(I)), sides.of(again(element, I)),
            LINES.of(S0), LINES.of(element(I0))]


# Glue, on (k=0). There the image of an element is where a path `h` starts; `g` is a variable.


ON = eq0(K)
GLUE = [line(M), ON, other_line(M), equivalence(M)]
G = ("name", "g")
GLUED = (EQUIVALENCES.var("z", line(M))
         .var("h", pathp(lambda _: line(M), image(M), ("name", "z"))).var("g", glue_type(*GLUE)))


def of_glued(*others):
    """The parts of a rule of Glue."""
    return [GLUED.ctx, *map(GLUED.of, (*GLUE, *others))]


def gluing(book):
    on, line_to_image = GLUED.face(ON), lambda r: papp(H, r)
    book.joined(book.ends(on, line_to_image, K, I0), book.starts(on, H))
    for rule in ("glue.ty", "glue.u", "glue.tyface", "glue.uface"):
        book.use(rule, of_glued())
    for rule in ("glue", "glue.face", "glue.beta"):
        book.use(rule, of_glued(other_element(M), line_to_image(K)))
    for rule in ("unglue", "unglue.face"):
        book.use(rule, of_glued(G))
    book.use("glue.eta", glued_again(book))
    equal_gluings(book)


def glued_again(book):
    """The parts of `glue.eta` for a variable, and what is glued of it and its image."""
    base = unglue(*GLUE[1:], G)
    for rule in ("glue.beta", "glue.face"):
        book.node(rule, *of_glued(G, base))
    return of_glued(G, glue(ON, G, base))


def equal_gluings(book):
    """The parts of types of glued elements, of which one has other trees, and another face."""
    on, lines = GLUED.face(ON), (line, other_line, equivalence)
    for scope, of in zip((GLUED, on, on), lines):
        book.same_again(scope, of, M)
    book.same_again(GLUED, lambda _: G, K)
    ctx, A, p, T, w = of_glued()
    q = GLUED.of(("all", bind(lambda _: ON)))
    B, other, z = (GLUED.of(again(of, M)) for of in lines)
    for rule in ("glue.tycong", "glue.ucong"):
        book.use(rule, [ctx, A, B, p, q, T, other, w, z])
    same = map(GLUED.of, (G, again(lambda _: G, K)))
    book.use("unglue.cong", [ctx, A, p, T, w, q, other, z, *same])


# Composition of glued elements, and of types.


def glued_composition(scope, q, p):
    """The parts of a composition on `p`, where the other line is glued on `q(i)`."""
    over = scope.name("i")
    glued = [glue(q(r), other_element(r), image(r)) for r in (I, I0)]
    return composition(scope, map(over.of, (line(I), q(I), other_line(I), equivalence(I))), p,
                       *glued)


def of_types(book):
    def face(r):
        return join(meet(eq1(r), eq1(M)), eq0(K))

    book.use("comp.glue", glued_composition(EQUIVALENCES, face, join(eq0(K), eq0(M))))
    book.starts(LINES.face(BOX), F)
    book.use("comp.u", composition(LINES, [], BOX, line(I), F0))


def main():
    book = Uses()
    for some in (systems, compositions, gluing, of_types):
        some(book)
    FILE.write_text("".join(row + "\n" for row in book.rows))


if __name__ == "__main__":
    main()
