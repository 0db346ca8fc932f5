#!/usr/bin/env python3
"""Tries `normal` on the cases of `normal_table.py` and on generated terms.

    tools/try_normal.py PROGRAM [--count N] [--seed S]

The cases that a definition can be written of are closed, and written as modules: a variable becomes
one of a lambda, and a name that of a path between the ends. The text that is printed has to end as
the table says. N terms besides are made by `generating.py`, over all forms; what is printed has to
be the text of `evaluator.py`. In both cases the file has to be right by `replay`, with one root,
and what is printed is written back as a definition of the same type, whose normal form is itself.
The last line counts all.
"""
import random
import re

import normal_table
import univalence
from evaluator import (EVERYWHERE, NOWHERE, ONE, ZERO, atom, both, either, high, is_one, is_zero,
                       low, negated, put, shown)
from generating import PRELUDE, Maker, Place, Stuck, definition_text, first_place
from running import Wrong, hold, within
from trying import Trial, options

KEPT = ("yes", "no", "spent")  # words with which no normal form begins
LONG = 20000  # characters of a normal form that is written back


# The cases of the table, as texts.


class NoText(Exception):
    """No text spells this."""


def has_no_type(tree):
    """Whether a tree is of a form that is checked alone."""
    return tree[0] in ("pair", "plam", "glue") or tree[0] in ("fst", "snd", "app", "papp") and (
        has_no_type(tree[1]))


class Text:
    """Writes trees, with names for the entries of a context, the innermost last."""

    def __init__(self, names=()):
        self.names = names

    def under(self, mark):
        name = f"{mark}{len(self.names)}"
        return Text((*self.names, name)), name

    def of(self, tree):
        word, *kids = tree
        if word == "var":
            return self.names[-1 - kids[0]]
        if word in ("nat", "zero", "U"):
            return word
        if word in ("pi", "sig", "lam"):
            inner, name = self.under("x")
            form = {"pi": "(({0} : {1}) -> {2})", "sig": "(({0} : {1}) * {2})",
                    "lam": "(\\({0} : {1}) -> {2})"}[word]
            return form.format(name, self.of(kids[0]), inner.of(kids[1]))
        if word in ("comp", "Glue", "glue", "unglue"):
            return self.faced(word, kids)
        if word == "natrec":
            inner, name = self.under("x")
            rest = " ".join(self.of(kid) for kid in kids[1:])
            return f"(natrec (\\({name} : nat) -> {inner.of(kids[0])}) {rest})"
        if word in ("app", "fst", "snd", "papp") and has_no_type(kids[0]):
            raise NoText("what has no type of its own")
        form = {"app": "({} {})", "pair": "({}, {})", "fst": "{}.1", "snd": "{}.2",
                "suc": "(suc {})"}.get(word)
        return form.format(*map(self.of, kids)) if form else self.of_path(word, *kids)

    def of_path(self, word, *kids):
        if word in ("plam", "pathp"):
            inner, name = self.under("i")
            line = f"(<{name}> {inner.of(kids[0])})"
            ends = " ".join(map(self.of, kids[1:]))
            return line if word == "plam" else f"(PathP {line} {ends})"
        if word == "papp":
            return f"({self.of(kids[0])} @ {self.formula(kids[1])})"
        raise NoText(word)

    def faced(self, word, kids):
        if word == "comp":
            line, face, side, base = kids
            inner, name = self.under("i")
            sides = self.sides(face, [side], lambda one: f"<{name}> {inner.of(*one)}", inner)
            return f"(comp (<{name}> {inner.of(line)}) {self.of(base)} {sides})"
        if word == "glue":
            face, side, base = kids
            return f"(glue {self.of(base)} {self.sides(face, [side], lambda one: self.of(*one))})"
        A, face, *pairs = kids if word == "Glue" else (kids[3], *kids[:3])
        if word == "unglue" and has_no_type(A):
            raise NoText("what has no type of its own")
        sides = self.sides(face, pairs, lambda one: f"({self.of(one[0])}, {self.of(one[1])})")
        return f"({word} {self.of(A)} {sides})"

    def sides(self, face, trees, show, inner=None):
        """The sides of a system, one for each conjunction of a face that no equations spell. The
        faces within the trees are those of an inner text."""
        found, faces = [], self.faces(face)
        while trees[0][0] == "sys":
            _, left, right, *_ = trees[0]
            found += [(one, [tree[3] for tree in trees]) for one in (inner or self).faces(left)]
            faces, trees = (inner or self).faces(right), [tree[4] for tree in trees]
        if trees[0][0] != "empty":
            found += [(one, trees) for one in faces]
        return "[" + ", ".join(f"{one} -> {show(side)}" for one, side in found) + "]"

    def faces(self, face):
        """The conjunctions of a face, as equations."""
        try:
            return [self.equations(face)]
        except NoText:
            return ["".join(f"({name}={end})" for name, end in sorted(conjunction))
                    for conjunction in self.conjunctions(face)]

    def equations(self, face):
        word, *kids = face
        if word == "meet":
            return "".join(map(self.equations, kids))
        if word in ("eq0", "eq1") and kids[0][0] == "var":
            return f"({self.of(kids[0])}={word[2]})"
        if word == "f1":
            return ""
        raise NoText(word)

    def conjunctions(self, face):
        word, *kids = face
        if word in ("eq0", "eq1"):
            return (is_one if word == "eq1" else is_zero)(self.value(kids[0]))
        if word in ("f0", "f1"):
            return EVERYWHERE if word == "f1" else NOWHERE
        return (either if word == "join" else both)(*map(self.conjunctions, kids))

    def value(self, r):
        word, *kids = r
        if word == "var":
            return atom(self.of(r))
        if word in ("i0", "i1"):
            return ONE if word == "i1" else ZERO
        made = {"neg": negated, "min": low, "max": high}[word]
        return made(*map(self.value, kids))

    def formula(self, r):
        word, *kids = r
        if word in ("i0", "i1"):
            return word[1]
        if word == "var":
            return self.of(r)
        if word == "neg":
            return f"(- {self.formula(kids[0])})"
        return "({} {} {})".format(self.formula(kids[0]), {"min": "/\\", "max": "\\/"}[word],
                                   self.formula(kids[1]))


class Claims(univalence.Book):
    """A book that keeps what its roots claim."""

    def __init__(self):
        super().__init__()
        self.claims = []

    def root(self, claim):
        self.claims.append(claim)
        super().root(claim)


def closed(claim):
    """The texts of the type and the body of a definition of what is claimed, and how deep the tree
    stands. The ends of a path are as the evaluator shows them, since an element of a glued type may
    have another type there, for which `glue` is no form."""
    form, context, tree, *of = claim
    if form == "Ty":
        tree, of = ("lam", tree, ("zero",)), [("pi", tree, ("nat",))]
    places, writers = [Place()], [Text()]
    for entry in context:
        if entry[0] == "face":
            raise NoText("a face stands around it")
        place, writer = places[-1], writers[-1]
        places.append(place.variable(place.value(writer.of(entry[1]))) if entry[0] == "var"
                      else place.name())
        writers.append(writer.under("x" if entry[0] == "var" else "i")[0])
    kind, body = writers[-1].of(of[0]), writers[-1].of(tree)
    for level, entry in reversed(list(enumerate(context))):
        if entry[0] == "var":
            domain = writers[level].of(entry[1])
            kind = f"((x{level} : {domain}) -> {kind})"
            body = f"(\\(x{level} : {domain}) -> {body})"
        else:
            value = places[level + 1].value(body)
            ends = [shown(put(value, {level: end}), level) for end in (ZERO, ONE)]
            kind, body = f"(PathP (<i{level}> {kind}) {ends[0]} {ends[1]})", f"(<i{level}> {body})"
    return kind, body, len(context)


def ending(claim, text, depth):
    """How the text of the closed form of a claim ends."""
    if claim[0] == "Ty":
        text = f"(\\(x{depth} : {text}) -> zero)"
    return text + ")" * depth


def try_table(trial):
    for case in normal_table.CASES:
        book = Claims()
        case.write(book)
        for number, (claim, wanted) in enumerate(zip(book.claims, case.texts)):
            try:
                kind, body, depth = closed(claim)
            except NoText as word:
                trial.leave_out(f"of the table: {word}")
                continue
            about = f"{case.name}, root {number}"
            trial.attempt(about, {"M.ctt": f"module M where\na : {kind} = {body}\n"}, lambda: holds(
                trial, kind, lambda text: wanted is None or text.endswith(
                    ending(claim, wanted, depth)), wanted, "of the table"))


# What must hold.


def holds(trial, kind, is_right, wanted, word, imports=""):
    """Of a module whose definition `a` has a type of that text."""
    ran = trial.run("normal", "M", "a")
    hold(ran.status == 0 and ran.text.split(":")[0] not in KEPT, said(ran.text), ran.text)
    text = ran.text.rstrip("\n")
    hold(is_right(text), "text", f"{text!r}, not {wanted!r}")
    replayed = trial.run("replay", "M.a.drv").text
    hold(re.fullmatch(r"yes: \d+ rows, 1 roots\n", replayed), "replay", replayed)
    if len(text) > LONG:
        return f"{word}, not written back"
    written = f"module N where\n{imports}b : {kind} = {text}\n"
    (trial.program.at / "N.ctt").write_text(written)
    again = trial.run("normal", "N", "b").text.rstrip("\n")
    hold(again == text, "again", f"{again!r}, not {text!r}\n{written}")
    return word


def said(text):
    return " ".join(text.split(" ")[:2]).strip()


def try_terms(trial, count, seed):
    for one in range(seed, seed + count):
        choose = random.Random(one)
        try:
            with within(3):
                place, maker = first_place(), Maker(choose)
                made, after = maker.definition(place, "a", choose.choice([1, 2, 2, 3]))
                text, wanted = definition_text(*made), shown(after.env["a"])
        except Stuck:
            trial.leave_out("nothing made")
            continue
        except TimeoutError:
            trial.leave_out("the evaluator takes long")
            continue
        _, kinds, kind, _ = made
        whole = "".join(f"(x{at} : {of}) -> " for at, of in enumerate(kinds)) + kind
        files = {"E.ctt": PRELUDE, "M.ctt": f"module M where\nimport E\n{text}\n"}
        trial.attempt(f"seed {one}", files, lambda: holds(
            trial, whole, lambda text: text == wanted, wanted, "generated", "import E\n"))


def main():
    given = options(__doc__, 2000)
    trial = Trial(given.program)
    try_table(trial)
    try_terms(trial, given.count, given.seed)
    trial.end()


if __name__ == "__main__":
    main()
