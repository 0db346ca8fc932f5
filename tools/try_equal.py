#!/usr/bin/env python3
"""Tries `check` on generated pairs of terms of one type, which are equal or not.

    tools/try_equal.py PROGRAM [--count N] [--seed S]

A term is made by `generating.py`, of a type or of `U`. The other one is the same by beta, by eta of
functions, pairs, paths and glued elements, by weakening, by a definition that is unfolded or by a
transport of numbers, or with one part exchanged for another of its type. For two terms a and b the
module says that `<_> a` is a path from a to b. The program has to say yes where `evaluator.py` says
that they are equal, and then its file is the module's by `replay --of`. Else it has to show the
normal forms that `evaluator.py` has for both, and the evidence has to be right, with two roots. The
last line counts all.
"""
import random
import re

from evaluator import equal, now, shown, shown_pairs
from generating import NAT, PRELUDE, U, Maker, Stuck, bracketed, first_place, fitting, system
from running import hold, within
from trying import Trial, options


class Pairs(Maker):
    """Makes pairs of terms, with definitions that they use."""

    def __init__(self, choose):
        super().__init__(choose)
        self.definitions = []

    def varied(self, place, kind, of, text):
        """A text that is mostly equal to this one of a type, whose text is known too."""
        ways = [self.by_identity, self.by_constant, self.by_half, self.normal, self.by_name,
                self.eta, self.eta, self.by_recursion, self.moved]
        for _ in range(self.choose.choice([1, 1, 2])):
            text = fitting(self.choose.choice(ways)(place, kind, of, text))
        return text

    def by_identity(self, place, kind, of, text):
        x, name = f"x{place.depth}", self.fresh()
        said = f"let {name} : ({x} : {kind}) -> {kind} = \\({x} : {kind}) -> {x}"
        return f"({said} in {name}) ({text})"

    def by_constant(self, place, kind, of, text):
        name = self.fresh()
        said = f"let {name} : (_ : nat) -> {bracketed(kind)} = \\(_ : nat) -> {text}"
        return f"({said} in {name}) zero"

    def by_half(self, place, kind, of, text):
        name = self.fresh()
        if kind == "U":
            return text
        return f"(let {name} : (_ : {kind}) * nat = ({text}, zero) in {name}).1"

    def normal(self, place, kind, of, text):
        return place.shown(place.value(text))

    def by_name(self, place, kind, of, text):
        name = self.fresh()
        return f"let {name} : {kind} = {text} in {name}"

    def eta(self, place, kind, of, text):
        word, *parts = now(of)
        name = self.fresh()
        named = f"(let {name} : {kind} = {text} in {name})"
        if word == "pi":
            x = f"x{place.depth}"
            return f"\\({x} : {place.shown(parts[0])}) -> {named} {x}"
        if word == "sig":
            return f"({named}.1, {named}.2)"
        if word == "pathp":
            return f"<i{place.depth}> {named} @ i{place.depth}"
        if word == "Glue":
            return self.glued_eta(place, named, *parts)
        return text

    def glued_eta(self, place, named, A, sides):
        found = []
        for face, _, _ in sides:
            for conjunction in face:
                inner = place.on(sorted(conjunction))
                found.append((sorted(conjunction), inner.shown(inner.value(named))))
        pairs = fitting(shown_pairs(place.depth, sides))
        return f"glue (unglue {named} {pairs}) {system(found)}"

    def by_recursion(self, place, kind, of, text):
        x, y = f"x{place.depth}", f"x{place.depth + 1}"
        motive = place.variable(NAT).shown(of)
        return (f"natrec (\\({x} : nat) -> {motive}) ({text}) "
                f"(\\({x} : nat) ({y} : {motive}) -> {y}) zero")

    def moved(self, place, kind, of, text):
        if now(of) != NAT:
            return text
        return f"transport (<_> nat) ({text})"

    def both(self, place, fuel):
        """Two terms of a type, with its text."""
        kind = "U" if self.choose.random() < 0.15 else self.typed(place, fuel)[0]
        of = U if kind == "U" else place.value(kind)
        part = self.choose.choice(["nat", self.type(place, 1)])
        value = place.value(part)
        inner = place.variable(value)
        left = self.term(place, value, fuel - 1)
        right, body = left, self.term(inner, of, fuel)
        if self.choose.random() < 0.6:
            right, body = self.apart(place, inner, value, of, left, fuel)
        if self.choose.random() < 0.6:
            right = self.varied(place, part, value, right)
        return kind, of, [self.put(place, inner, kind, of, part, body, one)
                          for one in self.choose.sample([left, right], 2)]

    def apart(self, place, inner, value, of, left, fuel):
        """Another term for the one part, and a body in which that is seen, if some tries do."""
        for _ in range(12):
            body = self.term(inner, of, fuel)
            right = self.term(place, value, fuel - 1)
            seen = {shown(inner.copied(env=inner.env | {f"x{place.depth}": place.value(one)})
                          .value(body), place.depth) for one in (left, right)}
            if len(seen) == 2:
                break
        return right, body

    def put(self, place, inner, kind, of, part, body, one):
        """A body with a term in the place of its last variable."""
        x, name = f"x{place.depth}", self.fresh()
        codomain = "U" if kind == "U" else inner.shown(of)
        text = (f"(let {name} : ({x} : {part}) -> {codomain} = \\({x} : {part}) -> {body} "
                f"in {name}) ({one})")
        if self.choose.random() < 0.5:
            text = place.shown(place.value(text))
        if self.choose.random() < 0.5:
            text = self.varied(place, kind, of, text)
        return fitting(text)


def made(choose):
    """A module, whether its two terms are equal, and their normal forms."""
    maker, place = Pairs(choose), first_place()
    kinds, place = maker.beginning(place)
    kind, of, texts = maker.both(place, choose.choice([1, 2, 2, 3]))
    values = [place.value(text) for text in texts]
    teles = "".join(f" (x{at} : {text})" for at, text in enumerate(kinds))
    path = f"PathP (<i{place.depth}> {kind}) ({texts[0]}) ({texts[1]})"
    module = f"module M where\nimport E\nt{teles} : {path} = <_> {texts[0]}\n"
    return module, equal(*values, place.depth), [shown(value, place.depth) for value in values]


def holds(trial, module, are_equal, forms):
    ran = trial.run("check", "M")
    first = ran.text.split(" at ")[0].strip()
    hold(ran.text == "yes: 4 definitions\n" or not are_equal, f"equal, {first}", ran.text)
    hold(ran.status == 1 or are_equal, f"not equal, {first}", f"{ran.text}{forms}")
    if are_equal:
        replayed = trial.run("replay", "M.drv", "--of", "M").text
        roots = 2 * (4 + module.count("let "))
        hold(re.fullmatch(rf"yes: \d+ rows, {roots} roots\n", replayed), "replay", replayed)
        return "equal, yes"
    hold(first == "no: Mismatch", f"not equal, {first}", ran.text)
    replayed = trial.run("replay", "M.no.drv").text
    hold(re.fullmatch(r"yes: \d+ rows, 2 roots\n", replayed), "replay of evidence", replayed)
    found = [line.split(": ", 1)[1] for line in ran.text.splitlines()[1:]]
    hold(found == forms, "lines", f"{found}, not {forms}")
    return "not equal, no"


def main():
    given = options(__doc__, 4000)
    trial = Trial(given.program)
    for seed in range(given.seed, given.seed + given.count):
        try:
            with within(3):
                module, are_equal, forms = made(random.Random(seed))
        except Stuck:
            trial.leave_out("nothing made")
            continue
        except TimeoutError:
            trial.leave_out("the evaluator takes long")
            continue
        trial.attempt(f"seed {seed}", {"E.ctt": PRELUDE, "M.ctt": module},
                      lambda: holds(trial, module, are_equal, forms))
    trial.end()


if __name__ == "__main__":
    main()
