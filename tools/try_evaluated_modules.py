#!/usr/bin/env python3
"""Tries `check` on generated modules whose definitions have dependent types over all forms.

    tools/try_evaluated_modules.py PROGRAM [--count N] [--seed S]

Each module is right by construction, made by `generating.py`, or ends with a definition in which
one thing is wrong: another type, an argument that is missing, a side that does not start at the
base, and so on. What is right has to be taken, and the file to be the module's by `replay --of`.
What is wrong has to be refused by a cause that the wrong thing can have, at a place within its
text; the evidence has to be right, with one root for the causes of a wanted type and two where two
things differ. Each module is also tried with the names of definitions replaced by their bodies, of
a type that a `let` says: the answer and the lines that it shows are the same. The last line counts
all.
"""
import random
import re

from evaluator import equal, now
from generating import (PRELUDE, U, Maker, Stuck, bracketed, definition_text, first_place, fitting,
                        heading)
from running import hold, within
from trying import Trial, options

WANTED = {"WantedFunction", "WantedPair", "WantedPath", "WantedGlue", "WantedType", "UInU"}
BY_FORM = {"Mismatch", "CannotInfer", *WANTED} - {"WantedType", "UInU"}
LONG = 30000  # characters of an unfolded module that is tried


class Wrong:
    """A type, a text that does not have it, the part of it that is wrong, and the causes that this
    may have."""

    def __init__(self, kind, text, causes, part=None):
        self.kind, self.text, self.part = kind, text, part or text
        self.causes = {causes} if isinstance(causes, str) else causes


class Spoiler(Maker):
    """Makes what is wrong in one thing."""

    def named(self, kind, body):
        """A term of a type, which can be inferred."""
        name = self.fresh()
        return f"(let {name} : {kind} = {body} in {name})"

    def apart(self, place, fuel, kind=None):
        """A type, and a term of another type."""
        kind = kind or self.type(place, fuel)
        other, body = self.typed(place, fuel)
        if equal(place.value(kind), place.value(other), place.depth):
            raise Stuck
        return kind, other, body

    def not_of(self, place, fuel, word):
        """A term of a type that is of another form, which can be inferred."""
        kind, body = self.typed(place, fuel)
        if now(place.value(kind))[0] == word:
            raise Stuck
        return self.named(kind, body)

    def two(self, place, fuel):
        """A type, and two terms of it that differ."""
        kind = self.type(place, fuel)
        value = place.value(kind)
        left, right = self.term(place, value, fuel), self.term(place, value, fuel)
        if equal(place.value(left), place.value(right), place.depth):
            raise Stuck
        return kind, left, right

    def small(self, kind):
        """Stuck where a type may be no member of `U`."""
        if "U" in kind:
            raise Stuck

    # Wrong things: each a way to make one.

    def another_type(self, place, fuel):
        kind, other, body = self.apart(place, fuel)
        return Wrong(kind, self.named(other, body), "Mismatch")

    def another_form(self, place, fuel):
        kind, other, body = self.apart(place, fuel)
        if now(place.value(kind))[0] == now(place.value(other))[0]:
            raise Stuck
        return Wrong(kind, f"({body})", BY_FORM)

    def missing_argument(self, place, fuel):
        kind, body = self.typed(place, fuel)
        domain = self.type(place, 1)
        return Wrong(kind, self.named(f"({domain}) -> {bracketed(kind)}",
                                      f"\\(_ : {domain}) -> {body}"), "Mismatch")

    def argument_of_no_function(self, place, fuel):
        return Wrong("nat", f"{self.not_of(place, fuel, 'pi')} zero", "WantedFunction")

    def half_of_no_pair(self, place, fuel):
        half = self.choose.choice([".1", ".2"])
        return Wrong("nat", self.not_of(place, fuel, "sig") + half, "WantedPair")

    def point_of_no_path(self, place, fuel):
        return Wrong("nat", f"{self.not_of(place, fuel, 'pathp')} @ 0", "WantedPath")

    def unglued(self, place, fuel):
        return Wrong("nat", f"unglue {self.not_of(place, fuel, 'Glue')} []", "WantedGlue")

    def without_type(self, place, fuel):
        left, right = (self.term(place, ("nat",), fuel) for _ in range(2))
        return Wrong("nat", self.choose.choice([
            f"({left}, {right}).1", f"(<i> {left}) @ 0", f"(\\(_ : nat) -> ({left}, {right})) zero",
            f"unglue (glue {bracketed(left)} []) []", f"(\\(A : U) -> U) {bracketed(left)}"]),
            "CannotInfer")

    def a_large_type(self, place, fuel):
        kind = self.type(place, fuel)
        return Wrong("U", self.choose.choice([
            "U", f"({kind}) -> U", f"(_ : {kind}) * U", "(_ : U) -> nat", "PathP (<_> U) nat nat",
            "Glue U []"]), "UInU")

    def no_type(self, place, fuel):
        kind, body = self.typed(place, fuel)
        if now(place.value(kind)) == U:
            raise Stuck
        part = self.named(kind, body)
        text = self.choose.choice([f"let d0 : {part} = zero in zero",
                                   f"(\\(_ : {part}) -> zero) zero",
                                   f"comp (<_> {part}) zero []"])
        return Wrong("nat", text, "WantedType", part)

    def another_domain(self, place, fuel):
        domain, other, _ = self.apart(place, fuel)
        kind, body = self.typed(place, fuel)
        return Wrong(f"({domain}) -> {bracketed(kind)}", f"\\(_ : {other}) -> {body}", "Mismatch")

    def another_end(self, place, fuel):
        inner = place.name()
        line, body = self.typed(inner, fuel)
        value, name = inner.value(body), f"i{place.depth}"
        at = [self.at_end(place, line, body, end) for end in "01"]
        end = self.choose.choice([0, 1])
        of = place.value(f"(let d0 : PathP (<_> U) nat nat = <{name}> {line} in d0) @ {end}")
        other = self.term(place, of, fuel)
        if equal(place.value(other), place.value(at[end]), place.depth):
            raise Stuck
        at[end] = other
        return Wrong(f"PathP (<{name}> {line}) ({at[0]}) ({at[1]})", f"<{name}> {body}",
                     "Mismatch")

    def at_end(self, place, line, body, end):
        name = f"i{place.depth}"
        return place.shown(place.value(
            f"(let d0 : PathP (<_> nat) zero zero = <{name}> {body} in d0) @ {end}"))

    def another_half(self, place, fuel):
        kind, other, body = self.apart(place, fuel)
        first, term = self.typed(place, fuel)
        part = self.named(other, body)
        if self.choose.random() < 0.5:
            return Wrong(f"(_ : {first}) * {bracketed(kind)}", f"({term}, {part})", "Mismatch",
                         part)
        return Wrong(f"(_ : {kind}) * {bracketed(first)}", f"({part}, {term})", "Mismatch", part)

    def another_argument(self, place, fuel):
        domain, other, body = self.apart(place, fuel)
        kind, term = self.typed(place, fuel)
        part = self.named(other, body)
        f = self.named(f"({domain}) -> {bracketed(kind)}", f"\\(_ : {domain}) -> {term}")
        return Wrong(kind, f"{f} {part}", "Mismatch", part)

    def of_no_number(self, place, fuel):
        _, other, body = self.apart(place, fuel, "nat")
        part = self.named(other, body)
        return Wrong("nat", self.choose.choice([
            f"suc {part}", f"natrec (\\(_ : nat) -> nat) zero (\\(_ r : nat) -> r) {part}",
            f"natrec (\\(_ : nat) -> nat) {part} (\\(_ r : nat) -> r) zero"]), "Mismatch", part)

    def another_base(self, place, fuel):
        kind, other, body = self.apart(place, fuel)
        part = self.named(other, body)
        return Wrong(kind, self.choose.choice([
            f"transport (<_> {kind}) {part}", f"comp (<_> {kind}) {part} []"]), "Mismatch", part)

    def another_start(self, place, fuel):
        kind, left, right = self.two(place, fuel)
        i, end = f"i{place.depth}", self.choose.choice("01")
        face = self.choose.choice([f"({i}={end})", f"({i}={end})", ""])
        side = self.choose.choice([f"<_> {right}", f"fill (<_> {kind}) ({right}) []"])
        word = self.choose.choice(["comp (<_> {0}) ({1}) {2}", "(fill (<_> {0}) ({1}) {2}) @ 1"])
        return Wrong(f"PathP (<_> {kind}) ({left}) ({left})", f"<{i}> " + word.format(
            kind, left, f"[ {face} -> {side} ]"), "SidesDiffer", side)

    def sides_that_differ(self, place, fuel):
        kind, body = self.typed(place, fuel)
        i, j = f"i{place.depth}", f"i{place.depth + 1}"
        fill = f"fill (<_> {kind}) ({body}) []"
        inner = place.name()
        if equal(inner.value(f"({fill}) @ {i}"), inner.value(body), inner.depth):
            raise Stuck
        sides = [f"({i}={self.choose.choice('01')}) -> <_> {body}",
                 self.choose.choice([f"({i}=0)({j}=1)", f"({j}=1)", f"({j}=0)"]) + f" -> {fill}"]
        if sides[0][:6] != sides[1][:6] and f"({i}=1)" in sides[0] and f"({i}=0)" in sides[1]:
            raise Stuck
        self.choose.shuffle(sides)
        part = sides[1].split(" -> ", 1)[1]
        path = f"PathP (<_> {kind}) ({body}) ({body})"
        return Wrong(f"PathP (<_> {path}) (<_> {body}) (<_> {body})",
                     f"<{i} {j}> comp (<_> {kind}) ({body}) [ {', '.join(sides)} ]",
                     "SidesDiffer", part)

    def another_image(self, place, fuel):
        kind, left, right = self.two(place, fuel)
        i = f"i{place.depth}"
        self.small(kind)
        line = f"<{i}> Glue ({kind}) [ ({i}=0) -> ({kind}, same ({kind})) ]"
        return Wrong(f"PathP ({line}) ({left}) (glue ({left}) [])",
                     f"<{i}> glue ({left}) [ ({i}=0) -> {right} ]", "SidesDiffer", right)

    def another_face(self, place, fuel):
        kind, body = self.typed(place, fuel)
        i = f"i{place.depth}"
        self.small(kind)
        line = f"<{i}> Glue ({kind}) [ ({i}=0) -> ({kind}, same ({kind})) ]"
        sides = self.choose.choice([
            "", f" ({i}=1) -> {body} ", f"({i}=0) -> {body}, ({i}=1) -> {body}"])
        return Wrong(f"PathP ({line}) ({body}) (glue ({body}) [])",
                     f"<{i}> glue ({body}) [{sides}]", "WantedGlue")

    def no_equivalence(self, place, fuel):
        kind, other, _ = self.apart(place, fuel)
        self.small(kind + other)
        part = f"same ({other})"
        return Wrong("U", f"Glue ({kind}) [ -> ({kind}, {part}) ]", "Mismatch", part)

    WAYS = [another_type, another_type, another_form, missing_argument, argument_of_no_function,
            half_of_no_pair, point_of_no_path, unglued, without_type, a_large_type, no_type,
            another_domain, another_end, another_half, another_argument, of_no_number, another_base,
            another_start, another_start, sides_that_differ, sides_that_differ, another_image,
            another_face, no_equivalence]

    def wrong(self, place, fuel):
        for _ in range(60):
            try:
                return self.choose.choice(self.WAYS)(self, place, fuel)
            except Stuck:
                pass
        raise Stuck

    def embedded(self, place, one):
        """The wrong thing within another one, once or more."""
        for _ in range(self.choose.choice([0, 0, 1, 1, 2])):
            one = self.choose.choice([self.in_let, self.in_lambda, self.in_pair, self.in_side,
                                      self.in_recursion])(place, one)
        return one

    def in_let(self, place, one):
        text = f"let {self.fresh()} : {one.kind} = {one.text} in zero"
        return Wrong("nat", f"({text})", one.causes, one.part)

    def in_lambda(self, place, one):
        return Wrong(f"(_ : nat) -> {bracketed(one.kind)}", f"\\(_ : nat) -> {one.text}",
                     one.causes, one.part)

    def in_pair(self, place, one):
        return Wrong(f"(_ : {one.kind}) * nat", f"({one.text}, zero)", one.causes, one.part)

    def in_side(self, place, one):
        text = f"let {self.fresh()} : {one.kind} = {one.text} in zero"
        return Wrong("PathP (<_> nat) zero zero",
                     f"<i> comp (<_> nat) zero [ (i=1) -> <_> {text} ]", one.causes, one.part)

    def in_recursion(self, place, one):
        return Wrong(one.kind, f"natrec (\\(_ : nat) -> {one.kind}) ({one.text}) "
                               f"(\\(_ : nat) (r : {one.kind}) -> r) zero", one.causes, one.part)


class Module:
    """A module: its definitions, and what is wrong in the last one, if anything."""

    def __init__(self, definitions, wrong):
        self.definitions, self.wrong = definitions, wrong

    def text(self):
        return "module M where\nimport E\n" + "".join(
            definition_text(*one) + "\n" for one in self.definitions)

    def unfolded(self):
        """The text with the names of definitions replaced."""
        known, found = {}, []
        for name, kinds, kind, body in self.definitions:
            kinds, kind, body = ([self.replaced(text, known) for text in kinds],
                                 self.replaced(kind, known), self.replaced(body, known))
            found.append((name, kinds, kind, body))
            teles = [f"(x{at} : {text})" for at, text in enumerate(kinds)]
            whole = "".join(tele + " -> " for tele in teles) + kind
            value = f"\\{' '.join(teles)} -> {body}" if teles else body
            known[name] = f"(let {name} : {whole} = {value} in {name})"
            if sum(map(len, known.values())) > LONG:
                raise Stuck
        return "module M where\nimport E\n" + "".join(
            f"{heading(name, kinds)} : {kind} = {body}\n" for name, kinds, kind, body in found)

    def replaced(self, text, known):
        return re.sub(r"\ba\d+\b", lambda found: known[found[0]], text)


def made(choose):
    place, maker, definitions = first_place(), Spoiler(choose), []
    for number in range(choose.choice([1, 2, 2, 3, 4])):
        one, place = maker.definition(place, f"a{number}", choose.choice([1, 1, 2, 2, 3]))
        definitions.append(one)
    if choose.random() < 0.4:
        return Module(definitions, None)
    kinds, inner = maker.beginning(place)
    wrong = maker.embedded(inner, maker.wrong(inner, choose.choice([0, 1, 1, 2])))
    definitions.append((f"a{len(definitions)}", kinds, wrong.kind, fitting(wrong.text)))
    return Module(definitions, wrong)


# What must hold.


def holds(trial, module):
    text = module.text()
    ran = trial.run("check", "M")
    if module.wrong is None:
        right(trial, text, ran, len(module.definitions) + 3)
    else:
        refused(trial, text, ran, module.wrong)
    try:
        other = module.unfolded()
    except Stuck:
        return answer(ran) + ", too long to unfold"
    (trial.program.at / "M.ctt").write_text(other)
    again = trial.run("check", "M")
    hold(answer(again) == answer(ran) and lines(again) == lines(ran), "unfolded",
         f"{again.text!r}, not {ran.text!r}\n{other}")
    return answer(ran)


def right(trial, text, ran, count):
    hold(ran.text == f"yes: {count} definitions\n", f"right, {answer(ran)}", ran.text)
    replayed = trial.run("replay", "M.drv", "--of", "M").text
    roots = 2 * (count + text.count("let "))
    hold(re.fullmatch(rf"yes: \d+ rows, {roots} roots\n", replayed), "replay", replayed)


def refused(trial, text, ran, wrong):
    cause = answer(ran).split(" ")[-1]
    hold(ran.text.startswith("no: "), f"wrong, {answer(ran)}", f"{ran.text}{wrong.causes}")
    hold(cause in wrong.causes, f"cause {cause}", f"{ran.text}not {wrong.causes}: {wrong.part}")
    at = int(re.search(r" at (\d+) in M", ran.text)[1])
    parts = re.finditer(re.escape(wrong.part), text)
    hold(any(part.start() <= at < part.end() for part in parts), "place",
         f"{ran.text}not in {wrong.part}")
    hold(not (trial.program.at / "M.drv").exists(), "stored", ran.text)
    evidence = trial.program.at / "M.no.drv"
    if cause == "CannotInfer":
        return hold(not evidence.exists(), "evidence is stored", ran.text)
    replayed = trial.run("replay", "M.no.drv").text
    roots = 1 if cause in WANTED else 2
    return hold(re.fullmatch(rf"yes: \d+ rows, {roots} roots\n", replayed), "replay of evidence",
                f"{ran.text}{replayed}")


def answer(ran):
    return " ".join(ran.text.split()[:2]) if ran.text.startswith("no") else ran.text.split(":")[0]


def lines(ran):
    return ran.text.splitlines()[1:]


def main():
    given = options(__doc__, 1000)
    trial = Trial(given.program)
    for seed in range(given.seed, given.seed + given.count):
        try:
            with within(5):
                module = made(random.Random(seed))
                files = {"E.ctt": PRELUDE, "M.ctt": module.text()}
        except Stuck:
            trial.leave_out("nothing made")
            continue
        except TimeoutError:
            trial.leave_out("the evaluator takes long")
            continue
        trial.attempt(f"seed {seed}", files, lambda: holds(trial, module))
    trial.end()


if __name__ == "__main__":
    main()
