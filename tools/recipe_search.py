"""What a recipe leaves out: contexts, substitutions, instances of what is known, conversions.

A judgement that a step wants is looked for among those that stand already; otherwise it is derived
from these, the premises of a rule in their order. Nothing is trusted: what is found is a step as
any other, and the test of `recipes` runs over it. Side conditions are looked at only to choose.
"""
from normal_forms import applied, dropped, form, look, sub_of
from recipe_faces import Faces, depth_of, entry_of
from recipe_notation import Normals
from rule_notation import BINDS

MOST_TRIED = 100
INTRODUCED = {
    "lam": "lam", "pair": "pair", "plam": "plam", "sys": "sys.tm", "empty": "empty.tm",
    "comp": "comp", "glue": "glue", "zero": "zero", "suc": "suc", "nat": "nat.u",
    "natrec": "natrec", "app": "app", "fst": "fst", "snd": "snd", "papp": "papp",
    "unglue": "unglue", "Glue": "glue.u", "pi": "pi.u", "sig": "sig.u", "pathp": "path.u",
}
FORMED = {
    "pi": "pi.ty", "sig": "sig.ty", "pathp": "path.ty", "Glue": "glue.ty", "U": "ty.univ",
    "sys": "sys.ty", "empty": "empty.ty",
}
INSTANCE = {"Ty": "ty.sub", "TyEq": "tyeq.sub", "Tm": "tm.sub", "TmEq": "tmeq.sub"}


class Stuck(Exception):
    """No way was found."""


class Step:
    """A step: the rule or recipe, its parts, the steps that are its premises, what it concludes."""

    def __init__(self, rule, parts, premises, said):
        self.rule, self.parts, self.premises, self.said = rule, parts, premises, said


class Search:
    """The steps so far, and what derives more of them.

    `homes` tells how many variables and names each part stands under.
    """

    def __init__(self, rules, homes, formulas):
        self.rules, self.homes, self.formulas = rules, homes, formulas
        self.steps, self.known, self.active = [], {}, set()
        self.failed, self.fuel = set(), MOST_TRIED
        self.faces = Faces(self)

    # Steps.

    def add(self, rule, parts, premises, said):
        self.steps.append(Step(rule, parts, premises, said))
        if said is not None:
            self.known.setdefault(said, len(self.steps) - 1)
        return len(self.steps) - 1

    def undo(self, mark):
        while len(self.steps) > mark:
            step = self.steps.pop()
            if step.said is not None and self.known.get(step.said) == len(self.steps):
                del self.known[step.said]

    def use(self, name, *parts):
        """A use of a rule at parts, after its premises."""
        rule = self.rules[name]
        at = Normals(dict(zip(rule.parts, parts)))
        premises = [self.need(key(at.judgement(want))) for want in rule.wants]
        said = key(at.judgement(rule.gives))
        if said in self.known:
            return self.known[said]
        return self.add(rule, list(parts), premises, said)

    def begin(self):
        """A line begins: what it tries is bounded."""
        self.failed, self.fuel = set(), MOST_TRIED
        self.active.clear()

    def need(self, said):
        """The step that concludes a judgement."""
        if said in self.known:
            return self.known[said]
        if said in self.active or said in self.failed or self.fuel < 0:
            raise Stuck(said)
        self.active.add(said)
        self.fuel -= 1
        try:
            return self.first_of(getattr(self, said[0].lower())(*said[1:]), said)
        except Stuck:
            self.failed.add(said)
            raise
        finally:
            self.active.discard(said)

    def first_of(self, ways, said):
        """The first of these ways that ends in the judgement."""
        mark = len(self.steps)
        for way, *parts in ways:
            try:
                at = way(*parts) if callable(way) else self.use(way, *parts)
                if self.steps[at].said == said:
                    return at
            except Stuck:
                pass
            self.undo(mark)
        raise Stuck(said)

    # Contexts and substitutions.

    def ctx(self, ctx):
        yield {"with_name": "ctx.name", "with_face": "ctx.face", "with_var": "ctx.var"}.get(
            ctx.word, "ctx.nil"), *ctx.rest

    def sub_to(self, here, entries, there, pushes=0):
        """The substitution from a context, by what its entries become, the innermost first; so
        many of them are pushed though nothing becomes another."""
        if pushes <= 0 and extends(here, there) and all(
                tree is form("var", at + depth_of(here) - depth_of(there))
                for at, tree in enumerate(entries)):
            return sub_of((), depth_of(here) - depth_of(there))
        if there.word == "with_face":
            return self.sub_to(here, entries, there.rest[0], pushes)
        if there.word not in ("with_name", "with_var"):
            raise Stuck
        pushed, end = self.sub_to(here, entries[1:], there.rest[0], pushes - 1).rest
        return sub_of((entries[0],) + pushed, end)

    def sb(self, here, sub, there):
        pushed, end = sub.rest
        if not pushed and extends(here, there):
            if here is there:
                yield "sub.id", here
            else:
                before, *tree = here.rest
                less = sub if here.word == "with_face" else sub_of((), end - 1)
                rule = {"with_var": "sub.wk", "with_name": "sub.wkname", "with_face": "sub.wkface"}
                yield rule[here.word], before, less, there, *tree
        elif there.word == "with_face":
            ctx, face = there.rest
            if self.faces.holds(here, applied(face, sub)):
                yield "sub.face", here, sub, ctx, face
        elif pushed:
            rest, first = sub_of(*dropped(sub, 1)), pushed[0]
            if there.word == "with_name" and self.faces.is_formula(here, first):
                yield "sub.form", here, rest, there.rest[0], first
            if there.word == "with_var":
                yield "sub.var", here, rest, *there.rest, first

    # Instances of what is known.

    def matched(self, pattern, tree, found, depth=0):
        """Whether a tree is an instance, `found` being what the variables become."""
        if pattern.word == "var":
            index = pattern.rest[0] - depth
            if index < 0:
                return tree is pattern
            lowered = strengthened(tree, depth)
            return lowered is not None and found.setdefault(index, lowered) is lowered
        if pattern.word != tree.word or pattern.rest[0] != tree.rest[0]:
            return False
        if pattern.word == "part":
            count = self.homes.get(pattern.rest[0], 0)
            return all(self.matched(look(pattern.rest[1], at), look(tree.rest[1], at), found, depth)
                       for at in range(count))
        return all(self.matched(kid, other, found, depth + binds)
                   for kid, other, binds in zip(pattern.rest[1], tree.rest[1],
                                                BINDS[pattern.rest[0]]))

    def entries(self, here, found, there):
        """What the entries of a context become: those that are not found stay."""
        more = depth_of(here) - depth_of(there)
        return [found.get(at, form("var", at + more)) for at in range(depth_of(there))]

    def sub_of_match(self, here, found, there):
        entries = self.entries(here, found, there)
        if any(tree.word == "var" and not 0 <= tree.rest[0] < depth_of(here) for tree in entries):
            raise Stuck
        return self.sub_to(here, entries, there)

    def candidates(self, word, trees, here):
        """The steps of a form that have such an instance, and by which substitution."""
        for at, step in enumerate(list(self.steps)):
            if step.said is None or step.said[0] != word:
                continue
            if word == "Tm" and step.said[2].word == "var":
                continue
            found = {}
            if all(self.matched(pattern, tree, found)
                   for pattern, tree in zip(step.said[2:], trees)):
                try:
                    yield at, self.sub_of_match(here, found, step.said[1])
                except Stuck:
                    pass

    def instance(self, at, sub, here):
        said = self.steps[at].said
        return self.use(INSTANCE[said[0]], here, sub, *said[1:])

    def instances(self, word, here, *trees):
        for at, sub in self.candidates(word, trees, here):
            yield self.instance, at, sub, here

    # Typings and equations.

    def ty(self, here, tree):
        yield from self.instances("Ty", here, tree)
        if tree.word == "make" and tree.rest[0] in FORMED:
            yield FORMED[tree.rest[0]], here, *tree.rest[1]
        else:
            yield "ty.u", here, tree

    def tm(self, here, tree, of):
        if tree.word == "var":
            yield from self.variable(here, tree, of)
            return
        if tree is EMPTY:
            yield "empty.tm", here, of
        yield from self.instances("Tm", here, tree, of)
        for at, sub in self.candidates("Tm", [tree], here):
            other = applied(self.steps[at].said[3], sub)
            if other is not of and self.alike(here, other, of):
                yield self.converted, here, tree, other, of
        if tree.word == "make":
            yield self.introduced, here, tree, of

    def variable(self, here, tree, of):
        index = tree.rest[0]
        before, kind = entry_of(here, index)
        if kind.word != "with_var":
            return
        other = applied(kind.rest[1], sub_of((), index + 1))
        if of is other:
            if kind is here:
                yield "tm.var", *kind.rest
            else:
                yield self.weakened, here, kind, index
        elif self.alike(here, other, of):
            yield self.converted, here, tree, other, of

    def weakened(self, here, kind, index):
        first = applied(kind.rest[1], sub_of((), 1))
        self.need(("Tm", kind, form("var", 0), first))
        return self.use("tm.sub", here, sub_of((), index), kind, form("var", 0), first)

    def converted(self, here, tree, other, of):
        return self.use("tm.conv", here, tree, other, of)

    def introduced(self, here, tree, of):
        """By the rule of a form, with the types that its parts have."""
        name = INTRODUCED[tree.rest[0]]
        rule = self.rules[name]
        parts = {"G": here}
        self.bound(rule.gives[1][1], tree, parts)
        self.bound(rule.gives[1][2], of, parts)
        if name in ("app", "fst", "snd", "papp", "unglue"):
            subject = tree.rest[1][-1 if name == "unglue" else 0]
            self.bound(rule.wants[-1 if name == "unglue" else 0][1][2],
                       self.type_of(here, subject), parts)
        if set(rule.parts) - set(parts):
            raise Stuck
        at = Normals(parts)
        other = at.judgement(rule.gives)[1][2]
        if other is of:
            return self.use(name, *[parts[part] for part in rule.parts])
        if not self.alike(here, other, of):
            raise Stuck
        return self.converted(here, tree, other, of)

    def type_of(self, here, tree):
        """The type by which a tree is known."""
        if tree.word == "var":
            before, kind = entry_of(here, tree.rest[0])
            if kind.word == "with_var":
                return applied(kind.rest[1], sub_of((), tree.rest[0] + 1))
            raise Stuck
        for at, sub in self.candidates("Tm", [tree], here):
            return applied(self.steps[at].said[3], sub)
        word, kids = (tree.rest[0], tree.rest[1]) if tree.word == "make" else ("", ())
        if word in ("fst", "snd", "app", "papp"):
            of = self.type_of(here, kids[0])
            wanted = {"fst": "sig", "snd": "sig", "app": "pi", "papp": "pathp"}[word]
            if of.word != "make" or of.rest[0] != wanted:
                raise Stuck
            over = of.rest[1]
            return {"fst": lambda: over[0],
                    "snd": lambda: at_tree(over[1], form("make", "fst", (kids[0],))),
                    "app": lambda: at_tree(over[1], kids[1]),
                    "papp": lambda: at_tree(over[0], kids[1])}[word]()
        raise Stuck

    def tyeq(self, here, left, right):
        if left is right:
            yield "tyeq.refl", here, left
        elif self.faces.absurd(here):
            yield "tyeq.absurd", here, left, right
        else:
            yield from self.int_of("Ty", here, left, right)
        yield from self.instances("TyEq", here, left, right)
        yield from self.turned("TyEq", here, right, left)
        yield from self.along("Ty", here, left, right)

    def tmeq(self, here, left, right, of):
        if left is right:
            yield "tmeq.refl", here, left, of
        yield from self.instances("TmEq", here, left, right, of)
        yield from self.turned("TmEq", here, right, left, of)
        for at, sub in self.candidates("TmEq", [left, right], here):
            other = applied(self.steps[at].said[4], sub)
            if other is not of and self.alike(here, other, of):
                yield "tmeq.conv", here, left, right, other, of
        yield from self.int_of("Tm", here, left, right, of)
        if self.faces.absurd(here):
            yield "tmeq.absurd", here, left, right, of
        yield self.congruent, here, left, right, of
        yield from self.along("Tm", here, left, right, of)

    def turned(self, word, here, left, right, *of):
        rule = {"TyEq": "tyeq.sym", "TmEq": "tmeq.sym"}[word]
        if (word, here, left, right, *of) in self.known:
            yield rule, here, left, right, *of
        for at, sub in self.candidates(word, [left, right, *of], here):
            yield self.turned_instance, rule, at, sub, here, left, right, *of

    def turned_instance(self, rule, at, sub, here, *trees):
        self.instance(at, sub, here)
        return self.use(rule, here, *trees)

    def int_of(self, word, here, left, right, *of):
        """By two substitutions that agree but for how their formulas are written."""
        if left is right or not self.alike(here, left, right):
            return
        for at, _ in self.candidates(word, [left, *of], here):
            said = self.steps[at].said
            first, second = {}, {}
            if not self.matched(said[2], right, second):
                continue
            for pattern, tree in zip(said[2:], [left, *of]):
                self.matched(pattern, tree, first)
            try:
                subs = self.subs_alike(here, said[1], *[self.entries(here, found, said[1])
                                                        for found in (first, second)])
            except Stuck:
                continue
            yield {"Ty": "ty.int", "Tm": "tm.int"}[word], here, *subs, *said[1:]

    def subs_alike(self, here, there, *lists):
        """Substitutions by what the entries become, the innermost first, as many pushed in each."""
        differ = [at for at, trees in enumerate(zip(*lists)) if any(
            tree is not trees[0] for tree in trees)]
        return [self.sub_to(here, list(trees), there, max(differ, default=-1) + 1)
                for trees in lists]

    def congruent(self, here, left, right, of):
        """By the congruence of a form of elimination."""
        if left.word != "make" or left.rest[0] not in ("app", "fst", "snd", "papp"):
            raise Stuck
        name = left.rest[0]
        rule, parts = self.rules[f"{name}.cong"], {"G": here}
        self.bound(rule.gives[1][1], left, parts)
        self.bound(rule.gives[1][2], right, parts)
        self.bound(rule.wants[0][1][3], self.type_of(here, left.rest[1][0]), parts)
        if set(rule.parts) - set(parts):
            raise Stuck
        return self.use(rule.name, *[parts[part] for part in rule.parts])

    def along(self, word, here, left, right, *of):
        """By two substitutions whose last trees are equal."""
        for at, step in enumerate(list(self.steps)):
            if step.said is None or step.said[0] != word or step.said[1].word != "with_var":
                continue
            found, other = {}, {}
            if not self.matched(step.said[2], left, found) \
                    or not self.matched(step.said[2], right, other):
                continue
            if 0 not in found or found[0] is other[0] \
                    or any(found[k] is not other[k] for k in found if k):
                continue
            ctx, kind = step.said[1].rest
            less = {k - 1: tree for k, tree in found.items() if k}
            try:
                sub = self.sub_of_match(here, less, ctx)
            except Stuck:
                continue
            yield ({"Ty": "ty.cong", "Tm": "tm.cong"}[word], here, sub, ctx, kind, found[0],
                   other[0], *step.said[2:])

    def alike(self, here, left, right, depth=0):
        """Whether two trees are one but for how their formulas are written, or all are."""
        return self.faces.absurd(here) or self.faces.alike(here, left, right, depth)

    # The parts of a rule.

    def bound(self, pattern, tree, parts):
        """Reads off a normal form the parts that a rule names there."""
        word, *rest = pattern
        if word == "part":
            parts.setdefault(rest[0], tree)
        elif word == "make" and tree.word == "make" and tree.rest[0] == rest[0]:
            for kid, other in zip(rest[1], tree.rest[1]):
                self.bound(kid, other, parts)
        elif word == "weakened":
            lowered = strengthened(tree, 1)
            if lowered is not None:
                self.bound(rest[0], lowered, parts)
        elif word in ("with_name", "with_face", "with_var") and tree.word == word:
            for kid, other in zip(rest, tree.rest):
                self.bound(kid, other, parts)
        elif word == "derived":
            pass
        elif word == "push" and tree.word == "sub" and tree.rest[0]:
            self.bound(rest[0], sub_of(*dropped(tree, 1)), parts)
            self.bound(rest[1], tree.rest[0][0], parts)

    def bound_judgement(self, want, said, parts):
        for pattern, tree in zip(want[1], said[1:]):
            self.bound(pattern, tree, parts)

    def bound_sub(self, rule, said, given, parts):
        """A substitution, from the trees that stand under it."""
        pairs = [(pattern, tree) for want, one in [(rule.gives, said), *given]
                 for pattern, tree in zip(want[1], one[1:])]
        for name, kind in zip(rule.parts, rule.kinds()):
            if kind == "Subst" and name not in parts and "G" in parts:
                found = {}
                for pattern, tree in pairs:
                    if pattern[0] == "apply" and pattern[2] == ("part", name) \
                            and pattern[1][0] == "part" and pattern[1][1] in parts:
                        self.matched(parts[pattern[1][1]], tree, found)
                parts[name] = self.sub_of_match(said[1], found, parts["G"])

    def by_rule(self, rule, said, of=(), more=()):
        """A judgement by a rule: of steps that are premises of it, and at parts that are not named
        by the judgement or by these."""
        parts = {}
        self.bound_judgement(rule.gives, said, parts)
        wants = [want for want in rule.wants if want[0] not in ("Ctx", "Sb")]
        given = [(want, self.steps[at].said) for want, at in zip(wants, of) if at is not None]
        for want, one in given:
            self.bound_judgement(want, one, parts)
        pushed = [one[::-1] for one in more if isinstance(one, list)]
        subs = self.subs_alike(said[1], parts["G"], *pushed) if pushed else []
        more = [subs.pop(0) if isinstance(one, list) else one for one in more]
        for part in rule.parts:
            if part not in parts and more:
                parts[part] = more.pop(0)
        self.bound_sub(rule, said, given, parts)
        if more or set(rule.parts) - set(parts):
            raise Stuck
        return self.first_of([(rule.name, *[parts[part] for part in rule.parts])], said)

    def chain(self, here, trees, types):
        """Equations one after the other, or a typing at types that are equal."""
        if len(types) > 1:
            *first, of = types
            self.chain(here, trees, first)
            ends = [trees[0], trees[-1]][:len(trees)]
            return self.use("tm.conv" if len(trees) == 1 else "tmeq.conv",
                            here, *ends, first[-1], of)
        if len(trees) < 3:
            return self.need((("Tm", "TmEq") if types else ("Ty", "TyEq"))[len(trees) - 1:][:1]
                             + (here, *trees, *types))
        self.chain(here, trees[:2], types)
        self.chain(here, trees[1:], types)
        rule = "tmeq.trans" if types else "tyeq.trans"
        return self.use(rule, here, *trees[:2], trees[-1], *types)

    def by_recipe(self, recipe, parts):
        """The use of an earlier recipe."""
        at = Normals(dict(zip(recipe.parts, parts)))
        premises = [self.need(key(at.judgement(want))) for want in recipe.wants]
        return self.add(recipe, parts, premises, None)


def key(said):
    word, places = said
    return (word, *places)


def at_tree(tree, other):
    return applied(tree, sub_of((other,), 0))


def extends(here, there):
    while here is not there:
        if here.word not in ("with_name", "with_face", "with_var"):
            return False
        here = here.rest[0]
    return True


EMPTY = form("make", "empty", ())
HOLE = form("part", "?", sub_of((), 0))


def strengthened(tree, count):
    """A tree without its innermost variables, or None where it names one."""
    if not count:
        return tree
    lowered = applied(tree, sub_of((HOLE,) * count, 0))
    return None if mentions(lowered) else lowered


def mentions(tree):
    found = tree.memo.get("hole")
    if found is None:
        if tree.word in ("part", "entry"):
            found = tree.rest[0] == "?" or mentions(tree.rest[-1])
        elif tree.word == "make":
            found = any(map(mentions, tree.rest[1]))
        elif tree.word == "sub":
            found = any(map(mentions, tree.rest[0]))
        else:
            found = False
        tree.memo["hole"] = found
    return found
