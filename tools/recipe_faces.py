"""Whether a face holds in a context, and formulas agree, so far as a search needs it."""
import itertools

from normal_forms import applied, form, look, sub_of
from rule_notation import BINDS

FORMULAS = {"i0", "i1", "neg", "min", "max"}
FACES = {"f0", "f1", "eq0", "eq1", "meet", "join", "all"}
ENTRIES = ("with_name", "with_face", "with_var")
ZERO, ONE, FREE = (False, True), (True, False), (False, False)
ANY = [(False, False), (False, True), (True, False), (True, True)]


def depth_of(ctx):
    """How many variables and names a context has, past the part that it begins with."""
    found = ctx.memo.get("depth")
    if found is None:
        found = 0
        if ctx.word in ENTRIES:
            found = depth_of(ctx.rest[0]) + (ctx.word != "with_face")
        ctx.memo["depth"] = found
    return found


def entry_of(ctx, index):
    """The context that ends with an entry, and that entry."""
    while True:
        if ctx.word == "with_face":
            ctx = ctx.rest[0]
        elif ctx.word not in ENTRIES:
            return ctx, ctx
        elif index:
            ctx, index = ctx.rest[0], index - 1
        else:
            return ctx.rest[0], ctx


class Faces:
    """What faces say in contexts, remembered."""

    def __init__(self, search):
        self.search, self.found = search, {}

    def of(self, ctx):
        """The faces of a context, as trees in it."""
        faces, past = [], 0
        while ctx.word in ENTRIES:
            if ctx.word == "with_face":
                faces.append(applied(ctx.rest[1], sub_of((), past)))
            else:
                past += 1
            ctx = ctx.rest[0]
        return tuple(faces)

    def is_formula(self, ctx, tree):
        if tree.word == "make":
            return tree.rest[0] in FORMULAS and all(self.is_formula(ctx, kid)
                                                    for kid in tree.rest[1])
        if tree.word == "var":
            return entry_of(ctx, tree.rest[0])[1].word == "with_name"
        return tree.word == "part" and tree.rest[0] in self.search.formulas

    def holds(self, ctx, face):
        memo = (ctx, face)
        if memo not in self.found:
            self.found[memo] = all(true(face, at) for at in self.points(self.of(ctx), [face]))
        return self.found[memo]

    def absurd(self, ctx):
        return self.holds(ctx, form("make", "f0", ()))

    def points(self, faces, others):
        """The points at which faces hold, by the atoms of these faces and others."""
        names, opaque = {}, {}
        for face in [*faces, *others]:
            atoms(face, names, opaque)
        for values in itertools.product((ZERO, ONE, FREE), repeat=len(names)):
            here = dict(zip(names, values))
            for truths in itertools.product((False, True), repeat=len(opaque)):
                at = here | dict(zip(opaque, truths))
                if self.sound(at, opaque) and all(true(face, at) for face in faces):
                    yield at

    def sound(self, at, opaque):
        """Whether what is true of all formulas is true of each that stands there."""
        for face in opaque:
            if face.word != "make" or not at[face]:
                continue
            for other in opaque:
                found = {}
                if other.word == "part" and not at[other] \
                        and self.search.matched(face.rest[1][0], other, found) \
                        and all(found[k] is form("var", k - 1) for k in found if k):
                    return False
        return True

    def same(self, ctx, left, right):
        memo = (ctx, left, right)
        if memo not in self.found:
            self.found[memo] = self.same_anew(self.of(ctx), left, right)
        return self.found[memo]

    def same_anew(self, faces, left, right):
        names = {}
        formula_atoms(left, names)
        formula_atoms(right, names)
        for at in self.points(faces, [form("make", "eq0", (one,)) for one in names]):
            choices = [ANY if at[name] == FREE else [at[name]] for name in names]
            for values in itertools.product(*choices):
                here = at | dict(zip(names, values))
                if value(left, here) != value(right, here):
                    return False
        return True

    def alike(self, ctx, left, right, depth=0):
        """Whether two trees are one but for how their formulas are written."""
        if left is right:
            return True
        if formal(left) and formal(right) and "make" in (left.word, right.word):
            lifted = ctx
            for _ in range(depth):
                lifted = form("with_name", lifted)
            return self.is_formula(lifted, left) and self.is_formula(lifted, right) \
                and self.same(lifted, left, right)
        if left.word != right.word or left.rest[0] != right.rest[0]:
            return False
        if left.word == "part":
            return all(self.alike(ctx, look(left.rest[1], at), look(right.rest[1], at), depth)
                       for at in range(self.search.homes.get(left.rest[0], 0)))
        if left.word != "make":
            return False
        return all(self.alike(ctx, kid, other, depth + binds) for kid, other, binds
                   in zip(left.rest[1], right.rest[1], BINDS[left.rest[0]]))


def formal(tree):
    return tree.word in ("var", "part") or tree.word == "make" and tree.rest[0] in FORMULAS


def atoms(face, names, opaque):
    if face.word == "make" and face.rest[0] in ("meet", "join"):
        for kid in face.rest[1]:
            atoms(kid, names, opaque)
    elif face.word == "make" and face.rest[0] in ("eq0", "eq1"):
        formula_atoms(face.rest[1][0], names)
    elif face.word != "make" or face.rest[0] == "all":
        opaque.setdefault(face)


def formula_atoms(tree, names):
    if tree.word == "make" and tree.rest[0] in FORMULAS:
        for kid in tree.rest[1]:
            formula_atoms(kid, names)
    else:
        names.setdefault(tree)


def value(tree, at):
    if tree.word != "make" or tree.rest[0] not in FORMULAS:
        return at[tree]
    word, kids = tree.rest[0], [value(kid, at) for kid in tree.rest[1]]
    if word == "neg":
        return (kids[0][1], kids[0][0])
    if word in ("i0", "i1"):
        return ONE if word == "i1" else ZERO
    first, second = (all, any) if word == "min" else (any, all)
    return (first(kid[0] for kid in kids), second(kid[1] for kid in kids))


def true(face, at):
    if face.word != "make" or face.rest[0] == "all":
        return at[face]
    word, kids = face.rest
    if word in ("f0", "f1"):
        return word == "f1"
    if word in ("eq0", "eq1"):
        return value(kids[0], at)[word == "eq0"]
    truths = [true(kid, at) for kid in kids]
    return all(truths) if word == "meet" else any(truths)
