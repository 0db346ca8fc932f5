"""Rows of a derivation file, made of judgements.

A `Book` has the row of each tree, substitution and context once, and derives the premises of a
rule at its parts: what the forms of trees tell, and equations that were derived before. It computes
nothing: two types are one where they are the same tree, or an equation of them was derived. Things
and judgements are those of `judge.py`, which tells what each node concludes.
"""
import judge
import kan

ID = judge.shift_by(0)
FORMS_OF_TYPES = {
    "U": "ty.univ", "pi": "pi.ty", "sig": "sig.ty", "pathp": "path.ty", "Glue": "glue.ty",
}


def wants(name, parts):
    """The judgements of the premises of a rule at these parts."""
    rule = judge.RULES[name]
    return [judge.judged(want, dict(zip(rule.parts, parts))) for want in rule.wants]


class Book:
    """The rows so far, where each stands, and the node of each judgement."""

    def __init__(self):
        self.rows, self.places, self.nodes = [], {}, {}
        self.row("rules 1")

    def row(self, *words):
        line = " ".join(map(str, words))
        if line not in self.places:
            self.places[line] = len(self.rows)
            self.rows.append(line)
        return self.places[line]

    def term(self, tree):
        word, *kids = tree
        return self.row("t", word, *(kids if word == "var" else map(self.term, kids)))

    def subst(self, sub):
        pushed, shift = sub
        row = self.row("s", "shift", shift)
        for tree in reversed(pushed):
            row = self.row("s", "push", row, self.term(tree))
        return row

    def context(self, ctx):
        if not ctx:
            return self.row("c", "nil")
        before, (word, *tree) = self.context(ctx[:-1]), ctx[-1]
        return self.row("c", word, before, *map(self.term, tree))

    def node(self, name, *parts):
        """A use of a rule at these parts. It is the judgement that it concludes."""
        asked = wants(name, parts)
        gives = judge.concluded(judge.RULES[name], parts, asked)
        if gives is None:
            raise ValueError(f"{name} at {parts}")
        row = self.row(*self.words(name, parts, asked))
        self.nodes.setdefault(gives, row)
        return gives

    def words(self, name, parts, claims):
        """The words of the row of a node, of parts and of the judgements of its premises."""
        rows = {"Term": self.term, "Subst": self.subst, "Context": self.context}
        named = [rows[kind](part) for kind, part in zip(judge.RULES[name].kinds(), parts)]
        return ["n", name, *named, *map(self.derived, claims)]

    def derived(self, claim):
        """The row of a node of a judgement."""
        if claim not in self.nodes:
            form, *places = claim
            getattr(self, form.lower())(*places)
        return self.nodes[claim]

    # What derives a judgement of each form.

    def ctx(self, ctx):
        if not ctx:
            return self.node("ctx.nil")
        word, *tree = ctx[-1]
        return self.node(f"ctx.{word}", ctx[:-1], *tree)

    def sb(self, target, sub, source):
        pushed, shift = sub
        if target == source and sub == ID:
            return self.node("sub.id", target)
        if not pushed and len(target) > len(source):
            word, *tree = target[-1]
            rule = {"var": "sub.wk", "name": "sub.wkname", "face": "sub.wkface"}[word]
            less = judge.shift_by(shift - (word != "face"))
            rest = [target[:-1], less, source]
            return self.node(rule, *rest, *tree)
        word, *tree = source[-1]
        if word == "face":
            return self.node("sub.face", target, sub, source[:-1], *tree)
        rule = {"var": "sub.var", "name": "sub.form"}[word]
        return self.node(rule, target, (pushed[1:], shift), source[:-1], *tree, pushed[0])

    def ty(self, ctx, tree):
        if tree[0] in FORMS_OF_TYPES:
            return self.node(FORMS_OF_TYPES[tree[0]], ctx, *tree[1:])
        return self.node("ty.u", ctx, tree)

    def tm(self, ctx, tree, of):
        word, *kids = tree
        if word in ("pair", "glue", "plam", "sys", "empty"):
            parts = {
                "pair": lambda: ("pair", *kids, *of[1:]),
                "glue": lambda: ("glue", *of[1:], *kids[1:]),
                "plam": lambda: ("plam", of[1], *kids, *of[2:]),
                "sys": lambda: ("sys.tm", *kids, of),
                "empty": lambda: ("empty.tm", of),
            }[word]()
            return self.node(parts[0], ctx, *parts[1:])
        found = self.type_of(ctx, tree)
        return found == of or self.node("tm.conv", ctx, tree, found, of)

    def tyeq(self, ctx, left, right):
        if left == right:
            return self.node("tyeq.refl", ctx, left)
        if ("TyEq", ctx, right, left) in self.nodes:
            return self.node("tyeq.sym", ctx, right, left)
        return self.node("tyeq.u", ctx, left, right)

    def tmeq(self, ctx, left, right, of):
        if left == right:
            return self.node("tmeq.refl", ctx, left, of)
        if ("TmEq", ctx, right, left, of) not in self.nodes:
            raise ValueError(f"{left} = {right} was not derived")
        return self.node("tmeq.sym", ctx, right, left, of)

    def type_of(self, ctx, tree):
        """The type that the form of a tree tells, derived."""
        word, *kids = tree
        if word == "var":
            return self.entry(ctx, tree[1])
        if word == "lam":
            kids.append(self.type_of(judge.MADE["with_var"](ctx, kids[0]), kids[1]))
        elif word in ("app", "fst", "snd", "papp"):
            kids += self.type_of(ctx, kids[0])[1:]
        elif word == "unglue":
            kids.insert(0, self.type_of(ctx, kids[3])[1])
        rule = {"nat": "nat.u"}.get(word, word)
        return self.node(rule, ctx, *kids)[-1]

    def entry(self, ctx, index):
        """The type of a variable: of the innermost one, under what leaves out the entries after."""
        at = len(ctx)
        for _ in range(index + 1):
            at -= 1
            while ctx[at][0] == "face":
                at -= 1
        found = self.node("tm.var", ctx[:at], ctx[at][1])
        if at + 1 == len(ctx):
            return found[-1]
        up = judge.shift_by(index)
        return self.node("tm.sub", ctx, up, ctx[:at + 1], *found[2:])[-1]

    # Equations.

    def end(self, ctx, line, r, end):
        """`line{r} = line{end}`, where the formulas have one value in the context."""
        inner = judge.MADE["with_name"](ctx)
        subs = [judge.push(ID, formula) for formula in (r, end)]
        return self.node("tm.int", ctx, *subs, inner, line, self.type_of(inner, line))

    def start(self, ctx, path):
        """A path at 0 is where it starts."""
        return self.node("path.left", ctx, path, *self.type_of(ctx, path)[1:])

    def beta(self, ctx, line, r):
        """`papp (plam line) r = line{r}`"""
        inner = judge.MADE["with_name"](ctx)
        return self.node("path.beta", ctx, self.type_of(inner, line), line, r)

    def joined(self, first, second):
        """The equation that two make, where a side of the second is the right side of the first."""
        _, ctx, left, middle, of = first
        (right,) = set(second[2:4]) - {middle}
        return self.node("tmeq.trans", ctx, left, middle, right, of)

    def taken(self, claim):
        """What a rule concludes of a judgement, whose trees are written out for it."""
        rules = {"Ty": "tyeq.refl", "TyEq": "tyeq.sym", "Tm": "tmeq.refl", "TmEq": "tmeq.sym"}
        return self.node(rules[claim[0]], *claim[1:])


class Scope:
    """A context whose variables and names have words of their own, the innermost last.

    Trees are written with these words, as `("name", word)`, and closed over them.
    """

    def __init__(self, ctx=(), words=()):
        self.ctx, self.words = ctx, words

    def name(self, *words):
        return Scope(self.ctx + (("name",),) * len(words), self.words + words)

    def var(self, word, of):
        return Scope(self.ctx + (("var", self.of(of)),), self.words + (word,))

    def face(self, face):
        return Scope(self.ctx + (("face", self.of(face)),), self.words)

    def of(self, tree, depth=0):
        """The tree over indices."""
        if tree[0] == "name":
            return ("var", depth + self.words[::-1].index(tree[1]))
        return kan.over_indices(tree, depth, lambda k, _: ("var", k), self.of)
