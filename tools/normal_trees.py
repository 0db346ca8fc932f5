#!/usr/bin/env python3
"""Whether trees are normal: `python3 tools/normal_trees.py < FILE.drv`.

For each root of a derivation file that is an equation or a typing it prints whether its right tree
is normal in its context, or else the first part that is not. It reads trees alone, and knows
nothing of evaluation.
"""
import itertools
import sys

import judge
from rule_notation import BINDS

sys.setrecursionlimit(10 ** 6)
FORMERS = {"pi", "sig", "pathp", "Glue", "U"}


class Scope:
    """So many variables and names, and those that faces fix, by level."""

    def __init__(self, depth, fixed=frozenset()):
        self.depth, self.fixed = depth, fixed

    def bound(self):
        return Scope(self.depth + 1, self.fixed)

    def within(self, conjunction):
        return Scope(self.depth, self.fixed | {level for level, _ in conjunction})

    def level(self, tree):
        return self.depth - 1 - tree[1]

    def name(self, level):
        return ("var", self.depth - 1 - level)


def least(sets):
    return {one for one in sets if not any(other < one for other in sets)}


def formula(scope, tree, negated=False):
    """The products of a formula, of literals by level and sign."""
    word, *kids = tree
    if word == "var":
        return {frozenset([(scope.level(tree), negated)])}
    if word == "neg":
        return formula(scope, kids[0], not negated)
    if word in ("i0", "i1"):
        return {frozenset()} if (word == "i1") != negated else set()
    left, right = (formula(scope, kid, negated) for kid in kids)
    if (word == "max") != negated:
        return least(left | right)
    return least({one | other for one, other in itertools.product(left, right)})


def nested(joiner, none, trees):
    if not trees:
        return (none,)
    return trees[0] if len(trees) == 1 else (joiner, trees[0], nested(joiner, none, trees[1:]))


def literal(scope, level, negated):
    return ("neg", scope.name(level)) if negated else scope.name(level)


def formula_tree(scope, products):
    return nested("max", "i0", [nested("min", "i1", [literal(scope, *one) for one in product])
                                for product in sorted(map(sorted, products))])


def conjunctions(scope, tree):
    """The conjunctions of a face that is written as the cover of some."""
    found = []
    while tree[0] == "join":
        found.append(equations(scope, tree[1]))
        tree = tree[2]
    return found if tree == ("f0",) else None


def equations(scope, tree):
    found = []
    while tree[0] == "meet":
        found.append(tree[1])
        tree = tree[2]
    found += [] if tree == ("f1",) else [tree]
    return [(scope.level(one[1]), one[0] == "eq1") for one in found
            if one[0] in ("eq0", "eq1") and one[1][0] == "var"]


def conjunction_tree(scope, parts):
    return nested("meet", "f1", [("eq1" if end else "eq0", scope.name(level))
                                 for level, end in parts])


def cover_tree(scope, parts):
    tree = ("f0",)
    for part in reversed(parts):
        tree = ("join", conjunction_tree(scope, part), tree)
    return tree


class NotNormal(Exception):
    pass


def check(holds, tree):
    if not holds:
        raise NotNormal(tree)


def check_formula(scope, tree):
    products = formula(scope, tree)
    check(tree == formula_tree(scope, products), tree)
    check(not any(level in scope.fixed for one in products for level, _ in one), tree)
    check(products not in (set(), {frozenset()}), tree)


def check_face(scope, tree):
    parts = conjunctions(scope, tree)
    check(parts is not None and tree == cover_tree(scope, parts), tree)
    check(parts == sorted(sorted(part) for part in parts), tree)
    check(all(len({level for level, _ in part}) == len(part) for part in parts), tree)
    check(len(least({frozenset(part) for part in parts})) == len(parts), tree)
    check(not any(level in scope.fixed for part in parts for level, _ in part), tree)
    check([] not in parts, tree)
    return parts


def check_sides(scope, faces, parts, tree):
    """The body of one side for each conjunction, in a scope that may have one more name."""
    for at, part in enumerate(parts):
        check(tree[0] == "sys", tree)
        _, face, rest, side, others = tree
        raised = [face, conjunction_tree(scope, part), rest, cover_tree(scope, parts[at + 1:])]
        check(raised[0] == raised[1] and raised[2] == raised[3], tree)
        check_tree(scope.within(part), side)
        tree = others
    check(tree == ("empty",), tree)


def check_tree(scope, tree):
    word, *kids = tree
    if word == "var":
        return check(scope.level(tree) not in scope.fixed, tree)
    check(word not in ("sys", "empty"), tree)
    head = kids[0][0] if kids else ""
    check((word, head) not in (("app", "lam"), ("fst", "pair"), ("snd", "pair"), ("papp", "plam")),
          tree)
    if word == "papp":
        check_tree(scope, kids[0])
        return check_formula(scope, kids[1])
    if word in ("comp", "Glue", "glue", "unglue"):
        return check_faced(scope, tree)
    if word == "natrec":
        check(kids[3][0] not in ("zero", "suc"), tree)
    for kid, binds in zip(kids, BINDS[word]):
        check_tree(scope.bound() if binds else scope, kid)


def check_faced(scope, tree):
    word, *kids = tree
    at = {"comp": 1, "Glue": 1, "glue": 0, "unglue": 0}[word]
    parts = check_face(scope, kids[at])
    if word == "comp":
        line, face, side, base = kids
        check(line[0] not in FORMERS, tree)
        check_tree(scope.bound(), line)
        check_sides(scope.bound(), face, parts, side)
        check_tree(scope, base)
        heads = {base[0]}
        while side[0] == "sys":
            heads.add(side[3][0])
            side = side[4]
        return check(line != ("nat",) or heads not in ({"zero"}, {"suc"}), tree)
    if word == "Glue":
        check_tree(scope, kids[0])
        for side in kids[2:]:
            check_sides(scope, kids[1], parts, side)
    if word == "glue":
        check_sides(scope, kids[0], parts, kids[1])
        check_tree(scope, kids[2])
    if word == "unglue":
        check(kids[3][0] != "glue", tree)
        for side in kids[1:3]:
            check_sides(scope, kids[0], parts, side)
        check_tree(scope, kids[3])


def scope_of(ctx):
    """The scope of a context. Faces that are true nowhere fix no name."""
    depth = sum(entry[0] != "face" for entry in ctx)
    points = list(judge.points(ctx))
    ends = [judge.ENDS[end] for end in "01"]
    fixed = {depth - 1 - index for index in (judge.names(ctx) if points else ())
             if any(all(at[index] == end for at in points) for end in ends)}
    return Scope(depth, frozenset(fixed))


def root_faults(lines):
    """For each root that is an equation or a typing, its right tree, and the first part of it that
    is not normal, or none."""
    rows = judge.meanings(lines)
    for line, root in zip(lines, rows):
        if not line.startswith("r "):
            continue
        _, (form, ctx, *trees) = rows[int(line.split()[1])]
        tree = trees[1] if form in ("TyEq", "TmEq") else trees[0]
        try:
            check_tree(scope_of(ctx), tree)
            yield tree, None
        except NotNormal as found:
            yield tree, found.args[0]


def main():
    lines = [line for line in sys.stdin.read().splitlines() if line]
    for tree, fault in root_faults(lines):
        print("normal" if fault is None else f"not normal: {fault} in", tree)


if __name__ == "__main__":
    main()
