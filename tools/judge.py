#!/usr/bin/env python3
"""Judges derivation files by `rules.txt`, in the plainest way: trees are written out, and side
conditions are tried at all points.

It shares nothing with the program but the text of the rules, so that tests have what they expect
from outside; it has the trees of the Kan operations from `kan.py`.

    python3 tools/judge.py FILE

prints the program's line for `replay FILE`.
"""
import itertools
import pathlib
import re
import sys

import kan
import rule_notation
from rule_notation import BINDS

RULES = {rule.name: rule for family in rule_notation.families() for rule in family.rules}
NUMBER = re.compile(r"0|[1-9][0-9]*")
GREATEST_SHIFT = 2 ** 62


# Trees are ("var", k) or (operator, kid, ..); substitutions (pushed trees, the last first; shift);
# contexts tuples of entries, the innermost last.


def kids(tree):
    """The kids of an operator, each with the number of variables that it binds."""
    return zip(tree[1:], BINDS[tree[0]])


def raised(tree, start, by):
    if tree[0] == "var":
        return ("var", tree[1] + by) if tree[1] >= start else tree
    return (tree[0], *(raised(kid, start + bind, by) for kid, bind in kids(tree)))


def entry(sub, k):
    pushed, shift = sub
    return pushed[k] if k < len(pushed) else ("var", k - len(pushed) + shift)


def apply(tree, sub, depth=0):
    if tree[0] == "var":
        return tree if tree[1] < depth else raised(entry(sub, tree[1] - depth), 0, depth)
    return (tree[0], *(apply(kid, sub, depth + bind) for kid, bind in kids(tree)))


def then(first, second):
    pushed, shift = second
    rest = (pushed[first[1]:], shift + max(0, first[1] - len(pushed)))
    return (tuple(apply(tree, second) for tree in first[0]) + rest[0], rest[1])


def push(sub, tree):
    return ((tree,) + sub[0], sub[1])


def shift_by(n):
    return ((), n)


# Side conditions.


def names(ctx):
    """The indices of a context that are names."""
    indexed = [entry for entry in reversed(ctx) if entry[0] != "face"]
    return {k for k, entry in enumerate(indexed) if entry[0] == "name"}


def is_formula(of, tree):
    if tree[0] == "var":
        return tree[1] in of
    built = tree[0] in ("i0", "i1", "neg", "min", "max")
    return built and all(is_formula(of, kid) for kid in tree[1:])


def is_face(of, tree):
    if tree[0] in ("eq0", "eq1"):
        return is_formula(of, tree[1])
    if tree[0] == "all":
        return is_face({0} | {k + 1 for k in of}, tree[1])
    built = tree[0] in ("f0", "f1", "meet", "join")
    return built and all(is_face(of, kid) for kid in tree[1:])


ENDS = {"0": (False, True), "1": (True, False), "free": (False, False)}


def value(at, tree):
    """The value of a formula: whether it holds, and whether its negation does."""
    op = tree[0]
    if op == "var":
        return at[tree[1]]
    if op in ("i0", "i1"):
        return ENDS[op[1]]
    values = [value(at, kid) for kid in tree[1:]]
    if op == "neg":
        return values[0][::-1]
    (a, b), (c, d) = values
    return (a and c, b or d) if op == "min" else (a or c, b and d)


def is_true(at, tree):
    op = tree[0]
    if op in ("eq0", "eq1"):
        return value(at, tree[1])[op == "eq0"]
    if op == "all":
        return is_true({0: ENDS["free"], **{k + 1: v for k, v in at.items()}}, tree[1])
    if op in ("f0", "f1"):
        return op == "f1"
    return (all if op == "meet" else any)(is_true(at, kid) for kid in tree[1:])


def true_in(ctx, at, tree):
    """A tree that is no face over the names of the context is true nowhere."""
    return is_face(names(ctx), tree) and is_true(at, tree)


def satisfies(ctx, at):
    """All faces of the context are true at a point of its names."""
    for k, entry in enumerate(ctx):
        above = sum(later[0] != "face" for later in ctx[k:])
        inner = {name - above: v for name, v in at.items() if name >= above}
        if entry[0] == "face" and not true_in(ctx[:k], inner, entry[1]):
            return False
    return True


def points(ctx):
    """The points of the names of a context at which its faces are true."""
    of = sorted(names(ctx))
    for ends in itertools.product(ENDS.values(), repeat=len(of)):
        at = dict(zip(of, ends))
        if satisfies(ctx, at):
            yield at


def holds(ctx, face):
    return all(true_in(ctx, at, face) for at in points(ctx))


def same(ctx, left, right):
    if not (is_formula(names(ctx), left) and is_formula(names(ctx), right)):
        return False
    pairs = list(itertools.product((False, True), repeat=2))
    for at in points(ctx):
        free = [name for name, v in at.items() if v == ENDS["free"]]
        for values in itertools.product(pairs, repeat=len(free)):
            over = {**at, **dict(zip(free, values))}
            if value(over, left) != value(over, right):
                return False
    return True


def alike(ctx, d, e):
    return d[1] == e[1] and len(d[0]) == len(e[0]) and all(
        left == right or same(ctx, left, right) for left, right in zip(d[0], e[0]))


TESTS = {
    "IsFormula": lambda ctx, tree: is_formula(names(ctx), tree),
    "IsFace": lambda ctx, tree: is_face(names(ctx), tree),
    "Holds": holds,
    "Alike": alike,
}


# Rules at given parts.


MADE = {
    "id": lambda: shift_by(0),
    "up": lambda: shift_by(1),
    "shift": shift_by,
    "push": push,
    "then": then,
    "apply": apply,
    "weakened": lambda a: apply(a, shift_by(1)),
    "at": lambda a, b: apply(a, push(shift_by(0), b)),
    "nil": tuple,
    "with_var": lambda g, a: g + (("var", a),),
    "with_name": lambda g: g + (("name",),),
    "with_face": lambda g, p: g + (("face", p),),
}


def meaning(thing, given):
    """What a thing in a rule is, where the parts are given."""
    word, *rest = thing
    if word == "part":
        return given[rest[0]]
    if word == "make":
        return (rest[0], *(meaning(kid, given) for kid in rest[1]))
    if word == "derived":
        letters, text = rule_notation.DERIVED[rest[0]]
        parts = [meaning(part, given) for part in rest[1]]
        return meaning(rule_notation.Reader(text).tree(), dict(zip(letters, parts)))
    if word == "called":
        return kan.made(rest[0], [meaning(part, given) for part in rest[1]])
    if word == "var":
        return ("var", rest[0])
    return MADE[word](*(meaning(part, given) if isinstance(part, tuple) else part for part in rest))


def judged(claim, given):
    return (claim[0], *(meaning(place, given) for place in claim[1]))


def concluded(rule, parts, premises):
    """The judgement that a node concludes, or none where it is no instance."""
    given = dict(zip(rule.parts, parts))
    if [judged(want, given) for want in rule.wants] != premises:
        return None
    for form, places in rule.sides:
        if not TESTS[form](*(meaning(place, given) for place in places)):
            return None
    return judged(rule.gives, given)


# Files. A row means ("Term", tree), ("Subst", substitution), ("Context", context), ("Node",
# judgement) or ("Nothing",).


def number(word, bound):
    if not NUMBER.fullmatch(word) or int(word) >= bound:
        raise ValueError
    return int(word)


def named(word, rows, kind):
    found = rows[number(word, len(rows))]
    if found[0] != kind:
        raise ValueError
    return found[1]


def tree_row(words, rows):
    if words[0] == "var":
        return ("Term", ("var", number(words[1], 2 ** 32)))
    found = [named(word, rows, "Term") for word in words[1:]]
    if len(found) != len(BINDS[words[0]]):
        raise ValueError
    return ("Term", (words[0], *found))


def context_row(words, rows):
    if words == ["nil"]:
        return ("Context", ())
    ctx = named(words[1], rows, "Context")
    if words[0] == "name" and len(words) == 2:
        return ("Context", ctx + (("name",),))
    (tree,) = words[2:]
    entry_form = {"var": "var", "face": "face"}[words[0]]
    return ("Context", ctx + ((entry_form, named(tree, rows, "Term")),))


def node_row(words, rows):
    rule = RULES[words[0]]
    kinds = rule.kinds() + ["Node"] * len(rule.wants)
    if len(words) != 1 + len(kinds):
        raise ValueError
    named_by = [named(word, rows, kind) for word, kind in zip(words[1:], kinds)]
    found = concluded(rule, named_by[:len(rule.parts)], named_by[len(rule.parts):])
    if found is None:
        raise ValueError
    return ("Node", found)


def row(words, rows):
    """What a line's words mean after right rows. They are an error where the row is not right."""
    if (words[0] == "rules") != (not rows):
        raise ValueError
    if words[0] == "rules":
        (version,) = words[1:]
        return ("Nothing",) if version == "1" else number("", 0)
    if words[0] == "t" and (words[1] != "var" or len(words) == 3):
        return tree_row(words[1:], rows)
    if words[0] == "c":
        return context_row(words[1:], rows)
    if words[0] == "n":
        return node_row(words[1:], rows)
    if words[0] == "r":
        (node,) = words[1:]
        named(node, rows, "Node")
        return ("Nothing",)
    if words[:2] == ["s", "shift"]:
        (by,) = words[2:]
        return ("Subst", shift_by(number(by, GREATEST_SHIFT + 1)))
    if words[:2] == ["s", "push"]:
        sub, term = words[2:]
        return ("Subst", push(named(sub, rows, "Subst"), named(term, rows, "Term")))
    term, sub = words[1:] if words[0] == "x" else ()
    return ("Term", apply(named(term, rows, "Term"), named(sub, rows, "Subst")))


def meanings(lines):
    """What the rows of these lines mean, up to the first that is not right."""
    rows = []
    for line in lines:
        try:
            rows.append(row(line.split(" "), rows))
        except (ValueError, KeyError, IndexError):
            break
    return rows


def answer(data):
    """The line that `replay` prints for these bytes, and the roots where all rows are right."""
    *lines, cut = data.decode("latin-1").split("\n")
    rows = meanings(lines)
    if len(rows) < len(lines) or cut or not lines:
        return f"no: row {len(rows)}\n", None
    roots = [rows[int(line[2:])][1] for line in lines if line.startswith("r ")]
    return f"yes: {len(rows)} rows, {len(roots)} roots\n", roots


def verdict(lines):
    """The line that `replay` prints for a file of these lines, each ended by a newline."""
    return answer("".join(line + "\n" for line in lines).encode("latin-1"))[0]


if __name__ == "__main__":
    if len(sys.argv) < 2:
        sys.exit(__doc__.strip())
    print(answer(pathlib.Path(sys.argv[1]).read_bytes())[0], end="")
