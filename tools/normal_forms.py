"""Normal forms of things, with the parts unknown. Two that are the same are one object.

A substitution is a list of trees, the last pushed first, and its end: a shift, or what is left of a
part without its first entries, and then a substitution.
"""
from rule_notation import BINDS, KINDS


class Form:
    """A normal form: a word, and what stands below it."""

    __slots__ = ("word", "rest", "memo")

    def __init__(self, word, rest):
        self.word, self.rest, self.memo = word, rest, {}

    def __repr__(self):
        return f"({self.word} {' '.join(map(repr, self.rest))})"


MADE = {}


def form(word, *rest):
    found = MADE.get((word, rest))
    if found is None:
        found = MADE[word, rest] = Form(word, rest)
    return found


def sub_of(pushed, end):
    return form("sub", pushed, end)


def look(sub, index):
    pushed, end = sub.rest
    if index < len(pushed):
        return pushed[index]
    past = index - len(pushed)
    if isinstance(end, int):
        return form("var", past + end)
    count, part, rest = end.rest
    return form("entry", part, past + count, trimmed(rest))


def raised(sub):
    """A substitution under one binder."""
    found = sub.memo.get("raised")
    if found is None:
        pushed, end = then(sub, sub_of((), 1)).rest
        found = sub.memo["raised"] = sub_of((form("var", 0),) + pushed, end)
    return found


def applied(tree, sub):
    found = tree.memo.get(sub)
    if found is None:
        found = tree.memo[sub] = applied_anew(tree, sub)
    return found


def applied_anew(tree, sub):
    if tree.word == "var":
        return look(sub, tree.rest[0])
    if tree.word in ("part", "entry"):
        return form(tree.word, *tree.rest[:-1], trimmed(then(tree.rest[-1], sub)))
    kids = []
    for kid, binds in zip(tree.rest[1], BINDS[tree.rest[0]]):
        under = sub
        for _ in range(binds):
            under = raised(under)
        kids.append(applied(kid, under))
    return form("make", tree.rest[0], tuple(kids))


def dropped(sub, count):
    """A substitution without its first entries."""
    pushed, end = sub.rest
    past = max(0, count - len(pushed))
    if isinstance(end, int):
        return (pushed[count:], end + past)
    entries, part, rest = end.rest
    return (pushed[count:], form("rest", entries + past, part, rest))


def then(first, second):
    found = first.memo.get(second)
    if found is None:
        found = first.memo[second] = then_anew(first, second)
    return found


def then_anew(first, second):
    pushed, end = first.rest
    if isinstance(end, int):
        rest, end = dropped(second, end)
    else:
        count, part, after = end.rest
        rest, end = (), form("rest", count, part, then(after, second))
    return sub_of(tuple(applied(tree, second) for tree in pushed) + rest, end)


def trimmed(sub):
    """Without trees at the end that act as a smaller shift, or as more of a part."""
    pushed, end = sub.rest
    if isinstance(end, int):
        while pushed and end and pushed[-1] is form("var", end - 1):
            pushed, end = pushed[:-1], end - 1
        return sub_of(pushed, end)
    count, part, rest = end.rest
    rest = trimmed(rest)
    while pushed and count and pushed[-1] is form("entry", part, count - 1, rest):
        pushed, count = pushed[:-1], count - 1
    return sub_of(pushed, form("rest", count, part, rest))


def unknown(parts):
    """The parts themselves, unknown."""
    identity = sub_of((), 0)
    kinds = {"Term": lambda part: form("part", part, identity),
             "Subst": lambda part: sub_of((), form("rest", 0, part, identity)),
             "Context": lambda part: form("ctx", part)}
    return {part: kinds[KINDS.get(part, "Term")](part) for part in parts}
