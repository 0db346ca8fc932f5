"""The trees of the Kan operations as things of `rule_notation`, from `rules/specs/Table.antt`."""
import kan_trees
from rule_notation import OPERATORS

FOUND = kan_trees.definitions()
SPELLED = {"glue_type": "Glue", "universe": "U"}


def kan_thing(name, args):
    """What a definition makes of things."""
    letters, body = FOUND[name]
    return made(body, dict(zip(letters, args)))


def made(expression, here):
    word, *rest = expression
    if word == "let":
        name, value, body = rest
        return made(body, here | {name: made(value, here)})
    if word == "list":
        return []
    if word == "cons":
        return [made(rest[0], here)] + made(rest[1], here)
    if word == "name":
        return call(rest[0], [], here)
    return call(rest[0][1], [made(one, here) for one in rest[1]], here)


def over(name, *kids):
    return ("make", name, list(kids))


def cover(sides):
    return over("join", sides[0][0], cover(sides[1:])) if sides else over("f0")


def body(sides):
    if not sides:
        return over("empty")
    return over("sys", sides[0][0], cover(sides[1:]), sides[0][1], body(sides[1:]))


LISTS = {
    "side": lambda face, tree: (face, tree), "cover": cover, "body": body,
    "over_name": lambda sides: [(("weakened", face), tree) for face, tree in sides],
}
BASIC = {
    "id": lambda: ("id",), "up": lambda: ("up",), "var": lambda at: ("var", at),
    "shift_by": lambda by: ("shift", by), "push": lambda sub, tree: ("push", sub, tree),
    "apply": lambda tree, sub: ("apply", tree, sub), "weakened": lambda tree: ("weakened", tree),
    "at": lambda tree, other: ("at", tree, other),
}


def call(name, args, here):
    if name in here:
        return here[name]
    if name.isdigit():
        return int(name)
    if name in FOUND:
        return kan_thing(name, args)
    if name in LISTS:
        return LISTS[name](*args)
    if name in BASIC:
        return BASIC[name](*args)
    name = SPELLED.get(name, name)
    assert len(OPERATORS[name][1]) == len(args), name
    return over(name, *args)
