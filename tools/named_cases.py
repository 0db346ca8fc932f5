"""Cases of single rules, each with a name: rows that are right, or right but for the last one.

Each is made of a right use (`consistent_rules.py`). What makes one answers a book and the words of
the row that comes last.
"""
import judge
from consistent_rules import (BOX, EQUIVALENCES, GLUED, K, LINES, M, ON, S, Uses, glued_again,
                              glued_composition, gluing, meet, of_elements)
from deriving import ID, wants
from kan import I1, bind, eq0, eq1


def asked(book, name, parts):
    return book, book.words(name, parts, wants(name, parts))


def comp_face(face):
    """What `comp.face` says on (k=0) or (m=1) is carried to another face by the identity, which
    wants the one there."""
    book = Uses()
    book.starts(LINES.face(BOX), S)
    _, on, *equation = book.node("comp.face", *of_elements())
    here = [LINES.face(face).ctx, ID]
    carried = asked(book, "sub.face", [*here, LINES.ctx, LINES.of(BOX)])
    if face != eq1(M):
        return carried
    book.node("sub.face", *here, LINES.ctx, LINES.of(BOX))
    return asked(book, "tmeq.sub", [*here, on, *equation])


def glue_eta(at):
    """A premise of `glue.eta` is given on less of the face."""
    book = Uses()
    gluing(book)
    parts = glued_again(book)
    claims = wants("glue.eta", parts)
    form, ctx, *places = claims[at]
    less = ctx[:-1] + (("face", GLUED.of(meet(ON, eq0(M)))),)
    rule = {"Ty": "ty.sub", "Tm": "tm.sub", "TmEq": "tmeq.sub"}[form]
    claims[at] = book.node(rule, less, ID, ctx, *places)
    return book, book.words("glue.eta", parts, claims)


def comp_glue(here, q, p):
    """Glued elements are composed, and what comes of it is taken, written out."""
    book = Uses()
    equation = book.node("comp.glue", *glued_composition(here, q, p))
    return asked(book, "tmeq.sym", equation[1:])


def comp_glue_off_the_name():
    """`q` is as it was before there was a name to live over: a variable is where its name was."""
    book = Uses()
    parts = glued_composition(EQUIVALENCES, lambda _: eq1(M), eq0(K))
    claims = wants("comp.glue", parts)
    parts[2] = EQUIVALENCES.of(eq1(M))
    return book, book.words("comp.glue", parts, claims)


def comp_glues():
    """Cases of `comp.glue` by what holds of `all i.q`, `q{1}` and `p`: six, as the first gives the
    second."""
    here, found = EQUIVALENCES.face(eq0(K)), {}
    for q in (lambda _: eq0(K), eq1, eq0):
        for p in (eq0(K), eq0(M)):
            along = ("all", bind(q))
            tried = {"all": along, "end": q(I1), "p": p}
            held = [word for word, face in tried.items() if judge.holds(here.ctx, here.of(face))]
            found["_".join(["comp_glue", *held])] = lambda q=q, p=p: comp_glue(here, q, p)
    return found


RIGHT = {"comp_face_where_it_holds": lambda: comp_face(eq1(M))} | comp_glues()
WRONG = {"comp_face_where_it_does_not_hold": lambda: comp_face(eq0(M)),
         "comp_glue_off_the_name": comp_glue_off_the_name} | {
    f"glue_eta_{on}_on_less": lambda at=at: glue_eta(at)
    for on, at in (("type", 1), ("equivalence", 2), ("equation", 6))}


def cases():
    """Of each case its name, its rows, and the line that they are answered by."""
    for made, is_right in ((RIGHT, True), (WRONG, False)):
        for name, make in made.items():
            book, last = make()
            rows = [*book.rows, " ".join(map(str, last))]
            line = f"yes: {len(rows)} rows, 0 roots\n" if is_right else f"no: row {len(rows) - 1}\n"
            if judge.verdict(rows) != line:
                raise ValueError(f"{name} is not {line}")
            yield name, rows, line
