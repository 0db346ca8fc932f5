#!/usr/bin/env python3
"""Modules and derivation files that grow with a number, each in a way of its own.

    python3 tools/growing.py PROGRAM [SIZE [NAME ..]]

tells for each the seconds of `check` and of `replay --of`, or of `replay`, and the bytes that are
stored, at this size (10 where none is given), twice and four times it. They should grow as the size
does; where they grow faster, the page of the bench says so.
"""
import sys
import tempfile

from running import Program


def named(first, *rest):
    """A module of a definition or two, and then some for each number from 1 on, by those before."""
    def module(size):
        lines = ["module M where", *first]
        lines += [line.format(k, k - 1) for k in range(1, size + 1) for line in rest]
        return "".join(line + "\n" for line in lines)
    return module


def nested(head, before, core, behind):
    """A module of one definition, so many times nested."""
    return lambda size: f"module M where\n{head(size)} = {before * size}{core}{behind * size}\n"


def always(text):
    return lambda size: text


MODULES = {
    "successors": named(["d0 : nat = zero"], "d{0} : nat = suc d{1}"),
    "functions": named(["f0 (x : nat) : nat = suc x"], "f{0} (x : nat) : nat = f{1} (f{1} x)"),
    "generic": named(["f0 (A : U) (x : A) : A = x"],
                     "f{0} (A : U) (x : A) : A = f{1} A (f{1} A x)"),
    "families": named(["T0 (A : U) : U = A"], "T{0} (A : U) : U = (_ : T{1} A) * T{1} A"),
    "arrows": named(["T0 : U = nat"], "T{0} : U = T{1} -> T{1}"),
    "identities": named(["T0 : U = nat"], "T{0} : U = T{1} -> T{1}",
                        "i{0} : T{0} = \\(x : T{1}) -> x"),
    "constants": named(["T0 : U = nat", "v0 : T0 = zero"], "T{0} : U = nat -> T{1}",
                       "v{0} : T{0} = \\(x : nat) -> v{1}"),
    "pairs": named(["T0 : U = nat", "v0 : T0 = zero"], "T{0} : U = (_ : T{1}) * T{1}",
                   "v{0} : T{0} = (v{1}, v{1})"),
    "paths": named(["T0 : U = nat", "p0 : T0 = zero"], "T{0} : U = PathP (<_> T{1}) p{1} p{1}",
                   "p{0} : T{0} = <_> p{1}"),
    "brackets": nested(always("a : nat"), "(", "zero", ")"),
    "lets": nested(always("a : nat"), "let x : nat = zero in ", "x", ""),
    "tuples": nested(lambda size: "a : " + "(_ : nat) * " * size + "nat", "(zero, ", "zero", ")"),
    "lambdas": nested(lambda size: "a : " + "nat -> " * size + "nat", "\\(x : nat) -> ", "x", ""),
}


def lines(rows):
    return "".join(row + "\n" for row in rows)


def rotations(size):
    """A variable that is looked up twice by twice, .. in substitutions that rotate 33 variables."""
    rows = ["rules 1", "c nil", "n ctx.nil", "t zero", "n zero 1 2", "s shift 33"]
    rows += [f"t var {k}" for k in range(33)]
    variables = [*range(7, 39), 6]
    trees = variables
    for _ in range(size + 1):
        sub = 5
        for tree in reversed(trees):
            rows.append(f"s push {sub} {tree}")
            sub = len(rows) - 1
        trees = []
        for variable in variables:
            rows += [f"x {variable} {sub}", f"x {len(rows)} {sub}"]
            trees.append(len(rows) - 1)
    rows.append(f"n suc 1 {trees[0]} 4")
    return lines(rows)


def after(size):
    """One comparison of a tree that is spelt twice, and then as many small nodes."""
    rows = ["rules 1", "c nil", "n ctx.nil", "n nat.u 1 2", "t zero", "n zero 1 2"]
    tree, node = 4, 5
    for _ in range(size):
        rows += [f"n suc 1 {tree} {node}", f"t suc {tree}"]
        node, tree = len(rows) - 2, len(rows) - 1
    rows.append("t zero")
    rows += [f"t suc {len(rows) + at - 1}" for at in range(size)]
    rows.append(f"n suc 1 {len(rows) - 1} {node}")
    return lines(rows + ["n zero 1 2"] * size)


DERIVATIONS = {"rotations": rotations, "after": after}


def told(program, name, size):
    """What runs take at a size."""
    if name in DERIVATIONS:
        program.put({"M.drv": DERIVATIONS[name](size).encode()})
        return f"replay {program.run('replay', 'M.drv').seconds:.2f} s"
    program.put({"M.ctt": MODULES[name](size).encode()})
    runs = [program.run("check", "M"), program.run("replay", "M.drv", "--of", "M")]
    file = program.at / "M.drv"
    stored = f"{file.stat().st_size} bytes" if file.exists() else runs[0].text.strip()
    return f"check {runs[0].seconds:.2f} s, replay {runs[1].seconds:.2f} s, {stored}"


def main():
    if len(sys.argv) < 2:
        sys.exit(__doc__.strip())
    size = int(sys.argv[2]) if len(sys.argv) > 2 else 10
    with tempfile.TemporaryDirectory() as folder:
        program = Program(sys.argv[1], folder)
        for name in sys.argv[3:] or [*MODULES, *DERIVATIONS]:
            for times in (1, 2, 4):
                print(f"{name} {times * size}: {told(program, name, times * size)}", flush=True)


if __name__ == "__main__":
    main()
