"""The answers of proofs that tables derive what is stated, written from the contracts.

A function whose contract is `Derives EARLIER STATEMENT TABLE.now GIVES.now` is proved by the test
of `recipes`; what its answer names is read off the `ghost use` lines of its crate.
"""
import re

FUNCTION = re.compile(
    r"pub fn (\w+)\(\)\s+ensures \{ Derives\s+(.*?)\s+(\w+)\.now\s+(\w+)\.now \}", re.S)
USE = re.compile(r"ghost use (Rattle\.[\w.]+)\.\{(.*?)\};", re.S)
ANSWER = """use Rattle.std.proofs.Common.{{{common}}}
use Rattle.recipes.proofs.Soundness.{{derives-sound}}
use Rattle.pattern_sides.specs.Follows.{{follows}}
use Rattle.pattern_sides.proofs.SideLaws.{{follows-sound}}
{uses}use Rattle.{crate}.specs.declared.{table}.TheConstants.{{{rows}, {gives}}}
use Rattle.{crate}.proofs.{name}.Goals as goal

pub returns : goal.returns
returns c = derives-sound follows follows-sound {stated} {rows}.now {gives}.now refl
"""


def answers(crate, text, recipes):
    """The answers for the text of a crate, by the names of its functions."""
    imports = [(path, re.split(r",\s*", names.strip(", \n"))) for path, names in USE.findall(text)]
    found = {}
    for name, stated, rows, gives in FUNCTION.findall(text):
        if rows.lower() not in recipes:
            continue
        words, uses = set(re.findall(r"[\w']+", stated)), {}
        for path, names in imports:
            uses.setdefault(path, []).extend(one for one in names if one in words)
        lines = "".join(f"use {path}.{{{', '.join(names)}}}\n"
                        for path, names in uses.items() if names)
        lists = [sign for sign, mark in (("[]", "[]"), ("◌∷◌", "∷")) if mark in stated]
        found[name] = ANSWER.format(crate=crate, name=name, rows=rows, gives=gives, uses=lines,
                                    common=", ".join([*lists, "refl"]),
                                    table=rows.lower(), stated=" ".join(stated.split()))
    return found


def with_modules(text, recipes):
    """The text of a crate with a `mod` and a `pub use` line for each recipe, if it has none."""
    more = [name for name in recipes if not re.search(rf"^(pub )?mod {name};", text, re.M)]
    for first, line in (("mod", "mod {0};"), ("pub use", "pub use {0}::{{{1}, {1}_GIVES}};")):
        there = re.findall(rf"^{first} \w+.*;$", text, re.M)
        for name in more if there else []:
            text = text.replace(there[-1], there[-1] + "\n" + line.format(name, name.upper()), 1)
    return text
