#!/usr/bin/env python3
"""Finds the definitions that the contract of the program's commands rests on, and writes
`docs/TRUSTED.md`.

It begins at the contract of `session::run`, and at the traits that it is generic in, and follows
the names in these from definition to definition, by the `use` lines of `specs/*.antt` and
`src/*.rt`. Of code it takes types and constants, with what they are seen as, and never a body.
A name that is bound where it stands may be taken for a definition of that name, so a definition
too many may be found, and none too few. The kit's library is not followed.

    python3 tools/trusted.py            writes the page
    python3 tools/trusted.py --check    says whether the page is what it would write
    python3 tools/trusted.py --names    prints the names that are found in each file
"""
import collections
import functools
import pathlib
import re
import sys
import textwrap

ROOT = pathlib.Path(__file__).resolve().parent.parent
CRATES = ROOT / "crates"
PAGE = ROOT / "docs" / "TRUSTED.md"
LISTED = [line.split("#")[0] for line in (ROOT / "crates.txt").read_text().splitlines()]
LAYERS = [line.split(":")[0] for line in LISTED if ":" in line]

START = [("ctt/src/main.rt", "run_to_end"), ("host_io/src/files.rt", "Files"),
         ("host_io/src/streams.rt", "Source"), ("host_io/src/streams.rt", "Sink")]

# Laws on what the contract speaks of, which exclude that an answer means two things.
LAWS = [("session/src/exclusion.rt", "answers_exclude_each_other"),
        ("text_laws/src/lib.rt", "texts_determine_directness")]

# The parts of the contract, each with the names of definitions that only later parts need.
OF_PROMPT = {"PromptJob", "RanLines", "prompt_of"}
OF_NORMAL = {"NormalJob", "normal_of"} | OF_PROMPT
OF_CHECK = {"MayDo", "MayLeave", "CheckJob", "check_of", "turns_of"} | OF_NORMAL
OF_MODULES = {"MayReplayOf", "is_only", "tokens_of", "refusal_text"}
PARTS = {
    "`replay FILE`": OF_MODULES | OF_CHECK,
    "`replay FILE --of MODULE`": OF_CHECK,
    "`check MODULE`": OF_NORMAL,
    "`normal MODULE NAME`": OF_PROMPT,
    "`prompt MODULE`": set(),
}

# A piece of a file: some lines, with the names that are defined there.
Piece = collections.namedtuple("Piece", "path start end names")

USE = re.compile(r"^(?:ghost |pub )*use ([\w.:]+?)(?:(?:\.|::)\{(.*?)\})?(?: as (\w+))?;?$", re.M)
OPENS = re.compile(r"(abbrev|unfoldable|pub (?!mod )|data|record|module|mutual|instance)\b")
HEAD = re.compile(r"( *)((?:abbrev |unfoldable |pub |mutual |data |record )*)"
                  r"(◌\S+|[^\s:(){}\[\]=]+(?: [\w']+)*?)\s*(?:[({].*)?:( |$)")
ITEM = r"^(?:pub(?:\(crate\))? )?(enum|struct|const|static|trait|fn) "
TYPE = ITEM.replace("|trait|fn", "")


def plain(text):
    """A text without comments and quotes."""
    return re.sub(r'"[^"]*"', '""', re.sub(r"(^|\s)(--|//|#\[).*", "", text))


@functools.cache
def lines_of(path):
    return (CRATES / path).read_text().splitlines()


def piece(path, start, end, names):
    """The piece, with the comments and attributes before it and without what stands behind it."""
    lines = lines_of(path)
    while start and re.match(r"--|///|#\[", lines[start - 1]):
        start -= 1
    while re.match(r"--|\s*$", lines[end - 1]):
        end -= 1
    return Piece(path, start, end, frozenset(names))


def defined(lines):
    """The names that these lines define: of types with constructors these too, and no fields."""
    kind, depth = "", 0
    for line in lines:
        found = HEAD.match(plain(line))
        if not found:
            continue
        indent, words, names, _ = found.groups()
        inside = kind and len(indent) > depth
        if not inside:
            kind = next((word for word in ("data", "record") if word in words), "")
            depth = len(indent)
        if (kind == "data" and len(indent) == depth + 2) if inside else words:
            yield from names.split()


def definitions(path):
    """The pieces of a file of definitions."""
    lines = lines_of(path)
    starts = [k for k, line in enumerate(lines) if OPENS.match(line)]
    for start, end in zip(starts, starts[1:] + [len(lines)]):
        names = list(defined(lines[start:end]))
        if not names and re.match(r"(pub )?(abbrev|unfoldable|data|record)", lines[start]):
            sys.exit(f"{path}:{start + 1}: a definition whose name is not read")
        yield piece(path, start, end, names)


def declarations(path):
    """The pieces of a file of code: types, what they are seen as, constants and traits, and of
    functions what stands before the body."""
    lines = lines_of(path)
    for start, line in enumerate(lines):
        found = re.match(ITEM + r"(\w+)", line) or re.match(r"impl.* (Model) for (\w+)", line)
        if not found:
            continue
        last = re.compile(r"(.* )?\{(\}|$)" if found[1] == "fn" else r"[\]}]|\S.*[;}]$")
        end = start + 1
        while not last.match(lines[end - 1]):
            end += 1
        variants = re.findall(r"^    ([A-Z]\w*)", "\n".join(lines[start:end]), re.M)
        yield piece(path, start, end, {found[2], *(variants if found[1] == "enum" else [])})


@functools.cache
def pieces(path):
    return list((definitions if path.endswith(".antt") else declarations)(path))


@functools.cache
def declaring(crate, name):
    """The file of a crate that declares a type or a constant."""
    for path in sorted((CRATES / crate / "src").rglob("*.rt")):
        if path.stem != "tests" and re.search(rf"{TYPE}{name}\b", path.read_text(), re.M):
            return str(path.relative_to(CRATES))
    return None


def place(path):
    """The file that a `use` line names, and the type where it names one. None stands for what is
    not of this repository, and for what the kit makes of a type."""
    words = path.split(".")
    if words[0] != "Rattle" or words[1] not in LAYERS or words[3] == "contracts":
        return None
    if words[3] != "declared":
        return "/".join(words[1:]) + ".antt", None
    if words[-1] == "TheConstants":
        return "/".join([words[1], "src", *words[4:-1]]) + ".rt", None
    name = words[-2] if words[-1] == "TheVariants" else words[-1]
    return declaring(words[1], name), name


def renamed(names):
    """The names of a `use` line, each with the name that it has from there on."""
    for part in filter(None, (part.strip() for part in names.split(","))):
        there, _, here = part.partition(" as ")
        yield there, here or there


@functools.cache
def imports(path):
    """What the names that a file uses stand for: a file, with a name or None for any in it."""
    found = {}
    for used, names, alias in USE.findall((CRATES / path).read_text()):
        if "::" in used or used.split(".")[0] != "Rattle":
            crate = used.split("::")[0].replace("crate", path.split("/")[0])
            for name, here in renamed(names or used.split("::")[-1]):
                if declaring(crate, name):
                    found.setdefault(here, (declaring(crate, name), name))
        elif place(used):
            file, name = place(used)
            found.update((here, (file, name or there)) for there, here in renamed(names))
            found.update({alias: (file, name)} if alias else {})
    return found


def clauses(of):
    """The texts in which a name that is bound anywhere is that name everywhere: a type or a record
    whole, else a line with those that go on with it."""
    lines = [plain(line) for line in lines_of(of.path)[of.start:of.end]]
    if any(re.search(r"\b(data|record|module) \w", line) for line in lines if line[:1].strip()):
        return ["\n".join(lines)]
    return re.split(r"\n(?= {0,2}\S)", "\n".join(lines))


def free(clause):
    """The names of a clause that are not bound in it, each with the name behind a dot."""
    bound = re.findall(r"λ([^.]*)\.", clause) + re.findall(r"[({]([\w' ]+) :", clause)
    bound += re.findall(r"\blet (\w+) ", clause) + re.findall(r"^ +pub (\w+) :", clause, re.M)
    left = re.match(r"\s*[a-z]\w*'*((?: [^=:]*)?) =(?=\s)", clause)
    bound += [re.sub(r"\w+\.\w+|\b[A-Z]\w*", "", left[1])] if left else []
    bound = {name for names in bound for name in names.split()}
    text = re.sub(r"([{;]\s*)\w+ =(?=\s)", r"\1", clause)
    for name, within in re.findall(r"(?<![.\w'])([^\W\d]\w*'*)(?:\.(\w+))?", text):
        if name not in bound:
            yield name, within


def cited(of):
    """The files and names that a piece cites."""
    local = {name: (of.path, name) for other in pieces(of.path) for name in other.names}
    known = {**imports(of.path), **local}
    crate = of.path.split("/")[0]
    for clause in clauses(of):
        for name, within in free(clause):
            if name in known:
                yield (known[name][0], known[name][1] or within)
            elif of.path.endswith(".rt") and declaring(crate, name):
                yield declaring(crate, name), name
        yield from (known[name] for name in known if "◌" in name and name.strip("◌") in clause)


def reached(stops, start=START):
    """The pieces that are reached from these where the names in `stops` are not followed."""
    found, waiting = set(), list(start)
    while waiting:
        path, name = waiting.pop()
        for each in pieces(path):
            if name in each.names - stops and each not in found:
                found.add(each)
                waiting.extend(cited(each))
    return found


def ordered(files):
    """Files, each after those that it cites, but for circles, by their pieces."""
    after, done = {}, []
    for path, of in files.items():
        after[path] = sorted({there for each in of for there, _ in cited(each)} - {path})

    def visit(path):
        for there in after.pop(path, []):
            visit(there)
        if path in files and path not in done:
            done.append(path)

    for path in sorted(files):
        visit(path)
    return done


def by_file(found):
    """Pieces by their files, in the order to read them: crates from below upward."""
    files = {}
    for each in sorted(found):
        files.setdefault(each.path, []).append(each)
    order = sorted(ordered(files), key=lambda path: LAYERS.index(path.split("/")[0]))
    return {path: files[path] for path in order}


def count(found):
    """The lines of pieces, but for blank ones."""
    return sum(bool(line.strip()) for of in found for line in lines_of(of.path)[of.start:of.end])


def parts():
    """The parts, each with the pieces that it needs and those before it don't."""
    before = set()
    for title, stops in PARTS.items():
        found = reached(stops)
        yield title, by_file(found - before)
        before |= found


def library():
    """The names of the kit's library that the pieces use, by the module that has them."""
    found = collections.defaultdict(set)
    for of in reached(set()):
        free_names = {name for clause in clauses(of) for name, _ in free(clause)}
        text = plain("\n".join(lines_of(of.path)[of.start:of.end]))
        for used, names, _ in USE.findall((CRATES / of.path).read_text()):
            if re.match(r"Rattle\.((std|unicode_ident)\.specs\.|\w+\.specs\.contracts\.)|denote\.", used):
                found[used.replace("Rattle.", "")].update(
                    there for there, here in renamed(names) if here in free_names or
                    "◌" in here and all(mark in text for mark in here.split("◌")))
    return {used: names for used, names in found.items() if names}


def table(files, number):
    """The rows of a part, the first with this number."""
    yield "| | File | Lines | Of |"
    yield "|---|---|---|---|"
    for at, (path, of) in enumerate(files.items(), start=number):
        yield f"| {at} | `{path}` | {count(of)} | {len(lines_of(path))} |"


HEAD_OF_PAGE = """\
# What is to be read

An answer of the program means what the contract of `run_to_end` says, in `ctt/src/main.rt`: that
of `session::run`, with the number that a status is. This page lists the definitions on which that
contract rests, closed under what they cite: whoever has read them, and believes the prover, knows
what an answer means, and need read no body of code and no proof.
`python3 tools/trusted.py` writes this page anew from the contract, and `--names` prints the
definitions of each file.

The parts are to be read one after another, and the files of a part in the order in which they
stand; `crates` is left out before their names. *Lines* are those of the definitions that are
needed, with their comments, and without blank ones and the `use` lines at the head of a file, which
say where each name is from; *Of* is the length of the file. A file stands in each part that is the
first to need some of it. Of code (`.rt`) the types count, and the contracts of `run_to_end` and of
the traits `Files`, `Source` and `Sink`, which are asked of what it is handed.

The rules and the trees in `rules/specs/Table` are those of Cubical Type Theory as in the paper by
Cohen, Coquand, Huber and Mörtberg; `docs/RULES.md` says which rules are this project's own. Of the
trees one is: `eqv`, the equivalence that transport along a line of types is, was made for this
project after the paper's section on composition for the universe, and so is not to be compared with
it piece by piece. The trees of the Kan operations stand there with indices that are shifted by
hand. Whoever had rather read them with bound names reads `stability/specs/Named.antt` in their
place: `stability::trees_are_named` says that they are the same.
"""

WHAT_IS_LEFT = """\
Of these, a rule has one line in `theory/src/rule.rt`, one in `theory/specs/RuleNames` and one to
four in the table. Three things are said more than once, or at a remove:

- The operators, `fill`, `cover` and `body` stand in `rules/specs/Table` for every language, and in
  `translation/specs` at trees (about 100 lines). `translation` and the crates that stand on it and
  not on `rules` would be proved anew with each new rule if they were one.
- The lexer, the parser, the resolver and the loader have each their own causes of refusal, which
  the lines `told_` carry to those that are printed (about 100 lines).
- What `check` means is said of codes and their shapes, which lie between a text and what is direct,
  and not of the text (about 800 lines).
"""

HEAD_OF_LAWS = """\
These laws are proved of what the contract speaks of, and no answer of the program rests on them.
`answers_exclude_each_other` says that there is one verdict on a file (`OneVerdict`), and one answer
of a replay and of a check where it is told what is held (`OneAnswer`, `OneCheck`). The contract
tells the place of `RefusedForm` at a definition by codes that the texts become:
`texts_determine_directness` says that all such codes give one place. The lines are those that the
laws need besides.
"""


def laws(number):
    """The section on laws, its first row with this number."""
    files = by_file(reached(set(), START + LAWS) - reached(set()))
    yield from ["", f"## Laws: {sum(map(count, files.values())):,} lines", ""]
    yield from HEAD_OF_LAWS.splitlines() + [""]
    yield from table(files, number)


def page():
    yield from HEAD_OF_PAGE.splitlines()
    number, total, notes = 1, 0, 0
    for title, files in parts():
        lines = sum(map(count, files.values()))
        besides = " besides" if total else ""
        yield from ["", f"## What {title} needs{besides}: {lines:,} lines", ""]
        yield from table(files, number)
        number, total = number + len(files), total + lines
        notes += sum(re.match(r"\s*(--|///)", line) is not None for of in files.values()
                     for each in of for line in lines_of(each.path)[each.start:each.end])
    names = library()
    yield from ["", "## The total", ""]
    yield f"{total:,} lines, of which {notes:,} are comments, and of the kit's library, and of what the"
    yield "kit makes of types (`contracts`), these names:"
    yield ""
    for used in sorted(names):
        words = f"- `{used}`: " + ", ".join(f"`{name}`" for name in sorted(names[used]))
        yield from textwrap.wrap(words, 98, subsequent_indent="  ", break_on_hyphens=False)
    yield from ["", "## Where they go", ""]
    yield from WHAT_IS_LEFT.splitlines()
    yield from laws(number)


def main(words):
    if words == ["--names"]:
        for title, files in parts():
            print(title)
            for path, of in files.items():
                print(f"  {path}: {' '.join(sorted(name for each in of for name in each.names))}")
        return 0
    text = "\n".join(page()) + "\n"
    if words == ["--check"]:
        same = PAGE.read_text() == text
        print("trusted: the page is as it would be written" if same else "trusted: write the page")
        return 0 if same else 1
    PAGE.write_text(text)
    return 0


if __name__ == "__main__":
    sys.exit(main(sys.argv[1:]))
