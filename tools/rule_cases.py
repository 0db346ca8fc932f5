"""Cases for each rule: files that use each rightly, and what comes of them with one thing wrong.

`tests/every_rule.drv` is right. It uses each rule, and where its parts may depend on variables they
do; at its end stand nodes that take the conclusion of each rule, written out. Those of systems,
composition and Glue it uses nearly all where the faces of the context are true nowhere, so that
all is equal there; `tests/consistent_rules.drv` uses them where their premises say something.
`tests/false_sides.txt` has nodes that may stand after every rule and are wrong by a side condition
alone. `named_cases.py` has cases of single rules. `judge.py` says what to expect.
"""
import pathlib

import changes
import judge
import named_cases
import rule_notation

TESTS = pathlib.Path(__file__).resolve().parent.parent / "tests"
FALSE_SIDES = (TESTS / "false_sides.txt").read_text().splitlines()


def numbers(row):
    """The numbers of rows that a row names."""
    words = row.split(" ")
    return [int(words[at]) for at in changes.named(row)]


class File:
    """A file of right rows, with the families of rules whose uses it is for."""

    def __init__(self, name, families):
        self.name, self.families = name, families
        self.rows = (TESTS / f"{name}.drv").read_text().splitlines()
        self.meanings = judge.meanings(self.rows)

    def uses(self):
        """The last use of each rule of these families: the words of its row."""
        nodes = [line.split(" ") for line in self.rows if line.startswith("n ")]
        last = {words[1]: words for words in nodes}
        return {rule.name: last[rule.name] for family in self.families for rule in family.rules}

    def other(self, row):
        """The row of the same kind that stands before a row, or after it where none does."""
        kinds = [kind for kind, *_ in self.meanings]
        before = [at for at in range(row) if kinds[at] == kinds[row]]
        return before[-1] if before else kinds.index(kinds[row], row + 1)

    def exchanged(self):
        """Each use with one number exchanged for another row of its kind."""
        for words in self.uses().values():
            for place in range(2, len(words)):
                other = str(self.other(int(words[place])))
                yield self, words[:place] + [other] + words[place + 1:]

    def behind(self, row):
        """The rows that a row stands on, in order, by their numbers."""
        wanted = {0, *numbers(row)}
        for at in range(max(wanted), 0, -1):
            if at in wanted:
                wanted.update(numbers(self.rows[at]))
        return sorted(wanted)

    def after(self, words):
        """The case of a row after those that it stands on, which are right."""
        row = " ".join(words)
        try:
            judge.row(words, self.meanings)
            is_right = True
        except (ValueError, KeyError, IndexError):
            is_right = False
        behind = self.behind(row)
        place = {number: at for at, number in enumerate(behind)}
        rows = [changes.renumbered(self.rows[number], place.get) for number in behind]
        line = f"yes: {len(rows) + 1} rows, 0 roots\n" if is_right else f"no: row {len(rows)}\n"
        return case(rows + [changes.renumbered(row, place.get)], line)


def files():
    *others, systems, composition, gluing = rule_notation.families()
    return File("every_rule", others), File("consistent_rules", [systems, composition, gluing])


def case(rows, line):
    """A case as `try_program.py` has them: the file, the words, the line, and the status."""
    text = "".join(row + "\n" for row in rows)
    return (text, ["replay", "{}"], line, 0 if line.startswith("yes") else 1)


def cases(step):
    """The cases: of the exchanges one in so many."""
    every, consistent = files()
    found = {file.name: case(file.rows, judge.verdict(file.rows)) for file in (every, consistent)}
    exchanged = [*every.exchanged(), *consistent.exchanged()]
    for number, (file, words) in list(enumerate(exchanged))[::step]:
        found[f"exchanged_{number}"] = file.after(words)
    for number, line in enumerate(FALSE_SIDES):
        found[f"false_side_{number}"] = every.after(line.split(" "))
    return found | {name: case(rows, line) for name, rows, line in named_cases.cases()}
