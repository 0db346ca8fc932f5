"""Changes at random of modules and derivation files."""
import re

PIECE = re.compile(r"[\w']+|\s+|--[^\n]*|->|/\\|\\/|\.[12]|.", re.S)
POOL = """nat zero suc natrec U A x f p i _ ( ) < > -> * , : = @ [ ] .1 .2 0 1 /\\ \\/ - \\ let in
where import module PathP comp fill transport Glue glue unglue data ? {- -} -- (nat) (suc|zero)
(x|:|nat) (zero,zero) <i>zero \\(x:nat)->x (x:nat)->nat [(i=0)->zero] $ é""".split()
POOL = [word.replace("|", " ") for word in POOL] + ["\n", "\n  ", " ", "\t", "\r"]


def spliced(random, parts, others):
    """Parts with some dropped, doubled, exchanged, replaced or added."""
    parts = list(parts)
    for _ in range(random.choice([1, 1, 1, 2, 3, 8])):
        at, to = (random.randrange(len(parts) or 1) for _ in range(2))
        some = slice(at, at + random.choice([1, 1, 2, 9]))
        change = random.randrange(5)
        if change == 0:
            del parts[some]
        elif change == 1:
            parts[to:to] = parts[some]
        elif change == 2 and parts:
            parts[at], parts[to] = parts[to], parts[at]
        else:
            parts[at:at + change % 2] = [random.choice(others)]
    return parts


def other_bytes(random, data):
    """Data with a byte replaced or added, or cut off."""
    at = random.randrange(len(data) or 1)
    if random.randrange(3) == 0:
        return data[:at]
    new = random.choice([0, 9, 10, 13, 32, 48, 128, 255, random.randrange(256)])
    return data[:at] + bytes([new]) + data[at + random.randrange(2):]


def changed_module(random, data):
    if random.randrange(8) == 0:
        return other_bytes(random, data)
    text = data.decode(errors="replace")
    lines = random.randrange(4) == 0
    parts = text.splitlines(keepends=True) if lines else PIECE.findall(text)
    return "".join(spliced(random, parts, parts if lines and parts else POOL + parts)).encode()


# A row's numbers of rows.


def named(row):
    """The places among the words of a row where it names rows."""
    words = row.split(" ")
    if words[0] == "rules" or words[:2] in (["t", "var"], ["s", "shift"]):
        return []
    return [at for at, word in enumerate(words) if at and word.isdecimal()]


def renumbered(row, number):
    """A row with other numbers where it names rows."""
    words = row.split(" ")
    for at in named(row):
        words[at] = str(number(int(words[at])))
    return " ".join(words)


def shifted(row, start, by):
    """A row where those from a number on stand further down."""
    return renumbered(row, lambda k: k + by * (k >= start))


def with_one_again(random, rows):
    """The rows with an earlier one once more, and some of what named that names this."""
    if len(rows) < 3:
        return rows
    at = random.randrange(2, len(rows) + 1)
    again = random.randrange(1, at)
    rest = [shifted(row, at, 1) for row in rows[at:]]
    rest = [renumbered(row, lambda k: random.choice([k, at]) if k == again else k) for row in rest]
    return rows[:at] + [rows[again]] + rest


def other_number(random, row):
    """A row with one of its numbers another one near by."""
    words = row.split(" ")
    numbers = [at for at, word in enumerate(words) if word.isdecimal()]
    if numbers:
        at = random.choice(numbers)
        near = int(words[at]) + random.choice([-9, -3, -2, -1, 1, 2, 3, 9])
        words[at] = random.choice([str(near)] * 4 + ["0" + words[at], str(2 ** 32), str(2 ** 64)])
    return " ".join(words)


def changed_derivation(random, data):
    if random.randrange(8) == 0:
        return other_bytes(random, data)
    rows = data.decode(errors="surrogateescape").splitlines()
    for _ in range(random.choice([1, 1, 2, 5])):
        at = random.randrange(len(rows) or 1)
        change = random.randrange(8)
        if change < 4:
            rows = with_one_again(random, rows)
        elif change == 4 and rows:
            others = ["r", "n", "x", "nat", "lam", "app", "0", ""]
            rows[at] = " ".join(spliced(random, rows[at].split(" "), others))
        elif change == 5:
            rows = spliced(random, rows, rows or ["rules 1"])
        elif rows:
            rows[at] = other_number(random, rows[at])
    return "".join(row + "\n" for row in rows).encode(errors="surrogateescape")


def copies(data, count):
    """The rows of a derivation so many times over, after one header."""
    rows = data.decode(errors="replace").splitlines()
    more = [shifted(row, 1, k * (len(rows) - 1)) for k in range(count) for row in rows[1:]]
    return "".join(row + "\n" for row in rows[:1] + more).encode()
