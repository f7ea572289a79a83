"""Rows of the kernel: lists of events of one or several lives. tests/rows/test_kernel.py runs them on the program."""
from collections import namedtuple
from string import hexdigits

from items import UNKNOWN, Kept
from life import Life
from named import written
from row_lines import repeated, written_out

Line = namedtuple("Line", "number word value wanted")

ASKED = ("kept", "place")


class Row:
    def __init__(self, name):
        self.name, self.lines = name, []

    def lives(self):
        """The life after each line."""
        life, kept = None, Kept()
        for line in self.lines:
            if line.word == "power-up":
                life = Life(life.kept() if life else kept, line.value)
            elif line.word not in ASKED:
                life.take(line.word, line.value)
            yield line, life

    def answers(self):
        """What the plain program answers to each line."""
        return [answer_to(line, life) for line, life in self.lives()]


def answer_to(line, life):
    if line.word == "kept":
        return kept_text(life.kept(), line.value)
    if line.word == "place":
        return " ".join(map(str, life.place()))
    output = life.now.output
    return f"{output.mode} {output.level} {output.brake} {output.limit} {output.indications}"


def is_met(wanted, answer):
    """A number alone wants the limit, which is the fourth word of an output."""
    return wanted == answer or (wanted.isdigit() and answer.split()[3:4] == [wanted])


def kept_text(kept, name):
    """A kept item in the words of a row."""
    if name == "identity":
        return "-" if kept.identity is None else kept.identity.encode().hex()
    if name in ("running-number", "train-data"):
        value = getattr(kept, name.replace("-", "_"))
        return "-" if value is None else " ".join(map(str, value)) if name == "train-data" else str(value)
    if name == "level":
        return kept.level.status if kept.level.status == UNKNOWN else f"{kept.level.status} {kept.level.value}"
    if name == "position":
        if kept.position.status == UNKNOWN:
            return UNKNOWN
        (country, number), distance = kept.position.value
        return f"{kept.position.status} {country} {number} {distance}"
    if name == "national":
        values = ["-" if value is None else value for value in vars(kept.national.values).values()]
        return " ".join(map(str, (*values, "of", *kept.national.countries)))
    if name == "trip":
        return "yes" if kept.trip else "no"
    if name == "counts":
        return f"{kept.events} {kept.lives}"
    raise ValueError(name)


def with_bytes(lines):
    """The lines with the bytes of each telegram that is heard by a name. `telegram NAME: ..` has its fields, for the rows up to the next
    `# ====`; `packet NAME: ..` has those of a packet that telegrams name. A line that is indented goes on with the one before."""
    packets, telegrams, fields = {}, {}, []
    for line in lines:
        kind, _, rest = line.partition(" ")
        if line.startswith("# ===="):
            telegrams = {}
        if kind in ("telegram", "packet"):
            name, _, begun = rest.partition(": ")
            fields = (telegrams if kind == "telegram" else packets)[name] = [begun]
        elif line.startswith("  "):
            fields.append(line.strip())
        name = rest.partition("->")[0].strip()
        if kind == "hear" and name in telegrams:
            parts = " ".join(telegrams[name]).split("; ")
            line = f"hear {written('; '.join(' '.join(packets.get(part, [part])) for part in parts))}{rest[len(name):]}"
        elif kind == "hear" and set(name) - set(hexdigits):
            raise ValueError(f"no telegram of this part is called {name}")
        yield "" if kind in ("telegram", "packet") or line.startswith("  ") else line


def read(text):
    """The rows of a text."""
    rows = []
    for number, line in written_out(with_bytes(text.splitlines())):
        said = line.partition("#")[0].strip()
        word, _, value = said.partition(" ")
        if word == "row":
            rows.append(Row(value))
        elif said:
            rows[-1].lines += [line_of(number, one) for one in repeated(said)]
    return rows


def line_of(number, said):
    happens, _, wanted = said.partition("->")
    word, _, value = happens.strip().partition(" ")
    return Line(number, word, value, wanted.strip() or None)
