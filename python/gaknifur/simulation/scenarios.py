"""Compile a YAML scenario to the JSON that `etcs run` reads. docs/reference/test-cases.md describes the keys.

Errors name their place in the YAML. The limits are those of `crates/simulator/README.md`; `etcs run` checks them again. Each
telegram that is written with its variables is compare with what `etcs decode` finds in its bytes.
"""
import json
import re
from bisect import bisect_right
from dataclasses import dataclass, field
from decimal import Context, Decimal
from pathlib import Path
from typing import Any

from .. import program
from ..telegrams import telegrams
from ..yaml_files import MOST_DIGITS, MOST_SHOWN, Value, document, guess, shortened

COLD = {"unknown": 0, "moved": 1, "not_moved": 2}
CONFIRMED = {"identity": 1, "running_number": 2, "train_data": 3, "level": 4}
ACKNOWLEDGED = {"trip": 1, "on_sight": 2, "shunting": 3, "level_0": 4}
WITHOUT_VALUE = {"start": 6, "choose_shunting": 7, "leave_shunting": 8, "override": 9, "close_desk": 11}
TRAIN = {"length": 409_500, "maximum": 600_000, "deceleration": 300, "reaction": 10_000, "category": 15}
WITH_VALUE = ("telegram", "drive", "clock", "enter_identity", "enter_running_number", "enter_train_data", "choose_level",
              "confirm", "acknowledge", "use", "mark")
SHARED = ("telegrams", "parts", "include")
LIFE = ("cold", "groups", "steps")
LONGEST_CM, MOST_DRIVE_CM, MOST_PLACE_CM, MOST_SPACING_CM = 10_000, 1_000_000, 100_000_000, 1_200
MOST_SPEED, MOST_MOMENT = 600_000, (1 << 40) - 1
UNITS: dict[str, dict[str, Decimal]] = {
    "distance": {"cm": Decimal(1), "m": Decimal(100), "km": Decimal(100_000)},
    "speed": {"m/h": Decimal(1), "km/h": Decimal(1000)},
    "time": {"ms": Decimal(1), "s": Decimal(1000), "min": Decimal(60_000)},
    "deceleration": {"cm/s2": Decimal(1), "m/s2": Decimal(100)},
    "acceleration": {"cm/s2": Decimal(1), "m/s2": Decimal(100)},
}
EXACT = Context(prec=2 * MOST_DIGITS)
"""Calculates with the longest numbers without rounding."""
QUANTITY = re.compile(r"(-?[0-9][0-9_]*(?:\.[0-9]+)?)\s*([a-z][a-z0-9/]*)")
VARIABLE = re.compile(r"[A-Z]_[A-Z_0-9]+\s+[0-9]")
"""A variable of a telegram with its number."""
MOST_TRIED_BITS = 7
"""The bits of a variable whose numbers are tried one by one, where a telegram is refused."""
DEPTH, MOST_STEPS = 16, 100_000
"""How deep parts use one another and files include one another; the most steps of a life, with each `use` and mark."""


@dataclass
class Scenario:
    """A compiled scenario."""

    cold: int = 0
    groups: list[dict[str, Any]] = field(default_factory=list)
    steps: list[dict[str, Any]] = field(default_factory=list)
    places: list[Value] = field(default_factory=list)
    """The place of each step in the YAML."""
    group_places: list[Value] = field(default_factory=list)
    """The place of each group in the YAML."""
    marks: dict[str, int] = field(default_factory=dict)
    """For each mark the number of events of the life before it, without the power-up."""
    marked: dict[str, Value] = field(default_factory=dict)
    events: int = 0
    front_cm: int = 0

    def text(self) -> str:
        """The JSON."""
        head = f'"cold": {self.cold},\n  ' if self.cold else ""
        groups = ",".join("\n    " + json.dumps(group) for group in self.groups)
        steps = ",".join("\n    " + json.dumps(step) for step in self.steps)
        return f'{{\n  {head}"groups": [{groups}{chr(10) + "  " if groups else ""}],\n  "steps": [{steps}\n  ]\n}}\n'


@dataclass
class Shared:
    """Telegrams and parts by their names, of a file and of the files that it includes."""

    telegrams: dict[str, Value] = field(default_factory=dict)
    parts: dict[str, Value] = field(default_factory=dict)


def quantity(text: str, at: Value, kind: str, least: int, most: int) -> int:
    """A number with its unit, in the unit of the scenario."""
    text = text.strip()
    found, units = QUANTITY.fullmatch(text), UNITS[kind]
    if not found or found[2] not in units:
        raise at.fault(f"expected {'an' if kind[0] in 'aeiou' else 'a'} {kind}, a number and {' or '.join(units)}, "
                       f"found \"{shortened(text)}\"")
    number = EXACT.multiply(at.decimal(found[1]), units[found[2]])
    least_unit = next(iter(units))
    if number != int(number):
        raise at.fault(f"\"{text}\" is not a whole number of {least_unit}")
    if not least <= number <= most:
        raise at.fault(f"\"{text}\" is not between {least:,} and {most:,} {least_unit}")
    return int(number)


def quantity_of(at: Value, kind: str, least: int, most: int) -> int:
    """The quantity of a value."""
    return quantity(at.text(), at, kind, least, most)


def shared_of(members: dict[str, Value], path: Path, within: tuple[Path, ...] = (),
              known: dict[Path, Shared] | None = None) -> Shared:
    """The telegrams and parts of a file and of the files that it includes; `known` has those of files that were read before."""
    found, read_before = Shared(), {} if known is None else known
    if "include" in members:
        for name in [members["include"]] if members["include"].is_text() else members["include"].elements():
            other = name.file().resolve()
            if other in within or other == path.resolve():
                raise name.fault(f"{name.text()} includes itself")
            if len(within) == DEPTH:
                raise name.fault(f"files include one another more than {DEPTH} deep")
            if other not in read_before:
                included = document(other).members((), SHARED)
                read_before[other] = shared_of(included, other, (*within, path.resolve()), read_before)
            inner = read_before[other]
            found.telegrams |= inner.telegrams
            found.parts |= inner.parts
    for kind, there in (("telegrams", found.telegrams), ("parts", found.parts)):
        for key, value in (members[kind].entries() if kind in members else {}).items():
            if key in there:
                raise value.fault(f"\"{shortened(key)}\" is already defined at {there[key].path}:{there[key].line}")
            there[key] = value
    return found


def is_hex(text: str) -> bool:
    """Whether a text is bytes in hex."""
    return bool(re.fullmatch(r"([0-9A-Fa-f]{2})+", text))


def digits_of(at: Value, shared: Shared) -> str:
    """The hex digits of a telegram, which is given by its name, by its variables, in hex, or as one that has to be refused."""
    if at.is_text():
        text = at.text()
        if text in shared.telegrams:
            named = shared.telegrams[text]
            if named.is_text() and named.text() in shared.telegrams:
                raise named.fault("a telegram can\'t be defined by another one\'s name")
            return digits_of(named, Shared())
        if is_hex(text):
            return checked_size(text.upper(), at)
        if "NID_BG" not in text:
            if VARIABLE.search(text):
                raise at.fault("NID_BG is missing: a telegram begins with its header, such as \"NID_BG 2; 12: V_MAIN 24, L_ENDSECTION 300\"")
            raise at.fault(f"no telegram is called \"{shortened(text)}\"; {guess(text[:MOST_SHOWN], shared.telegrams)}")
        return written(text, at, None)
    members = at.members(("fields",), ("refused",))
    refused = members["refused"].text() if "refused" in members else None
    return written(members["fields"].text(), members["fields"], refused)


def checked_size(digits: str, at: Value) -> str:
    """The digits of a telegram. Refuses more than the longest one has."""
    if len(digits) > 2 * telegrams.MOST_BYTES:
        raise at.fault(f"a telegram has at most {telegrams.MOST_BYTES} bytes, and this one has {len(digits) // 2}")
    return digits


def written(text: str, at: Value, refused: str | None) -> str:
    """The digits of a telegram that is given by its variables. `etcs decode` has to find the same variables, or to refuse it as the
    scenario says."""
    try:
        if refused is None:
            return encoded(text)
        digits = telegrams.telegram(text).digits
    except telegrams.Wrong as wrong:
        raise at.fault(str(wrong)) from wrong
    found = program.decode(digits)
    if found != [f"refused {refused}"]:
        raise at.fault(f"the telegram was to be refused with {refused}, and etcs decode says: {found[0]}")
    return digits


def encoded(text: str) -> str:
    """The digits of a telegram that is given by its variables. Raises `Wrong` if `etcs decode` doesn't find the same variables."""
    telegram = telegrams.telegram(text)
    found = program.decode(telegram.digits)
    if found[0].startswith("refused"):
        wrong = wrong_variable(telegram) if found[0].endswith(("Spare", "OutOfRange")) else ""
        raise telegrams.Wrong(f"etcs decode says of this telegram: {found[0]}{wrong}")
    for wanted, line in zip(telegram.lines(), found[:-1], strict=False):
        if line != wanted:
            raise telegrams.Wrong(f"etcs decode finds another telegram: {line}; the text says {wanted}")
    return telegram.digits


def wrong_variable(telegram: telegrams.Telegram) -> str:
    """The variable without whose number `etcs decode` takes the telegram, and the numbers that it takes; nothing if there isn't exactly one
    such variable of few bits."""
    lists = [telegram.header, *telegram.packets]
    for at, pairs in enumerate(lists):
        for place, (name, number) in enumerate(pairs):
            if (width := telegrams.width_of(name)) > MOST_TRIED_BITS:
                continue

            def takes(other: int, at: int = at, place: int = place) -> bool:
                changed = [list(one) for one in lists]
                changed[at][place] = (changed[at][place][0], other)
                return not program.decode(telegrams.Telegram(changed[0], changed[1:]).digits)[0].startswith("refused")

            if takes(int(number == 0)):
                where = f"packet {pairs[0][1]}: " if at else ""
                return f"; {where}{name} {number} is not allowed, only {ranges([one for one in range(1 << width) if takes(one)])}"
    return ""


def ranges(numbers: list[int]) -> str:
    """Some numbers in their order, neighbours as a range."""
    begins = [one for one in numbers if one - 1 not in numbers]
    ends = [one for one in numbers if one + 1 not in numbers]
    return ", ".join(f"{first} to {last}" if first < last else str(first) for first, last in zip(begins, ends, strict=True))


class Builder:
    """Builds one scenario."""

    def __init__(self, shared: Shared) -> None:
        self.shared = shared
        self.built = Scenario()
        self.balises: list[int] = []
        self.places: list[int] = []
        """The places of the balises, from the first to the last."""
        self.digits: dict[int, str] = {}
        """The digits of telegrams that were used before, by their nodes in the YAML."""
        self.taken = 0

    def build(self, members: dict[str, Value]) -> Scenario:
        """The scenario of some members."""
        if "cold" in members:
            self.built.cold = COLD[members["cold"].one_of(COLD)]
        for group in members["groups"].elements() if "groups" in members else []:
            self.group(group)
        self.places = sorted(self.balises)
        self.steps(members["steps"], 0)
        return self.built

    def group(self, at: Value) -> None:
        """A balise group on the track."""
        members = at.members(("at", "balises"), ("spacing",))
        balises = members["balises"].elements()
        if not 1 <= len(balises) <= 8:
            raise members["balises"].fault(f"a group has 1 to 8 balises, and this one has {len(balises)}")
        if "spacing" not in members and len(balises) > 1:
            raise at.fault("spacing is missing, from each balise to the next")
        place = quantity_of(members["at"], "distance", 1, MOST_PLACE_CM)
        spacing = quantity_of(members["spacing"], "distance", 1, MOST_SPACING_CM) if "spacing" in members else 1
        self.balises += [place + number * spacing for number in range(len(balises))]
        self.built.group_places.append(at)
        self.built.groups.append({"at": place, "spacing": spacing,
                                  "balises": [digits_of(balise, self.shared) for balise in balises]})

    def steps(self, at: Value, depth: int) -> None:
        """Adds a list of steps."""
        for step in at.elements():
            if step.is_text():
                word, value = step.one_of((*WITHOUT_VALUE, "flush")), step
            else:
                members = step.members((), WITH_VALUE)
                if len(members) != 1:
                    raise step.fault(f"a step needs exactly one keyword, found {', '.join(members) or 'none'}")
                (word, value), = members.items()
            self.step(word, value, step, depth)

    def step(self, word: str, value: Value, step: Value, depth: int) -> None:
        """Adds a step."""
        self.taken += 1
        if self.taken > MOST_STEPS:
            raise value.fault(f"a life has at most {MOST_STEPS:,} steps, with each use of a part and each mark")
        if word == "use":
            name = value.one_of(self.shared.parts)
            if depth == DEPTH:
                raise value.fault(f"parts use one another more than {DEPTH} deep")
            self.steps(self.shared.parts[name], depth + 1)
        elif word == "mark":
            self.mark(value)
        elif word == "drive":
            self.drive(value, step)
        elif word == "flush":
            self.add({"flush": True}, step, 0)
        elif word == "telegram":
            if id(value.node) not in self.digits:
                self.digits[id(value.node)] = digits_of(value, self.shared)
            self.add({"telegram": self.digits[id(value.node)]}, step)
        elif word == "clock":
            self.add({"clock": quantity_of(value, "time", 0, MOST_MOMENT)}, step)
        else:
            self.add({"driver": action_of(word, value)}, step)

    def add(self, members: dict[str, Any], step: Value, events: int = 1) -> None:
        """Adds a step of the JSON, with the number of its events."""
        self.built.steps.append(members)
        self.built.places.append(step)
        self.built.events += events

    def mark(self, at: Value) -> None:
        """Names the event before the mark."""
        name = at.text()
        if name in self.built.marks:
            raise at.fault(f"\"{shortened(name)}\" marks line {self.built.marked[name].line} already")
        self.built.marks[name] = self.built.events
        self.built.marked[name] = at

    def drive(self, at: Value, step: Value) -> None:
        """Adds a movement at a speed, such as `200 m at 30 km/h`."""
        way, word, speed = at.text().partition(" at ")
        if not word:
            raise at.fault(f"expected a distance and a speed, such as \"200 m at 30 km/h\", found {at.describe()}")
        movement = quantity(way, at, "distance", -LONGEST_CM, MOST_DRIVE_CM)
        members = {"drive": [movement, quantity(speed, at, "speed", 0, MOST_SPEED)]}
        self.add(members, step, self.events_of(movement))

    def events_of(self, movement: int) -> int:
        """The number of events of a movement: forward readings of at most 100 m between the balises, and a telegram for each balise."""
        if movement <= 0:
            self.built.front_cm += movement
            return 1
        here, end, events = self.built.front_cm, self.built.front_cm + movement, 0
        for place in self.places[bisect_right(self.places, here):bisect_right(self.places, end)]:
            events += -(-(place - here) // LONGEST_CM) + 1
            here = place
        self.built.front_cm = end
        return events - (-(end - here) // LONGEST_CM)


def action_of(word: str, value: Value) -> list[Any]:
    """An action of the driver: its code and its values."""
    if word in WITHOUT_VALUE:
        return [WITHOUT_VALUE[word]]
    if word == "enter_identity":
        text = value.text()
        if not re.fullmatch("[ -~]{1,16}", text):
            raise value.fault(f"an identity has 1 to 16 printable ASCII characters, found {value.describe()}")
        return [1, text]
    if word == "enter_running_number":
        return [2, value.integer(0, 99_999_999)]
    if word == "choose_level":
        return [4, value.integer(0, 1)]
    if word == "confirm":
        return [5, CONFIRMED[value.one_of(CONFIRMED)]]
    if word == "acknowledge":
        return [10, ACKNOWLEDGED[value.one_of(ACKNOWLEDGED)]]
    return [3, *train_of(value)]


def train_of(value: Value) -> list[int]:
    """Train data: length, maximum speed, deceleration, reaction time, category (15 if none is given)."""
    members = value.members(("length", "maximum", "deceleration"), ("reaction", "category"))
    return [quantity_of(members["length"], "distance", 1, TRAIN["length"]),
            quantity_of(members["maximum"], "speed", 1, TRAIN["maximum"]),
            quantity_of(members["deceleration"], "deceleration", 1, TRAIN["deceleration"]),
            quantity_of(members["reaction"], "time", 0, TRAIN["reaction"]) if "reaction" in members else 0,
            members["category"].integer(0, TRAIN["category"]) if "category" in members else TRAIN["category"]]


def build(members: dict[str, Value], shared: Shared) -> Scenario:
    """The scenario of a life."""
    return Builder(shared).build(members)


def read(path: Path) -> Scenario:
    """The scenario of a YAML file."""
    at = document(path)
    members = at.members(("steps",), (*LIFE, "drive", *SHARED))
    if "drive" in members:
        raise members["drive"].fault("the inputs of a drive in a closed loop are known only after it; use lab drive --scenario")
    return build(members, shared_of(members, path))
