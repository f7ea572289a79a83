"""Read test cases, with the terms of SUBSET-076: what a case tests, how it starts, its lives, and the results that it expects.

docs/reference/test-cases.md describes each key. An unknown key is an error with its file, line and column, and so is a key
that is given twice; nothing is ignored silently.
"""
import re
from collections import Counter
from collections.abc import Callable, Iterable
from dataclasses import dataclass, field
from decimal import Decimal
from pathlib import Path
from typing import Any

from ..journal.wording import INDICATIONS, MODES
from ..program import REFUSED, AllFailed, Failed
from ..simulation import drives, scenarios
from ..yaml_files import Value, documents, shortened
from .mode_table import mode_table, row_name

KINDS = ("powerup", "telegram", "odometer", "clock", "driver")
BRAKES = ("none", "service", "emergency")
ACTIONS = ("enter_identity", "enter_running_number", "enter_train_data", "choose_level", "confirm", "start", "choose_shunting",
           "leave_shunting", "override", "acknowledge", "close_desk")
WORDS: dict[str, tuple[str, ...]] = {"kind": KINDS, "mode": tuple(MODES), "brake": BRAKES, "action": ACTIONS,
                                     "confirmed": tuple(scenarios.CONFIRMED), "acknowledged": tuple(scenarios.ACKNOWLEDGED)}
NUMBERS = ("event", "life", "block", "level", "time_ms", "place_cm", "place_m", "uncertainty_cm", "min_safe_front_cm",
           "max_safe_front_cm", "limit_m_per_h", "limit_kmh", "speed_m_per_h", "speed_kmh", "movement_cm")
SHOWS = tuple(f"shows_{name}" for name in INDICATIONS)
UNKNOWN = "unknown"
CONDITION = (*NUMBERS, *WORDS, *SHOWS, "indications")
DRIVEN = ("train_place_cm", "train_place_m", "train_speed_m_per_h", "train_speed_kmh", "above_limit_m_per_h", "above_limit_kmh",
          "beyond_location_cm", "beyond_location_m")
"""Values of the train itself, which a drive in a closed loop has."""
WITHIN = {"within_events": "event", "within_ms": "time_ms", "within_cm": "place_cm"}
EXPECTED = ("note", "sections", "rule", "at", "expect", "row", "from", "until", "where", "always", "never", "after", *WITHIN)
CASE = ("test_case", "feature", "sections", "rule", "starting_conditions", "lives")
MORE = ("slots", "expected", "include", "telegrams", "parts", "shows")
MOST_ITEM = 999
"""The greatest number of an item of docs/explain/safety.md."""
END = "end"
ROW = re.compile(r"([0-9]{1,4})(?: from ([A-Z]{2}))?")
MOST_SLOTS, USUAL_SLOTS = 4096, 64
LEVELS = (0, 1)


@dataclass(frozen=True)
class Test:
    """The test of a value of a record, and its text."""

    holds: Callable[[Any], bool]
    text: str


@dataclass(frozen=True)
class Condition:
    """The tests of a record, by the names of its values; it may also have to be the record of a mark, or the last one."""

    at: Value
    tests: dict[str, Test]
    mark: str | None = None
    is_end: bool = False

    @property
    def text(self) -> str:
        """The condition as text."""
        parts = [f"mark {self.mark}"] if self.mark else []
        parts += [f"{name} {test.text}" for name, test in self.tests.items()]
        return "the last record" if self.is_end else ", ".join(parts) or "any record"


@dataclass(frozen=True)
class Row:
    """A row of the mode table (`tools/dev/tables`), and the mode from which it leads, if it has several."""

    number: int
    source: str | None

    @property
    def text(self) -> str:
        """The row as text."""
        return f"{self.number}{f' from {self.source}' if self.source else ''}"


@dataclass(frozen=True)
class Expected:
    """An expected result."""

    at: Value
    note: str
    sections: list[str]
    rule: str
    conditions: dict[str, Condition]
    within: dict[str, int]
    row: Row | None

    @property
    def names(self) -> set[str]:
        """The names of the values that it tests."""
        return {name for condition in self.conditions.values() for name in condition.tests} | {WITHIN[name] for name in self.within} | (
            {"mode"} if self.row else set())


@dataclass(frozen=True)
class Life:
    """A power cycle (life): its scenario, of this file or another one, and how it ends if it isn't carried out."""

    at: Value
    scenario: scenarios.Scenario | None
    path: Path | None
    ends: str | None
    drive: drives.Drive | None = None
    """The drive in a closed loop after its steps."""


@dataclass(frozen=True)
class Case:
    """A test case."""

    at: Value
    name: str
    feature: str
    sections: list[str]
    rule: str
    starting_conditions: str
    slots: int
    lives: list[Life]
    expected: list[Expected] = field(default_factory=list)
    shows: list[Value] = field(default_factory=list)
    """The items of docs/explain/safety.md that it is meant to show, so that `lab lint` doesn't report them."""

    @property
    def path(self) -> Path:
        """The file that contains it."""
        return self.at.path

    def marks(self) -> dict[str, tuple[int, int]]:
        """The life of each mark, from 1 on, and the number of the life's events before it."""
        return {name: (number, events) for number, life in enumerate(self.lives, 1) if life.scenario
                for name, events in life.scenario.marks.items()}


# ---- conditions

def decimal_test(at: Value, name: str) -> Test:
    """A number, or one within limits."""
    if at.is_mapping():
        limits = {key: number_of(one, name) for key, one in at.members((), ("least", "most")).items()}
        if not limits:
            raise at.fault(f"{name} needs `least` or `most`")
        least, most = limits.get("least"), limits.get("most")
        if least is not None and most is not None and least > most:
            raise at.fault(f"no number is at least {least} and at most {most}")
        text = " and ".join(f"{key} {number}" for key, number in limits.items())
        return Test(lambda found: found is not None and (least is None or found >= least) and (most is None or found <= most),
                    text)
    if at.is_text() and at.text() == UNKNOWN and name not in ("event", "life", "block", "time_ms"):
        return Test(lambda found: found is None, UNKNOWN)
    number = number_of(at, name)
    return Test(lambda found: found is not None and found == number, str(number))


def number_of(at: Value, name: str) -> Decimal:
    """A number that a value of this name may have."""
    number = at.number()
    if name == "level" and number not in LEVELS:
        raise at.fault(f"expected level 0, 1 or {UNKNOWN}, found {at.describe()}")
    return number


def word_test(at: Value, words: Iterable[str]) -> Test:
    """One of some words."""
    word = at.one_of(words)
    return Test(lambda found: bool(found == word), word)


def indications_test(at: Value) -> Test:
    """Exactly these indications, and no other."""
    wanted = {one.one_of(INDICATIONS) for one in at.elements()}
    return Test(lambda found: set(found) == wanted, " and ".join(sorted(wanted)) or "none")


def test_of(name: str, at: Value) -> Test:
    """The test of one value of a record."""
    if name == "indications":
        return indications_test(at)
    if at.is_list():
        tests = [test_of(name, one) for one in at.elements()]
        if not tests:
            raise at.fault(f"the list of {name} is empty")
        return Test(lambda found: any(test.holds(found) for test in tests), " or ".join(test.text for test in tests))
    if name in SHOWS:
        truth = at.truth()
        return Test(lambda found: bool(found) == truth, "true" if truth else "false")
    return word_test(at, WORDS[name]) if name in WORDS else decimal_test(at, name)


def condition(at: Value, marks: Iterable[str], is_when: bool, is_driven: bool = False) -> Condition:
    """A condition. `at`, `from`, `until` and `after` may name a mark, or the last record; if a life is a drive, conditions may also test
    values of the train itself."""
    if is_when and at.is_text() and at.text() == END:
        return Condition(at, {}, is_end=True)
    members = at.members((), (*CONDITION, *(DRIVEN if is_driven else ()), *(["mark"] if is_when else [])))
    if not members:
        raise at.fault("a condition needs at least one name")
    mark = members["mark"].one_of(marks) if "mark" in members else None
    return Condition(at, {name: test_of(name, value) for name, value in members.items() if name != "mark"}, mark)


# ---- an expected result

FORMS = (({"at"}, {"expect", "row"}), ({"always"}, {"from", "until", "where"}), ({"never"}, {"from", "until", "where"}),
         ({"after", "expect"}, set(WITHIN)))
WHENS = ("at", "from", "until", "after")


def check_form(at: Value, members: dict[str, Value]) -> None:
    """Refuses keys that can't be combined."""
    found = set(members) - {"note", "sections", "rule"}
    form = next((form for form in FORMS if form[0] <= found <= form[0] | form[1]), None)
    if form is None:
        raise at.fault("an expected result is one of: at with expect or row; always or never, perhaps with from, until, where; "
                       f"after with expect and one of {', '.join(WITHIN)}")
    if "at" in found and len(found) == 1:
        raise at.fault("expect or row is missing")
    if "after" in found and len(found) != 3:
        raise at.fault(f"`after` and `expect` need one of {', '.join(WITHIN)}")


def row_of(at: Value) -> Row:
    """A row of the mode table."""
    found = ROW.fullmatch(at.text())
    if not found:
        raise at.fault("expected a row of the mode table, such as \"16\" or \"2 from OS\"")
    row = Row(int(found[1]), found[2])
    sources = mode_table().get(row.number, ([], ""))[0]
    if not row.source and len(sources) > 1:
        raise at.fault(f"row {row.number} leads from several modes; name one, such as \"{row.number} from {sources[0]}\"")
    if row_name(row.number, row.source, mode_table()) is None:
        raise at.fault(f"{row.text} is not a row of the mode table")
    return row


def expected_of(at: Value, sections: list[str], rule: str, marks: Iterable[str], is_driven: bool = False) -> Expected:
    """An expected result of a case."""
    members = at.members(("note",), EXPECTED)
    check_form(at, members)
    conditions = {name: condition(members[name], marks, name in WHENS, is_driven)
                  for name in (*WHENS, "expect", "where", "always", "never") if name in members}
    return Expected(at, members["note"].text(), sections_of(members["sections"]) if "sections" in members else sections,
                    members["rule"].text() if "rule" in members else rule, conditions,
                    {name: members[name].integer(0, 1 << 40) for name in WITHIN if name in members},
                    row_of(members["row"]) if "row" in members else None)


# ---- a case

SECTION = re.compile(r"[3-8](\.[0-9]+)*( packet [0-9]+)?")


def sections_of(at: Value) -> list[str]:
    """Sections of SUBSET-026."""
    values = at.elements() if at.is_list() else [at]
    for one in values:
        if not SECTION.fullmatch(one.text()):
            raise one.fault(f"\"{shortened(one.text())}\" is not a section of SUBSET-026, such as 3.8.1 or 7.4.2 packet 12")
    if not values:
        raise at.fault("a section is missing")
    return [one.text() for one in values]


def life_of(at: Value, shared: scenarios.Shared) -> Life:
    """A life of a case."""
    members = at.members((), (*scenarios.LIFE, "drive", "scenario", "ends"))
    ends = members["ends"].text() if "ends" in members else None
    if "drive" in members and ends:
        raise members["ends"].fault("a drive is always carried out; how it ends is an expected result")
    if "scenario" not in members:
        if "steps" not in members:
            raise at.fault("a life needs steps, or a scenario of another file")
        return Life(at, scenarios.build(members, shared), None, ends, drives.drive_of(members["drive"]) if "drive" in members else None)
    if set(members) - {"scenario", "ends"}:
        raise at.fault("a life has steps, or a scenario of another file, and not both")
    path = members["scenario"].file()
    if path.suffix in (".yaml", ".yml"):
        scenario, drive = drives.read(path)
        if drive and ends:
            raise members["ends"].fault("a drive is always carried out; how it ends is an expected result")
        return Life(at, scenario, None, ends, drive)
    return Life(at, None, path, ends)


def slots_of(lives: list[Life]) -> int:
    """The number of slots of an image if none is given: drives need one for each time step."""
    needed = sum(drives.slots_for(life.scenario, life.drive) for life in lives if life.scenario and life.drive)
    for life in lives:
        if needed >= drives.MOST_SLOTS and life.drive:
            raise life.at.fault(f"the drives of a case have at most {drives.MOST_SLOTS:,} time steps and events, since each is judged "
                                "by its record")
    return USUAL_SLOTS + needed


def shows_of(at: Value) -> list[Value]:
    """The items that a case shows."""
    found = at.elements()
    for one in found:
        one.integer(1, MOST_ITEM)
    return found


def marks_of(at: Value, lives: list[Life]) -> Counter[str]:
    """The marks of lives. Refuses a name that marks several events."""
    marks = Counter(name for life in lives if life.scenario for name in life.scenario.marks)
    for name, times in marks.items():
        if times > 1:
            raise at.fault(f"\"{shortened(name)}\" marks more than one event")
    return marks


def case_of(at: Value, known: dict[Path, scenarios.Shared]) -> Case:
    """The case of a document; `known` has what files contain that were included before."""
    members = at.members(CASE, MORE)
    shared = scenarios.shared_of({name: members[name] for name in scenarios.SHARED if name in members}, at.path, known=known)
    lives = [life_of(one, shared) for one in members["lives"].elements()]
    if not lives:
        raise members["lives"].fault("a case needs at least one life")
    case = Case(at, members["test_case"].text(), members["feature"].text(), sections_of(members["sections"]), members["rule"].text(),
                members["starting_conditions"].text(), members["slots"].integer(2, MOST_SLOTS) if "slots" in members else slots_of(lives), lives,
                shows=shows_of(members["shows"]) if "shows" in members else [])
    marks = marks_of(members["lives"], lives)
    for one in members["expected"].elements() if "expected" in members else []:
        case.expected.append(expected_of(one, case.sections, case.rule, marks, any(life.drive for life in lives)))
    if not case.expected and not any(life.ends for life in lives):
        raise at.fault("nothing is expected: a case needs expected results, or a life with `ends`")
    return case


def read(path: Path) -> list[Case]:
    """The cases of a file. Refuses it with the first fault of each document."""
    known: dict[Path, scenarios.Shared] = {}
    read_documents = documents(path)
    found: list[Case] = []
    faults: list[Failed] = []
    for document in read_documents:
        try:
            found.append(case_of(document, known))
        except Failed as failed:
            if failed.status != REFUSED:
                raise
            faults.append(failed)
    if faults:
        raise faults[0] if len(faults) == 1 else AllFailed(faults)
    names = Counter(case.name for case in found)
    for case in found:
        if names[case.name] > 1:
            raise case.at.fault(f"the test case \"{shortened(case.name)}\" is in this file twice")
    return found


def derived(record: dict[str, Any]) -> dict[str, Any]:
    """A record with the values that are computed from its own."""
    found = dict(record)
    for name, source, part in (("place_m", "place_cm", 100), ("limit_kmh", "limit_m_per_h", 1000),
                               ("speed_kmh", "speed_m_per_h", 1000)):
        found[name] = None if found.get(source) is None else Decimal(found[source]) / part
    for name in INDICATIONS:
        found[f"shows_{name}"] = name in record["indications"]
    return found


def with_train(record: dict[str, Any], place_cm: int, speed_m_per_h: int, location_cm: int | None = None) -> dict[str, Any]:
    """A record with the values of the train itself at the end of the time step."""
    above = speed_m_per_h - record["limit_m_per_h"]
    beyond = None if location_cm is None else place_cm - location_cm
    return record | {"train_place_cm": place_cm, "train_place_m": Decimal(place_cm) / 100, "train_speed_m_per_h": speed_m_per_h,
                     "train_speed_kmh": Decimal(speed_m_per_h) / 1000, "above_limit_m_per_h": above,
                     "above_limit_kmh": Decimal(above) / 1000, "beyond_location_cm": beyond,
                     "beyond_location_m": None if beyond is None else Decimal(beyond) / 100}
