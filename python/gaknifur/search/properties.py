"""Read and judge properties of journals, in YAML: which records they select, and what has to hold for each.
docs/reference/searches.md describes the keys.

The conditions are those of test cases (`cases`), and those that select records have a few more names. A property that selects
no record shows nothing, so the number of judged records is always reported.
"""
from collections.abc import Iterator
from dataclasses import dataclass
from pathlib import Path

from ..cases.case_runner import Missed, Played, check, is_met
from ..cases.cases import CONDITION, WITHIN, Condition, Test, sections_of, test_of
from ..program import Json
from ..simulation import scenarios
from ..yaml_files import Value, document, documents

MORE = ("over_limit_m_per_h", "rolled_back_cm", "packet")
"""Names that only conditions that select records, or the records before them, may use."""
CHOOSES = ("where", "before", "since", "until")
REQUIRES = ("always", "never", "preceded_by", "leads_to")
STANDSTILL = 0
MOST_WITHIN = 1 << 40


@dataclass(frozen=True)
class Property:
    """A property: which records it selects, and what has to hold for each."""

    at: Value
    note: str
    sections: list[str]
    law: str | None
    """The safety law that it tests, or tests a part of."""
    chooses: dict[str, Condition]
    requires: str
    required: Condition
    within: tuple[str, int] | None
    unjudged: str | None
    """Why it may be that no record can be judged."""


class Violated(Exception):
    """A record breaks a property: its index, and the message."""

    def __init__(self, index: int, message: str) -> None:
        super().__init__(message)
        self.index = index


# ---- records

def derived(records: list[Json]) -> list[Json]:
    """The records of a journal with the values that only properties test: how far the speed is above the limit, how far the
    train rolled backward since standstill, and the packets of a telegram."""
    found, rolled = [], 0
    for record in records:
        if record["kind"] == "powerup":
            rolled = 0
        if record["kind"] == "odometer":
            rolled = (0 if record["speed_m_per_h"] == STANDSTILL else rolled) + max(0, -record["movement_cm"])
        packets = [packet["packet"] for packet in record.get("decoded", {}).get("packets", [])]
        speed, limit = record["speed_m_per_h"], record["limit_m_per_h"]
        found.append(record | {"rolled_back_cm": rolled, "packet": packets,
                               "over_limit_m_per_h": None if speed is None or limit is None else speed - limit})
    return found


# ---- judging

def is_chosen(one: Property, played: Played, index: int) -> bool:
    """Whether a record meets `where`, and the one before it in its life meets `before`."""
    if "where" in one.chooses and not is_met(one.chooses["where"], played, index):
        return False
    if "before" not in one.chooses:
        return True
    is_first = index == 0 or played.records[index - 1]["life"] != played.records[index]["life"]
    return not is_first and is_met(one.chooses["before"], played, index - 1)


def chosen(one: Property, played: Played) -> Iterator[int]:
    """The indices of the records that a property selects."""
    is_since, life = "since" not in one.chooses, None
    for index, record in enumerate(played.records):
        if "since" in one.chooses:
            is_since = is_since and life == record["life"] or is_met(one.chooses["since"], played, index)
            is_since = is_since and not ("until" in one.chooses and is_met(one.chooses["until"], played, index))
        life = record["life"]
        if is_since and is_chosen(one, played, index):
            yield index


def leads(one: Property, played: Played, index: int) -> bool | None:
    """Whether a record leads to the required one; None if its life ends before that is known."""
    assert one.within is not None
    word, most = one.within
    first, name = played.records[index], WITHIN[word]
    for later in range(index, len(played.records)):
        record = played.records[later]
        if record["life"] != first["life"]:
            return None
        if abs(record[name] - first[name]) > most:
            return False
        if is_met(one.required, played, later):
            return True
    return None


def follows(one: Property, played: Played, index: int) -> bool:
    """Whether this record, or an earlier one of the same life, meets the condition."""
    life = played.records[index]["life"]
    return any(played.records[earlier]["life"] == life and is_met(one.required, played, earlier)
               for earlier in range(index, -1, -1))


def judge_record(one: Property, played: Played, index: int) -> bool:
    """Whether a record was judged. Raises `Violated` if it breaks the property."""
    try:
        if one.requires == "always":
            check(one.required, played.records[index])
        elif one.requires == "never" and is_met(one.required, played, index):
            raise Missed(f"never {one.required.text}", "this record has it", played.records[index])
        elif one.requires == "preceded_by" and not follows(one, played, index):
            raise Missed(f"before it a record with {one.required.text}", "there is none in this life",
                         played.records[index])
        elif one.requires == "leads_to":
            found = leads(one, played, index)
            if found is False:
                assert one.within is not None
                raise Missed(f"{one.required.text} within {one.within[1]} {one.within[0].removeprefix('within_')}",
                             "no such record",
                             played.records[index])
            return found is not None
    except Missed as missed:
        raise Violated(index, str(missed)) from None
    return True


def judge(one: Property, records: list[Json]) -> int:
    """The number of records that were judged. Raises `Violated` at the first one that breaks the property."""
    played = Played(records, {})
    return sum(judge_record(one, played, index) for index in chosen(one, played))


# ---- reading

def packet_test(at: Value) -> Test:
    """The test for a telegram with one of these packets."""
    wanted = {int(one.integer(0, 255)) for one in (at.elements() if at.is_list() else [at])}
    return Test(lambda found: bool(wanted & set(found or ())), " or ".join(map(str, sorted(wanted))))


def condition(at: Value, with_more: bool) -> Condition:
    """A condition of a property."""
    members = at.members((), (*CONDITION, *(MORE if with_more else ())))
    if not members:
        raise at.fault("a condition needs at least one name")
    return Condition(at, {name: packet_test(value) if name == "packet" else test_of(name, value) for name,
                          value in members.items()})


def within_of(at: Value, members: dict[str, Value]) -> tuple[str, int] | None:
    """The limit within which a record has to lead to another one."""
    found = [word for word in WITHIN if word in members]
    if ("leads_to" in members) != (len(found) == 1):
        raise at.fault(f"`leads_to` needs one of {', '.join(WITHIN)}, and nothing else takes one")
    return (found[0], members[found[0]].integer(0, MOST_WITHIN)) if found else None


def property_of(at: Value) -> Property:
    """A property."""
    members = at.members(("note",), ("sections", "law", "unjudged", *CHOOSES, *REQUIRES, *WITHIN))
    found = [word for word in REQUIRES if word in members]
    if len(found) != 1:
        raise at.fault(f"expected one of {', '.join(REQUIRES)}")
    requires = found[0]
    if "until" in members and "since" not in members:
        raise members["until"].fault("`until` needs `since`")
    if requires == "preceded_by" and "where" not in members:
        raise at.fault("`preceded_by` needs `where`")
    is_before = requires == "preceded_by"
    chooses = {word: condition(members[word], not (is_before and word == "where")) for word in CHOOSES if word in members}
    law, unjudged = (members[name].text() if name in members else None for name in ("law", "unjudged"))
    return Property(at, members["note"].text(), sections_of(members["sections"]) if "sections" in members else [], law, chooses,
                    requires,
                    condition(members[requires], is_before), within_of(at, members), unjudged)


@dataclass(frozen=True)
class PropertyFile:
    """A file of properties: its name, what its scenarios are made of, and the properties."""

    path: Path
    name: str
    made_of: Value | None
    shared: scenarios.Shared
    properties: list[Property]


def read(path: Path) -> PropertyFile:
    """The properties of a file."""
    found = documents(path)
    if found and found[0].is_mapping() and "test_case" in found[0].entries():
        raise found[0].fault("this is a test case; `lab test` runs it")
    at = document(path)
    members = at.members(("search", "properties"), ("scenarios", *scenarios.SHARED))
    properties = [property_of(one) for one in members["properties"].elements()]
    if not properties:
        raise members["properties"].fault("the list of properties is empty")
    for number, one in enumerate(properties):
        if one.note in [other.note for other in properties[:number]]:
            raise one.at.fault("this note is given twice")
    return PropertyFile(path, members["search"].text(), members.get("scenarios"), scenarios.shared_of(members, path), properties)
