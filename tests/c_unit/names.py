#!/usr/bin/env python3
"""Checks the names of the headers' numbers in the shared library.

    tests/c_unit/names.py LIBRARY SYMBOL..    SYMBOL.. are the names that the library exports

Each number of each enum has a name. It is the enumerator in small letters, or another word that is listed here by hand; and the names of an enum
are the words of the program that docs/reference/json.md and docs/reference/refusals.md list. Other
numbers are "unknown". That the names are those that `etcs journal`, `etcs_lab replay` and `etcs_lab why` print, images.py, again.py and
explained.py compare event by event.
"""
import ctypes
import re
import sys
from pathlib import Path

TOP = Path(__file__).resolve().parents[2]
sys.path[:0] = [str(TOP / part) for part in ("python", "tests")]

from compared import Compared  # noqa: E402
from gaknifur import _header  # noqa: E402

MODES = {"FULL_SUPERVISION": "FS", "ON_SIGHT": "OS", "STAFF_RESPONSIBLE": "SR", "SHUNTING": "SH", "UNFITTED": "UN", "STAND_BY": "SB", "TRIP": "TR",
         "POST_TRIP": "PT", "SYSTEM_FAILURE": "SF"}
VERDICTS = {"BEFORE_OLDEST": "before_oldest_block", "AFTER_GAP": "gap"}
RECORD_FIELDS = {"MOMENT": "time_ms", "FRONT": "place_cm", "UNCERTAINTY": "uncertainty_cm", "LIMIT": "limit_m_per_h"}
KEPT_FIELDS = {"TRIP": "trip_outstanding", "NATIONAL": "national_values"}
# Of each enum the words that aren't the enumerator in small letters, and of docs/reference/json.md the section, the member and the words that it hasn't.
ENUMS = {
    "mode": (MODES, ("Record", "mode"), ()),
    "level": ({"LEVEL_0": "0", "LEVEL_1": "1", "INVALID": "-"}, None, ()),
    "brake": ({}, ("Record", "brake"), ()),
    "indication": ({}, ("Record", "indications"), ()),
    "brake_cause": ({}, ("Causes", "not_revalidated"), ()),
    "limit_cause": ({}, ("Causes", "limit_cause"), ()),
    "trip_cause": ({}, ("Causes", "trip_cause"), ("unknown",)),
    "kind": ({"POWER_UP": "powerup"}, ("Record", "kind"), ()),
    "cold": ({}, ("Record", "word"), ()),
    "datum": ({}, ("Level", "status"), ("unknown",)),
    "slot_state": ({}, ("Slot", "state"), ("empty",)),
    "verdict": (VERDICTS, ("Replay", "reason"), ("agrees", "record_differs", "head_differs")),
    "record_field": (RECORD_FIELDS, None, ()),
    "kept_field": (KEPT_FIELDS, None, ()),
    "fault": ({"OK": "OK"}, ("A fault", "name"), ("OK",)),
    "unused_reason": ({"IN_MODE": "not_in_mode"}, None, ()),
    "direction": ({}, ("Balise group", "direction"), ("not_known",)),
    "group_outcome": ({}, ("Balise group", "outcome"), ()), "reaction": ({}, None, ()), "telegram_outcome": ({}, None, ()), "refusal": ({}, None, ()),
    "acknowledgement": ({}, None, ()), "action": ({}, None, ()), "status_kind": ({}, None, ()), "request_kind": ({}, None, ()), "proof": ({}, None, ()),
    "guard_policy": ({}, None, ()), "demanded": ({}, None, ()), "finding": ({}, None, ()), "sureness": ({}, None, ()),
}
FIELDS = ("record_field", "kept_field")
LEAST = 31


def words_of(page, section, member):
    """The words of a member's value in docs/reference/json.md; those of a member that is one of several are the members."""
    text = re.search(rf"^#+ {re.escape(section)}\n(.*?)(?=^#|\Z)", page, re.MULTILINE | re.DOTALL)[1]
    line = next(line for line in text.splitlines() if line.startswith(f"- `{member}`"))
    members, values = (re.findall("`(.+?)`", part.split(" - ")[0].split(". ")[0]) for part in line.split(": ", 1))
    return set(members if len(members) > 1 else values)


def short(name, enum):
    """The enumerator's own word in small letters."""
    return name.lower() if enum != "fault" else "".join(map(str.title, name.split("_")))


def main(words):
    rows, library, page = Compared(), ctypes.CDLL(words[0]), (TOP / "docs/reference/json.md").read_text()
    tried = {"status"}

    def name_of(enum, number):
        call = library[f"etcs_{enum}_name"]
        call.restype, call.argtypes = ctypes.c_char_p, [ctypes.c_uint32]
        return call(number).decode()

    for enum, (others, place, more) in ENUMS.items():
        members = getattr(_header, "".join(map(str.title, enum.split("_")))).__members__
        found = [name_of(enum, member.value) for member in members.values()]
        rows.same(enum, found, [others.get(name, short(name, enum)) for name in members])
        if place:
            rows.same(f"{enum} in docs/reference/json.md", set(found) - set(more), words_of(page, *place))
        values = {member.value for member in members.values()}
        rows.same(f"other numbers than those of {enum}", {name_of(enum, n) for n in (*range(300), 2**32 - 1) if n not in values}, {"unknown"})
        tried.add(enum)
    both = [{name_of(enum, n) for n in range(1, 12)} - {"unknown"} for enum in FIELDS]
    rows.same("fields in docs/reference/json.md", both[0] | both[1], words_of(page, "Replay", "field"))
    for name, member in _header.Status.__members__.items():
        rows.same(f"status {member.value}", name_of("status", member.value), name)
    rows.same("other numbers than those of status", {name_of("status", n) for n in range(300) if n not in {member.value for member in _header.Status}}, {"unknown"})
    rows.same("calls that name a number", {f"etcs_{enum}_name" for enum in tried}, {word for word in words[1:] if word.endswith("_name")})
    rows.unless(len(tried) >= LEAST, f"only {len(tried)} enums have names")
    return rows.end(f"names of numbers: {len(tried)} enums, {rows.count} comparisons")


if __name__ == "__main__":
    sys.exit(main(sys.argv[1:]))
