"""Encode and check the messages of the protocol of docs/reference/unit-protocol.md between `lab` and a unit.

An event has the members of a record of `etcs_lab events` that describe the input (docs/reference/json.md); an answer has the members that
describe the unit's answer.
"""
import json
from collections.abc import Callable
from dataclasses import dataclass

from .._header import Indication, Mode
from ..program import Json

PROTOCOL = 2
"""The version. In version 1 `members` of the greeting had another name."""
ANSWER = ("mode", "level", "brake", "indications", "place_cm", "uncertainty_cm", "limit_m_per_h")
"""The members of an answer, in the order in which they are compared."""
NEEDED = ("mode", "brake")
"""The members that each unit has to report."""
CAME = {"powerup": ("word",), "telegram": ("telegram",), "odometer": ("movement_cm", "speed_m_per_h"),
        "clock": ("now_ms",),
        "driver": ("action",)}
DONE = {"enter_identity": ("identity",), "enter_running_number": ("running_number",), "choose_level": ("chosen_level",),
        "enter_train_data": ("length_cm", "maximum_m_per_h", "category", "deceleration_cm_per_s2", "reaction_ms"),
        "confirm": ("confirmed",), "acknowledge": ("acknowledged",)}
"""The members of each kind of event, and of each action of the driver."""
TEXTS = ("kind", "word", "telegram", "action", "identity", "confirmed", "acknowledged")
"""The members of an event that are texts. All others are whole numbers."""
MODES = {Mode.FULL_SUPERVISION: "FS", Mode.ON_SIGHT: "OS", Mode.STAFF_RESPONSIBLE: "SR", Mode.SHUNTING: "SH",
         Mode.UNFITTED: "UN", Mode.STAND_BY: "SB", Mode.TRIP: "TR", Mode.POST_TRIP: "PT", Mode.SYSTEM_FAILURE: "SF"}
INDICATIONS = [one.name.lower() for one in Indication if one.name]
MOST_LINE, MOST_NAME, MOST_SHOWN = 65_536, 200, 120
TOO_LONG = f"a line of more than {MOST_LINE:,} bytes"


class Wrong(Exception):
    """A line isn't a message of the protocol."""


def line_of(message: Json) -> str:
    """A message as a line."""
    return json.dumps(message, separators=(",", ":")) + "\n"


def event_of(record: Json) -> Json:
    """The message for a record: all but the answer."""
    names = ("life", "event", "kind", *CAME[record["kind"]], *DONE.get(record.get("action", ""), ()))
    return {name: record[name] for name in names}


def check_event(event: Json) -> None:
    """Refuses an event of another kind, or with a member of another type."""
    names = ("life", "event", "kind", *sum((*CAME.values(), *DONE.values()), ()))
    for name, value in event.items():
        if name in names and not (isinstance(value, str) if name in TEXTS else is_number(value)):
            raise Wrong(f"{name} {short(json.dumps(value))}, which isn't {'a text' if name in TEXTS else 'a whole number'}")
    if event.get("kind") not in CAME:
        raise Wrong(f"kind {short(json.dumps(event.get('kind')))}, which isn't one of {', '.join(CAME)}")


def answer_of(record: Json, members: tuple[str, ...]) -> Json:
    """The answer in a record."""
    return {"event": record["event"], **{name: record[name] for name in members}}


# ---- messages of a unit

def is_number(value: object) -> bool:
    """Whether it is a whole number within the limits of JSON's readers."""
    return type(value) is int and abs(value) < 1 << 62


def is_count(value: object) -> bool:
    """Whether it is such a number, and not negative."""
    return type(value) is int and 0 <= value < 1 << 62


def are_indications(value: object) -> bool:
    """Whether it is a list of indications, none twice."""
    return isinstance(value, list) and all(isinstance(one, str) and one in INDICATIONS
                                           for one in value) and len(set(value)) == len(value)


VALUES: dict[str, tuple[Callable[[object], bool], str]] = {
    "mode": (lambda value: isinstance(value, str) and value in MODES.values(), f"one of {', '.join(MODES.values())}"),
    "level": (lambda value: value is None or type(value) is int and value in (0, 1), "0, 1 or null"),
    "brake": (lambda value: isinstance(value, str) and value in ("none", "service", "emergency"),
              "none, service or emergency"),
    "indications": (are_indications, f"a list of {', '.join(INDICATIONS)}, none twice"),
    "place_cm": (is_number, "a whole number"), "uncertainty_cm": (is_count, "a whole number from 0 on"),
    "limit_m_per_h": (is_count, "a whole number from 0 on"),
}


def short(text: str) -> str:
    """The beginning of a text, with invisible characters escaped."""
    seen = text if len(text) <= MOST_SHOWN else f"{text[:MOST_SHOWN]}.."
    return "".join(one if one.isprintable() else one.encode("unicode_escape", "replace").decode() for one in seen)


def once(pairs: list[tuple[str, object]]) -> dict[str, object]:
    """The members of an object. Refuses a name that is given twice."""
    found: dict[str, object] = {}
    for name, value in pairs:
        if name in found:
            raise Wrong(f"\"{short(name)}\" is given twice")
        found[name] = value
    return found


def object_of(line: bytes) -> Json:
    """The object on a line."""
    try:
        found = json.loads(line.decode("utf-8"), object_pairs_hook=once)
    except (ValueError, RecursionError):
        raise Wrong(f"a line that is not JSON: {short(line.decode('utf-8', 'replace'))}") from None
    if not isinstance(found, dict):
        raise Wrong(f"a line that is not a JSON object: {short(line.decode('utf-8', 'replace'))}")
    return found


def check_members(found: Json, names: tuple[str, ...]) -> None:
    """Refuses an object that doesn't have exactly these members."""
    for name in found:
        if name not in names:
            raise Wrong(f"the member \"{short(name)}\", which isn't one of {', '.join(names)}")
    for name in names:
        if name not in found:
            raise Wrong(f"no member \"{name}\"")


@dataclass(frozen=True)
class Greeting:
    """The greeting of a unit: its name, and the members of its answers."""

    unit: str
    members: tuple[str, ...]

    @property
    def leaves_out(self) -> tuple[str, ...]:
        """The members that its answers don't have."""
        return tuple(name for name in ANSWER if name not in self.members)


def check_version(found: Json) -> None:
    """Refuses a greeting of another version."""
    if type(found["protocol"]) is not int or found["protocol"] != PROTOCOL:
        raise Wrong(f"version {short(json.dumps(found['protocol']))} of the protocol, and lab speaks version {PROTOCOL}")


def greeting_of(line: bytes) -> Greeting:
    """The greeting on a line."""
    found = object_of(line)
    if "protocol" in found:
        check_version(found)  # (another version has other members)
    check_members(found, ("protocol", "unit", "members"))
    unit, members = found["unit"], found["members"]
    if not isinstance(unit, str) or not 1 <= len(unit) <= MOST_NAME:
        raise Wrong(f"a unit whose name isn't a text of 1 to {MOST_NAME} characters")
    if not isinstance(members, list) or any(name not in ANSWER for name in members) or len(set(members)) != len(members):
        raise Wrong(f"\"members\" that isn't a list of {', '.join(ANSWER)}, none twice")
    for name in NEEDED:
        if name not in members:
            raise Wrong(f"\"members\" without {name}")
    return Greeting(unit, tuple(name for name in ANSWER if name in members))


def checked(line: bytes, event: int, members: tuple[str, ...]) -> Json:
    """The answer to this event on a line."""
    found = object_of(line)
    check_members(found, ("event", *members))
    if type(found["event"]) is not int or found["event"] != event:
        raise Wrong(f"an answer to event {short(json.dumps(found['event']))}")
    for name in members:
        holds, wanted = VALUES[name]
        if not holds(found[name]):
            raise Wrong(f"{name} {short(json.dumps(found[name]))}, which isn't {wanted}")
    return {name: sorted(found[name], key=list(INDICATIONS).index) if name == "indications" else found[name]
            for name in ("event", *members)}
