"""Make a test case of the lives of a journal up to an event: what came, step by step, and as the expected result what the unit answered.

The case is played before it is handed out: each record of the event's life has to be as in the journal.
"""
import tempfile
from collections.abc import Sequence
from pathlib import Path

from ..journal.reading import Journal
from ..program import REFUSED, Failed, Json
from ..simulation.scenarios import ACKNOWLEDGED, COLD, CONFIRMED
from . import cases
from .case_runner import Played, comes, play
from .scenario_text import life_lines
from .soundness import Missed
from .yaml_text import quoted

VALUES = {"enter_identity": ("identity",), "enter_running_number": ("running_number",), "choose_level": ("chosen_level",),
          "enter_train_data": ("length_cm", "maximum_m_per_h", "deceleration_cm_per_s2", "reaction_ms", "category")}
"""The members of a record with the values of an action, in the order of a scenario."""
SAME = ("kind", "time_ms", "mode", "level", "brake", "limit_m_per_h", "indications", "place_cm", "uncertainty_cm")
"""The members of a record that the case has to give again."""


def refused(journal: Journal, reason: str) -> Failed:
    """The error for an event that no case can be made of."""
    return Failed(f"{journal.path}: {reason}. Nothing was written.", REFUSED)


def lives_up_to(journal: Journal, event: int) -> list[list[Json]]:
    """The records of the event's life up to it, and of the lives before it that are whole and follow one another."""
    found: list[list[Json]] = []
    for record in journal.records:
        if record["kind"] == "powerup" and (not found or found[-1][-1]["event"] != record["event"] - 1):
            found = [[record]]
        elif record["kind"] == "powerup":
            found.append([record])
        elif found and found[-1][-1]["event"] == record["event"] - 1 and found[-1][0]["life"] == record["life"]:
            found[-1].append(record)
        else:
            found = []  # (its beginning, or what came before it, is missing)
        if record["event"] == event:
            if not found:
                raise refused(journal, f"life {record['life']} can't be played: events between its power-up and event {event} are overwritten or lost")
            return found
    ends = f"events {journal.records[0]['event']} to {journal.records[-1]['event']}" if journal.records else "no event"
    raise refused(journal, f"no readable record of the journal has event {event}; it has {ends}")


def action_of(record: Json) -> list[int | str]:
    """The action of a record, as a scenario has it."""
    name = record["action"]
    code = cases.ACTIONS.index(name) + 1
    if name in ("confirm", "acknowledge"):
        return [code, CONFIRMED[record["confirmed"]] if name == "confirm" else ACKNOWLEDGED[record["acknowledged"]]]
    return [code, *(record[member] for member in VALUES.get(name, ()))]


def step_of(record: Json) -> Json:
    """The step that gives the event of a record."""
    if record["kind"] == "odometer":
        return {"drive": [record["movement_cm"], record["speed_m_per_h"]]}
    if record["kind"] == "driver":
        return {"driver": action_of(record)}
    return {"telegram": record["telegram"]} if record["kind"] == "telegram" else {"clock": record["now_ms"]}


def life_of(records: Sequence[Json]) -> Json:
    """A life as a scenario, flushed where a block of the journal ends."""
    steps: list[Json] = []
    for before, record in zip(records, records[1:]):
        if record["block"] != before["block"] and before["kind"] != "powerup":
            steps.append({"flush": True})
        steps.append(step_of(record))
    return {"cold": COLD[records[0]["word"]], "groups": [], "steps": steps}


def start_text(lives: Sequence[Sequence[Json]]) -> str:
    """How the case starts, and what of the journal it doesn't have."""
    first, last = lives[0][0], lives[-1][-1]
    if first["event"] == 0:
        return "an empty journal"
    return (f"an empty journal; what came before life {first['life']} is overwritten or lost, and without it the records of life {last['life']} "
            f"up to event {last['event']} are the same")


def expected_text(record: Json) -> str:
    """What the unit answered, as an expected result. Blocks of formats 1 and 2 have no limit."""
    level = cases.UNKNOWN if record["level"] is None else record["level"]
    limit = "" if record["limit_m_per_h"] is None else f"limit_m_per_h: {record['limit_m_per_h']}, "
    return f"{{mode: {record['mode']}, level: {level}, brake: {record['brake']}, {limit}indications: [{', '.join(record['indications'])}]}}"


def text_of(journal: Journal, lives: Sequence[Sequence[Json]]) -> str:
    """The test case of lives, which ends at the last event of the last one."""
    last, slots = lives[-1][-1], journal.image["slots"] or cases.USUAL_SLOTS
    note = f"life {last['life']}, event {last['event']}"
    return "\n".join([
        "# Made by ./lab case. What is expected is what the unit answered; put in its place what a section asks for.",
        f"test_case: {quoted(f'{journal.name}, {note}')}",
        "feature: Of a journal", 'sections: ["4.6"]', "rule: the unit answers as the journal has it",
        f"starting_conditions: {quoted(start_text(lives))}", f"slots: {min(slots, cases.MOST_SLOTS)}",
        "lives:", *(line for records in lives for line in life_lines(life_of(records), {})),
        "expected:", f"  - {{note: {quoted(note)}, at: {cases.END},", f"     expect: {expected_text(last)}}}", ""])


def check_records(journal: Journal, wanted: Sequence[Json], played: Played) -> None:
    """Refuses a case whose last life has another record than the journal."""
    for record, found in zip(wanted, played.records[-len(wanted):], strict=True):
        for name in SAME:
            if record[name] != found[name] and (name == "level" or record[name] is not None):
                raise refused(journal, f"life {record['life']} can't be played again: event {record['event']} has {name} {record[name]} in the journal, and "
                              f"{found[name]} when the case is played")


def made(journal: Journal, event: int) -> str:
    """The test case of the life of an event up to it. Fails if the case doesn't pass."""
    lives = lives_up_to(journal, event)
    text = text_of(journal, lives)
    with tempfile.TemporaryDirectory(prefix="gaknifur-") as folder:
        path = Path(folder) / "made.case.yaml"
        path.write_text(text, encoding="utf-8")
        (case,) = cases.read(path)
        try:
            played = play(case)
        except Missed as missed:
            raise refused(journal, f"the lives can't be played again: {' '.join(str(missed).split())}") from missed
    check_records(journal, lives[-1], played)
    if not all(comes(one, played, {}) for one in case.expected):
        raise refused(journal, "the unit answers otherwise when the case is played")
    return text
