"""Run a test case with `etcs run`, and judge its expected results by the records that `etcs_lab events` prints.

A journal is judged only if each life ended as expected, each released output is that of its record, the image is whole, and a
replay by the kernel agrees with all of it.
"""
from collections.abc import Callable, Sequence
from dataclasses import dataclass
from pathlib import Path

from .. import etcs_run, program
from ..etcs_run import CARRIED_OUT, Released
from ..journal.reading import read
from ..program import Failed, Json
from ..simulation import closed_loop
from ..simulation.driving import Driven
from .cases import DRIVEN, WITHIN, Case, Condition, Expected, Life, Row, derived, with_train
from .mode_table import Table
from .soundness import Missed as Missed, check_image as check_image, check_released as check_released

Keep = Callable[[bytes], None]
"""Receives the image of a case."""


@dataclass
class Played:
    """The records of a case, with their speeds, and the marks."""

    records: list[Json]
    marks: dict[str, int]
    """The index of each mark's record."""


Outcome = tuple[Played | Missed | Failed, bytes]


# ---- playing

def run_life(life: Life, image: Path, folder: Path) -> list[Released]:
    """Runs a life, and returns the outputs that it released. It has to end as expected."""
    scenario = life.path or folder / "scenario.json"
    if life.scenario:
        scenario.write_text(life.scenario.text(), encoding="utf-8")
    run = etcs_run.run_life(scenario, image)
    check_ended(life, run.ended)
    return run.released


def check_ended(life: Life, ended: str) -> None:
    """Fails unless a life ended as expected."""
    wanted = life.ends or CARRIED_OUT
    if ended != wanted:
        raise Missed(f"the life of line {life.at.line} ends: {wanted}", f"{ended}{place_of(life, ended)}")


def place_of(life: Life, ended: str) -> str:
    """The lines of the steps of a life that was refused or stopped."""
    if life.scenario and life.scenario.places and ended.startswith(("refused", "stopped")):
        first, last = life.scenario.places[0].line, life.scenario.places[-1].line
        return f" (steps of lines {first} to {last})"
    return ""


def play(case: Case, keep: Keep | None = None) -> Played:
    """Runs the lives of a case in turn on one image, and reads the records. `keep` receives the image, also if the lives didn't end as
    expected."""
    with program.temporary_folder(case.slots) as name:
        folder, image = Path(name), Path(name) / "image"
        program.format_image(image, case.slots)
        released: list[Released] = []
        driven: list[Driven | None] = []
        try:
            for life in case.lives:
                driven.append(drive(life, image))
                one = driven[-1]
                released += one.released() if one else run_life(life, image, folder)
        finally:
            if keep:
                keep(image.read_bytes())
        journal = read(image, replay=True, is_own=True)
    check_image(journal)
    found = with_trains(with_speeds(journal.records), driven)
    check_released(released, found)
    return Played(found, marked(case, found, driven))


def outcome(case: Case, is_kept: bool) -> Outcome:
    """The records of a case, or why there are none to judge, and its image if it is kept."""
    images = [b""]
    try:
        return play(case, images.append if is_kept else None), images[-1]
    except (Missed, Failed) as failed:
        return failed, images[-1]


def drive(life: Life, image: Path) -> Driven | None:
    """Runs a life that is a drive; None for any other life."""
    if not life.drive or not life.scenario:
        return None
    driven, data = closed_loop.over_image(image.read_bytes(), life.scenario, life.drive)
    image.write_bytes(data)
    return driven


def with_trains(records: list[Json], driven: Sequence[Driven | None]) -> list[Json]:
    """The records, with the values of the train itself in a drive."""
    rows = {event: (row, location) for one in driven if one for location in (location_of(one),) for row in one.rows
            for event in range(row.first_event, row.event + 1)}
    found = []
    for record in records:
        row, location = rows.get(record["event"], (None, None))
        found.append(with_train(record, row.place_cm, row.speed_m_per_h, location) if row else record)
    return found


def location_of(driven: Driven) -> int | None:
    """The supervised location of the last authority of a drive."""
    ends = closed_loop.ends_of(driven)
    return ends[1] if ends else None


def with_speeds(records: Sequence[Json]) -> list[Json]:
    """The records with the speed after each: that of the life's last reading, 0 before the first one, and unknown if the beginning of
    the life was overwritten."""
    found: list[Json] = []
    speed: int | None = None
    for record in records:
        if record["kind"] == "powerup":
            speed = 0
        speed = record.get("speed_m_per_h", speed)
        found.append(derived(record | {"speed_m_per_h": speed}))
    return found


def marked(case: Case, records: list[Json], driven: Sequence[Driven | None] = ()) -> dict[str, int]:
    """The index of each mark's record. Fails if a life has another number of events than its scenario or its drive."""
    begins = {record["life"]: index for index, record in enumerate(records) if record["kind"] == "powerup"}
    lives = [(life, one) for life, one in zip(case.lives, driven or [None] * len(case.lives))
             if not (life.ends or "").startswith("refused")]
    found: dict[str, int] = {}
    for number, (life, one) in enumerate(lives, 1):
        if life.scenario is None or number not in begins:
            continue
        first = begins[number]
        count = sum(record["life"] == number for record in records) - 1
        events = len(one.outputs) if one else life.scenario.events
        if life.ends is None and count != events:
            raise Missed(f"{events} events in life {number}", f"{count} events")
        for name, before in life.scenario.marks.items():
            if before <= count:
                found[name] = first + before
    return found


# ---- judging

def is_met(condition: Condition, played: Played, index: int) -> bool:
    """Whether a record meets a condition."""
    if condition.is_end:
        return index == len(played.records) - 1
    if condition.mark is not None and played.marks.get(condition.mark) != index:
        return False
    record = played.records[index]
    return all(test.holds(record.get(name)) for name, test in condition.tests.items())


def first_met(condition: Condition, played: Played, start: int = 0) -> int:
    """The index of the first record, from `start` on, that meets a condition."""
    for index in range(start, len(played.records)):
        if is_met(condition, played, index):
            return index
    raise Missed(f"a record with {condition.text}", f"none among {len(played.records)} records")


def check(condition: Condition, record: Json) -> None:
    """Fails at the first value of the record that the condition excludes."""
    for name, test in condition.tests.items():
        found = record.get(name)
        if not test.holds(found):
            shown = "unknown" if found is None else " and ".join(sorted(found)) or "none" if isinstance(found, list) else found
            raise Missed(f"{name} {test.text}", f"{name} {shown}", record)


def check_row(row: Row, table: Table, played: Played, index: int) -> None:
    """Fails unless the record changes the mode as a row of the mode table does."""
    sources, target = table[row.number]
    record, before = played.records[index], played.records[index - 1] if index else None
    sources = [row.source] if row.source else sources
    if before is None or before["life"] != record["life"] or before["mode"] not in sources or record["mode"] != target:
        was = before["mode"] if before else "nothing"
        raise Missed(f"row {row.text} of the mode table: from {' or '.join(sources)} to {target}",
                     f"from {was} to {record['mode']}", record)


def judge_stretch(expected: Expected, played: Played) -> None:
    """Judges `always` or `never` over the records of a stretch. Without a record to judge, neither holds."""
    conditions = expected.conditions
    first = first_met(conditions["from"], played) if "from" in conditions else 0
    last = first_met(conditions["until"], played, first) if "until" in conditions else len(played.records) - 1
    condition = conditions["always"] if "always" in conditions else conditions["never"]
    needed = [name for name in DRIVEN if name in condition.tests]
    judged = [index for index in range(first, last + 1) if all(name in played.records[index] for name in needed)
              and ("where" not in conditions or is_met(conditions["where"], played, index))]
    if not judged:
        which = (" of a drive" if needed else "") + (f" with {conditions['where'].text}" if "where" in conditions else "")
        raise Missed("records to be judged", f"there is none{which}")
    for index in judged:
        if "always" in conditions:
            check(conditions["always"], played.records[index])
        elif is_met(conditions["never"], played, index):
            raise Missed(f"never {conditions['never'].text}", "this record has it", played.records[index])


def judge_within(expected: Expected, played: Played) -> None:
    """Judges `after`: the condition is met within a number of events, ms or cm, in the same life."""
    conditions, ((word, most),) = expected.conditions, expected.within.items()
    start = first_met(conditions["after"], played)
    first, name = played.records[start], WITHIN[word]
    for index in range(start, len(played.records)):
        record = played.records[index]
        if record["life"] != first["life"] or abs(record[name] - first[name]) > most:
            break
        if is_met(conditions["expect"], played, index):
            return
    raise Missed(f"{conditions['expect'].text} within {most} {word.removeprefix('within_')}", "no such record", first)


def judge(expected: Expected, played: Played, table: Table) -> None:
    """Raises `Missed` if an expected result didn't come."""
    conditions = expected.conditions
    if "at" in conditions:
        index = first_met(conditions["at"], played)
        if expected.row:
            check_row(expected.row, table, played, index)
        if "expect" in conditions:
            check(conditions["expect"], played.records[index])
    elif "after" in conditions:
        judge_within(expected, played)
    else:
        judge_stretch(expected, played)


def comes(expected: Expected, played: Played, table: Table) -> bool:
    """Whether an expected result came."""
    try:
        judge(expected, played, table)
    except Missed:
        return False
    return True
