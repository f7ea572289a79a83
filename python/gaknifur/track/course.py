"""Run a scenario and follow its course: each event of its lives with its record, its place in the scenario, and the real place
of the front on the track.

The lives run on an image of their own, and `etcs_lab events` prints their records, so modes, fronts and limits are the kernel's
own.
"""
import json
from bisect import bisect_right
from collections.abc import Iterator, Sequence
from dataclasses import dataclass
from pathlib import Path

from .. import etcs_run, program
from ..cases import cases
from ..journal.reading import parsed_all, read
from ..program import Json, Run
from ..simulation import closed_loop, drives
from ..simulation.drives import Drive
from ..simulation.scenarios import LONGEST_CM, Scenario
from ..yaml_files import Value

MOST_SLOTS = 1_048_576
DRIVE = "/drive"
"""The pointer of the events of a closed loop."""


@dataclass(frozen=True)
class Life:
    """A life of a case or of a scenario: its steps, from YAML or from a JSON file, and the drive after them."""

    at: Value | None
    scenario: Scenario | None
    path: Path | None
    ends: str | None = None
    drive: Drive | None = None


def of_case(life: cases.Life) -> Life:
    """A life of a case."""
    return Life(life.at, life.scenario, life.path, life.ends, life.drive)


@dataclass(frozen=True)
class Event:
    """An event of a life: the JSON pointer of its step, the real place of the front after it, its record, and its line of `etcs_lab why
    --known`."""

    pointer: str
    place_cm: int
    record: Json
    line: Json


Answer = tuple[Json, Json]
"""A record, and its line of `etcs_lab why --known`."""


@dataclass(frozen=True)
class Played:
    """The events of a life, and the line of its power-up."""

    events: list[Event]
    power_up: Json


def scenario_of(life: Life) -> Scenario:
    """The scenario of a life, also if it is in a JSON file."""
    if life.scenario:
        return life.scenario
    assert life.path is not None
    members = json.loads(life.path.read_bytes())
    return Scenario(members.get("cold", 0), members["groups"], members["steps"])


def balises_of(scenario: Scenario) -> list[tuple[int, str, str]]:
    """The balises of the track with their places, pointers and telegrams, as a train passes them."""
    found = [(group["at"] + number * group["spacing"], f"/groups/{index}/balises/{number}", digits)
             for index, group in enumerate(scenario.groups) for number, digits in enumerate(group["balises"])]
    return sorted(found, key=lambda balise: balise[0])


def planned(scenario: Scenario) -> Iterator[tuple[str, int]]:
    """The pointer of each event of a scenario, and the place of the front after it."""
    balises, front = balises_of(scenario), 0
    places = [place for place, _, _ in balises]
    for number, step in enumerate(scenario.steps):
        (word, value), = step.items()
        pointer = f"/steps/{number}/{word}"
        end = front + value[0] if word == "drive" else front
        if word == "drive" and end > front:
            for index in range(bisect_right(places, front), bisect_right(places, end)):
                yield from ((pointer, place) for place in readings(front, places[index]))
                front = places[index]
                yield balises[index][1], front
            yield from ((pointer, place) for place in readings(front, end))
        elif word != "flush":
            yield pointer, end
        front = end


def readings(front: int, end: int) -> Iterator[int]:
    """The place of the front after each reading of a forward movement."""
    while front < end:
        front = min(front + LONGEST_CM, end)
        yield front


def driven(scenario: Scenario, front: int, records: Sequence[Answer]) -> Iterator[Event]:
    """The events of a closed loop. Their balises are found on the track by their telegrams."""
    balises = [balise for balise in balises_of(scenario) if balise[0] > front]
    for record, line in records:
        front += record.get("movement_cm", 0)
        pointer = DRIVE
        if record["kind"] == "telegram":
            index = next((at for at, balise in enumerate(balises) if balise[2].lower() == record["telegram"]), None)
            if index is not None:
                front, pointer = balises[index][:2]
                del balises[:index + 1]
        yield Event(pointer, front, record, line)


def events_of(life: Life, records: Sequence[Answer]) -> list[Event]:
    """The events of a life with these records and lines, without the power-up."""
    scenario = scenario_of(life)
    found = [Event(pointer, place, *answer) for (pointer, place), answer in zip(planned(scenario), records)]
    if life.drive:
        found += driven(scenario, found[-1].place_cm if found else 0, records[len(found):])
    return found


def slots_for(lives: Sequence[Life]) -> int:
    """The number of slots that hold all blocks of some lives."""
    slots = 4
    for life in lives:
        scenario = scenario_of(life)
        flushes = sum("flush" in step for step in scenario.steps)
        events = sum(1 for _ in planned(scenario))
        slots += drives.slots_for(scenario, life.drive) if life.drive else 3 + flushes + events // 8
    return min(slots, MOST_SLOTS)


def is_refused(life: Life, image: Path, folder: Path) -> bool:
    """Runs a life; returns whether its scenario is refused, so that nothing was added."""
    scenario = scenario_of(life)
    if life.drive:
        image.write_bytes(closed_loop.over_image(image.read_bytes(), scenario, life.drive)[1])
        return False
    path = life.path or folder / "scenario.json"
    if life.scenario:
        path.write_text(scenario.text(), encoding="utf-8")
    return etcs_run.run_life(path, image).is_refused


def known_lines(image: Path) -> dict[int, Json]:
    """What is known after each event of an image, as `etcs_lab why` prints it."""
    return {line["event"]: line for line in parsed_all(Run(["why", "--json", "--known"], image).all_lines(), "why") if "known" in line}


def played(lives: Sequence[Life]) -> list[Played | None]:
    """The events of each life, run in turn on one image; None for a life that is refused."""
    slots = slots_for(lives)
    with program.temporary_folder(slots) as name:
        folder, image = Path(name), Path(name) / "image"
        program.format_image(image, slots)
        refused = [is_refused(life, image, folder) for life in lives]
        journal, lines = read(image, is_own=True), known_lines(image)
    records: dict[int, list[Answer]] = {}
    for record in journal.records:
        records.setdefault(record["life"], []).append((record, lines[record["event"]]))
    there = iter(records.values())
    return [None if is_none else Played(events_of(life, (answers := next(there))[1:]), answers[0][1]) for life, is_none in zip(lives, refused)]
