"""Search random scenarios for one that breaks a property, and shrink it. docs/howto/searching.md explains how to use it.

Scenarios are run by `etcs_lab play`, and judged by the records of their images, or by another unit's answers to them. Random ones run in
several processes, since those that are made don't depend on what is found. Hypothesis shrinks a scenario that breaks a property, and then each step that isn't needed is removed. The scenario is kept as a
test case.
"""
import contextlib
import json
import shutil
from collections import Counter
from collections.abc import Callable, Iterator, Sequence
from dataclasses import dataclass, field
from pathlib import Path

import hypothesis
from hypothesis import HealthCheck, Phase, settings

from .. import processes, program
from ..cases import case_runner, oracle
from ..cases.scenario_text import life_lines, telegram_lines, text_of
from ..cases.yaml_text import flow, quoted
from ..etcs_run import CARRIED_OUT
from ..journal.reading import records_of
from ..playing import AHEAD, ended, lives_of, play_images
from ..program import REFUSED, Failed, Json
from . import properties
from .properties import Property, Violated
from .strategies import Made, lives

Lives = tuple[str, ...]
SLOTS, TOGETHER = 128, 25
"""The slots of an image, and the number of scenarios that run together."""
MOST_SHRINKING = 250
"""The greatest number of scenarios that are run to shrink one."""
MOST_KEPT = 20_000
"""The greatest number of scenarios whose records are kept."""
Records = Callable[[Lives], list[Json]]
Judged = tuple[list[list[int | None]], Counter[str]]


@dataclass(frozen=True)
class Other:
    """Another unit, and its time limit for an answer."""

    command: str
    within_s: float


@dataclass
class Found:
    """The result of a property: the numbers of scenarios and of judged records, and the shrunk scenario that broke it."""

    of: Property
    scenarios: int = 0
    judged: int = 0
    lives: Lives | None = None
    record: Json | None = None
    message: str = ""

    @property
    def steps(self) -> int:
        """The number of steps of the scenario."""
        return sum(len(json.loads(life)["steps"]) for life in self.lives or ())


# ---- playing

def images_of(many: Sequence[Lives]) -> Iterator[Path]:
    """The image of each scenario, whose lives run in turn."""
    lines = (("[" + ",".join(scenarios) + "]").encode() for scenarios in many)
    with program.temporary_folder(AHEAD * SLOTS) as folder, contextlib.closing(
            play_images(lines, SLOTS, Path(folder))) as results:
        left = iter(many)
        for result, image in results:
            scenarios = next(left)
            how = [ended(life) or life["status"] for life in lives_of(result)]
            if image is None or how != [CARRIED_OUT] * len(scenarios):
                raise Failed(f"etcs_lab play ended with {how[-1]}: {' '.join(scenarios)}", REFUSED)
            yield image


def image_of(scenarios: Lives, image: Path) -> None:
    """Writes the image of a scenario."""
    for path in images_of([scenarios]):
        shutil.copyfile(path, image)


def recorded(many: Sequence[Lives]) -> Iterator[list[Json]]:
    """The records of each scenario."""
    for image in images_of(many):
        yield properties.derived(case_runner.with_speeds(records_of(image)))


def answered(scenarios: Lives, records: list[Json], other: Other) -> list[Json]:
    """The records of a scenario with another unit's answers. Fails with its lives if the unit breaks the protocol."""
    comparison = oracle.ask(other.command, "search", records, other.within_s)
    if comparison.broken:
        raise Failed(f"the unit broke the protocol: {comparison.broken}; scenarios: {' '.join(scenarios)}", REFUSED)
    return properties.derived(oracle.answered(comparison))


class Player:
    """Runs scenarios, the same one only once."""

    def __init__(self, other: Other | None) -> None:
        self.other = other
        self.kept: dict[Lives, list[Json]] = {}
        self.modes = Counter[str]()
        """How many records of the surveyed scenarios have each mode."""

    def __call__(self, scenarios: Lives) -> list[Json]:
        """The records of a scenario, with the other unit's answers if there is one."""
        if scenarios not in self.kept:
            self.play([scenarios])
        return self.kept[scenarios]

    def play(self, many: Sequence[Lives]) -> None:
        """Runs scenarios in one process. Those of an earlier call are forgotten once there are many."""
        if len(self.kept) + len(many) > MOST_KEPT:
            self.kept.clear()
        new = [scenarios for scenarios in dict.fromkeys(many) if scenarios not in self.kept]
        for scenarios, records in zip(new, recorded(new)):
            self.kept[scenarios] = answered(scenarios, records, self.other) if self.other else records


# ---- searching

@dataclass
class Search:
    """A search for lives that break a property."""

    of: Property
    records: Records
    found: Found = field(init=False)
    seen: dict[Lives, bool] = field(default_factory=dict)
    """Whether each scenario breaks the property."""
    left: int = MOST_SHRINKING
    """The number of scenarios that may still be run to shrink one."""
    first: Lives | None = None
    """The first scenario that broke it."""

    def __post_init__(self) -> None:
        self.found = Found(self.of)

    def take(self, scenarios: Lives, judged: int | None) -> None:
        """Takes how many records of random lives were judged, None if they break the property. The first ones that do end the search."""
        if self.first is None:
            self.found.scenarios += 1
            self.found.judged += judged or 0
            self.seen[scenarios] = judged is None
            self.first = scenarios if judged is None else None

    def is_broken(self, scenarios: Lives) -> bool:
        """Whether lives break the property; counts those that are run to shrink a scenario."""
        if scenarios in self.seen:
            return self.seen[scenarios]
        self.left -= 1
        if self.left < 0:
            return False
        self.seen[scenarios] = judged_by(self.of, self.records(scenarios)) is None
        return self.seen[scenarios]

    def result(self, scenarios: Lives) -> Found:
        """The result for lives that break the property."""
        records = self.records(scenarios)
        try:
            properties.judge(self.of, records)
        except Violated as violated:
            self.found.lives, self.found.record, self.found.message = scenarios, records[violated.index], str(violated)
        return self.found


def judged_by(one: Property, records: list[Json]) -> int | None:
    """How many records a property judges; None if one of them breaks it."""
    try:
        return properties.judge(one, records)
    except Violated:
        return None


def smaller(scenarios: Lives) -> list[Lives]:
    """The lives without one part: a life, a step or a group."""
    found = [scenarios[:at] + scenarios[at + 1:] for at in range(len(scenarios)) if len(scenarios) > 1]
    for at, text in enumerate(scenarios):
        life = json.loads(text)
        for name in ("steps", "groups"):
            for index in range(len(life[name]) - 1, -1, -1):
                less = text_of(life | {name: life[name][:index] + life[name][index + 1:]})
                found.append(scenarios[:at] + (less,) + scenarios[at + 1:])
        if life["cold"]:
            found.append(scenarios[:at] + (text_of(life | {"cold": 0}),) + scenarios[at + 1:])
    return found


def thinned(search: Search, scenarios: Lives) -> Lives:
    """Removes parts of lives until none can be removed."""
    search.left = MOST_SHRINKING
    while less := next((one for one in smaller(scenarios) if search.is_broken(one)), None):
        scenarios = less
    return scenarios


class Broke(Exception):
    """A scenario breaks a property; hypothesis shrinks it."""


def over_lives(made: Made, examples: int, seed: int, phases: tuple[Phase, ...], each: Callable[[Lives], None]) -> None:
    """Calls a function with random lives. The same seed gives the same lives."""
    settings(max_examples=examples, deadline=None, database=None, phases=phases,
             suppress_health_check=list(HealthCheck),
             report_multiple_bugs=False)(hypothesis.seed(seed)(hypothesis.given(lives(made))(each)))()


def survey(wanted: list[Property], made: Made, records: Player, examples: int, seed: int, jobs: int = 1) -> list[Search]:
    """Searches random scenarios for all properties at once, in so many processes."""
    met: dict[Lives, None] = {}

    def meet(scenarios: Lives) -> None:
        met[scenarios] = None

    over_lives(made, examples, seed, (Phase.generate,), meet)
    many, searches = list(met), [Search(one, records) for one in wanted]
    parts = [many[at:at + TOGETHER] for at in range(0, len(many), TOGETHER)]
    with contextlib.ExitStack() as stack:
        results = stack.enter_context(processes.pool(jobs, (wanted, records))).map(judged_here, parts) if jobs > 1 else \
            (judged(wanted, records, part) for part in parts)
        for part, (found, modes) in zip(parts, results):
            records.modes += modes
            for scenarios, counts in zip(part, found):
                for search, count in zip(searches, counts):
                    search.take(scenarios, count)
    return searches


def judged_here(some: list[Lives]) -> Judged:
    """The result of `judged` in one of several processes."""
    wanted, records = processes.shared
    return judged(wanted, records, some)


def judged(wanted: list[Property], records: Player, some: list[Lives]) -> Judged:
    """How many records of each scenario each property judges, and how many records have each mode."""
    records.play(some)
    modes = Counter(record["mode"] for scenarios in some for record in records(scenarios))
    return [[judged_by(one, records(scenarios)) for one in wanted] for scenarios in some], modes


def shrunk(search: Search, made: Made, examples: int, seed: int) -> Found:
    """Finds a scenario that breaks a property again, and shrinks it."""
    assert search.first is not None
    last = [search.first]

    def each(scenarios: Lives) -> None:
        if search.is_broken(scenarios):
            last[0] = scenarios
            raise Broke

    search.left = MOST_SHRINKING
    try:
        over_lives(made, examples, seed, (Phase.generate, Phase.shrink), each)
    except Broke:
        pass
    return search.result(thinned(search, last[0]))


# ---- as a test case

def expected_text(found: Found) -> str:
    """The requirement on the record, as an expected result."""
    of, record = found.of, found.record
    assert record is not None
    event, required = f"{{event: {record['event']}}}", flow(of.required.at)
    if of.requires == "always":
        return f"at: {event}, expect: {required}"
    if of.requires == "leads_to":
        assert of.within is not None
        return f"after: {event}, expect: {required}, {of.within[0]}: {of.within[1]}"
    never = required if of.requires == "never" else flow(of.chooses["where"].at)
    return f"from: {event}, until: {event}, never: {never}"


def case_text(found: Found, made: Made, name: str, how: str) -> str:
    """The test case of what was found."""
    assert found.lives is not None
    return "\n".join([
        f"# {how}", f"test_case: {name}", "feature: Search",
        f"sections: [{', '.join(quoted(one) for one in found.of.sections or ['4.4'])}]",
        f"rule: {quoted(found.of.note)}", "starting_conditions: power comes on",
        *telegram_lines(map(json.loads, found.lives), made.texts),
        "lives:", *(line for life in found.lives for line in life_lines(json.loads(life), made.texts)),
        "expected:", f"  - {{note: {quoted(found.of.note)}, {expected_text(found)}}}", ""])
