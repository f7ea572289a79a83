"""Find what a replay can't find but physics can: movement that doesn't fit the recorded speeds, speeds that change too fast or are above the
train's maximum, movement at standstill, and a group that was read at another place than before. A finding is implausible, and doesn't
prove a forgery: wheels slip, clocks stop, and a scenario may have no moments at all. The input are the records of `etcs_lab events`, one
after another: only what is needed of a life is kept.
"""
from collections.abc import Iterable, Iterator
from dataclasses import asdict, dataclass, field
from itertools import pairwise
from typing import Any

from ..program import Json
from .wording import counted, kmh

CM_PER_M_PER_H_MS = 100 / 3_600_000
"""1 m/h in cm/ms."""
NOT_MOVED = "not_moved"
"""The word of a power-up before which the train didn't move without power."""


@dataclass(frozen=True)
class Thresholds:
    """The limits beyond which something is implausible."""

    path_cm: int = 1_500
    """The tolerated error of the movement of a run of readings against its speeds and moments .."""
    path_percent: int = 10
    """.. plus this percentage of it."""
    safe_m_per_h: int = 4_000
    """How much the speed that the unit was given, which is the safe one, may be above the true one."""
    acceleration_cm_per_s2: int = 300
    """The greatest change of speed .."""
    jump_m_per_h: int = 5_000
    """.. plus this step."""
    maximum_percent: int = 25
    """How much a speed may be above the train's maximum, as a percentage."""
    place_cm: int = 1_000
    """The tolerated error of a group's place, besides the recorded uncertainties .."""
    place_percent: int = 5
    """.. plus this percentage of the distance between two groups."""

    def text(self) -> str:
        """The thresholds as text."""
        return (f"movement off by {self.path_cm} cm and {self.path_percent} %, speeds {self.safe_m_per_h} m/h above the true ones, that change by "
                f"{self.acceleration_cm_per_s2} cm/s2 and {self.jump_m_per_h} m/h, or are {self.maximum_percent} % above the maximum, places off by "
                f"{self.place_cm} cm, {self.place_percent} % and the uncertainties")


@dataclass
class Found:
    """The findings, and the numbers of what was judged."""

    findings: list[Json] = field(default_factory=list)
    lives: int = 0
    timed: int = 0
    """The number of lives with moments."""
    readings: int = 0
    groups: int = 0


@dataclass
class Stretch:
    """The readings at a moment or after it, before the next moment of the life. Speeds are negative where the train runs backward."""

    time_ms: int
    first_event: int
    last_event: int
    path_cm: int
    speeds: list[int]
    next_ms: int = 0
    """The next moment, once it is known."""

    @property
    def low(self) -> int:
        """The least speed, whatever its direction."""
        return min(abs(speed) for speed in self.speeds)

    @property
    def high(self) -> int:
        """The greatest speed."""
        return max(abs(speed) for speed in self.speeds)

    def add(self, event: int, moved: int, speed: int) -> None:
        """Adds a reading."""
        self.last_event, self.path_cm = event, self.path_cm + abs(moved)
        self.speeds.append(speed)


class Run:
    """A run of stretches whose movement is more, or less, than their speeds and moments allow. It begins again where it stops being so."""

    def __init__(self, word: str, before: Stretch) -> None:
        self.word = word
        self.begin(before)

    def begin(self, before: Stretch) -> None:
        """Begins a run after a stretch."""
        self.before, self.excess, self.moved, self.first_event = before, 0.0, 0, -1
        self.low = self.high = abs(before.speeds[-1])

    def add(self, one: Stretch, excess: float, bound: float) -> Json | None:
        """Adds a stretch, with the movement that is too much or too little; returns a finding if that of the run is above a bound."""
        self.first_event = one.first_event if self.first_event < 0 else self.first_event
        self.excess, self.moved = self.excess + excess, self.moved + one.path_cm
        self.low, self.high = min(self.low, one.low), max(self.high, one.high)
        found = None
        if self.excess > bound:
            found = {"implausible": self.word, "first_event": self.first_event, "last_event": one.last_event, "moved_cm": self.moved,
                     "ms": one.next_ms - self.before.time_ms, "least_m_per_h": self.low, "most_m_per_h": self.high}
        if found or self.excess <= 0:
            self.begin(one)
        return found


class Jump:
    """Speeds that rise, or fall, faster than a train does, over any number of moments."""

    def __init__(self, sign: int, limits: Thresholds) -> None:
        self.sign, self.step, self.rate = sign, limits.jump_m_per_h, limits.acceleration_cm_per_s2 * 36 / 1_000
        self.least: tuple[float, int, int, int] | None = None

    def add(self, one: Stretch) -> Json | None:
        """Adds a stretch; returns a finding if the change since an earlier one is too fast."""
        speeds, found = [speed * self.sign for speed in one.speeds], None
        if self.least is not None and max(speeds) - self.rate * one.next_ms - self.least[0] > self.step:
            _, event, since_ms, speed = self.least
            found = {"implausible": "jump", "first_event": event, "last_event": one.last_event, "ms": one.next_ms - since_ms,
                     "from_m_per_h": speed * self.sign, "to_m_per_h": max(speeds) * self.sign}
        lowest = (min(speeds) - self.rate * one.time_ms, one.last_event, one.time_ms, min(speeds))
        if found or self.least is None or lowest[0] <= self.least[0]:
            self.least = lowest
        return found


class Movement:
    """The readings of a life, and what is implausible in them. Movement over time and changes of speed are judged only where a later moment
    follows."""

    def __init__(self, limits: Thresholds) -> None:
        self.limits, self.findings = limits, list[Json]()
        self.now_ms, self.direction = 0, 1
        self.stretch: Stretch | None = None
        self.runs: tuple[Run, Run] | None = None
        self.before: Stretch | None = None
        self.jumps = Jump(1, limits), Jump(-1, limits)
        self.standing: Json | None = None
        self.fast: Json | None = None

    def note(self, found: Json | None) -> None:
        """Adds a finding, if there is one."""
        self.findings += [found] if found else []

    def read(self, record: Json, maximum: int | None) -> None:
        """Adds a reading of a train with this greatest speed."""
        event, moved, speed = record["event"], record["movement_cm"], record["speed_m_per_h"]
        self.direction = self.direction if not moved else 1 if moved > 0 else -1
        if self.stretch is None:
            self.stretch = Stretch(self.now_ms, event, event, 0, [])
        self.stretch.add(event, moved, speed * self.direction)
        self.stand(event, moved, speed)
        self.compare(event, speed, maximum)

    def stand(self, event: int, moved: int, speed: int) -> None:
        """Readings of speed 0 move no further than the tolerated error; the first one reports the movement before it stood."""
        if speed:
            self.note(self.standing if self.standing and self.standing["moved_cm"] > self.limits.path_cm else None)
            self.standing = None
        elif self.standing is None:
            self.standing = {"implausible": "standing", "moved_cm": 0}
        else:
            self.standing = {"first_event": event, **self.standing, "last_event": event, "moved_cm": self.standing["moved_cm"] + abs(moved)}

    def compare(self, event: int, speed: int, maximum: int | None) -> None:
        """Compares a speed with the train's maximum."""
        if maximum is None or speed * 100 <= maximum * (100 + self.limits.maximum_percent):
            self.note(self.fast)
            self.fast = None
        elif self.fast is None:
            self.fast = {"implausible": "above_maximum", "first_event": event, "last_event": event, "most_m_per_h": speed, "maximum_m_per_h": maximum}
        else:
            self.fast |= {"last_event": event, "most_m_per_h": max(speed, self.fast["most_m_per_h"])}

    def moment(self, now_ms: int) -> None:
        """Judges the readings before a moment."""
        if now_ms <= self.now_ms:
            return
        self.now_ms = now_ms
        one, self.stretch = self.stretch, None
        if one is None:
            return
        one.next_ms = now_ms
        for jump in self.jumps:
            self.note(jump.add(one))
        if self.runs is None or self.before is None:
            self.runs = Run("too_far", one), Run("too_short", one)
        else:
            self.move(self.runs, self.before, one)
        self.before = one

    def move(self, runs: tuple[Run, Run], before: Stretch, one: Stretch) -> None:
        """Compares the movement with the speeds, which between two readings are between theirs. A reading may have come as late as the next
        moment, and a safe speed is above the true one."""
        limits, share, last = self.limits, self.limits.path_percent / 100, abs(before.speeds[-1])
        span = one.time_ms - before.time_ms
        high = max(last, one.high) * CM_PER_M_PER_H_MS * (1 + share)
        low = max(min(last, one.low) - limits.safe_m_per_h, 0) * CM_PER_M_PER_H_MS * (1 - share)
        self.note(runs[0].add(one, one.path_cm - high * span, limits.path_cm + high * (one.next_ms - one.time_ms)))
        self.note(runs[1].add(one, low * span - one.path_cm, limits.path_cm + low * (before.next_ms - before.time_ms)))

    def end(self) -> list[Json]:
        """The findings of the life, in the order of their events."""
        self.stand(0, 0, 1)
        self.note(self.fast)
        return sorted(self.findings, key=lambda one: int(one["first_event"]))


@dataclass
class Passed:
    """The groups of a life in the order in which it passed them, each with the event, place and uncertainty of its first reading, and where
    the life began and ended."""

    life: int
    is_kept: bool
    """Whether the train hadn't moved since the life before ended."""
    groups: list[Json] = field(default_factory=list)
    end_cm: int | None = None
    end_uncertainty_cm: int = 0

    def add(self, record: Json) -> None:
        """Adds a record."""
        if record["place_cm"] is None:
            return
        self.end_cm, self.end_uncertainty_cm = record["place_cm"], record["uncertainty_cm"]
        header = record["decoded"].get("header") if record["kind"] == "telegram" else None
        if header is None:
            return
        group = (header["NID_C"], header["NID_BG"])
        if not self.groups or self.groups[-1]["group"] != group:
            self.groups.append({"group": group, "life": self.life, "event": record["event"], "place_cm": record["place_cm"],
                                "uncertainty_cm": record["uncertainty_cm"]})


def places(lives: list[Passed], limits: Thresholds) -> Iterator[Json]:
    """Groups that were read at another place of their life than before, or at another distance from the group before."""
    before: dict[Any, Json] = {}
    for groups in (one.groups for one in lives):
        at: dict[Any, Json] = {}
        for one in groups:
            other = at.setdefault(one["group"], one)
            off = abs(one["place_cm"] - other["place_cm"])
            if off > one["uncertainty_cm"] + other["uncertainty_cm"] + limits.place_cm:
                yield group_finding("place", one, other, off)
        for first, one in pairwise(groups):
            way = abs(one["place_cm"] - first["place_cm"])
            link = {**one, "way_cm": way, "off_cm": one["uncertainty_cm"] + first["uncertainty_cm"]}
            pair = frozenset((first["group"], one["group"]))
            other = before.setdefault(pair, link)
            off = abs(way - other["way_cm"])
            if off > link["off_cm"] + other["off_cm"] + limits.place_cm + limits.place_percent * max(way, other["way_cm"]) / 100:
                yield group_finding("distance", link, other, off) | {"from_group": "/".join(map(str, first["group"]))}


def kept(lives: list[Passed], limits: Thresholds) -> Iterator[Json]:
    """Groups that are read at another distance from where the train was switched off than before, although it hadn't moved. It may have turned
    round since. If the life before didn't read the group, an older life knows how far it is from one that was read."""
    seen: dict[Any, dict[int, Json]] = {}
    for before, life in pairwise(lives):
        if life.is_kept and before.life + 1 == life.life and life.groups:
            one = life.groups[0]
            way, found = int(abs(one["place_cm"])), distances(before, one, seen)
            if found:
                other, ways, longest, unsure = found
                away = min(ways, key=lambda known: abs(way - known))
                if abs(way - away) > unsure + one["uncertainty_cm"] + limits.place_cm + limits.place_percent * max(way, longest) / 100:
                    yield group_finding("kept", one, other, abs(way - away)) | {"way_cm": way, "kept_cm": away}
        for read in before.groups:
            seen.setdefault(read["group"], {}).setdefault(before.life, read)


def distances(before: Passed, one: Json, seen: dict[Any, dict[int, Json]]) -> tuple[Json, list[int], int, int] | None:
    """How far a group may be from the end of a life: the last group of that life whose distance from it is known, the distances (an older life
    doesn't say on which side of the end it is), the longest way that was measured, and the uncertainties of all."""
    ends = [(other, abs(before.end_cm - other["place_cm"]), before.end_uncertainty_cm + other["uncertainty_cm"]) for other in reversed(before.groups)
            if before.end_cm is not None]
    for other, away, unsure in ends:
        if other["group"] == one["group"]:
            return other, [away], away, unsure
    for other, away, unsure in ends:
        olds = seen.get(other["group"], {}), seen.get(one["group"], {})
        if known := olds[0].keys() & olds[1].keys():
            first, second = (old[max(known)] for old in olds)
            link = int(abs(first["place_cm"] - second["place_cm"]))
            return other, [abs(link - away), link + away], max(link, away), unsure + first["uncertainty_cm"] + second["uncertainty_cm"]
    return None


def group_finding(word: str, one: Json, other: Json, off: int) -> Json:
    """A finding on a group."""
    return {"implausible": word, "life": one["life"], "first_event": other["event"], "last_event": one["event"],
            "group": "/".join(map(str, one["group"])), "off_cm": off}


class Judge:
    """Judges the records of a journal, which are added in their order. Movement and speeds are judged only in lives with moments."""

    def __init__(self, limits: Thresholds = Thresholds(), train: Json | None = None) -> None:
        self.limits, self.found, self.lives = limits, Found(), list[Passed]()
        self.movement = Movement(limits)
        self.maximum: int | None = train["maximum_m_per_h"] if train else None

    def add(self, record: Json) -> None:
        """Adds a record."""
        if not self.lives or self.lives[-1].life != record["life"]:
            self.end_life()
            self.movement = Movement(self.limits)
            self.lives.append(Passed(record["life"], record.get("word") == NOT_MOVED))
        self.movement.moment(record["time_ms"])
        if record["kind"] == "odometer":
            self.found.readings += 1
            self.movement.read(record, self.maximum)
        elif record.get("action") == "enter_train_data" and record["mode"] == "SB":
            self.maximum = record["maximum_m_per_h"]
        self.lives[-1].add(record)

    def end_life(self) -> None:
        """Adds the findings of the last life."""
        if self.lives:
            self.found.timed += self.movement.now_ms > 0
            self.found.findings += [{"implausible": one["implausible"], "life": self.lives[-1].life} | one for one in self.movement.end()]

    def end(self) -> Found:
        """What is found in all records."""
        self.end_life()
        self.found.lives, self.found.groups = len(self.lives), sum(len(one.groups) for one in self.lives)
        self.found.findings += [*places(self.lives, self.limits), *kept(self.lives, self.limits)]
        return self.found


def judge(records: Iterable[Json], limits: Thresholds = Thresholds(), train: Json | None = None) -> Found:
    """Judges records of a journal; `train`: the record of the train data before them."""
    found = Judge(limits, train)
    for one in records:
        found.add(one)
    return found.end()


# ---- output

def text(line: Json) -> str:
    """A finding as text."""
    at = f"implausible: life {line['life']}, events {line['first_event']} to {line['last_event']}: "
    if line["implausible"] in ("too_far", "too_short"):
        return at + (f"moved {line['moved_cm'] / 100:g} m in {line['ms'] / 1000:g} s, and the speeds are {kmh(line['least_m_per_h'])} to "
                     f"{kmh(line['most_m_per_h'])} km/h")
    if line["implausible"] == "standing":
        return f"{at}moved {line['moved_cm'] / 100:g} m, and the speeds are 0"
    if line["implausible"] == "jump":
        return f"{at}the speed goes from {kmh(line['from_m_per_h'])} to {kmh(line['to_m_per_h'])} km/h in {line['ms'] / 1000:g} s"
    if line["implausible"] == "above_maximum":
        return f"{at}up to {kmh(line['most_m_per_h'])} km/h, and the train's maximum is {kmh(line['maximum_m_per_h'])} km/h"
    if line["implausible"] == "kept":
        return (f"{at}group {line['group']} was read after {line['way_cm'] / 100:g} m, and the train was switched off {line['kept_cm'] / 100:g} m from it "
                "and hadn't moved")
    way = f"at another distance from group {line['from_group']}" if "from_group" in line else "at another place of the life"
    return f"{at}group {line['group']} was read {way}, {line['off_cm'] / 100:g} m off"


def summary(found: Found, limits: Thresholds) -> str:
    """The summary as text."""
    number = len(found.findings) or "nothing"
    return (f"plausibility: {number} implausible; {counted(found.readings, 'reading', 'readings')} and {counted(found.groups, 'group', 'groups')} of "
            f"{counted(found.lives, 'life', 'lives')}, {found.timed} with moments; thresholds: {limits.text()}")


def as_json(found: Found, limits: Thresholds) -> Json:
    """The summary as JSON."""
    return {"plausibility": {"implausible": len(found.findings), "lives": found.lives, "timed_lives": found.timed, "readings": found.readings,
                             "groups": found.groups, "thresholds": asdict(limits)}}
