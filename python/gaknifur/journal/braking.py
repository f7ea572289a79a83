"""Measure whether the train braked after each brake command, and compare that with its train data. docs/reference/lab.md (Did the train
brake) has the definitions, in the same terms. The input are the records of `etcs_lab events`.
"""
from bisect import bisect_right
from collections.abc import Iterable, Iterator
from dataclasses import dataclass, field
from itertools import accumulate, groupby

from ..program import Json
from .wording import kmh

Pair = tuple[int | None, int | None]
"""The least and the greatest value; None if it is unknown or unbounded."""
UNKNOWN: Pair = None, None
ANSWERS = {"standing": "the train stands", "too_few": "there are too few readings", "not_slowed": "the train isn't seen to slow down",
           "slowed": "the train slows down", "stopped": "the train stops"}
"""The answers, and their texts."""
KEPT, BROKEN, NOT_SURE = "kept", "broken", "not_sure"
PROMISES = "reaction", "rate", "way"
"""The members that compare a command with the train data."""


@dataclass(frozen=True)
class Reading:
    """A reading of the odometer, or a power-up as one of speed 0."""

    time_ms: int
    movement_cm: int
    speed: int


@dataclass
class Command:
    """A run of records with the same brake command."""

    life: int
    first_event: int
    last_event: int
    brake: str
    kind: str
    """The kind of its first record."""
    time_ms: int
    train: Json | None
    """The train data that were entered before it."""
    before: Reading | None
    """The last reading up to the command."""
    after: list[Reading] = field(default_factory=list)
    trip_event: int | None = None
    until: str = "end"
    has_moved: bool = False
    has_stopped: bool = False
    """Whether the last reading is of speed 0, after a faster one."""

    @property
    def readings(self) -> list[Reading]:
        """Its readings, with the one before, if there is one."""
        return [*([self.before] if self.before else []), *self.after]

    def add(self, record: Json) -> None:
        """Adds a record, if it is a reading and the train hasn't stopped."""
        if record["kind"] != "odometer" or self.has_stopped:
            return
        self.after.append(reading(record))
        self.has_moved = self.has_moved or self.after[-1].speed > 0 or (self.before is not None and self.before.speed > 0)
        self.has_stopped = self.has_moved and self.after[-1].speed == 0


def reading(record: Json) -> Reading:
    """The reading of a record."""
    return Reading(record["time_ms"], record["movement_cm"], record["speed_m_per_h"])


# ---- commands

class Stretch:
    """Gives the records of a stretch the same number. After each of the first `lead` records, events are left out."""

    def __init__(self, lead: int) -> None:
        self.number, self.last, self.lead = 0, (0, 0), lead

    def __call__(self, record: Json) -> int:
        life, event = self.last
        self.number += life != record["life"] or (self.lead < 0 and event + 1 != record["event"])
        self.last, self.lead = (record["life"], record["event"]), self.lead - 1
        return self.number


def entered(record: Json, train: Json | None) -> Json | None:
    """The train data after a record."""
    return record if record.get("action") == "enter_train_data" and record["mode"] == "SB" else train


def stretches(records: Iterable[Json], train: Json | None, lead: int) -> Iterator[tuple[list[int], list[Command]]]:
    """The moments and the commands of each stretch; `train`: the train data before; `lead`: the number of records before a part."""
    for _, group in groupby((one for one in records if one.get("source", "journal") == "journal"), Stretch(lead)):
        moments, found, now, last, mode = set[int](), list[Command](), None, None, None
        for one in group:
            moments.add(one["time_ms"])
            if now is not None and one["brake"] != now.brake:
                now.add(one)
                now.until = "released" if one["brake"] == "none" else "changed"
                now = None
            elif now is not None:
                now.add(one)
                now.last_event = one["event"]
            if one["kind"] == "odometer":
                last = reading(one)
            elif one["kind"] == "powerup":
                last = Reading(one["time_ms"], 0, 0)
            if now is None and one["brake"] != "none":
                now = Command(one["life"], one["event"], one["event"], one["brake"], one["kind"], one["time_ms"], train, last)
                found.append(now)
            if now is not None and now.trip_event is None and one["mode"] == "TR" and mode not in (None, "TR"):
                now.trip_event = one["event"]
            train, mode = entered(one, train), one["mode"]
        yield sorted(moments), found


# ---- measures

@dataclass
class Measured:
    """A command with the ways and times of its readings. Readings are numbered as in the definition: 0 is the one before the command."""

    command: Command
    moments: list[int]

    def __post_init__(self) -> None:
        one = self.command
        self.first, self.readings = 0 if one.before else 1, one.readings
        most = max((reading.speed for reading in self.readings), default=0)
        self.last = self.first + len(self.readings) - 1
        self.greatest = self.first + max((at for at, reading in enumerate(self.readings) if reading.speed == most), default=0)
        self.ways = [0, *accumulate(abs(reading.movement_cm) for reading in one.after)]
        self.unsure_cm = self.ways[1] if one.after and one.kind != "odometer" else 0

    def reading(self, at: int) -> Reading:
        """A reading by its number."""
        return self.readings[at - self.first]

    def end(self, moment: int) -> int | None:
        """The next moment; None if there is none."""
        after = bisect_right(self.moments, moment)
        return self.moments[after] if after < len(self.moments) else None

    def span(self, first: int, last: int) -> Pair:
        """The least and the greatest time from something of one moment to something of another one."""
        begins, ends = self.end(first), self.end(last)
        return max(last - begins, 0) if begins is not None else 0, None if ends is None else ends - first

    def moment(self, at: int) -> int:
        """The moment of a reading."""
        return self.reading(at).time_ms

    def way(self, at: int) -> int:
        """The least way from the command to a reading."""
        return max(self.ways[at] - self.unsure_cm, 0)

    def points(self) -> list[tuple[int, int, int]]:
        """Time, way and speed of each reading since the command. That of the reading before it may be negative."""
        return [(self.moment(at) - self.command.time_ms, self.ways[at], self.reading(at).speed) for at in range(self.first, self.last + 1)]

    def answer(self) -> str:
        """What the readings say."""
        some = self.readings
        if some and not any(one.speed for one in some):
            return "standing"
        if len(some) < 2:
            return "too_few"
        if self.greatest == self.last:
            return "not_slowed"
        return "stopped" if some[-1].speed == 0 else "slowed"

    def begins(self) -> tuple[Pair, Pair]:
        """Time and way from the command until the deceleration begins."""
        at, start = self.greatest, self.command.time_ms
        least = (self.span(start, self.moment(at))[0], self.way(at)) if at else (0, 0)
        if at == self.last:
            return (least[0], None), (least[1], None)
        return (least[0], self.span(start, self.moment(at + 1))[1]), (least[1], self.ways[at + 1])

    def rate(self) -> Pair:
        """The deceleration, in cm/s²."""
        at, until = self.greatest, self.last - (self.reading(self.last).speed == 0)
        if at == self.last:
            return UNKNOWN
        lost = (self.reading(at).speed - self.reading(self.last).speed) * 1000
        longest = self.span(self.moment(at), self.moment(self.last))[1]
        shortest = self.span(self.moment(at + 1), self.moment(until))[0] if until > at else 0
        return lost // (36 * longest) if longest else 0, -(-lost // (36 * shortest)) if shortest else None

    def ends(self) -> Pair:
        """The time from the command to the last reading, or to the standstill before it."""
        start, until = self.command.time_ms, self.last - (self.reading(self.last).speed == 0)
        least = self.span(start, self.moment(until))[0] if until else 0
        return least, self.span(start, self.moment(self.last))[1]


def flat(one: Json) -> Json:
    """A row whose pairs are members of their own: `way_cm` is `way_least_cm` and `way_most_cm`."""
    found: Json = {}
    for name, value in one.items():
        what, _, unit = name.partition("_")
        found |= {f"{what}_{end}_{unit}": value[at] for at, end in enumerate(("least", "most"))} if isinstance(value, list) else {name: value}
    return found


def promised_cm(speed: int, train: Json) -> int:
    """The way to standstill that the train data promise, on level track."""
    rate, reaction = int(train["deceleration_cm_per_s2"]), int(train["reaction_ms"])
    return -(-speed * reaction // 36_000) + -(-speed * speed // (2592 * rate))


def promised_curve(speed: int, train: Json) -> list[tuple[float, float, float]]:
    """Time, way and speed of a train that brakes as its train data promise, in steps of a tenth of its speed."""
    rate, reaction = train["deceleration_cm_per_s2"], train["reaction_ms"]
    steps = [(speed * (10 - part) / 10) for part in range(11)]
    return [(0.0, 0.0, float(speed))] + [(reaction + (speed - one) * 1000 / (36 * rate), speed * reaction / 36_000 + (speed * speed - one * one) / (2592 * rate), one)
                                         for one in steps]


def compared(is_kept: bool, is_broken: bool) -> str:
    """What a comparison says."""
    return KEPT if is_kept else BROKEN if is_broken else NOT_SURE


def promises(row: Json, train: Json | None) -> Json:
    """The train data, the way that they promise, and what the figures say about each."""
    names = ("deceleration_cm_per_s2", "reaction_ms")
    found: Json = {name: train[name] if train else None for name in names} | dict.fromkeys(("promised_cm", *PROMISES))
    speed = row["speed_m_per_h"]
    if train is None or speed is None or row["answer"] in ("standing", "too_few"):
        return found
    promised = promised_cm(speed, train)
    deceleration, reaction = (train[name] for name in names)
    (early, late), (slow, fast), (near, far) = row["begins_ms"], row["rate_cm_per_s2"], row["way_cm"]
    found |= {"promised_cm": promised, "reaction": compared(late is not None and late <= reaction, early > reaction),
              "way": compared(row["answer"] == "stopped" and far <= promised, near > promised)}
    if row["answer"] != "not_slowed":
        found["rate"] = compared(slow >= deceleration, fast is not None and fast < deceleration)
    return found


def row(one: Measured) -> Json:
    """The figures of a command."""
    command, answer = one.command, one.answer()
    found: Json = {"life": command.life, "first_event": command.first_event, "last_event": command.last_event, "brake": command.brake,
                   "trip_event": command.trip_event, "answer": answer, "until": "standstill" if answer == "stopped" else command.until,
                   "speed_m_per_h": command.before.speed if command.before else None}
    figures: dict[str, Pair] = dict.fromkeys(("begins_ms", "begins_cm", "rate_cm_per_s2", "ends_ms", "way_cm"), UNKNOWN)
    if answer not in ("standing", "too_few"):
        begins_ms, begins_cm = one.begins()
        figures = {"begins_ms": begins_ms, "begins_cm": begins_cm, "rate_cm_per_s2": one.rate(), "ends_ms": one.ends(),
                   "way_cm": (one.way(one.last), one.ways[-1])}
    found |= {name: list(pair) for name, pair in figures.items()}
    return found | promises(found, command.train)


def measures(records: Iterable[Json], train: Json | None = None, lead: int = 0) -> Iterator[Measured]:
    """The measures of each brake command; `train`: the record of the train data before; `lead`: the number of records before a part."""
    return (Measured(command, moments) for moments, found in stretches(records, train, lead) for command in found)


def rows(records: Iterable[Json], train: Json | None = None, lead: int = 0) -> Iterator[Json]:
    """A row for each brake command, as in `measures`."""
    return map(row, measures(records, train, lead))


# ---- output

def between(pair: list[int | None], unit: float, name: str) -> str:
    """A pair as text."""
    least, most = ("?" if one is None else f"{one / unit:g}" for one in pair)
    return f"{least} {name}" if least == most else f"{least} to {most} {name}"


def parts(one: Json) -> list[str]:
    """A row as text: the command and the answer, when deceleration begins, how it ends, and what the train data promise."""
    trip = f", trip by event {one['trip_event']}" if one["trip_event"] is not None else ""
    found = [f"life {one['life']} events {one['first_event']}..{one['last_event']}: {one['brake']} brake at {kmh(one['speed_m_per_h'])} km/h{trip}: "
             f"{ANSWERS[one['answer']]}"]
    if one["answer"] in ("standing", "too_few"):
        return found
    rate = f": {between(one['rate_cm_per_s2'], 100, 'm/s²')}" if one["rate_cm_per_s2"] != list(UNKNOWN) else ""
    found += [f"deceleration begins after {between(one['begins_ms'], 1000, 's')}, {between(one['begins_cm'], 100, 'm')}{rate}",
              f"{one['until']} after {between(one['ends_ms'], 1000, 's')}, {between(one['way_cm'], 100, 'm')}"]
    return found + ([promise_text(one)] if one["promised_cm"] is not None else [])


def promise_text(one: Json) -> str:
    """What the train data promise, and what the figures say about it."""
    said = ", ".join(f"{name} {one[name].replace('_', ' ')}" for name in PROMISES if one[name])
    return (f"the train data promise {one['deceleration_cm_per_s2'] / 100:g} m/s² after {one['reaction_ms'] / 1000:g} s, {one['promised_cm'] / 100:g} m: "
            f"{said}")


def is_broken(one: Json) -> bool:
    """Whether a command took longer, or farther, than the train data promise."""
    return BROKEN in (one[name] for name in PROMISES)


def broken_text(rows: list[Json]) -> str:
    """The sentence about commands of which a promise is broken: the first of them."""
    names = " and ".join(name for name in PROMISES if rows[0][name] == BROKEN)
    more = f", and {len(rows) - 1} more" if rows[1:] else ""
    return f"the train braked less than its train data promise: life {rows[0]['life']}, event {rows[0]['first_event']}, in {names}{more}"
