"""Assign to records why a brake was commanded, why the train was tripped, and what decided the limit, from the output of
`etcs_lab why`. No cause is guessed from what a record shows.

`etcs_lab why` prints a line for each event that changes the brake, the limit, a cause or the kind of what decides the limit in
its life, so the causes of a line hold up to the next one. They are those of the kernel's answers, so they count only where the
replay agrees with the journal; elsewhere the causes aren't known, and the reason is given.
"""
import bisect
import itertools
from collections.abc import Iterable, Iterator
from dataclasses import dataclass

from ..program import Json
from ._words import CAUSES, TRIP_CAUSES
from .reading import Journal

TRIP_BEFORE = "it was tripped before the power-up, and why isn't known"
LIMIT_CAUSE = "limit_cause"
"""The member with the kind of what decides the limit; members that begin with it have details."""
REASONS = {"before_oldest_block": "what was kept before its power-up was overwritten",
           "gap": "blocks or events are missing before",
           "within_block": "no head contains what was kept before its power-up",
           "after_difference": "they follow a record that differs"}
"""Why events can't be replayed."""
OTHER_BLOCK = "its block isn't of the journal"
DIFFERS = "the record differs from what the kernel answers"
NO_REPLAY = "no replay was made"


def held(line: Json) -> dict[str, int]:
    """The causes of a line of `etcs_lab why` that hold, each with the event since which it has held."""
    return {cause: line[cause] for cause in CAUSES if line.get(cause) is not None}


class Reasons:
    """Why the causes of events aren't known; None where the replay agrees."""

    def __init__(self, journal: Journal) -> None:
        self.without = journal.why_refusal or NO_REPLAY
        runs: list[tuple[int, int, str | None]] = []
        for line in journal.replay:
            verdict = line.get("replay")
            if verdict in ("agrees", "not_replayed"):
                reason = None if verdict == "agrees" else REASONS.get(line["reason"], line["reason"])
                runs.append((line["first_event"], line["last_event"], reason))
            elif verdict == "record_differs":
                runs.append((line["event"], line["event"], DIFFERS))
        self.runs = sorted(runs, key=lambda run: run[0])
        self.firsts = [run[0] for run in self.runs]

    def of(self, event: int) -> str | None:
        """The reason for an event."""
        at = bisect.bisect_right(self.firsts, event) - 1
        return self.runs[at][2] if at >= 0 and event <= self.runs[at][1] else self.without

    def is_one_run(self, first: int, last: int) -> bool:
        """Whether the replay agrees in all events from one to another one, which are of one life."""
        return self.of(first) is None and bisect.bisect_right(self.firsts, first) == bisect.bisect_right(self.firsts, last)


@dataclass
class Known:
    """What is known about a record's causes."""

    reason: str | None
    """Why they aren't known."""
    line: Json | None = None
    """Its line of `etcs_lab why`, if it has one."""
    held: dict[str, int] | None = None
    """The causes of its brake that hold; None if they aren't known."""
    limit: str | None = None
    """The kind of what decides the limit; None if it isn't known."""
    trip: "Trip | None" = None
    """The trip that isn't acknowledged; None if there is none, or it isn't known."""


@dataclass(frozen=True)
class Trip:
    """A trip that isn't acknowledged: why it was entered, and by which event; both None if it was entered in an earlier life."""

    cause: str | None
    event: int | None

    def text(self) -> str:
        """Why the train was tripped, as text."""
        if self.cause is None:
            return TRIP_BEFORE
        text, section = TRIP_CAUSES.get(self.cause, (self.cause, "?"))
        return f"{text} (event {self.event}, {section})"


def trip_of(line: Json) -> Trip | None:
    """The trip that isn't acknowledged after the event of a line."""
    if line.get("owes_trip") is None or "trip_cause" not in line:
        return None
    return Trip(line["trip_cause"], line["trip_cause_event"])


Row = tuple[int, str, str, str | None]
"""Event, kind, brake and source of a record."""


def rows_of(journal: Journal) -> Iterator[Row]:
    """The values of each record by which its causes are found."""
    return ((one["event"], one["kind"], one["brake"], one.get("source")) for one in journal.records)


def of_line(line: Json | None) -> Known:
    """What is known from a line of `etcs_lab why` up to the next one; nothing without a line."""
    return Known(None, None, held(line), line.get(LIMIT_CAUSE), trip_of(line)) if line else Known(None)


def line_before(journal: Journal, reasons: Reasons) -> Json | None:
    """The line of `etcs_lab why` before the first record, or before a part, which holds there; None if it is of another life."""
    if not journal.why or len(journal.records) <= journal.lead:
        return None
    line, first = journal.why[0], journal.records[journal.lead]["event"]
    return line if line["event"] < first and reasons.is_one_run(line["event"], first) else None


def known(journal: Journal, records: Iterable[Row]) -> Iterator[Known]:
    """What is known about each record; nothing about those before a part. Those from one line of `etcs_lab why` to the next have the same
    causes, limit and trip."""
    lines, reasons, left = {line["event"]: line for line in journal.why}, Reasons(journal), iter(records)
    yield from (Known(None) for _ in itertools.islice(left, journal.lead))
    before = line_before(journal, reasons)
    same = of_line(before)
    for event, kind, brake, source in left:
        reason = OTHER_BLOCK if (source or "journal") != "journal" else reasons.of(event)
        line = lines.get(event) if reason is None else None
        if line and line["brake"] != brake:
            reason, line = DIFFERS, None
        if reason is not None:
            before, same = None, Known(None)
            yield Known(reason)
            continue
        latest = line or (before if kind != "powerup" else None)
        if line or latest is not before:
            same = of_line(latest)
        before = latest
        yield Known(None, line, same.held, same.limit, same.trip) if line else same


@dataclass
class Held:
    """A cause of a brake intervention."""

    cause: str
    since: int
    """The event since which it has held."""
    last: int
    """The last event after which it is known to hold."""
    gone: int | None = None
    """The first event after that after which it is known not to hold."""

    @property
    def says(self) -> str:
        """Its meaning."""
        return CAUSES[self.cause][0]

    @property
    def ends(self) -> str:
        """How it ends."""
        return CAUSES[self.cause][1]

    def text(self) -> str:
        """Its name and the event since which it holds."""
        return f"{self.cause} since {self.since}"


def of_run(events: Iterable[int], causes: Iterable[dict[str, int] | None]) -> list[Held]:
    """The causes of a run of events in the order in which they began to hold. A cause that ends and begins again is listed twice."""
    found: list[Held] = []
    for event, now in zip(events, causes):
        if now is None:
            continue
        for one in found:
            if one.gone is None and now.get(one.cause) != one.since:
                one.gone = event
        holding = {one.cause: one for one in found if one.gone is None}
        for cause, since in now.items():
            if cause in holding:
                holding[cause].last = event
            else:
                found.append(Held(cause, since, event))
    return sorted(found, key=lambda one: one.since)


def text(causes: dict[str, int] | None) -> str | None:
    """The text of a column of causes; an empty text if there are none."""
    return None if causes is None else ", ".join(f"{cause} since {since}" for cause, since in causes.items())


def limit_text(line: Json) -> str:
    """What decides the limit of a line, as text: its kind, its speed, its place and number if it has them, and its sections."""
    kind, speed, place, number, section = (
        line.get(f"{LIMIT_CAUSE}{end}") for end in ("", "_speed_m_per_h", "_place_cm", "_number", "_section"))
    if kind is None:
        return ""
    which = "" if number is None else f" {number}"
    fast = "" if speed is None else f", {speed / 1000:g} km/h"
    where = "" if place is None else f" at {place / 100:,.2f} m"
    return f"{str(kind).replace('_', ' ')}{which}{fast}{where} ({section})"


ROW = ("block", "event", "life", "brake", "cause", "since_event", "says", "ends")


def rows(journal: Journal) -> list[Json]:
    """A row for each cause of each event whose causes are known, with its texts."""
    return [{"block": record["block"], "event": record["event"], "life": record["life"], "brake": record["brake"], "cause": cause,
             "since_event": since, "says": CAUSES[cause][0], "ends": CAUSES[cause][1]}
            for record, one in zip(journal.records, known(journal, rows_of(journal))) for cause, since in (one.held or {}).items()]
