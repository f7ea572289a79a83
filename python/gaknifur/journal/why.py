"""Explain each brake command of a journal: its causes, as `etcs_lab why` prints them, and whether the train braked (module `braking`)."""
from collections.abc import Iterator, Mapping
from dataclasses import dataclass, field

from ..program import Json
from . import braking
from .causes import Known, known, rows_of
from .reading import Journal


@dataclass
class Explained:
    """A brake command, or one event: its causes, and how the train braked."""

    braking: Json | None
    """The row of the command (module `braking`); None for an event without a brake command."""
    causes: list[Json] = field(default_factory=list)
    """The lines of `etcs_lab why` about its events."""
    unknown: dict[str, list[int]] = field(default_factory=dict)
    """Why causes of it aren't known, each with the first and the last event."""

    def add(self, event: int, one: Known) -> None:
        """Adds what is known about one of its records."""
        if one.line is not None:
            self.causes.append(one.line)
        if one.reason is not None:
            self.unknown[one.reason] = [self.unknown.get(one.reason, [event])[0], event]

    def as_json(self) -> Json:
        """As JSON."""
        unknown = [{"reason": reason, "first_event": first, "last_event": last} for reason, (first, last) in self.unknown.items()]
        return {"causes": self.causes, "causes_not_known": unknown, "braking": self.braking}

    def text(self, paragraphs: Mapping[int, str]) -> str:
        """As text; `paragraphs`: the text of `etcs_lab why` about an event."""
        lines = [paragraphs[one["event"]] for one in self.causes]
        lines += [f"events {first}..{last}: the causes aren't known: {reason}\n" for reason, (first, last) in self.unknown.items()]
        head, *more = braking.parts(self.braking) if self.braking else ["no brake is commanded"]
        return "".join([*lines, f"  did it brake? {head}\n", *(f"    {one}\n" for one in more)])


def explained(journal: Journal) -> Iterator[Explained]:
    """Each brake command of a journal that was read with its replay and causes."""
    records = ((event, one) for (event, *_), one in zip(rows_of(journal), known(journal, rows_of(journal))))
    for row in braking.rows(journal.records):
        found = Explained(row)
        for event, one in records:
            if row["first_event"] <= event <= row["last_event"]:
                found.add(event, one)
            if event >= row["last_event"]:
                break
        yield found


def of_event(journal: Journal, event: int, lines: list[Json]) -> Iterator[Explained]:
    """One event, by the lines of `etcs_lab why` about it, with the command that it belongs to; nothing if the journal doesn't have it."""
    for (number, *_), one in zip(rows_of(journal), known(journal, rows_of(journal))):
        if number == event:
            rows = (row for row in braking.rows(journal.records) if row["first_event"] <= event <= row["last_event"])
            found = Explained(next(rows, None), lines if one.reason is None else [])
            found.add(event, Known(one.reason))
            yield found


def paragraphs(lines: list[str]) -> dict[int, str]:
    """The text of `etcs_lab why`, by event."""
    found: dict[int, str] = {}
    event = None
    for line in lines:
        if not line.startswith(" "):
            head = line.partition(":")[0].removeprefix("event ")
            event = int(head) if head.isdigit() else None
        if event is not None:
            found[event] = found.get(event, "") + line + "\n"
    return found
