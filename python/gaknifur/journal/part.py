"""Choose the lines of a part of a journal from the output of `etcs_lab`, so that only these are parsed and kept.

A part is a run of events, or a life, of an image that is whole: there events are listed in their order. What its beginning needs from before
it comes along: up to three records (`Lead`), the train data that were entered last, and the last line of `etcs_lab why`.
"""
import re
from dataclasses import dataclass, field

RECORD = re.compile(r'\{"block":[0-9]+,"byte":[0-9]+,"event":([0-9]+),"life":([0-9]+),"kind":"([a-z]+)"')
MOMENT = re.compile(r'"time_ms":([0-9]+)')
CHANGE = re.compile(r'\{"event":([0-9]+),')
ENTERED = '"action":"enter_train_data"', '"mode":"SB"'
"""What the line of train data that were taken has."""


def moment(line: str) -> int:
    """The moment of a record's line."""
    found = MOMENT.search(line)
    return int(found[1]) if found else 0


@dataclass
class Lead:
    """The lines of the records before a part that its beginning needs, however many there are."""

    reading: str | None = None
    """The last reading or power-up, which gives the first speed."""
    later: str | None = None
    """The first record of a later moment than the reading's, which shows how late the reading may have come."""
    last: str | None = None
    """The last record, which gives the mode and the brake."""

    def add(self, line: str, kind: str) -> None:
        """Adds a line of this kind."""
        if kind in ("odometer", "powerup"):
            self.reading, self.later = line, None
        elif self.reading and self.later is None and moment(line) > moment(self.reading):
            self.later = line
        self.last = line

    def lines(self) -> list[str]:
        """The lines, each once, in their order."""
        return list(dict.fromkeys(line for line in (self.reading, self.later, self.last) if line))


@dataclass
class Part:
    """A part: from one event to another one, of one life or of all."""

    first: int | None = None
    last: int | None = None
    life: int | None = None
    lead: Lead = field(default_factory=Lead)
    led: int | None = None
    """The number of lines of the lead, once the part has begun."""
    train: str | None = None
    """The line of the train data that were entered last before the part."""
    is_over: bool = False
    """Whether a line beyond the part came, so that no line of it follows."""

    def take(self, line: str) -> list[str]:
        """The lines to read when a line of `etcs_lab events` comes."""
        found = RECORD.match(line)
        if not found:
            return [line]
        event, life = int(found[1]), int(found[2])
        if (self.last is not None and event > self.last) or (self.life is not None and life > self.life):
            self.is_over = True
        elif (self.first is None or event >= self.first) and (self.life is None or life == self.life):
            return [*self.begin(), line]
        else:
            self.lead.add(line, found[3])
            self.train = line if all(text in line for text in ENTERED) else self.train
        return []

    def begin(self) -> list[str]:
        """The lines of the lead, where the part begins."""
        if self.led is not None:
            return []
        lines = self.lead.lines()
        self.led = len(lines)
        return lines

    def end(self) -> list[str]:
        """Nothing: records before a part that isn't there aren't read."""
        return []


@dataclass
class Changes:
    """The lines of `etcs_lab why` for a run of events: those of its events, and the last one before them."""

    first: int
    last: int
    before: list[str] = field(default_factory=list)
    is_over: bool = False

    def take(self, line: str) -> list[str]:
        """The lines to read when a line comes."""
        found = CHANGE.match(line)
        if found and int(found[1]) < self.first:
            self.before = [line]
            return []
        self.is_over = found is not None and int(found[1]) > self.last
        return [*self.end(), *([] if self.is_over else [line])]

    def end(self) -> list[str]:
        """The last line before the run, unless it was read."""
        lines, self.before = self.before, []
        return lines
