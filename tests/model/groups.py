"""Balise groups: telegrams of one group become a message (SUBSET-026, 3.4; the 1,300 cm are this project's)."""
from dataclasses import dataclass

from place import Sums
from telegrams import Telegram

NEAR_CM = 1300

MIXED, COUNTER, MISSING = "mixed", "counter", "missing"


@dataclass
class Reading:
    telegram: Telegram
    sums: Sums


@dataclass
class Closed:
    """What a group closed to: broken by a cause, or whole with a message."""

    group: tuple
    linked: int
    cause: str = None
    nominal: int = None  # the direction in which it was passed, 0 being reverse, if it is known
    sums: Sums = None  # those of the reading that gives its place
    missed: bool = False  # whether balise 1 was missed
    packets: list = None


def before_infill(packets):
    """Packets from the first packet 136 on are not used."""
    kinds = [packet.kind for packet in packets]
    return packets[: kinds.index(136)] if 136 in kinds else packets


class Group:
    """The readings of one group, the first of each place counting."""

    def __init__(self, reading):
        self.readings = []
        self.add(reading)

    def add(self, reading):
        """A repeat of a place only renews the distance."""
        self.path = reading.sums.path
        if reading.telegram.place not in self.places():
            self.readings.append(reading)

    @property
    def first(self):
        return self.readings[0].telegram

    def places(self):
        return {reading.telegram.place: reading for reading in self.readings}

    def wanted(self):
        return range(self.first.last_place + 1)

    def is_near(self, path):
        return path - self.path <= NEAR_CM

    def is_whole(self):
        return all(place in self.places() for place in self.wanted())

    def is_covered(self, place):
        """A place that was read, or which the balise before or after it repeats."""
        duplicates = {at: reading.telegram.duplicate for at, reading in self.places().items()}
        return place in duplicates or duplicates.get(place - 1) == 1 or duplicates.get(place + 1) == 2

    def cause(self):
        """The first cause that holds of Mixed, Counter and Missing."""
        telegrams = [reading.telegram for reading in self.readings]
        counters = {telegram.counter for telegram in telegrams} - {255}
        if any((t.last_place, t.linked) != (self.first.last_place, self.first.linked) for t in telegrams):
            return MIXED
        if len(counters) > 1 or 254 in counters:
            return COUNTER
        return None if all(self.is_covered(place) for place in self.wanted()) else MISSING

    def nominal(self):
        """Of the first two different places read, rising is nominal, falling is reverse."""
        if len(self.readings) < 2:
            return None
        return int(self.readings[0].telegram.place < self.readings[1].telegram.place)

    def close(self):
        places, cause = self.places(), self.cause()
        if cause:
            return Closed(self.first.group, self.first.linked, cause)
        packets = [packet for place in sorted(places) for packet in before_infill(places[place].telegram.packets)]
        return Closed(self.first.group, self.first.linked, None, self.nominal(), places.get(0, self.readings[0]).sums,
                      0 not in places, packets)


class Assembler:
    """The groups of a life, one after another."""

    def __init__(self):
        self.current = None
        self.last = None  # the group that closed last

    def end(self):
        """Closes the group that is being read."""
        self.last, self.current = self.current, None
        return self.last.close()

    def moved(self, path):
        """A group ends after more than 1,300 cm of path without a telegram of it: the groups that this closes."""
        return [self.end()] if self.current and not self.current.is_near(path) else []

    def outcome(self, reading):
        """Whether a reading counts in its group."""
        group, path = reading.telegram.group, reading.sums.path
        if self.last and self.last.first.group == group and self.last.is_near(path):
            return "group_closed"
        same = self.current and self.current.first.group == group and self.current.is_near(path)
        return "repeated" if same and reading.telegram.place in self.current.places() else "counts"

    def take(self, reading):
        """The groups that a reading closes, the one that it ends first."""
        group, path, closed = reading.telegram.group, reading.sums.path, []
        if self.last and self.last.first.group == group and self.last.is_near(path):
            self.last.path = path  # ignored before anything else, but it renews the distance
            return closed
        if self.current and self.current.first.group == group:
            self.current.add(reading)
        else:
            if self.current:
                closed.append(self.end())
            self.current = Group(reading)
        if self.current.is_whole():
            closed.append(self.end())
        return closed
