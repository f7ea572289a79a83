"""The driver's entries, and what survives a power-up (this project's profile)."""
from collections import namedtuple
from dataclasses import dataclass

from modes import fate
from national import InForce

UNKNOWN, VALID, INVALID = "unknown", "valid", "invalid"

Item = namedtuple("Item", "status value")
NOTHING = Item(UNKNOWN, None)

MOST_EVENTS = (1 << 64) - 1
MOST_LIVES = (1 << 32) - 1


def met_by(item, letter):
    """Unknown stays so, and what is made invalid keeps its value."""
    return Item(INVALID, item.value) if letter == "I" and item.status == VALID else item


@dataclass(frozen=True)
class Kept:
    """What is known of a list of events at its end, as far as a power-up leaves it."""

    identity: object = None  # the values that were entered last
    running_number: object = None
    train_data: object = None
    level: Item = NOTHING
    position: Item = NOTHING  # a group, and how far the estimate lies beyond it
    national: InForce = InForce()
    trip: bool = False
    events: int = 0
    lives: int = 0

    def entered(self, value, item, column):
        known = NOTHING if value is None else Item(VALID, value)
        return met_by(known, fate(item, column))

    def items(self, cold):
        """The driver's items as a life begins."""
        column = "N" if cold == "not-moved" else "P"
        return {
            "identity": self.entered(self.identity, "identity", column),
            "running-number": self.entered(self.running_number, "running-number", column),
            "train-data": self.entered(self.train_data, "train-data", column),
            "level": met_by(self.level, fate("level", column)),
            "position": met_by(self.position, fate("position", column)),
        }
