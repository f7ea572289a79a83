"""Where the train's front is (this project's profile). Places and paths are in centimetres."""
from dataclasses import dataclass

FARTHEST_CM = 1 << 40


@dataclass(frozen=True)
class Sums:
    """The sum of a life's movements, and its path: the sum of their absolute values."""

    moved: int = 0
    path: int = 0

    def after(self, movement):
        return Sums(self.moved + movement, self.path + abs(movement))


@dataclass(frozen=True)
class Fix:
    """A place given by a group: where it lies, how exactly, the sums when its balise was read, and whether balise 1 was
    missed."""

    at: int
    accuracy: int
    sums: Sums
    missed: bool = False

    def estimate(self, sums):
        """The place of the fix plus the movements since its balise reading."""
        return self.at + sums.moved - self.sums.moved

    def uncertainty(self, sums):
        """Accuracy, 5 m, the 20th part of the path since rounded up, and 12 m where balise 1 was missed."""
        path = sums.path - self.sums.path
        return self.accuracy + 500 + -(-path // 20) + (1200 if self.missed else 0)

    def max_front(self, sums):
        return self.estimate(sums) + self.uncertainty(sums)

    def min_front(self, sums):
        return self.estimate(sums) - self.uncertainty(sums)

    def is_within(self, sums):
        """A fix past the farthest place, or whose estimate now is past it, is not made."""
        return abs(self.at) <= FARTHEST_CM and abs(self.estimate(sums)) <= FARTHEST_CM


POWER_UP = Fix(0, 0, Sums())  # a life starts with an exact fix at 0


@dataclass(frozen=True)
class Stretch:
    """What the train may stand on."""

    min_rear: int
    min_front: int
    max_front: int


def stretch(fix, sums, length):
    return Stretch(fix.min_front(sums) - length, fix.min_front(sums), fix.max_front(sums))
