#!/usr/bin/env python3
"""What examples/embedding/brake.c has to print on a new journal, worked out by the plain kernel over the same train: or, with a file, whether it
is what that file holds.

    tests/c_unit/brake_lines.py [FILE]
"""
import sys
from fractions import Fraction
from math import floor
from pathlib import Path

sys.path.insert(0, str(Path(__file__).resolve().parents[1] / "model"))

from life import Life  # noqa: E402
from program import action_of  # noqa: E402

AUTHORITY = "90007F802001432024A8007FE007D002B00D900010000DC03A400020801FE0"
CYCLE_MS, CYCLES = 500, 1_000
BRAKES = ("none", "service", "emergency")
GAINED = {"none": 900, "service": -1_260, "emergency": -1_800}


class Train:
    """The train of brake.c, and the unit on it."""

    def __init__(self):
        self.life, self.events, self.lines = Life(), 1, []
        self.moment = self.speed = self.way = self.reported = 0
        self.brake, self.mode = "emergency", "SB"

    def accept(self, *inputs):
        """What is released of these inputs, and obeyed."""
        outputs = []
        for word, value in inputs:
            outputs.append((self.events, self.life.take(word, value)))
            self.events += 1
        # (the most restrictive brake of one release holds until the next one)
        strictest = max((str(output.brake) for _, output in outputs), key=BRAKES.index)
        self.obey(*outputs[-1], strictest)

    def obey(self, event, output, brake):
        mode = output.mode
        if (brake, mode) != (self.brake, self.mode):
            self.lines.append(f"event {event}: mode {mode}, brake {brake}, limit {output.limit} m/h, speed {self.speed} m/h")
        self.brake, self.mode = brake, mode

    def go_on(self):
        """How far it goes in a cycle: all movements together are the way so far, in whole centimetres."""
        self.speed = min(max(self.speed + GAINED[self.brake], 0), 100_000)
        self.moment += CYCLE_MS
        self.way += Fraction(self.speed * CYCLE_MS, 36_000)
        moved = floor(self.way) - self.reported
        self.reported += moved
        return moved


def wanted_lines():
    train = Train()
    driver = [(1, "IC 704"), (4, 1), (3, 20_000, 160_000, 70, 0, 15), (6,)]
    train.accept(("hear", AUTHORITY), *(action_of(*one)[:2] for one in driver))
    for cycle in range(CYCLES):
        moved = train.go_on()
        if train.speed == 0 and cycle > 0:
            break
        train.accept(("move", f"{moved} {train.speed}"), ("clock", str(train.moment)))
    return [*train.lines, f"the train stands after {train.moment} ms"]


def main(words):
    wanted = wanted_lines()
    if not words:
        print(*wanted, sep="\n")
        return 0
    found = Path(words[0]).read_text().splitlines()
    if found != wanted:
        print("brake.c printed", *found, "and the plain kernel", *wanted, sep="\n")
    print(f"a train that brakes: {len(found)} lines from C")
    return found != wanted or len(found) < 3


if __name__ == "__main__":
    sys.exit(main(sys.argv[1:]))
