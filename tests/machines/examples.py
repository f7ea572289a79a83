#!/usr/bin/env python3
"""Compares what the examples for a bare board and for a cyclic task print with their stories.

    tests/machines/examples.py board|hour|hangs|overflows|crashes|cyclic FILE    FILE is what the example printed; of the board also with a fault
                                                                           (board_faults.h), or of 36,000 cycles
"""
import re
import sys
from pathlib import Path

# The train pulls, and passes the limit by more than 5 km/h and then by more than 10, since it heeds nothing: service brake, emergency brake. Where it
# stands the emergency brake of the speed ends. After a loss of power the emergency brake holds until the driver has made the train ready. In the first
# cycle the release of his Start still holds the brake of the power-up, in the second one it doesn't.
CHANGE = r"(\d+) ms: brake (none|service|emergency), limit \d+ m/h, speed \d+ m/h"
FIRST = r"200 ms: brake none, limit \d+ m/h, speed 0 m/h"
ENDS = [r"no fault: (\d+) cycles in (\d+) lives, the longest took (\d+) us", r"memory: (\d+) of (\d+) bytes; stack: (\d+) bytes"]
# The cycles, the least lives, and how many of the brakes are commanded. An hour loses power 100 times, each time before the train is far too fast.
WHOLE = {"board": (3_000, 5, 3), "hour": (36_000, 101, 2)}
# The fault comes in the 50th cycle of a life.
FAULTS = {"hangs": [r"emergency brake: the watchdog wasn't fed"], "crashes": [r"emergency brake: an exception"],
          "overflows": [r"5000 ms: brake emergency, limit \d+ m/h, speed \d+ m/h", r"emergency brake: STACK, \d+ cycles in \d+ lives, the longest took \d+ us", ENDS[1]]}
# Event 0 is the power-up; 20 cycles have two events each, and the driver's entry is one more. The power-up is fed too.
CYCLIC = [r'the driver enters "an identity that is far too long": OUT_OF_RANGE, once more', r"20 cycles, event 41: brake 2; OK; fed 21 times",
          r"memory: (\d+) of (\d+) bytes"]
LATE_US, MOST_STACK = 50_000, 1 << 17


def is_board(lines, which):
    """Whether the train's changes of the brake are as they should be, and then the last lines."""
    ends = FAULTS.get(which, ENDS)
    changes, rest = lines[:-len(ends)], lines[-len(ends):]
    found = [re.fullmatch(one, line) for one, line in zip(ends, rest)]
    if not changes or not re.fullmatch(FIRST, changes[0]) or not all(re.fullmatch(CHANGE, line) for line in changes) or not all(found):
        return False
    if ends is not ENDS:
        return True
    (cycles, lives, longest), (used, size, stack) = (map(int, one.groups()) for one in found)
    wanted, least, most = WHOLE[which]
    brakes = {re.fullmatch(CHANGE, line)[2] for line in changes}
    return cycles == wanted and len(brakes) == most and lives >= least and 0 < longest < LATE_US and 0 < used < size and 0 < stack < MOST_STACK


def is_cyclic(lines):
    found = [re.fullmatch(one, line) for one, line in zip(CYCLIC, lines)]
    return len(lines) == len(CYCLIC) and all(found) and 0 < int(found[-1][1]) < int(found[-1][2])


def main(which, path):
    lines = [line for line in Path(path).read_text().splitlines() if not line.startswith("the memory can't be locked here")]
    is_right = is_cyclic(lines) if which == "cyclic" else is_board(lines, which)
    return 0 if is_right else 1


if __name__ == "__main__":
    sys.exit(main(*sys.argv[1:]))
