#!/usr/bin/env python3
"""The unit in Python: the train of brake.c, over a file. It prints the same.

    PYTHONPATH=python GAKNIFUR_ETCS_UNIT=PREFIX/lib/libetcs_unit.so examples/embedding/use.py IMAGE
"""
import sys
from dataclasses import replace
from pathlib import Path

from gaknifur.unit import CATEGORY_NONE, Action, Brake, FileMedium, Mode, Output, TrainData, Unit, journal

AUTHORITY = bytes.fromhex("90007F802001432024A8007FE007D002B00D900010000DC03A400020801FE0")
CYCLE_MS, MOST_CYCLES, SLOTS = 500, 1_000, 64
GAINED = {Brake.NONE: 900, Brake.SERVICE: -1_260, Brake.EMERGENCY: -1_800}
LETTERS = {Mode.FULL_SUPERVISION: "FS", Mode.ON_SIGHT: "OS", Mode.STAFF_RESPONSIBLE: "SR", Mode.SHUNTING: "SH", Mode.UNFITTED: "UN",
           Mode.STAND_BY: "SB", Mode.TRIP: "TR", Mode.POST_TRIP: "PT", Mode.SYSTEM_FAILURE: "SF"}


class Train:
    """The train of brake.c."""

    def __init__(self) -> None:
        self.moment_ms = self.speed = 0
        self.rest = 0  # of a movement, in 1/36,000 cm: it is carried over to the next one
        self.brake, self.mode = Brake.EMERGENCY, Mode.STAND_BY
        self.last_event = -1

    def go_on(self) -> int:
        """How far it goes in a cycle, in whole centimetres."""
        self.speed = min(max(self.speed + GAINED[self.brake], 0), 100_000)
        self.moment_ms += CYCLE_MS
        moved, self.rest = divmod(self.speed * CYCLE_MS + self.rest, 36_000)
        return moved

    def obey(self, output: Output) -> None:
        """Does what is commanded, and says about it."""
        if (output.brake, output.mode) != (self.brake, self.mode):
            print(f"event {output.event}: mode {LETTERS[output.mode]}, brake {output.brake.name.lower()}, limit {output.limit_m_per_h} m/h, "
                  f"speed {self.speed} m/h")
        self.brake, self.mode, self.last_event = output.brake, output.mode, output.event


def command_of(outputs: list[Output]) -> Output:
    """What is obeyed until the next release: the newest output, with the most restrictive brake of all."""
    return replace(outputs[-1], brake=max(output.brake for output in outputs))


def make_ready(unit: Unit) -> None:
    """The driver makes the train ready, and a group gives an authority of 1,000 m."""
    unit.telegram(AUTHORITY)
    unit.identity("IC 704")
    unit.action(Action.CHOOSE_LEVEL_1)
    # (the reaction time is 0 only here: no real brakes act at once)
    unit.train_data(TrainData(20_000, 160_000, 70, reaction_ms=0, category=CATEGORY_NONE))
    unit.action(Action.START)


def run(path: Path) -> None:
    train = Train()
    with FileMedium(path) if path.exists() else FileMedium.formatted(path, SLOTS) as medium, Unit(medium) as unit:
        make_ready(unit)
        for cycle in range(MOST_CYCLES):
            train.obey(command_of(unit.flush()))
            moved = train.go_on()
            if train.speed == 0 and cycle > 0:
                break
            unit.odometer(moved, train.speed)
            unit.clock(train.moment_ms)
    *_, last = journal(path)
    if last.event != train.last_event:
        raise ValueError(f"the journal ends at event {last.event}")
    print(f"the train stands after {train.moment_ms} ms")


def main(words: list[str]) -> int:
    if len(words) != 1:
        return 2
    try:
        run(Path(words[0]))
    except Exception as error:
        print(f"emergency brake: {error}")
        return 1
    return 0


if __name__ == "__main__":
    sys.exit(main(sys.argv[1:]))
