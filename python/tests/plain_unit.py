"""The plain kernel of tests/model with the calls of `gaknifur.unit.Unit`: it keeps no journal, and needs no library."""
import importlib
import sys
from pathlib import Path
from typing import Any

from gaknifur.unit import Action, Brake, Indication, Level, Output, TrainData
from gaknifur.units.protocol import MODES

sys.path.append(str(Path(__file__).resolve().parents[2] / "tests/model"))
CODES = {code: mode for mode, code in MODES.items()}
WITH_VALUE = ("choose-level-", "confirm-", "acknowledge-")


class PlainUnit:
    """A unit that has just powered up for the first time."""

    def __init__(self) -> None:
        life: Any = importlib.import_module("life")
        self.life, self.pending, self.events = life.Life(), list[Output](), 0

    def take(self, word: str, value: str = "") -> None:
        """One event."""
        self.life.take(word, value)
        output = self.life.now.output
        self.events += 1
        self.pending.append(Output(self.events, CODES[output.mode], Level.INVALID if output.level == "-" else Level(int(output.level)),
                                   Brake[output.brake.upper()], output.limit, Indication(output.indications)))

    def telegram(self, data: bytes) -> None:
        """A balise sent these bytes."""
        self.take("hear", data.hex())

    def odometer(self, movement_cm: int, speed_m_per_h: int) -> None:
        """A reading."""
        self.take("move", f"{movement_cm} {speed_m_per_h}")

    def clock(self, moment_ms: int) -> None:
        """A moment."""
        self.take("clock", str(moment_ms))

    def action(self, action: Action) -> None:
        """An action of the driver."""
        name = action.name.lower().replace("_", "-")
        word = next((one for one in WITH_VALUE if name.startswith(one)), "")
        self.take(word[:-1], name.removeprefix(word)) if word else self.take(name)

    def identity(self, text: str) -> None:
        """He enters an identity."""
        self.take("enter-identity", text)

    def running_number(self, number: int) -> None:
        """He enters a running number."""
        self.take("enter-running-number", str(number))

    def train_data(self, data: TrainData) -> None:
        """He enters train data."""
        self.take("enter-train-data", f"{data.length_cm} {data.maximum_m_per_h} {data.deceleration_cm_per_s2} {data.reaction_ms} "
                  f"{data.category}")

    def flush(self) -> list[Output]:
        """The outputs of what is pending."""
        outputs, self.pending = self.pending, []
        return outputs
