"""Run a power cycle (life) with `etcs run`, and read the lines that it prints (docs/reference/examination.md)."""
import re
from collections.abc import Sequence
from dataclasses import dataclass
from pathlib import Path
from typing import Any, NamedTuple

from . import program
from ._header import Indication
from .program import REFUSED, Failed

CARRIED_OUT = "carried out"
NUMBER = "(0|[1-9][0-9]*)"
LINE = re.compile(f"event {NUMBER} mode ([A-Z]+) level (-|{NUMBER}) brake ([a-z]+) limit {NUMBER} ind {NUMBER}")
BITS = {name.lower(): int(sign) for name, sign in Indication.__members__.items()}


class Released(NamedTuple):
    """An output that left the unit."""

    event: int
    mode: str
    level: int | None
    brake: str
    limit_m_per_h: int
    indications: int

    @property
    def text(self) -> str:
        """Its line."""
        level = "-" if self.level is None else self.level
        return f"event {self.event} mode {self.mode} level {level} brake {self.brake} limit {self.limit_m_per_h} ind {self.indications}"


def output_of(record: dict[str, Any]) -> Released:
    """The output of a record that `etcs_lab events` prints."""
    return Released(record["event"], record["mode"], record["level"], record["brake"], record["limit_m_per_h"],
                    sum(map(BITS.__getitem__, record["indications"])))


@dataclass(frozen=True)
class LifeRun:
    """A life that was run: the outputs that it released, and how it ended: `carried out`, or the line of a refusal or a stop."""

    released: list[Released]
    ended: str

    @property
    def is_refused(self) -> bool:
        """Whether the scenario was refused, so that nothing was added to the journal."""
        return self.ended.startswith("refused")


def read_lines(status: int, lines: Sequence[str]) -> LifeRun:
    """Reads the lines of a run that ended with this status. Raises Failed on a line that is neither an output nor the end of a run
    that wasn't carried out."""
    matches = [(line, LINE.fullmatch(line)) for line in lines]
    ended = f"status {status}" if status else CARRIED_OUT
    if status and matches and not lines[-1].startswith("event "):
        ended, _ = matches.pop()
    released = []
    for line, match in matches:
        if match is None:
            raise Failed(f"etcs run printed a line that isn't an output: {line}", REFUSED)
        event, mode, level, _, brake, limit, indications = match.groups()
        released.append(Released(int(event), mode, None if level == "-" else int(level), brake, int(limit), int(indications)))
    return LifeRun(released, ended)


def run_life(scenario: Path, image: Path) -> LifeRun:
    """Runs the life of a scenario in JSON on an image."""
    return read_lines(*program.etcs("run", "--", str(scenario), str(image)))
