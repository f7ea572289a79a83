"""A part of a journal: from one event, place or moment to another one, of one life or of all."""
import re
from dataclasses import dataclass
from typing import Any

import pandas as pd

from ..program import WRONG_WORDS, Failed
from .part import Part

FORM = re.compile(r"(-?[0-9]+(?:\.[0-9]+)?)(m|s)?")
UNITS = {"m": ("place_cm", 100), "s": ("time_ms", 1000), None: ("event", 1)}


@dataclass(frozen=True)
class Bound:
    """A bound of a part: a column and its value there."""

    column: str
    value: int
    text: str


def bound(text: str) -> Bound:
    """The bound in a text: `120` is an event, `300m` a place, `20.5s` a moment."""
    found = FORM.fullmatch(text)
    if not found or (found[2] is None and "." in found[1]):
        raise Failed(f"{text}: not an event (120), a place (300m) or a moment (20.5s)", WRONG_WORDS)
    column, unit = UNITS[found[2]]
    return Bound(column, round(float(found[1]) * unit), text)


@dataclass(frozen=True)
class Extent:
    """The records of a report."""

    first: Bound | None = None
    last: Bound | None = None
    life: int | None = None

    @property
    def is_all(self) -> bool:
        """Whether it is the whole journal."""
        return self.first is None and self.last is None and self.life is None

    @property
    def part(self) -> Part | None:
        """The part that can be read without the rest: events, or a life; None for places and moments, which each life has, and for all."""
        bounds = [one for one in (self.first, self.last) if one is not None]
        if self.is_all or any(one.column != "event" for one in bounds):
            return None
        return Part(self.first.value if self.first else None, self.last.value if self.last else None, self.life)

    def text(self) -> str:
        """The text on a page."""
        parts = [f"from {self.first.text}"] if self.first else []
        parts += [f"to {self.last.text}"] if self.last else []
        return " ".join(parts + ([f"of life {self.life}"] if self.life is not None else []))

    def take(self, table: pd.DataFrame) -> pd.DataFrame:
        """The records of the part; rows keep their numbers."""
        if self.is_all:
            return table
        kept: Any = pd.Series(True, index=table.index)
        if self.life is not None:
            kept &= table["life"] == self.life
        if self.first is not None:
            kept &= (table[self.first.column] >= self.first.value).fillna(False).astype(bool)
        if self.last is not None:
            kept &= (table[self.last.column] <= self.last.value).fillna(False).astype(bool)
        part: pd.DataFrame = table[kept]
        return part
