"""Read whose an image is: a text file next to it, with a line each for `unit`, `vehicle` and `software`, such as
`unit: 17`. The unit's host writes it. It is outside the journal and outside the proof, and no power-up reads it.
"""
import os
from dataclasses import asdict, dataclass
from pathlib import Path
from typing import Self

from ..escaping import shown
from ..program import REFUSED, Failed, naming

ENDING = ".identity"
MOST = 4_096


@dataclass(frozen=True)
class Identity:
    """Whose an image is; None if the file doesn't say it."""

    unit: str | None = None
    vehicle: str | None = None
    software: str | None = None

    @classmethod
    def parsed(cls, text: str) -> Self:
        """The identity in a text. ValueError says what is wrong with it."""
        found: dict[str, str] = {}
        for number, line in enumerate(text.splitlines(), 1):
            name, colon, value = (part.strip() for part in line.partition(":"))
            if not line.strip():
                continue
            if not colon or not value or name not in cls.__dataclass_fields__ or name in found:
                raise ValueError(f"line {number} isn't unit, vehicle or software with a value, each once")
            found[name] = shown(value)
        return cls(**found)

    def text(self) -> str:
        """It as text."""
        return ", ".join(f"{name} {value}" for name, value in asdict(self).items() if value is not None) or "nothing is known"


def path_of(image: Path) -> Path:
    """The file next to an image."""
    return image.with_name(image.name + ENDING)


def of(image: Path) -> Identity | None:
    """Whose an image is; None if there is no file."""
    path = path_of(image)
    if not os.path.lexists(path):
        return None
    with naming(path):
        if path.is_symlink() or not path.is_file() or path.stat().st_size > MOST:
            raise Failed(f"{path}: isn't a regular file of at most {MOST} bytes", REFUSED)
        try:
            return Identity.parsed(path.read_text(encoding="utf-8"))
        except ValueError as error:
            raise Failed(f"{path}: {error}", REFUSED) from error
