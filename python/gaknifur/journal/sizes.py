"""What the size of a file says about the image in it: that it ends early, is longer than its journal, or how many slots it could have."""
import os
import stat
from pathlib import Path

from .. import layout
from ..program import naming


def of_file(path: Path) -> tuple[int, int | None] | None:
    """The size of a regular file and the number of slots by its first sector, if it has one; None for anything else, as a device."""
    with naming(path), open(os.open(path, os.O_RDONLY | os.O_NONBLOCK | os.O_CLOEXEC), "rb", buffering=0) as file:
        found = os.fstat(file.fileno())
        return (found.st_size, layout.slots_of(file.read(layout.SECTOR))) if stat.S_ISREG(found.st_mode) else None


def could_have(size: int) -> str:
    """The number of slots that a file of this size could have, with the option that reads it so; empty if it has no room for any."""
    slots = min((size - layout.SECTOR) // layout.SLOT, layout.MOST_SLOTS)
    return f"By its size it could have {slots:,} slots: --slots {slots} of check, report and why reads it so." if slots >= layout.LEAST_SLOTS else ""


def wrong(size: int, slots: int, is_given: bool = False) -> str:
    """Why a file of this size isn't an image of this number of slots; empty if it is."""
    expected, has = layout.slot_at(slots), f"and here are {size:,}."
    if size == expected:
        return ""
    hint = f" {could_have(size)}" if (size - layout.SECTOR) % layout.SLOT == 0 else ""
    if is_given:
        return f"hasn't the size of {slots:,} slots: they have {expected:,} bytes, {has}{hint}"
    how, what = ("ends early", "Copy it from the medium again.") if size < expected else \
        ("is longer than its journal", f"Copy its first {expected:,} bytes (head -c {expected}), and read the copy.")
    return f"{how}: by its first sector it has {slots:,} slots, so {expected:,} bytes, {has} {what}{hint}"
