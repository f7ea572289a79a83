"""The layout of an image (docs/reference/format.md): sizes, gates and block numbers. `etcs_lab` decodes the content of blocks."""
SECTOR, SLOT_SECTORS = 512, 6
SLOT = SECTOR * SLOT_SECTORS
MARK, GATE_MARK = b"ETCSJRU1", b"ETCSGATE"
HEAD_MARKS = b"ETCSHEAD", b"ETCSHED2", b"ETCSHED3"
"""The marks of heads in formats 1 to 3."""
VERSION, LEAST_SLOTS, MOST_SLOTS = 2, 2, 1_048_576


def first_sector(slots: int) -> bytes:
    """The first sector of an image with this number of slots."""
    return (MARK + VERSION.to_bytes(4, "big") + slots.to_bytes(4, "big")).ljust(SECTOR, b"\0")


def slots_of(first: bytes) -> int | None:
    """The number of slots in a first sector; None if it isn't one."""
    slots = int.from_bytes(first[12:16], "big")
    is_one = len(first) >= SECTOR and first.startswith(MARK) and int.from_bytes(first[8:12], "big") in (1, VERSION) and not any(first[16:SECTOR])
    return slots if is_one and LEAST_SLOTS <= slots <= MOST_SLOTS else None


def slot_at(slot: int) -> int:
    """The byte at which a slot begins."""
    return SECTOR + SLOT * slot


def gate(number: int) -> bytes:
    """The open gate of a block."""
    return (GATE_MARK + number.to_bytes(8, "big")).ljust(SECTOR, b"\0")
