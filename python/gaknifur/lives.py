"""Replay the power cycles (lives) of a journal with the library of `gaknifur.unit`::

    for line in gaknifur.replay("image"):
        print(line.first_event, line.last_event, line.verdict.name)
    print(gaknifur.why("image", 8).causes)

`replay(path)` returns the lines that `etcs_lab replay` prints: which events agree with the kernel, which record or head
differs, and which events can't be replayed. `why(path, event)` returns which causes of a brake hold after an event and since
when, why the train was tripped, and what decides the limit. `lines`, `why_at` and `why_in` read bytes. Each life is replayed
from its power-up, so the time of `why` grows with the length of the life up to the event.
"""
import ctypes
from collections.abc import Iterator
from dataclasses import dataclass
from pathlib import Path

from . import _header, unit
from ._header import BrakeCause, Datum, KeptField, LimitCause, RecordField, TripCause, Verdict
from .unit import Brake, Kept, Record, Refused, Status

__all__ = ["BrakeCause", "Datum", "Difference", "Kept", "KeptField", "LimitCause", "Line", "RecordField", "TripCause",
           "Verdict", "Why", "lines", "replay", "why", "why_at", "why_in"]

@dataclass(frozen=True, slots=True)
class Difference:
    """A head of a block, or a record of an event, that differs."""

    block: int
    event: int | None
    field: RecordField | KeptField
    journal: Record | Kept
    kernel: Record | Kept


@dataclass(frozen=True, slots=True)
class Line:
    """A line of a replay: consecutive events of a life, and their verdict. A head that differs has no events."""

    life: int
    first_event: int | None
    last_event: int | None
    verdict: Verdict
    difference: Difference | None


@dataclass(frozen=True, slots=True)
class Why:
    """Why the kernel gives an event its answer. `causes` maps each cause of the brake that holds to the event since which it
    has held. `limit_cause` names what decides the limit, with its speed, its place and the number of a restriction."""

    event: int
    brake: Brake
    limit_m_per_h: int
    speed_m_per_h: int
    backward_cm: int
    allowed_backward_cm: int
    causes: dict[BrakeCause, int]
    trip_cause: TripCause
    trip_event: int | None
    limit_cause: LimitCause
    limit_cause_m_per_h: int
    limit_cause_cm: int | None
    restriction: int | None


def _line(info: _header.etcs_replay) -> Line:
    verdict, difference = Verdict(info.verdict), None
    first, last = info.first_event, info.last_event
    if verdict == Verdict.RECORD_DIFFERS:
        difference = Difference(info.block, info.event, RecordField(info.field), unit._record(info.journal), unit._record(info.kernel))
    if verdict == Verdict.HEAD_DIFFERS:
        difference = Difference(info.block, None, KeptField(info.field), unit._kept(info.journal_kept), unit._kept(info.kernel_kept))
        first, last = None, None
    return Line(info.life, first, last, verdict, difference)


def lines(image: bytes) -> Iterator[Line]:
    """Each line of a replay of the journal in an image, the oldest first. A block that can't be read is skipped: the events
    after it have the verdict AFTER_GAP, up to the next power-up."""
    cursor, line = _header.etcs_journal(), _header.etcs_replay()
    unit._check(unit._called("etcs_journal_open_", image, len(image), unit.ABI, ctypes.byref(cursor)))
    while (status := unit._called("etcs_image_replay_", image, len(image), unit.ABI, ctypes.byref(cursor), ctypes.byref(line))) != Status.END:
        if status == Status.OK:
            yield _line(line)
        elif status != Status.IMAGE_DAMAGED:
            raise Refused(status)


def replay(path: str | Path) -> list[Line]:
    """Each line of a replay of a file's journal, the oldest first; the file is read as a whole, and no lock is taken."""
    return list(lines(Path(path).read_bytes()))


def why_at(image: bytes, block: int, event: int) -> Why:
    """Why an event of a block has its answer; its `Record` has both numbers. NOT_REPLAYED if its life can't be replayed,
    NO_SUCH_BLOCK and NO_SUCH_RECORD if the image doesn't contain it."""
    info = _header.etcs_why()
    unit._check(unit._called("etcs_image_why_", image, len(image), unit.ABI, unit._number(block, 64), unit._number(event, 64),
                            ctypes.byref(info)))
    return Why(
        info.event, Brake(info.brake), info.limit_m_per_h, info.speed_m_per_h, info.backward_cm, info.allowed_backward_cm,
        {cause: info.since[cause] for cause in BrakeCause if info.holds[cause]}, TripCause(info.trip_cause),
        info.trip_event if info.trip_cause else None, LimitCause(info.limit_cause), info.limit_cause_m_per_h,
        info.limit_cause_cm if info.has_place else None, info.restriction if info.has_restriction else None)


def why_in(image: bytes, event: int) -> Why:
    """Why an event of the journal has its answer. NO_SUCH_RECORD if the journal doesn't contain it."""
    for record in unit.records(image):
        if record.event == event:
            return why_at(image, record.block, event)
    raise Refused(Status.NO_SUCH_RECORD)


def why(path: str | Path, event: int) -> Why:
    """Why an event of a file's journal has its answer; the file is read as a whole, and no lock is taken."""
    return why_in(Path(path).read_bytes(), event)
