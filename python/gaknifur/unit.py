"""Run the onboard unit from Python, with the shared library that `tools/library PREFIX` installs::

    with FileMedium("image") as medium, Unit(medium) as unit:
        unit.odometer(500, 20_000)
        for output in unit.flush():
            obey(output)

`$GAKNIFUR_ETCS_UNIT` names the library. If it is not set, the library that is installed with this package is used, or else
the system's loader looks for `libetcs_unit.so.N`, where N is the number of the interface (`ABI`). A unit opens no file: its
journal is on a `Medium`, which is a file (`FileMedium`), sectors in memory (`MemoryMedium`) or a class of your own. A `Unit`
holds 16 sectors, whatever the medium's size, and reads the sectors that it needs.

`journal(path)` iterates over the records of a file; `records`, `facts` and `slots` read bytes. The module `lives` replays
the power cycles (lives) of a journal.

Any exception of a unit means the emergency brake. `Refused` has the number and the name of the status that a call returned;
exceptions of a medium are passed on. Only `Unit.flush` returns outputs, and only after all of them are on the medium.
"""
import ctypes
import errno
import functools
import os
from collections.abc import Callable, Iterator
from contextlib import contextmanager
from dataclasses import dataclass
from pathlib import Path
from typing import Protocol, Self

from . import _header
from ._header import (ABI, BUILD_INFO_BYTES, CATEGORY_NONE, OUTPUTS, REQUEST_BYTES, SECTOR, TELEGRAM_BYTES, VERSION_BYTES, Acknowledgement, Action,
                      Brake, BrakeCause, Cold, Datum, Direction, Fault, GroupOutcome, Indication, Kind, Level, LimitCause, Mode, Proof, Reaction,
                      Refusal, RequestKind, SlotState, Status, TelegramOutcome, UnusedReason)
from .files import lock
from .program import TOP

__all__ = ["ABI", "CATEGORY_NONE", "OUTPUTS", "REQUEST_BYTES", "SECTOR", "VERSION_BYTES", "Acknowledgement", "Action", "Brake",
           "BrakeCause", "ClosedGroup", "Cold", "Datum", "Facts", "Fault", "FileMedium", "GroupOutcome", "Indication", "Kept", "Kind",
           "Level", "LimitCause", "Medium", "MemoryMedium", "Mode", "Output", "OverrideLeft", "Preview", "Proof", "Reaction", "Record",
           "Refusal", "Refused", "Slot", "SlotState", "State", "Status", "Target", "TelegramOutcome", "TrainData", "Unit", "UnitDriver",
           "UnitRefusals", "UnitWhy", "Waiting", "Writable", "build_info",
           "build_proof", "decode", "facts", "first_request", "format_medium", "journal", "library", "records", "slots",
           "version"]

@dataclass(frozen=True, slots=True)
class Output:
    """An output that may reach the train; the limit is in metres per hour."""

    event: int
    mode: Mode
    level: Level
    brake: Brake
    limit_m_per_h: int
    indications: Indication


@dataclass(frozen=True, slots=True)
class TrainData:
    """Train data (SUBSET-026, 3.18.3): 1 to 409,500 cm, 1 to 600,000 m/h, 1 to 300 cm/s^2, 0 to 10,000 ms, 0 to 15. A reaction time
    of 0 is the least safe. Category 0 is a category; a train of none has CATEGORY_NONE, 15."""

    length_cm: int
    maximum_m_per_h: int
    deceleration_cm_per_s2: int
    reaction_ms: int
    category: int


@dataclass(frozen=True, slots=True)
class State:
    """The state of a unit. `last` is the last output that was released; before the first one it is the default, which brakes.
    The place of the train's front counts from where the life began."""

    last: Output
    requests: int
    done: int
    held: int
    has_failed: bool
    pending: int
    moment_ms: int
    front_cm: int
    uncertainty_cm: int


@dataclass(frozen=True, slots=True)
class Target:
    """The target that decides the limit: its speed, and its distance from the maximum safe front."""

    speed_m_per_h: int
    distance_cm: int


@dataclass(frozen=True, slots=True)
class Waiting:
    """Whether an acknowledgement of the driver is expected, and the time left until the service brake is commanded; 0 if
    it is commanded already."""

    state: Acknowledgement
    left_ms: int


@dataclass(frozen=True, slots=True)
class OverrideLeft:
    """The time and the distance left of an override of the trip; the first that is used up ends it. The time is None if it has no end."""

    time_ms: int | None
    distance_cm: int


@dataclass(frozen=True, slots=True)
class UnitWhy:
    """Why the newest released output is what it is, and what a display shows. The limit of the output is the permitted speed;
    above the other two speeds the service brake and the emergency brake are commanded. `limit_cause` names what decides the
    limit, with its speed, its place and the number of a restriction. `target` is set if it is ahead, `release_m_per_h` if it
    is a release speed."""

    output: Output
    causes: tuple[BrakeCause, ...]
    service_brake_m_per_h: int
    emergency_brake_m_per_h: int
    speed_m_per_h: int
    backward_cm: int
    allowed_backward_cm: int
    limit_cause: LimitCause
    limit_cause_m_per_h: int
    limit_cause_cm: int | None
    restriction: int | None
    target: Target | None
    release_m_per_h: int | None
    on_sight: Waiting
    shunting: Waiting
    level_0: Waiting
    override: OverrideLeft | None = None


@dataclass(frozen=True, slots=True)
class Kept:
    """What a power-up keeps. The position is a country, a group, and the distance of the front beyond the
    group in cm; the national values are in the order of etcs_national, None for one without an end."""

    trip_outstanding: bool
    identity: bytes | None
    running_number: int | None
    train: TrainData | None
    level: tuple[Datum, Level | None]
    position: tuple[Datum, tuple[int, int, int] | None]
    national: tuple[int | None, ...]
    countries: tuple[int, ...]


@dataclass(frozen=True, slots=True)
class UnitDriver:
    """What the driver entered, with its statuses, which actions of the driver the unit would accept as its next input, and what of
    the revalidation is done: identity, level and train data given, and Stand By left."""

    kept: Kept
    speed_m_per_h: int
    mode: Mode
    accepts: frozenset[Action]
    accepts_identity: bool
    accepts_running_number: bool
    accepts_train_data: bool
    is_revalidated: bool
    identity: Datum
    running_number: Datum
    train_data: Datum
    gave_identity: bool
    gave_level: bool
    gave_train: bool
    has_left: bool


@dataclass(frozen=True, slots=True)
class UnitRefusals:
    """Why each action of the driver wouldn't be accepted as the next input; NONE if it would. An entry has one reason, whatever its
    value."""

    actions: dict[Action, Refusal]
    identity: Refusal
    running_number: Refusal
    train_data: Refusal


@dataclass(frozen=True, slots=True)
class ClosedGroup:
    """A balise group that an input closes. `announcement` is the number of the announcement that is meant, in the list of its packet
    5."""

    country: int
    group: int
    outcome: GroupOutcome
    direction: Direction
    announcement: int | None
    reaction: Reaction


@dataclass(frozen=True, slots=True)
class Preview:
    """What an input would do as the next one: the groups that it closes, what becomes of a telegram, and why bytes carry none."""

    groups: tuple[ClosedGroup, ...]
    telegram: TelegramOutcome | None
    fault: Fault | None


@dataclass(frozen=True, slots=True)
class Record:
    """A record of a journal, with what its block adds. Place, uncertainty and limit are None in format 1. The
    payload holds the data of the event (docs/reference/format.md)."""

    event: int
    block: int
    life: int
    format: int
    kind: Kind
    moment_ms: int
    mode: Mode
    level: Level
    brake: Brake
    indications: Indication
    front_cm: int | None
    uncertainty_cm: int | None
    limit_m_per_h: int | None
    payload: bytes


@dataclass(frozen=True, slots=True)
class Facts:
    """The size of an image: its whole sectors, the slots that its header gives, the slots that are whole, and the newest block."""

    sectors: int
    slots: int
    whole: int
    newest: int


@dataclass(frozen=True, slots=True)
class Slot:
    """What a slot holds. `fault` is the place of an invalid field: its record, from 1 on, and its offset after the gate."""

    state: SlotState
    number: int | None
    is_sound: bool
    fault: tuple[int, int] | None


class Refused(Exception):
    """A call returned another status than OK: its `number`, and its `name` as in docs/reference/refusals.md."""

    def __init__(self, number: int) -> None:
        self.number = number
        self.name = Status(number).name if number in Status.__members__.values() else "unknown"
        super().__init__(f"{number} {self.name}")


class Writable(Protocol):
    """What a journal is written to. A call that fails raises; the unit then treats its medium as failed."""

    def write(self, sector: int, data: bytes) -> None:
        """Writes whole sectors from this one on."""

    def sync(self) -> None:
        """Returns when everything that was written survives a loss of power."""


class Medium(Writable, Protocol):
    """The medium of a unit."""

    def sectors(self) -> int:
        """The number of whole sectors. It is called before each power-up; from then on a read returns what the medium holds."""

    def read_sector(self, sector: int) -> bytes:
        """The bytes of one sector, from 0 on."""


class MemoryMedium:
    """Sectors in memory, which a loss of power erases."""

    def __init__(self, data: bytes = b"") -> None:
        self.data = bytearray(data)

    def read(self) -> bytes:
        """All of its bytes."""
        return bytes(self.data)

    def sectors(self) -> int:
        """The number of whole sectors."""
        return len(self.data) // SECTOR

    def read_sector(self, sector: int) -> bytes:
        """The bytes of one sector, from 0 on."""
        return bytes(self.data[SECTOR * sector:SECTOR * (sector + 1)])

    def write(self, sector: int, data: bytes) -> None:
        """Writes whole sectors from this one on."""
        self.data[SECTOR * sector:SECTOR * sector + len(data)] = data

    def sync(self) -> None:
        """Does nothing: memory has nothing to wait for."""

    @classmethod
    def formatted(cls, slots: int) -> Self:
        """An empty journal of 2 to 1,048,576 slots."""
        first_request(slots)
        medium = cls(bytes(SECTOR * (1 + 6 * slots)))
        format_medium(medium, slots)
        return medium


def _sync_if_writable(descriptor: int) -> None:
    """Syncs a descriptor. A device that takes no writes doesn't support it, and has nothing to sync."""
    try:
        os.fsync(descriptor)
    except OSError as error:
        if error.errno not in (errno.EINVAL, errno.EROFS):
            raise


def _sync_folder(path: str | Path) -> None:
    """Syncs the folder that holds the file, so that its name survives a loss of power."""
    folder = os.open(Path(path).resolve().parent, os.O_RDONLY | os.O_CLOEXEC)
    try:
        _sync_if_writable(folder)
    finally:
        os.close(folder)


class FileMedium:
    """A file, or a block device, under the exclusive lock that `etcs run` takes (flock). Raises BlockingIOError if another
    program, or another handle of this one, holds the lock."""

    def __init__(self, path: str | Path, *, create: bool = False) -> None:
        self.descriptor = os.open(path, os.O_RDWR | os.O_CLOEXEC | (os.O_CREAT if create else 0), 0o666)
        try:
            lock(self.descriptor)
        except OSError:
            self.close()
            raise

    def __enter__(self) -> Self:
        return self

    def __exit__(self, *_: object) -> None:
        self.close()

    def close(self) -> None:
        """Releases the lock."""
        if self.descriptor >= 0:
            os.close(self.descriptor)
        self.descriptor = -1

    def sectors(self) -> int:
        """The number of whole sectors. The file is settled: what is read from then on is what the medium holds."""
        self._settle()
        return self._size() // SECTOR

    def read_sector(self, sector: int) -> bytes:
        """The bytes of one sector, from 0 on."""
        return self._read(SECTOR, SECTOR * sector)

    def write(self, sector: int, data: bytes) -> None:
        """Writes whole sectors from this one on."""
        done = 0
        while done < len(data):
            done += os.pwrite(self.descriptor, data[done:], SECTOR * sector + done)

    def sync(self) -> None:
        """Returns when the system reports that everything is on the medium."""
        os.fsync(self.descriptor)

    def _size(self) -> int:
        return os.lseek(self.descriptor, 0, os.SEEK_END)

    def _read(self, count: int, place: int) -> bytes:
        """`count` bytes from a place on."""
        data = bytearray()
        while len(data) < count:
            part = os.pread(self.descriptor, count - len(data), place + len(data))
            if not part:
                raise OSError("the file ends before its length")
            data += part
        return bytes(data)

    def _fill(self, sectors: int) -> None:
        """Writes so many sectors of zeros: a length that is only set leaves holes, for which a flush may find no place on the disk."""
        try:
            for first in range(0, sectors, 64):
                self.write(first, bytes(SECTOR * min(64, sectors - first)))
        except OSError:
            os.ftruncate(self.descriptor, 0)
            raise

    def _settle(self) -> None:
        """Syncs, and drops the system's copies of the pages: after a failed sync they may differ from the medium."""
        _sync_if_writable(self.descriptor)
        os.posix_fadvise(self.descriptor, 0, 0, os.POSIX_FADV_DONTNEED)

    @classmethod
    def formatted(cls, path: str | Path, slots: int, *, wipe: bool = False) -> Self:
        """Makes an empty journal of 2 to 1,048,576 slots of a file that is new, or empty, or whose first sector has only zeros. Any
        other file stays as it is (FileExistsError), unless `wipe` is true: then all in it is lost."""
        first_request(slots)
        medium = cls(path, create=True)
        try:
            if not wipe and any(os.pread(medium.descriptor, SECTOR, 0)):
                raise FileExistsError(errno.EEXIST, "it has content, and stays as it is", str(path))
            os.ftruncate(medium.descriptor, 0)
            medium._fill(1 + 6 * slots)
            format_medium(medium, slots)
            _sync_folder(path)
        except BaseException:
            medium.close()
            raise
        return medium


# ---- the library

@functools.cache
def library() -> ctypes.CDLL:
    """The library, with the types of its calls. OTHER_ABI if its interface is another one than that of this module."""
    installed = TOP / f"libetcs_unit.so.{ABI}"
    found = ctypes.CDLL(os.environ.get("GAKNIFUR_ETCS_UNIT") or str(installed if installed.exists() else installed.name))
    for name, types in _header.CALLS.items():
        call = getattr(found, name)
        call.restype, call.argtypes = ctypes.c_uint32, types
    if found.etcs_abi() != ABI:
        raise Refused(Status.OTHER_ABI)
    return found


def _called(name: str, *arguments: object) -> int:
    call: Callable[..., int] = getattr(library(), name)
    return call(*arguments)


def _check(status: int) -> None:
    if status != Status.OK:
        raise Refused(status)


def _number(number: int, bits: int, *, signed: bool = False) -> int:
    """A number that fits into the C type; ctypes would truncate others. Raises OUT_OF_RANGE for them, as the unit does."""
    low, high = (-(1 << bits - 1), (1 << bits - 1) - 1) if signed else (0, (1 << bits) - 1)
    if not low <= number <= high:
        raise Refused(Status.OUT_OF_RANGE)
    return number


def _output(info: _header.etcs_unit_output) -> Output:
    return Output(info.event, Mode(info.mode), Level(info.level), Brake(info.brake), info.limit_m_per_h,
                  Indication(info.indications))


def _unit_why(info: _header.etcs_unit_why_info) -> UnitWhy:
    def waiting(name: str) -> Waiting:
        return Waiting(Acknowledgement(getattr(info, name)), getattr(info, f"{name}_ms"))
    return UnitWhy(
        _output(info.output), tuple(cause for cause in BrakeCause if info.holds[cause]), info.service_brake_m_per_h,
        info.emergency_brake_m_per_h, info.speed_m_per_h, info.backward_cm, info.allowed_backward_cm,
        LimitCause(info.limit_cause), info.limit_cause_m_per_h, info.limit_cause_cm if info.has_place else None,
        info.restriction if info.has_restriction else None,
        Target(info.target_m_per_h, info.target_distance_cm) if info.has_target else None,
        info.release_m_per_h if info.has_release else None, waiting("on_sight"), waiting("shunting"), waiting("level_0"),
        OverrideLeft(info.override_ms if info.override_ends else None, info.override_cm) if info.has_override else None)


def _level(status: int, level: int) -> tuple[Datum, Level | None]:
    return Datum(status), Level(level) if status else None


def _kept(kept: _header.etcs_kept) -> Kept:
    values = kept.national
    numbers = [int(getattr(values, name)) for name, *_ in values._fields_[:11]]
    position = (kept.country, kept.group, kept.distance_cm) if kept.position_status else None
    return Kept(
        kept.trip_outstanding != 0, bytes(kept.identity[:kept.identity_len]) or None,
        kept.running_number if kept.has_running_number else None,
        TrainData(*(getattr(kept.train, name) for name, *_ in kept.train._fields_)) if kept.has_train else None,
        _level(kept.level_status, kept.level), (Datum(kept.position_status), position),
        tuple(None if at > 8 and number == _header.ENDLESS else number for at, number in enumerate(numbers)),
        tuple(values.countries[:values.count]))


def _unit_driver(info: _header.etcs_unit_driver_info) -> UnitDriver:
    return UnitDriver(_kept(info.kept), info.speed_m_per_h, Mode(info.mode), frozenset(one for one in Action if info.accepts[one]),
                      info.accepts_identity != 0, info.accepts_running_number != 0, info.accepts_train_data != 0,
                      info.is_revalidated != 0, Datum(info.identity_status), Datum(info.running_number_status), Datum(info.train_status),
                      info.gave_identity != 0, info.gave_level != 0, info.gave_train != 0, info.has_left != 0)


def _unit_refusals(info: _header.etcs_unit_refusals_info) -> UnitRefusals:
    return UnitRefusals({action: Refusal(info.actions[action]) for action in Action}, Refusal(info.identity),
                        Refusal(info.running_number), Refusal(info.train_data))


def _preview(info: _header.etcs_unit_preview_info) -> Preview:
    groups = (ClosedGroup(one.country, one.group, GroupOutcome(one.outcome), Direction(one.direction),
                          one.announcement if one.has_announcement else None, Reaction(one.reaction)) for one in info.groups[:info.count])
    return Preview(tuple(groups), TelegramOutcome(info.telegram) if info.telegram else None, Fault(info.fault) if info.fault else None)


def _carry_out(medium: Writable, request: _header.etcs_unit_request_info, buffer: ctypes.Array[ctypes.c_char]) -> None:
    if request.kind == RequestKind.WRITE:
        medium.write(request.sector, buffer.raw[:SECTOR * request.sectors])
    else:
        medium.sync()


def _format_request(slots: int, index: int, request: _header.etcs_unit_request_info, buffer: ctypes.Array[ctypes.c_char]) -> int:
    return _called("etcs_unit_format_request_", _number(slots, 32), index, ctypes.byref(request), buffer, SECTOR)


def first_request(slots: int) -> None:
    """Raises BAD_SLOTS if a journal can't have this number of slots."""
    _check(_format_request(slots, 0, _header.etcs_unit_request_info(), ctypes.create_string_buffer(SECTOR)))


def _has_journal(first: bytes) -> bool:
    """Whether a sector is the first one of a journal."""
    try:
        facts(first)
    except Refused as refused:
        if refused.number != Status.IMAGE_NOT_FORMATTED:
            raise
        return False
    return True


def format_medium(medium: Medium, slots: int, *, wipe: bool = False) -> None:
    """Formats a medium of 1 + 6 * slots sectors as an empty journal. A medium whose first sector is that of a journal stays as it is
    (FileExistsError), unless `wipe` is true: then all events in it are lost."""
    if not wipe and _has_journal(medium.read_sector(0)):
        raise FileExistsError(errno.EEXIST, "the medium has a journal, and stays as it is")
    request, buffer, index = _header.etcs_unit_request_info(), ctypes.create_string_buffer(SECTOR), 0
    while (status := _format_request(slots, index, request, buffer)) == Status.OK:
        _carry_out(medium, request, buffer)
        index += 1
    if status != Status.NO_SUCH_REQUEST:
        raise Refused(status)


def _text(call: str, most: int) -> str:
    buffer, count = ctypes.create_string_buffer(most), ctypes.c_uint32()
    _check(_called(call, buffer, most, ctypes.byref(count)))
    return buffer.raw[:count.value].decode()


def version() -> str:
    """The version of the library."""
    return _text("etcs_version_", VERSION_BYTES)


def build_info() -> str:
    """Which build the library is: version, commit, digest of the sources, and whether it is proved."""
    return _text("etcs_build_info_", BUILD_INFO_BYTES)


def build_proof() -> Proof:
    """Whether the library was proved, as whoever built it knew."""
    return Proof(_called("etcs_build_proof"))


def decode(digits: str) -> tuple[int, int]:
    """The fault of a telegram, 0 if it has none, and the number of its packets."""
    data = bytes.fromhex(digits)
    return _called("etcs_decode", data, len(data)), _called("etcs_packet_count", data, len(data))


# ---- what a unit doesn't use of a telegram

@dataclass(frozen=True)
class UnusedPacket:
    """A packet of a telegram that a unit doesn't use."""

    number: int
    start: int
    """The place of its first bit in the telegram, from 0."""
    bits: int
    """Its L_PACKET."""
    why: UnusedReason


def unused(telegram: bytes, mode: Mode, direction: Direction = Direction.NOT_KNOWN) -> Iterator[UnusedPacket]:
    """The packets of a telegram that a unit doesn't use in a mode, in their order, if its group is accepted and passed in
    this direction."""
    packet, index = _header.etcs_packet_unused(), 0
    while (status := _called("etcs_telegram_unused_", telegram, len(telegram), mode, direction, index, ctypes.byref(packet))) == Status.OK:
        yield UnusedPacket(packet.number, packet.start, packet.bits, UnusedReason(packet.why))
        index += 1
    if status != Status.END:
        raise Refused(status)


# ---- reading

def _record(record: _header.etcs_record) -> Record:
    place = bool(record.has_place)
    return Record(record.event, record.block, record.life, record.format, Kind(record.kind), record.moment_ms, Mode(record.mode), Level(record.level),
                  Brake(record.brake), Indication(record.indications), record.front_cm if place else None,
                  record.uncertainty_cm if place else None, record.limit_m_per_h if place else None,
                  bytes(record.payload[:record.payload_len]))


def records(image: bytes) -> Iterator[Record]:
    """The records of the journal in an image, the oldest first. Raises IMAGE_DAMAGED at a record that can't be read, after
    the records before it."""
    cursor, record = _header.etcs_journal(), _header.etcs_record()
    _check(_called("etcs_journal_open_", image, len(image), ABI, ctypes.byref(cursor)))
    while (status := _called("etcs_journal_next_", image, len(image), ctypes.byref(cursor), ctypes.byref(record))) == Status.OK:
        yield _record(record)
    if status != Status.END:
        raise Refused(status)


def journal(path: str | Path) -> Iterator[Record]:
    """The records of a file's journal, the oldest first; the file is read as a whole, and no lock is taken."""
    return records(Path(path).read_bytes())


def facts(image: bytes) -> Facts:
    """The size of an image."""
    image_facts = _header.etcs_image()
    _check(_called("etcs_image_facts_", image, len(image), ABI, ctypes.byref(image_facts)))
    return Facts(image_facts.sectors, image_facts.slots, image_facts.whole, image_facts.newest)


def slots(image: bytes) -> Iterator[Slot]:
    """What each whole slot of an image holds, in their order."""
    image_facts, read = facts(image), _header.etcs_slot()
    for slot in range(image_facts.whole):
        _check(_called("etcs_image_slot_", image, len(image), ABI, image_facts.newest, slot, ctypes.byref(read)))
        yield Slot(SlotState(read.state), read.number or None, read.is_sound != 0,
                   (read.fault_record, read.fault_at) if read.has_fault else None)


class Unit:
    """A unit. It holds 16 sectors, whatever the size of its medium, and reads the sectors that it needs: in a power-up the gate and
    the head of each slot, in a flush one gate. It is open inside a `with` block, and takes one call at a time, from one thread."""

    def __init__(self, medium: Medium, cold: Cold = Cold.UNKNOWN) -> None:
        self._handle = _header.etcs_unit()
        self.medium, self.cold = medium, cold

    def _status(self, name: str, *arguments: object) -> int:
        return _called(f"etcs_unit_{name}_", ctypes.byref(self._handle), *arguments)

    def _call(self, name: str, *arguments: object) -> None:
        _check(self._status(name, *arguments))

    def __enter__(self) -> Self:
        self.open()
        return self

    def __exit__(self, *_: object) -> None:
        self.close()

    def open(self) -> None:
        """Powers up on what the medium holds, and carries out the requests of the power-up."""
        self._call("begin", _number(self.medium.sectors(), 64), self.cold, ABI)
        try:
            self._release()
        except BaseException:
            self.close()
            raise

    def close(self) -> None:
        """Closes the unit, if it is open. Pending events are lost."""
        self._status("close")

    # ---- inputs

    def telegram(self, data: bytes) -> None:
        """The user bits of a telegram as bytes, 1 to 104, as the reader of balises decodes them; they need not be a valid telegram."""
        self._call("telegram", data, len(data))

    def odometer(self, movement_cm: int, speed_m_per_h: int) -> None:
        """The movement since the last reading, -10,000 to 10,000 cm, and the current speed, 0 only at standstill."""
        self._call("odometer", _number(movement_cm, 64, signed=True), _number(speed_m_per_h, 32))

    def clock(self, moment_ms: int) -> None:
        """A moment of this life, below 2^40. Moments never decrease."""
        self._call("clock", _number(moment_ms, 64))

    def action(self, action: Action) -> None:
        """An action of the driver."""
        self._call("action", _number(action, 32))

    def identity(self, text: str) -> None:
        """The driver enters an identity of 1 to 16 printable characters."""
        data = text.encode()
        self._call("identity", data, len(data))

    def running_number(self, number: int) -> None:
        """The driver enters a running number, 0 to 99,999,999."""
        self._call("running_number", _number(number, 32))

    def train_data(self, data: TrainData) -> None:
        """The driver enters train data."""
        numbers = (data.length_cm, data.maximum_m_per_h, data.deceleration_cm_per_s2, data.reaction_ms, data.category)
        self._call("train_data", ctypes.byref(_header.etcs_train_data(*(_number(number, 32) for number in numbers))))

    # ---- outputs

    def flush(self) -> list[Output]:
        """Writes pending events to the medium, and returns the outputs that may reach the train, the oldest first. If the
        medium raises, the unit has failed and releases nothing any more."""
        self._call("prepare")
        return self._release()

    def _release(self) -> list[Output]:
        self._carry_out()
        outputs, count = (_header.etcs_unit_output * OUTPUTS)(), ctypes.c_uint32()
        self._call("release", outputs, OUTPUTS, ctypes.byref(count))
        return [_output(outputs[place]) for place in range(count.value)]

    @contextmanager
    def _fails_with_its_medium(self) -> Iterator[None]:
        try:
            yield
        except BaseException:
            self._status("fail")
            raise

    def _carry_out(self) -> None:
        request, buffer = _header.etcs_unit_request_info(), ctypes.create_string_buffer(REQUEST_BYTES)
        while (status := self._status("request", ctypes.byref(request), buffer, REQUEST_BYTES)) == Status.OK:
            with self._fails_with_its_medium():
                self._serve(request, buffer)
        if status != Status.NO_SUCH_REQUEST:
            raise Refused(status)

    def provide(self, sector: int, data: bytes) -> None:
        """Provides the 512 bytes of a sector, exactly as the medium holds them, before the unit asks for it."""
        self._call("provide", _number(sector, 64), data, len(data))

    def _serve(self, request: _header.etcs_unit_request_info, buffer: ctypes.Array[ctypes.c_char]) -> None:
        """Carries out a request."""
        if request.kind == RequestKind.READ:
            self.provide(request.sector, self.medium.read_sector(request.sector))
        else:
            _carry_out(self.medium, request, buffer)
            self._call("done")

    def state(self) -> State:
        """The state of the unit."""
        info = _header.etcs_unit_state_info()
        self._call("state", ctypes.byref(info))
        return State(_output(info.last), info.requests, info.done, info.held, info.has_failed != 0, info.pending,
                     info.moment_ms, info.front_cm, info.uncertainty_cm)

    def why(self) -> UnitWhy:
        """Why the newest released output is what it is. NOT_RELEASED while an input is pending or outputs aren't released."""
        info = _header.etcs_unit_why_info()
        self._call("why", ctypes.byref(info))
        return _unit_why(info)

    def driver(self) -> UnitDriver:
        """What the driver entered, with its statuses, and which actions of the driver the unit would accept now. NOT_RELEASED as for `why`."""
        info = _header.etcs_unit_driver_info()
        self._call("driver", ctypes.byref(info))
        return _unit_driver(info)

    def refusals(self) -> UnitRefusals:
        """Why each action of the driver wouldn't be accepted as the next input, after all inputs that were taken, released or not."""
        info = _header.etcs_unit_refusals_info()
        self._call("refusals", ctypes.byref(info))
        return _unit_refusals(info)

    def preview_telegram(self, data: bytes) -> Preview:
        """What becomes of the bytes of a balise, and of the groups that they close, if they are the next input. Show it only after
        the release of that input."""
        info = _header.etcs_unit_preview_info()
        self._call("preview_telegram", data, len(data), ctypes.byref(info))
        return _preview(info)

    def preview_odometer(self, movement_cm: int, speed_m_per_h: int) -> Preview:
        """What becomes of the group that a reading closes, if it is the next input, as for `preview_telegram`."""
        info = _header.etcs_unit_preview_info()
        self._call("preview_odometer", _number(movement_cm, 64, signed=True), _number(speed_m_per_h, 32), ctypes.byref(info))
        return _preview(info)
