"""The onboard unit from Python: that its names and numbers are those of the header; and over the library that
`$GAKNIFUR_ETCS_UNIT` names, where it is named, what its calls answer.
"""
import enum
import os
import struct
import re
import stat
import tempfile
import unittest
from collections.abc import Callable
from contextlib import ExitStack
from pathlib import Path
from unittest import mock

import gaknifur
from gaknifur import lives, unit as units
from gaknifur._header import Direction, Fault, Proof, RequestKind, Source, StatusKind, UnusedReason
from gaknifur.lives import BrakeCause, Datum, KeptField, LimitCause, RecordField, TripCause, Verdict
from gaknifur.unit import (Acknowledgement, Action, Brake, ClosedGroup, Cold, FileMedium, GroupOutcome, Indication, Kept, Kind, Level, MemoryMedium,
                           Mode, Output, Preview, Reaction, Record, Refusal, Refused, SlotState, Status, TelegramOutcome, TrainData, Unit,
                           UnitDriver, UnitWhy, Waiting)

TOP = Path(__file__).resolve().parents[2]
INCLUDE = TOP / "c/include"
HEADER = INCLUDE / "etcs_unit.h"
SECTOR = units.SECTOR
TRAIN = TrainData(20_000, 160_000, 70, 1_000, 15)
BEFORE = Output(0, Mode.STAND_BY, Level.INVALID, Brake.EMERGENCY, 0, Indication.NOT_REVALIDATED)


class Names(unittest.TestCase):
    """Along with the headers, as they read without `tools/dev/bindings`."""

    def test_enums(self) -> None:
        enums: list[type[enum.IntEnum | enum.IntFlag]] = [
            Fault, Proof, Status, StatusKind, Source, Cold, Action, Mode, Level, Brake, Indication, RequestKind, BrakeCause, LimitCause,
            Acknowledgement, Datum, Refusal, GroupOutcome, Reaction, TelegramOutcome, Direction, UnusedReason,
            SlotState, Kind, Verdict, RecordField, KeptField, TripCause]
        text = "".join((INCLUDE / name).read_text() for name in ("etcs.h", "etcs_unit.h", "etcs_image.h"))
        bodies = re.findall(r"^enum \w+ \{(.*?)\};", text, re.DOTALL | re.MULTILINE)
        for one, body in zip(enums, bodies, strict=True):
            numbers = re.findall(r"(ETCS_\w+) = (\d+)", body)
            for member, (name, number) in zip(one.__members__.values(), numbers, strict=True):
                self.assertEqual(member, int(number))
                self.assertTrue(name.endswith(f"_{member.name}"), name)

    def test_the_texts_of_statuses(self) -> None:
        """The header's text of each status is its name, and docs/reference/refusals.md has each with its kind."""
        text = HEADER.read_text()
        texts = dict(re.findall(r'case \(uint32_t\)ETCS_UNIT_(\w+): text = "(\w+)";', text))
        self.assertEqual(texts, {one.name: one.name for one in Status})
        page = (TOP / "docs/reference/refusals.md").read_text()
        part = page[page.index("## The unit from C"):page.index("## The program")]
        rows = re.findall(r"^\| (\d+) \| ([A-Z_]+) \|(?:[^|\n]*\|){2} ?([^|\n]*)\|$", part, re.MULTILINE)
        self.assertEqual({(int(number), name) for number, name, _ in rows},
                         {(one.value, one.name) for one in Status})
        classify = text[text.index("uint32_t etcs_status_classify"):]
        mistakes = re.findall(r"case \(uint32_t\)ETCS_UNIT_(\w+):$", classify[:classify.index("\n}")], re.MULTILINE)
        kinds = {name: re.findall("^[a-z]*", then)[0] for number, name, then in rows
                 if int(number) and not 31 <= int(number) <= 39}
        self.assertEqual(kinds, {name: "mistake" if name in mistakes else "fault" for name in kinds})


class Failing(MemoryMedium):
    """A medium that fails at a call."""

    left = -1

    def write(self, sector: int, data: bytes) -> None:
        if self.left == 0:
            raise OSError("no power")
        self.left -= 1
        super().write(sector, data)


class Noted(MemoryMedium):
    """A medium that says which sectors were read, and fails, or reads too little, at one of them."""

    def __init__(self, data: bytes = b"") -> None:
        super().__init__(data)
        self.read_so_far: list[int] = []
        self.fails_at = self.short_at = -1

    def read_sector(self, sector: int) -> bytes:
        self.read_so_far.append(sector)
        if sector == self.fails_at:
            raise OSError("no power")
        return super().read_sector(sector)[:SECTOR - (sector == self.short_at)]

    def taken(self) -> list[int]:
        """The sectors that were read since this was asked last."""
        read, self.read_so_far = self.read_so_far, []
        return read


def gates(slots: range) -> list[int]:
    """The sectors of the gates of these slots (docs/reference/format.md)."""
    return [1 + 6 * slot for slot in slots]


class OverTheLibrary(unittest.TestCase):
    """What a call answers."""

    def refused(self, status: Status) -> "unittest.case._AssertRaisesContext[Refused]":
        return self.assertRaisesRegex(Refused, f"^{status.value} {status.name}$")


@unittest.skipUnless(os.environ.get("GAKNIFUR_ETCS_UNIT"), "GAKNIFUR_ETCS_UNIT names no library")
class BySectors(OverTheLibrary):
    """What a unit reads of its medium."""

    def closed(self, *calls: Callable[[], object]) -> None:
        """Each of these is refused, since it isn't open."""
        for call in calls:
            with self.refused(Status.NOT_OPEN):
                call()

    def test_which_sectors_are_read(self) -> None:
        """In a power-up the first sector, each gate, the head of each slot whose gate is open, the newest block, and the next gate; in a flush
        that gate, where it isn't one of the 16 sectors that are held."""
        medium = Noted(bytes(MemoryMedium.formatted(4).data))
        with Unit(medium) as unit:
            self.assertEqual(medium.taken(), [0, *gates(range(4))])
            for moment in range(2):
                unit.clock(moment)
                unit.flush()
            self.assertEqual(medium.taken(), [])
        # Slots 1 to 3 hold blocks 1 to 3. The newest is in slot 3, whose gate and head are known by then.
        with Unit(medium):
            self.assertEqual(medium.taken(), [0, 1, 7, 8, 13, 14, 19, 20, 21, 22, 23, 24])
        medium = Noted(bytes(MemoryMedium.formatted(40).data))
        with Unit(medium) as unit:
            self.assertEqual(medium.taken(), [0, *gates(range(40)), *gates(range(1, 2))])
            for slot in (2, 3, 4):
                unit.clock(slot)
                self.assertEqual(len(unit.flush()), 1)
                self.assertEqual(medium.taken(), gates(range(slot, slot + 1)))
            # one that was handed in before isn't asked for
            gate, = gates(range(5, 6))
            unit.provide(gate, medium.read_sector(gate))
            unit.clock(5)
            self.assertEqual((len(unit.flush()), medium.taken()), (1, [gate]))
        self.assertEqual([one.event for one in units.records(bytes(medium.data))], [0, 1, 2, 3, 4])

    def test_a_medium_that_cannot_be_read(self) -> None:
        medium = Noted(bytes(MemoryMedium.formatted(40).data))
        unit = Unit(medium)
        for sector in (0, 7):
            medium.fails_at = sector
            self.assertRaisesRegex(OSError, "no power", unit.open)
            with self.refused(Status.NOT_OPEN):
                unit.clock(1)
        medium.fails_at, medium.short_at = -1, 13
        with self.refused(Status.OUT_OF_RANGE):
            unit.open()
        medium.short_at = -1
        with unit:
            unit.clock(1)
            medium.fails_at = 13
            before = bytes(medium.data)
            self.assertRaisesRegex(OSError, "no power", unit.flush)
            self.assertEqual((unit.state().has_failed, unit.state().pending, bytes(medium.data)), (True, 1, before))
            with self.refused(Status.FAILED):
                unit.flush()

    def test_the_calls_of_a_unit(self) -> None:
        unit = Unit(MemoryMedium.formatted(2))
        self.closed(lambda: unit.provide(0, bytes(SECTOR)))
        with unit:
            for sector, size in ((13, SECTOR), (0, SECTOR - 1), (0, 0), (-1, SECTOR), (1 << 64, SECTOR)):
                with self.refused(Status.OUT_OF_RANGE):
                    unit.provide(sector, bytes(size))
            unit.provide(12, bytes(SECTOR))
            with self.refused(Status.IS_OPEN):
                unit.open()

    def test_a_file(self) -> None:
        """The file is settled before its sectors are read, and then holds what a medium in memory does."""
        with tempfile.TemporaryDirectory() as folder:
            path, memory = Path(folder) / "image", MemoryMedium.formatted(4)
            with FileMedium.formatted(path, 4) as medium:
                for place in (Unit(medium), Unit(memory)):
                    with place as unit:
                        unit.clock(1)
                        unit.flush()
                self.assertEqual(path.read_bytes(), memory.data)
                self.assertEqual((medium.sectors(), medium.read_sector(24)), (25, memory.read_sector(24)))
                self.assertRaises(OSError, medium.read_sector, 25)
                calls: list[str] = []

                def read(sector: int) -> bytes:
                    calls.append("read")
                    return memory.read_sector(sector)

                with mock.patch.object(medium, "_settle", lambda: calls.append("settled")), mock.patch.object(medium, "read_sector", read), Unit(medium):
                    self.assertEqual((calls[:2], calls.count("settled")), (["settled", "read"], 1))


@unittest.skipUnless(os.environ.get("GAKNIFUR_ETCS_UNIT"), "GAKNIFUR_ETCS_UNIT names no library")
class Calls(OverTheLibrary):
    """Over the library."""

    def test_a_life(self) -> None:
        medium = MemoryMedium.formatted(4)
        with Unit(medium) as unit:
            # An exact start at 0, and 500 cm; a movement of 10 cm adds a twentieth of it, rounded up.
            self.assertEqual(unit.state(), units.State(BEFORE, 0, 0, 0, False, 0, 0, 0, 500))
            unit.clock(5)
            unit.odometer(-10, 300)
            unit.identity("IC 704")
            unit.running_number(704)
            unit.train_data(TRAIN)
            unit.action(Action.CHOOSE_LEVEL_1)
            unit.telegram(b"\0")
            self.assertEqual(unit.state(), units.State(BEFORE, 0, 0, 0, False, 7, 5, -10, 501))
            outputs = unit.flush()
            self.assertEqual([one.event for one in outputs], list(range(1, 8)))
            self.assertEqual(unit.state().last, outputs[-1])
            self.assertEqual(unit.flush(), [])
        with Unit(medium, Cold.NOT_MOVED) as unit:
            unit.clock(1)
            self.assertEqual([one.event for one in unit.flush()], [9])

    def test_refusals(self) -> None:
        unit = Unit(MemoryMedium.formatted(4))
        with self.refused(Status.NOT_OPEN):
            unit.clock(1)
        with unit:
            with self.refused(Status.IS_OPEN):
                unit.open()
        with unit:
            for number in (-1, 1 << 40, 1 << 64, (1 << 64) + 1):
                with self.refused(Status.OUT_OF_RANGE):
                    unit.clock(number)
            for number in (-10_001, 10_001, 1 << 63, -(1 << 64)):
                with self.refused(Status.OUT_OF_RANGE):
                    unit.odometer(number, 0)
            for text in ("", "a" * 17, "\n", "ä"):
                with self.refused(Status.OUT_OF_RANGE):
                    unit.identity(text)
            unit.clock(2)
            with self.refused(Status.CLOCK_BACK):
                unit.clock(1)
            for _ in range(7):
                unit.clock(2)
            with self.refused(Status.PENDING_FULL):
                unit.clock(2)
            self.assertEqual(len(unit.flush()), 8)
        with self.refused(Status.NOT_OPEN):
            unit.flush()

    def test_images_that_do_not_open(self) -> None:
        for data, status in ((b"", Status.OPEN_NOT_FORMATTED), (bytes(12_800), Status.OPEN_NOT_FORMATTED),
                             (MemoryMedium.formatted(4).data[:-512], Status.OPEN_DAMAGED)):
            with self.refused(status):
                Unit(MemoryMedium(bytes(data))).open()

    def test_packets_that_are_not_used(self) -> None:
        """137, which no unit knows, 66 for the other direction, and what no mode but System Failure leaves out (by hand)."""
        bits = "1001000000000000011111111" "0000000001" "00000000000010" "1" "10001001" "10" "0000000011000" "0" "01000010" "00" "0000000011111" "00000001"
        telegram = int(bits + "1" * 8 + "0" * 7, 2).to_bytes(15, "big")
        stop, revocation = units.UnusedPacket(137, 50, 24, UnusedReason.NOT_KNOWN), units.UnusedPacket(66, 74, 31, UnusedReason.OTHER_DIRECTION)
        self.assertEqual(list(units.unused(telegram, Mode.SHUNTING, Direction.REVERSE)), [stop])
        self.assertEqual(list(units.unused(telegram, Mode.SHUNTING, Direction.NOMINAL)), [stop, revocation])
        self.assertEqual([one.why for one in units.unused(telegram, Mode.SYSTEM_FAILURE)], [UnusedReason.NOT_KNOWN, UnusedReason.IN_MODE])

    def test_formats(self) -> None:
        for slots in (0, 1, 1_048_577):
            with self.refused(Status.BAD_SLOTS):
                MemoryMedium.formatted(slots)
        for slots in (-1, 1 << 32):
            with self.refused(Status.OUT_OF_RANGE):
                units.first_request(slots)

    def test_a_medium_that_fails(self) -> None:
        medium = Failing(bytes(MemoryMedium.formatted(4).data))
        with Unit(medium) as unit:
            unit.clock(1)
            medium.left = 0
            self.assertRaisesRegex(OSError, "no power", unit.flush)
            self.assertTrue(unit.state().has_failed)
            with self.refused(Status.FAILED):
                unit.flush()
            with self.refused(Status.INPUT_FAILED):
                unit.clock(2)

    def test_a_file(self) -> None:
        with tempfile.TemporaryDirectory() as folder:
            path = Path(folder) / "image"
            self.assertRaises(FileNotFoundError, FileMedium, path)
            with FileMedium.formatted(path, 4):
                self.assertRaises(BlockingIOError, FileMedium, path)
                self.assertRaises(BlockingIOError, FileMedium.formatted, path, 8)
            self.assertEqual(path.read_bytes(), MemoryMedium.formatted(4).data)
            memory = MemoryMedium.formatted(4)
            with FileMedium(path) as medium:
                places: list[units.Medium] = [medium, memory]
                for place in places:
                    with Unit(place) as unit:
                        unit.clock(1)
                        unit.flush()
            self.assertEqual(path.read_bytes(), memory.data)

    def test_a_format_keeps_a_journal(self) -> None:
        """Only `wipe` empties it; a file is kept also where it is no journal, or a bit of its first sector is altered."""
        with tempfile.TemporaryDirectory() as folder:
            path, memory, empty = Path(folder) / "image", MemoryMedium.formatted(4), MemoryMedium.formatted(4).data
            with FileMedium.formatted(path, 4) as medium, Unit(medium) as unit:
                unit.clock(1)
                unit.flush()
            with Unit(memory) as unit:
                unit.clock(1)
                unit.flush()
            self.assertRaises(FileExistsError, units.format_medium, memory, 4)
            altered = bytes([path.read_bytes()[0] ^ 1]) + path.read_bytes()[1:]
            for content in (path.read_bytes(), altered, b"a text"):
                path.write_bytes(content)
                self.assertRaises(FileExistsError, FileMedium.formatted, path, 4)
                self.assertEqual(path.read_bytes(), content)
            for content in (b"", bytes(600)):
                path.write_bytes(content)
                FileMedium.formatted(path, 4).close()
                self.assertEqual(path.read_bytes(), empty)
            path.write_bytes(memory.data)
            FileMedium.formatted(path, 4, wipe=True).close()
            self.assertEqual(path.read_bytes(), empty)
            units.format_medium(memory, 4, wipe=True)
            self.assertEqual(list(units.records(memory.read())), [])

    def test_a_file_is_settled(self) -> None:
        """It is synced, and the system's copies are dropped, before it is read; the folder of a new one is synced."""
        calls: list[str] = []

        def noted(name: str) -> Callable[..., object]:
            call = getattr(os, name)

            def made(descriptor: int, *words: object) -> object:
                calls.append(f"{name} of a folder" if stat.S_ISDIR(os.fstat(descriptor).st_mode) else name)
                return call(descriptor, *words)
            return made

        with tempfile.TemporaryDirectory() as folder, ExitStack() as patches:
            for name in ("fsync", "posix_fadvise", "pread", "pwrite"):
                patches.enter_context(mock.patch.object(os, name, noted(name)))
            path = Path(folder) / "image"
            with FileMedium.formatted(path, 2) as medium:
                self.assertEqual(calls[-2:], ["fsync", "fsync of a folder"])
                calls.clear()
                self.assertEqual((medium.sectors(), len(medium.read_sector(0))), (13, 512))
                self.assertEqual(calls, ["fsync", "posix_fadvise", "pread"])

    def test_a_journal(self) -> None:
        medium = MemoryMedium.formatted(4)
        with Unit(medium, Cold.MOVED) as unit:
            unit.odometer(-10, 300)
            unit.clock(5)
            outputs = unit.flush()
        image = bytes(medium.data)
        found = list(units.records(image))
        shown = Indication.NOT_REVALIDATED
        braked = (Mode.STAND_BY, Level.INVALID, Brake.EMERGENCY, shown)
        self.assertEqual(found[0], Record(0, 1, 1, 3, Kind.POWER_UP, 0, *braked, 0, 500, 0, b"\1"))
        self.assertEqual([one.payload for one in found[1:]], [bytes.fromhex("fffffff60000012c"), bytes.fromhex("0000000000000005")])
        self.assertEqual([(one.event, one.block, one.kind, one.moment_ms, one.front_cm, one.uncertainty_cm) for one in found[1:]],
                         [(1, 2, Kind.ODOMETER, 0, -10, 501), (2, 2, Kind.CLOCK, 5, -10, 501)])
        self.assertEqual([(one.event, one.mode, one.brake, one.limit_m_per_h) for one in found[1:]],
                         [(one.event, one.mode, one.brake, one.limit_m_per_h) for one in outputs])
        self.assertEqual(units.facts(image), units.Facts(25, 4, 4, 2))
        self.assertEqual([(one.state, one.number, one.is_sound) for one in units.slots(image)], [
            (SlotState.EMPTY, None, True), (SlotState.BLOCK, 1, True), (SlotState.BLOCK, 2, True), (SlotState.EMPTY, None, True)])
        with tempfile.TemporaryDirectory() as folder:
            path = Path(folder) / "image"
            path.write_bytes(image)
            self.assertEqual(list(units.journal(path)), found)
        with self.refused(Status.IMAGE_NOT_FORMATTED):
            list(units.records(b""))
        with self.refused(Status.IMAGE_DAMAGED):
            list(units.records(image[:-512]))

    def lived(self) -> bytearray:
        """A life of two blocks of events: 0, and 1 to 3."""
        medium = MemoryMedium.formatted(4)
        with Unit(medium, Cold.MOVED) as unit:
            unit.identity("IC 704")
            unit.odometer(-30, 300)
            unit.clock(5)
            unit.flush()
        return medium.data

    def test_a_replay(self) -> None:
        image = self.lived()
        self.assertEqual(list(lives.lines(bytes(image))), [lives.Line(1, 0, 3, Verdict.AGREES, None)])
        with tempfile.TemporaryDirectory() as folder:
            path = Path(folder) / "image"
            path.write_bytes(image)
            self.assertEqual(gaknifur.replay(path), list(lives.lines(bytes(image))))
            self.assertEqual(gaknifur.why(path, 2), lives.why_in(bytes(image), 2))
        # The moment of event 1, in the first record of block 2; and then a letter of the identity in the head before it.
        head, first = 512 + 2 * 3_072 + 512, 512 + 2 * 3_072 + 1_024
        image[first + 16:first + 24] = struct.pack(">Q", 7)
        before, life, after = lives.lines(bytes(image))
        assert life.difference is not None and isinstance(life.difference.journal, Record) and isinstance(life.difference.kernel, Record)
        self.assertEqual((before, life.verdict, life.last_event), (lives.Line(1, 0, 0, Verdict.AGREES, None), Verdict.RECORD_DIFFERS, 1))
        self.assertEqual(after, lives.Line(1, 2, 3, Verdict.AFTER_DIFFERENCE, None))
        self.assertEqual((life.difference.block, life.difference.event, life.difference.field), (2, 1, RecordField.MOMENT))
        self.assertEqual((life.difference.journal.moment_ms, life.difference.kernel.moment_ms), (7, 0))
        image = self.lived()
        image[head:head + 200] = image[head:head + 200].replace(b"IC 704", b"IC 705")
        before, life = lives.lines(bytes(image))
        self.assertEqual((before, life.first_event), (lives.Line(1, 0, 3, Verdict.AGREES, None), None))
        assert life.difference is not None and isinstance(life.difference.journal, lives.Kept) and isinstance(life.difference.kernel, lives.Kept)
        self.assertEqual((life.verdict, life.difference.event, life.difference.field), (Verdict.HEAD_DIFFERS, None, KeptField.IDENTITY))
        self.assertEqual((life.difference.journal.identity, life.difference.kernel.identity), (b"IC 705", b"IC 704"))
        self.assertEqual(life.difference.kernel.national[8:], (20_000, 60_000, None))
        with self.refused(Status.IMAGE_NOT_FORMATTED):
            list(lives.lines(b""))

    def test_why(self) -> None:
        image = bytes(self.lived())
        why = lives.why_in(image, 2)
        self.assertEqual(why, lives.Why(2, Brake.EMERGENCY, 0, 300, 30, 200, {BrakeCause.NOT_REVALIDATED: 0, BrakeCause.MUST_STAND: 2},
                                         TripCause.UNKNOWN, None, LimitCause.NO_SPEED, 0, None, None))
        self.assertEqual(lives.why_at(image, 2, 2), why)
        self.assertEqual(lives.why_in(image, 0).causes, {BrakeCause.NOT_REVALIDATED: 0})
        for event, status in ((4, Status.NO_SUCH_RECORD), (-1, Status.NO_SUCH_RECORD)):
            with self.refused(status):
                lives.why_in(image, event)
        for block, event, status in ((2, 0, Status.NO_SUCH_RECORD), (3, 4, Status.NO_SUCH_BLOCK), (-1, 0, Status.OUT_OF_RANGE)):
            with self.refused(status):
                lives.why_at(image, block, event)
        with self.refused(Status.NOT_REPLAYED):
            lives.why_at(image[:512 + 3_072] + bytes(3_072) + image[512 + 6_144:], 2, 2)

    def test_why_of_a_unit(self) -> None:
        """Stand By lets no train run; 5 and 10 km/h above that the brakes come. D_NVROLL is 200 cm."""
        nobody = (Waiting(Acknowledgement.NONE, 0),) * 3
        with Unit(MemoryMedium.formatted(4)) as unit:
            self.assertEqual(unit.why(), UnitWhy(BEFORE, (BrakeCause.NOT_REVALIDATED,), 5_000, 10_000, 0, 0, 200, LimitCause.NO_SPEED, 0, None,
                                                 None, None, None, *nobody))
            unit.odometer(-30, 300)
            with self.refused(Status.NOT_RELEASED):
                unit.why()
            output, = unit.flush()
            self.assertEqual(unit.why(), UnitWhy(output, (BrakeCause.NOT_REVALIDATED, BrakeCause.MUST_STAND), 5_000, 10_000, 300, 30, 200,
                                                 LimitCause.NO_SPEED, 0, None, None, None, None, *nobody))
        with self.refused(Status.NOT_OPEN):
            unit.why()

    def test_the_driver_of_a_unit(self) -> None:
        """By hand: what was entered, and what is accepted in Stand By, in Staff Responsible and after a power-up of a train that was moved."""
        national = (30_000, 40_000, 30_000, 100_000, 40_000, 200, 0, 30_000, 20_000, 60_000, None)
        nothing = Kept(False, None, None, None, (Datum.UNKNOWN, None), (Datum.UNKNOWN, None), national, ())
        unknown = (Datum.UNKNOWN, Datum.UNKNOWN, Datum.UNKNOWN, False, False, False, False)
        given = (Datum.VALID, Datum.UNKNOWN, Datum.VALID, True, True, True)
        levels = {Action.CHOOSE_LEVEL_0, Action.CHOOSE_LEVEL_1}
        confirms = {Action.CONFIRM_IDENTITY, Action.CONFIRM_TRAIN_DATA, Action.CONFIRM_LEVEL}
        medium = MemoryMedium.formatted(4)
        with Unit(medium) as unit:
            self.assertEqual(unit.driver(), UnitDriver(nothing, 0, Mode.STAND_BY, frozenset(levels), True, True, True, False, *unknown))
            unit.odometer(10, 300)
            with self.refused(Status.NOT_RELEASED):
                unit.driver()
            unit.flush()
            self.assertEqual(unit.driver(), UnitDriver(nothing, 300, Mode.STAND_BY, frozenset(), False, False, False, False, *unknown))
            unit.odometer(0, 0)
            unit.identity("IC 704")
            unit.train_data(TRAIN)
            unit.action(Action.CHOOSE_LEVEL_1)
            unit.flush()
            entered = Kept(False, b"IC 704", None, TRAIN, (Datum.VALID, Level.LEVEL_1), (Datum.UNKNOWN, None), national, ())
            leaves = {Action.START, Action.CHOOSE_SHUNTING}
            self.assertEqual(unit.driver(), UnitDriver(entered, 0, Mode.STAND_BY, frozenset(levels | confirms | leaves), True, True, True, False,
                                                       *given, False))
            unit.action(Action.START)
            unit.flush()
            accepted = frozenset({Action.CHOOSE_SHUNTING, Action.OVERRIDE, Action.CLOSE_DESK})
            self.assertEqual(unit.driver(), UnitDriver(entered, 0, Mode.STAFF_RESPONSIBLE, accepted, False, False, False, True, *given, True))
        with self.refused(Status.NOT_OPEN):
            unit.driver()
        with Unit(medium, Cold.NOT_MOVED) as unit:
            driver = unit.driver()
            self.assertEqual((driver.gave_identity, driver.gave_level, driver.gave_train, driver.has_left), (False, True, False, False))
        with Unit(medium, Cold.MOVED) as unit:
            driver = unit.driver()
            self.assertEqual((driver.kept.level, driver.kept.identity, driver.kept.train), ((Datum.INVALID, Level.LEVEL_1), b"IC 704", TRAIN))
            self.assertEqual((driver.identity, driver.running_number, driver.train_data), (Datum.INVALID, Datum.UNKNOWN, Datum.INVALID))
            self.assertEqual((driver.gave_identity, driver.gave_level, driver.gave_train, driver.has_left), (False, False, False, False))
            self.assertEqual((driver.accepts, driver.is_revalidated), (levels | confirms, False))

    def test_what_an_input_does(self) -> None:
        """By hand: why actions aren't accepted in Stand By, and what becomes of a group of two balises, of a repeat and of what is no
        telegram."""
        first, second = bytes.fromhex("90027F802003506023A100014002C27F80"), bytes.fromhex("90127F802003506023A12000000502FF80")  # of group 6
        with Unit(MemoryMedium.formatted(4)) as unit:
            refusals = unit.refusals()
            self.assertEqual({refusals.identity, refusals.running_number, refusals.train_data}, {Refusal.NONE})
            self.assertEqual([refusals.actions[one] for one in (Action.CHOOSE_LEVEL_1, Action.CONFIRM_LEVEL, Action.START, Action.OVERRIDE,
                                                                Action.ACKNOWLEDGE_TRIP, Action.ACKNOWLEDGE_ON_SIGHT)],
                             [Refusal.NONE, Refusal.NOTHING_TO_CONFIRM, Refusal.IDENTITY_NOT_VALID, Refusal.OTHER_MODE, Refusal.NO_TRIP,
                              Refusal.NOT_REQUESTED])
            unit.odometer(10, 300)
            self.assertEqual(unit.refusals().train_data, Refusal.NOT_AT_STANDSTILL)
            self.assertEqual(unit.preview_telegram(first), Preview((), TelegramOutcome.COUNTS, None))
            unit.telegram(first)
            self.assertEqual(unit.preview_telegram(first), Preview((), TelegramOutcome.REPEATED, None))
            self.assertEqual(unit.preview_telegram(b"\x90"), Preview((), TelegramOutcome.REFUSED, Fault.TRUNCATED))
            whole = ClosedGroup(1, 6, GroupOutcome.LINKING_UNUSED, Direction.NOMINAL, None, Reaction.NONE)
            self.assertEqual(unit.preview_telegram(second), Preview((whole,), TelegramOutcome.COUNTS, None))
            left = ClosedGroup(1, 6, GroupOutcome.BALISE_MISSING, Direction.NOT_KNOWN, None, Reaction.NONE)
            self.assertEqual(unit.preview_odometer(1_300, 300), Preview((), None, None))
            self.assertEqual(unit.preview_odometer(1_301, 300), Preview((left,), None, None))
            unit.telegram(second)
            self.assertEqual(unit.preview_telegram(second), Preview((), TelegramOutcome.GROUP_CLOSED, None))
            with self.refused(Status.OUT_OF_RANGE):
                unit.preview_odometer(1 << 70, 0)
            with self.refused(Status.OUT_OF_RANGE):
                unit.preview_telegram(b"")

    def test_the_version(self) -> None:
        changes = TOP / "CHANGELOG.md"
        found = re.search(r"^## ([0-9.]+)$", changes.read_text(), re.MULTILINE)
        assert found is not None
        self.assertEqual(units.version(), found[1])

    def test_telegrams(self) -> None:
        self.assertEqual(units.decode("90007F8020017FC0"), (0, 0))
        self.assertEqual(units.decode("90007F802001432024A8007FE007D002B00D900010000DC03A400020801FE0"), (0, 3))
        self.assertEqual(units.decode(""), (1, 0))
