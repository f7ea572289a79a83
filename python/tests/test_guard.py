"""The guard from Python: its names are those of the header; and, over the library that `$GAKNIFUR_ETCS_UNIT` names, its answers,
which are rows of the table in crates/track_guard/README.md.
"""
import enum
import os
import re
import unittest
from pathlib import Path
from typing import Any

from gaknifur.guard import Demand, Demanded, Direction, Fault, Finding, Guard, GuardPolicy, Sureness, demands
from gaknifur.journal.demands import rows
from gaknifur.program import Json
from gaknifur.telegrams import telegrams
from gaknifur.unit import Brake, Mode, Refused

from .samples import journal, record

HEADER = Path(__file__).resolve().parents[2] / "c/include/etcs_guard.h"
STOP = bytes.fromhex("90007f8020016260 0c3fc0".replace(" ", ""))
"""A packet 137 for both directions with Q_SRSTOP 0, in a telegram of one balise, as in examples/embedding/guard.c."""
NO_TELEGRAM = b""


class Names(unittest.TestCase):
    """Along with the header, as it reads without `tools/dev/bindings`."""

    def test_enums(self) -> None:
        enums: list[type[enum.IntEnum]] = [GuardPolicy, Demanded, Finding, Sureness]
        bodies = re.findall(r"^enum \w+ \{(.*?)\};", HEADER.read_text(), re.DOTALL | re.MULTILINE)
        for one, body in zip(enums, bodies, strict=True):
            numbers = re.findall(r"(ETCS_\w+) = (\d+)", body)
            for member, (name, number) in zip(one.__members__.values(), numbers, strict=True):
                self.assertEqual(member, int(number))
                self.assertTrue(name.endswith(f"_{member.name}"), name)


@unittest.skipUnless(os.environ.get("GAKNIFUR_ETCS_UNIT"), "GAKNIFUR_ETCS_UNIT names no library")
class Guards(unittest.TestCase):
    """What a guard answers."""

    def test_a_stop_in_staff_responsible(self) -> None:
        guard = Guard()
        self.assertEqual((guard.brake, guard.has_heard), (Brake.NONE, False))
        wanted = Demand(Demanded.TRIP, Finding.STOP_IN_STAFF_RESPONSIBLE, 137, 50, 24, None, "4.6.3", Sureness.SURE)
        self.assertEqual(guard.hear(STOP, Mode.STAFF_RESPONSIBLE), [wanted])
        self.assertEqual((guard.brake, guard.has_heard), (Brake.EMERGENCY, True))
        self.assertEqual([guard.command(brake) for brake in Brake], [Brake.EMERGENCY] * 3)
        guard.acknowledge(1)
        self.assertEqual(guard.brake, Brake.EMERGENCY)
        guard.acknowledge(0)
        self.assertEqual([guard.command(brake) for brake in Brake], list(Brake))

    def test_where_nothing_is_demanded(self) -> None:
        guard = Guard()
        for mode in (Mode.FULL_SUPERVISION, Mode.ON_SIGHT, Mode.SHUNTING, Mode.UNFITTED):
            self.assertEqual(guard.hear(STOP, mode), [])
        self.assertEqual(guard.hear(STOP, Mode.STAFF_RESPONSIBLE, overridden=True), [])
        self.assertEqual((guard.brake, guard.has_heard), (Brake.NONE, True))

    def test_one_that_warns(self) -> None:
        guard = Guard(GuardPolicy.WARN)
        self.assertEqual([one.demanded for one in guard.hear(STOP, Mode.STAFF_RESPONSIBLE)], [Demanded.TRIP])
        self.assertEqual(guard.brake, Brake.NONE)

    def test_a_telegram_that_is_refused(self) -> None:
        [demand] = demands(NO_TELEGRAM, Mode.FULL_SUPERVISION, Direction.NOMINAL)
        self.assertEqual((demand.demanded, demand.packet, demand.bits, demand.fault, demand.section),
                         (Demanded.UNREADABLE, None, 0, Fault.TRUNCATED, "3.16.2"))

    def test_numbers_that_are_none(self) -> None:
        guard = Guard()
        for speed in (-1, 1 << 32):
            with self.assertRaisesRegex(Refused, "OUT_OF_RANGE"):
                guard.acknowledge(speed)
        with self.assertRaisesRegex(Refused, "OUT_OF_RANGE"):
            guard.command(Brake.EMERGENCY + 1)  # type: ignore[arg-type]


def telegram(event: int, text: str, **more: Any) -> Json:
    """The record of a telegram."""
    sent = telegrams.telegram(text)
    decoded = {"header": dict(sent.header), "packets": [{"packet": packet[0][1], "fields": packet} for packet in sent.packets]}
    return record(event, "telegram", telegram=sent.digits.lower(), decoded=decoded, **more)


@unittest.skipUnless(os.environ.get("GAKNIFUR_ETCS_UNIT"), "GAKNIFUR_ETCS_UNIT names no library")
class Afterwards(unittest.TestCase):
    """What a guard demands by the telegrams of a journal: packet 137 with Q_SRSTOP 0, by the mode before it and the direction of its group."""

    def demanded(self, *records: Json) -> list[tuple[int, str, str, str]]:
        return [(one["event"], one["mode"], one["direction"], one["demanded"]) for one in rows(journal(*records))]

    def test_the_mode_before(self) -> None:
        stop = "NID_BG 7; 137: Q_DIR 2, Q_SRSTOP 0"
        self.assertEqual(self.demanded(record(1, mode="SR"), telegram(2, stop, mode="FS"), telegram(3, stop, mode="SR")), [(2, "SR", "not_known", "trip")])
        self.assertEqual(self.demanded(record(1, mode="SR", indications=["overridden"]), telegram(2, stop, mode="SR")), [])
        self.assertEqual(self.demanded(record(1, mode="SR"), telegram(3, stop, mode="SR")), [])  # (no record 2)

    def test_the_direction(self) -> None:
        stop, link = "137: Q_DIR 0, Q_SRSTOP 0", "NID_BG 2; 5: D_LINK 100, NID_BG 7, Q_LINKORIENTATION {}, Q_LINKREACTION 1, Q_LOCACC 5"
        start, first, second = record(1, mode="SR"), f"NID_BG 7, N_PIG 1, N_TOTAL 1; {stop}", "NID_BG 7, N_TOTAL 1"
        self.assertEqual(self.demanded(start, telegram(2, first, mode="SR"), telegram(3, second, mode="SR")), [(2, "SR", "reverse", "trip")])
        self.assertEqual(self.demanded(start, telegram(2, second, mode="SR"), telegram(3, first, mode="SR")), [])
        self.assertEqual(self.demanded(start, telegram(2, link.format(0), mode="SR"), telegram(3, f"NID_BG 7; {stop}", mode="SR")),
                         [(3, "SR", "reverse", "trip")])
        self.assertEqual(self.demanded(start, telegram(2, link.format(1), mode="SR"), telegram(3, f"NID_BG 7; {stop}", mode="SR")), [])


if __name__ == "__main__":
    unittest.main()
