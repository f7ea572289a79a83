"""Tables of records."""
import csv
import io
import unittest
from unittest.mock import patch

import pandas as pd

import gaknifur.journal.tables as tables
from gaknifur.journal import report
from gaknifur.journal.extent import Extent, bound
from gaknifur.journal.refused_actions import is_refused
from gaknifur.program import REFUSED, Failed

from .samples import AUTHORITY, action, journal, reading, record


class Speeds(unittest.TestCase):
    """The speed that holds after a record."""

    def test_holds_until_the_next_reading(self) -> None:
        table = tables.frame(journal(record(0, "powerup"), reading(1, 36_000), record(2), reading(3, 0)))
        self.assertEqual(list(table["speed_m_per_h"]), [0, 36_000, 36_000, 0])
        self.assertEqual(list(table["over_limit_kmh"]), [-40, -4, -4, -40])

    def test_is_missing_after_a_gap(self) -> None:
        table = tables.frame(journal(record(0, "powerup"), reading(1, 36_000), record(9), reading(10, 1_000)))
        self.assertEqual(list(table["stretch"]), [0, 0, 1, 1])
        self.assertIs(table["speed_m_per_h"].iat[2], pd.NA)

    def test_is_of_one_life(self) -> None:
        table = tables.frame(journal(reading(4, 36_000), record(5, "powerup", life=2), record(6, life=2)))
        self.assertEqual(list(table["speed_m_per_h"]), [36_000, 0, 0])


class Columns(unittest.TestCase):
    """What the columns report."""

    def test_missing_is_not_zero(self) -> None:
        table = tables.frame(journal(record(0, level=None, place_cm=None, uncertainty_cm=None, limit_m_per_h=None)))
        for name in ("level", "place_cm", "uncertainty_cm", "limit_m_per_h", "limit_kmh", "movement_cm"):
            self.assertIs(table[name].iat[0], pd.NA, name)

    def test_great_numbers_keep_their_digits(self) -> None:
        table = tables.frame(journal(record(0, uncertainty_cm=2**64 - 1), record(1, max_safe_front_cm=2**62 + 1)))
        self.assertEqual(table["uncertainty_cm"].iat[0], 2**64 - 1)
        self.assertEqual(table["max_safe_front_cm"].iat[1], 2**62 + 1)

    def test_indications_are_columns(self) -> None:
        table = tables.frame(journal(record(0, indications=["trip", "overspeed"])))
        self.assertEqual([name for name in tables.SHOWS if table[name].iat[0]], ["shows_trip", "shows_overspeed"])

    def test_a_telegram_is_decoded(self) -> None:
        refused = {"refused": {"number": 3, "name": "Spare"}}
        table = tables.frame(journal(record(0, "telegram", telegram="90", decoded=AUTHORITY),
                                     record(1, "telegram", telegram="91", decoded=refused)))
        self.assertEqual(list(table["packets"]), ["12", None])
        self.assertEqual(list(table["fault"]), [None, "Spare"])
        self.assertEqual(table["nid_bg"].iat[0], 2)

    def test_a_long_journal_is_taken_in_pieces(self) -> None:
        sample = journal(record(0, "powerup"), reading(1, 30_000), record(2, "telegram", telegram="90", decoded=AUTHORITY),
                       action(3, "enter_identity", identity="IC"), record(4, level=None, uncertainty_cm=2**64 - 1), record(5, source="replaced"))
        whole = tables.frame(sample)
        text = tables.csv_text(whole)
        for count in (1, 2, 5):
            with patch.object(tables, "AT_ONCE", count):
                pd.testing.assert_frame_equal(tables.frame(sample), whole)
                self.assertEqual(tables.csv_text(whole), text)
        self.assertEqual(len(text.splitlines()), 7)

    def test_no_record(self) -> None:
        table = tables.frame(journal())
        self.assertEqual(len(table), 0)
        self.assertEqual(len(tables.interventions(table)), 0)
        self.assertEqual(tables.csv_text(table).count("\n"), 1)


class Written(unittest.TestCase):
    """The table as CSV."""

    def test_no_text_is_a_formula(self) -> None:
        identities = ["=1+1", "@SUM(A1)", "+1", "-1", "\t=1", "'=1", "IC 704", "a=1", ""]
        table = tables.frame(journal(*(action(event, "enter_identity", identity=one) for event, one in enumerate(identities))))
        rows = list(csv.DictReader(io.StringIO(tables.csv_text(table))))
        self.assertEqual([row["identity"] for row in rows], ["'=1+1", "'@SUM(A1)", "'+1", "'-1", "'\t=1", "''=1", "IC 704", "a=1", ""])
        self.assertEqual([row["identity"].removeprefix("'") for row in rows], identities)
        self.assertEqual([row["min_safe_front_cm"] for row in rows][0], "-500")

    def test_a_part_without_a_record_is_no_report(self) -> None:
        sample = journal(record(0, "powerup"), record(1))
        for extent, message in ((Extent(life=9), "of life 9"), (Extent(bound("5000")), "from 5000"), (Extent(None, bound("-1m")), "to -1m")):
            with self.assertRaises(Failed) as found:
                report.page(sample, extent)
            self.assertEqual((found.exception.status, str(found.exception)),
                             (REFUSED, f"image: the journal has no record {message}; it has events 0 to 1, of life 1. Nothing was written."))


class Interventions(unittest.TestCase):
    """Runs of records that command a brake."""

    def test_commands_without_a_pause_are_one(self) -> None:
        brakes = ["none", "service", "emergency", "emergency", "none", "service"]
        found = tables.interventions(tables.frame(journal(*(record(n, brake=b) for n, b in enumerate(brakes)))))
        self.assertEqual(list(zip(found["first_event"], found["last_event"])), [(1, 3), (5, 5)])
        self.assertEqual(list(found["steps"]), ["service emergency", "service"])
        self.assertEqual(list(found["worst"]), ["emergency", "service"])
        self.assertEqual(list(found["goes_on"]), [False, True])

    def test_a_gap_ends_one(self) -> None:
        found = tables.interventions(tables.frame(journal(record(0, brake="service"), record(5, brake="service"))))
        self.assertEqual(list(zip(found["first_event"], found["last_event"])), [(0, 0), (5, 5)])

    def test_the_farthest_above_the_limit(self) -> None:
        readings = [reading(0, 41_000, brake="service"), reading(1, 47_500, brake="service"), reading(2, 10_000, brake="service")]
        found = tables.interventions(tables.frame(journal(*readings)))
        self.assertEqual((found["most_over_kmh"].iat[0], found["most_over_row"].iat[0]), (7.5, 1))


class Actions(unittest.TestCase):
    """By the table of accepted actions of crate `driver`."""

    def state(self, mode: str, speed: int = 0, *shows: str) -> dict[str, object]:
        return {"mode": mode, "speed_m_per_h": speed} | {name: name[6:] in shows for name in tables.SHOWS}

    def test_by_mode_and_standstill(self) -> None:
        self.assertIs(is_refused("start", None, self.state("TR"), self.state("TR")), True)
        self.assertIs(is_refused("start", None, self.state("SB"), self.state("FS")), False)
        self.assertIs(is_refused("start", None, self.state("SB"), self.state("SB")), True)
        self.assertIs(is_refused("close_desk", None, self.state("FS", 500), self.state("FS", 500)), True)
        self.assertIs(is_refused("enter_identity", None, self.state("FS"), self.state("FS")), True)

    def test_what_records_do_not_show(self) -> None:
        self.assertIsNone(is_refused("confirm", "identity", self.state("SB"), self.state("SB")))
        self.assertIsNone(is_refused("override", None, self.state("SR", 0, "overridden"), self.state("SR", 0, "overridden")))

    def test_acknowledgements(self) -> None:
        self.assertIs(is_refused("acknowledge", "trip", self.state("TR", 0, "trip"), self.state("PT")), False)
        self.assertIs(is_refused("acknowledge", "trip", self.state("TR", 9, "trip"), self.state("TR", 9, "trip")), True)
        self.assertIs(is_refused("acknowledge", "on_sight", self.state("FS"), self.state("FS")), True)
        self.assertIs(is_refused("acknowledge", "on_sight", self.state("FS", 0, "on_sight"), self.state("OS")), False)

    def test_the_record_before_is_needed(self) -> None:
        table = tables.frame(journal(action(3, "start", mode="SB"), action(4, "start", mode="SB")))
        self.assertIs(table["refused"].iat[0], pd.NA)
        self.assertTrue(table["refused"].iat[1])


if __name__ == "__main__":
    unittest.main()
