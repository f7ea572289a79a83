"""Causes of brakes: those that are reported, and those that aren't known."""
import unittest

from gaknifur.journal import causes, tables
from gaknifur.journal.causes import DIFFERS, OTHER_BLOCK, REASONS, Held
from gaknifur.journal.reading import Journal

from .samples import journal, line, reading, record

BRAKED = (record(0, "powerup", brake="emergency"), record(1), reading(2, 60_000, brake="emergency"), record(3, brake="emergency"),
          record(4))
WHY_LINES = (line(0, "emergency", not_revalidated=0), line(1, "none"), line(2, "emergency", far_too_fast=2), line(4, "none"))


def replayed(*lines: dict[str, object], **more: object) -> Journal:
    """The journal of BRAKED with these lines of a replay."""
    found = journal(*BRAKED)
    found.why, found.replay = list(WHY_LINES), list(lines)
    return found


class Runs(unittest.TestCase):
    """The causes of an intervention."""

    def test_in_the_order_in_which_they_began(self) -> None:
        found = causes.of_run([3, 4, 6], [{"far_too_fast": 3}, None, {"in_trip": 5, "far_too_fast": 3}])
        self.assertEqual(found, [Held("far_too_fast", 3, 6), Held("in_trip", 5, 6)])

    def test_one_that_ends_and_begins_anew_comes_twice(self) -> None:
        found = causes.of_run([1, 2, 5], [{"too_fast": 1}, {"far_too_fast": 2}, {"too_fast": 4}])
        self.assertEqual(found, [Held("too_fast", 1, 1, 2), Held("far_too_fast", 2, 2, 5), Held("too_fast", 4, 5)])

    def test_one_that_ended_between_two_lines_comes_twice(self) -> None:
        found = causes.of_run([1, 5], [{"too_fast": 1}, {"too_fast": 4}])
        self.assertEqual(found, [Held("too_fast", 1, 1, 5), Held("too_fast", 4, 5)])


class KnownCauses(unittest.TestCase):
    """Of which records causes are known, and why not of the others."""

    def test_where_the_replay_agrees(self) -> None:
        sample = replayed({"replay": "agrees", "first_event": 0, "last_event": 4})
        sample.why = [one | {"limit_cause": "staff", "limit_cause_section": "4.4"} for one in WHY_LINES]
        table = tables.frame(sample)
        self.assertEqual(list(table["causes"]), ["not_revalidated since 0", "", *["far_too_fast since 2"] * 2, ""])
        self.assertEqual(list(table["causes_not_known"]), [None] * 5)
        self.assertEqual(set(table["limit_cause"]), {"staff"})
        self.assertEqual(list(tables.interventions(table)["causes"])[1], [Held("far_too_fast", 2, 3)])
        self.assertEqual(causes.limit_text(sample.why[0] | {"limit_cause_place_cm": 150, "limit_cause_number": 7,
                                                                "limit_cause_speed_m_per_h": 20_000}), "staff 7, 20 km/h at 1.50 m (4.4)")

    def test_where_it_does_not(self) -> None:
        table = tables.frame(replayed({"replay": "agrees", "first_event": 0, "last_event": 1}, {"replay": "record_differs", "event": 2},
                                      {"replay": "not_replayed", "first_event": 3, "last_event": 4, "reason": "after_difference"}))
        self.assertEqual(list(table["causes"]), ["not_revalidated since 0", "", None, None, None])
        self.assertEqual(list(table["causes_not_known"]), [None, None, DIFFERS, *[REASONS["after_difference"]] * 2])

    def test_after_a_record_that_differs(self) -> None:
        table = tables.frame(replayed({"replay": "agrees", "first_event": 0, "last_event": 1}, {"replay": "record_differs", "event": 2},
                                      {"replay": "agrees", "first_event": 3, "last_event": 4}))
        self.assertEqual(list(table["causes"]), ["not_revalidated since 0", "", None, None, ""])
        self.assertEqual(list(table["causes_not_known"]), [None, None, DIFFERS, None, None])

    def test_of_another_block(self) -> None:
        sample = replayed({"replay": "agrees", "first_event": 0, "last_event": 4})
        sample.records[2]["source"] = "replaced"
        self.assertEqual(tables.frame(sample)["causes_not_known"].iat[2], OTHER_BLOCK)
        del sample.records[2]["source"]

    def test_of_another_answer(self) -> None:
        sample = replayed({"replay": "agrees", "first_event": 0, "last_event": 4})
        sample.why[2] = line(2, "service", too_fast=2)
        self.assertEqual(tables.frame(sample)["causes_not_known"].iat[2], DIFFERS)

    def test_no_causes_were_printed(self) -> None:
        sample = journal(*BRAKED)
        sample.why_refusal = "no memory"
        self.assertEqual(set(tables.frame(sample)["causes_not_known"]), {"no memory"})


if __name__ == "__main__":
    unittest.main()
