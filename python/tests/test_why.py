"""Brake commands with their causes, and whether the train braked. Figures by hand, from docs/reference/lab.md (Did the train brake)."""
import unittest

from gaknifur.journal import why
from gaknifur.journal.causes import DIFFERS, REASONS
from gaknifur.program import Json

from .samples import journal, line
from .test_braking import SLOWING, braked
from .test_causes import WHY_LINES, replayed

ALL = {"replay": "agrees", "first_event": 0, "last_event": 4}
BRAKES = """\
events 5..24
  did it brake? life 1 events 5..24: emergency brake at 36 km/h: the train stops
    deceleration begins after 0 to 2 s, 0 to 9.5 m: 0.9 to 1.43 m/s²
    standstill after 8 to 11 s, 50 m
    the train data promise 1 m/s² after 0 s, 50 m: reaction not sure, rate not sure, way kept
"""


class Explanations(unittest.TestCase):
    """What is known of each command."""

    def found(self, *lines: Json) -> list[tuple[list[int], Json, str]]:
        """The events of the causes of each command, why they aren't known, and the answer."""
        every = list(why.explained(replayed(*lines)))
        return [([line["event"] for line in one.causes], one.unknown, one.braking["answer"]) for one in every if one.braking]

    def test_of_each_command(self) -> None:
        self.assertEqual(self.found(ALL), [([0], {}, "standing"), ([2], {}, "too_few")])

    def test_where_the_replay_does_not_agree(self) -> None:
        lines = ({"replay": "agrees", "first_event": 0, "last_event": 1}, {"replay": "record_differs", "event": 2},
                 {"replay": "not_replayed", "first_event": 3, "last_event": 4, "reason": "after_difference"})
        self.assertEqual(self.found(*lines), [([0], {}, "standing"), ([], {DIFFERS: [2, 2], REASONS["after_difference"]: [3, 3]}, "too_few")])

    def test_of_one_event(self) -> None:
        sample = replayed(ALL)
        held, = why.of_event(sample, 3, [line(3, "emergency", far_too_fast=2)])
        self.assertEqual((held.causes[0]["far_too_fast"], held.braking and held.braking["first_event"]), (2, 2))
        free, = why.of_event(sample, 1, [WHY_LINES[1]])
        self.assertEqual(free.text({1: "event 1: brake none\n"}), "event 1: brake none\n  did it brake? no brake is commanded\n")
        self.assertEqual(list(why.of_event(sample, 5, [])), [])

    def test_of_one_event_that_differs(self) -> None:
        sample = replayed({"replay": "record_differs", "event": 2})
        found, = why.of_event(sample, 2, [WHY_LINES[2]])
        self.assertEqual(found.as_json()["causes_not_known"], [{"reason": DIFFERS, "first_event": 2, "last_event": 2}])
        self.assertEqual(found.causes, [])

    def test_the_text(self) -> None:
        drive = braked()
        drive.read(*SLOWING, brake="none")
        drive.clock()
        sample = journal(*drive.records)
        sample.why = [line(0, "emergency", not_revalidated=0), line(1, "none"), line(5, "emergency", far_too_fast=5), line(25, "none")]
        sample.replay = [{"replay": "agrees", "first_event": 0, "last_event": 26}]
        *_, last = why.explained(sample)
        self.assertEqual(last.text({5: "events 5..24\n", 25: "never\n"}), BRAKES)

    def test_paragraphs(self) -> None:
        text = ["event 1: brake none", "  a", "block 2 can't be read", "life 1 events 3..4 can't be replayed: ..", "event 9: brake none"]
        self.assertEqual(why.paragraphs(text), {1: "event 1: brake none\n  a\n", 9: "event 9: brake none\n"})


if __name__ == "__main__":
    unittest.main()
