"""The course of a scenario, and where a JSON pointer leads."""
import tempfile
import unittest
from pathlib import Path
from typing import Any

from gaknifur.simulation.scenarios import Scenario
from gaknifur.track import course
from gaknifur.yaml_files import document

TRACK = Scenario(groups=[{"at": 150, "spacing": 300, "balises": ["AA", "BB"]}, {"at": 10_300, "spacing": 1, "balises": ["CC"]}],
                 steps=[{"drive": [150, 1_000]}, {"drive": [-10, 1_000]}, {"drive": [12_000, 1_000]}, {"flush": True}, {"telegram": "DD"},
                        {"drive": [0, 0]}, {"clock": 1}])


class Course(unittest.TestCase):
    """Which part of a scenario asks for which event."""

    def test_a_balise_is_passed_again(self) -> None:
        # Back at 140 cm the train passes the balise at 150 cm once more; the way to 10,300 cm has 9,850 cm, less than a reading.
        self.assertEqual(list(course.planned(TRACK)), [
            ("/steps/0/drive", 150), ("/groups/0/balises/0", 150), ("/steps/1/drive", 140), ("/steps/2/drive", 150),
            ("/groups/0/balises/0", 150), ("/steps/2/drive", 450), ("/groups/0/balises/1", 450), ("/steps/2/drive", 10_300),
            ("/groups/1/balises/0", 10_300), ("/steps/2/drive", 12_140), ("/steps/4/telegram", 12_140), ("/steps/5/drive", 12_140),
            ("/steps/6/clock", 12_140)])

    def test_long_ways_have_several_readings(self) -> None:
        self.assertEqual(list(course.planned(Scenario(steps=[{"drive": [20_001, 1_000]}]))),
                         [("/steps/0/drive", 10_000), ("/steps/0/drive", 20_000), ("/steps/0/drive", 20_001)])

    def test_a_closed_loop_is_followed_by_what_balises_send(self) -> None:
        def event(kind: str, **more: Any) -> dict[str, Any]:
            return {"kind": kind, **more}

        # The odometer reports 160 and 305 cm of the ways of 150 and 300 cm.
        records = [event("clock"), event("odometer", movement_cm=160), event("telegram", telegram="aa"), event("odometer", movement_cm=305),
                   event("telegram", telegram="bb"), event("odometer", movement_cm=-5), event("driver")]
        self.assertEqual([(event.pointer, event.place_cm) for event in course.driven(TRACK, 0, [(one, {}) for one in records])],
                         [("/drive", 0), ("/drive", 160), ("/groups/0/balises/0", 150), ("/drive", 455), ("/groups/0/balises/1", 450),
                          ("/drive", 445), ("/drive", 445)])


class Places(unittest.TestCase):
    """Line and column of a JSON pointer."""

    def test_in_json(self) -> None:
        with tempfile.TemporaryDirectory() as room:
            path = Path(room) / "s.json"
            path.write_text('{"groups": [],\n "steps": [{"flush": true},\n  {"drive": [1, 2]}]}')
            found = {pointer: (at.line, at.column) for pointer in ("", "/steps", "/steps/1", "/steps/1/drive", "/steps/1/drive/1", "/steps/7", "/none")
                     if (at := document(path).inner(pointer))}
        self.assertEqual(found, {"": (1, 1), "/steps": (2, 11), "/steps/1": (3, 3), "/steps/1/drive": (3, 13), "/steps/1/drive/1": (3, 17),
                                 "/steps/7": (2, 11), "/none": (1, 1)})
