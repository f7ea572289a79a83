"""The word `search`: what is kept of what is found (docs/howto/searching.md)."""
import contextlib
import io
import unittest
from pathlib import Path

from gaknifur.cli.search_commands import names_of, report_held
from gaknifur.program import Failed
from gaknifur.search import properties

LONG = "while the train stands and nothing has been heard of a track for a long time"


class Names(unittest.TestCase):
    """The names of what is kept."""

    def test_a_note_gives_its_name(self) -> None:
        self.assertEqual(names_of(["No train is ever tripped", "±", "Brems-Kurve 2"]),
                         ["no_train_is_ever_tripped", "found", "brems_kurve_2"])

    def test_two_long_notes_have_two_names(self) -> None:
        found = names_of([f"{LONG}, it brakes", f"{LONG}, it is tripped", "a", "a", "A 2", "a"])
        self.assertEqual(found, ["while_the_train_stands_and_nothing_has_been_heard_of_a_track",
                                 "while_the_train_stands_and_nothing_has_been_heard_of_a_track_2", "a", "a_2", "a_2_2", "a_3"])


class Results(unittest.TestCase):
    """What is printed of a property that no record breaks."""

    def test_few_records_of_random_scenarios_are_thin(self) -> None:
        one = properties.read(Path(__file__).parents[2] / "examples/suites/safety_laws.search.yaml").properties[0]
        for judged, where, wanted in ((100, " of 60 scenarios", "holds"), (99, " of 60 scenarios", "thin"), (0, " of 60 scenarios", "unjudged"),
                                      (1, "", "holds"), (0, "", "unjudged")):
            with contextlib.redirect_stdout(io.StringIO()) as printed:
                self.assertEqual(report_held(one, judged, where), not judged)
            self.assertEqual(printed.getvalue(), f"{wanted}: {one.note}: {judged} {'record' if judged == 1 else 'records'} judged{where}\n")


class TestCases(unittest.TestCase):
    """A file of test cases in place of properties."""

    def test_lab_test_is_named(self) -> None:
        path = Path(__file__).parents[2] / "examples/suites/power_up_and_desk.case.yaml"
        with self.assertRaisesRegex(Failed, r"power_up_and_desk\.case\.yaml:2:1: this is a test case; `lab test` runs it$"):
            properties.read(path)


if __name__ == "__main__":
    unittest.main()
