"""The lines of `etcs run`: its outputs, how a run ended, and lines that it doesn't print."""
import unittest

from gaknifur.etcs_run import LifeRun, Released, output_of, read_lines
from gaknifur.program import Failed

from .samples import record

LINES = {
    "event 1 mode SB level - brake emergency limit 0 ind 1": Released(1, "SB", None, "emergency", 0, 1),
    "event 8 mode FS level 1 brake none limit 39271 ind 0": Released(8, "FS", 1, "none", 39271, 0),
    "event 20 mode UN level 0 brake service limit 40000 ind 320": Released(20, "UN", 0, "service", 40000, 320),
}
OUTPUT = "event 8 mode FS level 1 brake none limit 39271 ind 0"
NO_OUTPUTS = ("event 8", "event 8 mode FS level 1 brake none limit 39271", f"{OUTPUT} at 5", OUTPUT.replace("limit", "speed"),
              OUTPUT.replace("39271", "-1"), OUTPUT.replace("39271", "039271"), OUTPUT.replace("39271", "39271.0"), f" {OUTPUT}",
              OUTPUT.replace("mode FS level 1", "level 1 mode FS"), OUTPUT.replace("level 1", "level none"), OUTPUT.replace(" ", "  ", 1),
              "", "stopped 11 ClockBack", "refused 2 Shape")


class Lines(unittest.TestCase):
    """Lines that were read."""

    def test_outputs(self) -> None:
        self.assertEqual(read_lines(0, list(LINES)), LifeRun(list(LINES.values()), "carried out"))
        self.assertEqual([output.text for output in LINES.values()], list(LINES))
        self.assertEqual(read_lines(0, []), LifeRun([], "carried out"))

    def test_ends(self) -> None:
        for last in ("stopped 11 ClockBack", "refused 2 Shape", "device"):
            run = read_lines(1, [OUTPUT, last])
            self.assertEqual((run, run.is_refused), (LifeRun([LINES[OUTPUT]], last), last == "refused 2 Shape"))
        self.assertEqual(read_lines(-9, [OUTPUT]), LifeRun([LINES[OUTPUT]], "status -9"))
        self.assertEqual(read_lines(3, []), LifeRun([], "status 3"))

    def test_what_is_no_output(self) -> None:
        for line in NO_OUTPUTS:
            for status, lines in ((0, [line]), (0, [OUTPUT, line]), (1, [line, OUTPUT]), (1, [line, "stopped 11 ClockBack"])):
                with self.subTest(line=line, status=status), self.assertRaisesRegex(Failed, "a line that isn't an output"):
                    read_lines(status, lines)

    def test_of_a_record(self) -> None:
        line = record(20, mode="UN", level=0, brake="service", limit_m_per_h=40000, indications=["overspeed", "trip"])
        self.assertEqual(output_of(line), Released(20, "UN", 0, "service", 40000, 64 + 8))
        self.assertEqual(output_of(line | {"level": None, "indications": []}), Released(20, "UN", None, "service", 40000, 0))


if __name__ == "__main__":
    unittest.main()
