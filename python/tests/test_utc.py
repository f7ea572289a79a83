"""The time of day of a life, as it is stated."""
import unittest

from gaknifur.journal import report, tables, utc

from .samples import journal, reading, record

TEN = "2026-03-01T10:00:00.000Z"


class Stated(unittest.TestCase):
    """What is stated, and what outputs have of it."""

    def test_a_life_and_a_time(self) -> None:
        for text, life, wanted in ((f"1={TEN}", 1, TEN), ("12=2026-03-01T11:30:00+01:30", 12, TEN), ("3=2026-03-01T10:00:00.5Z", 3, "2026-03-01T10:00:00.500Z")):
            found = utc.parsed(text)
            self.assertEqual((found[0], utc.iso(found[1])), (life, wanted))
        for text in ("", "1", TEN, f"x={TEN}", f"-1={TEN}", "1=10:00", "1=2026-03-01T10:00:00", "1=2026-02-30T10:00:00Z", "1=1969-12-31T23:59:59Z",
                     "1=9001-01-01T00:00:00Z", f"1={TEN} "):
            with self.assertRaises(ValueError, msg=text):
                utc.parsed(text)

    def test_moments(self) -> None:
        begun = dict([utc.parsed(f"1={TEN}"), utc.parsed("2=9000-12-31T23:59:59.999Z")])
        self.assertEqual([utc.at(begun, 1, moment) for moment in (0, 1_500, 86_400_000)], [TEN, "2026-03-01T10:00:01.500Z", "2026-03-02T10:00:00.000Z"])
        self.assertEqual((utc.at(begun, 2, 2**40 - 1), utc.at(begun, 3, 0), utc.at(begun, None, 0)), ("9035-11-04T19:53:47.774Z", None, None))

    def test_outputs(self) -> None:
        sample = journal(record(0, "powerup"), reading(1, 36_000, time_ms=1_000), record(2, "powerup", life=2))
        self.assertTrue(tables.frame(sample)["utc_stated"].isna().all())
        self.assertFalse("outside the proof" in report.page(sample))
        sample.utc = dict([utc.parsed(f"1={TEN}")])
        self.assertEqual(list(tables.frame(sample)["utc_stated"]), [TEN, "2026-03-01T10:00:01.000Z", None])
        page = report.page(sample)
        for text in (f"UTC is as it was stated: life 1 began at {TEN} (its moment 0). It is outside the journal and outside the proof", "2026-03-01 10:00:01.000 UTC"):
            self.assertTrue(text in page, text)


if __name__ == "__main__":
    unittest.main()
