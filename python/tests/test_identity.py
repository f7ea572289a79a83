"""Whose an image is: the file next to it."""
import tempfile
import unittest
from pathlib import Path

from gaknifur.journal import identity
from gaknifur.journal.identity import Identity
from gaknifur.program import Failed

TEXT = "unit: 17\nvehicle: 402 001\n\nsoftware: 2.3.0\n"


class Parsing(unittest.TestCase):
    """The lines of the file."""

    def test_a_file(self) -> None:
        self.assertEqual(Identity.parsed(TEXT), Identity("17", "402 001", "2.3.0"))
        self.assertEqual(Identity.parsed(TEXT).text(), "unit 17, vehicle 402 001, software 2.3.0")
        self.assertEqual(Identity.parsed("software:x:y\r\n"), Identity(software="x:y"))
        self.assertEqual(Identity.parsed("").text(), "nothing is known")

    def test_what_is_refused(self) -> None:
        for text, line in (("unit 17", 1), ("unit:", 1), ("unit: 1\nunit: 1", 2), ("driver: me", 1), ("unit: 1\n\nUnit: 2", 3)):
            with self.assertRaisesRegex(ValueError, f"^line {line} "):
                Identity.parsed(text)

    def test_signs_are_spelled(self) -> None:
        self.assertEqual(Identity.parsed("unit: 1\x1b[2J").unit, "1\\x1b[2J")


class Files(unittest.TestCase):
    """Files next to images."""

    def setUp(self) -> None:
        folder = tempfile.TemporaryDirectory()
        self.addCleanup(folder.cleanup)
        self.room = Path(folder.name)

    def image(self, name: str, text: str | None) -> Path:
        """An image with its identity."""
        if text is not None:
            (self.room / f"{name}.identity").write_text(text)
        return self.room / name

    def test_a_file(self) -> None:
        self.assertIsNone(identity.of(self.image("none", None)))
        self.assertEqual(identity.of(self.image("a", TEXT)), Identity("17", "402 001", "2.3.0"))

    def test_a_file_that_is_none(self) -> None:
        for text in ("driver: me", "x" * 5_000):
            with self.assertRaises(Failed) as refused:
                identity.of(self.image("a", text))
            self.assertIn("a.identity: ", str(refused.exception))
        (self.room / "b.identity").symlink_to(self.room / "a.identity")
        with self.assertRaises(Failed):
            identity.of(self.room / "b")


if __name__ == "__main__":
    unittest.main()
