"""Many scenarios in one process: a program that dies or can't write, and the images."""
import contextlib
import os
import tempfile
import unittest
from pathlib import Path
from unittest.mock import patch

from gaknifur import playing
from gaknifur.program import Failed

PROGRAM = """#!/usr/bin/python3
import os, sys
for number, line in enumerate(sys.stdin, 1):
    if "die" in line:
        sys.stdout.flush()
        os.kill(os.getpid(), 9)
    if "full" in line:
        sys.stdout.flush()
        print("etcs_lab: 2.image: can't be written", file=sys.stderr)
        sys.exit(3)
    if "cut" in line:
        sys.stdout.write('{"id":')
        sys.exit(0)
    images = [word[9:] for word in sys.argv if word.startswith("--images=")]
    for folder in images:
        open(f"{folder}/{number}.image", "w").write(line)
    print('{"id":null,"line":%d,"status":"done","image":%s}' % (number, number if images and "none" not in line else "null"))
"""


class Programs(unittest.TestCase):
    """Stand-ins of the program."""

    def results(self, *scenarios: str) -> tuple[int, str]:
        """How many results there are, and the error after them."""
        count = 0
        with tempfile.TemporaryDirectory() as folder, self.stand_in(Path(folder)):
            try:
                for _ in playing.play({"scenario": one} for one in scenarios):
                    count += 1
            except Failed as failed:
                return count, f"{type(failed).__name__} {failed.status}: {failed}"
        return count, ""

    def stand_in(self, folder: Path) -> contextlib.AbstractContextManager[object]:
        """Has a stand-in played by."""
        path = folder / "lab"
        path.write_text(PROGRAM)
        path.chmod(0o755)
        return patch.dict(os.environ, GAKNIFUR_ETCS_LAB=str(path))

    def test_what_ends_early(self) -> None:
        self.assertEqual(self.results("a", "b"), (2, ""))
        self.assertEqual(self.results("a", "die", "b"), (1, "Failed 1: etcs_lab ended with status -9, after 1 results"))
        self.assertEqual(self.results("a", "full", "b"), (1, "Failed 3: 2.image: can't be written"))
        self.assertEqual(self.results("a", "cut"), (1, "Failed 1: etcs_lab play printed a line that isn't a JSON object, or only a part of one"))

    def test_each_image_until_the_next_result(self) -> None:
        with tempfile.TemporaryDirectory() as folder, tempfile.TemporaryDirectory() as images:
            with self.stand_in(Path(folder)):
                found = [(result["line"], image.read_text() if image else None, sorted(os.listdir(images)))
                         for result, image in playing.play_images([b'{"a":1}', b'"none"', b"[1,2]"], 16, Path(images))]
            self.assertEqual([(line, text) for line, text, _ in found], [(1, '{"scenario":{"a":1}}\n'), (2, None), (3, '{"scenario":[1,2]}\n')])
            self.assertNotIn("1.image", found[2][2])
            self.assertEqual(os.listdir(images), ["2.image"])  # of a scenario that is said to have none


if __name__ == "__main__":
    unittest.main()
