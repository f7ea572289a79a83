"""Random lives: the same for the same seed, with telegrams as their text says."""
import hashlib
import itertools
import json
import os
import random
import subprocess
import sys
import unittest
from pathlib import Path

from gaknifur.search import random_lives
from gaknifur.telegrams import telegrams

LIVES = 500
PRINT = "import hashlib, random\nfrom gaknifur.search import random_lives\n" \
    f"print(hashlib.sha256(b''.join(random_lives.scenario(random.Random(f'3/{{at}}')) for at in range({LIVES}))).hexdigest())"


class Lives(unittest.TestCase):
    """Random lives."""

    def setUp(self) -> None:
        self.lives = [random_lives.scenario(random.Random(f"3/{number}")) for number in range(LIVES)]

    def test_the_same_for_the_same_seed(self) -> None:
        """Also in another process, whose sets and dictionaries have another order."""
        path = str(Path(random_lives.__file__).parents[2])
        done = subprocess.run([sys.executable, "-c", PRINT], env=os.environ | {"PYTHONHASHSEED": "1", "PYTHONPATH": path}, capture_output=True, text=True,
                              check=True)
        self.assertEqual(done.stdout.strip(), hashlib.sha256(b"".join(self.lives)).hexdigest())
        self.assertGreater(len(set(self.lives)), LIVES - 50)

    def test_each_is_json_on_a_line(self) -> None:
        for life in self.lives:
            self.assertNotIn(b"\n", life)
            found = json.loads(life)
            places = [group["at"] for group in found["groups"]]
            self.assertEqual((places, set(found)), (sorted(set(places)), {"groups", "steps", "cold"}))
            moments = [step["clock"] for step in found["steps"] if "clock" in step]
            self.assertEqual(moments, sorted(moments))

    def test_telegrams(self) -> None:
        for packets in {*random_lives.AUTHORITIES, *random_lives.RESTRICTIONS}:
            for group in (0, 2, 13, 16_383):
                self.assertEqual(random_lives.telegram(group, packets), telegrams.telegram(f"NID_BG {group}; {packets}").digits)

    def test_slots(self) -> None:
        """By hand: a block for the power-up, one for each flush, one for each eight events, and one for the others."""
        for text, slots in (({"groups": [], "steps": []}, 2), ({"groups": [], "steps": [{"clock": 1}] * 7}, 2), ({"groups": [], "steps": [{"clock": 1}] * 8}, 3),
                            ({"groups": [], "steps": [{"drive": [20_000, 5]}] * 4}, 3), ({"groups": [], "steps": [{"flush": True}, {"clock": 1}] * 2}, 4),
                            ({"groups": [{"at": 1}] * 3, "steps": [{"drive": [5_000, 5]}] * 2}, 3),
                            ({"groups": [{"at": 1}], "steps": [{"drive": [-100, 5]}, {"drive": [100, 5]}]}, 3)):
            self.assertEqual(random_lives.slots_for(json.dumps(text, separators=(",", ":")).encode()), slots, text)

    def test_kinds_of_steps(self) -> None:
        """In a hundred steps that are neither the beginning nor the end: 63 drives, 12 moments, 18 actions, 4 telegrams and 3 flushes."""
        count, of = 20_000, dict.fromkeys(("drive", "clock", "driver", "telegram", "flush"), 0)
        for step in itertools.islice(random_lives.steps(random.Random(1)), count):
            name, = json.loads(step)
            of[name] += 1
        for name, wanted in (("drive", 63), ("clock", 12), ("driver", 18), ("telegram", 4), ("flush", 3)):
            self.assertAlmostEqual(100 * of[name] / count, wanted, delta=1.5)


if __name__ == "__main__":
    unittest.main()
