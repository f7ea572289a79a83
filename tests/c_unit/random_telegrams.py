#!/usr/bin/env python3
"""Random telegrams, the same in every run: the C library answers what the plain decoder answers.

    tests/c_unit/random_telegrams.py PROGRAM [COUNT [SEED]]    PROGRAM is answers.c with the library; 2,000 telegrams, seed 2026
"""
import random
import subprocess
import sys
from pathlib import Path

TESTS = Path(__file__).resolve().parents[1]
sys.path[:0] = [str(TESTS / "hostile"), str(TESTS / "model")]

import decoded  # noqa: E402
from random_inputs import headed, mutated  # noqa: E402


def wanted(data):
    """The number of the fault, and how many packets."""
    lines = decoded.answer(data).splitlines()
    if lines[-1].startswith("refused"):
        return f"{lines[-1].split()[1]} 0"
    return f"0 {sum(line.startswith('packet ') for line in lines)}"


def main(words):
    program, *given = words
    count, seed = [int(word) for word in given] + [2_000, 2026][len(given):]
    numbers = random.Random(seed)
    telegrams = [b"", *((headed if numbers.randrange(2) else mutated)(numbers) for _ in range(count - 1))]
    ran = subprocess.run([program], input="".join(data.hex() + "\n" for data in telegrams), capture_output=True, text=True, timeout=60)
    answers, asked = ran.stdout.splitlines(), [wanted(data) for data in telegrams]
    found = [f"{data.hex()}: {answer}, wanted {one}" for data, answer, one in zip(telegrams, answers, asked) if answer != one]
    if ran.returncode or len(answers) != count:
        found.append(f"status {ran.returncode}, {len(answers)} answers")
    read = sum(one.startswith("0 ") for one in asked)
    print(*found[:20], f"{count} telegrams from C, {read} can be read, {len(found)} differences", sep="\n")
    return 1 if found else 0


if __name__ == "__main__":
    sys.exit(main(sys.argv[1:]))
