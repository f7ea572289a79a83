#!/usr/bin/env python3
"""What `etcs_lab check` has to print: the lines of `examine`, those of `replay`, and a last one, as docs/reference/json.md has it. The lines are
those of the plain examiner (examined.py) and of the plain replay (tests/model/replay.py), which share nothing with the program.

    tests/etcs_lab/verdict_rows.py PROGRAM     run the program on each image, with text and with JSON, and compare
"""
import sys
import tempfile
from collections import Counter
from itertools import islice
from pathlib import Path

HERE = Path(__file__).resolve().parent
sys.path[:0] = [str(HERE), str(HERE.parent), str(HERE.parent / "model")]
from compared import Compared, lines_differ, run  # noqa: E402
from examined import examined, text_of  # noqa: E402
from image_cases import sizes, states  # noqa: E402
from replay import replayed  # noqa: E402
from replay_rows import altered, damaged, examples, formats  # noqa: E402

LEAST = 150  # so many images at least
WHOLE, REFUSED, LOST = 0, 1, 4
NO_REPLAY = None
# By the status of an examination and that of a replay: the status, the last line for people, and what that says as JSON.
LAST = {
    (WHOLE, WHOLE): (WHOLE, "the image is whole, and the kernel agrees with each event that is replayed", True, "nothing_differs"),
    (WHOLE, LOST): (LOST, "the image is whole, but the kernel disagrees", True, "differs_or_lost"),
    (LOST, WHOLE): (LOST, "the image is not whole; the kernel agrees with each event that is replayed", False, "nothing_differs"),
    (LOST, LOST): (LOST, "the image is not whole; the kernel disagrees, or events are lost", False, "differs_or_lost"),
    (LOST, NO_REPLAY): (LOST, "the image is not whole; no event is replayed", False, None),
    (REFUSED, NO_REPLAY): (REFUSED, "the image is not whole; no event is replayed", False, None),
}
# By hand: of these images of the lists below the status and the last line.
BY_HAND = {
    "example trip": LAST[WHOLE, WHOLE][:2],
    "block 2 record 1 limit byte 43 is 1": LAST[WHOLE, LOST][:2],
    "block 2 can't be read": LAST[LOST, LOST][:2],
    "the gate of block 1 is closed": LAST[LOST, WHOLE][:2],
    "a sector less": LAST[LOST, NO_REPLAY][:2],
    "no image": LAST[REFUSED, NO_REPLAY][:2],
}


def images():
    for made in (examples, formats, damaged, sizes):
        yield from made()
    for name, image in islice(states(), 0, None, 4):
        yield name, image
    for number, (_, _, name, image) in enumerate(altered()):
        if number % 60 == 0 or name in BY_HAND:
            yield name, image


def wanted(image):
    """Status, and the texts in both forms."""
    text, status = text_of(image)
    replay, lines, objects = replayed(image)
    status, last, whole, word = LAST[status, NO_REPLAY if replay == REFUSED else replay]
    return status, text + lines + last + "\n", [examined(image)[0], *objects, {"check": {"whole": whole, "replay": word}}]


def main(program):
    rows, met, seen = Compared(), Counter(), set()
    with tempfile.TemporaryDirectory() as room:
        path = Path(room) / "image"
        for name, image in images():
            path.write_bytes(image)
            status, text, objects = wanted(image)
            met[text.splitlines()[-1]] += 1
            printed, said, code = run(program, ["check", path])
            rows.same(name, (printed, said.count("\n"), code), (text, int(status == REFUSED), status))
            if name in BY_HAND:
                seen.add(name)
                rows.same(f"{name}, by hand", (code, *printed.splitlines()[-1:]), BY_HAND[name])
            printed, said, code = run(program, ["check", "--json", path])
            rows.same(f"{name}, JSON", (lines_differ(printed, objects), said.count("\n"), code), (None, int(status == REFUSED), status))
    few = sum(met.values()) < LEAST or len(met) < 5 or seen != set(BY_HAND)
    rows.unless(not few, f"too little was tried: {sorted(met)}, by hand {sorted(set(BY_HAND) - seen)} are missing")
    return rows.end(f"check: {rows.count} comparisons of {sum(met.values())} images; of each last line {sorted(met.values())}")


if __name__ == "__main__":
    sys.exit(main(sys.argv[1]))
