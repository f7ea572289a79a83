#!/usr/bin/env python3
"""What each command of ./lab says of a journal whose replay differs, and of one that is implausible: status 4, a sentence, and a sign in
what it writes. And of images with one altered byte of a record or a head (tests/etcs_lab/altered_fields.md): the commands take them in turn, and
each says the sentence that follows from the plain replay, with status 4. tests/page/braked.py shows such images to the page.

    tests/lab/verdict_rows.py ETCS_LAB [COUNT [all]]    so many altered images; with `all`, each of them to every command
"""
import contextlib
import io
import itertools
import os
import re
import sqlite3
import sys
import tempfile
from pathlib import Path

TOP = Path(__file__).resolve().parents[2]
sys.path[:0] = [str(TOP / part) for part in ("python", "tests", "tests/model", "tests/etcs_lab")]

from compared import Compared  # noqa: E402
from gaknifur import program  # noqa: E402
from gaknifur.__main__ import main as lab  # noqa: E402
from blocks import image_of, patched  # noqa: E402
from replay import replayed  # noqa: E402
from replay_rows import STARTED, altered as altered_fields, blocks_of, examples  # noqa: E402

BRAKE_OF_7 = 512 + 2 * 3072 + 1024 + 6 * 256 + 2
"""The byte of the example trip in which event 7, the seventh record of block 2, has its brake."""
DIFFERS = "the replay differs: life 1, event 7, in brake"
MOVED = "implausible: life 1, events "


def run(*words):
    """Does what ./lab does, in this process: what it prints, what it says, and its status."""
    printed, said = io.StringIO(), io.StringIO()
    with contextlib.redirect_stdout(printed), contextlib.redirect_stderr(said):
        status = lab([str(word) for word in words])
    return printed.getvalue(), said.getvalue(), status


def altered(rows, room):
    """One byte of a brake is altered: a replay finds it."""
    image = room / "altered"
    data = dict(examples())["example trip"]
    rows.same("the byte of the brake", data[BRAKE_OF_7], 0)
    image.write_bytes(patched(data, BRAKE_OF_7, b"\1"))
    for words, out in ((["report"], "a.html"), (["database"], "a.db"), (["table"], "a.csv"), (["seal"], "a.seal")):
        _, said, status = run(*words, image, room / out)
        rows.same(f"{words[0]} of an altered journal", (status, DIFFERS in said), (4, True))
    rows.unless(DIFFERS in (room / "a.html").read_text(), "no sign in the report")


def implausible(rows, room):
    """Readings say standstill, and the train moved: no replay finds it, and physics does."""
    image = room / "implausible"
    blocks = blocks_of([("unknown", (*STARTED, *["move 2000 0"] * 4))], 3)
    image.write_bytes(image_of(len(blocks) + 2, blocks))
    text, _, status = run("check", image)
    rows.same("lab check", (status, MOVED in text), (4, True))
    sentence = next(line for line in text.splitlines() if line.startswith(MOVED))
    for words, out in ((["report"], "i.html"), (["database"], "i.db"), (["seal"], "i.seal")):
        _, said, status = run(*words, image, room / out)
        rows.same(f"{words[0]} of an implausible journal", (status, sentence in said), (4, True))
    for path in (room / "i.html", room / "i.seal/report.html"):
        rows.unless(sentence in path.read_text(), f"{path.name}: no sign of it")
        rows.unless(program.reader() in path.read_text(), f"{path.name}: doesn't say by what it was read")
    for path in (room / "i.db", room / "i.seal/journal.db"):
        with sqlite3.connect(path) as connection:
            rows.same(f"{path.name}: findings", connection.execute("SELECT what, life, says FROM implausible").fetchall(), [("standing", 1, sentence)])
            proved = program.reader_is_proved()
            rows.same(f"{path.name}: reader", connection.execute("SELECT reader, reader_is_proved FROM image").fetchone(),
                      (program.reader(), None if proved is None else int(proved)))
    text, said, status = run("verify", room / "i.seal")
    rows.same("verify", (status, said.strip(), f"with lab {program.version()}; {program.PROOF[program.reader_is_proved()]}\n" in text),
              (4, f"lab: {room}/i.seal/image: {sentence}", True))


BRAKED = """\
  the train was tripped: the minimum safe front was past the end of authority (event 10, 4.6.3)
  no train may run in this mode: 0 km/h (4.4)
  did it brake? life 1 events 8..12: emergency brake at 15 km/h, trip by event 10: the train stops
    deceleration begins after 0 to ? s, 0 to 15 m: 0 to ? m/s²
    standstill after 0 to ? s, 27 m
    the train data promise 0.7 m/s² after 0 s, 12.41 m: reaction not sure, rate not sure, way broken""".splitlines()
"""The end of `lab why` of the example trip: 15 m and 12 m, and no moment after the command; 0.7 m/s² stops 15 km/h in 12.41 m."""


def honest(rows, room):
    """A journal in which nothing is odd has status 0 everywhere."""
    image = room / "honest"
    image.write_bytes(dict(examples())["example trip"])
    whose = "unit: 17\nvehicle: 402 001\n"
    (room / "honest.identity").write_text(whose)
    for words, out in ((["report"], "h.html"), (["database"], "h.db"), (["seal"], "h.seal"), (["table"], "h.xlsx")):
        _, said, status = run(*words, image, room / out)
        rows.same(f"{words[0]} of an honest journal", (status, said), (0, ""))
    rows.same("why of an honest journal", (run("why", image)[0].splitlines()[-6:], run("why", image, 6)[::2]), (BRAKED, ("""event 6: brake none, limit 58.714 km/h, speed 30 km/h
  the limit is that of the end of authority: 0 km/h at 300 m (3.8, 3.13)
  did it brake? no brake is commanded
""", 0)))
    rows.same("why of a broken way", run("why", image)[1:], (f"lab: {image}: the train braked less than its train data promise: life 1, event 8, in way\n", 4))
    rows.unless("Implausible" not in (room / "h.html").read_text(), "the report finds something")
    for page in ("h.html", "h.seal/report.html"):
        rows.unless("unit 17, vehicle 402 001, by the file next to the image" in (room / page).read_text(), f"{page} doesn't say whose it is")
    for name in ("h.db", "h.seal/journal.db"):
        with sqlite3.connect(room / name) as connection:
            rows.same(f"{name}: whose it is", connection.execute("SELECT unit, vehicle, software FROM image").fetchall(), [("17", "402 001", None)])
            # 15 km/h, and 27 m from 300 m to 327 m; 0.7 m/s2 stops it in 12.41 m
            rows.same(f"{name}: braking", connection.execute("SELECT first_event, brake, answer, until, way_least_cm, way_most_cm, promised_cm, way FROM braking").fetchall(),
                      [(0, "emergency", "standing", "released", None, None, None, None), (8, "emergency", "stopped", "standstill", 2_700, 2_700, 1_241, "broken")])
    rows.same("the identity in the seal", (room / "h.seal/image.identity").read_text(), whose)
    rows.same("verify", run("verify", room / "h.seal")[2], 0)
    (room / "h.seal/image.identity").write_text("unit: 18\n")
    rows.same("verify an altered identity", run("verify", room / "h.seal")[2], 4)
    import openpyxl
    notes = [row[0] for row in openpyxl.load_workbook(room / "h.xlsx")["notes"].iter_rows(values_only=True)]
    rows.unless(f"read by {program.reader()}" in notes, f"the workbook doesn't say by what it was read: {notes}")


COMMANDS = ("check image", "table image out.csv", "database image out.db", "why image",
            "report image out.html", "seal image sealed", "verify sealed")
"""The commands that take altered images in turn; the last two take the same one."""
COUNT, LEAST = 44, 10
"""The number of altered images, and how many of them a replay finds at the least."""
LOST = "something is lost, damaged or contradicts"


def wanted(data):
    """The sentence about faults of an image, by the plain replay."""
    text = replayed(data)[1]
    found = re.findall(r"^life (\d+) (?:block \d+ (event \d+)|(head of block \d+)) differs in (\w+)$", text, re.MULTILINE)
    is_lost = any("can't be read" in line or line.startswith("lost") for line in text.splitlines())
    more = f", and {len(found) - 1} more" if len(found) > 1 else ""
    differs = [f"the replay differs: life {life}, {event or f'the {head}'}, in {field}{more}" for life, event, head, field in found[:1]]
    return "; ".join([LOST] * is_lost + differs), bool(differs)


def altered_images(count):
    """So many images with one altered byte of a record or a head."""
    images = [data for part, _, _, data in altered_fields() if part]
    return images[::max(len(images) // count, 1)][:count]


def every_command(rows, room, count, is_all):
    """An image with one altered byte for each command in turn, over and over; or each image for all commands."""
    some, turns, differ = altered_images(count), itertools.cycle(COMMANDS), 0
    for number, data in enumerate(some):
        sentence, is_difference = wanted(data)
        differ += is_difference
        if not sentence:
            continue
        at = room / f"altered-{number}"
        at.mkdir()
        (at / "image").write_bytes(data)
        words = [one.split() for one in COMMANDS] if is_all else [next(turns).split()]
        words += [next(turns).split()] if not is_all and words[0][0] == "seal" else []
        for name, *files in words:
            _, said, status = run(name, *(at / file for file in files))
            rows.same(f"{name} of altered image {number}", (status, sentence in said), (4, True))
    rows.unless(differ >= min(LEAST, count // 8), f"a replay finds only {differ} of {len(some)} altered images")


def main(words):
    os.environ["GAKNIFUR_ETCS_LAB"] = str(Path(words[0]).resolve())
    rows = Compared()
    with tempfile.TemporaryDirectory() as at:
        room = Path(at)
        altered(rows, room)
        implausible(rows, room)
        honest(rows, room)
        every_command(rows, room, int(words[1]) if len(words) > 1 else COUNT, "all" in words[2:])
    return rows.end(f"verdicts of a journal: {rows.count} comparisons")


if __name__ == "__main__":
    sys.exit(main(sys.argv[1:]))
