#!/usr/bin/env python3
"""Runs `./lab` on whole, damaged and long images, and looks at what it makes.

    tests/lab/report_rows.py ETCS ETCS_LAB
"""
import contextlib
import csv
import io
import json
import os
import resource
import sqlite3
import subprocess
import sys
import tempfile
from pathlib import Path

HERE = Path(__file__).resolve().parent
TOP = HERE.parents[1]
sys.path[:0] = [str(HERE), *(str(TOP / part) for part in ("python", "tests", "tests/etcs_lab", "tests/model"))]

import gaknifur.__main__  # noqa: E402
from blocks import block, entry, image_of  # noqa: E402
from gaknifur.journal import braking, reading, tables  # noqa: E402
from gaknifur.journal.extent import Bound, Extent  # noqa: E402
from compared import Compared  # noqa: E402
from table_rows import page_faults, page_of  # noqa: E402

LONG, MOST_SECONDS, MOST_BYTES = 100_000, 900, 3_000_000  # (the seconds only guard against no end)
RECORDS, MOST_TIMES = 8, 50
EXAMPLES = {"full_supervision": 2, "linking_fault": 2, "on_sight": 2, "power_cut": 4, "staff_responsible": 1, "trip": 2}
"""Examples, and charts on their pages at the least."""


class Rows(Compared):
    def __init__(self, etcs, room):
        super().__init__()
        self.etcs, self.room = etcs, Path(room)

    def lab(self, *words, status=0, said=""):
        """Does what ./lab does, in this process; its status and its last line on standard error are compared."""
        out, errors = io.StringIO(), io.StringIO()
        with contextlib.redirect_stdout(out), contextlib.redirect_stderr(errors):
            try:
                got = gaknifur.__main__.main([str(word) for word in words])
            except SystemExit as end:
                got = end.code
        self.said = errors.getvalue().splitlines()[-1] if errors.getvalue() else ""
        if said is not None:
            self.same(f"lab {' '.join(map(str, words))}", (got, self.said), (status, said))
        return out.getvalue()

    def script(self, *words, status=0):
        """The same by the script; answers what it prints."""
        done = subprocess.run([TOP / "lab", *map(str, words)], capture_output=True, text=True, stdin=subprocess.DEVNULL)
        self.same(f"./lab {' '.join(map(str, words))}", (done.returncode, done.stderr), (status, ""))
        return done.stdout

    def page(self, name, *words, charts, text=(), said=""):
        """A report whose page has at least `charts` charts, and these texts; its status is 4 if there is a message."""
        out = self.room / "out.html"
        out.unlink(missing_ok=True)
        self.lab("report", name, out.name, *words, said=said, status=4 if said else 0)
        page_text = out.read_text() if out.exists() else ""
        page = page_of(page_text)
        self.same(f"{name} {words}, faults of the page", page_faults(page_text), [])
        self.same(f"{name} {words}, at least {charts} charts", page.elements.get("svg", 0) >= charts, True)
        plain = "".join(page.text)
        for one in text:
            self.same(f"{name} {words} contains \"{one}\"", one in plain, True)
        return page_text

    def run(self, *words):
        subprocess.run([self.etcs, *map(str, words)], cwd=self.room, check=True, stdout=subprocess.DEVNULL)


def examples(rows):
    for name, charts in EXAMPLES.items():
        rows.run("format", name, 16)
        for scenario in ("scenario.json", "restart.json"):
            if (TOP / "examples" / name / scenario).exists():
                rows.run("run", TOP / "examples" / name / scenario, name)
        first = rows.page(name, charts=charts, text=["each event agrees with the kernel", "IC 704"])
        rows.same(f"{name}, the same page twice", rows.page(name, charts=charts), first)
    rows.page("trip", charts=2, text=["the mode is Trip: since event 10", "not stood since: since event 8, no longer after event", "15.0 km/h", "event 8", "the driver starts (not accepted)", "300.00 – 327.00", "end announced by event 1",
              "the train was tripped: the minimum safe front was past the end of authority (event 10, 4.6.3)",
              "life 1, event 10, at 325.00 m", "the outputs of life 1 after its power-up, up to event 8, had left the unit; not known: the outputs of block 3, the newest, of events 9 to 16", "1 power-up, each with the emergency brake"])
    row = next(row for row in csv.DictReader(io.StringIO(rows.lab("table", "trip"))) if row["event"] == "11")
    rows.same("the cause of a trip in the table", (row["mode"], row["trip_cause"], row["trip_cause_event"]), ("TR", "end_passed", "10"))
    rows.page("trip", "--from", "8", "--to", "11", charts=1, text=["from 8 to 11"])
    rows.page("trip", "--from", "200m", "--to", "315m", charts=1, text=["from 200m to 315m"])
    rows.page("on_sight", "--from", "20s", "--to", "40s", "--life", "1", charts=1, text=["of life 1"])
    has = "it has events 0 to 16, of life 1. Nothing was written."
    rows.lab("report", "trip", "none.html", "--life", "7", status=1, said=f"lab: trip: the journal has no record of life 7; {has}")
    rows.lab("report", "trip", "none.html", "--from", "5000", status=1, said=f"lab: trip: the journal has no record from 5000; {has}")
    rows.same("a report of nothing isn't written", (rows.room / "none.html").exists(), False)


def damaged(rows):
    image = (rows.room / "trip").read_bytes()
    at = 512 * (1 + 6 * 2) + 1024 + 16
    (rows.room / "byte").write_bytes(image[:at] + b"\xff" + image[at + 1:])
    lost = "lab: byte: something is lost, damaged or contradicts"
    rows.page("byte", charts=1, said=lost, text=["7 records of blocks that are damaged or in a wrong slot have the form of an event", "damaged27936", "block 2 can't be read", "Lost: block 2, with events 1 to 8", "Cause not known: blocks or events are missing before."])
    (rows.room / "newest").write_bytes(image[:512 * (1 + 6 * 3) + 1024 + 16] + b"\xff" + image[512 * (1 + 6 * 3) + 1024 + 17:])
    rows.page("newest", charts=0, said="lab: newest: something is lost, damaged or contradicts", text=["block 3 can't be read"])
    (rows.room / "short").write_bytes(image[:-512])
    early = "ends early: by its first sector it has 16 slots, so 49,664 bytes, and here are 49,152. Copy it from the medium again."
    short = f"lab: short: something is lost, damaged or contradicts: the file {early} The records are those of each readable slot"
    rows.page("short", charts=EXAMPLES["trip"], said=short)
    rows.run("format", "empty", 4)
    rows.page("empty", charts=0, text=["No block of a journal can be read", "There is nothing to draw"])
    rows.lab("table", "empty")
    rows.lab("database", "empty", "byte", "short", "empty.db", said=short, status=4)
    rows.lab("database", "short", "empty", "again.db", status=4, said=short)
    differs(rows)
    (rows.room / "none").write_bytes(b"x" * 5000)
    rows.lab("why", "short", status=1, said=f"lab: short: {early}")
    rows.lab("report", "none", "none.html", status=1, said="lab: none: is not a formatted image")
    (rows.room / "sector0").write_bytes(b"K" + image[1:])
    unread = "lab: sector0: is not a formatted image. By its size it could have 16 slots: --slots 16 of check, report and why reads it so."
    for word, *out in (("check",), ("why",), ("report", "none.html"), ("table", "none.csv")):
        rows.lab(word, "sector0", *out, status=1, said=unread)
    lost = "lab: sector0: something is lost, damaged or contradicts"
    for word, wanted in (("check", "life 1 events 0..16 agree"), ("why", "event 8: brake emergency")):
        rows.same(f"lab {word} --slots", wanted in rows.lab(word, "--slots", "16", "sector0", status=4, said=lost), True)
    rows.page("sector0", "--slots", "16", charts=EXAMPLES["trip"], said=lost)
    rows.same("no page of what is no image", (rows.room / "none.html").exists(), False)
    rows.lab("report", "missing", "none.html", status=3, said="lab: missing: no such file")
    rows.lab("report", "trip", "no/folder.html", status=3, said="lab: no/folder.html: its folder doesn't exist")
    rows.lab("report", "trip", "none.html", "--from", "3.5", status=2,
             said="lab: 3.5: not an event (120), a place (300m) or a moment (20.5s)")
    rows.lab("database", "trip", "trip.db")
    rows.lab("database", "trip", "trip.db", said="lab: trip: is in the database already")
    rows.lab("database", "trip", "trip", status=1, said="lab: trip: is an input of this command, so it is not written to. Name a new file. Nothing was changed.")
    rows.lab("report", "trip", "byte", "--force", status=1, said="lab: byte: holds a journal, which is never overwritten")
    for word in ("table", "database", "report"):
        rows.same(f"lab {word} --help", f"Usage: lab {word}" in rows.lab(word, "--help"), True)
    rows.same("./lab table", rows.script("table", rows.room / "trip"), rows.lab("table", "trip"))


def differs(rows):
    """A limit that somebody raised: nothing is lost, and the replay differs. All is made, with status 4."""
    image = bytearray((rows.room / "trip").read_bytes())
    at = 512 * (1 + 6 * 2) + 1024 + 42  # the limit of the second block's first record
    wide = rows.lab("table", "trip")
    image[at] += 1
    (rows.room / "raised").write_bytes(image)
    event = next(row["event"] for row in csv.DictReader(io.StringIO(wide)) if row["block"] == "2")
    said = f"lab: raised: the replay differs: life 1, event {event}, in limit_m_per_h"
    rows.page("raised", charts=EXAMPLES["trip"], said=said, text=["In brief", f"event {event}, in limit_m_per_h", "Cause not known"])
    rows.same("a table of what differs", len(rows.lab("table", "raised", status=4, said=said).splitlines()), len(wide.splitlines()))
    rows.lab("database", "raised", "trip", "raised.db", status=4, said=said)


def processor_seconds():
    """What this process and the programs that it ran have taken; wall time goes by what else the machine does."""
    used = [resource.getrusage(who) for who in (resource.RUSAGE_SELF, resource.RUSAGE_CHILDREN)]
    return sum(one.ru_utime + one.ru_stime for one in used)


def long_image(events):
    """A life of `events` events, by the plain writer: a train that runs, stops, and sometimes is far too fast."""
    records, place, speed = [], 0, 0
    for number in range(events):
        at = number % 600
        speed = min(at, 599 - at) * 400
        is_fast = number % 7_000 > 6_990
        way = speed // 36
        place += way if number else 0
        event = ("powerup", 0) if number == 0 else ("clock", 500 * number) if number % 2 else ("odometer", min(way, 10_000), speed)
        records.append(entry(number, event, moment=500 * (number - 1 + number % 2) if number else 0, mode=0, level=1,
                             brake=2 if is_fast or number == 0 else 0, ind=64 if is_fast else 0, estimate=place, uncertainty=500,
                             limit=1_000 if is_fast else 130_000))
    parts = [records[:1]] + [records[at:at + RECORDS] for at in range(1, events, RECORDS)]
    data, done = [], 0
    for number, part in enumerate(parts, 1):
        done += len(part)
        data.append(block(3, number, done, 1, part))
    return image_of(len(parts) + 1, data)


def braked(rows):
    """A life of some 3,000 events that the unit recorded, which brakes 100 times: each cause is known."""
    cycle = [[100_000, 30_000]] + [[1_000, 30_000]] * 17 + [[1_000, 46_000], [100, 52_000], [0, 0]]
    steps = [{"driver": one} for one in ([1, "IC 704"], [4, 1], [3, 20_000, 160_000, 70, 0, 15], [6])]
    steps += [{"drive": one} for one in 100 * cycle]
    (rows.room / "braked.json").write_text(json.dumps({"groups": [], "steps": steps}))
    rows.run("format", "braked", 1_000)
    rows.run("run", "braked.json", "braked")
    begun = processor_seconds()
    page = rows.page("braked", charts=12, text=[f"events 0 to {4 + 100 * 30:,}", "each event agrees with the kernel"])
    took = processor_seconds() - begun
    # 101 interventions: that of the power-up has one cause, and each other one both speeds
    rows.same("a page of 3,000 events has each cause", (page.count("the train has not stood since: since"), page.count("not within it since: since"),
                                                       "Cause not known" in page), (100, 100, False))
    rows.same(f"a report of 3,000 events takes less than {MOST_SECONDS} s of processor time", took < MOST_SECONDS, True)


def extents(count, lives):
    """Parts of a journal of `count` events: some around each end and between, and each life, also with bounds."""
    def event(number):
        return Bound("event", number, str(number))
    ends = sorted({0, 1, 9, count // 2, count - 7, count - 1})
    for number, first in enumerate(ends):
        yield from (Extent(event(first), event(last)) for last in ends[number:] if last - first < count // 2 + 2)
    yield from (Extent(event(ends[3])), Extent(None, event(ends[2])))
    for life in lives:
        yield from (Extent(life=life), Extent(event(ends[2]), event(ends[-2]), life))


def commands(records, train, table, lead=0):
    """The brake commands that begin in a part and end there, with all that is measured."""
    events = set(table["event"])
    return [row for row in braking.rows(records, train, lead) if row["first_event"] in events and row["last_event"] + 1 in events]


def standing(rows, name, moments):
    """A life of moments of the clock; one of few has movement in its middle."""
    driver = [{"driver": one} for one in ([1, "IC 704"], [4, 1], [3, 20_000, 160_000, 70, 0, 15], [6])]
    clock = [{"clock": 125 * (number + 1)} for number in range(moments)]
    middle = [{"drive": [1_000, 46_000]}, {"drive": [100, 0]}] if moments < 1_000 else []
    steps = [*clock[:moments // 3], *driver, *clock[moments // 3:moments // 2], *middle, *clock[moments // 2:]]
    (rows.room / "steps.json").write_text(json.dumps({"groups": [], "steps": steps}))
    rows.run("format", name, len(steps) // RECORDS + 64)
    rows.run("run", "steps.json", name)


def long_stand(rows):
    """What a report of a part takes doesn't grow as the square of the records before it, of which none is a reading."""
    took = {}
    for moments in (LONG // 10, LONG):
        standing(rows, "stand", moments)
        begun = processor_seconds()
        rows.page("stand", "--from", str(moments - 1_000), "--to", str(moments - 1), charts=1, said=None)
        took[moments] = processor_seconds() - begun
    rows.same(f"a report of a part of {LONG} moments takes less than {MOST_TIMES} times as long as one of a tenth", took[LONG] < MOST_TIMES * took[LONG // 10], True)
    print(f"lab: a report of a part of {LONG // 10} and of {LONG} moments took {took[LONG // 10]:.1f} and {took[LONG]:.1f} s of processor time")


def parts(rows):
    """A part is read without the rest, and has the same values as in a table of all; an image that isn't whole is read whole."""
    count = 0
    standing(rows, "still", 250)
    for name in ("power_cut", "trip", "braked", "still"):
        whole = reading.read(name, replay=True, why=True, strays=True)
        table = tables.frame(whole)
        for extent in extents(len(table), sorted(set(table["life"]))):
            wanted = extent.take(table)
            journal = reading.read(name, replay=True, why=True, strays=True, part=extent.part)
            found = extent.take(tables.frame(journal))
            same = [tables.csv_text(one.drop(columns="stretch")) for one in (found, wanted)]
            rows.same(f"{name}, {extent.text()}: the table of a part", same[0], same[1])
            rows.same(f"{name}, {extent.text()}: brake commands", commands(journal.records, journal.train, found, journal.lead), commands(whole.records, None, wanted))
            lead = len(journal.records) - len(found)
            rows.same(f"{name}, {extent.text()}: at most three records before it are read", len(wanted) == 0 or (journal.is_part and lead == journal.lead <= 3), True)
            count += journal.is_part
    rows.same("parts that are read without the rest", count > 35, True)
    rows.page("trip", "--life", "1", "--to", "9", charts=1, text=["The examination and the replay are of all of it. Only this part was read", "life 1, events 0 to 9; at its end"])
    rows.page("byte", "--from", "9", "--to", "12", charts=1, said="lab: byte: something is lost, damaged or contradicts", text=["a part of it: from 9 to 12"])
    begun = ("--utc", "1=2026-03-01T10:00:00Z")
    rows.page("trip", *begun, "--from", "9", "--to", "12", charts=1, text=["Only this part was read", "2026-03-01 10:00:00.000 UTC"])
    rows.same("the table has it", rows.lab("table", "trip", *begun).count(",2026-03-01T10:00:00.000Z"), 17)
    rows.lab("database", *begun, "trip", "begun.db")
    with contextlib.closing(sqlite3.connect("begun.db")) as connection:
        rows.same("the database has it", connection.execute("SELECT utc_stated, count(*) FROM event GROUP BY 1").fetchall(), [("2026-03-01T10:00:00.000Z", 17)])
    rows.lab("report", "trip", "none.html", "--utc", "7=2026-03-01T10:00:00Z", status=1,
             said="lab: trip: no event of life 7 is here, which --utc names. Nothing of it was written.")
    rows.lab("report", "trip", "none.html", *begun, *begun, status=2, said="lab: --utc names a life twice")
    rows.lab("database", *begun, "trip", "byte", "begun.db", status=2, said="lab: --utc works with one image only; add each one by itself")
    rows.lab("table", "trip", "--utc", "1=10:00", status=2,
             said="lab table: error: invalid value for '--utc': has to be a life and a time with its zone, as 1=2026-03-01T10:00:00Z")


def long(rows):
    (rows.room / "long").write_bytes(long_image(LONG))
    begun = processor_seconds()
    said = "lab: long: the replay differs: life 1, event 0, in mode"
    page = rows.page("long", charts=14, said=said, text=[f"{LONG:,} events", "The 12 interventions farthest above the limit"])
    took = processor_seconds() - begun
    rows.same(f"a report of {LONG} events takes less than {MOST_SECONDS} s of processor time and {MOST_BYTES} bytes",
               (took < MOST_SECONDS, len(page.encode()) < MOST_BYTES), (True, True))
    print(f"lab: a report of {LONG} events took {took:.1f} s of processor time, and has {len(page.encode()):,} bytes")
    rows.page("long", "--from", "6950", "--to", "7050", charts=2, said=said, text=["101"])
    rows.lab("database", "long", "long.db", said=said, status=4)
    with contextlib.closing(sqlite3.connect("long.db")) as connection:
        for view in ("mode_change", "driver_action", "brake_intervention", "intervention_cause", "above_limit", "trip"):
            found = len(connection.execute(f"SELECT * FROM {view}").fetchall())
            rows.same(f"{view} has rows", found > 0, view in ("brake_intervention", "above_limit"))


def main(words):
    os.environ["GAKNIFUR_ETCS_LAB"] = str(Path(words[1]).resolve())
    with tempfile.TemporaryDirectory() as room, contextlib.chdir(room):
        rows = Rows(str(Path(words[0]).resolve()), room)
        examples(rows)
        damaged(rows)
        braked(rows)
        parts(rows)
        long_stand(rows)
        long(rows)
    print(f"lab: {rows.count} comparisons of ./lab, {rows.differ} differ")
    return 1 if rows.differ else 0


if __name__ == "__main__":
    sys.exit(main(sys.argv[1:]))
