#!/usr/bin/env python3
"""Compare the output of `./lab` about images with what plain readers find in them.

    tests/lab/table_rows.py ETCS_LAB [IMAGES [SEED]]

- Tables and the database agree, record by record, with the plain reader of tests/etcs_lab over pseudo-random images in
  all three formats, whole and damaged, with and without other blocks; so do interventions and runs above the limit.
- So do the records of blocks that are damaged or in a wrong slot, each with its slot and byte, in a table of their own and on
  the page.
- For images of lives that are run, whole, damaged and in all formats, the causes of tables, database and interventions are
  those of the plain causes (tests/model/why.py), and they are unknown exactly where the plain replay doesn't agree.
- All text of an image is escaped on the page.
"""
import csv
import html.parser
import io
import itertools
import os
import re
import sys
import tempfile
from collections import Counter
from pathlib import Path

TOP = Path(__file__).resolve().parents[2]
sys.path[:0] = [str(TOP / part) for part in ("python", "tests", "tests/etcs_lab", "tests/model")]

import pandas as pd  # noqa: E402
from blocks import image_with  # noqa: E402
from compared import Compared  # noqa: E402
from gaknifur import program  # noqa: E402
from gaknifur.journal import _words, causes, database, reading, report, tables  # noqa: E402
from gaknifur.program import Run  # noqa: E402
from replay import replayed  # noqa: E402
from replay_rows import damaged, examples, formats, random_lives  # noqa: E402
from why import WORDS, explained, walk_of  # noqa: E402
from why_rows import more_lives  # noqa: E402
from images import MARKUP, random_images  # noqa: E402
from journal import SIGNS  # noqa: E402
from event_lines import Refused, image_lines  # noqa: E402

IMAGES, SEED = 200, 44
LIVES, EACH = 25, 7
"""Images of each kind of lives; every EACH-th event without a line of its own is compared."""
LEAST_KNOWN, LEAST_UNKNOWN, LEAST_TRIPS = 150, 20, 3
LEAST_RECORDS, LEAST_INTERVENTIONS, LEAST_TELEGRAMS, LEAST_UNUSED = 4_000, 500, 300, 100
PLAIN = ("block event life kind time_ms mode level brake place_cm uncertainty_cm min_safe_front_cm max_safe_front_cm limit_m_per_h movement_cm "
         "now_ms word action identity running_number chosen_level confirmed acknowledged length_cm maximum_m_per_h category "
         "deceleration_cm_per_s2 reaction_ms telegram").split()
HEADER = "NID_C NID_BG N_PIG N_TOTAL M_DUP M_MCOUNT Q_LINK".split()
GREATEST = 2**62
LEAST_STRAYS, EACH_PAGE, LEAST_PAGES, MOST_SHOWN = {"damaged": 800, "misplaced": 400}, 40, 5, 800
"""Records of each source, and pages that show some: that of each fortieth image that has any."""

NEIGHBOURS = """
SELECT image, block, event FROM (
    SELECT *, LAG(mode) OVER w AS mode_was, LAG(level) OVER w AS level_was, LAG(brake) OVER w AS brake_was,
        LAG(speed_m_per_h) OVER w AS speed_was, LEAD(event) OVER w AS event_is, LEAD(time_ms) OVER w AS ms_is, LEAD(place_cm) OVER w AS cm_is
    FROM event WINDOW w AS (PARTITION BY image, stretch ORDER BY block, event))
WHERE (mode_before, level_before, brake_before, speed_before_m_per_h, next_event, next_ms, next_cm)
    IS NOT (mode_was, level_was, brake_was, speed_was, event_is, ms_is, cm_is)"""
"""Records whose columns about their neighbours differ from the record before or after in their stretch."""


def plain_records(image, all_blocks):
    """The records as dictionaries, and the numbers of blocks that can't be read."""
    lines, _ = image_lines(image, all_blocks)
    lines = [line for line in map(dict, lines[1:-1]) if line.get("source") not in ("misplaced", "damaged")]
    return [line for line in lines if "event" in line], [dict(line["unreadable"])["block"] for line in lines if "unreadable" in line]


def plain_strays(image):
    """The records of blocks that are damaged or in a wrong slot, as dictionaries."""
    return [line for line in map(dict, image_lines(image, True)[0][1:-1]) if line.get("source") in ("misplaced", "damaged")]


def with_speeds(records):
    """Each record with the speed that holds after it, and whether it goes on from the record before."""
    before, speed = None, None
    for record in records:
        goes_on = before is not None and (before["event"] + 1, before["life"], before.get("source")) == (
            record["event"], record["life"], record.get("source"))
        speed = speed if goes_on else None
        if record["kind"] == "odometer":
            speed = record["speed_m_per_h"]
        elif record["kind"] == "powerup":
            speed = 0
        yield record, speed, goes_on
        before = record


def wanted_row(record, more):
    """A row of the table as in CSV, with the columns that aren't members of the record."""
    row = {name: record.get(name) for name in PLAIN}
    row |= {"reading_m_per_h": record.get("speed_m_per_h"), "source": record.get("source"), **more}
    row |= {f"shows_{sign}": sign in record["indications"] for sign in SIGNS}
    decoded = dict(record.get("decoded", ()))
    header = dict(decoded.get("header", ()))
    row |= {name.lower(): header.get(name) for name in HEADER}
    row["packets"] = " ".join(str(dict(packet)["packet"]) for packet in decoded["packets"]) if "packets" in decoded else None
    row["fault"] = dict(decoded["refused"])["name"] if "refused" in decoded else None
    return {name: "" if value is None else str(value) for name, value in row.items()}


def unused_in(record):
    """The packets of a telegram that no mode uses in any direction, as dictionaries."""
    return list(map(dict, record.get("unused", ())))


def not_obeyed(record):
    """These as a column reports them."""
    return ", ".join(f"{one['packet']} {one['why']}" for one in unused_in(record)) or None


def wanted_runs(records, holds):
    """First and last event of each run of records, going on, for which something holds."""
    runs = []
    was = False
    for record, speed, goes_on in with_speeds(records):
        is_so = holds(record, speed)
        if is_so and was and goes_on:
            runs[-1][1] = record["event"]
        elif is_so:
            runs.append([record["event"], record["event"]])
        was = is_so
    return runs


def is_above(record, speed):
    return speed is not None and record["limit_m_per_h"] is not None and speed > record["limit_m_per_h"]


class Count(Compared):
    def __init__(self):
        super().__init__()
        self.images = self.unused = self.records = self.interventions = self.telegrams = self.pages = self.strayed = 0
        self.strays = Counter()
        self.is_none_tried = False

    def end(self):
        print(f"lab: {self.records} records of {self.images} images, {self.interventions} interventions, {self.telegrams} telegrams, "
              f"{self.unused} packets that no mode uses, "
              f"{self.strays['damaged']} records of damaged blocks and {self.strays['misplaced']} of misplaced ones, also on {self.pages} "
              f"pages: {self.count} comparisons, {self.differ} differ")
        few = self.unused < LEAST_UNUSED or self.records < LEAST_RECORDS or self.interventions < LEAST_INTERVENTIONS or self.telegrams < LEAST_TELEGRAMS
        few = few or self.pages < LEAST_PAGES or any(self.strays[source] < least for source, least in LEAST_STRAYS.items())
        if few:
            print("too little was tried")
        return 1 if self.differ or few else 0


def compare_table(count, name, journal, records):
    """The table, as it comes out of its CSV text."""
    table = tables.frame(journal)
    rows = list(csv.DictReader(io.StringIO(tables.csv_text(table))))
    wanted = [wanted_row(record, {"speed_m_per_h": speed, "not_obeyed": not_obeyed(record)}) for record, speed, _ in with_speeds(records)]
    got = [{key: row.get(key, "").removeprefix("'") for key in (wanted[0] if wanted else ())} for row in rows]
    count.same(f"{name}, rows", len(got), len(wanted))
    for one, other in zip(got, wanted):
        if one != other:
            count.same(name, {k: v for k, v in one.items() if v != other[k]}, {k: v for k, v in other.items() if v != one[k]})
        count.count += 1
    runs = wanted_runs(records, lambda record, _: record["brake"] != "none")
    found = tables.interventions(table)
    count.same(f"{name}, interventions", [list(pair) for pair in zip(found["first_event"], found["last_event"])], runs)
    count.records += len(records)
    count.interventions += len(runs)
    return table


def compare_strays(count, name, journal, image):
    """The table of records of blocks that are damaged or in a wrong slot; and the page of some images that have any."""
    strays = plain_strays(image)
    if not strays and count.is_none_tried:
        count.same(f"{name}, records of damaged blocks", journal.strays, [])
        return
    wanted = [wanted_row(one, {"byte": str(one["byte"]), "slot": str((one["byte"] - 512) // 3072)}) for one in strays]
    rows = [{key: value.removeprefix("'") for key, value in row.items()}
            for row in csv.DictReader(io.StringIO(tables.csv_text(tables.strays(journal))))]
    count.same(f"{name}, records of damaged blocks", rows, wanted)
    count.strays.update(one["source"] for one in strays)
    if not strays:
        count.is_none_tried = True  # (a table without a row was compared, which takes as long as one with rows)
        return
    count.strayed += 1
    if count.strayed % EACH_PAGE == 1:
        count.pages += 1
        rows_of_page = [[row[at] for at in (0, 1, 2, 3, 4, 5, 9)] for row in page_of(report.page(journal)).strays]
        count.same(f"{name}, damaged blocks on the page", rows_of_page, [
            [row[key] or "?" for key in ("source", "slot", "byte", "block", "life", "event", "mode")] for row in wanted[:MOST_SHOWN]])


def compare_database(count, name, connection, journal, table, records):
    """The rows of the database for the journal that was added last."""
    database.add(connection, journal, table)
    image = connection.execute("SELECT image FROM image WHERE sha256 = ?", [journal.sha256]).fetchone()[0]
    columns = [column for column in PLAIN if column != "telegram"] + ["reading_m_per_h", "speed_m_per_h"] + [f"shows_{sign}" for sign in SIGNS]
    rows = {row[:2]: list(row[2:]) for row in connection.execute(
        f"SELECT block, event, {', '.join(columns)} FROM event WHERE image = ?", [image])}
    wanted, digits, fields, unused = {}, {}, [], []
    for record, speed, _ in with_speeds(records):
        key = record["block"], record["event"]
        values = {**record, "reading_m_per_h": record.get("speed_m_per_h"), "speed_m_per_h": speed}
        values |= {f"shows_{sign}": int(sign in record["indications"]) for sign in SIGNS}
        if (values["uncertainty_cm"] or 0) > GREATEST:
            values["uncertainty_cm"] = None
        wanted[key] = [values.get(column) for column in columns]
        if record["kind"] == "telegram":
            digits[key] = record["telegram"]
            for place, packet in enumerate(dict(record["decoded"]).get("packets", ())):
                fields += [(*key, place, at, *pair) for at, pair in enumerate(dict(packet)["fields"])]
            unused += [(*key, place, *one.values()) for place, one in enumerate(unused_in(record))]
    count.same(f"{name}, database", rows, wanted)
    blocks = {}
    for record in records:
        block, event = record["block"], record["event"]
        source, first, last = blocks.get(block, (record.get("source", "journal"), event, event))
        blocks[block] = source, min(first, event), max(last, event)
    count.same(f"{name}, blocks", {row[0]: row[1:] for row in connection.execute(
        "SELECT block, source, first_event, last_event FROM block WHERE image = ?", [image])}, blocks)
    count.same(f"{name}, telegrams", {row[:2]: row[2] for row in connection.execute(
        "SELECT block, event, digits FROM telegram WHERE image = ?", [image])}, digits)
    count.same(f"{name}, fields", sorted(connection.execute(
        "SELECT block, event, packet, field, name, value FROM field WHERE image = ?", [image])), sorted(fields))
    count.same(f"{name}, packets that no mode uses", sorted(connection.execute(
        "SELECT block, event, unused, nid_packet, name, bit, bits, why FROM unused WHERE image = ?", [image]), key=str), sorted(unused, key=str))
    count.telegrams += len(digits)
    count.unused += len(unused)
    return image


def compare_views(count, name, connection, image, records):
    """Interventions and runs above the limit, as the views report them. Where events come twice, views may not report them."""
    for view, holds in (("brake_intervention", lambda record, _: record["brake"] != "none"), ("above_limit", is_above)):
        got = [list(row) for row in connection.execute(
            f"SELECT first_event, last_event FROM {view} WHERE image = ? ORDER BY first_event, last_event", [image])]
        count.same(f"{name}, {view}", got, sorted(wanted_runs(records, holds)))


def is_no_image(path):
    try:
        reading.read(path)
    except reading.Failed:
        return True
    return False


def images_agree(room, images, seed):
    """Compares all images; each with its other blocks in one database, and without them in another one."""
    count, path = Count(), Path(room) / "image"
    for all_blocks in (False, True):
        connection = database.open_database(Path(room) / f"{all_blocks}.db")
        for name, image in random_images(images, seed):
            path.write_bytes(image)
            try:
                records, unreadable = plain_records(image, all_blocks)
            except Refused:
                count.same(name, is_no_image(path), True)
                continue
            name += ", all" if all_blocks else ""
            journal = reading.read(path, other_blocks=all_blocks, replay=True, strays=True)
            count.images += 1
            compare_strays(count, name, journal, image)
            count.same(f"{name}, unreadable", journal.unreadable, unreadable)
            table = compare_table(count, name, journal, records)
            added = compare_database(count, name, connection, journal, table, records)
            if not all_blocks:
                compare_views(count, name, connection, added, records)
        count.same("the columns about neighbours of a record", connection.execute(NEIGHBOURS).fetchall(), [])
        faults = connection.execute("PRAGMA foreign_key_check").fetchall() + [
            row for row in connection.execute("PRAGMA integrity_check") if row != ("ok",)]
        count.same("the database", faults, [])
        connection.close()
    return count.end()


def lives():
    """Images of lives that are run, some of them damaged."""
    for made in (examples, formats, damaged, random_lives, more_lives):
        yield from itertools.islice(made(), LIVES)


def plain_reasons(image):
    """Of each event that the plain replay can't follow, or to which it answers otherwise, why not."""
    found = {}
    for line in replayed(image)[2]:
        if line.get("replay") == "not_replayed":
            found.update(dict.fromkeys(range(line["first_event"], line["last_event"] + 1), causes.REASONS[line["reason"]]))
        elif line.get("replay") == "record_differs":
            found[line["event"]] = causes.DIFFERS
    return found


def plain_lines(walk, event=None):
    """What the plain program says about each event that it has a line of, or of one event."""
    return [line for line in explained(walk, event)[2] if "event" in line]


def plain_causes(lines):
    """Of each event the causes that such lines say, and the events since which they hold."""
    return {line["event"]: {word: line[word] for word, *_ in WORDS.values() if line[word] is not None} for line in lines}


def wanted_causes(records, reasons, found):
    """First event, causes and reason of each run of commands."""
    runs = []
    for first, last in wanted_runs(records, lambda record, _: record["brake"] != "none"):
        of_run = {pair for event in range(first, last + 1) if event in found and event not in reasons for pair in found[event].items()}
        runs.append((first, sorted(of_run), reasons.get(first)))
    return runs


def causes_agree(room):
    """Compares the causes of all images of lives."""
    count, path = Count(), Path(room) / "image"
    known = unknown = 0
    met, tripped = set(), set()
    connection = database.open_database(Path(room) / "causes.db")
    for name, image in lives():
        path.write_bytes(image)
        try:
            records, _ = plain_records(image, False)
        except Refused:
            continue
        journal = reading.read(path, replay=True, why=True)
        walk = walk_of(image)
        reasons, lines = plain_reasons(image), plain_lines(walk)
        table = tables.frame(journal)
        count.same(f"{name}, reasons", dict(table.loc[table["causes_not_known"].notna(), ["event", "causes_not_known"]].values), reasons)
        got = {event: held for event, held in zip(table["event"], table["held"]) if held is not None}
        # each change is reported, and the last event of each command; those and some others are asked of the plain program
        ends = {last for _, last in wanted_runs(records, lambda record, _: record["brake"] != "none")} - set(reasons)
        found = plain_causes(lines)
        count.same(f"{name}, events that are listed", (found.keys() - set(reasons)) | ends <= set(got), True)
        for event in ends | {event for event in got if event % EACH == 0}:
            found |= plain_causes(plain_lines(walk, event))
        count.same(f"{name}, causes", {event: got.get(event) for event in found if event not in reasons},
                      {event: held for event, held in found.items() if event not in reasons})
        runs = tables.interventions(table)
        wanted = wanted_causes(records, reasons, got)
        count.same(f"{name}, causes of interventions", [
            (first, sorted((one.cause, one.since) for one in held), reason)
            for first, held, reason in zip(runs["first_event"], runs["causes"], runs["causes_not_known"])], wanted)
        if database.add(connection, journal, table):
            in_database(count, name, connection, journal, got, wanted)
        tripped |= words_agree(count, name, path)
        trips_agree(count, name, lines, table, reasons)
        known += sum(reason is None for _, _, reason in wanted)
        unknown += sum(reason is not None for _, _, reason in wanted)
        met |= {cause for _, held, _ in wanted for cause, _ in held}
    connection.close()
    print(f"lab: causes of {known} interventions, and {unknown} of which they aren't known: {count.count} comparisons, {count.differ} differ")
    few = known < LEAST_KNOWN or unknown < LEAST_UNKNOWN or len(met) < len(_words.CAUSES) - 1  # no image leads to System Failure
    few = few or len(tripped) < LEAST_TRIPS
    if few:
        print(f"too little was tried; causes that came: {sorted(met)}, {sorted(tripped)}")
    return 1 if count.differ or few else 0


def trips_agree(count, name, lines, table, reasons):
    """The trips of the table, their causes and the events by which they were entered, are those that the plain program's lines say."""
    tripped = {event: (cause, None if at is pd.NA else int(at))
            for event, cause, at in zip(table["event"], table["trip_cause"], table["trip_cause_event"])}
    wanted = {line["event"]: (line["trip_cause"], line["trip_cause_event"]) for line in lines if line["event"] not in reasons}
    count.same(f"{name}, trips", {event: tripped.get(event) for event in wanted}, wanted)


def in_database(count, name, connection, journal, got, wanted):
    """The causes in the database are the same."""
    image = connection.execute("SELECT image FROM image WHERE sha256 = ?", [journal.sha256]).fetchone()[0]
    rows = {}
    for event, cause, since in connection.execute(
            "SELECT event, cause, since_event FROM cause WHERE image = ?", [image]):
        rows.setdefault(event, {})[cause] = since
    count.same(f"{name}, causes in the database", rows, {event: held for event, held in got.items() if held})
    text = [(first, reason and f"not known: {reason}" or ", ".join(f"{cause} since {since}" for cause, since in sorted(
        held, key=lambda pair: (pair[1], pair[0])))) for first, held, reason in wanted]
    count.same(f"{name}, the view of interventions", connection.execute(
        "SELECT first_event, causes FROM brake_intervention WHERE image = ? ORDER BY first_event", [image]).fetchall(), text)


def words_agree(count, name, path):
    """The texts about causes that the program prints are those of the package."""
    line = re.compile(r"^  because ([^()]*) \(since event \d+, ([^()]*)\)")
    trip = re.compile(r"^  the train was tripped: ([^()]*) \(event \d+, ([^()]*)\)")
    lines = list(Run(["why"], path).lines())
    said = {pair for text in lines for pair in line.findall(text)}
    count.same(f"{name}, words", said <= set(_words.CAUSES.values()), True)
    trips = {pair for text in lines for pair in trip.findall(text)}
    count.same(f"{name}, words of trips", trips <= set(_words.TRIP_CAUSES.values()), True)
    return trips


class Page(html.parser.HTMLParser):
    """Which elements and attributes a page has, and its text."""

    def __init__(self):
        super().__init__()
        self.elements, self.text, self.ids, self.links = {}, [], [], []
        self.strays = []  # the cells of the rows of damaged and misplaced blocks
        self.is_stray = False

    def handle_starttag(self, tag, attributes):
        self.elements[tag] = self.elements.get(tag, 0) + 1
        if tag == "tr":
            self.is_stray = ("class", "stray") in attributes
            self.strays += [[]] if self.is_stray else []
        if tag == "td" and self.is_stray:
            self.strays[-1].append("")
        for key, value in attributes:
            if key == "id":
                self.ids.append(value)
            if key in ("href", "xlink:href", "src"):
                self.links.append(value)

    handle_startendtag = handle_starttag

    def handle_endtag(self, tag):
        self.is_stray = self.is_stray and tag != "tr"

    def handle_data(self, data):
        self.text.append(data)
        if self.is_stray and self.strays[-1]:
            self.strays[-1][-1] += data


def page_of(text):
    page = Page()
    page.feed(text)
    page.close()
    return page


def page_faults(text):
    """What is wrong with a page as such: ids that come twice, links that lead nowhere or out of it, scripts."""
    page = page_of(text)
    ids = Counter(page.ids)
    faults = [f"id {one} {times} times" for one, times in ids.items() if times > 1]
    faults += [f"link {link}" for link in page.links if not link.startswith("#") or link[1:] not in ids]
    return faults + [tag for tag in ("script", "link", "iframe", "object", "embed", "img", "b2") if tag in page.elements]


def markup_stays_text(room):
    """Each identity with markup, in a record and in a head, is on the page as text and adds no element."""
    wrong = 0
    path = Path(room) / "image"
    plain = None
    for text in (b"IC 704", *MARKUP, b"<script>1</scr>", b"<img src=x>", b"'\"><b2>x</b2>", b"{{ 7*7 }}", b"{% raw %}", b"$\\frac{1}{2}$"):
        text = text[:16]
        path.write_bytes(image_with(("driver", b"\1" + text), identity=text))
        path = path.rename(Path(room) / "<b>&amp;'\"")
        page = page_of(report.page(reading.read(path, replay=True)))
        plain = plain or page.elements
        said = "".join(page.text).replace("\n", " ")
        if page.elements != plain or f'enters the identity "{text.decode()}"' not in said or f"“{text.decode()}”" not in said:
            wrong += 1
            print(f"identity {text}: the page differs")
    print(f"lab: {len(MARKUP) + 7} identities with markup on a page, {wrong} differ")
    return wrong


def main(words):
    os.environ["GAKNIFUR_ETCS_LAB"] = str(Path(words[0]).resolve())
    images, seed = (*(int(word) for word in words[1:3]), *(IMAGES, SEED)[len(words) - 1:])
    assert program.find() == os.environ["GAKNIFUR_ETCS_LAB"]
    with tempfile.TemporaryDirectory() as room:
        return 1 if images_agree(room, images, seed) + causes_agree(room) + markup_stays_text(room) else 0


if __name__ == "__main__":
    sys.exit(main(sys.argv[1:]))
