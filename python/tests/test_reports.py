"""Reports, charts, the database, parts of a journal, and texts."""
import csv
import io
import json
import re
import sqlite3
import unittest
from pathlib import Path

import pandas as pd

import gaknifur.journal.tables as tables
from gaknifur.journal import braking, charts, database, report, summary, verdict, wording
from gaknifur.journal._words import CAUSES
from gaknifur.journal.extent import Extent, bound
from gaknifur.journal.part import Part
from gaknifur.journal.reading import Journal
from gaknifur.program import Failed, Json

from .samples import AUTHORITY, InFolder, action, journal, line, reading, record

RUN = (record(0, "powerup", mode="SB", brake="emergency"), record(1, "telegram", telegram="90", decoded=AUTHORITY),
       reading(2, 30_000), reading(3, 55_000, brake="emergency", indications=["overspeed"]), reading(4, 0, brake="none"))


def sample() -> Journal:
    """The journal of RUN, with the causes of its brakes."""
    found = journal(*RUN)
    found.replay = [{"replay": "agrees", "life": 1, "first_event": 0, "last_event": 4}, {"end": "nothing_differs"}]
    found.why = [line(0, "emergency", not_revalidated=0), line(1, "none"), line(3, "emergency", far_too_fast=3), line(4, "none")]
    return found


class Pages(unittest.TestCase):
    """The page of a journal."""

    def test_links_lead_to_the_page_itself(self) -> None:
        page = report.page(journal(*RUN))
        ids = re.findall(r'\bid="([^"]*)"', page)
        links = re.findall(r'href="([^"]*)"', page)
        self.assertEqual(len(ids), len(set(ids)))
        self.assertTrue(links)
        self.assertEqual([link for link in links if not link.startswith("#") or link[1:] not in ids], [])

    def test_markup_is_escaped(self) -> None:
        page = report.page(journal(*RUN, action(5, "enter_identity", identity="<b>&\"'</b>")))
        self.assertIn("&lt;b&gt;&amp;", page)
        self.assertNotIn("<b>&", page)

    def test_is_the_same_each_time(self) -> None:
        self.assertEqual(report.page(journal(*RUN)), report.page(journal(*RUN)))

    def test_of_no_record_and_of_one(self) -> None:
        self.assertIn("There is nothing to draw", report.page(journal()))
        self.assertIn("There is nothing to draw", report.page(journal(record(0, "powerup"))))

    def test_what_is_lost_stands_on_it(self) -> None:
        lost = {"what": "lost", "first_block": 1, "last_block": 1, "first_event": 0, "last_event": 7}
        page = report.page(journal(record(8), record(9), between=[lost], whole=False))
        self.assertIn("Lost: block 1, with events 0 to 7", page)

    def test_causes_are_not_made_up(self) -> None:
        page = report.page(journal(*RUN))
        self.assertEqual(page.count("<b>Cause not known:</b> no replay was made."), 2)

    def test_causes_are_listed(self) -> None:
        page = report.page(sample())
        self.assertNotIn("ause not known", page)
        self.assertIn(f"<li>the speed was above the limit by more than 10 km/h, and the train has not stood since: since <a href=\"#r3\">event 3</a>; ends when the train stands</li>", page)


def tripped() -> Journal:
    """Two lives. In the first one the train is tripped, and stays so; the power-up of the second one finds the trip outstanding."""
    found = journal(record(0, "powerup", mode="SB", brake="emergency"), reading(1, 20_000, mode="SR"),
                    reading(2, 20_000, mode="TR", brake="emergency"), reading(3, 0, mode="TR", brake="emergency"),
                    record(4, "powerup", mode="SB", brake="emergency", life=2), record(5, "clock", mode="SB", brake="emergency", life=2))
    found.replay = [{"replay": "agrees", "life": 1, "first_event": 0, "last_event": 3},
                    {"replay": "agrees", "life": 2, "first_event": 4, "last_event": 5}, {"end": "nothing_differs"}]
    trip = {"trip_cause": "staff_distance", "trip_cause_event": 2, "trip_cause_section": "4.4"}
    owed = {"trip_cause": None, "trip_cause_event": None, "trip_cause_section": None}
    found.why = [one | {"limit_cause": "no_speed"} for one in (
        line(0, "emergency", not_revalidated=0) | owed, line(1, "none") | owed, line(2, "emergency", in_trip=2, owes_trip=2) | trip,
        line(4, "emergency", not_revalidated=4, owes_trip=4) | owed)]
    return found


STAFF = "the path in Staff Responsible was above D_NVSTFF (event 2, 4.4)"


class Trips(unittest.TestCase):
    """Why a train was tripped."""

    def test_in_the_table(self) -> None:
        table = tables.frame(tripped())
        self.assertEqual(list(table["trip_cause"]), [None, None, "staff_distance", "staff_distance", None, None])
        self.assertEqual([None if event is pd.NA else event for event in table["trip_cause_event"]], [None, None, 2, 2, None, None])
        rows = list(csv.DictReader(io.StringIO(tables.csv_text(table))))
        self.assertEqual([(row["trip_cause"], row["trip_cause_event"]) for row in rows[1:4]], [("", ""), *[("staff_distance", "2")] * 2])

    def test_on_the_page(self) -> None:
        page = report.page(tripped())
        self.assertIn(f"<li>the train was tripped: {STAFF}</li>", page)
        self.assertIn(f"life 1, <a href=\"#r2\">event 2</a>, at 2.00 m, 20.0 km/h: {STAFF}", page)
        self.assertIn("<li>the train was tripped: it was tripped before the power-up, and why isn&#39;t known</li>", page)

    def test_where_it_is_not_known(self) -> None:
        sample = tripped()
        sample.replay, sample.why = [], []
        self.assertIn("km/h: cause not known: no replay was made", report.page(sample))


class Briefs(unittest.TestCase):
    """The box at the top."""

    def brief(self, sample: Journal) -> summary.Brief:
        table = tables.frame(sample)
        return summary.brief(sample, table, tables.interventions(table))

    def test_of_lives(self) -> None:
        found = self.brief(tripped())
        assert found.last and found.intervention
        self.assertEqual((found.last["life"], found.first_event, found.last["event"], found.last["brake"]), (2, 4, 5, "emergency"))
        self.assertEqual((found.intervention["first_event"], found.intervention["last_event"]), (2, 3))
        self.assertEqual([(trip["life"], trip["event"], trip["why"]) for trip in found.trips], [(1, 2, STAFF)])
        self.assertEqual(found.verdict.sentences, [])

    def test_of_nothing(self) -> None:
        found = self.brief(journal())
        self.assertEqual((found.last, found.intervention, found.trips, found.newest), (None, None, [], None))

    def braked(self, *runs: tuple[str, int]) -> Journal:
        """A life with an intervention for each brake and speed above a limit of 40 km/h."""
        return journal(record(0, "powerup"), *(one for at, (brake, over) in enumerate(runs) for one in (
            reading(2 * at + 1, 40_000 + over, brake=brake), reading(2 * at + 2, 0))))

    def test_the_worst_comes_first(self) -> None:
        page = report.page(sample := self.braked(("service", 6_000), ("emergency", 11_000), ("service", 9_000), ("emergency", 20_000), ("service", 7_000)))
        emergency, service = (page.index(f"<h3>{text}, the farthest above the limit first</h3>") for text in ("With the emergency brake", "By the service brake only"))
        lines = [(found.start(), int(found[1])) for found in re.finditer(r'<tr class="run"><td>.*?<a href="#r(\d)">', page)]
        self.assertEqual([(event, emergency < at < service) for at, event in lines], [(7, True), (3, True), (5, False), (9, False), (1, False)])
        found = self.brief(sample)
        assert found.intervention and found.worst
        self.assertEqual((found.intervention["first_event"], found.worst["first_event"], {7, 9} <= found.rows), (9, 7, True))
        self.assertIn("<dt>Worst intervention</dt><dd>20.0 km/h above the limit: emergency brake, life 1, events <a href=\"#r7\">7</a> to 7,", page)

    def test_one_intervention_is_no_worst(self) -> None:
        for runs in ((), (("service", 6_000),), (("service", 6_000), ("emergency", 0))):
            self.assertIsNone(self.brief(self.braked(*runs)).worst)
        page = report.page(self.braked(("service", 6_000)))
        self.assertEqual([text in page for text in ("<h3>By the service brake only</h3>", "With the emergency brake", "Worst intervention")], [True, False, False])

    def test_only_power_ups_are_folded(self) -> None:
        page = report.page(tripped())
        _, _, rest = page.partition("<details><summary>1 power-up, each")
        self.assertIn('<a href="#r0">0</a>–0', rest.partition("</details>")[0])
        self.assertNotIn('<a href="#r4">', rest.partition("</details>")[0])
        self.assertIn("1 power-up", page.partition("<h2>What was read")[0])

    def test_power_ups_without_known_causes_are_folded(self) -> None:
        sample = tripped()
        sample.replay, sample.why = [], []
        top, _, rest = report.page(sample).partition("<details><summary>2 power-ups, each")
        self.assertIn('<a href="#r0">0</a>–0', rest.partition("</details>")[0])
        self.assertIn("2 power-ups not counted", top)

    def test_lives_newest_first(self) -> None:
        lives = [re.findall(r'<tr><td class="n">(\d)</td>', report.page(tripped(), is_newest_first=newest)) for newest in (False, True)]
        self.assertEqual(lives, [["1", "2"], ["2", "1"]])
        page = report.page(tripped(), is_newest_first=True)
        self.assertEqual(re.findall(r'<tr id="r(\d)"', page), ["4", "5", "0", "1", "2", "3"])

    def test_what_is_perhaps_not_released(self) -> None:
        block = {"slot": 0, "state": "block", "block": 1, "life": 1, "first_event": 0, "last_event": 4, "gate_is_own": True, "in_journal": True}
        following = {"slot": 1, "state": "unwritten", "block": 2, "life": 1, "first_event": 5, "last_event": 6}
        for slots, wanted in (([block], (False, None)), ([block, following], (True, 5)), ([block, following | {"life": 2}], (False, 5))):
            sample = journal(*RUN, slots=slots)
            sample.records = [one | {"block": 1} for one in sample.records]
            found = self.brief(sample).newest
            assert found
            self.assertEqual((found.is_released, found.unwritten and found.unwritten["first_event"]), wanted)
            page = report.page(sample)
            self.assertEqual("<dt>Released</dt><dd><b>not known</b>: the outputs of block 1, the newest, of events 0 to 4" in page, not wanted[0])
            self.assertEqual("<b>None</b> of the outputs of block 2, events 5 to 6" in page, wanted[1] is not None)

    def test_what_left_the_unit_before_the_newest_block(self) -> None:
        block = {"slot": 0, "state": "block", "block": 2, "life": 1, "first_event": 3, "last_event": 4, "gate_is_own": True, "in_journal": True}
        for kinds, left in ((("powerup", "clock", "clock"), "the outputs of life 1 after its power-up, up to event 2, had left the unit; "),
                            (("clock", "clock", "powerup"), ""), ((), "")):
            older = [record(event, kind, block=1) for event, kind in enumerate(kinds)]
            sample = journal(*older, record(3, block=2), record(4, block=2), slots=[block])
            sample.examination["journal"]["newest_block"] = 2
            self.assertIn(f"<dt>Released</dt><dd>{left}<b>not known</b>: the outputs of block 2, the newest, of events 3 to 4;", report.page(sample))

    def test_a_power_up_alone_releases_nothing(self) -> None:
        block = {"slot": 0, "state": "block", "block": 1, "life": 1, "first_event": 0, "last_event": 0, "gate_is_own": True, "in_journal": True}
        self.assertIn("holds only a power-up, whose output is never released", report.page(journal(record(0, "powerup"), slots=[block])))

    def test_faults(self) -> None:
        differs = {"replay": "record_differs", "life": 1, "block": 1, "event": 3, "field": "brake", "journal": {}, "kernel": {}}
        left = {"replay": "not_replayed", "life": 1, "first_event": 4, "last_event": 4, "reason": "after_difference"}
        head = {"replay": "head_differs", "life": 1, "block": 2, "field": "level", "journal": {}, "kernel": {}}
        old = {"replay": "not_replayed", "life": 1, "first_event": 0, "last_event": 4, "reason": "before_oldest_block"}
        ends = {"end": "nothing_differs"}, {"end": "differs_or_lost"}
        lost = "something is lost, damaged or contradicts"
        rows: list[tuple[list[Json], Json, list[str]]] = [
                ([ends[0]], {}, []), ([old, ends[0]], {}, []), ([ends[0]], {"whole": False}, [lost]),
                ([differs, left, ends[1]], {}, ["the replay differs: life 1, event 3, in brake"]),
                ([differs, head, ends[1]], {"whole": False}, [lost, "the replay differs: life 1, event 3, in brake, and 1 more"]),
                ([head, ends[1]], {}, ["the replay differs: life 1, the head of block 2, in level"]),
                ([left | {"reason": "within_block"}, ends[1]], {}, ["events 4 to 4 can't be replayed: no head contains what was kept before its power-up"]),
                ([ends[1]], {}, ["the replay reports that something differs or is lost"])]
        for replay, members, wanted in rows:
            one = journal(*RUN, **members)
            one.replay = replay
            self.assertEqual(verdict.faults(one), wanted)


class Forms(unittest.TestCase):
    """The page on screens, on paper, and for who doesn't see it."""

    CSS = (Path(report.__file__).parent / "templates/report.css").read_text(encoding="utf-8")

    def test_charts_have_role_and_title(self) -> None:
        found = re.findall(r'<svg [^>]*role="img" aria-labelledby="(\S+) (\S+)"><title id="(\S+)">([^<]+)</title><desc id="(\S+)">([^<]+)</desc>',
                           report.page(sample()))
        self.assertEqual(len(found), report.page(sample()).count("<svg "))
        self.assertEqual([(one[0], one[1]) for one in found], [(one[2], one[4]) for one in found])
        self.assertEqual(found[0][3], "Event 3: emergency brake, the train stops")
        self.assertEqual(found[1][3], "Life 1: speed over distance")
        self.assertEqual(found[1][5], "Events 0 to 4; modes SB, FS; speed at most 55.0 km/h; 0 of 5 events command the service brake, "
                                      "2 the emergency brake.")

    def test_no_link_of_a_chart_is_a_stop_of_the_keyboard(self) -> None:
        pictures = re.findall("<svg .*?</svg>", report.page(sample()), re.DOTALL)
        links = [link for picture in pictures for link in re.findall("<a [^>]*>", picture)]
        self.assertTrue(links)
        self.assertEqual([link for link in links if 'tabindex="-1"' not in link], [])

    def test_each_colour_of_a_chart_has_one_for_dark_screens(self) -> None:
        dark = self.CSS.partition("@media screen and (prefers-color-scheme: dark)")[2].partition("@media print")[0]
        drawn = {charts.INK, charts.SPEED, charts.ABOVE, charts.END, charts.QUIET, *charts.BRAKES.values(), *charts.MODES.values()}
        self.assertEqual([colour for colour in drawn if f'[style*="fill: {colour.lower()}"]' not in dark], [])
        self.assertEqual([colour for colour in (charts.INK, charts.SPEED, charts.ABOVE, charts.END)
                          if f'[style*="stroke: {colour.lower()}"]' not in dark], [])

    def test_on_paper(self) -> None:
        paper = self.CSS.partition("@media print")[2]
        self.assertIn("details::details-content { display: block; content-visibility: visible;", paper)
        for one in ("h2", "h2 + .sub", "summary", "thead"):
            self.assertRegex(paper, rf"[ ,]{re.escape(one)}[, ][^{{}}]*{{ break-after: avoid; }}")
        page = report.page(tripped())
        self.assertEqual(page.count("<table>"), page.count("<table><thead>"))
        self.assertGreater(page.count("<table>"), 3)


class Charts(unittest.TestCase):
    """What charts keep of long runs."""

    def test_many_telegrams_are_no_black_bar(self) -> None:
        for count, is_many in ((charts.MOST_SIGNS, False), (1_000, True)):
            records = [record(n, "telegram", telegram="90", decoded=AUTHORITY) for n in range(count)]
            table = tables.frame(journal(*records))
            svg = charts.draw(table, charts.Picture("distance", "a", "x", groups=report.groups_of(table)))
            self.assertEqual(("telegrams read," in svg, ">telegram read<" in svg), (is_many, not is_many))
            # a sign has the ink's colour, and a bar covers three fifths of its part of the way
            self.assertEqual(len(re.findall(f"fill: {charts.QUIET}", svg)), charts.BARS + 1 if is_many else 0)

    def test_each_brake_is_kept(self) -> None:
        records = [reading(n, 1_000, brake="emergency" if n == 4_321 else "service" if n % 7 == 0 else "none")
                   for n in range(9_000)]
        table = tables.frame(journal(*records))
        found = charts.spans(table, charts.along(table, "event"), "brake")
        self.assertLessEqual(len(found), charts.COLUMNS)
        self.assertIn("emergency", {brake for _, _, brake in found})

    def test_runs(self) -> None:
        table = tables.frame(journal(record(0), record(1, mode="OS"), record(2, mode="OS")))
        self.assertEqual(charts.spans(table, charts.along(table, "event"), "mode"), [(0, 1, "FS"), (1, 2, "OS")])


class Parts(unittest.TestCase):
    """Parts of a journal."""

    def test_bounds(self) -> None:
        self.assertEqual([(bound(text).column, bound(text).value) for text in ("120", "300m", "-2.5m", "20.5s")],
                         [("event", 120), ("place_cm", 30_000), ("place_cm", -250), ("time_ms", 20_500)])
        for text in ("", "3.5", "m", "1km", "1e3", "٣"):
            with self.assertRaises(Failed, msg=text):
                bound(text)

    def test_lives(self) -> None:
        rows: list[tuple[list[int], list[tuple[int, list[int]]]]] = [
            ([1, 1, 2], [(1, [0, 1]), (2, [2])]), ([2, 2, 1], [(1, [2]), (2, [0, 1])]), ([1, 2, 1], [(1, [0, 2]), (2, [1])]), ([], [])]
        for lives, wanted in rows:
            table = tables.frame(journal(*(record(event, life=life) for event, life in enumerate(lives))))
            found = report.lives_of(table)
            self.assertEqual([(one.life, list(one.table["event"])) for one in found], wanted)

    def test_take(self) -> None:
        table = tables.frame(journal(*RUN))
        self.assertEqual(list(Extent(bound("1"), bound("3m")).take(table)["event"]), [1, 2, 3])
        self.assertEqual(len(Extent(life=2).take(table)), 0)

    def test_what_is_read_before_a_part_does_not_grow(self) -> None:
        for count in (10, 10_000):
            still = [record(n, time_ms=100 * n) for n in range(2, count)]
            lines = [listed(one) for one in (record(0, "powerup"), reading(1, 20_000), *still, reading(count, 10_000), record(count + 1))]
            part = Part(count, count)
            found = [line for one in lines for line in part.take(one)]
            self.assertEqual([json.loads(one)["event"] for one in found], [1, 2, count - 1, count], "the reading, the next moment, and the last record")
            self.assertEqual((part.led, part.is_over), (3, True))

    def test_a_part_has_what_all_has(self) -> None:
        moments = [record(n, time_ms=100 * (n // 2), mode="FS" if n < 70 else "SR", brake="service" if n > 80 else "none") for n in range(2, 90)]
        all_ = [record(0, "powerup"), reading(1, 20_000), *moments, reading(90, 15_000, time_ms=5_000, brake="service"), record(91, time_ms=5_100)]
        for one in all_[1:70]:  # (a change of the limit's cause at each event, which a part has to know from before)
            one["limit_m_per_h"] = 40_000 + one["event"]
        for first in (2, 3, 50, 89, 90):
            whole, part = journal(*all_), journal(*taken(all_, first))
            part.lead = len(part.records) - len(all_) + first
            for both in (whole, part):
                both.replay = [{"replay": "agrees", "life": 1, "first_event": 0, "last_event": 91}, {"end": "nothing_differs"}]
            whole.why = [line(0, "none"), line(40, "none", too_fast=40), line(60, "none"), line(81, "service", must_stand=81)]
            part.why = [[one for one in whole.why if one["event"] < first][-1], *(one for one in whole.why if one["event"] >= first)]
            wanted, found = (tables.csv_text(table[table["event"] >= first].drop(columns="stretch")) for table in map(tables.frame, (whole, part)))
            self.assertEqual(found, wanted, f"from event {first}")
            self.assertLessEqual(part.lead, 3)
            rows, brakes = ([row for row in braking.rows(one.records, None, one.lead) if row["first_event"] >= first] for one in (part, whole))
            self.assertEqual(rows, brakes, f"from event {first}")


def listed(one: Json) -> str:
    """A record as `etcs_lab events` prints it: these members come first."""
    first = {"block": 0, "byte": 0, "event": 0, "life": 0, "kind": ""}
    return json.dumps(first | one, separators=(",", ":"))


def taken(records: list[Json], first: int) -> list[Json]:
    """What is read of records for a part from an event on."""
    part = Part(first, None)
    return [json.loads(line) for one in records for line in part.take(listed(one))]


class Databases(InFolder):
    """The database."""

    def setUp(self) -> None:
        super().setUp()
        self.path = self.room / "out.db"
        self.connection = database.open_database(self.path)
        self.addCleanup(self.connection.close)

    def count(self, name: str) -> int:
        return int(self.connection.execute(f"SELECT COUNT(*) FROM {name}").fetchone()[0])

    def test_an_image_is_added_once(self) -> None:
        sample = journal(*RUN)
        self.assertTrue(database.add(self.connection, sample, tables.frame(sample)))
        self.assertFalse(database.add(self.connection, sample, tables.frame(sample)))
        self.assertEqual([self.count(name) for name in ("image", "event", "telegram", "packet", "field")], [1, 5, 1, 1, 6])

    def test_whole_or_not_at_all(self) -> None:
        sample = journal(*RUN, record(5, kind="strange"))
        with self.assertRaises(Failed):
            database.add(self.connection, sample, tables.frame(sample))
        self.assertEqual([self.count(name) for name in ("image", "block", "event")], [0, 0, 0])

    def test_types_are_strict(self) -> None:
        with self.assertRaises(sqlite3.IntegrityError):
            self.connection.execute("INSERT INTO lost (image, first_block, last_block) VALUES (1, 'x', 2)")

    def test_views(self) -> None:
        sample = journal(*RUN)
        database.add(self.connection, sample, tables.frame(sample))
        found = self.connection.execute("SELECT first_event, last_event, is_power_up FROM brake_intervention").fetchall()
        self.assertEqual(found, [(0, 0, 1), (3, 3, 0)])
        found = self.connection.execute("SELECT first_event, until_event, most_over_kmh FROM above_limit").fetchall()
        self.assertEqual(found, [(3, 4, 15.0)])

    def test_causes(self) -> None:
        journals = sample(), journal(*RUN)
        journals[1].examination["image"]["sha256"] = "cd" * 32
        for one in journals:
            database.add(self.connection, one, tables.frame(one))
        found = self.connection.execute("SELECT image, causes FROM brake_intervention ORDER BY image, first_event").fetchall()
        self.assertEqual(found, [(1, "not_revalidated since 0"), (1, "far_too_fast since 3"), *[(2, "not known: no replay was made")] * 2])
        found = self.connection.execute("SELECT cause, since_event, held_until_event, ends FROM intervention_cause").fetchall()
        self.assertEqual(found, [("not_revalidated", 0, 0, CAUSES["not_revalidated"][1]), ("far_too_fast", 3, 3, "ends when the train stands")])
        self.assertEqual(self.count("why"), 4)

    def test_trips(self) -> None:
        sample = tripped()
        database.add(self.connection, sample, tables.frame(sample))
        found = self.connection.execute("SELECT life, event, trip_cause, says, section FROM trip").fetchall()
        self.assertEqual(found, [(1, 2, "staff_distance", "the path in Staff Responsible was above D_NVSTFF", "4.4")])
        found = self.connection.execute("SELECT event, trip_cause_event, trip_cause_section FROM why WHERE trip_cause IS NOT NULL").fetchall()
        self.assertEqual(found, [(2, 2, "4.4")])

    def test_another_database_is_refused(self) -> None:
        other = self.path.with_name("other.db")
        with sqlite3.connect(other) as connection:
            connection.execute("CREATE TABLE a (b)")
        connection.close()
        with self.assertRaises(Failed):
            database.open_database(other)


class Texts(unittest.TestCase):
    """Words for people."""

    def test_telegrams(self) -> None:
        self.assertEqual(wording.telegram_text(AUTHORITY), "telegram of group 1/2, balise 1 of 2, packet 12")
        self.assertEqual(wording.telegram_text({"refused": {"number": 3, "name": "Spare"}}),
                         "telegram that can't be decoded: 3 Spare")

    def test_numbers_keep_their_digits(self) -> None:
        far = record(1, "odometer", movement_cm=1_234_567, speed_m_per_h=0)
        self.assertEqual(wording.event_text(far), "moved 12345.67 m, at 0 km/h")
        self.assertEqual(wording.event_text(record(1, now_ms=3_600_123)), "moment 3600.123 s")
        self.assertEqual([wording.event_text(record(1, now_ms=ms)) for ms in (0, 500, 20_000_000)], ["moment 0 s", "moment 0.5 s", "moment 20000 s"])
        self.assertEqual([charts.length_text(one) for one in (27_000.0, 123.4, 12.34, 0.1234)], ["27,000", "123", "12.3", "0.123"])

    def test_an_authority_ends_at_the_sum_of_its_sections(self) -> None:
        self.assertEqual(wording.announced_end_cm(AUTHORITY), 30_000)
        self.assertIsNone(wording.announced_end_cm({"refused": {"number": 3, "name": "Spare"}}))

    def test_lost(self) -> None:
        self.assertEqual(wording.lost_text({"first_block": 1, "last_block": 3, "first_event": None, "last_event": 8}),
                         "blocks 1 to 3, with events ? to 8")


if __name__ == "__main__":
    unittest.main()
