"""Packets that the unit uses in no mode and in no direction, as records say them: the places and lengths are by hand, after SUBSET-026,
7.4.2 and 8.4.2."""
import sqlite3
import unittest

from gaknifur.journal import database, summary, tables, unused_packets, wording
from gaknifur.program import Json

from .samples import AUTHORITY, journal, record

STOP_IN_SR = (137, "Stop if in Staff Responsible", 24)
"""Its head of 23 bits, and Q_SRSTOP."""
STOP_SHUNTING = (135, "Stop Shunting on desk opening", 23)
INFILL = (136, "Infill location reference", 38)
"""Its head, Q_NEWCOUNTRY 0 and NID_BG."""
RESTRICTION = (65, "Temporary Speed Restriction", 71)
NATIONAL = (3, "National Values", 186)
"""As a track sends it, for one country."""
VERSION_ORDER = (2, "System Version order", 30)
"""Of a later issue."""
NAMELESS = (99, None, 30)


def telegram(event: int, *packets: tuple[tuple[int, str | None, int], str], refused: bool = False) -> Json:
    """A record of a telegram that has these packets, each with why it isn't used, and no others; what it carries plays no part."""
    decoded: Json = {"refused": {"number": 2, "name": "WrongLength"}} if refused else AUTHORITY
    at, unused = 50, []
    for (number, name, bits), why in packets:
        unused.append({"packet": number, "name": name, "bit": at, "bits": bits, "why": why})
        at += bits
    return record(event, "telegram", telegram="90", decoded=decoded, unused=unused)


def skipped(*packets: tuple[int, str | None, int]) -> list[tuple[tuple[int, str | None, int], str]]:
    """Packets that the kernel doesn't know."""
    return [(packet, "not_known") for packet in packets]


class Listed(unittest.TestCase):
    """Where they are reported."""

    def test_a_column_of_the_table(self) -> None:
        table = tables.frame(journal(
            record(0, "powerup"), telegram(1, *skipped(STOP_IN_SR, STOP_SHUNTING)), telegram(2), telegram(3, (NATIONAL, "refused"), refused=True),
            telegram(4, (STOP_IN_SR, "not_known"), (INFILL, "infill"), (RESTRICTION, "infill"))))
        self.assertEqual(list(table["not_obeyed"]), [None, "137 not_known, 135 not_known", None, "3 refused", "137 not_known, 136 infill, 65 infill"])

    def test_a_record_without_any(self) -> None:
        """As of a program of before."""
        table = tables.frame(journal(record(0, "telegram", telegram="90", decoded=AUTHORITY)))
        self.assertEqual(list(table["not_obeyed"]), [None])

    def test_a_summary_counts_telegrams(self) -> None:
        sample = journal(telegram(0, *skipped(STOP_IN_SR, STOP_IN_SR, STOP_SHUNTING)), telegram(1), telegram(2, *skipped(STOP_IN_SR)),
                       telegram(3, *skipped(VERSION_ORDER)))
        table = tables.frame(sample)
        counted = unused_packets.summary(table["not_obeyed"])
        self.assertEqual(counted.text(), "2 telegrams had packets of issue 2.3.0 that this unit does not obey: "
                         "137 Stop if in Staff Responsible (2), 135 Stop Shunting on desk opening (1)")
        self.assertEqual(summary.brief(sample, table, tables.interventions(table)).not_obeyed, counted.text())

    def test_a_summary_says_why(self) -> None:
        table = tables.frame(journal(telegram(0, (INFILL, "infill"), (RESTRICTION, "infill")),
                                     telegram(1, (NATIONAL, "refused"), (RESTRICTION, "refused"), refused=True)))
        self.assertEqual(unused_packets.summary(table["not_obeyed"]).text(), "2 telegrams had packets of issue 2.3.0 that this unit does not obey: "
                         "3 National Values in a telegram that is refused (1), 65 Temporary Speed Restriction in infill (1), "
                         "65 Temporary Speed Restriction in a telegram that is refused (1), 136 Infill location reference in infill (1)")

    def test_none_of_issue_2_3_0(self) -> None:
        sample = journal(telegram(0, *skipped(VERSION_ORDER, NAMELESS)))
        table = tables.frame(sample)
        self.assertEqual(list(table["not_obeyed"]), ["2 not_known, 99 not_known"])
        self.assertIsNone(summary.brief(sample, table, tables.interventions(table)).not_obeyed)
        self.assertEqual(unused_packets.summary(table["not_obeyed"]).text(), "no telegram had a packet of issue 2.3.0 that this unit does not obey")

    def test_the_text_of_an_event(self) -> None:
        usual = "telegram of group 1/2, balise 1 of 2, packet 12"
        self.assertEqual(wording.event_text(telegram(0)), usual)
        self.assertEqual(wording.event_text(telegram(0, (STOP_IN_SR, "not_known"), (NAMELESS, "not_known"), (RESTRICTION, "infill"))),
                         f"{usual}; not used: 137 Stop if in Staff Responsible, 99, 65 Temporary Speed Restriction in infill")

    def test_a_table_of_the_database(self) -> None:
        connection = sqlite3.connect(":memory:")
        connection.executescript(database.KIND.schema)
        connection.commit()
        sample = journal(record(0, "powerup"), telegram(1), telegram(2, (STOP_IN_SR, "not_known"), (INFILL, "infill")),
                       telegram(3, (NAMELESS, "refused"), refused=True))
        self.assertTrue(database.add(connection, sample, tables.frame(sample)))
        rows = connection.execute("SELECT event, unused, nid_packet, name, bit, bits, why FROM unused ORDER BY event, unused").fetchall()
        self.assertEqual(rows, [(2, 0, 137, "Stop if in Staff Responsible", 50, 24, "not_known"), (2, 1, 136, "Infill location reference", 74, 38, "infill"),
                                (3, 0, 99, None, 50, 30, "refused")])
        connection.close()
