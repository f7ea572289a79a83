"""Keep journals in an SQLite database (`schema.sql`), which the command `sqlite3` reads. One database holds many images.

An image is added whole or not at all. One that the database already contains, by its SHA-256, is left as it is.
"""
import json
import re
import sqlite3
from collections.abc import Iterable, Iterator, Sequence
from dataclasses import asdict
from pathlib import Path
from typing import Any

import numpy as np
import pandas as pd

from .. import files, program
from ..program import DEVICE, REFUSED, Failed, Json
from . import _words, braking, causes, plausibility, tables, verdict
from .reading import Journal

VERSION = 8
"""The `user_version` of the schema."""
GREATEST = 2**62
EVENT = (
    "block event life stretch kind time_ms mode level brake place_cm uncertainty_cm min_safe_front_cm max_safe_front_cm "
    "limit_m_per_h movement_cm reading_m_per_h speed_m_per_h word now_ms action refused identity running_number "
    "chosen_level confirmed acknowledged length_cm maximum_m_per_h category deceleration_cm_per_s2 reaction_ms "
    "causes_not_known trip_cause trip_cause_event limit_cause utc_stated"
).split() + list(tables.SHOWS)
BEFORE = {"mode_before": "mode", "level_before": "level", "brake_before": "brake", "speed_before_m_per_h": "speed_m_per_h"}
NEXT = {"next_event": "event", "next_ms": "time_ms", "next_cm": "place_cm"}
"""Columns with values of the record before and after in the same stretch, so that views needn't join them."""
SLOT = ("slot state block first_sector last_sector format life first_event last_event gate_is_own in_journal field record "
        "byte").split()
WHY = ("brake limit_m_per_h speed_m_per_h backward_cm allowed_backward_cm trip_cause trip_cause_event trip_cause_section "
       "limit_cause limit_cause_speed_m_per_h limit_cause_place_cm limit_cause_number limit_cause_section").split()
REPLAY = "replay life first_event last_event block reason field".split()
UNUSED = "name bit bits why".split()
HEADER = "Q_UPDOWN M_VERSION Q_MEDIA N_PIG N_TOTAL M_DUP M_MCOUNT NID_C NID_BG Q_LINK".split()


KIND = files.Database("a database of journals", 0x474B4A4C, (Path(__file__).parent / "schema.sql").read_text(encoding="utf-8"))
ALTERED = "SELECT 1 FROM sqlite_master WHERE type = 'trigger' OR type = 'view' AND lower(name) IN ({})".format(
    ", ".join(f"'{name}'" for name in re.findall(r"CREATE TABLE (\w+)", KIND.schema)))
"""Whether a database has what would run when its tables are used, perhaps for ever."""


def fill(connection: sqlite3.Connection) -> None:
    """Fills a new database with the texts of causes."""
    insert(connection, "cause_word", ["cause", "says", "ends"], ([name, *texts] for name, texts in _words.CAUSES.items()))
    insert(connection, "trip_word", ["trip_cause", "says", "section"],
           ([name, *texts] for name, texts in _words.TRIP_CAUSES.items()))


def open_database(path: str | Path, images: Iterable[Path] = ()) -> sqlite3.Connection:
    """Opens a database, or creates it. Refuses a file that is one of the images, or a database of another kind."""
    connection = files.open_database(Path(path), KIND, fill, images)
    try:
        with files.sqlite_errors(Path(path)):
            connection.execute("PRAGMA foreign_keys = ON")
            version = connection.execute("PRAGMA user_version").fetchone()[0]
            altered = connection.execute(ALTERED).fetchone()
    except Failed:
        connection.close()
        raise
    if version != VERSION or altered:
        connection.close()
        wrong = "has a trigger, or a view in place of a table" if altered else f"is not a database of journals of version {VERSION}"
        raise Failed(f"{path}: {wrong}", REFUSED)
    return connection


def insert(connection: sqlite3.Connection, name: str, columns: Sequence[str], rows: Iterable[Sequence[Any]]) -> None:
    """Adds rows to a table."""
    marks = ", ".join("?" * len(columns))
    connection.executemany(f"INSERT INTO {name} ({', '.join(columns)}) VALUES ({marks})", rows)


def plain(column: Any) -> list[Any]:
    """A column's values as SQLite takes them: whole numbers and texts of Python, and None."""
    values = column.to_numpy(object)
    return [None if gone else value.item() if hasattr(value, "item") else int(value) if isinstance(value, bool) else value
            for value, gone in zip(values, pd.isna(values))]


def rows_of(columns: Sequence[Any]) -> Iterator[tuple[Any, ...]]:
    """The rows of some columns as SQLite takes them, made AT_ONCE at a time, so that a long journal is never in memory as objects."""
    for at in range(0, len(columns[0]), tables.AT_ONCE):
        yield from zip(*(plain(column.iloc[at:at + tables.AT_ONCE]) for column in columns))


def add(connection: sqlite3.Connection, journal: Journal, table: pd.DataFrame) -> bool:
    """Adds a journal; returns False if the database already contains it."""
    try:
        connection.execute("BEGIN IMMEDIATE")  # another program that adds to it waits
        found = connection.execute("SELECT 1 FROM image WHERE sha256 = ?", [journal.sha256]).fetchone()
        if not found:
            add_all(connection, journal, table)
        connection.execute("COMMIT")
    except BaseException as error:
        if connection.in_transaction:
            connection.execute("ROLLBACK")
        if isinstance(error, (sqlite3.Error, UnicodeError)):
            raise Failed(f"{journal.path}: can't be added: {error}", DEVICE) from error
        raise
    return not found


def add_all(connection: sqlite3.Connection, journal: Journal, table: pd.DataFrame) -> None:
    """Adds all rows of a journal, in one transaction."""
    image = add_image(connection, journal)
    insert(connection, "slot", ["image", *("number" if name == "block" else name for name in SLOT)],
           ([image, *(slot.get(name) for name in SLOT)] for slot in journal.slots))
    lost = ("first_block", "last_block", "first_event", "last_event")
    insert(connection, "lost", ["image", *lost], ([image, *(one[name] for name in lost)] for one in journal.lost))
    insert(connection, "contradiction", ["image", "block", "what"],
           ([image, one["block"], one["what"]] for one in journal.contradictions))
    insert(connection, "implausible", ["image", "finding", "what", "life", "first_event", "last_event", "says"],
           ([image, number, one["implausible"], one["life"], one["first_event"], one["last_event"], plausibility.text(one)]
            for number, one in enumerate(verdict.of(journal).implausible)))
    insert(connection, "replay", ["image", "line", "verdict", *REPLAY[1:], "journal", "kernel"],
           ([image, number, *row] for number, row in enumerate(replay_rows(journal.replay))))
    add_events(connection, image, table)
    for row in map(braking.flat, braking.rows(journal.records)):
        insert(connection, "braking", ["image", *row], [[image, *row.values()]])
    add_causes(connection, image, table)


def add_image(connection: sqlite3.Connection, journal: Journal) -> int:
    """Adds the row of the image; returns its number."""
    image, extent, power_up = journal.image, journal.examination["journal"] or {}, journal.examination["power_up"]
    row = {
        "name": journal.name, **(asdict(journal.identity) if journal.identity else {}), "sha256": journal.sha256, "bytes": image["bytes"], "sectors": image["sectors"],
        "slots": image["slots"], "power_up_opens": power_up["opens"], "power_up_refusal": power_up["refusal"],
        "verdict": "\n".join(verdict.of(journal).sentences), "is_whole": journal.is_whole, "events_refusal": journal.refusal,
        "reader": program.reader(), "reader_is_proved": program.reader_is_proved()}
    row |= {name: extent.get(name) for name in ("first_block", "newest_block", "first_event", "last_event", "lives")}
    insert(connection, "image", list(row), [list(row.values())])
    return int(connection.execute("SELECT last_insert_rowid()").fetchone()[0])


def replay_rows(lines: list[Json]) -> Iterator[list[Any]]:
    """The lines of a replay; the last one has the verdict `nothing_differs` or `differs_or_lost`."""
    for line in lines:
        verdict = line.get("replay", line.get("end"))
        records = [json.dumps(line[name]) if name in line else None for name in ("journal", "kernel")]
        line = {"first_event": line.get("event"), "last_event": line.get("event"), **line}
        yield [verdict, *(line.get(name) for name in REPLAY[1:]), *records]


def block_rows(table: pd.DataFrame) -> Iterator[tuple[int, str, int, int]]:
    """Each block with its source, its first event and its last one."""
    order = np.argsort(table["block"].to_numpy(), kind="stable")
    block, event = table["block"].to_numpy()[order], table["event"].to_numpy()[order]
    firsts = np.flatnonzero(np.concatenate([[True], block[1:] != block[:-1]]))
    sources = table["source"].to_numpy(object)[order][firsts] if "source" in table else ["journal"] * len(firsts)
    return zip(block[firsts].tolist(), sources, np.minimum.reduceat(event, firsts).tolist(), np.maximum.reduceat(event, firsts).tolist())


def add_events(connection: sqlite3.Connection, image: int, table: pd.DataFrame) -> None:
    """Adds blocks and records, with their telegrams."""
    if table.empty:
        return
    insert(connection, "block", ["image", "block", "source", "first_event", "last_event"], ([image, *row] for row in block_rows(table)))
    neighbours = {name: tables.before(table, column) for name, column in BEFORE.items()} | {
        name: tables.after(table, column) for name, column in NEXT.items()}
    uncertainty = table["uncertainty_cm"]
    columns = [uncertainty.where(uncertainty <= GREATEST) if name == "uncertainty_cm" else table[name] for name in EVENT]
    insert(connection, "event", ["image", *EVENT, *neighbours], ([image, *row] for row in rows_of([*columns, *neighbours.values()])))
    heard = tables.some_of(table, table["kind"] == "telegram", ("block", "event", "telegram", "decoded", "unused"))
    at = list(zip(plain(heard["block"]), plain(heard["event"])))
    rows = [(*one, *telegram) for one, telegram in zip(at, zip(heard["telegram"], heard["decoded"]))]
    insert(connection, "telegram", ["image", "block", "event", "digits", "fault", *map(str.lower, HEADER)],
           ([image, *row] for row in map(telegram_row, rows)))
    insert(connection, "packet", ["image", "block", "event", "packet", "nid_packet", "skipped_bits"],
           ([image, block, event, place, packet["packet"], packet.get("skipped_bits")]
            for block, event, place, packet in packets_in(rows)))
    insert(connection, "field", ["image", "block", "event", "packet", "field", "name", "value"],
           ([image, block, event, place, index, *pair]
            for block, event, place, packet in packets_in(rows) for index, pair in enumerate(packet["fields"])))
    insert(connection, "unused", ["image", "block", "event", "unused", "nid_packet", *UNUSED],
           ([image, *one, place, packet["packet"], *map(packet.get, UNUSED)]
            for one, unused in zip(at, heard["unused"]) for place, packet in enumerate(unused or ())))


def telegram_row(row: tuple[int, int, str, Json]) -> list[Any]:
    """Block, event, digits, fault and header of a telegram."""
    block, event, digits, decoded = row
    header = decoded.get("header", {})
    fault = decoded["refused"]["name"] if "refused" in decoded else None
    return [block, event, digits, fault, *(header.get(name) for name in HEADER)]


def packets_in(rows: list[tuple[int, int, str, Json]]) -> Iterator[tuple[int, int, int, Json]]:
    """Each packet, with its block, its event and its place in the telegram."""
    for block, event, _, decoded in rows:
        for place, packet in enumerate(decoded.get("packets", ())):
            yield block, event, place, packet


def add_causes(connection: sqlite3.Connection, image: int, table: pd.DataFrame) -> None:
    """Adds the lines of `etcs_lab why`, and the causes of brakes."""
    for name in ("why", "held"):
        some = tables.some_of(table, table[name].notna(), ("block", "event", name))
        rows = zip(plain(some["block"]), plain(some["event"]), some[name])
        if name == "why":
            insert(connection, "why", ["image", "block", "event", *WHY],
                   ([image, block, event, *map(line.get, WHY)] for block, event, line in rows))
        else:
            insert(connection, "cause", ["image", "block", "event", "cause", "since_event"],
                   ([image, block, event, *pair] for block, event, held in rows for pair in held.items()))
