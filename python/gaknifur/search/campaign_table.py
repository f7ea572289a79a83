"""Keep the table of a campaign in SQLite: add its rows, list those that aren't sound, write it as CSV, and compare two tables."""
import contextlib
import csv
import heapq
import io
import itertools
import sqlite3
import time
from collections.abc import Iterable, Iterator
from operator import itemgetter
from pathlib import Path
from typing import Any

from .. import files, program
from ..journal.csv_cells import guarded
from ..program import REFUSED, Failed
from .campaign import COLUMNS, NOT_COMPARED, Job, Row

COMMIT_SECONDS = 0.25
IS_PROVED = {True: "yes", False: "no", None: "unknown"}
INSERT = f"INSERT OR REPLACE INTO result ({', '.join(COLUMNS)}) VALUES ({', '.join('?' * len(COLUMNS))})"
KIND = files.Database("a table of a campaign", 0x474B4350, """\
CREATE TABLE campaign (name TEXT PRIMARY KEY, value TEXT NOT NULL) STRICT;
CREATE TABLE result (
    name TEXT PRIMARY KEY, job_sha256 TEXT NOT NULL, kind TEXT NOT NULL, ended TEXT NOT NULL, image_sha256 TEXT, events INTEGER,
    lives INTEGER, mode TEXT, brake TEXT, limit_m_per_h INTEGER, place_cm INTEGER, emergencies INTEGER, trips INTEGER,
    tests INTEGER, missed INTEGER, first_missed TEXT, sound INTEGER NOT NULL, seconds REAL, worker TEXT) STRICT;
""")


class Table:
    """The results, in SQLite. A table belongs to one pair of programs, and only one campaign at a time writes to it: it keeps a
    transaction open from its beginning to its end. Others may read it."""

    def __init__(self, path: Path, settings: dict[str, str]) -> None:
        def fill(connection: sqlite3.Connection) -> None:
            connection.executemany("INSERT INTO campaign VALUES (?, ?)", settings.items())

        self.path, self.written = path, time.monotonic()
        self.connection = files.open_database(path, KIND, fill, wait=0)
        try:
            with files.sqlite_errors(path):
                self.connection.execute("BEGIN IMMEDIATE")
                self.connection.execute(f"PRAGMA busy_timeout = {files.WAIT_SECONDS * 1000:.0f}")
                found = dict(self.connection.execute("SELECT name, value FROM campaign"))
            for name, value in settings.items():
                if name.endswith("_sha256") and found.get(name) != value:
                    raise Failed(f"{path}: was made with {name} {found.get(name)}, and this program is {value}; name a new file", REFUSED)
        except Failed:
            self.connection.close()
            raise

    def has_rows(self) -> bool:
        """Whether any job was run already."""
        with files.sqlite_errors(self.path):
            return self.connection.execute("SELECT 1 FROM result LIMIT 1").fetchone() is not None

    def is_there(self, job: Job) -> bool:
        """Whether the table has the row of exactly this job."""
        with files.sqlite_errors(self.path):
            found = self.connection.execute("SELECT job_sha256, ended FROM result WHERE name = ?", (job.name,)).fetchone()
        return found is not None and found[0] == job.sha256 and not found[1].startswith("failed")

    def take(self, rows: list[Row]) -> None:
        """Adds rows; each replaces a row with the same name. They are on the disk within a second."""
        with files.sqlite_errors(self.path):
            self.connection.executemany(INSERT, map(itemgetter(*COLUMNS), rows))
            if time.monotonic() - self.written > COMMIT_SECONDS:
                self.connection.execute("COMMIT")
                self.connection.execute("BEGIN IMMEDIATE")
                self.written = time.monotonic()

    def close(self) -> None:
        """Commits all rows, also if `take` was interrupted."""
        with contextlib.closing(self.connection), files.sqlite_errors(self.path):
            if self.connection.in_transaction:
                self.connection.execute("COMMIT")


def settings_of() -> dict[str, str]:
    """The programs: their SHA-256, and whether each is proved."""
    found = {}
    for name in ("etcs", "etcs_lab"):
        found[f"{name}_sha256"] = files.digest(Path(program.find(name)))
        found[f"{name}_is_proved"] = IS_PROVED[program.proof(name)]
    return found


def rows_of(path: Path) -> Iterator[Row]:
    """The rows of a table in the order of their names, with the columns that are compared."""
    with files.read_database(path, KIND) as connection:
        kept = [name for name in COLUMNS if name not in NOT_COMPARED]
        for row in connection.execute(f"SELECT {', '.join(kept)} FROM result ORDER BY name"):
            yield dict(zip(kept, row))


def unsound(path: Path, most: int) -> tuple[int, int, list[Row]]:
    """The number of rows of a table, the number of those that aren't sound, and the first of these."""
    with files.read_database(path, KIND) as connection:
        count, bad = connection.execute("SELECT count(*), count(*) FILTER (WHERE NOT sound) FROM result").fetchone()
        rows = connection.execute("SELECT name, ended, first_missed FROM result WHERE NOT sound ORDER BY name LIMIT ?", (most,))
        return count, bad, [dict(zip(("name", "ended", "first_missed"), row)) for row in rows]


def refused(path: Path) -> tuple[int, str]:
    """The number of scenarios of a table that were refused, so that nothing of them was run, and the first with its refusal."""
    with files.read_database(path, KIND) as connection:
        found = connection.execute("SELECT count(*), min(name || ': ' || ended) FROM result WHERE kind = 'scenario' AND ended LIKE 'refused %'")
        count, first = found.fetchone()
        return count, first or ""


def write_csv(path: Path, out: files.Out) -> None:
    """Writes the whole table as CSV, in the order of the names."""
    with files.read_database(path, KIND) as connection:
        rows = connection.execute(f"SELECT {', '.join(COLUMNS)} FROM result ORDER BY name")
        files.write(out, map(csv_line, itertools.chain([COLUMNS], rows)), [path])


def csv_line(row: Iterable[Any]) -> str:
    """A line of CSV."""
    text = io.StringIO()
    csv.writer(text, lineterminator="\n").writerow(map(guarded, row))
    return text.getvalue()


def named(path: Path) -> Iterator[tuple[str, Path, Row]]:
    """The rows of a table with their names and their table."""
    return ((row["name"], path, row) for row in rows_of(path))


def differences(one: Path, other: Path) -> Iterator[str]:
    """The differences between two campaigns, one line for each row."""
    both = heapq.merge(*(named(path) for path in (one, other)), key=itemgetter(0))
    for name, found in itertools.groupby(both, itemgetter(0)):
        (_, path, first), *others = found
        if not others:
            yield f"{name}: only in {path}"
        for _, _, second in others:
            changes = [f"{column} {first[column]} and {second[column]}" for column in first if first[column] != second[column]]
            if changes:
                yield f"{name}: {'; '.join(changes)}"
