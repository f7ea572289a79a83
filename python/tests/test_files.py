"""Files that lab makes: nothing that stands under a name is lost, and each is whole or isn't there."""
import contextlib
import io
import multiprocessing
import os
import re
import sqlite3
import subprocess
import sys
import unittest
from collections.abc import Callable, Iterator
from pathlib import Path
from types import SimpleNamespace
from unittest.mock import patch

import click

from gaknifur import files, layout
from gaknifur.__main__ import main
from gaknifur.cli import drive_commands
from gaknifur.cli.commands import lab
from gaknifur.files import Out
from gaknifur.journal import database, tables
from gaknifur.program import DEVICE, REFUSED, Failed
from gaknifur.search import campaign, campaign_table
from gaknifur.simulation import closed_loop, drives
from gaknifur.simulation.driving import Driven
from gaknifur.simulation.scenarios import Scenario
from gaknifur.unit import Medium, MemoryMedium
from gaknifur.units import own_unit

from .samples import InFolder, journal, record

TOP = Path(__file__).resolve().parents[2]
IMAGE = layout.MARK + bytes(504)
NAMES = ("a#b", "a?b", "a%41", "a b\n", "a'b\"", os.fsdecode(b"a\xff"), "\u202ea")


DRIVE = """\
steps: [start]
drive:
  train: {acceleration: 0.6 m/s2, service: 0.9 m/s2}
  driver: {heeds: limit}
  time_step: 500 ms
  lasts: 1 s
"""


class Room(InFolder):
    """A folder of its own."""

    def file(self, name: str, data: bytes) -> Path:
        """A file that is there."""
        path = self.room / name
        path.write_bytes(data)
        return path

    def names(self) -> list[str]:
        """What the folder has."""
        return sorted(path.name for path in self.room.iterdir())


class Writing(Room):
    """What is written, and what isn't."""

    def test_a_new_file_of_any_name(self) -> None:
        for name in NAMES:
            files.write(Out(self.room / name), "new")
            self.assertEqual((self.room / name).read_bytes(), b"new")
        self.assertEqual(self.names(), sorted(NAMES))

    def test_an_existing_file_is_replaced_with_force_whoever_made_it(self) -> None:
        for data in (b"", b"text", b"point,my own notes\n", b"SQLite format 3\0"):
            path = self.file("out", data)
            path.chmod(0o640)
            files.write(Out(path, True), b"new")
            self.assertEqual((path.read_bytes(), path.stat().st_mode & 0o777, self.names()), (b"new", 0o640, ["out"]))

    def test_whole_or_not_at_all(self) -> None:
        full = OSError(28, "No space left on device")
        for call in ("os.fsync", "os.replace"):
            path = self.file("out", b"old")
            with patch(call, side_effect=full), self.assertRaisesRegex(Failed, "out: No space left") as caught:
                files.write(Out(path, True), b"new")
            self.assertEqual((caught.exception.status, path.read_bytes(), self.names()), (DEVICE, b"old", ["out"]))
        path.unlink()
        with patch("os.fsync", side_effect=full), self.assertRaisesRegex(Failed, "out: No space left"):
            files.write(Out(path), b"new")
        with self.assertRaises(ZeroDivisionError):
            files.write(Out(path), (str(1 // one) for one in (1, 0)))
        self.assertEqual(self.names(), [])

    def test_synced_before_it_has_its_name(self) -> None:
        path = self.file("out", b"old")
        with patch("os.fsync", lambda _: self.assertEqual((len(self.names()), path.read_bytes()), (2, b"old"))):
            files.write(Out(path, True), b"new")
        self.assertEqual((path.read_bytes(), self.names()), (b"new", ["out"]))

    def test_a_name_that_is_taken_meanwhile(self) -> None:
        path = self.room / "out"
        with patch.object(files, "check", lambda *given: path.write_bytes(b"other") < 0), self.assertRaisesRegex(Failed, "was created by somebody else meanwhile"):
            files.write(Out(path), b"new")
        self.assertEqual((path.read_bytes(), self.names()), (b"other", ["out"]))

    def test_two_of_one_name(self) -> None:
        out = Out(self.room / "out")
        with self.assertRaisesRegex(Failed, "is named twice"):
            files.check_all([out, Out(self.room / ".." / self.room.name / "out")])
        with self.assertRaisesRegex(Failed, "is named twice"):
            files.check_all([out], others=[out.path])

    def test_a_folder_is_whole_or_not_at_all(self) -> None:
        with files.new_folder(self.room / "whole") as folder:
            (folder / "a").write_text("a")
        self.assertEqual((self.room / "whole/a").stat().st_mode & 0o777, 0o444)
        with self.assertRaisesRegex(Failed, "whole: already exists; name a new folder"), files.new_folder(self.room / "whole"):
            pass
        code = ("import os, signal, sys\nfrom pathlib import Path\nfrom gaknifur import errors, files\ndef do():\n    with files.new_folder(Path(sys.argv[1])) as folder:\n"
                "        (folder / 'a').write_text('a')\n        os.kill(os.getpid(), signal.SIGTERM)\nsys.exit(errors.caught(do))")
        done = subprocess.run([sys.executable, "-c", code, self.room / "new"], cwd=TOP / "python")
        self.assertEqual((done.returncode, self.names()), (143, ["whole"]))


def written() -> Iterator[tuple[str, click.Command, click.Parameter, str]]:
    """Each file that a command of lab may write: the command, the parameter that names the file, and a suffix that it may have."""
    for name, command in lab.commands.items():
        for one in command.params:
            if "OUT" in (one.metavar or "") or one.name == "image" and isinstance(one, click.Option):
                for suffix in re.findall(r"OUT((?:\.\w+)*)", one.metavar or "") or [""]:
                    yield name, command, one, ".svg" if one.name == "picture" else suffix


def line_of(name: str, command: click.Command, param: click.Parameter, out: Path) -> list[str]:
    """A command that writes this file, and reads files of the folder."""
    line = [name, *{"case": ["--event", "1"], "campaign": ["--random", "1"]}.get(name, [])]
    for one in command.params:
        if isinstance(one, click.Argument):
            shown = one.metavar or ""
            line += [str(out)] if one is param else ["new.db"] if "OUT.db" in shown else [] if not one.required and "FILE" not in shown and \
                "FOLDER" not in shown else ["a.yaml" if "yaml" in shown else "empty" if "FOLDER" in shown else "image"]
    return line if isinstance(param, click.Argument) else [*line, param.opts[0], str(out)]


TEXT = b"point,my own\n"
KINDS: dict[str, Callable[[Path], object]] = {
    "text": lambda at: at.write_bytes(TEXT), "database": lambda at: sqlite3.connect(at).executescript("CREATE TABLE a (b)").connection.close(),
    "image": lambda at: at.write_bytes(IMAGE), "protected": lambda at: os.close(os.open(at, os.O_CREAT, 0o444)),
    "link": lambda at: at.symlink_to("text"), "link to an image": lambda at: at.symlink_to("image"), "link to nothing": lambda at: at.symlink_to("nothing"),
    "hard link": lambda at: at.hardlink_to(at.with_name("text")), "hard link to an image": lambda at: at.hardlink_to(at.with_name("image")),
    "folder": Path.mkdir, "pipe": os.mkfifo, "device": lambda at: os.mknod(at, 0o020666, os.makedev(1, 5))}
"""The kinds of what may be under the name of an output."""
REPLACED = ("text", "database")
"""The kinds that --force replaces."""
ADDED = {("database", "out"), ("campaign", "paths"), ("drive", "image")}
"""The outputs to which a command adds, and which --force doesn't replace."""


class Commands(Room):
    """The commands of lab leave what is there."""

    def state(self) -> dict[str, object]:
        """All that is in the folder."""
        return {one.name: (one.lstat().st_mode, one.lstat().st_ino, one.read_bytes() if one.is_file() else os.readlink(one) if one.is_symlink() else None)
                for one in self.room.rglob("*")}

    def test_of_all_outputs(self) -> None:
        self.file("image", layout.first_sector(2) + bytes(512 * 12))
        self.file("a.yaml", DRIVE.encode())
        self.file("text", TEXT)
        (self.room / "empty").mkdir()
        found = list(written())
        self.assertGreaterEqual({(name, one.name) for name, _, one, _ in found}, ADDED | {
            ("table", "out"), ("report", "out"), ("build", "out"), ("case", "out"), ("test", "junitxml"), ("drive", "csv"), ("drive", "scenario"),
            ("drive", "picture"), ("campaign", "csv")})
        for name, command, one, suffix in found:
            has_force = any("--force" in other.opts for other in command.params)
            for kind, make in KINDS.items():
                for force in ("", "--force") if has_force else ("",):
                    if force and kind in REPLACED and (name, one.name) not in ADDED:
                        continue
                    path = self.room / f"out{suffix}"
                    make(path)
                    with self.subTest(command=name, one=one.name, kind=kind, force=force):
                        self.stays([*line_of(name, command, one, path), *force.split()], path)
                    path.rmdir() if kind == "folder" else path.unlink()

    def stays(self, line: list[str], path: Path) -> None:
        """A command is refused in one line, which names the file, and changes nothing in the folder."""
        before, errors = self.state(), io.StringIO()
        with contextlib.redirect_stderr(errors), contextlib.chdir(self.room), patch.object(drive_commands, "check_library"), \
                patch.object(campaign_table, "settings_of", dict):
            self.assertIn(main(line), (REFUSED, DEVICE), (line, errors.getvalue()))
        self.assertEqual(len(errors.getvalue().splitlines()), 1, errors.getvalue())
        self.assertTrue(errors.getvalue().startswith(f"lab: {path}: "), errors.getvalue())
        self.assertEqual(self.state(), before)

    def test_with_force_another_s_file_is_replaced_but_no_input(self) -> None:
        path, scenario = self.file("mine.json", b"my own"), self.file("scenario.yaml", b"steps: [clock: 5 s]\n")
        self.assertEqual(main(["build", str(scenario), str(path), "--force"]), 0)
        self.assertTrue(path.read_bytes().startswith(b"{"))
        self.stays(["build", str(scenario), str(scenario), "--force"], scenario)

    def test_a_folder_for_what_is_found_is_new(self) -> None:
        (self.room / "kept").mkdir()
        (self.room / "link").symlink_to("nowhere")
        for name in ("kept", "link"):
            errors, words = io.StringIO(), ["search", str(TOP / "examples/suites/safety_laws.search.yaml"), "--examples", "1"]
            with contextlib.redirect_stderr(errors), contextlib.redirect_stdout(io.StringIO()):
                self.assertEqual(main([*words, "--keep", str(self.room / name)]), REFUSED, words)
            self.assertIn(f"{name}: already exists; name a new folder", errors.getvalue())
        self.assertEqual(list((self.room / "kept").iterdir()), [])

    def test_of_a_drive(self) -> None:
        given = SimpleNamespace(yaml=self.file("a.yaml", b""), image=self.room / "image", csv=self.room / "b", scenario=None, picture=None, force=True)
        for name in ("scenario", "image"):
            with self.assertRaisesRegex(Failed, "is named twice"):
                drive_commands.outs_of(SimpleNamespace(**vars(given) | {name: self.room / "b"}))
        self.assertEqual(list(drive_commands.outs_of(given)), ["csv"])


class Images(Room):
    """A drive on an image."""

    def setUp(self) -> None:
        super().setUp()
        scenario, drive = drives.read(self.file("a.yaml", DRIVE.encode()))
        assert drive is not None
        self.scenario, self.drive = scenario, drive
        self.given: list[str] = []

    def on_medium(self, medium: Medium, scenario: Scenario, drive: drives.Drive) -> Driven:
        """A stand-in of the unit: it writes two sectors in turn, each after a sync, and releases then."""
        self.assertEqual(b"".join(map(medium.read_sector, range(medium.sectors()))), IMAGE * 3)
        for sector in (2, 1):
            medium.write(sector, bytes([sector]) * 512)
            medium.sync()
        return Driven()

    def test_one_that_is_there_goes_on_in_the_unit_s_own_order(self) -> None:
        image = self.own("image")
        calls: list[object] = []
        write, sync = os.pwrite, os.fsync

        def noted_write(number: int, data: bytes, at: int) -> int:
            calls.append((at, len(data)))
            return write(number, data, at)

        def noted_sync(number: int) -> None:
            calls.append("sync")
            sync(number)

        with patch("os.pwrite", noted_write), patch("os.fsync", noted_sync), \
                patch.object(drive_commands, "on_medium", self.on_medium):
            drive_commands.on_file(image, self.scenario, self.drive)
        self.assertEqual([one for one in calls if one != "sync"], [(1024, 512), (512, 512)])
        self.assertEqual(calls[-4:], [(1024, 512), "sync", (512, 512), "sync"])
        self.assertEqual(image.read_bytes(), IMAGE + b"\1" * 512 + b"\2" * 512)

    def own(self, name: str) -> Path:
        """An image that a drive made."""
        self.file(f"{name}.identity", b"unit: lab drive\n")
        return self.file(name, IMAGE * 3)

    def refuses_image(self, path: Path, message: str) -> None:
        """A drive is refused, with what to do, and changes nothing."""
        before = {name: (self.room / name).read_bytes() for name in self.names() if (self.room / name).is_file()}
        with self.assertRaisesRegex(Failed, f"{message}.* Name a new file. Nothing was changed.$") as caught, \
                patch.object(drive_commands, "on_medium", self.on_medium), patch.object(drive_commands, "fresh", lambda *given: b""), \
                patch.object(drive_commands, "over_image", lambda *given: (Driven(), IMAGE * 2)):
            drive_commands.on_file(path, self.scenario, self.drive)
        self.assertEqual(caught.exception.status, REFUSED)
        self.assertEqual({name: (self.room / name).read_bytes() for name in self.names() if (self.room / name).is_file()}, before)

    def test_one_that_no_drive_made(self) -> None:
        self.refuses_image(self.file("evidence", IMAGE * 3), r"evidence: isn't an image that `lab drive` made, since .*evidence.identity doesn't say")
        for identity in (b"", b"unit: 17\n", b"software: lab drive\n"):
            self.file("evidence.identity", identity)
            self.refuses_image(self.room / "evidence", "isn't an image that `lab drive` made")
            self.file("gone.identity", identity)
            self.refuses_image(self.room / "gone", "isn't an image that `lab drive` made")

    def test_a_cut_within_it_loses_nothing_that_was_there(self) -> None:
        image = self.own("image")
        with patch("os.pwrite", side_effect=OSError(5, "Input/output error")), patch.object(drive_commands, "on_medium", self.on_medium), \
                self.assertRaisesRegex(Failed, "Input/output error"):
            drive_commands.on_file(image, self.scenario, self.drive)
        self.assertEqual(image.read_bytes(), IMAGE * 3)

    def test_one_that_is_new_comes_whole(self) -> None:
        image = self.room / "image"
        with patch.object(drive_commands, "fresh", lambda *given: b""), \
                patch.object(drive_commands, "over_image", lambda *given: (Driven(), IMAGE * 2)):
            drive_commands.on_file(image, self.scenario, self.drive)
            self.assertEqual((image.read_bytes(), self.names()), (IMAGE * 2, ["a.yaml", "image", "image.identity"]))
            self.assertEqual((self.room / "image.identity").read_text(), "unit: lab drive\n")
            image.unlink()
            drive_commands.on_file(image, self.scenario, self.drive)
        self.assertEqual((image.read_bytes(), self.names()), (IMAGE * 2, ["a.yaml", "image", "image.identity"]))

    def test_the_unit_s_library_is_looked_for_first(self) -> None:
        with patch.object(own_unit, "library", side_effect=OSError("none")), self.assertRaisesRegex(Failed, "tools/library --unproved PREFIX"):
            closed_loop.on_medium(MemoryMedium(IMAGE), self.scenario, self.drive)


def add_one(path: Path, number: int) -> None:
    """Adds a journal with a digest of its own, and one that all add."""
    connection = database.open_database(path)
    for digest in (f"{number:064x}", "f" * 64):
        sample = journal(record(0), record(1))
        sample.examination["image"]["sha256"] = digest
        database.add(connection, sample, tables.frame(sample))
    connection.close()


class Databases(Room):
    """Databases."""

    def test_names(self) -> None:
        for name in NAMES:
            path = self.room / name
            database.open_database(path).close()
            campaign_table.Table(path.with_name(f"{name}.c"), {"a": "b"}).close()
            self.assertEqual(list(campaign_table.rows_of(path.with_name(f"{name}.c"))), [])
            campaign_table.write_csv(path.with_name(f"{name}.c"), Out(path.with_name(f"{name}.csv")))
            self.assertTrue(path.with_name(f"{name}.csv").read_bytes().startswith(b"name,job_sha256,"))
        self.assertEqual(self.names(), sorted(name + end for name in NAMES for end in ("", ".c", ".csv")))

    def test_altered_databases_are_refused(self) -> None:
        endless = "WITH RECURSIVE r(x) AS (SELECT 1 UNION ALL SELECT x + 1 FROM r)"
        altered = [f"DROP TABLE image; CREATE VIEW Image AS {endless} SELECT 'x' || x AS sha256 FROM r",
                   f"CREATE TRIGGER t AFTER INSERT ON image BEGIN INSERT INTO cause_word {endless} SELECT x, x, x FROM r; END",
                   *(f"PRAGMA writable_schema = ON; UPDATE sqlite_master SET {column} = x'ff' WHERE name = 'image'" for column in ("name", "sql"))]
        for number, statements in enumerate(altered):
            path = self.room / str(number)
            database.open_database(path).close()
            with contextlib.closing(sqlite3.connect(path)) as connection:
                connection.executescript(statements)
            with self.subTest(statements):
                with self.assertRaises(Failed) as found, contextlib.closing(database.open_database(path)) as connection:
                    connection.set_progress_handler(lambda: True, 10_000_000)
                    database.add(connection, journal(record(0, "powerup")), tables.frame(journal(record(0, "powerup"))))
                self.assertNotIn("interrupted", str(found.exception))

    def test_altered_tables_of_a_campaign_are_refused(self) -> None:
        def is_there() -> bool:
            return campaign_table.Table(path, {}).is_there(campaign.Job("a", "scenario", (), None))

        uses: tuple[Callable[[], object], ...] = (
            is_there, lambda: list(campaign_table.rows_of(path)), lambda: campaign_table.unsound(path, 1), lambda: campaign_table.refused(path),
            lambda: campaign_table.write_csv(path, Out(self.room / "out.csv", True)), lambda: list(campaign_table.differences(path, path)))
        for table, column, used in (("result", "ended", uses), ("campaign", "value", uses[:1])):
            for statement in (f"DROP TABLE {table}", f"UPDATE {table} SET {column} = 'refused ' || CAST(x'ff' AS TEXT)"):
                path = self.room / f"{table} {statement[:4]}"
                campaign_table.Table(path, {"a": "b"}).close()
                with contextlib.closing(sqlite3.connect(path)) as connection:
                    connection.execute("INSERT INTO result (name, job_sha256, kind, ended, sound) VALUES ('a', 'b', 'scenario', 'refused 2 Shape', 0)")
                    connection.execute(statement)
                    connection.commit()
                for at, use in enumerate(used):
                    with self.subTest(statement, use=at), self.assertRaisesRegex(Failed, f"^{path}: ") as found:
                        use()
                    self.assertEqual(found.exception.status, DEVICE)

    def test_of_another_kind(self) -> None:
        campaign_table.Table(self.room / "campaign", {}).close()
        database.open_database(self.room / "journals").close()
        before = {name: (self.room / name).read_bytes() for name in self.names()}
        self.assertRaisesRegex(Failed, "is not a database of journals that lab made", database.open_database, self.room / "campaign")
        self.assertRaisesRegex(Failed, "is not a table of a campaign", campaign_table.Table, self.room / "journals", {})
        self.assertRaisesRegex(Failed, "is not a table of a campaign", next, campaign_table.rows_of(self.room / "journals"))
        self.assertEqual({name: (self.room / name).read_bytes() for name in self.names()}, before)

    def test_many_at_once(self) -> None:
        path, count = self.room / "out.db", 6
        context = multiprocessing.get_context("fork")
        added = [context.Process(target=add_one, args=(path, number)) for number in range(count)]
        for one in added:
            one.start()
        for one in added:
            one.join(60)
        self.assertEqual([one.exitcode for one in added], [0] * count)
        connection = database.open_database(path)
        self.addCleanup(connection.close)
        found = {name: connection.execute(f"SELECT count(*) FROM {name}").fetchone()[0] for name in ("image", "event")}
        self.assertEqual(found, {"image": count + 1, "event": 2 * (count + 1)})
        self.assertEqual(self.names(), ["out.db"])


if __name__ == "__main__":
    unittest.main()
