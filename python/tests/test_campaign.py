"""Campaigns: their jobs, their rows, and a process that is killed."""
import io
import json
import os
import pickle
import random
import re
import tempfile
import unittest
from collections import Counter
from collections.abc import Callable, Iterator
from contextlib import redirect_stdout
from functools import partial
from pathlib import Path
from types import SimpleNamespace
from typing import Any
from unittest.mock import patch

from gaknifur.cases import soundness
from gaknifur.cli import campaign_commands
from gaknifur.etcs_run import output_of, read_lines
from gaknifur.program import Failed, Json
from gaknifur.search import campaign, campaign_jobs, campaign_table, random_lives
from gaknifur.search.campaign import Job, Row

from .samples import AUTHORITY, InFolder, journal, record

class Jobs(unittest.TestCase):
    """Jobs of random lives."""

    def test_a_random_life_is_made_where_it_is_run(self) -> None:
        one, = campaign.at_random(1, 7, 64)
        self.assertEqual((one.files, one.seed), ((), "7/0"))
        self.assertLess(len(pickle.dumps(one)), 200)
        self.assertEqual(one.content, (("scenario.json", random_lives.scenario(random.Random("7/0"))),))
        self.assertEqual(one.sha256, Job(one.name, "scenario", one.content, 64).sha256)
        other, = campaign.at_random(1, 7, None)
        self.assertEqual((one.size, other.size), (64, random_lives.slots_for(one.content[0][1])))


class Folders(InFolder):
    """The scenarios of a folder."""

    def setUp(self) -> None:
        super().setUp()
        self.folder, self.out = Path(self.room, "folder"), Path(self.room, "out.db")
        self.names = ["0/b.json", "0 c.json", "0/a/c.json", "1\u202e.json", "d.json", "a b.json"]
        for name in [*self.names, "no scenario.txt", ".json", "case.json/none"]:
            path = self.folder / name
            path.parent.mkdir(parents=True, exist_ok=True)
            path.write_text(name)
        (self.folder / "linked").symlink_to(self.folder / "0")
        (self.folder / "away.json").symlink_to("nowhere")

    def test_in_order(self) -> None:
        found = campaign.Folder(self.folder, 64)
        wanted = ["0/a/c.json", "0/b.json", "0 c.json", "1\\u202e.json", "a b.json", "d.json"]
        self.assertEqual(([job.name for job in found], len(found)), (wanted, len(wanted)))
        self.assertEqual({job.files[0][1].decode() for job in found}, set(self.names))

    def test_a_folder_of_nothing_is_refused(self) -> None:
        (empty := self.folder / "empty").mkdir()
        given = SimpleNamespace(folder=empty, out=self.out, slots=64, random=3, seed=1, csv=None, scheduler=None, jobs=1)
        with patch.object(campaign_table, "settings_of", dict), self.assertRaisesRegex(Failed, "empty: contains no test case and no scenario"):
            campaign_commands.play_campaign(given, lambda what, done, whole: None)
        self.assertFalse(self.out.exists())

    def test_a_file_that_goes_meanwhile(self) -> None:
        def here(jobs: Iterator[Job], workers: int, take: Callable[[list[Row]], None]) -> None:
            take([campaign.row_without(next(jobs), "carried out")])
            (self.folder / "0/b.json").unlink()
            for job in jobs:
                take([campaign_jobs.play(job) if job.unread else campaign.row_without(job, "carried out")])

        given = SimpleNamespace(folder=self.folder, out=self.out, slots=64, random=0, seed=1, csv=None, scheduler=None, jobs=1)
        with patch.object(campaign, "here", here), patch.object(campaign_table, "settings_of", dict), redirect_stdout(printed := io.StringIO()):
            self.assertEqual(campaign_commands.play_campaign(given, lambda what, done, whole: None), 4)
        rows = list(campaign_table.rows_of(self.out))
        self.assertEqual(len(rows), len(self.names))
        self.assertEqual({row["name"]: row["ended"] for row in rows if row["ended"] != "carried out"},
                         {"0/b.json": "failed: can't be read: No such file or directory"})
        self.assertIn("\n  0/b.json: failed: can't be read: No such file or directory\n", printed.getvalue())


def killed_once(path: str, job: Job) -> Row:
    """The row of a job. One of them ends its process, unless a file says that it did so before."""
    if job.seed.endswith("/20") and not os.path.exists(path):
        Path(path).touch()
        os._exit(1)
    return campaign.row_without(job, "carried out") | {"sound": 1}


class Killed(InFolder):
    """A process that ends early."""

    def test_the_same_command_continues(self) -> None:
        out = self.room / "out.db"
        given = SimpleNamespace(folder=None, out=out, slots=64, random=80, seed=1, csv=None, scheduler=None, jobs=3)
        with patch.object(campaign_jobs, "play", partial(killed_once, str(self.room / "killed"))), patch.object(campaign_table, "settings_of", dict), \
                redirect_stdout(printed := io.StringIO()):
            with self.assertRaisesRegex(Failed, "^a process was killed, or ran out of memory; [0-9]+ were run and are kept. The same command continues$") as found:
                campaign_commands.play_campaign(given, lambda what, done, whole: None)
            kept = len(list(campaign_table.rows_of(out)))
            self.assertIn(f"; {kept} were run", str(found.exception))
            self.assertLess(kept, 80)
            self.assertEqual(campaign_commands.play_campaign(given, lambda what, done, whole: None), 0)
        self.assertEqual(printed.getvalue(), f"80 rows, {80 - kept} of them played now; 0 not sound\n")


ETCS = """#!/bin/sh
[ "$1" = format ] && { printf image >"$3"; exit; }
printf 'event 0 mode FS level 1 brake none limit 40000 ind 0\nevent 1 mode FS level 1 brake %s limit 40000 ind 0\n' "$(cat "$3")"
"""
LAB = """#!/bin/sh
cat "$0.$1"
"""


class Judged(unittest.TestCase):
    """Lives that stand-ins of both programs play."""

    def test_an_output_that_is_not_its_record_s(self) -> None:
        sample = journal(record(0, "powerup"), record(1))
        lines = {"events": [*sample.records, {"end": "done"}],
                 "check": [sample.examination, {"life": 1, "replay": "agrees"}, {"end": "nothing_differs"}, {"check": {}}]}
        with tempfile.TemporaryDirectory() as folder, tempfile.TemporaryDirectory() as room:
            for name, text in (("etcs", ETCS), ("lab", LAB), *((f"lab.{word}", "".join(json.dumps(one) + "\n" for one in some))
                                                              for word, some in lines.items())):
                Path(folder, name).write_text(text)
                Path(folder, name).chmod(0o755)
            jobs = [Job(brake, "scenario", (("scenario.json", brake.encode()),), 64) for brake in ("none", "service", "none")]
            with patch.dict(os.environ, GAKNIFUR_ETCS=f"{folder}/etcs", GAKNIFUR_ETCS_LAB=f"{folder}/lab", TMPDIR=room), \
                    patch.object(tempfile, "tempdir", room):
                rows = list(map(campaign_jobs.play, jobs))
            self.assertEqual(os.listdir(room), [])
        self.assertEqual([(row["name"], row["ended"], row["events"], row["sound"]) for row in rows],
                         [("none", "carried out", 2, 1), ("service", "carried out", 2, 0), ("none", "carried out", 2, 1)])
        self.assertEqual(rows[1]["first_missed"].splitlines()[:2],
                         ["expected: the output of its record: event 1 mode FS level 1 brake none limit 40000 ind 0",
                          "found:    this output was released: event 1 mode FS level 1 brake service limit 40000 ind 0"])

    def test_no_room(self) -> None:
        with patch.dict(os.environ, TMPDIR="/none"), patch.object(tempfile, "tempdir", "/none"):
            row = campaign_jobs.play(Job("0", "scenario", (("scenario.json", b"{}"),), 64))
        self.assertEqual((row["name"], row["sound"]), ("0", 0))
        self.assertRegex(row["ended"], "^failed: FileNotFoundError")


def random_records(numbers: random.Random) -> list[Json]:
    """Records of one or two lives, from any event on, in which states hold for a while."""
    found, state, first = list[Json](), dict[str, Any](), numbers.choice((0, 7, 98))
    for event in range(first, first + numbers.randrange(1, 20)):
        if not state or numbers.random() < 0.3:
            state = {"mode": numbers.choice(("FS", "SB", "TR")), "level": numbers.choice((None, 0, 1)), "limit_m_per_h": numbers.randrange(3),
                     "brake": numbers.choice(("none", "service", "emergency")), "life": 1 + (event > first + 9),
                     "indications": numbers.choice(([], ["trip"], ["level_0", "overspeed"]))}
        kind = numbers.choice(("clock", "telegram"))
        found.append(record(event, kind, place_cm=numbers.randrange(-9, 9), **state, **({"decoded": AUTHORITY} if kind == "telegram" else {})))
    return found


def altered(lines: list[str], numbers: random.Random) -> list[str]:
    """The lines of outputs, of which something may be another, missing, or there too."""
    at, other = numbers.randrange(len(lines)), numbers.choice(("mode SH", "brake other", "limit 77", "ind 64", "event 77"))
    changed = re.sub(f"{other.split()[0]} [^ ]+", other, lines[at])
    return numbers.choice(([*lines], [*lines[:at], changed, *lines[at + 1:]], [*lines[:at], *lines[at + 1:]], [*lines, changed],
                           [changed, *lines], [*lines, "stopped 1 PowerLost"], lines[numbers.randrange(len(lines)):]))


class Released(unittest.TestCase):
    """Outputs that were released, compared with the records."""

    def test_each_is_that_of_its_record(self) -> None:
        numbers, found = random.Random(1), Counter[bool]()
        for _ in range(2000):
            records = random_records(numbers)
            older = [output_of(record(event)).text for event in range(numbers.randrange(3), records[0]["event"])]
            outputs = {str(one["event"]): output_of(one).text for one in records}
            printed = altered([*older, *outputs.values()], numbers)
            is_sound = all(line == outputs.get(line.split()[1], line) for line in printed if line.startswith("event "))
            found[is_sound] += 1
            try:
                soundness.check_released(read_lines(int("stopped 1 PowerLost" in printed), printed).released, records)
            except soundness.Missed:
                self.assertFalse(is_sound, (printed, records))
            else:
                self.assertTrue(is_sound, (printed, records))
        self.assertGreater(min(found[True], found[False]), 300)


REPLAY: list[Json] = [{"life": 1, "replay": "not_replayed", "reason": "before_oldest_block"}, {"life": 2, "replay": "agrees"}, {"end": "nothing_differs"}]


class Replayed(unittest.TestCase):
    """The lines of a replay."""

    def test_of_a_sound_journal(self) -> None:
        soundness.check_replay(REPLAY)
        for at, other in ((0, {"reason": "gap"}), (1, {"replay": "record_differs"}), (1, {"replay": "head_differs"}), (2, {"end": "differs_or_lost"})):
            with self.assertRaises(soundness.Missed):
                soundness.check_replay([*REPLAY[:at], REPLAY[at] | other, *REPLAY[at + 1:]])
        for count in (0, 2):
            with self.assertRaises(soundness.Missed):
                soundness.check_replay(REPLAY[:count])


if __name__ == "__main__":
    unittest.main()
