"""Run campaigns: many scenarios, case files or random lives on many processors, with one table of results.

A job is only data: the bytes of its files, or the seed of a random life. A worker needs this package and the two programs, and no
common folder. A job that is in the table already doesn't run again, so an interrupted campaign continues. A row is the same on every
worker, except for `seconds` and `worker`.
"""
import functools
import hashlib
import itertools
import os
import random
from collections.abc import Callable, Iterable, Iterator
from concurrent.futures import FIRST_COMPLETED, Future, wait
from dataclasses import dataclass
from pathlib import Path
from typing import Any

from .. import processes
from ..cases import case_files
from ..escaping import shown
from ..program import DEVICE, Failed

Row = dict[str, Any]
Take = Callable[[list[Row]], None]
"""Receives the rows of jobs."""

COLUMNS = ("name", "job_sha256", "kind", "ended", "image_sha256", "events", "lives", "mode", "brake", "limit_m_per_h",
           "place_cm", "emergencies", "trips", "tests", "missed", "first_missed", "sound", "seconds", "worker")
NOT_COMPARED = ("seconds", "worker")
AHEAD, BATCH, PATIENCE = 4, 50, "30s"
"""The number of jobs that wait for each process; the number of jobs that a worker of a scheduler gets at once; and the time limit for a
scheduler to answer."""


@dataclass(frozen=True)
class Job:
    """A scenario, or a case file with the files that it names."""

    name: str
    kind: str
    """`scenario` or `case`."""
    files: tuple[tuple[str, bytes], ...]
    """Paths within the job, and their bytes; the first one is run. A random life has none."""
    slots: int | None
    """The slots of its image; None for as many as a random life needs."""
    seed: str = ""
    """The seed of a random life."""
    unread: str = ""
    """Why its files can't be read, which its row reports."""

    @functools.cached_property
    def content(self) -> tuple[tuple[str, bytes], ...]:
        """The files, of a random life too. It is made only where it is needed, which is in the process that runs it."""
        if not self.seed:
            return self.files
        from . import random_lives
        return (("scenario.json", random_lives.scenario(random.Random(self.seed))),)

    @functools.cached_property
    def size(self) -> int:
        """The slots of its image."""
        from . import random_lives
        return random_lives.slots_for(self.content[0][1]) if self.slots is None else self.slots

    @functools.cached_property
    def sha256(self) -> str:
        """The SHA-256 of everything that is run."""
        parts = [self.kind, str(self.size), *(part for name, data in self.content for part in (name, hashlib.sha256(data).hexdigest()))]
        return hashlib.sha256("\n".join(parts).encode()).hexdigest()


# ---- the jobs

class Folder:
    """A job for each case file and each scenario below a folder, except those that a case names. Their number is known at once; a
    file is read when its job is needed."""

    def __init__(self, folder: Path, slots: int) -> None:
        self.folder, self.slots = folder, slots
        self.case_files, self.scenarios = case_files.below(folder)

    def __len__(self) -> int:
        return len(self.case_files) + len(self.scenarios)

    def __iter__(self) -> Iterator[Job]:
        for name in self.case_files:
            yield self.job(name, "case")
        for name in self.scenarios:
            yield self.job(name, "scenario")

    def job(self, name: str, kind: str) -> Job:
        """The job of a file. One that can't be read has a job too, so that it doesn't stop the others."""
        try:
            found = case_files.files_of(self.folder / name) if kind == "case" else [self.folder / name]
            root = Path(os.path.commonpath([one.parent for one in found]))
            names = [one.relative_to(root).as_posix() for one in found] if kind == "case" else ["scenario.json"]
            given = tuple((inner, one.read_bytes()) for inner, one in zip(names, found))
        except OSError as error:
            return Job(shown(name), kind, (), self.slots, unread=f"can't be read: {error.strerror}")
        return Job(shown(name), kind, given, self.slots)


def at_random(count: int, seed: int, slots: int | None) -> Iterator[Job]:
    """Random lives. The same seed gives the same lives."""
    for number in range(count):
        yield Job(f"random/{seed}/{number:07}", "scenario", (), slots, f"{seed}/{number}")


# ---- running jobs

def row_without(job: Job, ended: str) -> Row:
    """The row of a job that didn't run to its end."""
    return {**dict.fromkeys(COLUMNS), "name": job.name, "job_sha256": job.sha256, "kind": job.kind, "sound": 0, "ended": ended}


def here(jobs: Iterable[Job], workers: int, take: Take) -> None:
    """Runs jobs in processes of this machine."""
    from . import campaign_jobs  # (loaded once, before processes are forked)
    waiting = set[Future[Row]]()
    with processes.pool(workers) as pool:
        for job in jobs:
            waiting.add(pool.submit(campaign_jobs.play, job))
            if len(waiting) == AHEAD * workers:
                done, waiting = wait(waiting, return_when=FIRST_COMPLETED)
                take([one.result() for one in done])
        for one in waiting:
            take([one.result()])


def play_all(jobs: list[Job]) -> list[Row]:
    """Runs jobs in turn."""
    from . import campaign_jobs  # (only workers need it)
    return list(map(campaign_jobs.play, jobs))


def by_scheduler(jobs: Iterable[Job], scheduler: str, take: Take) -> None:
    """Runs jobs on the workers of a Dask scheduler. The jobs of a lost worker go to the others."""
    try:
        from distributed import Client, KilledWorker, as_completed
    except ImportError as error:
        raise Failed("python3-distributed is missing; tools/python --campaigns installs it by Debian's packages", DEVICE) from error
    left = iter(jobs)
    try:
        with Client(scheduler, timeout=PATIENCE) as client:
            futures = client.map(play_all, list(iter(lambda: list(itertools.islice(left, BATCH)), [])), pure=False)
            for _, rows in as_completed(futures, with_results=True):
                take(rows)
    except OSError as error:
        raise Failed(f"{scheduler}: no scheduler answers at this address", DEVICE) from error
    except KilledWorker as error:
        raise Failed(f"workers were killed again and again: {error}", DEVICE) from error
