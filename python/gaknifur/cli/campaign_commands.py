"""The commands `campaign` and `compare`."""
import itertools
import time
from collections.abc import Iterable, Iterator
from types import SimpleNamespace
from typing import TYPE_CHECKING

from .. import files
from ..errors import INTERRUPTED
from ..escaping import shown
from ..program import FOUND, REFUSED, WRONG_WORDS, Failed
from ..search import campaign, campaign_table

if TYPE_CHECKING:
    from ..journal.reading import Progress

SHOWN, SLOTS = 10, 64
"""The number of unsound rows that are printed; and the slots of an image that isn't of a random life."""


class Taking:
    """Takes rows into the table, and shows the progress: how many were run, how many a second, and the time that is left."""

    def __init__(self, table: campaign_table.Table, count: int, progress: "Progress") -> None:
        self.table, self.count, self.progress = table, count, progress
        self.is_new, self.kept, self.played, self.start = not table.has_rows(), 0, 0, time.monotonic()

    def left(self, jobs: Iterable[campaign.Job]) -> Iterator[campaign.Job]:
        """The jobs that aren't in the table."""
        for job in jobs:
            if self.is_new or not self.table.is_there(job):
                yield job
            else:
                self.kept += 1

    def take(self, rows: list[campaign.Row]) -> None:
        """Takes rows."""
        self.table.take(rows)
        self.played += len(rows)
        rate = self.played / max(time.monotonic() - self.start, 0.001)
        self.progress(f"campaign, {rate:,.0f} a second", self.played + self.kept, self.count)


def run_jobs(given: SimpleNamespace, jobs: Iterator[campaign.Job], taking: Taking) -> None:
    """Runs jobs here or by a scheduler, and closes the table."""
    try:
        if given.scheduler:
            campaign.by_scheduler(jobs, given.scheduler, taking.take)
        else:
            campaign.here(jobs, given.jobs, taking.take)
    except KeyboardInterrupt:
        raise Failed(f"interrupted; {taking.played} were run and are kept. The same command continues", INTERRUPTED) from None
    except Failed as failed:
        raise Failed(f"{failed}; {taking.played} were run and are kept. The same command continues", failed.status) from failed
    finally:
        taking.table.close()


def play_campaign(given: SimpleNamespace, progress: "Progress") -> int:
    """Runs `lab campaign`."""
    if given.folder is None and not given.random:
        raise Failed("campaign: a FOLDER or --random N is required", WRONG_WORDS)
    out = files.Out(given.csv, given.force) if given.csv else None
    files.check_all([out] if out else [], [given.out], [given.out])
    jobs: campaign.Folder | list[campaign.Job] = campaign.Folder(given.folder, SLOTS if given.slots is None else given.slots) if given.folder else []
    if given.folder and not len(jobs):
        raise Failed(f"{given.folder}: contains no test case and no scenario; nothing was run", REFUSED)
    count = len(jobs) + given.random
    taking = Taking(campaign_table.Table(given.out, campaign_table.settings_of()), count, progress)
    lives = campaign.at_random(given.random, given.seed, given.slots)
    run_jobs(given, taking.left(itertools.chain(jobs, lives)), taking)
    rows, bad, first = campaign_table.unsound(given.out, SHOWN)
    if out:
        campaign_table.write_csv(given.out, out)
    print(f"{rows} rows, {taking.played} of them played now; {bad} not sound")
    for row in first:
        print(shown(f"  {row['name']}: {row['ended']}{'; ' + row['first_missed'].splitlines()[0] if row['first_missed'] else ''}"))
    refused, name = campaign_table.refused(given.out)
    if refused:
        print(shown(f"{refused} scenarios were refused, and nothing of them was played; the first: {name}"))
    if refused == rows:
        raise Failed(f"{given.out}: each scenario was refused, so nothing was played", REFUSED)
    return FOUND if bad else 0


def compare_campaigns(given: SimpleNamespace, progress: "Progress") -> int:
    """Runs `lab compare`."""
    count = 0
    for count, line in enumerate(campaign_table.differences(given.first, given.second), 1):
        print(shown(line))
    print(f"{count} rows differ")
    return FOUND if count else 0
