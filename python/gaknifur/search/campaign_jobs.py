"""Run the jobs of a campaign, and make their rows. Only the processes that run jobs load this module.

`etcs run` runs a scenario on a file, and `etcs_lab` examines, replays and lists its image.
"""
import os
import socket
import time
from collections.abc import Iterator, Sequence
from pathlib import Path
from typing import TYPE_CHECKING

from .. import etcs_run, program
from ..cases import soundness
from ..etcs_run import CARRIED_OUT
from ..journal.reading import read
from ..program import DEVICE, Failed, Json
from .campaign import Job, Row, row_without

if TYPE_CHECKING:
    from ..cases.case_runner import Played
    from ..cases.cases import Case

LAST = ("mode", "brake", "limit_m_per_h", "place_cm")
"""The columns with values of the last event."""


def play(job: Job) -> Row:
    """Runs a job, and returns its row, which reports any failure."""
    start = time.perf_counter()
    row = row_without(job, CARRIED_OUT)
    try:
        if job.unread:
            raise Failed(job.unread, DEVICE)
        with program.temporary_folder(job.size) as folder:
            row |= play_case(job, Path(folder)) if job.kind == "case" else play_scenario(job, Path(folder))
    except Failed as failed:
        row |= {"ended": f"failed: {failed}", "sound": 0}
    except Exception as error:  # the row reports it, and the campaign continues
        row |= {"ended": f"failed: {type(error).__name__}: {error}", "sound": 0}
    return row | {"seconds": round(time.perf_counter() - start, 4), "worker": f"{socket.gethostname()}/{os.getpid()}"}


def play_scenario(job: Job, folder: Path) -> Row:
    """Runs one life on a new image. Its row has the fault if it isn't sound."""
    scenario, image = folder / "scenario.json", folder / "image"
    scenario.write_bytes(job.content[0][1])
    program.format_image(image, job.size)
    run = etcs_run.run_life(scenario, image)
    journal = read(image, replay=True, is_own=True)
    row: Row = {"ended": run.ended, "sound": 1, "image_sha256": journal.sha256} | values_of(journal.records)
    try:
        soundness.check_image(journal)
        soundness.check_released(run.released, journal.records)
    except soundness.Missed as missed:
        row |= {"first_missed": str(missed), "sound": 0}
    return row


def values_of(records: Sequence[Json]) -> Row:
    """The values of a row that come from records."""
    if not records:
        return {"events": 0, "lives": 0}
    last = records[-1]
    return {"events": len(records), "lives": len({one["life"] for one in records}), **{name: last[name] for name in LAST},
            "emergencies": starts([one["brake"] for one in records], "emergency"), "trips": starts([one["mode"] for one in records], "TR")}


def starts(values: Sequence[str], value: str) -> int:
    """How often a run of a value starts after another value."""
    return sum(one != value == other for one, other in zip(values, values[1:]))


def play_case(job: Job, folder: Path) -> Row:
    """Runs the cases of a file, and judges their expected results."""
    from ..cases import case_runner, cases
    for name, data in job.content:
        path = folder / name
        path.parent.mkdir(parents=True, exist_ok=True)
        path.write_bytes(data)
    records: list[Json] = []
    tests, messages = 0, list[str]()
    for case in cases.read(folder / job.content[0][0]):
        try:
            played = case_runner.play(case)
        except case_runner.Missed as failure:
            tests, messages = tests + 1, [*messages, f"{case.name}: {failure}"]
            continue
        tests, messages = tests + max(1, len(case.expected)), [*messages, *missed_by(case, played)]
        records += played.records
    return {"tests": tests, "missed": len(messages), "first_missed": messages[0] if messages else None, "sound": int(not messages)} | values_of(records)


def missed_by(case: "Case", played: "Played") -> Iterator[str]:
    """A message for each expected result of a case that didn't come."""
    from ..cases import case_runner, mode_table
    for expected in case.expected:
        try:
            case_runner.judge(expected, played, mode_table.mode_table())
        except case_runner.Missed as failure:
            yield f"{case.name}, line {expected.at.line}: {failure}"
