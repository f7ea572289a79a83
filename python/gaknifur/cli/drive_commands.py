"""The command `drive`: runs a train in a closed loop over the onboard unit's library, and prints the results."""
import csv
import io
from collections.abc import Callable
from dataclasses import asdict
from pathlib import Path
from types import SimpleNamespace

from .. import files
from ..escaping import shown
from ..journal import identity
from ..journal.reading import Progress
from ..program import DEVICE, REFUSED, WRONG_WORDS, Failed
from ..simulation import driving, scenarios
from ..simulation.closed_loop import ends_of, fresh, on_medium, over_image
from ..simulation.drives import Drive, read
from ..unit import FileMedium
from ..units.own_unit import check_library

COLUMNS = ("time_ms", "first_event", "event", "place_cm", "speed_m_per_h", "limit_m_per_h", "above_m_per_h", "brake", "mode",
           "braking_cm_per_s2")


# ---- results

def km(m_per_h: int) -> str:
    """A speed in km/h."""
    return f"{m_per_h / 1000:.1f}"


def metres(cm: int) -> str:
    """A place in m."""
    return f"{cm / 100:.2f}"


def where(row: driving.Row) -> str:
    """The place, time, speed and limit of a row, as text."""
    return f"at {metres(row.place_cm)} m after {row.time_ms / 1000:g} s, speed {km(row.speed_m_per_h)}, limit {km(row.limit_m_per_h)} km/h"


def describe(driven: driving.Driven) -> list[str]:
    """The course of a drive as text, one line for each change of brake or mode."""
    lines, before = [], None
    for row in driven.rows:
        now = (row.mode, row.brake)
        if now != before:
            lines.append(f"{row.mode}, brake {row.brake}: {where(row)}")
        before = now
    last, worst = driven.rows[-1], max(driven.rows, key=lambda row: row.above_m_per_h)
    if worst.above_m_per_h > 0:
        lines.append(f"most above the limit: {km(worst.above_m_per_h)} km/h {where(worst)}")
    lines.append(f"{'stopped' if not last.speed_m_per_h else 'still moving'}: {where(last)}")
    found = ends_of(driven)
    if found:
        end, location = found
        beyond = last.place_cm - location
        name = "the end of authority" if end == location else "the supervised location"
        lines.append(f"{name} is at {metres(location)} m: {metres(abs(beyond))} m {'before' if beyond <= 0 else 'beyond'} it")
    return lines


def csv_text(driven: driving.Driven) -> str:
    """A row for each time step."""
    text = io.StringIO()
    writer = csv.DictWriter(text, COLUMNS, lineterminator="\n")
    writer.writeheader()
    writer.writerows(asdict(row) | {"above_m_per_h": row.above_m_per_h} for row in driven.rows)
    return text.getvalue()


def scenario_text(scenario: scenarios.Scenario, driven: driving.Driven) -> str:
    """The inputs of the unit, as a scenario. Each time step is flushed, as in the drive."""
    return scenarios.Scenario(scenario.cold, [], driven.steps).text()


# ---- the command

UNIT = "lab drive"
"""The unit in the identity of an image that a drive made. Only such an image gets a further life."""


def is_there(path: Path, drive: Drive) -> bool:
    """Whether an image exists to which a drive adds a life. Refuses one that no drive made."""
    found, whose = files.is_there(path, [drive.at.path]), identity.of(path)
    if (found or whose) and (whose is None or whose.unit != UNIT):
        raise files.refused(path, f"isn't an image that `lab drive` made, since {shown(identity.path_of(path))} doesn't say \"unit: {UNIT}\", "
                            "so no life is added to it. Name a new file. Nothing was changed.")
    return found


def on_file(path: Path, scenario: scenarios.Scenario, drive: Drive) -> driving.Driven:
    """Runs a life on the image of a file. Creates a missing image, with its first life and its identity. Continues an existing one
    under its lock, with each write and sync that the unit requests, so that a loss of power loses no released event."""
    try:
        if not is_there(path, drive):
            driven, data = over_image(fresh(scenario, drive), scenario, drive)
            files.write(files.Out(path), data)
            if identity.of(path) is None:
                files.write(files.Out(identity.path_of(path)), f"unit: {UNIT}\n")
            return driven
        with FileMedium(path) as medium:
            return on_medium(medium, scenario, drive)
    except BlockingIOError as error:
        raise Failed(f"{path}: another program holds its lock. Nothing was changed.", DEVICE) from error
    except OSError as error:
        raise Failed(f"{path}: {error.strerror}", DEVICE) from error


def picture(driven: driving.Driven, name: str, suffix: str) -> bytes:
    """The picture of a drive. (matplotlib takes a second to load, which other drives needn't.)"""
    from ..simulation import drive_picture
    return drive_picture.drawn(driven, ends_of(driven), name, suffix)


def outs_of(given: SimpleNamespace) -> dict[str, files.Out]:
    """The output files of a drive, by their options; checked before the drive begins."""
    if given.picture and given.picture.suffix not in (".svg", ".png"):
        raise Failed(f"--picture: the file name has to end in .svg or .png, not in \"{given.picture.suffix}\"", WRONG_WORDS)
    outs = {name: files.Out(path, given.force) for name in ("csv", "scenario", "picture") if (path := getattr(given, name))}
    images = [given.image, identity.path_of(given.image)] if given.image else []
    files.check_all(outs.values(), [given.yaml, *images], images)
    return outs


def play_drive(given: SimpleNamespace, progress: Progress) -> None:
    """Runs `lab drive`. Looks for the library first, since compiling `etcs` for the telegrams may take a while."""
    check_library()
    scenario, drive = read(given.yaml)
    if drive is None:
        raise Failed(f"{given.yaml}: has no `drive`", REFUSED)
    outs = outs_of(given)
    driven = on_file(given.image, scenario, drive) if given.image else over_image(fresh(scenario, drive), scenario, drive)[0]
    makers: dict[str, Callable[[], str | bytes]] = {
        "csv": lambda: csv_text(driven), "scenario": lambda: scenario_text(scenario, driven),
        "picture": lambda: picture(driven, shown(given.yaml.stem), given.picture.suffix)}
    for name, out in outs.items():
        files.write(out, makers[name](), [given.yaml])
    print("\n".join(describe(driven)))
