"""The commands about a journal: `table`, `database`, `report`, `check` and `why`.

What takes long to load, such as pandas and matplotlib, is loaded by the command that needs it.
"""
import json
import sys
from collections.abc import Iterable
from dataclasses import fields
from importlib.util import find_spec
from pathlib import Path
from types import SimpleNamespace

from .. import files, program
from ..errors import say
from ..journal import anonymous, braking, plausibility, verdict, why
from ..journal.reading import Journal, Progress, check, check_size, failed, objects, parsed_all, read, with_slots
from ..journal.verdict import Verdict
from ..program import DEVICE, NOT_WHOLE, REFUSED, WHOLE, WRONG_WORDS, Failed, Run


def say_verdict(path: Path, found: Verdict) -> int:
    """Prints the verdict of an image on standard error; returns the status."""
    for sentence in found.sentences:
        say(f"{path}: {sentence}")
    return found.status


def note(journal: Journal) -> int:
    """Reports the verdict of an image; returns the status."""
    return say_verdict(journal.path, verdict.of(journal))


def add_stated(journal: Journal, given: SimpleNamespace) -> None:
    """Adds what isn't in the journal: whose the image is, by the file next to it, and the time of day of lives."""
    from ..journal import identity
    journal.identity, journal.utc = identity.of(journal.path), dict(given.utc)
    if len(journal.utc) < len(given.utc):
        raise Failed("--utc names a life twice", WRONG_WORDS)
    for life in journal.utc.keys() - {one["life"] for one in journal.records}:
        raise Failed(f"{journal.path}: no event of life {life} is here, which --utc names. Nothing of it was written.", REFUSED)


def write(out: files.Out | None, text: str | bytes | Iterable[str], source: Path) -> None:
    """Writes to a file, or to standard output."""
    if out is None:
        sys.stdout.writelines([text.decode()] if isinstance(text, bytes) else [text] if isinstance(text, str) else text)
        sys.stdout.flush()
    else:
        files.write(out, text, [source])


def out_of(given: SimpleNamespace, source: Path) -> files.Out | None:
    """The output file of a command, if any. It is checked before the work begins."""
    out = files.Out(given.out, given.force) if given.out is not None else None
    files.check_all([out] if out else [], [source])
    return out


def write_table(given: SimpleNamespace, progress: Progress) -> int:
    """Runs `lab table`."""
    if given.damaged and given.other_blocks:
        raise Failed("--damaged can't be combined with --all", WRONG_WORDS)
    if given.anonymous and (given.damaged or given.other_blocks):
        raise Failed("--anonymous can't be combined with --all or --damaged", WRONG_WORDS)
    suffix = given.out.suffix.lower() if given.out is not None else ""
    if suffix not in ("", ".csv", ".xlsx"):
        raise Failed(f"{given.out}: the name has to end in .csv or .xlsx", WRONG_WORDS)
    is_book = suffix == ".xlsx"
    if is_book and not find_spec("xlsxwriter"):
        raise Failed("xlsxwriter is missing; tools/python installs it by Debian's packages", DEVICE)
    out = out_of(given, given.image)
    journal = read(given.image, other_blocks=given.other_blocks, replay=True, why=not given.damaged, progress=progress,
                   strays=given.damaged)
    add_stated(journal, given)
    from ..journal import tables, utc, workbook
    handed_out = anonymous.of(journal) if given.anonymous else journal
    table = tables.strays(journal) if given.damaged else anonymous.frame(handed_out) if given.anonymous else tables.frame(journal)
    notes = [f"sha256 {handed_out.sha256}", f"read by {program.reader()}", *([utc.note(journal.utc)] if journal.utc else [])]
    write(out, workbook.workbook(tables.written(table), notes) if is_book else tables.csv_parts(table), given.image)
    return note(journal)


def write_database(given: SimpleNamespace, progress: Progress) -> int:
    """Runs `lab database`."""
    from ..journal import database, tables
    if given.utc and len(given.images) > 1:
        raise Failed("--utc works with one image only; add each one by itself", WRONG_WORDS)
    connection, status = database.open_database(given.out, given.images), 0
    try:
        for image in given.images:
            journal = read(image, other_blocks=given.other_blocks, replay=True, why=True, progress=progress)
            add_stated(journal, given)
            progress("database", 0, 0)
            if not database.add(connection, journal, tables.frame(journal)):
                say(f"{image}: is in the database already")
            status = max(status, note(journal))
    finally:
        connection.close()
    return status


def write_report(given: SimpleNamespace, progress: Progress) -> int:
    """Runs `lab report`."""
    from ..journal.extent import Extent, bound
    extent = Extent(bound(given.first) if given.first else None, bound(given.last) if given.last else None, given.life)
    out = out_of(given, given.image)
    journal = read(given.image, replay=True, why=True, progress=progress, strays=True, part=extent.part, slots=given.slots)
    add_stated(journal, given)
    from ..journal import report
    handed_out = anonymous.of(journal) if given.anonymous else journal
    write(out, report.page(handed_out, extent, progress, given.newest_first), given.image)
    return note(journal)


def judge(given: SimpleNamespace, progress: Progress) -> int:
    """Prints implausible values and the verdict; returns the status."""
    limits = plausibility.Thresholds(**{one.name: getattr(given, one.name) for one in fields(plausibility.Thresholds)})
    records = plausibility.Judge(limits)
    examination, replay = check(given.image, progress, given.slots)
    journal = Journal(given.image, examination, replay=replay, slots_given=given.slots)
    objects(["events", *with_slots(given.slots)], given.image, lambda line: records.add(line) if "event" in line else None)
    found = records.end()
    judged = Verdict(verdict.faults(journal), found.findings)
    lines = [*map(json.dumps, found.findings), json.dumps(plausibility.as_json(found, limits)), json.dumps(judged.as_json())] if given.json else \
        [*map(plausibility.text, found.findings), plausibility.summary(found, limits)]
    sys.stdout.writelines(f"{line}\n" for line in lines)
    return say_verdict(given.image, judged)


def check_image(given: SimpleNamespace, progress: Progress) -> int:
    """Runs `lab check`."""
    check_size(given.image, given.slots)
    run = Run(["check", *(["--json"] if given.json else []), *with_slots(given.slots)], given.image)
    for line in run.lines():
        sys.stdout.write(line.removesuffix("\n") + "\n")
    sys.stdout.flush()
    if run.status not in (WHOLE, NOT_WHOLE) and (run.messages or run.status not in (REFUSED, DEVICE)):
        raise failed(run, given.image, given.slots)
    if run.status not in (WHOLE, NOT_WHOLE):
        return run.status
    return max(run.status, judge(given, progress))


def explain(given: SimpleNamespace, progress: Progress) -> int:
    """Runs `lab why`."""
    journal = read(given.image, replay=True, why=True, progress=progress, slots=given.slots)
    event = [] if given.event is None else [str(given.event)]
    run = Run(["why", *(["--json"] if given.json else []), *with_slots(given.slots)], given.image, *event)
    lines = run.all_lines()
    texts = {} if given.json else why.paragraphs(lines)
    found = list(why.explained(journal)) if given.event is None else \
        list(why.of_event(journal, given.event, parsed_all(lines, "why") if given.json else [{"event": one} for one in texts]))
    if run.status not in (WHOLE, NOT_WHOLE) or given.event is not None and not found:
        raise failed(run, given.image, given.slots)
    if not found:
        say(f"{given.image}: no record commands a brake")
        return note(journal) or REFUSED
    sys.stdout.writelines(f"{json.dumps(one.as_json())}\n" if given.json else one.text(texts) for one in found)
    sys.stdout.flush()
    broken = [one.braking for one in found if one.braking and braking.is_broken(one.braking)]
    if broken:
        say(f"{given.image}: {braking.broken_text(broken)}")
    return max(note(journal), NOT_WHOLE if broken else WHOLE)
