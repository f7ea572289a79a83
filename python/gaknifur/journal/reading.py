"""Read a journal with `etcs_lab`: the examination of its image, its records and their replay."""
import contextlib
import gc
import itertools
import json
import os
import tempfile
from array import array
from collections.abc import Callable, Iterable, Iterator, Sequence
from dataclasses import dataclass, field
from pathlib import Path
from typing import TYPE_CHECKING, Any, Protocol, overload

from .. import layout
from ..escaping import shown
from ..files import digest
from ..program import DEVICE, NOT_WHOLE, REFUSED, WHOLE, Failed, Json, Run
from . import sizes
from .part import Changes, Part
from .utc import Begun

if TYPE_CHECKING:
    from .identity import Identity
    from .verdict import Verdict

Progress = Callable[[str, int, int], None]
"""A callback for progress: what is being done, how much is done, and the total (0 if it isn't known)."""


AT_ONCE, MOST_SMALL = 512, 1 << 20
"""The number of lines that are parsed at once, and the greatest size of an image whose lines are all read at once."""


class Choice(Protocol):
    """Chooses the lines to read."""

    is_over: bool
    """Whether no further line is chosen."""

    def take(self, line: str) -> list[str]:
        """The lines to read when a line comes."""

    def end(self) -> list[str]:
        """The lines to read after the last one."""


def silent(what: str, done: int, whole: int) -> None:
    """Does nothing."""


class Records(Sequence[Json]):
    """The records of a long journal, as lines of a temporary file. They are parsed each time they are read: as objects they would need
    several times the memory. Changes to a record that was read are not kept."""

    def __init__(self) -> None:
        self.file, self.ends = tempfile.TemporaryFile(), array("Q", [0])

    def append(self, record: Json) -> None:
        """Adds a record."""
        self.ends.append(self.ends[-1] + self.file.write(json.dumps(record).encode() + b"\n"))

    def some(self, first: int, end: int) -> list[Json]:
        """The records from one on, before another one."""
        self.file.flush()
        data = os.pread(self.file.fileno(), self.ends[end] - self.ends[first], self.ends[first])
        return parsed_all(data.decode().splitlines(), "events")

    def __len__(self) -> int:
        return len(self.ends) - 1

    def __iter__(self) -> Iterator[Json]:
        for at in range(0, len(self), AT_ONCE):
            yield from self.some(at, min(at + AT_ONCE, len(self)))

    @overload
    def __getitem__(self, at: int) -> Json: ...
    @overload
    def __getitem__(self, at: slice) -> list[Json]: ...
    def __getitem__(self, at: int | slice) -> Json | list[Json]:
        if isinstance(at, slice):
            return [self[one] for one in range(len(self))[at]]
        row = range(len(self))[at]
        return self.some(row, row + 1)[0]


@dataclass
class Journal:
    """The content of an image. The members of the objects are those of `etcs_lab`."""

    path: Path
    examination: Json
    records: Sequence[Json] = ()
    unreadable: list[int] = field(default_factory=list)
    """Numbers of blocks of the journal that can't be read."""
    replay: list[Json] = field(default_factory=list)
    """The lines of a replay; empty if it was refused or not requested."""
    why: list[Json] = field(default_factory=list)
    """The lines of `etcs_lab why` about events, with the causes of their brakes; empty if it was refused or not requested."""
    why_refusal: str | None = None
    """Why `etcs_lab why` was refused."""
    refusal: str | None = None
    """Why no record can be listed, although the image was examined."""
    strays: list[Json] = field(default_factory=list)
    """Records of damaged blocks and of blocks in a wrong slot, if requested. They are in no other list: an event may occur
    twice here, and the life of a damaged block isn't known."""
    verdict: "Verdict | None" = None
    """The verdict, once it is computed (module `verdict`)."""
    identity: "Identity | None" = None
    """Whose the image is, by the file next to it."""
    utc: Begun = field(default_factory=dict)
    """The time of day at moment 0 of lives, as it was stated. It belongs neither to the journal nor to the output of `etcs_lab`."""
    is_part: bool = False
    """Whether only the records of a part were read, with those that its beginning needs (module `part`). The examination and the replay are of
    the whole image."""
    lead: int = 0
    """The number of records before a part. Between these, records may be left out; so they are of one life without a gap to the part."""
    train: Json | None = None
    """The record of the train data that were entered before a part."""
    slots_given: int | None = None
    """The number of slots that the image is read with, if it isn't the one by its first sector."""

    @property
    def name(self) -> str:
        """The name of the file, without its folders, with invisible characters escaped."""
        return shown(self.path.name)

    @property
    def image(self) -> Json:
        """Size, slots and digest."""
        image: Json = self.examination["image"]
        return image

    @property
    def sha256(self) -> str:
        """The digest of the file."""
        return str(self.image["sha256"])

    @property
    def slots(self) -> list[Json]:
        """Each slot that isn't empty."""
        slots: list[Json] = self.examination["slots"]
        return slots

    @property
    def is_whole(self) -> bool:
        """Whether nothing in the image is lost, damaged or contradictory."""
        return bool(self.examination["whole"])

    @property
    def lost(self) -> list[Json]:
        """Numbers of blocks and events that no readable block holds."""
        return [one for one in self.examination["between"] if one["what"] == "lost"]

    @property
    def contradictions(self) -> list[Json]:
        """Blocks that don't fit those before them."""
        return [one for one in self.examination["between"] if one["what"] != "lost"]

    @property
    def differences(self) -> list[Json]:
        """The differences between the journal and its replay."""
        return [line for line in self.replay if line.get("replay") in ("record_differs", "head_differs")]

    @property
    def not_replayed(self) -> list[Json]:
        """Runs of events that can't be replayed."""
        return [line for line in self.replay if line.get("replay") == "not_replayed"]


def parsed(line: str, what: str) -> Json:
    """The object on a line."""
    try:
        value = json.loads(line)
    except ValueError as error:
        raise Failed(f"etcs_lab {what} printed a line that isn't JSON", REFUSED) from error
    if not isinstance(value, dict):
        raise Failed(f"etcs_lab {what} printed a line that isn't an object", REFUSED)
    return value


def parsed_all(lines: Sequence[str], what: str) -> list[Json]:
    """The objects on some lines. They are parsed as one list, which takes half the time; if that isn't a list of one object per
    line, they are parsed line by line, so that the error is reported."""
    try:
        found = json.loads(f"[{','.join(lines)}]")
    except ValueError:
        found = []
    if len(found) == len(lines) and set(map(type, found)) <= {dict}:
        return list(found)
    return [parsed(line, what) for line in lines]


def chosen(lines: Iterable[str], choice: Choice | None) -> Iterator[str]:
    """The lines that are chosen; all if there is no choice."""
    if choice is None:
        yield from lines
        return
    for line in lines:
        yield from choice.take(line)
        if choice.is_over:
            break
    yield from choice.end()


def objects(words: list[str], path: Path, step: Callable[[Json], None], choice: Choice | None = None) -> Run:
    """Calls `step` with the object on each line of a run that is chosen. For a small image all lines are read at the end of the run."""
    run = Run(words, path)
    if is_small(path):
        for line in parsed_all(list(chosen(run.all_lines(), choice)), words[0]):
            step(line)
        return run
    lines = run.lines()
    with contextlib.closing(lines), without_collecting():
        some_lines = chosen(lines, choice)
        while some := list(itertools.islice(some_lines, AT_ONCE)):
            for line in parsed_all(some, words[0]):
                step(line)
    return run


@contextlib.contextmanager
def without_collecting() -> Iterator[None]:
    """Disables Python's garbage collector: the records of a long journal have no cycles, and each collection would visit all of them."""
    if not gc.isenabled():
        yield
        return
    gc.disable()
    try:
        yield
    finally:
        gc.enable()


def is_small(path: Path) -> bool:
    """Whether the file exists and is small."""
    try:
        return path.stat().st_size <= MOST_SMALL
    except OSError:
        return False


def with_slots(slots: int | None) -> list[str]:
    """The arguments of `etcs_lab` that read an image with this number of slots."""
    return [] if slots is None else ["--slots", str(slots)]


def check_size(path: Path, slots: int | None = None) -> None:
    """Refuses a file that is longer than any image, before anything reads all of it."""
    found = sizes.of_file(path)
    if found and found[0] > layout.slot_at(layout.MOST_SLOTS) and (has := slots or found[1]):
        raise Failed(f"{path}: {sizes.wrong(found[0], has, slots is not None)}", REFUSED)


def failed(run: Run, path: Path, slots: int | None = None) -> Failed:
    """The error for a run that failed, with what the size of the file says about a refusal."""
    found, error = sizes.of_file(path) if run.status == REFUSED else None, run.failed(path)
    has = slots or (found[1] if found else None)
    if found and has and (why := sizes.wrong(found[0], has, slots is not None)):
        return Failed(f"{path}: {why}", REFUSED)
    if found and not has and (says := sizes.could_have(found[0])):
        return Failed(f"{error}. {says}", REFUSED)
    return error


def examine(path: Path, slots: int | None = None) -> Json:
    """The output of `etcs_lab examine`."""
    found: list[Json] = []
    run = objects(["examine", "--json", *with_slots(slots)], path, found.append)
    if run.status not in (WHOLE, NOT_WHOLE) or len(found) != 1:
        raise failed(run, path, slots)
    return found[0]


def check(path: Path, progress: Progress, slots: int | None = None) -> tuple[Json, list[Json]]:
    """The output of `etcs_lab check`: the examination, and the lines of the replay; no lines if it was refused."""
    found: list[Json] = []

    def step(line: Json) -> None:
        if len(found) == 1:
            progress("replay", 0, 0)
        found.append(line)

    run = objects(["check", "--json", *with_slots(slots)], path, step)
    if run.status not in (WHOLE, NOT_WHOLE):
        raise failed(run, path, slots)
    if len(found) < 2 or "check" not in found[-1]:
        raise Failed(f"{path}: the check was cut off", REFUSED)
    examination, *replay, _ = found
    return examination, replay


def records_of(path: Path) -> list[Json]:
    """Only the records of a journal that is whole."""
    found: list[Json] = []
    run = objects(["events"], path, found.append)
    if run.status != WHOLE:
        raise run.failed(path)
    return [one for one in found if "event" in one]


STRAY = ("misplaced", "damaged")
"""Sources of strays."""


def listing(other_blocks: bool, strays: bool, slots: int | None) -> list[str]:
    """The arguments of `etcs_lab` that list the requested records, and perhaps more."""
    return ["events", *(["--all"] if other_blocks or strays else []), *with_slots(slots)]


def read_events(journal: Journal, other_blocks: bool, strays: bool, progress: Progress, part: Part | None = None) -> None:
    """Adds the records that `etcs_lab events` prints, or those of a part."""
    extent = journal.examination["journal"] or {}
    last, first = extent.get("last_event"), extent.get("first_event")
    whole = 0 if last is None or first is None else last - first + 1
    ended, count = False, 0
    records: list[Json] | Records = [] if is_small(journal.path) else Records()
    journal.records = records

    def step(line: Json) -> None:
        nonlocal ended, count
        if line.get("source") in STRAY:
            journal.strays += [line] if strays else []
        elif not other_blocks and line.pop("source", "journal") != "journal":
            return
        elif "event" in line:
            records.append(line)
            count += 1
            if count % 1000 == 0:
                progress("events", count, whole)
        elif "unreadable" in line:
            journal.unreadable.append(line["unreadable"]["block"])
        elif "end" in line:
            ended = True

    run = objects(listing(other_blocks, strays, journal.slots_given), journal.path, step, part)
    if part:
        journal.train = parsed(part.train, "events") if part.train else None
        journal.is_part, journal.lead = True, part.led or 0
    if part and part.is_over:
        return
    if run.status == REFUSED and not journal.records:
        journal.refusal = run.last_message()
    elif run.status not in (WHOLE, NOT_WHOLE):
        raise run.failed(journal.path)
    elif not ended:
        raise Failed(f"{journal.path}: the listing was cut off", REFUSED)


def read_why(journal: Journal, progress: Progress) -> None:
    """Adds the lines of `etcs_lab why` about changes. The replay reports what it leaves out."""
    progress("causes", 0, 0)

    def step(line: Json) -> None:
        if "event" in line:
            journal.why.append(line)

    changes = Changes(journal.records[journal.lead]["event"], journal.records[-1]["event"]) if journal.is_part else None
    run = objects(["why", "--json", *with_slots(journal.slots_given)], journal.path, step, changes)
    if changes and changes.is_over:
        return
    if run.status == REFUSED and not journal.why:
        journal.why_refusal = run.last_message()
    elif run.status not in (WHOLE, NOT_WHOLE):
        raise run.failed(journal.path)


def read(path: str | Path, other_blocks: bool = False, replay: bool = False, why: bool = False,
         progress: Progress = silent, strays: bool = False, is_own: bool = False, part: Part | None = None, slots: int | None = None) -> Journal:
    """The journal in a file. Fails if the image isn't formatted or is longer than any; reads everything readable of a damaged one. Causes
    are known only with a replay. If the file `is_own`, nothing else writes to it, so neither its size nor changes are checked. Of a `part` that has
    a record only that part is read, if the image is whole. With `slots` it is read as if its first sector said so."""
    path = Path(path)
    if not path.exists():
        raise Failed(f"{path}: no such file", DEVICE)
    if not is_own:
        check_size(path, slots)
    progress("examination", 0, 0)
    examination, replayed = check(path, progress, slots) if replay else (examine(path, slots), [])
    journal = Journal(path, examination, slots_given=slots)
    if part and journal.is_whole:
        read_events(journal, False, False, progress, part)
    if not journal.records:
        journal.is_part, journal.lead = False, 0
        read_events(journal, other_blocks, strays, progress)
    journal.replay = replayed if journal.refusal is None else []
    if why and journal.refusal is None:
        read_why(journal, progress)
    if not is_own and digest(path) != journal.sha256:
        raise Failed(f"{path}: the file changed while it was read", DEVICE)
    return journal
