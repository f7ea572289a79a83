"""The command `lint`: list the faults of scenarios in JSON, and the weak points of a track and of the steps on it, by the items of docs/explain/safety.md."""
import functools
import json
import sys
from collections.abc import Iterator
from dataclasses import dataclass, replace
from pathlib import Path
from types import SimpleNamespace

from ..cases import case_files, cases
from ..cases.scenario_faults import faults
from ..errors import say
from ..escaping import shown
from ..journal.reading import Progress
from ..program import DEVICE, FOUND, REFUSED, Failed, Json
from ..simulation import drives
from ..units import own_unit
from ..yaml_files import Value, document, nodes_of, text_of
from . import track_checks
from .course import DRIVE, Life, of_case, played
from .track_checks import Finding, Judged
from .track_messages import walk


@dataclass(frozen=True)
class Subject:
    """What is judged: the lives of a case, or the life of a scenario; and the items under `shows`."""

    path: Path
    lives: list[Life]
    case: str | None = None
    shows: tuple[Value, ...] = ()

    def is_meant(self, item: str) -> bool:
        """Whether it is meant to show an item."""
        return any(one.text() == item for one in self.shows)


@dataclass(frozen=True)
class Line:
    """A line of the output: its place and its text."""

    subject: Subject
    life: int | None
    pointer: str
    at: Value | None
    members: Json
    text: str

    @property
    def item(self) -> str:
        """The item that a case can list under `shows`; none for a fault."""
        return str(self.members.get("safety", ""))

    @property
    def place(self) -> Json:
        """File, line and column."""
        if self.at:
            return {"file": str(self.at.path), "line": self.at.line, "column": self.at.column}
        return {"file": str(self.subject.path), "line": self.members.get("line"), "column": self.members.get("column")}

    def as_text(self) -> str:
        """The line as text."""
        place = ":".join(str(one) for one in self.place.values() if one is not None)
        of_case = f"{self.subject.case}: " if self.subject.case else ""
        return f"{shown(place)}: {of_case}{shown(self.text)}"

    def as_json(self) -> str:
        """The line as a JSON object."""
        place = self.place | {"case": self.subject.case, "life": self.life, "pointer": self.pointer}
        return json.dumps(place | {name: value for name, value in self.members.items() if name not in place}, ensure_ascii=False)


# ---- where

def located(life: Life, pointer: str) -> Value | None:
    """The value at a pointer of a life, in the YAML or else in the JSON. None if the JSON can't be read as YAML."""
    if life.scenario is None:
        assert life.path is not None
        try:
            (node,) = nodes_of(life.path, text_of(life.path).replace("\t", " "))  # (within a text JSON has no tab)
            return Value(life.path, node).inner(pointer)
        except (Failed, ValueError):
            return None
    words = pointer.split("/")[1:]
    if pointer == DRIVE and life.drive:
        return life.drive.at
    if words[:1] == ["groups"] and len(words) > 1:
        return life.scenario.group_places[int(words[1])].inner("".join(f"/{word}" for word in words[2:]))
    if words[:1] == ["steps"] and len(words) > 1:
        return life.scenario.places[int(words[1])]
    return life.at


# ---- findings

def finding_text(found: Finding) -> str:
    """A finding as text."""
    return f"SAFETY {found.safety}: {found.pointer}: {found.found}. Do: {found.do}"


# ---- judging

def lines_of(subject: Subject) -> Iterator[Line]:
    """All lines about a subject. A scenario with faults isn't judged further."""
    lives = [life for life in subject.lives if not (life.ends or "").startswith("refused")]
    is_faulty = False
    for number, life in enumerate(lives, 1):
        for fault in faults(life.path) if life.path else ():
            is_faulty = True
            members = {"wanted": fault.wanted, "there": fault.there, "line": fault.line, "column": fault.column}
            text = f"{fault.pointer or 'scenario'}: wanted {fault.wanted}, found {fault.there}"
            at = None if fault.line else located(life, fault.pointer)
            yield Line(subject, number if subject.case else None, fault.pointer, at, members, text)
    if not is_faulty:
        yield from safety_of(subject, lives)


@functools.cache
def has_library() -> bool:
    """Whether the unit's library, which closed loops and the guard need, is available; says so once if it isn't."""
    try:
        own_unit.check_library()
    except Failed as failed:
        say(f"{failed}; telegrams that the unit skips or refuses are not judged, and of drives in a closed loop only the steps before them are")
        return False
    return True


def status_of(found: bool) -> int:
    """The exit status after judging: 3 if something wasn't judged, since the library that it needs is missing; else 4 if something was found."""
    was_needed = has_library.cache_info().currsize > 0
    return DEVICE if was_needed and not has_library() else FOUND if found else 0


def playable(life: Life) -> Life:
    """A life as far as it can be played."""
    return replace(life, drive=None) if life.drive and not has_library() else life


def safety_of(subject: Subject, lives: list[Life]) -> Iterator[Line]:
    """What the checks find in the lives, played in turn."""
    for number, (life, one) in enumerate(zip(lives, played([playable(life) for life in lives])), 1):
        if one is None:
            continue
        walked = walk(one)
        has_guard = not any(map(track_checks.asks_guard, one.events)) or has_library()
        for found in track_checks.findings(Judged(walked, life.drive, has_guard)):
            members = {"safety": found.safety, "found": found.found, "do": found.do}
            yield Line(subject, number if subject.case else None, found.pointer, located(life, found.pointer), members,
                       finding_text(found))


def kept_lines(subject: Subject, lines: list[Line]) -> Iterator[Line]:
    """The lines without those of items that the subject is meant to show; and a line for each such item that wasn't found."""
    there = {line.item for line in lines}
    yield from (line for line in lines if not subject.is_meant(line.item))
    for one in subject.shows:
        if one.text() not in there:
            text = f"`shows` lists {one.text()}, and it isn't found"
            yield Line(subject, None, "", one, {"shows": one.text(), "found": text, "do": "remove the item"}, text)


# ---- subjects

def of_cases(path: Path) -> Iterator[Subject]:
    """The cases of a file."""
    for case in cases.read(path):
        yield Subject(path, [of_case(life) for life in case.lives], case.name, tuple(case.shows))


def of_file(path: Path) -> Iterator[Subject]:
    """A file of cases, a scenario in YAML, or one in JSON."""
    if case_files.is_case_file(path.name):
        yield from of_cases(path)
    elif path.suffix in (".yaml", ".yml"):
        at = document(path)
        scenario, drive = drives.read(path)
        yield Subject(path, [Life(at, scenario, None, drive=drive)])
    else:
        yield Subject(path, [Life(None, None, path)])


def paths_of(path: Path) -> list[Path]:
    """A file; or all case files of a folder, and the scenarios in JSON that none of them names."""
    if not path.is_dir():
        if not path.exists():
            raise Failed(f"{path}: no such file", DEVICE)
        return [path]
    found, others = case_files.below(path)
    if not found and not others:
        raise Failed(f"{path}: contains no test case and no scenario", REFUSED)
    return [path / name for name in (*found, *others)]


# ---- the command

def check_items(items: list[str]) -> None:
    """Refuses items without a check."""
    known = set(map(str, track_checks.ITEMS))
    for one in items:
        if one not in known:
            raise Failed(f"--without {one}: no such check; lab lint --help lists them", 2)


def lint(given: SimpleNamespace, progress: Progress) -> int:
    """Runs `lab lint`."""
    check_items(given.without)
    found = refused = False
    paths = [path for one in given.paths for path in paths_of(one)]
    for done, path in enumerate(paths):
        progress("lint", done, len(paths))
        try:
            for subject in of_file(path):
                for line in kept_lines(subject, list(lines_of(subject))):
                    if line.item not in given.without:
                        found = True
                        sys.stdout.write((line.as_json() if given.json else line.as_text()) + "\n")
        except Failed as failed:
            if failed.status != REFUSED:
                raise
            refused = True
            for message in failed.messages():
                say(message)
    sys.stdout.flush()
    return REFUSED if refused else status_of(found)
