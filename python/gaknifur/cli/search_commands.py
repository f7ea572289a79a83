"""The command `search`: searches random scenarios for one that breaks a property (docs/howto/searching.md)."""
import json
import secrets
from collections.abc import Callable, Sequence
from pathlib import Path
from types import SimpleNamespace
from typing import Any

from ..cases import case_runner
from ..escaping import shown
from ..journal.reading import Progress
from ..journal.wording import MODES, counted
from ..program import DEVICE, FOUND, REFUSED, WRONG_WORDS, Failed, Json, naming
from ..search import properties
from ..search.properties import Property, PropertyFile, Violated
from ..units.other_unit import within_of, words_of
from ..yaml_files import BadFile

EXAMPLES, MOST_EXAMPLES, SEEDS = 200, 100_000, 1 << 32
FEW_JUDGED = 100
"""A property that holds for fewer records of random scenarios is called thin."""
NEEDED = {"powerup": (), "telegram": (), "odometer": ("movement_cm", "speed_m_per_h"), "clock": (),
          "driver": ("action",)}
RECORD = ("event", "life", "kind", "time_ms", "mode", "level", "brake", "indications", "place_cm", "uncertainty_cm",
          "limit_m_per_h")


# ---- existing records

def are_values(record: Json) -> bool:
    """Whether the values of a record have the right types: numbers, texts, indications, the packets of a telegram."""
    numbers = [record[name] for name in ("event", "life", "time_ms", *NEEDED[record["kind"]]) if name != "action"]
    packets = record["decoded"].get("packets", []) if isinstance(record.get("decoded", {}),
                                                               dict) and "decoded" in record else []
    return (all(type(value) is int for value in numbers)
            and all(record[name] is None or type(record[name]) is int
                    for name in ("place_cm", "uncertainty_cm", "limit_m_per_h"))
            and isinstance(record["indications"], list) and all(isinstance(one, str) for one in record["indications"])
            and isinstance(packets, list)
            and all(isinstance(one, dict) and type(one.get("packet")) is int for one in packets)
            and isinstance(record.get("decoded", {}), dict))


def record_of(path: Path, number: int, line: str) -> Json | None:
    """The record on a line; None if the line is no record."""
    def fault(message: str) -> BadFile:
        return BadFile(path, number, 1, message)
    try:
        record: Any = json.loads(line)
    except (ValueError, RecursionError):
        raise fault("not JSON") from None
    if not isinstance(record, dict):
        raise fault("not an object")
    if "event" not in record:
        return None
    for name in (*RECORD, *NEEDED.get(str(record.get("kind")), ())):
        if name not in record:
            raise fault(f"member {name} is missing (docs/reference/json.md describes records)")
    if record["kind"] not in NEEDED:
        raise fault(f"kind has to be one of {', '.join(NEEDED)}")
    if not are_values(record):
        raise fault("a value of this record is not one of docs/reference/json.md")
    return record


def records_of(path: Path) -> list[Json]:
    """The records of a file."""
    try:
        with naming(path), path.open(encoding="utf-8") as file:
            found = [one for number, line in enumerate(file, 1) if (one := record_of(path, number, line)) is not None]
    except UnicodeDecodeError:
        raise Failed(f"{path}: not a UTF-8 text", REFUSED) from None
    if not found:
        raise Failed(f"{path}: contains no record", REFUSED)
    return properties.derived(case_runner.with_speeds(found))


def report_held(one: Property, judged: int, where: str = "") -> bool:
    """Reports a property that no record breaks; `where`: of how many random scenarios, of which few records show little. Returns whether it
    was never judged although it doesn't say why that may be."""
    why = f"; {one.unjudged}" if one.unjudged and not judged else ""
    result = "unjudged" if not judged else "thin" if where and judged < FEW_JUDGED else "holds"
    print(f"{result}: {one.note}: {counted(judged, 'record', 'records')} judged{where}{why}", flush=True)
    return not judged and one.unjudged is None


def judge_records(wanted: list[Property], records: list[Json]) -> int:
    """Judges existing records. Returns the number of properties that are broken or were never judged."""
    wrong = 0
    for one in wanted:
        try:
            judged = properties.judge(one, records)
        except Violated as violated:
            wrong += 1
            print(f"broken: {one.note}\n{indented(str(violated))}")
            continue
        wrong += report_held(one, judged)
    return wrong


# ---- searching

def indented(text: str) -> str:
    """A text, indented by two columns."""
    return "\n".join(f"  {line}" for line in text.splitlines())


def plain(text: str) -> str:
    """A text as a name for a file and a case."""
    return "_".join("".join(one if one.isalnum() else " " for one in text.lower()).split())[:60].strip("_") or "found"


def names_of(notes: Sequence[str]) -> list[str]:
    """The names under which properties are kept: made of their notes, and numbered if two are the same."""
    found: list[str] = []
    for note in notes:
        name, number = plain(note), 1
        while (new := f"{name}_{number}" if number > 1 else name) in found:
            number += 1
        found.append(new)
    return found


def keep(folder: Path, name: str, text: str, image: Callable[[Path], None]) -> Path:
    """Writes a case, with its image and its report."""
    from ..journal import report
    from ..journal.reading import read
    own = folder / name
    own.mkdir(parents=True)
    case = folder / f"{name}.case.yaml"
    case.write_text(text, encoding="utf-8", newline="\n")
    image(own / "image")
    (own / "report.html").write_text(report.page(read(own / "image", replay=True, why=True)), encoding="utf-8",
                                      newline="\n")
    return case


def chosen(file: PropertyFile, only: list[str]) -> list[Property]:
    """The properties that are searched for."""
    found = [one for one in file.properties if not only or any(text in one.note for text in only)]
    if not found:
        raise Failed(f"{file.path}: no property has a note with this text", REFUSED)
    return found


def check(given: SimpleNamespace) -> None:
    """Checks the options."""
    if not 1 <= given.examples <= MOST_EXAMPLES:
        raise Failed(f"--examples: has to be 1 to {MOST_EXAMPLES:,}", WRONG_WORDS)
    if given.seed is not None and not 0 <= given.seed < SEEDS:
        raise Failed(f"--seed: has to be 0 to {SEEDS - 1}", WRONG_WORDS)
    if given.records and (given.against or given.keep):
        raise Failed("--records can't be combined with --against or --keep", WRONG_WORDS)
    if given.keep and (given.keep.exists() or given.keep.is_symlink()):
        raise Failed(f"--keep {given.keep}: already exists; name a new folder. Nothing was run.", REFUSED)
    within_of(given.answer_within)
    if given.against:
        words_of(given.against)


def search(given: SimpleNamespace, progress: Progress) -> int:
    """Runs `lab search`. (hypothesis takes a while to load.)"""
    check(given)
    file = properties.read(given.yaml)
    wanted = chosen(file, given.only)
    if given.records:
        return FOUND if judge_records(wanted, records_of(given.records)) else 0
    try:
        from ..search import search as searching, strategies
    except ImportError as error:
        raise Failed("hypothesis is missing; tools/python --search installs it by Debian's packages", DEVICE) from error
    seed = secrets.randbelow(SEEDS) if given.seed is None else given.seed
    made, names = strategies.made_of(file.made_of, file.shared), names_of([one.note for one in wanted])
    records = searching.Player(searching.Other(given.against, given.answer_within) if given.against else None)
    print(f"seed {seed}, {given.examples} scenarios", flush=True)
    wrong = 0
    all_started = searching.survey(wanted, made, records, given.examples, seed, 1 if given.against else given.jobs)
    print(f"records by mode: {', '.join(f'{mode} {records.modes[mode]:,}' for mode in MODES)}", flush=True)
    for one, name, started in zip(wanted, names, all_started, strict=True):
        if started.first is None:
            wrong += report_held(one, started.found.judged, f" of {started.found.scenarios} scenarios")
            continue
        wrong += 1
        found = searching.shrunk(started, made, given.examples, seed)
        assert found.lives is not None
        how = (f"Found by ./lab search {shown(given.yaml.name)} --seed {seed} --examples {given.examples}, "
               "and shrunk")
        text = searching.case_text(found, made, f"{plain(file.name)}_{name}", how)
        print(f"broken: {one.note}: {counted(found.steps, 'step', 'steps')}, {counted(len(found.lives), 'life', 'lives')}\n{indented(found.message)}", flush=True)
        if given.keep:
            lives = found.lives
            print(f"  kept: {keep(given.keep, name, text, lambda path: searching.image_of(lives, path))}")
        else:
            print(indented(text), flush=True)
    return FOUND if wrong else 0
