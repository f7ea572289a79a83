"""Run test cases with pytest: it collects each `case.yaml` and `*.case.yaml`, and each expected result is a test of its own.

`lab test FOLDER` is pytest with this plugin. A test belongs to its case, and is named by its sections, its case and its note.
`--section` and `--feature` select tests; `--keep FOLDER` keeps the image and the report of each case with a failed test;
`--against COMMAND` also runs each case on another unit (docs/howto/oracle.md), and judges its answers; `-k`, `-x`, `--lf`,
`--junitxml=FILE` and the others are pytest's own. In the JUnit XML the class of a test is its case, after its file, and each
test has the properties `case`, `feature` and `sections`.
"""
import contextlib
import re
from collections.abc import Iterator
from concurrent.futures import Future
from concurrent.futures.process import BrokenProcessPool
from pathlib import Path
from typing import Any

import pytest

from .. import processes, program
from ..program import Failed
from ..units import other_unit
from . import case_files, case_runner, cases, mode_table, oracle

AGREES = "another unit answers each event like the proved one"
FIRST = "each life ends as expected; the image is whole, and its records are the released outputs"


def pytest_addoption(parser: pytest.Parser) -> None:
    """The options of the plugin."""
    group = parser.getgroup("gaknifur", "test cases of Gaknifur")
    group.addoption("--section", action="append", default=[], metavar="SECTION",
                    help="only results about this section of SUBSET-026 or its subsections; can be repeated")
    group.addoption("--feature", action="append", default=[], metavar="FEATURE", help="only cases of this feature")
    group.addoption("--jobs", metavar="N", type=int, default=1, help="processes on this machine in which cases are run")
    group.addoption("--keep", metavar="FOLDER", help="keep the image and report of each failed case in this new folder")
    group.addoption("--against", metavar="COMMAND", help="also run another unit, and compare and judge its answers (docs/howto/oracle.md)")
    group.addoption("--answer-within", metavar="SECONDS", type=float, default=other_unit.WITHIN_S, help="time limit for each answer of the other unit")


def pytest_configure(config: pytest.Config) -> None:
    """Checks the options. The folder for failed cases must be new, so that nothing is overwritten."""
    try:
        other_unit.within_of(config.getoption("--answer-within"))
        other_unit.words_of(config.getoption("--against") or "none")
    except Failed as failed:
        raise pytest.UsageError(str(failed)) from None
    folder = folder_of(config)
    if folder and (folder.exists() or folder.is_symlink()):
        raise pytest.UsageError(f"--keep {folder}: already exists; name a new folder")


def folder_of(config: pytest.Config) -> Path | None:
    """The folder in which failed cases are kept."""
    name = config.getoption("--keep")
    return config.invocation_params.dir / name if name else None


def pytest_collect_file(file_path: Path, parent: pytest.Collector) -> "CaseFile | None":
    """Collects the files of test cases."""
    return CaseFile.from_parent(parent, path=file_path) if case_files.is_case_file(file_path.name) else None


class CaseFile(pytest.File):
    """A file of test cases."""

    def collect(self) -> Iterator[pytest.Collector]:
        """The cases of the file."""
        try:
            found, table = cases.read(self.path), mode_table.mode_table()
        except Failed as failed:
            raise self.CollectError(str(failed)) from None
        for case in found:
            yield CaseTests.from_parent(self, name=one_line(case.name), case=case, table=table)


class CaseTests(pytest.Collector):
    """A test case."""

    def __init__(self, *, case: cases.Case, table: mode_table.Table, **words: Any) -> None:
        super().__init__(**words)
        self.case, self.table = case, table

    def collect(self) -> Iterator[pytest.Item]:
        """An item for whether the case can be judged at all, perhaps one for another unit, and one for each expected result."""
        player = Player(self.case, folder_of(self.config), self.config.getoption("--against"), self.config.getoption("--answer-within"))
        yield Item.from_parent(self, name=name_of(self.case, FIRST), player=player, expected=None, table=self.table)
        if player.against:
            yield AgainstItem.from_parent(self, name=name_of(self.case, AGREES), player=player, expected=None, table=self.table)
        for expected in self.case.expected:
            yield Item.from_parent(self, name=name_of(self.case, expected), player=player, expected=expected, table=self.table)


def one_line(text: str) -> str:
    """A text without line breaks."""
    return " ".join(text.split())


def name_of(case: cases.Case, expected: cases.Expected | str) -> str:
    """The name of a test: its sections, its case and its note."""
    sections, note = (case.sections, expected) if isinstance(expected, str) else (expected.sections, expected.note)
    return one_line(f"[{', '.join(sections)}] {case.name}: {note}")


class Player:
    """Runs a case once for all its tests, and another unit once, if there is one."""

    def __init__(self, case: cases.Case, folder: Path | None, against: str | None = None, within_s: float = other_unit.WITHIN_S) -> None:
        self.case, self.folder = case, folder
        self.against, self.within_s = against, within_s
        self.comparison: oracle.Comparison | None = None
        self.running: Future[case_runner.Outcome] | None = None
        """The run of the case in another process."""
        self.outcome: case_runner.Outcome | None = None

    def play(self) -> case_runner.Played:
        """The records. Raises the same failure each time if there are none to judge."""
        if self.outcome is None:
            try:
                self.outcome = self.running.result() if self.running else case_runner.outcome(self.case, self.folder is not None)
            except BrokenProcessPool:
                self.outcome = processes.killed(), b""
        if isinstance(self.outcome[0], case_runner.Played):
            return self.outcome[0]
        raise self.outcome[0]

    def compare(self, command: str) -> oracle.Comparison:
        """The answers of another unit to the events of the case."""
        if self.comparison is None:
            self.comparison = oracle.ask(command, self.case.name, self.play().records, self.within_s)
        return self.comparison

    def judge(self, expected: cases.Expected, table: mode_table.Table) -> None:
        """Judges an expected result by the records, or by another unit's answers."""
        played = self.play()
        if not self.against:
            case_runner.judge(expected, played, table)
            return
        comparison = self.compare(self.against)
        if comparison.broken:
            raise case_runner.Missed("answers to all events", str(comparison.broken))
        missing = oracle.not_reported(expected.names, comparison.members)
        if missing:
            pytest.skip(f"the unit doesn't report {', '.join(missing)}")
        try:
            case_runner.judge(expected, case_runner.Played(oracle.answered(comparison), played.marks), table)
        except case_runner.Missed as missed:
            proved = "meets it" if case_runner.comes(expected, played, table) else "misses it too"
            raise case_runner.Missed.of(f"{missed}\nthe proved unit {proved}") from None

    def keep(self) -> None:
        """Keeps image and report once, in a folder of the case's own."""
        if self.folder is None or self.outcome is None or not self.outcome[1]:
            return
        from ..journal import report
        from ..journal.reading import read

        image, self.outcome = self.outcome[1], (self.outcome[0], b"")
        self.folder.mkdir(parents=True, exist_ok=True)
        folder = new_folder(self.folder, self.case.name)
        path = folder / "image"
        path.write_bytes(image)
        (folder / "report.html").write_text(report.page(read(path, replay=True, why=True)), encoding="utf-8", newline="\n")


def new_folder(inside: Path, name: str) -> Path:
    """Makes a folder by the name of a case."""
    plain = re.sub(r"[^\w.-]+", "_", name).strip("._")[:60] or "case"
    for number in range(1, 10_000):
        folder = inside / (plain if number == 1 else f"{plain}.{number}")
        try:
            folder.mkdir()
            return folder
        except FileExistsError:
            continue
    raise FileExistsError(f"{inside / plain}")


class Item(pytest.Item):
    """An expected result."""

    def __init__(self, *, player: Player, expected: cases.Expected | None, table: mode_table.Table, **words: Any) -> None:
        super().__init__(**words)
        self.player, self.expected, self.table = player, expected, table
        case = player.case
        self.sections = expected.sections if expected else case.sections
        self.user_properties += [("case", case.name), ("feature", case.feature), ("sections", " ".join(
            section.replace(" packet ", "/") for section in self.sections)), ("programs", program.PROOF[program.reader_is_proved()])]
        if player.against:
            self.user_properties.append(("other_unit", player.against))

    def runtest(self) -> None:
        """Judges the expected result."""
        try:
            self.player.play()
            if self.expected:
                self.player.judge(self.expected, self.table)
        except (case_runner.Missed, Failed):
            self.player.keep()
            raise

    def repr_failure(self, excinfo: Any, style: Any = None) -> Any:
        """The place in the file, and what was expected and found."""
        if not isinstance(excinfo.value, (case_runner.Missed, Failed)):
            return super().repr_failure(excinfo, style)
        case = self.player.case
        at, rule = (self.expected.at, self.expected.rule) if self.expected else (case.at, case.rule)
        return f"{at.path.name}:{at.line}: {case.name}\nrule:     {' '.join(rule.split())}\n{excinfo.value}"

    def reportinfo(self) -> tuple[Path, int, str]:
        """The place in the file, from line 0 on."""
        at = self.expected.at if self.expected else self.player.case.at
        return self.path, at.line - 1, self.name


class AgainstItem(Item):
    """Whether another unit answers each event of a case like the proved one."""

    def runtest(self) -> None:
        """Compares the answers."""
        assert self.player.against
        comparison = self.player.compare(self.player.against)
        if not comparison.agrees:
            raise case_runner.Missed("the answers of the proved unit", "\n".join(line.text for line in oracle.lines(comparison)))


def is_within(section: str, wanted: str) -> bool:
    """Whether a section is the wanted one, or a part of it."""
    return section == wanted or section.startswith((f"{wanted}.", f"{wanted} "))


def pytest_collection_modifyitems(config: pytest.Config, items: list[pytest.Item]) -> None:
    """Keeps the selected tests."""
    sections, features = config.getoption("--section"), config.getoption("--feature")
    kept: list[pytest.Item] = []
    left: list[pytest.Item] = []
    for item in items:
        good = not isinstance(item, Item) and not sections and not features or isinstance(item, Item) and (
            (not sections or any(is_within(section, wanted) for section in item.sections for wanted in sections))
            and (not features or item.player.case.feature in features))
        (kept if good else left).append(item)
    if left:
        config.hook.pytest_deselected(items=left)
        items[:] = kept


def pytest_collection_finish(session: pytest.Session) -> None:
    """Begins to run the cases of all selected tests in other processes, unless one process is enough."""
    players = {id(item.player): item.player for item in session.items if isinstance(item, Item)}
    jobs = min(session.config.getoption("--jobs"), len(players))
    if jobs > 1:
        stack = contextlib.ExitStack()
        session.config.add_cleanup(stack.close)
        pool = stack.enter_context(processes.pool(jobs, [one.case for one in players.values()]))
        for number, one in enumerate(players.values()):
            one.running = pool.submit(outcome_of, number, one.folder is not None)


def outcome_of(number: int, is_kept: bool) -> case_runner.Outcome:
    """The outcome of a case in one of the processes."""
    return case_runner.outcome(processes.shared[number], is_kept)
