"""List the sections of SUBSET-026 and the rows of the mode table that the cases of a folder cover.

The sections that the product covers come from the tables of docs/explain/conformance.md, and the rows from the page of tables. A
section or a row without a case is listed with its reason, from `without_cases.yaml` of the folder. One without a case and without
a reason is a fault, and so is a reason that is no longer needed.
"""
import re
from collections.abc import Iterable
from dataclasses import dataclass, field
from pathlib import Path

from ..program import DEVICE, REFUSED, Failed
from ..yaml_files import document
from . import case_files, cases
from .cases import Case
from .mode_table import Table, mode_table, page, row_name, table_rows, transitions

REASONS = "without_cases.yaml"


@dataclass
class Section:
    """A section of the page: its subject, what the product implements, and its cases."""

    name: str
    subject: str
    here: str
    cases: list[str] = field(default_factory=list)

    @property
    def is_left_out(self) -> bool:
        """Whether the product implements nothing of it."""
        return self.here.startswith("left out") and "but for" not in self.here


def span(first: str, last: str) -> list[str]:
    """The sections from one to another; they differ only in their last number."""
    *head, start = first.split(".")
    *other, end = last.split(".")
    if head != other:
        raise Failed(f"docs/explain/conformance.md: {first} to {last} is no run of sections", REFUSED)
    return [".".join([*head, str(number)]) for number in range(int(start), int(end) + 1)]


def names_of(cell: str) -> list[str]:
    """The sections of a cell, such as `3.8.1, 3.8.3 to 3.8.5`, or `7.4.2, packets 3, 5`."""
    found: list[str] = []
    section = ""
    for part in cell.split(", "):
        part = re.sub(r"^packets? ", "", part)
        if part.startswith("all other"):
            found.append(f"{section} all others".strip())
        elif " to " in part:
            found += span(*part.split(" to "))
        elif "." in part:
            section = part
            found.append(part)
        else:
            if found and found[-1] == section:
                found.pop()
            found.append(f"{section} packet {part}")
    if len(found) > 1 and found[-1].endswith(" all others") and found[-2] == section:
        del found[-2]
    return found


def sections() -> list[Section]:
    """The sections of docs/explain/conformance.md."""
    text, found = page("explain/conformance.md"), []
    for heading in ("Chapter 3", "Chapters 4 and 5", "Chapters 7 and 8"):
        for cell, subject, here, _ in table_rows(text, heading):
            for name in names_of(cell):
                found.append(Section(f"{heading}: {name}" if name == "all others" else name, subject, here))
    return found


def files(folder: Path) -> list[Path]:
    """The case files of a folder."""
    if folder.is_file():
        return [folder]
    if not folder.is_dir():
        raise Failed(f"{folder}: " + ("is neither a folder nor a regular file" if folder.exists() else "no such folder"), DEVICE)
    found = sorted(path for path in folder.rglob("*.yaml") if case_files.is_case_file(path.name))
    if not found:
        raise Failed(f"{folder}: it contains no test case (NAME.case.yaml)", REFUSED)
    return found


def all_cases(folder: Path) -> list[Case]:
    """The cases of a folder. Refuses a name that is used twice."""
    found: dict[str, Case] = {}
    for path in files(folder):
        for case in cases.read(path):
            if case.name in found:
                raise case.at.fault(f"the test case \"{case.name}\" is in {found[case.name].path} too")
            found[case.name] = case
    return list(found.values())


def named_by(case: Case) -> set[str]:
    """The sections that a case is about."""
    return {section for one in (case.sections, *(expected.sections for expected in case.expected)) for section in one}


@dataclass
class Matrix:
    """Sections and transitions with their cases, the reasons why some have none, and the faults."""

    sections: list[Section]
    transitions: dict[str, list[str]]
    reasons: dict[str, str]
    faults: list[str] = field(default_factory=list)
    count: int = 0


def reasons_of(folder: Path) -> dict[str, str]:
    """Why sections and transitions have no case."""
    path = folder / REASONS
    if not path.exists():
        return {}
    members = document(path).members((), ("sections", "transitions"))
    return {name: why.text() for part in members.values() for name, why in part.entries().items()}


def find_section(name: str, known: dict[str, Section]) -> Section | None:
    """The section of the page that a name belongs to: its own, or one that contains it."""
    while name:
        if name in known:
            return known[name]
        if f"{name} all others" in known:
            return known[f"{name} all others"]
        name = name.split(" ")[0] if " " in name else name.rpartition(".")[0]
    return None


def fill(matrix: Matrix, found: Iterable[Case], table: Table) -> None:
    """Adds the cases to the matrix."""
    known = {section.name: section for section in matrix.sections}
    for case in found:
        matrix.count += 1
        for name in sorted(named_by(case)):
            section = find_section(name, known)
            if section is None:
                matrix.faults.append(f"{case.path}:{case.at.line}: {name} is not a section of docs/explain/conformance.md")
            elif section.is_left_out:
                matrix.faults.append(f"{case.path}:{case.at.line}: {name} is left out by the product")
            elif case.name not in section.cases:
                section.cases.append(case.name)
        for expected in case.expected:
            if expected.row is not None:
                row = row_name(expected.row.number, expected.row.source, table)
                if row is not None and case.name not in matrix.transitions[row]:
                    matrix.transitions[row].append(case.name)


def matrix(folder: Path) -> Matrix:
    """What the cases of a folder cover."""
    table = mode_table()
    found = Matrix(sections(), {name: [] for name in transitions(table)}, reasons_of(folder))
    fill(found, all_cases(folder), table)
    covered = {section.name: bool(section.cases) for section in found.sections if not section.is_left_out}
    covered |= {name: bool(named) for name, named in found.transitions.items()}
    for name, is_covered in covered.items():
        if not is_covered and name not in found.reasons:
            found.faults.append(f"{name} has no case, and no reason why")
    for name in found.reasons:
        if name not in covered:
            found.faults.append(f"{name} has a reason why there is no case, and isn't a section or transition that needs one")
        elif covered[name]:
            found.faults.append(f"{name} has a case, and a reason why there is none")
    return found


def text(found: Matrix) -> str:
    """The matrix as text."""
    lines = ["Sections of SUBSET-026"]
    for section in found.sections:
        lines.append(f"  {section.name:<22} {len(section.cases):>3}  {section.subject}{why_none(section, found)}")
    lines.append("Rows of the mode table")
    for name, named in found.transitions.items():
        lines.append(f"  {name:<22} {len(named):>3}" + ("" if named else f"  none: {found.reasons.get(name, 'without a reason')}"))
    wanted = [section for section in found.sections if not section.is_left_out]
    lines.append(f"{found.count} cases. {sum(bool(one.cases) for one in wanted)} of {len(wanted)} sections have a case, "
                 f"{len(found.sections) - len(wanted)} are left out by the product; "
                 f"{sum(map(bool, found.transitions.values()))} of {len(found.transitions)} transitions have a case.")
    return "\n".join(lines + found.faults) + "\n"


def why_none(section: Section, found: Matrix) -> str:
    """The text about a section without a case."""
    if section.cases:
        return ""
    return " (left out)" if section.is_left_out else f"; none: {found.reasons.get(section.name, 'without a reason')}"
