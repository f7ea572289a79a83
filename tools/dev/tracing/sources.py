"""What is in crates/: definitions, clauses of public calls, laws and must-fail edits, each with its file and line. And what is run:
rows and test cases. tools/dev/definitions parses the crates.
"""
import importlib.machinery
import importlib.util
import re
from dataclasses import dataclass, field
from pathlib import Path

from gaknifur.cases import cases, coverage
from gaknifur.yaml_files import documents

TOP = Path(__file__).resolve().parents[3]
CLAUSE = re.compile(r"\s*ensures\s*(\w*)\s*\{")
LAW = re.compile(r"^/// A law: (.*(?:\n/// .*)*)\n(?:#.*\n)*pub fn (\w+)", re.M)
# The files of rows, or the scripts whose sentences are above the rows that they make.
ROWS = {
    "": ["tests/rows/test_kernel.row"],
    "programs": ["tests/etcs/*.row"],
    "suites": ["examples/suites/*.case.yaml"],
    **{name: [f"tests/rows/test_{name}.row"] for name in ("parts", "decode", "track", "guard")},
    "onboard": ["tests/rows/test_onboard.row", "tests/model/onboard_lives.py"],
}
TITLE = re.compile(r"^(?:row |case |test_case: |# | *made\.say\(f?\"# )?(.*?)(?:\"\))?$")


def tool(name):
    """A tool of tools/ as a module."""
    loader = importlib.machinery.SourceFileLoader(name, str(TOP / "tools/dev" / name))
    made = importlib.util.module_from_spec(importlib.util.spec_from_loader(name, loader))
    loader.exec_module(made)
    return made


@dataclass(frozen=True)
class Place:
    """A line of a file."""

    path: str
    line: int

    def __str__(self):
        return f"{self.path}:{self.line}"


@dataclass(frozen=True)
class Clause:
    """A clause of a public call: the call as requirements name it, the clause's name, and its place."""

    item: str
    name: str
    place: Place

    def __str__(self):
        return f"{self.item} ({self.name or 'one'})"


@dataclass
class TestCase:
    """A test case: its sections, the items of SAFETY that it shows, and its place."""

    name: str
    sections: set
    shows: set
    place: Place


@dataclass
class Sources:
    """All sources. `pages` has the files of specs/ by CRATE.FILE."""

    pages: dict
    clauses: dict = field(default_factory=dict)
    laws: dict = field(default_factory=dict)
    edits: dict = field(default_factory=dict)
    rows: dict = field(default_factory=dict)
    cases: list = field(default_factory=list)

    def row(self, name):
        """The place of a row that a requirement names, or None. A row of the kernel is named in full."""
        prefix, _, title = name.partition(": ")
        if prefix in self.rows and title:
            return next((place for text, place in self.rows[prefix] if text.startswith(title)), None)
        return next((place for text, place in self.rows[""] if text == name), None)


def clauses(reader):
    """The clauses of each public call, by the call's name."""
    found = {}
    for crate, source, owner, call, lines, number in reader.public_items():
        item, whole = "::".join([crate, *([owner] if owner != call else []), call]), source.text.split("\n")
        for line in lines:
            head = CLAUSE.match(line)
            if head:
                at = next((at for at in range(number, len(whole) + 1) if whole[at - 1] == line), number)
                found.setdefault(item, []).append(Clause(item, head[1], Place(source.path, at)))
    return found


def laws(crates):
    """The laws, public functions whose documentation begins so: of each its sentence and its place."""
    found = {}
    for crate in crates:
        for path in sorted(Path(f"crates/{crate}/src").rglob("*.rt")):
            text = path.read_text(encoding="utf-8")
            for law in LAW.finditer(text):
                said = " ".join(law[1].replace("\n///", " ").split())
                found[f"{crate}.{law[2]}"] = (said[0].upper() + said[1:], Place(str(path), text.count("\n", 0, law.start(2)) + 1))
    return found


def rows():
    """The lines of each file of rows, without the marks of titles, and their places."""
    found = {}
    for prefix, paths in ROWS.items():
        files = [file for path in paths for file in sorted(Path().glob(path))]
        found[prefix] = [(TITLE.match(line)[1], Place(str(file), number)) for file in files
                         for number, line in enumerate(file.read_text(encoding="utf-8").splitlines(), 1)
                         if prefix or line.startswith("row ")]
    return found


def test_case(at):
    """The head of a case. Its steps aren't read here: that needs the program."""
    head = at.members(cases.CASE, cases.MORE)
    sections = set(cases.sections_of(head["sections"]))
    for one in head["expected"].elements() if "expected" in head else []:
        more = one.entries()
        sections |= set(cases.sections_of(more["sections"])) if "sections" in more else set()
    shows = {one.text() for one in head["shows"].elements()} if "shows" in head else set()
    return TestCase(head["test_case"].text(), sections, shows, Place(str(at.path), at.line))


def read():
    """Reads all sources, from the current folder."""
    reader = tool("definitions")
    edits = {path.stem: str(path) for path in sorted(Path("crates").glob("*/must-fail/*.edit"))}
    found = [test_case(at) for folder in ("examples/suites", "examples/closed_loop") for path in coverage.files(Path(folder)) for at in documents(path)]
    return Sources(reader.read_pages(), clauses(reader), laws(reader.crates()), edits, rows(), found)
