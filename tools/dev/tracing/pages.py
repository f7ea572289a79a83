"""What the pages say, where it stands there: promises and premises, items, refusals, and the sections of CONFORMANCE.

A sentence that a page has stands there alone; requirements name it by its number or by its first words.
"""
import re
from dataclasses import dataclass, field
from pathlib import Path

from gaknifur.cases import coverage
from tracing.sources import Place

NAME = re.compile(r"`([^`]+)`")
ITEM = re.compile(r"^(\d+)\. \*\*(.+?)\*\*", re.M | re.S)
VARIANT = re.compile(r"^ {4}([A-Z]\w*)(?: = (\d+))?,", re.M)
STATUS = re.compile(r"^ {4}ETCS_(?:UNIT|FILE)_(\w+) = (\d+),?", re.M)


@dataclass
class Sentence:
    """A sentence of a page, its place, and the names in backticks."""

    key: str
    text: str
    place: Place
    names: list = field(default_factory=list)
    premises: list = field(default_factory=list)


def read(path):
    """Reads a page."""
    return Path(path).read_text(encoding="utf-8")


def line_of(text, at):
    """The line number of an offset in a text."""
    return text.count("\n", 0, at) + 1


def plain(text):
    """A text on one line, without links and marks of style."""
    return re.sub(r"\[([^\]]*)\]\([^)]*\)", r"\1", " ".join(text.split())).replace("**", "")


def blocks(path, heading):
    """The paragraphs, items of lists and rows of tables below a heading of a page, each with the line where it begins. Of a row the first
    cell is the sentence, and the third one its premises."""
    found, is_inside, is_new = [], False, True
    for number, line in enumerate(read(path).splitlines(), 1):
        if line.startswith("## "):
            is_inside = line == f"## {heading}"
        elif is_inside and not line.strip():
            is_new = True
        elif is_inside and not line.startswith("|-"):
            item = re.match(r"(\d+\.|-|\|) ", line)
            if is_new or item:
                found.append((number, []))
            found[-1][1].append(line[item.end() :] if item else line)
            is_new = False
    said = [(number, " ".join(" ".join(lines).split()).strip("| ").split(" | ")) for number, lines in found]
    return [Sentence(plain(first), plain(first), Place(path, number), NAME.findall(" ".join((first, *more))), ", ".join(more[1:]).split(", "))
            for number, (first, *more) in said]


def items():
    """The items of SAFETY by number."""
    path = "docs/explain/safety.md"
    text = read(path)
    return {int(one[1]): Sentence(one[1], plain(one[2]).rstrip("."), Place(path, line_of(text, one.start()))) for one in ITEM.finditer(text)}


def refusals():
    """The refusals of REFUSALS that have a number: what refuses, number, name and meaning."""
    path, found, title, head, types = "docs/reference/refusals.md", [], "", [], []
    for number, line in enumerate(read(path).splitlines(), 1):
        if line.startswith("#"):
            title = line.lstrip("# ")
        if title == "Numbers and names" and re.fullmatch(r"(`[\w:]+`( and )?)+:", line):
            types = [one.split("::")[-1] for one in NAME.findall(line)]
        item = re.match(r"- (\d+) (\w+): (.*)", line) if title == "Numbers and names" else None
        if not item and not line.startswith("|"):
            head = []
            continue
        cells = item.groups() if item else [cell.strip() for cell in line.strip("|").split(" | ")]
        if not item:
            head = head or cells
            if head[0] != "Number" or not cells[0].isdigit():
                continue
            types = ["etcs_unit_status" if len(head) == 5 else "etcs_file_answer"]
        said = cells[2] if item or len(head) == 3 else cells[3]
        found += [
            (kind, int(cells[0]), cells[1], Sentence(f"{kind} {cells[0]}", plain(said), Place(path, number)))
            for kind in types
        ]
    return found


def texts(heading):
    """The rows of a table of REFUSALS that begin with a text: a name derived from it, the text, and its meaning."""
    path, title, is_head, found = "docs/reference/refusals.md", "", True, []
    for number, line in enumerate(read(path).splitlines(), 1):
        if line.startswith("#"):
            title, is_head = line.lstrip("# "), True
        if title == heading and line.startswith("| "):
            cells = [cell.strip() for cell in line.strip("|").split(" | ")]
            name = "-".join(re.findall(r"\w+", cells[0]))
            if not is_head:
                found.append((name, cells[0], Sentence(name, plain(cells[1]), Place(path, number))))
            is_head = False
    return found


def variants(kind, path):
    """The names of an enum in a source, each with its number where it has one."""
    text = read(path)
    begin = text.index(f"enum {kind} {{")
    found = (STATUS if path.endswith(".h") else VARIANT).findall(text[begin : text.index("\n}", begin)])
    return {name: int(number) if number else None for name, number in found}


def sections():
    """The sections of CONFORMANCE that the product covers, and those that it leaves out."""
    return coverage.sections()


def questions():
    """The items of "In one sentence each" and of the constants of CONFORMANCE: sentence, definitions, crates."""
    text = read("docs/explain/conformance.md")
    for heading in ("In one sentence each", "Constants of this profile"):
        section = text.split(f"\n## {heading}\n")[1].split("\n## ")[0]
        for item in re.findall(r"^- (.*(?:\n  .*)*)", section, re.M):
            said = " ".join(item.split()).rstrip(".")
            for part in said[said.rindex("(") + 1 :].rstrip(")").split(";"):
                names, crate = NAME.findall(part), part.rsplit(",", 1)[-1].strip()
                if names and re.fullmatch(r"\w+", crate):
                    yield re.split(r"[:?]", said.lstrip("*"))[0], names, crate
