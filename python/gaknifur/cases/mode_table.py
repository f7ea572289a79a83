"""Read pages of the documentation, and the mode table from the page of tables."""
import functools
import subprocess
import sys

from ..program import DEVICE, REFUSED, TOP, Failed, naming

DOCS = TOP / "docs"
Table = dict[int, tuple[list[str], str]]
"""The rows of the mode table: the modes from which each leads, and its target."""


def page(name: str) -> str:
    """A page of the documentation."""
    with naming(DOCS / name):
        return (DOCS / name).read_text(encoding="utf-8")


@functools.cache
def tables() -> str:
    """The page of tables: that of an installed product, or else the output of tools/dev/tables."""
    if (DOCS / "tables.md").is_file():
        return page("tables.md")
    done = subprocess.run([sys.executable, "-I", "-B", "-X", "utf8", TOP / "tools/dev/tables", "--print"], stdin=subprocess.DEVNULL,
                          capture_output=True, encoding="utf-8", check=False)
    if done.returncode:
        raise Failed(f"tools/dev/tables: {done.stderr.strip()}", DEVICE)
    return done.stdout


def table_rows(text: str, heading: str) -> list[list[str]]:
    """The cells of the tables below a heading."""
    _, found, rest = text.partition(f"\n## {heading}")
    if not found:
        raise Failed(f"docs: there is no heading \"{heading}\"", REFUSED)
    lines = rest.split("\n## ", 1)[0].splitlines()
    rows = [[cell.strip() for cell in line.strip().strip("|").split("|")] for line in lines if line.startswith("|")]
    return [row for row in rows[2:] if not set(row[0]) <= set("-")]


@functools.cache
def mode_table() -> Table:
    """The rows of the mode table: the modes from which each leads, and its target."""
    found: Table = {}
    for number, sources, target, _ in table_rows(tables(), "Modes"):
        found[int(number)] = sources.split(), target
    return found


def transitions(table: Table) -> list[str]:
    """Each row with each mode from which it leads."""
    return [f"{number} from {source}" for number, (sources, _) in table.items() for source in sources]


def row_name(number: int, source: str | None, table: Table) -> str | None:
    """The transition of a row; None if there is none, or if the mode of a row with several modes is missing."""
    if number not in table:
        return None
    sources, _ = table[number]
    mode = source or (sources[0] if len(sources) == 1 else "")
    return f"{number} from {mode}" if mode in sources else None
