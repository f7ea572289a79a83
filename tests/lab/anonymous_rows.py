#!/usr/bin/env python3
"""What `./lab table` and `./lab report` write with --anonymous.

    tests/lab/anonymous_rows.py ETCS ETCS_LAB

- Nothing that they write has an entry of the driver in any form: as text, in either byte order, in hex, as JSON or HTML escapes it; nor the image's
  name, its SHA-256 or whose it is. The same search finds each of these without --anonymous, or in a control.
- Each other cell of the table is as without it.
"""
import contextlib
import csv
import hashlib
import html
import io
import json
import os
import subprocess
import sys
import tempfile
import zipfile
from pathlib import Path

TOP = Path(__file__).resolve().parents[2]
sys.path[:0] = [str(TOP / part) for part in ("python", "tests")]

from compared import Compared  # noqa: E402
from gaknifur.__main__ import main as lab  # noqa: E402

IDENTITY, NUMBER, OTHER = 'Q7 "Mul<der&', 73190264, "Zyx Wv-98765"
LIVES = ([[1, IDENTITY], [2, NUMBER], [4, 1], [3, 20_000, 160_000, 70, 0, 15], [6]], [[1, OTHER], [2, NUMBER + 1]], [[2, 0]])
LEFT = "[left out]"
ENTRIES = ("identity", "running_number")


def run(*words):
    """Does what ./lab does, in this process: its status, and what it prints on both streams."""
    said = io.StringIO()
    with contextlib.redirect_stdout(said), contextlib.redirect_stderr(said):
        return lab([str(word) for word in words]), said.getvalue()


def forms(entry):
    """The bytes of an entry in each form."""
    if isinstance(entry, int):
        raw = entry.to_bytes(4, "big")
        return {str(entry).encode(), f"{entry:,}".encode(), raw, raw[::-1], raw.hex().encode(), raw[::-1].hex().encode()}
    texts = {entry, html.escape(entry), html.escape(entry, quote=False), entry.replace('"', "&#34;"), json.dumps(entry)[1:-1],
             html.escape(entry).replace("&quot;", "&#34;"), entry.replace('"', '""')}
    return {entry.encode().hex().encode(), entry.encode("utf-16-le"), *(one.encode() for one in texts)}


def written(path):
    """The bytes of a file, or of all files of a workbook."""
    if path.suffix != ".xlsx":
        return path.read_bytes()
    with zipfile.ZipFile(path) as book:
        return b"\n".join(map(book.read, book.namelist()))


def found_in(path, wanted):
    """Whether a file has one of some bytes, also in small letters."""
    data = written(path)
    return any(one in data or one.lower() in data.lower() for one in wanted)


def made(room, etcs):
    """An image with entries in three lives, the last of which are kept, and whose it is."""
    image = room / "journal_of_4711"
    subprocess.run([etcs, "format", image, "16"], check=True, stdout=subprocess.DEVNULL)
    for entries in LIVES:
        steps = [{"driver": one} for one in entries] + [{"clock": 9}, {"drive": [5_000, 30_000]}, {"drive": [100, 0]}]
        (room / "life").write_text(json.dumps({"groups": [], "steps": steps}))
        subprocess.run([etcs, "run", room / "life", image], check=True, stdout=subprocess.DEVNULL)
    (room / f"{image.name}.identity").write_text("unit: unit-4711-x\n")
    return image


def rows_of(path):
    """The rows of a table."""
    with path.open(encoding="utf-8", newline="") as file:
        return list(csv.DictReader(file))


def compare(rows, room, image):
    """What is written with --anonymous and without it."""
    secret = {"identity": forms(IDENTITY), "another identity": forms(OTHER), "running number": forms(NUMBER), "another number": forms(NUMBER + 1),
              "name": {image.name.encode()}, "digest": {hashlib.sha256(image.read_bytes()).hexdigest().encode()}, "unit": {b"unit-4711-x"}}
    found = dict.fromkeys(secret, False)
    for command, name in (("table", "table.csv"), ("table", "table.xlsx"), ("report", "report.html")):
        plain, path = room / name, room / f"anonymous-{name}"
        rows.same(f"{command} {name}", [run(command, image, plain)[0], run(command, image, path, "--anonymous")[0]], [0, 0])
        for what, wanted in secret.items():
            found[what] |= found_in(plain, wanted)
            rows.unless(not found_in(path, wanted), f"{path.name} has the {what}")
        rows.unless(LEFT.encode() in written(path), f"{path.name} doesn't say that something is left out")
    for what, is_found in found.items():
        rows.unless(is_found, f"the search finds no {what} without --anonymous")
    plain = rows_of(room / "table.csv")
    rows.same("entries", sum(bool(row[name]) for row in plain for name in ENTRIES), 5)
    rows.same("cells", rows_of(room / "anonymous-table.csv"), [row | {name: LEFT for name in ENTRIES if row[name]} for row in plain])
    text = (room / "anonymous-report.html").read_text()
    rows.same("running numbers of the report", text.count(f"enters the running number {LEFT}"), 3)
    rows.unless(text.split("It would keep", 1)[1].startswith(f"</dt><dd>identity “{LEFT}”; running number {LEFT};"), "what a power-up would keep")


def main(words):
    etcs, etcs_lab = (os.path.abspath(word) for word in words)
    os.environ |= {"GAKNIFUR_ETCS": etcs, "GAKNIFUR_ETCS_LAB": etcs_lab}
    rows = Compared()
    with tempfile.TemporaryDirectory() as at:
        room = Path(at)
        image = made(room, etcs)
        compare(rows, room, image)
        for option in ("--all", "--damaged"):
            rows.same(option, run("table", image, "--anonymous", option)[0], 2)
    return rows.end(f"anonymous tables and reports: {rows.count} comparisons")


if __name__ == "__main__":
    sys.exit(main(sys.argv[1:3]))
