"""Whether the train braked, the speeds and the verdict: of the same images the page finds what the package finds, and what was worked out by hand."""
from pathlib import Path
from typing import Any

from asking import SECTOR, SLOT, example, image
from browsing import Browser
from gaknifur.journal import braking, reading, tables
from gaknifur.journal import verdict as verdicts
from pandas import NA

ENTRIES: list[Any] = [{"driver": [1, "IC 704"]}, {"driver": [4, 1]}, {"driver": [3, 20000, 160000, 70, 2000, 15]}, {"driver": [6]}]
STOPS = ((1000, 830, 30000), (2000, 1250, 52000), (3000, 1440, 52000), (4000, 1300, 44000), (5000, 1100, 35000), (6000, 850, 26000), (7000, 500, 12000),
         (8000, 150, 0))
RUNS = ((1000, 830, 30000), (2000, 1250, 52000), (3000, 1440, 52000), (7000, 30000, 52000))
"""Readings in Staff Responsible, whose limit is 40 km/h: moment, movement and speed. At 52 km/h the emergency brake is commanded, by the reading."""
CELLS = {
    # The last reading at 52 km/h is between 0 s and the reading of 4 s, before 5 s, 3 s after the command. 52,000,000 / 36 / 6,000 ms = 240.7 at least, and
    # 52,000,000 / 36 / 2,000 ms = 722.2 at most. 52,000 * 2,000 / 36,000 = 2,888.9 and 52,000 * 52,000 / 181,440 = 14,902.998, each rounded up.
    1: ["8 to 19", "emergency brake", "52.0 km/h", "stops", "0 to 3 s; 14.40 to 27.40 m", "2.40 to 7.23 m/s²", "standstill; 4 to 7 s; 53.40 m",
        "0.70 m/s² after 2 s, 177.92 m", "reaction: not sure; rate: kept; way: kept"],
    # (etcs run makes three readings of 300 m, of 100 m each)
    3: ["30 to 36", "emergency brake", "52.0 km/h", "isn't seen to slow down", "4 s to ?; 314.40 m to ?", "", "end of the records; 4 s to ?; 314.40 m",
        "0.70 m/s² after 2 s, 177.92 m", "reaction: broken; way: broken"]}


def driven(readings: tuple[tuple[int, int, int], ...], end: int | None) -> Any:
    """A life of some readings."""
    steps = [step for moment, movement, speed in readings for step in ({"clock": moment}, {"drive": [movement, speed]})]
    return {"cold": 0, "groups": [], "steps": [*ENTRIES, *steps, *([{"clock": end}] if end else [])]}


def compare_package(browser: Browser, findings: dict[str, Any], path: Path, at: str) -> int:
    """Each brake command, each speed and the verdict are those of the package."""
    journal = reading.read(path, replay=True)
    wanted = list(braking.rows(journal.records))
    assert findings["braking"] == wanted, (at, [pair for pair in zip(findings["braking"], wanted) if pair[0] != pair[1]][:1])
    speeds = browser.run("return [...window.gaknifur.ask.image.speeds].map(one => Number.isNaN(one) ? null : one)")
    assert speeds == [None if one is NA else int(one) for one in tables.frame(journal)["speed_m_per_h"]], (at, speeds)
    judged = [one for one in verdicts.of(journal).sentences if not one.startswith("implausible")]
    assert findings["verdict"] == judged, (at, findings["verdict"], judged)
    return len(wanted) + len(speeds)


def braked(browser: Browser, _page: Path, folder: Path) -> int:
    """One train that stops and one that doesn't slow down, by hand; a click leads to the command's event."""
    path = folder / "image"
    path.write_bytes(image(folder, [driven(STOPS, 9000), driven(RUNS, None)], 24))
    compare_package(browser, browser.ask(path), path, "by hand")
    cells = browser.run("return [...document.querySelectorAll('#braking tbody tr')].map(line => [...line.cells].map(cell => cell.innerText.replaceAll('\\n', '; ').replaceAll('\\u00a0', ' ')))")
    assert {row: cells[row] for row in CELLS} == CELLS and [cells[row][3] for row in (0, 2)] == ["the train stands"] * 2, cells
    browser.run("document.querySelectorAll('#braking tbody tr')[1].click()")
    browser.until("return location.hash === '#event=8'")
    return 5


def unknown(browser: Browser, _page: Path, folder: Path) -> int:
    """After an overwritten beginning the speed is unknown until a reading comes, at each place that shows it."""
    path = folder / "image"
    steps = [{"drive": [100, 10_000]}, *({"clock": 1000 * n} for n in range(1, 60)), {"drive": [100, 12_000]}, {"clock": 60_000}]
    path.write_bytes(image(folder, [{"steps": steps}], 2))
    compare_package(browser, browser.ask(path), path, "overwritten")
    browser.run("window.gaknifur.ask.choose(0)")
    shown = [browser.text("ask-dial-said"), browser.text("viewer-at"), browser.run("const d = document.querySelectorAll('#ask-dial .digits'); return d[d.length - 1].textContent"),
             browser.run("return document.querySelector('#ask-dial .hand').getAttribute('visibility')")]
    assert shown[0].startswith("unknown, limit") and shown[1].startswith("At the cursor: speed unknown;") and shown[2:] == ["?", "hidden"], shown
    browser.run("window.gaknifur.ask.choose(window.gaknifur.ask.records.count - 1)")
    assert browser.text("ask-dial-said").startswith("12.0 km/h, limit") and browser.complaints() == [], browser.text("ask-dial-said")
    return 5


def verdict(browser: Browser, _page: Path, folder: Path) -> int:
    """The sentences at the head of an image: whole, one brake altered, a block wiped, and no journal."""
    whole, path = image(folder, [example("trip")], 16), folder / "image"
    record = SECTOR * (1 + 6 * 2 + 2) + 256 * 4  # (of event 5, the fifth of block 2 in slot 2)
    one, both = bytearray(whole), bytearray(whole)
    assert one[record + 15] == 5 and one[record + 2] == 0, one[record:record + 16]
    one[record + 2] = both[record + 2] = 1
    both[SECTOR + SLOT:SECTOR + 2 * SLOT] = bytes(SLOT)
    wiped = whole[:SECTOR + SLOT] + bytes(SLOT) + whole[SECTOR + 2 * SLOT:]
    for data, says in ((whole, []), (bytes(one), ["the replay differs: life 1, event 5, in brake"]), (wiped, ["something is lost, damaged or contradicts"]),
                       (bytes(both), ["something is lost, damaged or contradicts"]),
                       (whole[:-SLOT], ["no event can be listed: the size of the image isn't that of its slots, so no journal is read; its slots are shown"])):
        path.write_bytes(data)
        found = browser.ask(path)["verdict"]
        assert found == says, (found, says)
        shown = browser.run("return document.querySelector('#brief dd').textContent")
        assert shown == ("; ".join(says) or "nothing is lost, damaged or contradicts, and the replay finds no difference") + ".", shown
    return 5


CHECKS = {"braked": (braked, 5), "unknown": (unknown, 5), "verdict": (verdict, 5)}
