"""Images of format 1, whose records have no place and no limit, and images that no unit writes: the page shows no place and no limit of a record
that has none, and finds whole what `etcs_lab` finds whole."""
import os
import random
import re
from pathlib import Path

from asking import SECTOR, SLOT, altered, bases, example, image, lab
from browsing import Browser
from charts import AXIS
from handing import CATCH, TEXT

FORGED = 60 * int(os.environ.get("MORE", "1"))
NEWEST = 1 << 40
RECORDED = re.compile(r"\b(?:limit(?:, which is the permitted speed,)?|place|front) -?[\d,]+\.\d")
"""How the page says a place or a limit of a record."""
SHOWN = """
const { ask } = window.gaknifur, found = new Set();
ask.viewer.drawNow();
for (let n = 0; n < ask.records.count; n++) {
    ask.choose(n);
    for (const id of ['brief', 'ask-dial-said', 'ask-texts', 'viewer-at']) found.add(document.getElementById(id).textContent);
}
return [...found];
"""
CELLS = "return [...document.querySelectorAll('#interventions tbody tr')].map(line => [...line.cells].map(cell => cell.textContent))"
LANE = "return [...document.querySelectorAll('#viewer-chart text.axis')].map(one => one.textContent).filter(text => / k?m$/.test(text))"
DRAWN = "window.gaknifur.ask.viewer.drawNow(); return ['speed-line', 'limit-line', 'other-line'].map(name => !!document.querySelector('#viewer-chart .' + name))"
ON_AXIS = "return [...window.gaknifur.ask.viewer.scene.axis.x].map(one => !Number.isNaN(one))"


def in_format_1(data: bytes, slots: range | None = None) -> bytes:
    """An image with the same records in format 1, or with those of some of its slots (docs/reference/format.md)."""
    it = bytearray(data)
    for slot in slots or range((len(data) - SECTOR) // SLOT):
        head = SECTOR * (2 + 6 * slot)
        if it[head:head + 8] != b"ETCSHED3":
            continue
        it[head:head + 8] = b"ETCSHEAD"
        for status in (70, 72):  # (level and position)
            it[head + status] = min(2, 2 * it[head + status])
        records = []
        for n in range(it[head + 28]):
            one = it[head + SECTOR + 256 * n:][:256]
            size = 0 if one[0] == 1 else one[3]
            records.append(bytes((*one[:3], size)) + one[4:24] + one[48:48 + size].ljust(104, b"\0"))
        it[head + SECTOR:head + 5 * SECTOR] = b"".join(records).ljust(4 * SECTOR, b"\0")
    return bytes(it)


def three_lives(folder: Path) -> bytes:
    """The image of three lives."""
    return image(folder, [example("power_cut"), example("power_cut", "restart.json"), example("trip")], 16)


def unrecorded(browser: Browser, _page: Path, folder: Path) -> int:
    """Of an image of format 1 no text, no report, no lane and no axis has a place or a limit of a record; those of the same image in format 3 have."""
    data, path = three_lives(folder), folder / "image"
    path.write_bytes(data)
    browser.ask(path)
    assert all(any(RECORDED.search(text) for text in browser.run(SHOWN) if text.startswith(begins)) for begins in ("Verdict", "15.0 km/h, limit", "After it", "At the"))
    assert browser.run(CELLS)[0][1:5] == ["300.00 m", "0 s", "15.0 km/h", "0.0 km/h"], browser.run(CELLS)
    assert browser.run(LANE) and browser.run(DRAWN) == [True] * 3
    path.write_bytes(in_format_1(data))
    count = browser.ask(path)["count"]
    texts = browser.run(SHOWN)
    found = [text for text in texts if RECORDED.search(text)]
    assert not found and count == 33, found
    for says in ("place not recorded, speed 15.0 km/h, limit not recorded", "limit not recorded, front not recorded", "front not recorded; moment", "limit not recorded"):
        assert any(says in text for text in texts), (says, texts[:5])
    assert browser.run(CELLS)[0][1:5] == ["not recorded", "0 s", "15.0 km/h", "not recorded"], browser.run(CELLS)
    assert not browser.run("return document.querySelector('#ask-dial g path[stroke]')"), "the dial shows a limit"
    assert browser.run(LANE) == [] and browser.run(DRAWN) == [True, False, False] and "no place is recorded" in browser.text("viewer-chart")
    browser.run(AXIS, "place")
    assert browser.run(DRAWN) == [False] * 3 and browser.run(ON_AXIS) == [False] * 33
    assert browser.text("viewer-said").startswith("0 of 33 events are in the window. ") and "33 events have no place and aren't drawn" in browser.text("viewer-said")
    browser.run(CATCH)
    browser.click("save-report")
    report = re.sub(r"<[^>]*>", "", browser.run_later(TEXT, "image.html"))
    assert "place not recorded" in report and not RECORDED.search(report), RECORDED.search(report)
    path.write_bytes(in_format_1(data, range(3, 6)))
    browser.ask(path)
    browser.run(AXIS, "place")
    wanted = [line["place_cm"] is not None for line in lab("events", str(path))[1] if "event" in line]
    assert browser.run(ON_AXIS) == wanted and 0 < sum(wanted) < count, wanted
    spans = browser.run("return window.gaknifur.ask.viewer.scene.axis.spans.map(one => [one.life.from, one.life.end])")
    assert [n for first, end in spans for n in range(first, end)] == [n for n, has in enumerate(wanted) if has], spans
    return count + 14


def heads_of(data: bytes) -> list[int]:
    """Where the heads of the blocks are, the oldest block first."""
    places = [SECTOR * (2 + 6 * slot) for slot in range((len(data) - SECTOR) // SLOT)]
    return sorted((at for at in places if data[at:at + 7] == b"ETCSHED" and any(data[at - SECTOR:at])), key=lambda at: data[at + 8:at + 16])


def plus(it: bytearray, at: int, size: int, more: int) -> int:
    """Adds to a number as far as its bytes go, and returns the sum."""
    number = max(0, min(256 ** size - 1, int.from_bytes(it[at:at + size], "big") + more))
    it[at:at + size] = number.to_bytes(size, "big")
    return number


def with_events(it: bytearray, heads: list[int], more: int) -> None:
    """Numbers the events of some blocks anew, in heads and records."""
    for at in heads:
        plus(it, at + 16, 8, more)
        for n in range(it[at + 28]):
            plus(it, at + SECTOR + 256 * n + 8, 8, more)


def with_numbers(it: bytearray, heads: list[int], more: int) -> bytes:
    """Numbers the blocks anew, each in the slot of its number; there is an event for each block."""
    slots, made = (len(it) - SECTOR) // SLOT, it[:SECTOR].ljust(len(it), b"\0")
    with_events(it, heads, more)
    for at in heads:
        number = plus(it, at + 8, 8, more)
        plus(it, at - SECTOR + 8, 8, more)
        to = SECTOR + SLOT * (number % slots)
        made[to:to + SLOT] = it[at - SECTOR:at - SECTOR + SLOT]
    return bytes(made)


def forged(data: bytes, dice: random.Random) -> bytes:
    """An image that no unit leaves, though most of its blocks can be read: with other lives, events, numbers of blocks, moments, or bytes."""
    it, heads = bytearray(data), heads_of(data)
    some = heads[dice.choice((0, 0, dice.randrange(len(heads)), -1)):][:dice.choice((1, len(heads), len(heads)))]
    kind = dice.choice(("lives", "lives", "events", "both", "numbers", "moment", "bytes"))
    if kind in ("lives", "both"):
        more = dice.choice((-1 << 32, -1, 1, 3, 1_000, 1 << 32))
        for at in some:
            plus(it, at + 24, 4, more)
    if kind in ("events", "both"):
        with_events(it, some, dice.choice((1, 3, 1_000)))
    elif kind == "numbers":
        newest = int.from_bytes(data[heads[-1] + 8:heads[-1] + 16], "big")
        return with_numbers(it, heads, dice.choice((1, 7, NEWEST - newest - 1, NEWEST - newest)))
    elif kind == "moment":
        at = dice.choice(heads)
        plus(it, at + SECTOR + 256 * dice.randrange(it[at + 28]) + 16, 8, dice.choice((-1, 1, 500)))
    elif kind == "bytes":
        return altered(data, dice)
    return bytes(it)


def verdicts(browser: Browser, _page: Path, folder: Path) -> int:
    """Of forged images the page and `etcs_lab check` find the same ones whole, and the same ones without a fault."""
    dice, path, count, whole, differ = random.Random(1), folder / "image", 0, 0, []
    made = bases(folder, dice)
    for number in range(FORGED):
        data = forged(dice.choice(made), dice)
        path.write_bytes(in_format_1(data, range(dice.randrange(4))) if dice.random() < 0.1 else data)
        findings = browser.ask(path)
        status, lines = lab("check", "--json", str(path))
        if not findings["facts"]:
            assert status == 1, (number, status)
            continue
        wanted = lines[-1]["check"]
        found = (findings["isWhole"], not findings["verdict"])
        if found != (wanted["whole"], wanted["whole"] and wanted["replay"] == "nothing_differs"):
            differ.append((number, found, wanted, [line.get("between", line.get("power_up")) for line in lines]))
        count, whole = count + 1, whole + wanted["whole"]
    assert not differ, (len(differ), differ[:3])
    assert whole >= FORGED // 20 and count - whole >= FORGED // 3, (whole, count)
    return count


CHECKS = {"unrecorded": (unrecorded, 40), "verdicts": (verdicts, FORGED * 5 // 6)}
