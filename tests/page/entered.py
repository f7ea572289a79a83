"""What is handed over and typed in: folders, unreadable and longer files, names, long texts, wrong entries, numbers above 2^53; the keys of slots and tabs."""
import csv
import io
import json
from pathlib import Path
from typing import Any

from asking import SECTOR, example, image, lab
from browsing import Browser
from desks import TELEGRAMS
from handing import CATCH, TEXT

DROP = """
const data = new DataTransfer();
for (const file of arguments[0]) data.items.add(file instanceof File ? file : window.held[file]);
document.dispatchEvent(new DragEvent('drop', {dataTransfer: data, bubbles: true, cancelable: true}));
"""
NAMED = "window.held = arguments[0].map(name => new File([Uint8Array.from(window.bytes)], name)); window.before = window.gaknifur.ask.id"
TYPE = "const field = document.getElementById(arguments[0]); field.value = arguments[1]; field.dispatchEvent(new Event(arguments[2]))"
INVALID = "return document.getElementById(arguments[0]).getAttribute('aria-invalid')"
PRESS = "document.activeElement.dispatchEvent(new KeyboardEvent('keydown', {key: arguments[0], bubbles: true, cancelable: true})); const a = document.activeElement;" \
        "return [a.id || a.getAttribute('aria-label'), document.getElementById('slot-said').textContent]"

def dropped(browser: Browser, _page: Path, folder: Path) -> int:
    """A folder, a file that is gone, and several files are refused by a sentence; then the image is read."""
    good, gone, inner = folder / "good", folder / "gone", folder / "inner"
    good.write_bytes(image(folder, [example("trip")], 16))
    gone.write_bytes(good.read_bytes())
    inner.mkdir()
    browser.ask(gone)
    browser.run("window.held = [...document.getElementById('file').files]")
    gone.unlink()
    browser.run(DROP, [0])
    browser.until("return document.getElementById('ask-error').textContent.startsWith('gone: the browser can\\'t read it')")
    browser.ask(good)
    browser.run("window.held.push(...document.getElementById('file').files)")
    browser.run(DROP, [0, 1])
    browser.until("return document.getElementById('ask-error').textContent.startsWith('2 files were handed over, and none is read')")
    data = {"items": [], "files": [str(inner)], "dragOperationsMask": 1}
    for kind in ("dragEnter", "dragOver", "drop"):
        browser.driver.execute_cdp_cmd("Input.dispatchDragEvent", {"type": kind, "x": 300, "y": 300, "data": data})
    browser.until("return document.getElementById('ask-error').textContent.includes('inner: the browser can\\'t read it; perhaps it is a folder')")
    assert browser.text("event-said").startswith("Event ") and browser.ask(good)["count"] == 17 and browser.text("ask-error") == ""
    said = [browser.text("sentence"), *(line for line in browser.complaints() if "Uncaught" in line)]
    assert said == [""], said
    return 4


def longer(browser: Browser, _page: Path, folder: Path) -> int:
    """An image with bytes after it is said to be longer, with both sizes, and its first bytes are read as `etcs_lab events` reads them."""
    data, path = image(folder, [example("power_cut"), example("power_cut", "restart.json"), example("trip")], 4), folder / "image"
    own = len(data)
    path.write_bytes(data)
    _, lines = lab("events", str(path))
    wanted = [line["event"] for line in lines if "event" in line]
    for size in (own + SECTOR, 32_768, own + 6 * SECTOR):
        path.write_bytes(data.ljust(size, b"\0"))
        assert browser.ask(path)["count"] == 0
        error, is_ring = browser.text("ask-error"), (size - SECTOR) % (6 * SECTOR) == 0
        assert f"4 slots, so {own:,} bytes, and here are {size:,}." in error and ("it could have" in error) == is_ring, error
        assert browser.run("return document.getElementById('by-slots').checkVisibility()") == is_ring
        assert browser.text("read-first") == f"Read the first {own:,} bytes", browser.text("read-first")
        browser.run("window.before = window.gaknifur.ask.id")
        browser.click("read-first")
        browser.until("const a = window.gaknifur.ask; return a.id > window.before && a.isDone")
        found = browser.run("const { records } = window.gaknifur.ask; return Array.from({length: records.count}, (_, n) => records.event(n))")
        assert found == wanted and browser.text("ask-error") == "", (size, found, wanted, browser.text("ask-error"))
        assert f"{size:,}, of which the first {own:,} are read" in browser.text("facts") and browser.text("verdict").startswith("Not whole")
        assert not browser.run("return document.getElementById('by-first').checkVisibility()")
    flipped = bytearray(data.ljust(own + SECTOR, b"\0"))
    flipped[0] ^= 1
    path.write_bytes(flipped)
    for slots, says in ((4, ""), (16, f"16 slots have 49,664 bytes, and here are {own + SECTOR:,}.")):
        browser.ask(path)
        browser.run("document.getElementById('slots').value = arguments[0]; window.before = window.gaknifur.ask.id", str(slots))
        browser.click("read-slots")
        browser.until("const a = window.gaknifur.ask; return a.id > window.before && (a.isDone || document.getElementById('ask-error').textContent)")
        assert says in browser.text("ask-error"), (slots, browser.text("ask-error"))
        assert says or browser.run("return window.gaknifur.ask.records.count") == len(wanted)
    return 5


def names(browser: Browser, _page: Path, folder: Path) -> int:
    """Characters of a file's name that can't be seen, or turn the text, are spelled wherever the name is shown."""
    data = image(folder, [example("trip")], 16)
    browser.run("document.getElementById('tab-ask').click(); window.bytes = arguments[0]", list(data))
    for name, says in (("a\u202egnp.exe", "a\\u202egnp.exe"), ("\u200b\u200b", "\\u200b\\u200b")):
        browser.run(NAMED, [name])
        browser.run(DROP, [0])
        browser.until("return window.gaknifur.ask.id > window.before && window.gaknifur.ask.isDone")
        browser.run(CATCH)
        browser.click("save-report")
        browser.until("return Object.keys(window.saved).length === 1")
        report = browser.run_later(TEXT, browser.run("return Object.keys(window.saved)[0]"))
        facts = browser.text("facts")
        browser.run("window.bytes = window.bytes.slice(0, 100)")
        browser.run(NAMED, [name])
        browser.run(DROP, [0])
        browser.until("return document.getElementById('ask-error').textContent !== ''")
        for text in (facts, browser.text("ask-error"), report):
            assert says in text and name not in text, (says, text[:200])
        browser.run("window.bytes = arguments[0]", list(data))
    return 8


def long_texts(browser: Browser, _page: Path, folder: Path) -> int:
    """A text of 100,000 digits, or of as many other characters, has a short answer and no form; a scenario of 50,000 groups is driven."""
    browser.click("tab-telegram")
    for name, text, says in (("telegram-hex", "90" * 50_000, "9 TooLong"), ("telegram-hex", "9" * 99_999, "is no variable"), ("telegram-words", "x" * 100_000, "is no variable"),
                             ("telegram-words", "NID_BG 1; " + "12: V_MAIN 24, L_ENDSECTION 300; " * 3_000, "")):
        browser.run(TYPE, name, text, "input")
        said = browser.text("telegram-said")
        assert says in said and len(said) < 300, (name, said[:300])
        assert browser.run("return document.querySelectorAll('#telegram-form input').length") == 0
    path = folder / "many.json"
    groups = [{"at": 100 * (n + 1), "spacing": 300, "balises": [TELEGRAMS[0]]} for n in range(50_000)]
    path.write_text(json.dumps({"groups": groups, "steps": []}), encoding="utf-8")
    browser.click("tab-drive")
    browser.send("scenario-file", path)
    browser.until("return window.gaknifur.drive.track.name.includes('many.json') && window.gaknifur.drive.course !== null")
    browser.run("for (let n = 0; n < 20; n++) window.gaknifur.drive.step(); window.gaknifur.drive.render(true)")
    assert browser.text("drive-error") == "" and browser.run("return window.gaknifur.drive.course.balises.length") == 50_000, browser.text("drive-error")
    return 5


def exact(browser: Browser, _page: Path, folder: Path) -> int:
    """Uncertainties above 2^53 are those of `etcs_lab events`, in the JSON and the CSV."""
    data, path = bytearray(image(folder, [example("trip")], 16)), folder / "image"
    for slot, number in ((1, 2 ** 64 - 1), (2, 2 ** 53 + 1)):
        at = SECTOR * (3 + 6 * slot) + 32
        data[at:at + 8] = number.to_bytes(8, "big")
    path.write_bytes(data)
    browser.ask(path)
    browser.run(CATCH)
    browser.click("save-json", "save-csv")
    wanted = [line["uncertainty_cm"] for line in lab("events", str(path))[1] if "event" in line]
    assert {2 ** 64 - 1, 2 ** 53 + 1} <= set(wanted), wanted
    found = json.loads(browser.run_later(TEXT, "image.json"))["events"]
    assert [one["uncertainty_cm"] for one in found] == wanted, found
    rows = list(csv.DictReader(io.StringIO(browser.run_later(TEXT, "image.csv"))))
    assert [int(row["uncertainty_cm"]) for row in rows] == wanted, rows
    event = wanted.index(2 ** 64 - 1)
    browser.run("window.gaknifur.ask.chooseEvent(arguments[0])", event)
    assert "± 184,467,440,737,095,516.15 m" in browser.text("ask-texts"), browser.text("ask-texts")
    return 2 * len(wanted)


def typed(browser: Browser, _page: Path, folder: Path) -> int:
    """A wrong number of an event, and a wrong place in the editor, mark their fields, change nothing, and are quoted."""
    path, count = folder / "image", 0
    path.write_bytes(image(folder, [example("trip")], 16))
    browser.ask(path)
    browser.run("window.gaknifur.ask.chooseEvent(3)")
    for text in ("x", "", "1.5", "0x10", "-1", "1e1"):
        browser.run(TYPE, "event-number", text, "change")
        assert browser.run(INVALID, "event-number") == "true" and f'"{text}" is none' in browser.text("event-error"), (text, browser.text("event-error"))
        assert browser.run("return window.gaknifur.ask.index") == 3
        count += 1
    browser.run(TYPE, "event-number", "5", "change")
    assert browser.run(INVALID, "event-number") == "false" and browser.text("event-said").startswith("Event 5 of life")
    browser.click("tab-drive", "edit")
    browser.run("document.querySelectorAll('#line .handle')[1].dispatchEvent(new MouseEvent('click', {bubbles: true}))")
    for name in ("group-at", "group-spacing"):
        right = browser.run("return document.getElementById(arguments[0]).value", name)
        for text in ("x", "", "0x10", "0", "99999999", "1.001"):
            browser.run(TYPE, name, text, "change")
            assert browser.run(INVALID, name) == "true" and "Nothing was changed" in browser.text("editor-error"), (name, text)
            assert browser.run("return document.getElementById(arguments[0]).value", name) == text
            count += 1
        browser.run(TYPE, name, right, "change")
        assert browser.run(INVALID, name) == "false" and browser.text("editor-error") == ""
    return count


def keyed(browser: Browser, _page: Path, folder: Path) -> int:
    """All slots are one stop of the Tab key, and so are the tabs; the arrow keys move within. An image that is asked at the desk takes the focus along."""
    path = folder / "image"
    path.write_bytes(image(folder, [example("power_cut"), example("trip")], 16))
    browser.ask(path)
    stops = "return [...document.querySelectorAll(arguments[0])].filter(one => one.tabIndex === 0).length"
    assert browser.run(stops, "#ring .slot") == 1 and browser.run(stops, "[role=tab]") == 1
    browser.run("document.querySelector('#ring .slot').focus()")
    said: list[Any] = [browser.run(PRESS, key)[1].split(",")[0] for key in ("ArrowRight", "ArrowRight", "ArrowLeft", "ArrowLeft", "ArrowLeft", "Home", "End", "ArrowDown")]
    assert said == [f"Slot {number}" for number in (1, 2, 1, 0, 15, 0, 15, 0)], said
    browser.run("document.getElementById('tab-ask').focus()")
    found = [browser.run(PRESS, key)[0] for key in ("ArrowRight", "ArrowRight", "ArrowLeft", "Home", "End")]
    assert found == ["tab-telegram", "tab-drive", "tab-telegram", "tab-drive", "tab-telegram"], found
    assert browser.run("return document.getElementById('telegram').checkVisibility()")
    browser.click("tab-drive", "ask-this")
    browser.until("return window.gaknifur.ask.isDone && document.activeElement.id === 'brief-title'")
    return 15


def shown(browser: Browser, _page: Path, folder: Path) -> int:
    """The slots' verdict is no good one where the replay differs; lives without a clock lie side by side by event; each work that may take long is named."""
    data, path = bytearray(image(folder, [example("power_cut"), example("power_cut", "restart.json"), example("trip")], 16)), folder / "image"
    path.write_bytes(data)
    browser.run("window.said = []; new MutationObserver(() => window.said.push(document.getElementById('ask-progress').textContent))"
                ".observe(document.getElementById('ask-progress'), {childList: true, characterData: true, subtree: true})")
    browser.ask(path)
    assert any(text.startswith("lives run again") for text in browser.run("return window.said")), browser.run("return window.said")
    assert browser.run("return document.getElementById('verdict').className") == "verdict good"
    spans = browser.run("const { axis } = window.gaknifur.ask.viewer.scene; return [axis.kind, axis.spans.map(one => [one.low, one.high])]")
    assert spans[0] == "event" and len(spans[1]) == 3 and all(low < high for low, high in spans[1]), spans
    data[SECTOR * (3 + 6 * 2) + 7] ^= 1  # (an indication of the first record of block 2)
    path.write_bytes(data)
    findings = browser.ask(path)
    assert findings["isWhole"] and any(life["verdict"] == 2 for life in findings["lives"]), findings["lives"]
    assert browser.run("return document.getElementById('verdict').className") == "verdict bad" and "the replay differs" in browser.text("verdict")
    return 5


CHECKS = {"dropped": (dropped, 4), "longer": (longer, 5), "names": (names, 8), "long_texts": (long_texts, 5), "exact": (exact, 20), "typed": (typed, 18), "keyed": (keyed, 15),
          "shown": (shown, 5)}
