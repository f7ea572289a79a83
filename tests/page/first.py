"""What a newcomer sees: the purpose of the page, the steps of a start, greyed buttons, wrong entries, and a damaged first sector."""
import json
from pathlib import Path

from asking import STATES, example, image, lab
from browsing import Browser
from desks import board, name_of

GREY = "return arguments[0].map(id => { const one = document.getElementById(id); return [one.getAttribute('aria-disabled') === 'true', one.title]; })"
BITS = ((0, 1), (7, 0x80), (9, 1), (100, 4), (15, 1), (13, 0x40))
"""Bytes of the first sector, and what is flipped there: mark, version, zeros, and the number of slots."""
CUTS = (512 + 12 * 3_072 + 700, 512 + 9 * 3_072 + 2_048)
"""Where an image of 16 slots ends early, within a slot."""
WRONG = (("length", "abc", "enter-train", "Length in m: a number with up to 2 decimals from 0.01 to 4,095."),
         ("maximum", "-5", "enter-train", "Greatest speed in km/h: a number with up to 3 decimals from 0.001 to 600."),
         ("deceleration", "0", "enter-train", "Deceleration in m/s²: a number with up to 2 decimals from 0.01 to 3."),
         ("reaction", "11", "enter-train", "Reaction in s: a number with up to 3 decimals from 0 to 10."), ("length", "1e2", "enter-train", "Length in m"),
         ("deceleration", "0.701", "enter-train", "Deceleration in m/s²"), ("maximum", "0x10", "enter-train", "Greatest speed in km/h"),
         ("running", "", "enter-running", "Running number: a whole number from 0 to 99,999,999."), ("running", "100000000", "enter-running", "Running number: a whole number"),
         ("running", "1.5", "enter-running", "Running number"), ("running", "0x10", "enter-running", "Running number"),
         ("identity", "", "enter-identity", "The identity has 1 to 16 letters"), ("identity", "Zug ü", "enter-identity", "The identity has 1 to 16 letters"))
"""A field, a wrong entry, the button, and the limits by c/include/etcs_unit.h, in the unit of the field."""


def steps(browser: Browser, _page: Path, _folder: Path) -> int:
    """The page says what it is; four steps by one button; what has no effect is grey, with why; why it brakes is above the fold at 1366 x 768."""
    browser.show(1366, 768)
    assert browser.text("about").startswith("Drop a journal image anywhere on this page, and it says why the train braked. Or drive a train here")
    board(browser, name_of(browser, "full_supervision"))
    grey = browser.run(GREY, ["full", "start", "leave", "confirm-1", "override"])
    assert [one for one, _ in grey] == [True, False, True, True, True], grey
    assert grey[0][1] == "The emergency brake is commanded until the four steps are done" and grey[2][1].startswith("Accepted in Shunting; the mode is Stand By"), grey
    classes = "return [0, 1, 2, 3].map(n => document.getElementById('mission-' + n).className)"
    texts = "return [...document.querySelectorAll('#mission span')].map(one => one.textContent)"
    assert browser.run(classes) == ["owes"] * 4
    assert browser.run(texts) == ["the identity isn't known yet", "the level isn't valid yet", "the train data aren't known yet", "the mission hasn't begun yet"]
    browser.click("do-all")
    assert browser.run(texts)[0] == "the identity is known", browser.run(texts)
    assert browser.run(classes) == ["done"] * 4 and browser.text("mode") == "Full Supervision", browser.text("mode")
    grey = browser.run(GREY, ["full", "start", "close", "confirm-1"])
    assert [one for one, _ in grey] == [False, True, False, True], grey
    browser.click("full")
    assert browser.run("return document.getElementById('full').getAttribute('aria-pressed')") == "true"
    browser.run("const d = window.gaknifur.drive; for (let n = 0; n < 2000 && d.course.output.brake < 2; n++) d.step(); d.render(true); scrollTo(0, 0)")
    browser.until("return document.getElementById('limit-cause').textContent.includes('end of authority')")
    bottoms = browser.run("return [...document.querySelectorAll('#causes li, #limit-cause')].map(one => one.getBoundingClientRect().bottom)")
    assert len(bottoms) >= 3 and max(bottoms) <= 768, bottoms
    browser.click("cut", "cut-now")
    assert browser.run(GREY, ["full", "start"]) == [[True, "Power is off"], [True, "Power is off; key s"]]
    browser.show()
    return 12


def entries(browser: Browser, _page: Path, _folder: Path) -> int:
    """A wrong entry marks its field, names the limit, and is handed to nobody; a right one clears the mark."""
    state = "const e = document.getElementById(arguments[0]); return [e.getAttribute('aria-invalid'), document.getElementById('entry-error').textContent, window.gaknifur.drive.course.life.steps.length]"
    for name, text, button, says in WRONG:
        before = browser.run(state, name)[2]
        right = browser.run("const e = document.getElementById(arguments[0]), old = e.value; e.value = arguments[1]; return old", name, text)
        browser.click(button)
        marked, error, count = browser.run(state, name)
        assert marked == "true" and error.startswith(says) and "Nothing was entered" in error and count == before, (name, text, marked, error)
        browser.run("document.getElementById(arguments[0]).value = arguments[1]", name, right)
        browser.click(button)
        marked, error, count = browser.run(state, name)
        assert (marked, error) == ("false", "") and count > before, (name, marked, error)
    return len(WRONG)


def by_slots(browser: Browser, _page: Path, folder: Path) -> int:
    """One flipped bit of the first sector: the number of slots is offered by the size, and read as `etcs_lab examine --slots` reads it."""
    data, path = image(folder, [example("power_cut"), example("trip")], 16), folder / "image"
    for at, bit in BITS:
        path.write_bytes(data[:at] + bytes((data[at] ^ bit,)) + data[at + 1:])
        browser.ask(path)
        assert "By its size it could have 16 slots" in browser.text("ask-error"), (at, browser.text("ask-error"))
        assert browser.run("return document.getElementById('slots').value") == "16"
        browser.run("document.getElementById('slots').value = '1'")
        browser.click("read-slots")
        assert "from 2 to 1,048,576" in browser.text("slots-error") and browser.run("return document.getElementById('slots').getAttribute('aria-invalid')") == "true"
        browser.run("document.getElementById('slots').value = '16'; window.before = window.gaknifur.ask.id")
        browser.click("read-slots")
        browser.until("const a = window.gaknifur.ask; return a.id > window.before && a.isDone")
        findings = browser.run("return JSON.parse(JSON.stringify(window.gaknifur.ask.findings))")
        _, [wanted] = lab("examine", "--json", "--slots", "16", str(path))
        found = {number: STATES[slot["state"]] for number, slot in enumerate(findings["slots"]) if slot["state"]}
        assert found == {slot["slot"]: slot["state"] for slot in wanted["slots"]} and len(found) >= 4, (at, found)
        assert findings["digest"] == wanted["image"]["sha256"] and findings["count"] == wanted["journal"]["last_event"] + 1, (at, findings["count"])
        assert browser.text("verdict").startswith("Not whole") and "entered by hand" in browser.text("facts"), browser.text("facts")
        assert "something is lost" in browser.text("brief") and browser.text("ask-error") == "", browser.text("brief")
    path.write_bytes(data)
    browser.ask(path)
    assert browser.text("verdict").startswith("Each slot is") and not browser.run("return document.getElementById('by-slots').checkVisibility()")
    return len(BITS)


def cut_off(browser: Browser, _page: Path, folder: Path) -> int:
    """An image that ends early is said to, with its bytes by the first sector, and no smaller number of slots is offered; a copy that is
    lengthened with zeros has the journal that `etcs_lab examine` finds in it."""
    data, path = image(folder, [example("power_cut"), example("trip")], 16), folder / "image"
    for size in CUTS:
        path.write_bytes(data[:size])
        browser.ask(path)
        error = browser.text("ask-error")
        assert all(text in error for text in ("ends early", "16 slots", "49,664 bytes", f"here are {size:,}.", "truncate -s 49664")), (size, error)
        assert not browser.run("return document.getElementById('by-slots').checkVisibility()"), size
        path.write_bytes(data[:size].ljust(49_664, b"\0"))
        browser.ask(path)
        _, [wanted] = lab("examine", "--json", str(path))
        last = browser.run("const { records } = window.gaknifur.ask; return records.event(records.count - 1)")
        assert browser.text("ask-error") == "" and last == wanted["journal"]["last_event"], (size, last, wanted["journal"])
    return len(CUTS)


def own_words(browser: Browser, _page: Path, folder: Path) -> int:
    """A file that is no scenario is refused in words of the page's own."""
    scenario = json.dumps(example("trip"))
    for data, says in ((b"\xff\xfe{}", "it isn't text in UTF-8."), (b'{"groups":\n [], }', "this is no JSON"), (scenario[:-1].encode(), "this is no JSON"), (b"", "this is no JSON"),
                       (b"[" * 5_000 + b"]" * 5_000, "its lists and objects are nested too deeply")):
        path = folder / "bad.json"
        path.write_bytes(data)
        browser.run("document.getElementById('drive-error').textContent = ''")
        browser.send("scenario-file", path)
        browser.until("return document.getElementById('drive-error').textContent !== ''")
        error = browser.text("drive-error")
        assert error.startswith(f"bad.json isn't a scenario that etcs run reads: {says}"), error
        assert not any(word in error for word in ("Failed", "execute", "Unexpected", "TextDecoder", "Error")), error
    return 5


CHECKS = {"first_steps": (steps, 12), "entries": (entries, 13), "by_slots": (by_slots, 6), "cut_off": (cut_off, 2), "own_words": (own_words, 4)}
