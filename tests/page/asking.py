"""Journal images: how they are made and altered, how what the page shows is compared with what `etcs_lab` prints, and the case of a damaged one."""
import hashlib
import json
import random
import subprocess
from pathlib import Path
from typing import Any

from browsing import Browser
from desks import TOP, etcs, random_steps
from gaknifur import program
from gaknifur.journal import _words

STATES = ("empty", "block", "unreadable", "misplaced", "foreign", "unwritten", "replaced", "remains")
RECORD = ("", "event", "word", "time_ms", "mode", "level", "brake", "indications", "place", "place_cm", "uncertainty_cm", "limit_m_per_h")
HEAD = ("", "events", "lives", "trip_outstanding", "identity", "running_number", "train", "level", "position", "national_values", "countries")
REASONS = {4: "before_oldest_block", 5: "gap", 6: "within_block", 7: "after_difference"}
CAUSES, LIMITS, TRIPS = tuple(_words.CAUSES), ("", *_words.LIMIT_CAUSES), (None, *_words.TRIP_CAUSES)
SECTOR, SLOT = 512, 6 * 512


def lab(*words: str) -> tuple[int, list[Any]]:
    """The status of a run of `etcs_lab`, and the objects that it prints."""
    done = subprocess.run([program.find(), *words], stdin=subprocess.DEVNULL, capture_output=True, text=True, check=False)
    return done.returncode, [json.loads(line) for line in done.stdout.splitlines()]


def image(folder: Path, lives: list[Any], slots: int) -> bytes:
    """The image of some lives."""
    path = folder / "made"
    etcs("format", str(path), str(slots))
    for life in lives:
        scenario = folder / "scenario.json"
        scenario.write_text(json.dumps({"cold": life.get("cold", 0), "groups": life.get("groups", []), "steps": life["steps"]}), encoding="utf-8")
        etcs("run", str(scenario), str(path))
    return path.read_bytes()


def example(name: str, file: str = "scenario.json") -> Any:
    """The scenario of an example."""
    return json.loads((TOP / "examples" / name / file).read_bytes())


def bases(folder: Path, dice: random.Random) -> list[bytes]:
    """Images that nothing happened to."""
    three = [example("power_cut"), example("power_cut", "restart.json"), example("trip")]
    made = [image(folder, three, 16), image(folder, three, 6), image(folder, [example("on_sight")], 16)]
    return made + [image(folder, [{"cold": dice.randrange(3), "steps": random_steps(dice)} for _ in range(4)], slots) for slots in (2, 5, 9, 12)]


def altered(data: bytes, dice: random.Random) -> bytes:
    """An image to which something happened."""
    it, slots = bytearray(data), (len(data) // SECTOR - 1) // 6
    used = [slot for slot in range(slots) if any(data[SECTOR + SLOT * slot:SECTOR + SLOT * (slot + 1)])]
    first = SECTOR + SLOT * dice.choice(used)
    kind = dice.randrange(-2, 9)
    if kind < 3:  # a byte of a record
        it[first + 2 * SECTOR + 256 * dice.randrange(3) + dice.choice((0, 1, 2, 4, 7, 15, 23, 31, 39, 42, 43, 50, 51))] ^= 1 << dice.randrange(8)
    elif kind == 3:  # a byte of a head
        it[first + SECTOR + dice.choice((15, 23, 27, 28, 29, 33, 51, 62, 71, 87, 90))] ^= 1 << dice.randrange(8)
    elif kind == 4:  # a gate
        it[first:first + SECTOR] = bytes(SECTOR) if dice.random() < 0.7 else bytes(range(256)) * 2
    elif kind == 5:  # a slot is put elsewhere
        to = SECTOR + SLOT * dice.randrange(slots)
        it[to:to + SLOT] = data[first:first + SLOT]
    elif kind == 6:  # cut off, or more after it
        return bytes(it[:dice.randrange(SECTOR, len(it))]) if dice.random() < 0.7 else bytes(it) + bytes(dice.randrange(1, 1600))
    elif kind == 7:  # a slot is wiped
        it[first:first + SLOT] = bytes(SLOT)
    else:  # sectors of zeros
        at = first + SECTOR * dice.randrange(6)
        it[at:at + SECTOR] = bytes(SECTOR)
    return bytes(it)


def compare_slots(findings: dict[str, Any], wanted: dict[str, Any], at: str) -> int:
    """What each slot holds, and whether all is whole."""
    found = {number: (STATES[slot["state"]], slot["number"] or None) for number, slot in enumerate(findings["slots"]) if slot["state"]}
    slots = {slot["slot"]: (slot["state"], slot.get("block")) for slot in wanted["slots"]}
    assert found == slots, (at, found, slots)
    for number, slot in ((slot["slot"], slot) for slot in wanted["slots"] if slot["state"] == "unreadable"):
        one = findings["slots"][number]
        byte = SECTOR + SLOT * number + SECTOR + one["faultAt"] if one["hasFault"] else None
        assert byte == slot.get("byte"), (at, byte, slot)
    assert findings["digest"] == wanted["image"]["sha256"], at
    assert (findings["facts"]["slots"], findings["facts"]["whole"]) == (wanted["image"]["slots"] if "slots" in wanted["image"] else
                                                              wanted["image"]["first_sector"]["slots"], wanted["image"]["whole_slots"]), at
    assert findings["isWhole"] == wanted["whole"], (at, findings["isWhole"], wanted["whole"], wanted["between"])
    return len(slots)


def life_of(line: dict[str, Any]) -> Any:
    """A life of a replay as the page shows it."""
    first, last, verdict = line["first"], line["last"], line["verdict"]
    if verdict == 2:
        return "differs", line["event"], RECORD[line["field"]]
    if verdict == 3:
        return "head", line["block"], HEAD[line["field"]]
    return "agrees" if verdict == 1 else REASONS[verdict], first, last


def line_of(line: dict[str, Any]) -> Any:
    """A line of `etcs_lab replay`."""
    if line.get("replay") == "agrees":
        return "agrees", line["first_event"], line["last_event"]
    if line.get("replay") == "record_differs":
        return "differs", line["event"], line["field"]
    if line.get("replay") == "head_differs":
        return "head", line["block"], line["field"]
    return (line["reason"], line["first_event"], line["last_event"]) if line.get("replay") == "not_replayed" else None


def compare_replay(findings: dict[str, Any], path: Path, at: str) -> int:
    """What each life came to."""
    _, lines = lab("replay", "--json", str(path))
    wanted, count = [line_of(line) for line in lines], 0
    unreadable = [line["block"] for line in lines if line.get("replay") == "unreadable"]
    assert findings["unreadable"] == unreadable, (at, findings["unreadable"], unreadable)
    found = [life_of(line) for line in findings["lives"] or []]
    assert found == [line for line in wanted if line], (at, found, lines)
    count += len(found)
    bad = sum(life["verdict"] in (2, 3) for life in findings["lives"] or [])
    assert bool(bad) == any(one and one[0] in ("differs", "head") for one in wanted), (at, findings["lives"], lines)
    return count


def compare_why(index: int, why: dict[str, Any] | None, event: int, path: Path) -> int:
    """The causes where an intervention began."""
    status, lines = lab("why", "--json", str(path), str(event))
    explained = next((line for line in lines if line.get("event") == event and "limit_cause" in line), None)
    if why is None:
        assert status and explained is None, (index, event, lines)
        return 0
    assert explained is not None, (path, event, lines)
    assert {CAUSES[n]: why["since"][n] for n, holds in enumerate(why["holds"]) if holds} == {
        cause: explained[cause] for cause in CAUSES if explained[cause] is not None}, (event, why, explained)
    assert (LIMITS[why["limitCause"]], why["causeAt"], why["causeSpeed"], why["restriction"], TRIPS[why["tripCause"]]) == (
        explained["limit_cause"], explained["limit_cause_place_cm"], explained["limit_cause_speed_m_per_h"], explained["limit_cause_number"],
        explained["trip_cause"]), (event, why, explained)
    return 1


def case(browser: Browser, page: Path, folder: Path) -> int:
    """The case of docs/howto/damaged-image.md: its questions are answered."""
    data = bytearray(image(folder, [example("power_cut"), example("power_cut", "restart.json"), example("trip")], 6))
    data[512 * 7:512 * 8] = bytes(512)
    data[14352] = 0o377
    path = folder / "case"
    path.write_bytes(data)
    browser.open(page, "#event=24")
    findings = browser.ask(path)
    assert findings["digest"] == hashlib.sha256(data).hexdigest() == "ee636b1dfea516705c04c8235a93cf1eb4f86594fcdce11bc49e9be9cd547df3"
    assert "Event 24 of life 3, block 6: moved 100.00 m, at 15.0 km/h" in browser.text("event-said")
    assert "emergency brake; limit 0.0 km/h, front 300.00 m ± 20.00 m" in browser.text("ask-texts")
    fields = browser.run("return [...document.querySelectorAll('#fields tr')].map(row => [...row.cells].map(cell => cell.textContent))")
    assert ["speed", "15.0 km/h", "3,380, 4 B"] in fields and ["event", "24", "3,336, 8 B"] in fields
    shown = browser.run("document.querySelectorAll('#fields tbody tr')[6].click();"
                        "return [...document.querySelectorAll('#hex .on')].map(span => span.textContent).join('')")
    assert shown == "0000000000000018"
    telegram = browser.run("window.gaknifur.ask.chooseEvent(17); return document.getElementById('fields').textContent")
    assert "3 packets" in telegram and "1,584, 31 B" in telegram, telegram
    browser.until("return location.hash === '#event=17'")
    assert "1 × unreadable" in browser.text("ring-legend") and "1 × unwritten" in browser.text("ring-legend")
    browser.run("document.querySelectorAll('#ring .slot')[4].dispatchEvent(new MouseEvent('click', {bubbles: true}))")
    assert "byte 14,352, in record 3" in browser.text("slot-said")
    assert "IC 704" in browser.text("kept") and "Lost: block 4 with events 10 to 15." in browser.text("verdict")
    lives = browser.text("lives")
    assert "was overwritten" in lives and "are missing before" in lives
    assert browser.text("ask-causes").startswith("The cause is unknown")
    browser.run("window.gaknifur.ask.chooseEvent(12)")
    assert "is in no block" in browser.text("event-error")
    browser.run("location.hash = '#event=9'")
    browser.until("return document.getElementById('ask-causes').textContent.includes('has not revalidated')")
    return 15


def places(browser: Browser, _page: Path, folder: Path) -> int:
    """Of each record the bytes that the page takes are those of the record: its number stands there."""
    path = folder / "image"
    path.write_bytes(image(folder, [example("power_cut"), example("power_cut", "restart.json"), example("trip")], 16))
    count = browser.ask(path)["count"]
    for index in range(count):
        event, digits = browser.run("window.gaknifur.ask.choose(arguments[0]); const row = [...document.querySelectorAll('#fields tbody tr')]"
                                    ".find(row => row.cells[0].textContent === 'event'); row.click(); return [row.cells[1].textContent,"
                                    "[...document.querySelectorAll('#hex .on')].map(span => span.textContent).join('')]", index)
        assert int(event.replace(",", "")) == int(digits, 16) == index
    return int(count)


CHECKS = {"case": (case, 15), "places": (places, 33)}
