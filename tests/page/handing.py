"""What the page saves of an image to hand on: the records as CSV and JSON are those of `etcs_lab events`, and the report is one page."""
import csv
import hashlib
import io
import json
import re
from pathlib import Path

from asking import example, image, lab
from browsing import Browser

CATCH = """
window.saved = {};
const make = URL.createObjectURL;
URL.createObjectURL = blob => { window.blob = blob; return make.call(URL, blob); };
HTMLAnchorElement.prototype.click = function () { window.saved[this.download] = window.blob; };
"""
TEXT = "window.saved[arguments[0]].text().then(arguments[arguments.length - 1]);"
SAME = ("event", "life", "block", "kind", "time_ms", "mode", "level", "brake", "indications", "place_cm", "uncertainty_cm", "limit_m_per_h")


def handed_on(browser: Browser, _page: Path, folder: Path) -> int:
    """An image of three lives: all three files, against the program."""
    path = folder / "evidence"
    data = image(folder, [example("power_cut"), example("power_cut", "restart.json"), example("trip")], 16)
    path.write_bytes(data)
    browser.ask(path)
    browser.run(CATCH)
    browser.click("save-json", "save-csv", "save-report")
    files = {kind: browser.run_later(TEXT, f"evidence.{kind}") for kind in ("json", "csv", "html")}
    _, lines = lab("events", str(path))
    wanted = [{name: line[name] for name in SAME} for line in lines if "event" in line]
    found = json.loads(files["json"])
    assert [{name: one[name] for name in SAME} for one in found["events"]] == wanted, (found["events"][:2], wanted[:2])
    assert found["image"]["sha256"] == hashlib.sha256(data).hexdigest() and found["image"]["bytes"] == len(data), found["image"]
    assert found["whole"] is True and [one["replay"] for one in found["lives"]] == ["agrees"] * 3, found["lives"]
    assert found["trips"] and found["interventions"] and all(one["causes"] for one in found["interventions"]), found["interventions"]
    rows = list(csv.DictReader(io.StringIO(files["csv"])))
    said = [{name: " ".join(one[name]) if name == "indications" else "" if one[name] is None else str(one[name]) for name in SAME} for one in wanted]
    assert [{name: row[name] for name in SAME} for row in rows] == said, (rows[:2], said[:2])
    report = files["html"]
    assert hashlib.sha256(data).hexdigest() in report and "why did it brake" in report and browser.text("version") in report, report[:500]
    assert not re.search(r"<(script|button|input)\b", report), "a report has nothing to run or to press"
    return 4 * len(wanted)


CHECKS = {"handed_on": (handed_on, 40)}
