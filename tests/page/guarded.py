"""The lamp of the guard: shown where a train of issue 2.3.0 stops by a packet that the unit skips (crates/track_guard/README.md), until the driver
acknowledges at standstill. The train of the desk obeys only the unit."""
import json
from pathlib import Path
from typing import Any

from browsing import Browser
from desks import START, TELEGRAMS, image_of, saved
from gaknifur.telegrams.telegrams import telegram
from tracks import open_scenario

STOP = "137: Q_DIR {}, Q_SRSTOP 0"
REVERSE, NOMINAL, BOTH = 0, 1, 2
LINK = "NID_BG 2; 5: Q_DIR 2, D_LINK 100, NID_BG 7, Q_LINKORIENTATION {}, Q_LINKREACTION 1, Q_LOCACC 5"
PAIR = ("NID_BG 7, N_PIG 1, N_TOTAL 1", "NID_BG 7, N_TOTAL 1")
"""The balises of a group that is passed in the reverse direction."""
SAYS = "The guard demands a stop: packet 137, stop if in SR"
CASES: list[tuple[str, list[str], list[str], tuple[str, ...], str]] = [
    ("Staff Responsible", [], [f"NID_BG 7; {STOP.format(BOTH)}"], (), SAYS),
    ("Q_SRSTOP 1", [], ["NID_BG 7; 137: Q_DIR 2, Q_SRSTOP 1"], (), ""),
    ("Full Supervision", [TELEGRAMS[0]], [f"NID_BG 7; {STOP.format(BOTH)}"], (), ""),
    ("an override", [], [f"NID_BG 7; {STOP.format(BOTH)}"], ("override",), ""),
    ("one direction, and which isn't known", [], [f"NID_BG 7; {STOP.format(NOMINAL)}"], (), ""),
    ("the announced direction", [telegram(LINK.format(REVERSE)).digits], [f"NID_BG 7; {STOP.format(REVERSE)}"], (), SAYS),
    ("the other direction than the announced one", [telegram(LINK.format(NOMINAL)).digits], [f"NID_BG 7; {STOP.format(REVERSE)}"], (), ""),
    ("the direction of the group", [], [f"{PAIR[0]}; {STOP.format(REVERSE)}", PAIR[1]], (), SAYS),
    ("the other direction than the group's", [], [PAIR[0], f"{PAIR[1]}; {STOP.format(NOMINAL)}"], (), ""),
]
"""Each: what it is about; the telegrams where the train starts; the balises 50 m on; what is pressed after the start; and what the lamp says."""


def lamp(browser: Browser) -> str:
    """What the lamp says; nothing where it isn't shown."""
    return str(browser.run("const lamp = document.getElementById('guard'); return lamp.hidden ? '' : lamp.textContent"))


def press(browser: Browser, *names: str) -> None:
    """Presses buttons at once, wherever the page has scrolled to."""
    browser.run("for (const name of arguments) document.getElementById(name).click()", *names)


def go_on(browser: Browser, condition: str) -> None:
    """Steps until a condition on the course `c` holds."""
    browser.run(f"const c = window.gaknifur.drive.course; for (let n = 0; n < 2000 && !({condition}); n++) document.getElementById('one-step').click()")


def guarded(browser: Browser, _page: Path, folder: Path) -> int:
    """Each case is driven over its balises; the lamp stays until it is pressed at standstill, and the image is that of `etcs run`."""
    for name, start, balises, presses, says in CASES:
        scenario: dict[str, Any] = {"groups": [{"at": 5_000, "spacing": 300, "balises": [telegram(one).digits for one in balises]}],
                                    "steps": [{"telegram": one} for one in start]}
        path = folder / f"{name}.json"
        path.write_text(json.dumps(scenario), encoding="utf-8")
        open_scenario(browser, path)
        assert browser.text("drive-error") == "", (name, browser.text("drive-error"))
        press(browser, *START, *presses)
        assert lamp(browser) == "", name
        press(browser, "full")
        go_on(browser, "c.motion.place > 6000 || c.output.brake")
        assert browser.run("return window.gaknifur.drive.course.motion.place") > 6_000, (name, browser.text("brake"))
        assert lamp(browser) == says, (name, lamp(browser))
        press(browser, "guard")
        assert lamp(browser) == says, f"{name}: acknowledged while the train moves"
        press(browser, "slow")
        go_on(browser, "c.motion.stands")
        assert lamp(browser) == says, f"{name}: gone before it is acknowledged"
        press(browser, "guard")
        assert lamp(browser) == "", f"{name}: not acknowledged at standstill"
        assert browser.image() == image_of(folder, saved(browser))[0], name
    return len(CASES)


CHECKS = {"guarded": (guarded, 9)}
