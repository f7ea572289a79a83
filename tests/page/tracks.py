"""Tracks of one's own: scenarios that are opened, and a track that is edited; and what was driven as a test case."""
import json
import os
import random
import re
import subprocess
from pathlib import Path
from typing import Any

from browsing import Browser
from desks import EXAMPLES, START, TELEGRAMS, TOP, board, etcs, image_of, name_of, random_groups, random_steps, saved
from gaknifur import program
from gaknifur.cases import cases
from gaknifur.telegrams import telegrams
from selenium.webdriver.common.action_chains import ActionChains

OPENED, FAULTY, NEAR = 12, 160, 68
GOOD: dict[str, Any] = {
    "cold": 1, "groups": [{"at": 5000, "spacing": 300, "balises": [TELEGRAMS[1], TELEGRAMS[3]]}],
    "steps": [{"driver": [1, "IC 704"]}, {"driver": [2, 704]}, {"driver": [3, 20000, 160000, 70, 0, 15]}, {"driver": [4, 1]}, {"driver": [5, 1]},
              {"driver": [6]}, {"driver": [10, 1]}, {"telegram": TELEGRAMS[0]}, {"drive": [20000, 30000]}, {"drive": [-100, 500]}, {"clock": 7000},
              {"flush": True}]}
ODD = (None, True, False, "", "text", -1, 0, 1, 2, 3, 5, 11, 12, 15, 16, 300, 301, 1200, 1201, 10000, -10000, -10001, 409500, 409501, 600000, 600001, 1000000,
       1000001, 99999999, 100000000, 100000001, 2**40 - 1, 2**40, 2**53, 2**70, 1.5, [], {}, [6], "IC 704", "x" * 16, "x" * 17, "\u00fc", "9", "90", "9g", "90" * 104,
       "90" * 105, "\u0031\u0032", "{1.0}", "{1e3}", "{-0}", "{01}", "{1E400}", "{NaN}")


BOUNDS: list[tuple[list[Any], list[int]]] = [
    (["cold"], [0, 2]), (["groups", 0, "at"], [1, 100_000_000]), (["groups", 0, "spacing"], [1, 1_200]), (["steps", 1, "driver", 1], [0, 99_999_999]),
    (["steps", 2, "driver", 1], [1, 409_500]), (["steps", 2, "driver", 2], [1, 600_000]), (["steps", 2, "driver", 3], [1, 300]),
    (["steps", 2, "driver", 4], [0, 10_000]), (["steps", 2, "driver", 5], [0, 15]), (["steps", 3, "driver", 1], [0, 1]), (["steps", 4, "driver", 1], [1, 4]),
    (["steps", 6, "driver", 1], [1, 4]), (["steps", 8, "drive", 0], [-10_000, 1_000_000]), (["steps", 8, "drive", 1], [0, 600_000]),
    (["steps", 10, "clock"], [0, 2**40 - 1])]
"""The limits of crates/simulator/README.md: at each place the least and the greatest number."""


def open_scenario(browser: Browser, path: Path) -> None:
    """Opens a scenario, as a user does."""
    before = browser.run("document.getElementById('tab-drive').click(); return document.getElementById('track').value")
    browser.send("scenario-file", path)
    browser.until(f"return document.getElementById('drive-error').textContent !== '' || document.getElementById('track').value !== '{before}'")


def opened(browser: Browser, _page: Path, folder: Path) -> int:
    """Scenarios with groups, opened and played by the button, leave the image of `etcs run`, and so does what is saved of them."""
    dice = random.Random(681)
    for number in range(OPENED):
        scenario = {"groups": random_groups(dice, dice.randrange(4)), "steps": random_steps(dice) + random_steps(dice)[5:8]} | ({"cold": dice.randrange(3)} if dice.random() < 0.6 else {})
        moment = 0
        for step in scenario["steps"]:
            if "clock" in step:
                moment = step["clock"] = moment + step["clock"] % 7
        path = folder / f"own{number}.json"
        path.write_text(json.dumps(scenario), encoding="utf-8")
        open_scenario(browser, path)
        assert browser.text("drive-error") == "" and browser.run("return document.getElementById('track').selectedOptions[0].text") == f"Your own: own{number}.json"
        browser.click("story")
        assert browser.text("drive-error") == "", (number, browser.text("drive-error"))
        wanted = image_of(folder, [scenario])[0]
        assert browser.image() == wanted, (number, scenario)
        assert image_of(folder, saved(browser))[0] == wanted, number
    return OPENED


def altered(dice: random.Random) -> str:
    """The text of a scenario in which something may not be as it has to be."""
    scenario = json.loads(json.dumps(GOOD))
    for _ in range(dice.choice((1, 1, 1, 2))):
        at, key = scenario, dice.choice(list(scenario))
        while isinstance(at[key], (dict, list)) and at[key] and dice.random() < 0.85:
            at = at[key]
            key = dice.choice(list(at) if isinstance(at, dict) else range(len(at)))
        kind = dice.randrange(5)
        if kind == 0 and isinstance(at, dict):
            at[dice.choice(("cold", "groups", "steps", "flush", "more", "__proto__"))] = dice.choice(ODD)
        elif kind == 1:
            del at[key]
        elif kind == 2 and isinstance(at, list):
            at.append(dice.choice(ODD))
        else:
            at[key] = dice.choice(ODD)
        if not scenario:
            break
    text = re.sub(r'"\{([^"]*)\}"', r"\1", json.dumps(scenario))
    if dice.random() < 0.1:
        text = dice.choice((text[:-1], text + ",", "\ufeff" + text, "[" + text + "]", text.replace('"groups"', '"steps": [], "groups"'), text + "\n\t"))
    return text


def near(text: str) -> list[tuple[str, bool]]:
    """Scenarios with a number at a limit, and just beyond it; and numbers that are written in other ways. Each with whether it is to be refused."""
    found = []
    for place, (least, most) in BOUNDS:
        for number in (least - 1, least, most, most + 1):
            scenario = json.loads(text)
            at = scenario
            for key in place[:-1]:
                at = at[key]
            at[place[-1]] = number
            found.append((json.dumps(scenario), not least <= number <= most))
    odd = [("7000", one) for one in ("-0", "7000.0", "7e3", "07000")]
    odd += [("[20000, 30000]", "[20000, 30000, 0]"), ("[20000, 30000]", "[20000]"), ('"flush": true', '"flush": 1'), ("[10, 1]", "[10, 1, 1]")]
    return found + [(text.replace(one, other), True) for one, other in odd]


def refuses(browser: Browser, text: str) -> str:
    """Why the page takes a text for no scenario; nothing where it takes it for one."""
    return str(browser.run("try { window.gaknifur.parts.readScenario(new TextEncoder().encode(arguments[0])); return '' } catch (error) { return error.message }", text))


def faulty(browser: Browser, _page: Path, folder: Path) -> int:
    """Scenarios in which something is altered: the page refuses those that `etcs run` refuses, and no others."""
    dice, refused, path, image = random.Random(682), 0, folder / "scenario.json", folder / "image"
    etcs("format", str(image), "16")
    empty = image.read_bytes()
    for number in range(FAULTY):
        path.write_text(altered(dice) if number else json.dumps(GOOD), encoding="utf-8")
        image.write_bytes(empty)
        _, lines = program.etcs("run", str(path), str(image))
        wanted = any(line.startswith("refused") for line in lines)
        said = refuses(browser, path.read_text(encoding="utf-8"))
        assert bool(said) == wanted, (path.read_text(encoding="utf-8"), said, lines[-1:])
        refused += wanted
    assert FAULTY / 3 < refused < FAULTY - 20, refused
    limits = near(json.dumps(GOOD))
    assert [(text, bool(refuses(browser, text))) for text, _ in limits] == limits and len(limits) >= NEAR
    path = folder / "<b>bold<b>.json"
    path.write_text(json.dumps(GOOD | {"steps": [{"dirve": [1, 1]}]}), encoding="utf-8")
    open_scenario(browser, path)
    assert browser.text("drive-error") == f"{path.name} isn't a scenario that etcs run reads: /steps/0/dirve: drive, telegram, clock, driver, or flush with true is wanted."
    assert not browser.run("return document.querySelector('main b')")
    return FAULTY + len(limits)


def edited(browser: Browser, _page: Path, folder: Path) -> int:
    """A track is edited by mouse, keys and text, and driven: the train hears the telegram there, and the image is that of `etcs run`."""
    browser.run("window.gaknifur.drive.board(0)")
    browser.click("edit", "add-group")
    assert browser.text("group-title") == "Group 2, at 1,400.00 m"
    handles = browser.driver.find_elements("css selector", "#line .handle")
    assert [one.get_attribute("role") for one in handles] == ["button", "slider", "slider"]
    box = browser.run("const b = document.getElementById('line').getBoundingClientRect(); return [b.left, b.width]")
    ActionChains(browser.driver).drag_and_drop_by_offset(handles[2], -int(0.5 * box[1]), 0).perform()
    place = browser.run("return Number(document.getElementById('group-at').value)")
    assert 500 < place < 720, place  # half of the line is 700 to 870 m
    handles[2].send_keys("\ue00e", "\ue014", "\ue012", "\ue012")  # page up; right; left, left
    assert browser.run("return Number(document.getElementById('group-at').value)") == place + 99
    browser.run("const a = document.getElementById('group-at'); a.value = '150'; a.dispatchEvent(new Event('change'))")
    assert handles[2].get_attribute("aria-valuenow") == "150"
    area = browser.driver.find_element("id", "telegram-0")
    for text, says, kind in (("NID_BG 9; 65: NID_TSR 1", "packet 65: D_TSR is missing at the end.", "bad"), ("NID_BG 9; 44: NID_XUSER 0", "The unit skips packet 44.", "warn"),
                             ("NID_BG 9, M_VERSION 17", "The unit refuses this telegram: 5 WrongVersion.", "bad"),
                             ("NID_BG 9; 65: NID_TSR 1, D_TSR 100, L_TSR 100, Q_FRONT 1, V_TSR 4", "The unit takes this telegram: 1 packet.", "good")):
        area.clear()
        area.send_keys(text)
        assert says in browser.text("telegram-0-said"), (text, browser.text("telegram-0-said"))
        assert kind in handles[2].get_attribute("class").split(), (text, handles[2].get_attribute("class"))
    wanted = telegrams.telegram("NID_BG 9; 65: NID_TSR 1, D_TSR 100, L_TSR 100, Q_FRONT 1, V_TSR 4").digits
    browser.click("add-group")
    browser.driver.switch_to.active_element.send_keys("\ue017")
    assert len(browser.driver.find_elements("css selector", "#line .handle")) == 3
    browser.click("drive-edited", *START, "full")
    assert browser.run("return document.getElementById('track').selectedOptions[0].text") == "Your own: A line of 3.7 km"
    browser.run("for (let n = 0; n < 160 && window.gaknifur.drive.course.motion.place < 16000; n++) document.getElementById('one-step').click()")
    [life] = saved(browser)
    heard = [number for number, step in enumerate(life["steps"]) if step.get("telegram") == wanted]
    assert len(heard) == 1 and sum(step["drive"][0] for step in life["steps"][:heard[0]] if "drive" in step) == 15_000
    assert "restriction 20" in browser.text("plan")
    assert browser.image() == image_of(folder, [life])[0]
    area = browser.run("window.gaknifur.drive.board(0); document.getElementById('edit').click(); document.getElementById('edit').click()")
    assert len(browser.driver.find_elements("css selector", "#line .handle")) == 2 and browser.complaints() == []
    browser.click("edit")
    return 14


def lab_test(suite: Path) -> tuple[int, str]:
    """The status of `./lab test`, and its last line but times."""
    done = subprocess.run([TOP / "lab", "test", suite], stdin=subprocess.DEVNULL, capture_output=True, text=True, check=False,
                          env=os.environ | {"ETCS": os.environ["GAKNIFUR_ETCS"], "ETCS_LAB": os.environ["GAKNIFUR_ETCS_LAB"]})
    return done.returncode, (done.stdout + done.stderr)[-600:]


def as_cases(browser: Browser, _page: Path, folder: Path) -> int:
    """What was driven, with a cut of power, passes `./lab test` as a case; with another limit it doesn't."""
    browser.click("save-case")
    suite, count = folder / "suite", 0
    suite.mkdir()
    for number, example in enumerate(EXAMPLES[:2]):
        board(browser, name_of(browser, example))
        browser.click(*START, "full")
        browser.run("for (let n = 0; n < 40; n++) document.getElementById('one-step').click()")
        browser.click("cut", "cut-now", f"up-{number % 2}", "confirm-1", "confirm-3", "level-1", "start")
        browser.run("const d = window.gaknifur.drive; d.act(10, 1); d.act(2, 704); d.act(11); d.act(7); d.act(8); d.act(9)")
        text = browser.run("return window.gaknifur.parts.caseOf(window.gaknifur.drive)").replace("driven_in_the_page", f"driven_{number}")
        path = suite / f"driven_{number}.case.yaml"
        path.write_text(text, encoding="utf-8")
        [case] = cases.read(path)
        built = [{"cold": life.scenario.cold, "steps": life.scenario.steps} for life in case.lives if life.scenario]
        assert built == [{"cold": life.get("cold", 0), "steps": life["steps"]} for life in saved(browser)], number
        count += text.count("- {note:")
    status, said = lab_test(suite)
    assert status == 0 and f"{count + 2} passed" in said, (count, said)
    first = suite / "driven_0.case.yaml"
    text = first.read_text(encoding="utf-8")
    first.write_text(re.sub(r"limit_m_per_h: (\d+), indications: \[\]", lambda found: f"limit_m_per_h: {int(found[1]) + 1}, indications: []", text, count=1), encoding="utf-8")
    status, said = lab_test(suite)
    assert status == 4 and "1 failed" in said, said
    browser.click("cut", "cut-within")
    browser.click("cut-here")
    browser.click("save-case")
    assert "no test case of this" in browser.text("drive-error")
    return count


CHECKS = {"opened": (opened, OPENED), "faulty": (faulty, FAULTY + NEAR), "edited": (edited, 14), "as_cases": (as_cases, 10)}
