"""Journal images, whole and altered: the page shows what `etcs_lab` prints and what the package finds, and of one altered byte what the plain replay says."""
import os
import random
import sys
from pathlib import Path
from typing import Any

from asking import altered, bases, compare_replay, compare_slots, compare_why, lab
from braked import compare_package
from briefs import compare_brief
from browsing import Browser

sys.path.append(str(Path(__file__).resolve().parents[1] / "lab"))
from verdict_rows import altered_images, wanted  # noqa: E402

ALTERED = 60 * int(os.environ.get("MORE", "1"))
BYTES = 40
"""How many images are altered at random, and how many by one byte of a record or a head."""


def alterations(browser: Browser, _page: Path, folder: Path) -> int:
    """Slots, digest, lives, the causes of interventions, "in brief", brake commands, speeds and the verdict."""
    dice, count, path = random.Random(21), 0, folder / "image"
    found: dict[str, int] = {"whole": 0, "not whole": 0, "differs": 0, "an intervention": 0, "a trip": 0}
    made, released = bases(folder, dice), set[str]()
    tried: list[tuple[bytes, str]] = [(data, "") for data in (*made, *(altered(dice.choice(made), dice) for _ in range(ALTERED)))]
    tried += [(data, wanted(data)[0]) for data in altered_images(BYTES)]
    for number, (data, sentence) in enumerate(tried):
        at = f"image {number}"
        path.write_bytes(data)
        findings: dict[str, Any] = browser.ask(path)
        status, lines = lab("examine", "--json", str(path))
        if not findings["facts"]:
            assert status == 1, (at, status)
            continue
        count += compare_slots(findings, lines[0], at)
        found["whole" if lines[0]["whole"] else "not whole"] += 1
        if findings["status"] != 38 or not findings["count"]:
            continue
        count += compare_replay(findings, path, at) + compare_package(browser, findings, path, at)
        assert sentence in "; ".join(findings["verdict"]), (at, findings["verdict"], sentence)
        found["differs"] += any(life["verdict"] in (2, 3) for life in findings["lives"])
        has_one, has_trip, says = compare_brief(browser, path, at)
        released.add(says)
        found["an intervention"] += has_one
        found["a trip"] += has_trip
        causes = dict(findings["causes"])
        steps = {step["index"] for one in findings["interventions"] for step in one["steps"]}
        assert steps | set(findings["trips"]) <= set(causes), at
        for index, event in list(zip(causes, findings["events"]))[:3]:
            count += compare_why(index, causes[index], event, path)
    assert min(found.values()) >= 8 and len(released) >= 3, (found, released)
    return count


CHECKS = {"alterations": (alterations, 500)}
