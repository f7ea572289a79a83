#!/usr/bin/env python3
"""Refuses the program's requests for memory, each in turn, until a run gets no refusal. A refused run says so, by one line in
place of what it had no memory for, and ends with status 1; what it printed before is what the undisturbed run prints, and the image
holds every event that it printed. A scenario that there was no memory to read changes no image. A series without a refusal fails: each
run allocates memory at least for its arguments, so there the refusing doesn't work.

    tests/hostile/refused_memory.py [FILE ..]    over the rows below, and over these scenarios
"""
import json
import shutil
import sys
from pathlib import Path

from built import AUTHORITY, FULL_SUPERVISION, RESTRICTION, STAFF_RESPONSIBLE, built, formatted, run_program, room
from compared import Compared

# What a run without memory says: words and decoding, a scenario, a step, a listing. An opening takes none.
UNREAD = "refused 5 NoMemory"
SAYS = ("refused memory", UNREAD, "stopped 12 NoMemory", "refused 34 NoMemory")
MOST = 1_000_000


def is_refusal(status, text, undisturbed):
    """Its last line is a refusal, and the lines before it are the first of the undisturbed run's."""
    lines = text.splitlines()
    return (status == 1 and bool(lines) and lines[-1] in SAYS
            and lines[:-1] == undisturbed.splitlines()[:len(lines) - 1])


def found(image, text):
    """Each event that was printed stands in the journal, with its number, mode, brake and indications."""
    status, listing = run_program(["journal", image])
    listed = {fields[3]: fields for fields in (line.split() for line in listing.splitlines())}
    for line in text.splitlines():
        fields = line.split()
        if fields[0] == "event":
            number, mode, level, brake, indications = fields[1], fields[3], fields[5], fields[7], fields[11]
            record = listed.get(number)
            if record is None or record[5:9] != [mode, level, brake, indications]:
                return False
    return status == 0


def series(name, words, folder, refuse, failures, image=None):
    """Every refusal of one run. The image is made anew for each."""
    said, kept = folder / "said", folder / "kept"
    if image:
        shutil.copy(image, kept)
    undisturbed = run_program(words)
    failures.unless(not set(SAYS) & set(undisturbed[1].splitlines()), f"{name}: undisturbed {undisturbed[1][-200:]!r}")
    count, unread = 0, 0
    for at in range(1, MOST):
        said.unlink(missing_ok=True)
        if image:
            shutil.copy(kept, image)
        status, text = run_program(words, refuse, REFUSE_AT=str(at), REFUSE_SAYS=str(said))
        if not said.exists():
            failures.unless((status, text) == undisturbed, f"{name}: with all memory {status} {text!r}")
            break
        count += 1
        failures.unless(is_refusal(status, text, undisturbed[1]), f"{name}, request {at}: {status} {text[-200:]!r}")
        if text == f"{UNREAD}\n":
            unread += 1
            failures.unless(image.read_bytes() == kept.read_bytes(), f"{name}, request {at}: the image is changed by a scenario that wasn't read")
        if image:
            failures.unless(found(image, text), f"{name}, request {at}: what was printed isn't in the journal")
            again = run_program(words)
            failures.unless(again[0] == undisturbed[0], f"{name}, request {at}: the next run ends with {again[0]}")
    failures.unless(count, f"{name}: no request was refused")
    failures.unless(unread or words[0] != "run", f"{name}: no request of the reader was refused")
    print(f"{name}: {count} requests refused, {unread} of them as the scenario was read")
    return count


def main(paths):
    failures, counts = Compared(), []
    with room() as name:
        folder = Path(name)
        refuse = built("refuse")
        for data in (RESTRICTION, AUTHORITY):
            counts.append(series(f"decode {data}", ["decode", data], folder, refuse, failures))
        image = folder / "image"
        formatted(image, 4)
        counts.append(series("format", ["format", image, 4], folder, refuse, failures))
        rows = [("staff responsible", STAFF_RESPONSIBLE), ("full supervision", FULL_SUPERVISION)]
        rows += [(path, json.loads(Path(path).read_text())) for path in paths]
        for row, scenario in rows:
            (folder / "scenario").write_text(json.dumps(scenario))
            formatted(image, 4)
            run_program(["run", folder / "scenario", image])
            counts.append(series(f"run, {row}", ["run", folder / "scenario", image], folder, refuse, failures, image))
            counts.append(series(f"journal, {row}", ["journal", image], folder, refuse, failures))
    return failures.end(f"memory refused: {sum(counts)} requests in {len(counts)} runs")


if __name__ == "__main__":
    sys.exit(main(sys.argv[1:]))
