#!/usr/bin/env python3
"""Compares what the examples in Rust and Ada (examples/embedding/{rust/read_image.rs,ada/read_image.adb}) print of an image with `etcs_lab examine`, `events` and
`replay` in JSON, and with the causes of the plain program: of the examples' journals, of lives on small rings, in all formats, damaged and altered.

    tests/c_unit/bound_images.py LAB PROGRAM..
"""
import sys
import tempfile
from collections import Counter
from pathlib import Path

HERE = Path(__file__).resolve().parent
sys.path[:0] = [str(HERE.parents[1] / part) for part in ("tests", "tests/model", "tests/hostile", "tests/etcs_lab", "python")]
import examined  # noqa: E402
from compared import Compared, objects, run  # noqa: E402
from gaknifur.lives import BrakeCause  # noqa: E402
from journal import SIGNS  # noqa: E402
from replay_rows import altered, damaged, examples, formats, random_lives  # noqa: E402
from why import walked  # noqa: E402

EVERY, LEAST = 47, 150  # so many altered bytes are passed over; so many images at least


def images():
    for made in (examples, formats, damaged, random_lives):
        yield from made()
    for number, (_, _, name, data) in enumerate(altered()):
        if number % EVERY == 0:
            yield name, data


def asked(lab, *words):
    """The objects that the laboratory prints."""
    return objects(run(lab, words)[0])


def slot_lines(said, data):
    """What each slot holds, and the head of each block from the oldest that the ring may have. The newest block is that of the plain reader: its
    records may be damaged."""
    image, held = said["image"], {slot["slot"]: slot for slot in said["slots"]}
    blocks = sorted((slot for slot in held.values() if slot["state"] == "block"), key=lambda slot: slot["block"])
    newest = max(examined.valid_in(examined.parts_of(data, image["whole_slots"]), image["slots"]), default=0)
    yield f"{image['sectors']} sectors, {image['slots']} slots, newest block {newest}"
    for number in range(image["whole_slots"]):
        slot = held.get(number, {"state": "empty"})
        is_sound = slot["state"] == "empty" or slot["state"] == "block" and slot["gate_is_own"]
        yield f"slot {number}: {slot['state']} {slot.get('block', 0)}{'' if is_sound else ' not sound'}"
    for slot in blocks:
        if slot["block"] > newest - image["slots"]:
            yield f"block {slot['block']} format {slot['format']} events {slot['first_event']}..{slot['last_event']} lives {slot['life']}"


def record_lines(record, data, reasons):
    """A record with its payload, which is in the image after the record's other fields, and why it commands a brake."""
    at, indications = record["byte"], sum(1 << SIGNS.index(name) for name in record["indications"])
    first = at + (24 if record["limit_m_per_h"] is None else 48)
    payload = data[first:first + data[at + 3]].hex()
    level = "-" if record["level"] is None else record["level"]
    yield (f"event {record['event']} block {record['block']} life {record['life']} at {record['time_ms']} ms: {record['kind']} {payload}: "
           f"mode {record['mode']} level {level} brake {record['brake']} indications {indications}")
    if record["limit_m_per_h"] is not None:
        yield f"  front {record['place_cm']} cm, uncertainty {record['uncertainty_cm']} cm, limit {record['limit_m_per_h']} m/h"
    if record["brake"] != "none":
        why = reasons.get(record["event"])
        yield from reason_lines(why) if why else ["  NOT_REPLAYED"]


def reason_lines(why):
    yield (f"why {why['event']}: brake {why['brake']}, limit {why['limit_m_per_h']} m/h by {why['limit_cause']}, trip {why['trip_cause'] or 'unknown'}")
    for cause in BrakeCause:
        since = why[cause.name.lower()]
        if since is not None:
            yield f"  {cause.name.lower()} since {since}"


def replay_line(line):
    kind = line["replay"]
    if kind == "unreadable":
        return "  IMAGE_DAMAGED"
    if kind == "head_differs":
        return f"head of block {line['block']}: head_differs in {line['field']}"
    if kind == "record_differs":
        return f"life {line['life']} events {line['event']}..{line['event']}: record_differs in {line['field']}"
    return f"life {line['life']} events {line['first_event']}..{line['last_event']}: {line.get('reason', kind)}"


def wanted_of(lab, image, data):
    """The lines of an image, and the exit status."""
    said, = asked(lab, "examine", "--json", image)
    if said["image"]["slots"] is None:
        return ["the unit answered IMAGE_NOT_FORMATTED"], 1
    lines = list(slot_lines(said, data))
    if said["image"]["sectors"] != 1 + 6 * said["image"]["slots"]:
        return [*lines, "the unit answered IMAGE_DAMAGED"], 1
    reasons = {members["event"]: members for *_, members in walked(data) or ()}
    for line in asked(lab, "events", image)[1:-1]:
        lines += ["  IMAGE_DAMAGED"] if "unreadable" in line else record_lines(line, data, reasons)
    return [*lines, *(replay_line(line) for line in asked(lab, "replay", "--json", image)[:-1])], 0


def first_difference(found, wanted):
    """The first line that differs."""
    for number in range(max(len(found), len(wanted))):
        one, other = (lines[number] if number < len(lines) else None for lines in (found, wanted))
        if one != other:
            return f"line {number + 1}: {one}\n--- wanted\n{other}"
    return None


def main(words):
    lab, *programs = words
    compared, met, count = Compared(), Counter(), 0
    with tempfile.TemporaryDirectory() as folder:
        image = Path(folder) / "image"
        for name, data in images():
            image.write_bytes(data)
            lines, status = wanted_of(lab, image, data)
            count += 1
            met.update(line.split()[0] for line in lines)
            for program in programs:
                text, said, ended = run(program, [image])
                found = first_difference(text.splitlines(), lines)
                compared.unless(found is None and ended == status, f"{name}, {Path(program).name}: status {ended}, wanted {status}; {found}\n{said}")
    compared.unless(count >= LEAST and len(programs) > 1, f"too few: {LEAST} images and two programs are wanted")
    for word in ("slot", "block", "event", "front", "why", "life", "head", "NOT_REPLAYED", "IMAGE_DAMAGED", "the"):
        compared.unless(met[word] > 2, f"few lines begin with {word}")
    return compared.end(f"images in {len(programs)} languages: {count} images, {sum(met.values())} lines each")


if __name__ == "__main__":
    sys.exit(main(sys.argv[1:]))
