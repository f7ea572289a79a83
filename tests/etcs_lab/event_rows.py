#!/usr/bin/env python3
"""The lines of `etcs_lab events`, read back as JSON and compared field by field with what the plain readers find in the image.

    tests/etcs_lab/event_rows.py PROGRAM [RINGS [SEED]]     on a built program
"""
import json
import sys
import tempfile
from pathlib import Path

sys.path[:0] = [str(Path(__file__).resolve().parents[1] / part) for part in ("", "model")]

from blocks import block, data_of, entry, image_of, image_with, patched  # noqa: E402
from compared import Compared, run  # noqa: E402
from event_lines import Refused, image_lines  # noqa: E402
from images import MARKUP, cut_images, damaged_images, example_images, random_images, worked_images  # noqa: E402
from packet_lists import END, HEADER, INFILL, NAMELESS, REVOCATION, STOP  # noqa: E402
from track_packets import data_of as data_of_bits  # noqa: E402

RINGS, SEED = 800, 41
LEAST_LINES, LEAST_IMAGES = 70_000, 2_100
SOURCES = {"journal", "after_gap", "replaced", "unwritten", "misplaced", "damaged"}
LEAST_DEMANDED, LEAST_UNKNOWN, LEAST_KINDS = 2_000, 500, 7
DEMANDED = {"trip", "service_brake", "not_obeyed", "unreadable"}
# Each image is listed with and without the other blocks.
EACH = 5


def all_images(rings, seed):
    yield from worked_images()
    yield from damaged_images()
    yield from cut_images()
    yield from random_images(rings, seed)
    for name, image, damaged in example_images():
        yield name, image
        for k, other in enumerate(damaged):
            if k % EACH == 0:
                yield f"{name}, damaged {k}", other


def wanted(image, all_blocks):
    """Status and lines; none of a refusal."""
    try:
        lines, whole = image_lines(image, all_blocks)
    except Refused:
        return 1, []
    return (0 if whole else 4), lines


def as_json(value):
    """The text of a value, of which pairs are the members of an object: each name, and the order, counts."""
    def objects(one):
        if not isinstance(one, (list, tuple)):
            return one
        return {name: objects(member) for name, member in one} if one and isinstance(one[0], tuple) else list(map(objects, one))

    return json.dumps(objects(value), separators=(",", ":"))


class EventRows(Compared):
    """The program, an image for it, and what was met in its lines."""

    def __init__(self, program, path):
        super().__init__()
        self.program, self.path = program, path
        self.images = self.lines = self.demanded = self.unknown = 0
        self.seen, self.demands = set(), set()

    def run(self, image, all_blocks=False):
        """Status, and the lines of an image, which stays as it is."""
        self.path.write_bytes(image)
        self.path.chmod(0o444)
        text, _, status = run(self.program, ["events", *["--all"] * all_blocks, self.path])
        self.unless(self.path.read_bytes() == image, "the image was written")
        self.path.chmod(0o644)
        self.unless(text.endswith("\n") or not text, f"the last line has no end: {text[-200:]}")
        return status, text.splitlines()

    def compare(self, name, image, all_blocks):
        (status, found), (want_status, want) = self.run(image, all_blocks), wanted(image, all_blocks)
        self.images += 1
        self.same(f"{name}, status and number of lines", (status, len(found)), (want_status, len(want)))
        for one, other in zip(found, want):
            self.lines += 1
            self.same(name, one, as_json(other))
            self.seen |= {(key, value) for key, value in other if key in ("source", "action") and value}
            self.note_demands(dict(other).get("demands", ()))

    def note_demands(self, demands):
        if demands is None:
            self.unknown += 1
            return
        self.demanded += len(demands)
        self.demands |= {(dict(one)["demanded"], dict(one)["only_in_direction"]) for one in demands}

    def judged(self):
        kinds, actions = ({value for key, value in self.seen if key == name} for name in ("source", "action"))
        few = self.lines < LEAST_LINES or self.images < 2 * LEAST_IMAGES or kinds != SOURCES or len(actions) < 11
        few = few or self.demanded < LEAST_DEMANDED or self.unknown < LEAST_UNKNOWN or {what for what, _ in self.demands} != DEMANDED or len(self.demands) < LEAST_KINDS
        self.unless(not few, f"too little was tried: sources {sorted(kinds)}, {len(actions)} actions, demands {self.demands}")
        return self.end(f"events: {self.count} comparisons, {self.lines} lines of {self.images} listings as text; "
                        f"{self.demanded} demands of a guard, {self.unknown} telegrams without the record before")


def by_hand_rows(rows):
    """By hand: a block in slot 1 of two, whose third record has a mode that is none, and the same block, whole, in slot 0. Slot 1 begins after
    seven sectors of 512 bytes, its records two sectors further on, with 256 bytes each."""
    whole = data_of(block(3, 1, 8, 1, [entry(k, ("clock", k), moment=k) for k in range(8)]))
    image = image_of(2, [(1, patched(whole, 2 * 512 + 2 * 256 + 1, b"\5")), (0, whole)])
    copies = [("misplaced", 1, 1_536 + 256 * k, k, 1) for k in range(8)]
    others = [("damaged", 1, 4_608 + 256 * k, k, None) for k in range(8) if k != 2]
    for all_blocks, wanted in ((True, [*copies, "unreadable", *others]), (False, ["unreadable"])):
        status, lines = rows.run(image, all_blocks)
        records = [json.loads(line) for line in lines][1:-1]
        found = [(one["source"], one["block"], one["byte"], one["event"], one["life"]) if "event" in one else next(iter(one)) for one in records]
        rows.same("a damaged and a misplaced block, by hand", (found, status), (wanted, 4))


def ends(rows, name, event, wanted):
    """Compares the end of the line of an event."""
    line = rows.run(image_with(event))[1][1]
    rows.same(f"{name}, by hand", line[-len(wanted):], wanted)


def markup_row(rows):
    """The bytes of the line itself, with quotes and backslashes before them."""
    for text in MARKUP:
        escaped = text.decode().replace("\\", "\\\\").replace('"', '\\"')
        ends(rows, f"identity {text}", ("driver", b"\1" + text), f',"action":"enter_identity","identity":"{escaped}"}}')


def sent(*packets):
    """The event of a telegram of group 1 2 with these packets."""
    return "telegram", data_of_bits("".join((HEADER, *packets, END)).replace(" ", ""))


def body_row(rows):
    """By hand: packets 44, which is skipped, with so many bits of 101010101 after its head, as hexadecimal digits padded with zero bits."""
    for digits, count in (("", 0), ("80", 1), ("A8", 5), ("AA", 8), ("AA80", 9)):
        ends(rows, f"a body of {count} bits", sent("00101100 10", f"{23 + count:013b}", "101010101"[:count]),
             f'"packets":[{{"packet":44,"fields":[["NID_PACKET",44],["Q_DIR",2],["L_PACKET",{23 + count}]],'
             f'"skipped_bits":{count},"body":"{digits}"}}],"bits":{81 + count}}},"unused":[{{"packet":44,'
             f'"name":"Data used by applications outside the ERTMS/ETCS system","bit":50,"bits":{23 + count},"why":"not_known"}}],"demands":null}}')


def unused_row(rows):
    """By hand, after SUBSET-026, 7.4.2 and 8.4.2: packets that no mode uses in any direction, and why."""
    spare = "01000010 11 0000000011111 00000001"  # 66 with a spare Q_DIR
    for what, packets, wanted in (
        ("none", (REVOCATION,), []),
        ("one that is skipped", (STOP, REVOCATION), [(137, "Stop if in Staff Responsible", 50, 24, "not_known")]),
        ("after infill", (REVOCATION, INFILL, REVOCATION, STOP), [
            (136, "Infill location reference", 81, 38, "infill"), (66, "Temporary Speed Restriction Revocation", 119, 31, "infill"),
            (137, "Stop if in Staff Responsible", 150, 24, "infill")]),
        ("without a name", (NAMELESS, STOP), [(99, None, 50, 23, "not_known"), (137, "Stop if in Staff Responsible", 73, 24, "not_known")]),
        ("refused", (STOP, spare), [(137, "Stop if in Staff Responsible", 50, 24, "refused"), (66, "Temporary Speed Restriction Revocation", 74, 31, "refused")]),
    ):
        line = json.loads(rows.run(image_with(sent(*packets)))[1][1])
        rows.same(f"unused packets by hand, {what}", [tuple(one.values()) for one in line["unused"]], wanted)


def demands_row(rows):
    """By hand, by the table of crates/track_guard/README.md (SUBSET-026, 4.6.3 and 3.11.4): what a guard demands by the telegrams of a ring of
    five slots. Block 3 is damaged in its third record, and slot 0 has a copy of block 2. The mode and the override of a record are those after it."""
    fs, sr, sb = 0, 2, 6
    stop, stop_nominal = ("10001001" + q_dir + "0000000011000" "0" for q_dir in ("10", "01"))  # 137: NID_PACKET, Q_DIR, L_PACKET 24, Q_SRSTOP 0
    axles, axles_reverse = ("00110011" + q_dir + "0000000011010" "000" for q_dir in ("10", "00"))  # 51: L_PACKET 26
    trip = ("trip", None, "SR", "stop_in_staff_responsible", 137, "4.6.3", "sure")
    skips = ("not_obeyed", None, "SR", "axle_load_speeds", 51, "3.11.4", "fairly_sure")
    skips_reverse = ("not_obeyed", "reverse", "FS", "axle_load_speeds", 51, "3.11.4", "fairly_sure")
    events = [("powerup", 0), sent(stop), ("clock", 1), sent(stop), ("clock", 2), sent(stop, axles), ("clock", 3), sent(stop_nominal, axles_reverse)]
    after = [(sb, 0), (sb, 0), (sr, 0), (sr, 0), (sr, 16), (sr, 16), (fs, 0), (sr, 0)]  # 16 is the bit of the override
    first = [entry(k, event, mode=mode, ind=ind) for k, (event, (mode, ind)) in enumerate(zip(events, after))]

    def later(number, start):
        """A block of two telegrams that are heard in Staff Responsible, and six moments."""
        heard = [sent(stop), sent(stop), *(("clock", k) for k in range(6))]
        return data_of(block(3, number, start + 8, 1, [entry(start + k, event, mode=sr) for k, event in enumerate(heard)]))

    one, damaged = data_of(block(3, 1, 8, 1, first)), patched(later(3, 16), 2 * 512 + 2 * 256 + 1, b"\5")
    ring = image_of(5, [(1, one), (2, later(2, 8)), (3, damaged), (4, later(4, 24)), (0, later(2, 8))])
    known = [(1, []), (3, [trip]), (5, [skips]), (7, [skips_reverse]), (8, [trip]), (9, [trip])]
    for what, image, all_blocks, wanted in (
        ("the journal", ring, False, [*known, (24, None), (25, [trip])]),
        ("all blocks", ring, True, [(8, None), (9, [trip]), *known, (16, None), (17, None), (24, None), (25, [trip])]),
        ("events that don't follow", image_of(3, [(1, one), (2, later(2, 10))]), False, [*known[:4], (10, None), (11, [trip])]),
    ):
        lines = [line for line in map(json.loads, rows.run(image, all_blocks)[1]) if "telegram" in line]
        found = [(line["event"], line["demands"] and [tuple(one.values()) for one in line["demands"]]) for line in lines]
        rows.same(f"demands by hand, {what}", found, wanted)


def main(words):
    program, rings, seed = words[0], *(int(word) for word in words[1:3]), *(RINGS, SEED)[len(words) - 1:]
    with tempfile.TemporaryDirectory() as folder:
        rows = EventRows(program, Path(folder) / "image")
        for name, image in all_images(rings, seed):
            for all_blocks in (False, True):
                rows.compare(f"{name}, {'all' if all_blocks else 'journal'}", image, all_blocks)
        for by_hand in (markup_row, by_hand_rows, body_row, unused_row, demands_row):
            by_hand(rows)
        return rows.judged()


if __name__ == "__main__":
    sys.exit(main(sys.argv[1:]))
