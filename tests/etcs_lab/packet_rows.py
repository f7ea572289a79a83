#!/usr/bin/env python3
"""The packets of telegrams by name: `etcs_lab packets`, in lines and as JSON, compared with the plain programs.

    tests/etcs_lab/packet_rows.py PROGRAM [WORD..]    by this program, with these words before its own

The telegrams are those of packet_lists.py, those that come with the product, and random ones of a track. Where packets stand and which fields they
have is what tests/model/track_packets.py finds, names are those of docs/reference/packets.md, and why no mode uses one is what tests/etcs_lab/event_lines.py says.
Some answers are by hand.
"""
import random
import sys
from pathlib import Path

TOP = Path(__file__).resolve().parents[2]
sys.path[:0] = [str(TOP / "tests" / part) for part in ("", "model", "etcs_lab", "hostile", "rows")]

import event_lines
import images
import packet_lists
from compared import Compared, loaded, run, status_of_full
from random_inputs import headed
from test_track import telegram as installed
from track_packets import fields_of, names, packets_in_order

RANDOM, SEED = 400, 66
ENDS = {"end": "end_mark", "no end": "no_end", "cut": "cut_off", "length": "wrong_length", "many": "too_many"}
END_LINES = {"end_mark": "end mark at", "no_end": "no end mark at", "cut_off": "beyond the last bit goes what is at",
             "wrong_length": "an L_PACKET below 23 has what is at", "too_many": "no further packet is listed from"}
FAULTS = {"cut": "cut_off", "many": "too_many", "long": "too_long"}
FAULT_LINES = {"cut_off": "a field goes beyond its last bit", "too_many": "a counter announces too many elements",
               "too_long": "bits are left after its last field"}
WHY_LINES = {"not_known": ", not used: the kernel doesn't know it", "infill": ", not used: it is a packet 136, or comes after one",
             "refused": ", not used: the telegram is refused", None: ""}
LEAST = {"telegrams": 500, "packets": 500, "faults": 50, "unused": 400}


def packet_of(data, never, number, start, length):
    """A packet as JSON says it."""
    fields, what = fields_of(data, number, start, length)
    one = {"packet": number, "name": names().get(number), "bit": start, "bits": length, "why": never.get(start)}
    if fields is not None:
        return one | {"fields": [[name, value] for name, _, _, value in fields], "rest_bits": what[1], "fault": None}
    if what[0] == "refused":
        fault = {"name": what[1], "variable": None, "bit": None}
    else:
        fault = {"name": FAULTS[what[0]], "variable": what[1], "bit": what[2]}
    return one | {"fields": None, "rest_bits": None, "fault": fault}


def wanted_of(data):
    """What JSON says about a telegram."""
    packets, (end, at) = packets_in_order(data)
    never = {dict(one)["bit"]: dict(one)["why"] for one in event_lines.unused_packets(data)}
    return {"packets": [packet_of(data, never, number, start, length) for number, _, start, length in packets], "end": ENDS[end], "end_bit": at}


def lines_of(wanted):
    """The same in lines."""
    for one in wanted["packets"]:
        yield f"packet {one['packet']} {one['name'] or 'without a name'} at {one['bit']}, {one['bits']} bits{WHY_LINES[one['why']]}"
        if one["fault"] is None:
            rest = f" and {one['rest_bits']} bits" if one["rest_bits"] else ""
            yield "  " + " ".join(f"{name}={value}" for name, value in one["fields"]) + rest
        else:
            fault = one["fault"]
            says = FAULT_LINES.get(fault["name"], f"the kernel refuses it, {fault['name']}")
            where = (f", {fault['variable']}" if fault["variable"] else "") + (f" at its bit {fault['bit']}" if fault["bit"] is not None else "")
            yield f"  its fields can't be decoded: {says}{where}"
    yield f"{END_LINES[wanted['end']]} {wanted['end_bit']}"


def status_of(wanted):
    return 4 if wanted["end"] != "end_mark" or any(one["fault"] for one in wanted["packets"]) else 0


def compare(program, compared, data, seen):
    wanted = wanted_of(data)
    printed, said, status = run(program, ["packets", "--json", data.hex()])
    compared.same(f"{data.hex()} as JSON", (loaded(printed), printed.count("\n"), said, status), (wanted, 1, "", status_of(wanted)))
    lines = "".join(f"{line}\n" for line in lines_of(wanted))
    compared.same(f"{data.hex()} in lines", run(program, ["packets", data.hex()]), (lines, "", status_of(wanted)))
    seen["telegrams"] += 1
    seen["packets"] += len(wanted["packets"])
    seen["faults"] += sum(one["fault"] is not None for one in wanted["packets"])
    seen["unused"] += sum(one["why"] is not None for one in wanted["packets"])


def compare_by_hand(program, compared):
    """Whole answers by hand."""
    by_name = dict(packet_lists.telegrams())
    data = by_name["after infill"].hex()
    lines = """packet 66 Temporary Speed Restriction Revocation at 50, 31 bits
  NID_PACKET=66 Q_DIR=1 L_PACKET=31 NID_TSR=1
packet 136 Infill location reference at 81, 38 bits, not used: it is a packet 136, or comes after one
  NID_PACKET=136 Q_DIR=2 L_PACKET=38 Q_NEWCOUNTRY=0 NID_BG=3
packet 66 Temporary Speed Restriction Revocation at 119, 31 bits, not used: it is a packet 136, or comes after one
  NID_PACKET=66 Q_DIR=1 L_PACKET=31 NID_TSR=1
packet 137 Stop if in Staff Responsible at 150, 24 bits, not used: it is a packet 136, or comes after one
  NID_PACKET=137 Q_DIR=2 L_PACKET=24 Q_SRSTOP=0
end mark at 174
"""
    compared.same("after infill, by hand", run(program, ["packets", data]), (lines, "", 0))
    data = by_name["a spare Q_DIR"].hex()
    lines = """packet 137 Stop if in Staff Responsible at 50, 24 bits, not used: the telegram is refused
  NID_PACKET=137 Q_DIR=2 L_PACKET=24 Q_SRSTOP=0
packet 66 Temporary Speed Restriction Revocation at 74, 31 bits, not used: the telegram is refused
  its fields can't be decoded: the kernel refuses it, Spare
end mark at 105
"""
    compared.same("a spare Q_DIR, by hand", run(program, ["packets", data]), (lines, "", 4))
    data = by_name["bits after the last field"].hex()
    text = ('{"packets":[{"packet":44,"name":"Data used by applications outside the ERTMS/ETCS system","bit":50,"bits":42,"why":"not_known",'
            '"fields":[["NID_PACKET",44],["Q_DIR",2],["L_PACKET",42],["NID_XUSER",1]],"rest_bits":10,"fault":null}],"end":"end_mark","end_bit":92}\n')
    compared.same("bits after the last field, by hand", run(program, ["packets", "--json", data]), (text, "", 0))


def compare_words(program, compared):
    good = dict(packet_lists.telegrams())["none"].hex()
    for words in (["packets"], ["packets", good, good], ["packets", "--all", good], ["packets", "--slots", "6", good]):
        printed, said, status = run(program, words)
        compared.same(f"words {words}", (printed, said.startswith("error: "), status), ("", True, 2))
    compared.same("no digits", run(program, ["packets", "9"]), ("", "etcs_lab: HEX: is not hexadecimal (two digits for each byte)\n", 1))
    for words in (["packets", good], ["packets", "--json", good]):
        compared.same(f"a full device {words}", status_of_full(program, words), 1)


def main(program):
    compared, seen = Compared(), dict.fromkeys(LEAST, 0)
    numbers = random.Random(SEED)
    random_ones = [installed(numbers) if at % 2 else headed(numbers) for at in range(RANDOM)]
    for data in [*dict(packet_lists.telegrams()).values(), *images.known_telegrams(), *random_ones]:
        compare(program, compared, data, seen)
    compare_by_hand(program, compared)
    compare_words(program, compared)
    few = {name: count for name, count in seen.items() if count < LEAST[name]}
    compared.unless(not few, f"too little was tried: {few}")
    return compared.end(f"packets: {seen['packets']} packets of {seen['telegrams']} telegrams by name, {seen['unused']} of them used in no mode, "
                        f"{seen['faults']} with a fault: {compared.count} comparisons")


if __name__ == "__main__":
    sys.exit(main(sys.argv[1:]))
