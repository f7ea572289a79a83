#!/usr/bin/env python3
"""Telegrams in JSON: `etcs_lab decode --json` compared with the plain reader.

    tests/etcs_lab/telegram_rows.py PROGRAM [WORD..]    by this program, with these words before its own

The telegrams are those of the scenarios and rows that come with the product, and random ones. What bytes carry is what tests/model/decoded.py
finds.
"""
import random
import sys
from concurrent.futures import ThreadPoolExecutor
from pathlib import Path

TOP = Path(__file__).resolve().parents[2]
sys.path[:0] = [str(TOP / "tests" / part) for part in ("", "model", "etcs_lab", "hostile", "rows")]

import decoded
import event_lines
import images
from compared import Compared, loaded, run, status_of_full
from named import written
from random_inputs import headed, mutated

RANDOM, SEED = 10_000, 2026
GOOD = written("NID_BG 2, N_TOTAL 2; 12: V_MAIN 24, V_LOA 0, T_LOA 1023, N_ITER 0, L_ENDSECTION 300, Q_SECTIONTIMER 0, Q_ENDTIMER 0, "
               "Q_DANGERPOINT 0, Q_OVERLAP 0; 27: D_STATIC 0, V_STATIC 24, Q_FRONT 1, N_ITER 0, N_ITER 0").upper()
LEAST = {"telegrams": 2_500, "refused": 2_500}


def decoded_by_reader(data):
    """The object that bytes have in the events of an image, by the plain reader."""
    value = dict(event_lines.telegram_members(data))
    if "refused" in value:
        return {"refused": dict(value["refused"])}
    return value | {"header": dict(value["header"]), "packets": list(map(dict, value["packets"]))}


def one(program, data):
    """What the program makes of bytes, and what is wanted."""
    wanted = decoded_by_reader(data)
    printed, said, status = run(program, ["decode", "--json", data.hex()])
    return (loaded(printed), printed.count("\n"), said, status), (wanted, 1, "", int("refused" in wanted))


def compare_telegrams(program, compared):
    numbers = random.Random(SEED)
    all_data = images.known_telegrams() + [(headed if numbers.randrange(2) else mutated)(numbers) for _ in range(RANDOM)]
    with ThreadPoolExecutor(4) as pool:
        refused = 0
        for data, (found, wanted) in zip(all_data, pool.map(lambda data: one(program, data), all_data)):
            refused += wanted[-1]
            compared.same(data.hex(), found, wanted)
    return len(all_data) - refused, refused


def compare_words(program, compared):
    for words in (["decode"], ["decode", "--jso", "90"], ["decode", "90", "90"]):
        printed, said, status = run(program, words)
        compared.same(f"words {words}", (printed, said.startswith("error: "), status), ("", True, 2))
    compared.same("no digits", run(program, ["decode", "--json", "9"]), ('{"refused":{"name":"hex"}}\n', "", 1))
    compared.same("lines", run(program, ["decode", GOOD]), (decoded.answer(bytes.fromhex(GOOD)), "", 0))
    compared.same("a full device", status_of_full(program, ["decode", "--json", GOOD]), 1)


def main(program):
    compared = Compared()
    carried, refused = compare_telegrams(program, compared)
    compare_words(program, compared)
    print(f"telegrams in JSON: {carried} decoded, {refused} refused, {compared.count} comparisons, {compared.differ} differ")
    return 0 if compared.differ == 0 and carried >= LEAST["telegrams"] and refused >= LEAST["refused"] else 1


if __name__ == "__main__":
    sys.exit(main(sys.argv[1:]))
