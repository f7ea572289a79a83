#!/usr/bin/env python3
"""Search random lives with hypothesis: all outputs about each life agree, and no brake is released too early.

    tests/lab/search.py ETCS ETCS_LAB [EXAMPLES]

One or two lives are played on an image. The property: the image is whole, the replay agrees, each output is that of its record;
before the driver has revalidated, in Trip, and as long as a trip is outstanding the emergency brake is commanded; and a brake is
commanded just where `etcs_lab why` reports a cause of it. The control: the same search, over the same lives, has to find each of
some untruths that are planted in what the programs reported.
"""
import json
import os
import sys
import tempfile
from pathlib import Path

from hypothesis import HealthCheck, Phase, given, settings, target
from hypothesis import strategies as st

TOP = Path(__file__).resolve().parents[2]
sys.path.insert(0, str(TOP / "python"))
from gaknifur import etcs_run, program  # noqa: E402
from gaknifur.cases import case_runner  # noqa: E402
from gaknifur.journal import causes  # noqa: E402
from gaknifur.journal.reading import read  # noqa: E402
from gaknifur.search import random_lives  # noqa: E402

EXAMPLES, LEAST_TRIPS, LEAST_RECORDS = 80, 3, 1_200
EMERGENCY = ("not_revalidated", "in_trip", "in_system_failure", "owes_trip", "far_too_fast", "rolled_too_far")
SLOTS = 64

AUTHORITIES = [random_lives.digits(f"NID_BG 2; 12: V_MAIN {speed}, L_ENDSECTION {way}; 21: D_GRADIENT 0, Q_GDIR 1, G_A 0; "
                                   "27: D_STATIC 0, V_STATIC 24, Q_FRONT 1") for way in (50, 100, 200, 1_000) for speed in (24, 8)]
OTHERS = [random_lives.digits(text) for text in (
    "NID_BG 7", "NID_BG 8, Q_LINK 0, N_TOTAL 1", "NID_BG 9; 41: D_LEVELTR 32767, M_LEVELTR 0, L_ACKLEVELTR 0",
    "NID_BG 10; 65: NID_TSR 1, D_TSR 0, L_TSR 300, Q_FRONT 1, V_TSR 4", "NID_BG 11; 12: V_MAIN 0, L_ENDSECTION 100")]
FORWARD = st.builds(lambda cm, speed: {"drive": [cm, speed]}, st.sampled_from([100, 1_000, 5_000, 10_000]),
                    st.sampled_from([4_000, 20_000, 40_000, 90_000]))
STANDS = st.just({"drive": [0, 0]})
BACKWARD = st.builds(lambda cm: {"drive": [-cm, 1_000]}, st.integers(1, 300))
ACTION = st.builds(lambda action: {"driver": action}, st.sampled_from(random_lives.ACTIONS))
HEARD = st.builds(lambda digits: {"telegram": digits}, st.sampled_from(AUTHORITIES + OTHERS))
WAITS = st.just({"clock": None})
# Forward movements are the most frequent: with equal frequencies a life would stay near its beginning.
STEP = st.one_of(FORWARD, FORWARD, FORWARD, FORWARD, STANDS, STANDS, BACKWARD, ACTION, ACTION, HEARD, WAITS)
READY = [{"driver": action} for action in ([1, "IC 704"], [4, 1], [3, 20_000, 160_000, 70, 0, 15], [6])]


@st.composite
def lives(draw):
    """The scenarios of one or two lives. The moments of the clock are 3 s apart."""
    found = []
    for _ in range(draw(st.integers(1, 2))):
        steps = [{"telegram": draw(st.sampled_from(AUTHORITIES))}, *READY] if draw(st.sampled_from([True, True, True, True, False])) else []
        steps += draw(st.lists(STEP, min_size=8, max_size=30))
        steps = [{"clock": 3_000 * (at + 1)} if "clock" in step else step for at, step in enumerate(steps)]
        found.append(json.dumps({"groups": [], "steps": steps, "cold": draw(st.integers(0, 2))}))
    return tuple(found)


played_lives = {}


def play(scenarios):
    """The journal of some lives, and the outputs that were released. The same lives are played once."""
    if scenarios not in played_lives:
        with tempfile.TemporaryDirectory() as room:
            image, scenario, released = Path(room) / "image", Path(room) / "scenario.json", []
            program.etcs("format", "--", str(image), str(SLOTS))
            for text in scenarios:
                scenario.write_text(text)
                run = etcs_run.run_life(scenario, image)
                assert run.ended == etcs_run.CARRIED_OUT, run.ended
                released += run.released
            played_lives[scenarios] = read(image, replay=True, why=True), released
    return played_lives[scenarios]


def check(journal, released, plant):
    """Raises if the outputs don't agree; `plant` alters records and causes before."""
    case_runner.check_image(journal)
    records, whys = plant(journal.records, journal.why)
    case_runner.check_released(released, records if plant is unaltered else journal.records)
    for record in records:
        if "not_revalidated" in record["indications"] or "trip" in record["indications"] or record["mode"] == "TR":
            assert record["brake"] == "emergency", f"released too early: {record}"
    by_event = {record["event"]: record for record in records}
    for line in whys:
        held, record = causes.held(line), by_event[line["event"]]
        wanted = "emergency" if held.keys() & set(EMERGENCY) else "service" if held else "none"
        assert (line["brake"], line["limit_m_per_h"]) == (record["brake"], record["limit_m_per_h"]) and line["brake"] == wanted, (
            f"causes {held} and {record}")
        assert all(by_event[since]["life"] == record["life"] and since <= line["event"] for since in held.values()), f"{held} of {record}"
    changed = [record["event"] for before, record in zip([None, *records], records)
               if before is None or before["life"] != record["life"] or before["brake"] != record["brake"]]
    assert set(changed) <= {line["event"] for line in whys}, "a change of the brake has no line"


def unaltered(records, whys):
    """Plants nothing."""
    return records, whys


def planted(of_record=lambda record: record, of_line=lambda line: line):
    """Plants an untruth in each record or line."""
    return lambda records, whys: ([of_record(record) for record in records], [of_line(line) for line in whys])


def without(line, cause):
    return {**line, cause: None} if line.get(cause) is not None else line


UNTRUTHS = {
    "in Trip no brake is commanded": planted(lambda record: {**record, "brake": "none"} if record["mode"] == "TR" else record),
    "in Trip the service brake is commanded at speed 0": planted(
        lambda record: {**record, "brake": "service"} if record["mode"] == "TR" and record.get("speed_m_per_h") == 0 else record),
    "the brake is released by a driver who hasn't revalidated": planted(
        lambda record: {**record, "brake": "none"} if record["kind"] == "driver" and "not_revalidated" in record["indications"] else record),
    "a cause is left out: far too fast": planted(of_line=lambda line: without(without(line, "far_too_fast"), "too_fast")),
    "a cause is left out: rolled too far": planted(of_line=lambda line: without(line, "rolled_too_far")),
    "a cause holds on after its brake": planted(of_line=lambda line: {**line, "too_fast": line["event"]} if line["brake"] == "none" else line),
}


def search(examples, plant, is_shrunk):
    """Raises if a life doesn't meet the property. The lives are the same each time."""
    phases = (Phase.generate, Phase.target, Phase.shrink) if is_shrunk else (Phase.generate, Phase.target)

    @settings(max_examples=examples, deadline=None, database=None, derandomize=True, phases=phases,
              suppress_health_check=list(HealthCheck), report_multiple_bugs=False)
    @given(lives())
    def each(scenarios):
        journal, released = play(scenarios)
        target(max(record["place_cm"] for record in journal.records) / 1_000.0)
        check(journal, released, plant)

    each()


def main(etcs, lab, examples=EXAMPLES):
    os.environ |= {"GAKNIFUR_ETCS": str(Path(etcs).resolve()), "GAKNIFUR_ETCS_LAB": str(Path(lab).resolve())}
    wrong = 0
    try:
        search(int(examples), unaltered, True)
    except (AssertionError, case_runner.Missed) as found:
        wrong += 1
        print(f"tests/lab/search.py: {found}")
    played = list(played_lives.values())
    records = sum(len(journal.records) for journal, _ in played)
    trips = sum(any(record["mode"] == "TR" for record in journal.records) for journal, _ in played)
    for name, plant in UNTRUTHS.items():
        try:
            search(int(examples), plant, False)
        except AssertionError:
            continue
        wrong += 1
        print(f"tests/lab/search.py: not found: {name}")
    if int(examples) >= EXAMPLES and (trips < LEAST_TRIPS or records < LEAST_RECORDS):
        wrong += 1
        print("tests/lab/search.py: too little was searched")
    print(f"tests/lab/search.py: {len(played)} random lives with {records} records, {trips} of them with a trip; "
          f"{len(UNTRUTHS)} planted untruths, {wrong} wrong")
    return 1 if wrong else 0


if __name__ == "__main__":
    sys.exit(main(*sys.argv[1:]))
