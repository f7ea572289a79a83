#!/usr/bin/env python3
"""Compare other units with the proved one: a right one agrees, and each one that is wrong on purpose is found by its fault.

    tests/lab/unit_rows.py ETCS ETCS_LAB UNIT STANDS

UNIT is examples/oracle/unit.c, compiled, STANDS least.c. These, examples/oracle/unit.py and `./lab serve` replay the
journals of the examples. Each kind of tests/lab/wrong.py replays one of them, in which a train is tripped and power
is lost, and has to be reported with the text in FOUND. None of their processes may be left.
"""
import io
import os
import shlex
import subprocess
import sys
import tempfile
import time
import xml.etree.ElementTree
from concurrent.futures import ThreadPoolExecutor
from pathlib import Path

TOP = Path(__file__).resolve().parents[2]
sys.path.insert(0, str(TOP / "python"))
from gaknifur import program  # noqa: E402
from gaknifur.cases import oracle  # noqa: E402
from gaknifur.journal.reading import read  # noqa: E402
from gaknifur.units import own_unit, protocol, sandbox  # noqa: E402
from gaknifur.units.other_unit import OtherUnit  # noqa: E402

WITHIN_S, HANGS_S, LEAST = 60.0, 8.0, 30
AT = "event 8: "
# The message for each kind. Written by hand, from docs/howto/oracle.md and the example: the train is ready by event 5, and
# too fast at event 8.
FOUND = {
    "brake_late": "differs in brake", "other_mode": "differs in mode",
    "limit_by_one": "event 5 differs in limit_m_per_h",
    "level_kept": "event 0 differs in level", "lower_uncertainty": "event 0 differs in uncertainty_cm",
    "indication_less": "differs in indications",
    "missing_answer": f"{AT}no answer within 8 s", "hangs": f"{AT}no answer within 8 s",
    "garbage": f"{AT}a line that is not JSON: emergency!", "no_object": f"{AT}a line that is not a JSON object: [8]",
    "no_text": f"{AT}a line that is not JSON: ",
    "crashes": f"{AT}it was ended by signal 11 (SIGSEGV); it said: something is broken",
    "ends": f"{AT}it ended with status 3",
    "half_a_line": f"{AT}a line without its end, and then it ended with status 0",
    "endless_line": f"{AT}a line of more than 65,536 bytes", "closes": f"{AT}it closed its standard output",
    "other_event": f"{AT}an answer to event 7", "two_answers": "event 9: ",
    "member_less": f"{AT}no member \"limit_m_per_h\"",
    "member_more": f"{AT}the member \"limit_mh\", which isn't one of event, mode",
    "member_twice": f"{AT}\"brake\" is given twice",
    "unknown_word": f"{AT}mode \"XX\", which isn't one of FS, OS",
    "number_as_text": f"{AT}limit_m_per_h \"0\", which isn't a whole number",
    "number_with_a_point": f"{AT}limit_m_per_h 0.0, which isn't a whole number",
    "infinite": f"{AT}limit_m_per_h Infinity, which isn't a whole number",
    "true_for_a_number": f"{AT}level true, which isn't 0, 1 or null",
    "other_protocol": "greeting: version 1 of the protocol, and lab speaks version 2",
    "members_without_brake": "greeting: \"members\" without brake",
    "unknown_member": "greeting: \"members\" that isn't a list of mode",
    "nameless": "greeting: a unit whose name isn't a text of 1 to 200 characters",
    "greets_not": "greeting: a line that is not JSON: hello",
    "silent": "greeting: no answer within 8 s", "keeps_running": "end: it keeps running for 8 s",
    "bad_status": "end: it ended with status 9",
    "last_word": "end: a line that wasn't requested: bye",
}
SLOW = ("missing_answer", "hangs", "silent", "keeps_running", "closes")
IN_SANDBOX = FOUND | {"closes": FOUND["hangs"]}
# (the sandbox's own process holds the unit's standard output)
STARTED = []


class Watched(OtherUnit):
    """A unit whose process is remembered."""

    def __init__(self, *words):
        super().__init__(*words)
        STARTED.append(self.process.pid)


def journals(room):
    """The journals of the examples, by name."""
    found = {}
    for folder in sorted((TOP / "examples").glob("*/")):
        scenarios = [folder / name for name in ("scenario.json", "restart.json") if (folder / name).exists()]
        image = Path(room) / folder.name
        if scenarios:
            assert program.etcs("format", "--", str(image), "64")[0] == 0
            assert all(program.etcs("run", "--", str(one), str(image))[0] == 0 for one in scenarios)
            found[folder.name] = read(image).records
    return found


def compared(command, records, within_s):
    """The output about a unit, and whether it agrees."""
    comparison = oracle.ask(command, "tried", records, within_s)
    return "\n".join(line.text for line in oracle.lines(comparison)), comparison.agrees


CASE = """\
test_case: stands
feature: a
sections: [4.4]
rule: b
starting_conditions: c
lives: [{steps: [{drive: 1 m at 5 km/h}]}]
expected:
  - {note: what it reports, at: end, expect: {mode: SB, brake: emergency}}
  - {note: what no unit meets, at: end, expect: {mode: FS}}
  - {note: what it does not report, at: end, expect: {limit_kmh: 0}}
"""


def tested(unit):
    """A case against a unit that reports little: what it reports is judged, the rest is skipped with a message, and JUnit names the unit."""
    with tempfile.TemporaryDirectory() as room:
        (Path(room) / "case.yaml").write_text(CASE)
        command, results = shlex.quote(str(unit)), Path(room) / "results.xml"
        done = subprocess.run([TOP / "lab", "test", room, "-rs", f"--junitxml={results}", "--against", command], capture_output=True, text=True)
        named = [one.get("value") for one in xml.etree.ElementTree.parse(results).iter("property") if one.get("name") == "other_unit"]
    said = done.stdout + done.stderr + f"other_unit: {sorted(set(named))}, {len(named)} times"
    wanted = ("1 failed, 3 passed, 1 skipped", "the unit doesn't report limit_kmh", "found:    mode SB", "the proved unit misses it too")
    return done.returncode == 4 and named == [command] * 5 and all(one in said for one in wanted), said


EVENTS = ({"kind": "powerup", "word": "moved"}, {"kind": "telegram", "telegram": "00"}, {"kind": "clock", "now_ms": 0},
          {"kind": "odometer", "movement_cm": 0, "speed_m_per_h": 0}, {"kind": "driver", "action": "start"},
          *({"kind": "driver", "action": action} | dict(members) for action, members in (
              ("enter_identity", {"identity": "a"}), ("enter_running_number", {"running_number": 1}), ("choose_level", {"chosen_level": 1}),
              ("enter_train_data", dict.fromkeys(protocol.DONE["enter_train_data"], 1)), ("confirm", {"confirmed": "level"}),
              ("acknowledge", {"acknowledged": "trip"}))))


def served(message):
    """The message of `lab serve` for the third line, which follows a greeting and a power-up; None if it is answered."""
    lines = [protocol.line_of(one).encode() for one in ({"protocol": 2}, {"life": 1, "event": 0} | EVENTS[0])]
    try:
        own_unit.serve(io.BytesIO(b"".join([*lines, message])), io.BytesIO())
    except program.Failed as failed:
        return str(failed)
    return None


def answered_wrongly():
    """The malformed lines to which `lab serve` doesn't answer with a message, and what becomes of each."""
    wrong = [protocol.line_of({"life": 1, "event": 1} | event | {name: value}).encode()
             for event in EVENTS for name in ("life", "event", *event) for value in (None, True, 1.5, [], {}, "\ud800", 1 << 64)]
    found = []
    for message in (*wrong, b'{"kind": "clock", "life": 1, "event": 1, "now_ms": 1' + b" " * protocol.MOST_LINE + b"}\n"):
        try:
            said = served(message)
        except Exception as error:
            said = repr(error)
        if not (said or "").startswith("serve: line 3: "):
            found.append((message[:100], said))
    return found


def left():
    """The units that still have running processes, a moment later."""
    for _ in range(50):
        lines = [line.split()
                for line in subprocess.run(["ps", "-eo", "pgid=,stat="], capture_output=True,
                                           text=True).stdout.splitlines()]
        groups = {group for group, state in lines if not state.startswith("Z")}
        found = [pid for pid in STARTED if str(pid) in groups]
        if not found:
            break
        time.sleep(0.1)
    return found


def main(etcs, lab, unit, stands):
    os.environ |= {"GAKNIFUR_ETCS": str(Path(etcs).resolve()), "GAKNIFUR_ETCS_LAB": str(Path(lab).resolve())}
    oracle.OtherUnit = Watched
    unit, wrong = str(Path(unit).resolve()), []

    def is_so(name, holds, said=""):
        if not holds:
            wrong.append(name)
            print(f"tests/lab/unit_rows.py: {name}: {said}")

    with tempfile.TemporaryDirectory() as room:
        found = journals(room)
        for name, records in found.items():
            said, agrees = compared(shlex.quote(unit), records, WITHIN_S)
            is_so(f"unit.c about {name}", agrees and said.endswith("agree\nnothing differs"), said)
        for least in (TOP / "examples/oracle/unit.py", Path(stands).resolve()):
            said, agrees = compared(shlex.quote(str(least)), found["trip"], WITHIN_S)
            is_so(least.name, not agrees and "life 1 events 0..4 agree\nlife 1 event 5 differs in mode" in said, said)
        is_so("lab test against unit.py", *tested(TOP / "examples/oracle/unit.py"))
        said, agrees = compared(f"{shlex.quote(str(TOP / 'lab'))} serve", found["power_cut"], WITHIN_S)
        is_so("lab serve", agrees, said)
        is_so("lab serve, malformed lines", not answered_wrongly(), answered_wrongly())
        proxy = f"{shlex.quote(str(TOP / 'tests/lab/wrong.py'))} {{}} {shlex.quote(unit)}"
        is_so("right", compared(proxy.format("right"), found["trip"], WITHIN_S)[1])

        def tried(kind):
            return kind, compared(proxy.format(kind), found["trip"], HANGS_S if kind in SLOW else WITHIN_S)

        for where, wanted in ({"": FOUND} | ({"sandbox: ": IN_SANDBOX} if sandbox.bubblewrap() else {})).items():
            os.environ[sandbox.SANDBOX] = "" if where else "none"
            with ThreadPoolExecutor(4) as pool:
                for kind, (said, agrees) in pool.map(tried, sorted(wanted, key=lambda kind: kind not in SLOW)):
                    is_so(f"{where}{kind}", not agrees and wanted[kind] in said, said)
    is_so("processes", not left(), f"{left()} are left")
    print(f"tests/lab/unit_rows.py: {len(found)} journals agree, {len(FOUND)} units that are wrong on purpose, "
          f"{'also' if sandbox.bubblewrap() else 'not'} in a sandbox, {len(wrong)} wrong")
    return 1 if wrong or len(FOUND) < LEAST or len(found) < 6 else 0


if __name__ == "__main__":
    sys.exit(main(*sys.argv[1:]))
