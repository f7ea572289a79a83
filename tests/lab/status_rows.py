#!/usr/bin/env python3
"""The exit statuses of the programs (docs/reference/refusals.md): each row is a command and the status that its meaning asks for.

    tests/lab/status_rows.py ETCS ETCS_LAB
"""
import os
import shutil
import subprocess
import sys
import tempfile
from pathlib import Path

TOP = Path(__file__).resolve().parents[2]
sys.path[:0] = [str(TOP / part) for part in ("python", "tests")]

from compared import Compared  # noqa: E402

BRAKE_OF_7 = 512 + 2 * 3072 + 1024 + 6 * 256 + 2
"""The byte of the example trip in which event 7 has its brake (tests/lab/verdict_rows.py)."""
FIRST_OF_1 = 512 + 3072 + 1024
"""The first byte of the first record of block 1: no record begins with 255."""
CASE = """\
test_case: a
feature: Brakes
sections: ["3.14"]
rule: after a power-up the emergency brake is commanded
starting_conditions: Stand By
lives: [{steps: [{clock: 1 s}]}]
expected: [{note: it brakes, at: end, expect: {brake: BRAKE}}]
"""
SEARCH = """\
search: of a brake
properties: [{note: never braked, law: none, never: {brake: emergency}}]
"""
ROWS = """\
0 etcs format again 16
0 etcs_lab examine image
0 lab check image
0 lab verify sealed
0 lab test good
0 lab case image --event 8
0 lab why image 6
0 tools/settle image
0 tools/verify release
1 etcs decode zz
1 etcs journal empty
1 etcs_lab check empty
1 lab table empty out.csv
1 lab build bad.yaml
1 lab telegram x
1 lab lint bad.yaml
1 lab report --life 9 image out.html
1 lab test --section 3.99 good
1 lab test hollow
1 lab case image --event 99
1 lab coverage hollow
1 lab lint hollow
1 lab campaign hollow hollow.db
2 etcs decode
2 etcs nosuch
2 etcs_lab nosuch
2 lab nosuch
2 lab report image
2 lab why image x
2 lab table image --anonymous --all
2 lab lint --without nosuch plain.json
2 lab search --examples 0 search.yaml
2 tools/settle
2 tools/verify
3 etcs journal nosuch
3 etcs run nosuch image
3 etcs_lab check nosuch
3 lab check nosuch
3 lab lint nosuch.json
3 lab verify nosuch
3 lab test nosuch
3 lab table image /nosuch/out.csv
3 lab test --junitxml=/nosuch/out.xml fails
3 lab against image /nosuch/unit
3 tools/settle nosuch
3 tools/verify nosuch
4 etcs_lab examine cut
4 etcs_lab events cut
4 etcs_lab why damaged
4 etcs_lab replay altered
4 etcs_lab check altered
4 lab verify hollow
4 lab lint twice.json
4 lab check altered
4 lab table altered t.csv
4 lab database altered t.db
4 lab report altered t.html
4 lab seal altered t.seal
4 lab case altered --event 5
4 lab why image
4 lab why image 99
4 lab verify broken
4 lab verify bag
4 tools/verify sealed
4 lab test fails --junitxml=fails.xml
4 lab campaign fails fails.db
4 lab coverage good
4 lab search search.yaml --records events.jsonl
4 lab against image cat
4 lab compare fails.db good.db
5 lab fault
130 lab interrupted
"""


def rooms(room, etcs, env):
    """What the rows are about."""
    def run(*words, status=0):
        done = subprocess.run(words, cwd=room, env=env, capture_output=True, text=True, stdin=subprocess.DEVNULL)
        assert done.returncode == status, (words, done)
        return done.stdout

    shutil.copy(TOP / "examples/trip/scenario.json", room)
    run(etcs, "format", "image", "16"), run(etcs, "run", "scenario.json", "image")
    data = (room / "image").read_bytes()
    (room / "cut").write_bytes(data[:20_000])
    (room / "hollow").mkdir()
    (room / "bag").mkdir()
    (room / "bag/bagit.txt").touch()
    (room / "altered").write_bytes(data[:BRAKE_OF_7] + b"\1" + data[BRAKE_OF_7 + 1:])
    (room / "damaged").write_bytes(data[:FIRST_OF_1] + b"\xff" + data[FIRST_OF_1 + 1:])
    (room / "empty").write_bytes(bytes(len(data)))
    (room / "plain.json").write_text('{"cold": 0, "groups": [], "steps": []}')
    (room / "tmp").mkdir()
    (room / "release").mkdir()
    (room / "release/provenance.json").write_text('{"proved": false}')
    run("sh", "-c", "cd release && sha256sum provenance.json >SHA256SUMS")
    (room / "bad.yaml").write_text("steps: [")
    (room / "twice.json").write_text('{"cold": 0, "cold": 0, "groups": [], "steps": []}')
    for name, brake in (("good", "emergency"), ("fails", "none")):
        (room / name).mkdir()
        (room / name / "a.case.yaml").write_text(CASE.replace("BRAKE", brake))
    (room / "search.yaml").write_text(SEARCH)
    (room / "events.jsonl").write_text(run(env["GAKNIFUR_ETCS_LAB"], "events", "image"))
    run(TOP / "lab", "seal", "image", "sealed")
    shutil.copytree(room / "sealed", room / "broken")
    (room / "broken/image").write_bytes(data[:-1] + b"\1")
    run(TOP / "lab", "campaign", "good", "good.db")


def status_of(room, words, programs, env):
    """The status of a row, and what was printed. `fault` and `interrupted` are what ./lab makes of an exception of its own."""
    if words == ["lab", "fault"]:
        code = "import sys; sys.path.insert(0, sys.argv[1]); from gaknifur.errors import caught; sys.exit(caught(lambda: 1 // 0))"
        words = ["/usr/bin/python3", "-c", code, str(TOP / "python")]
    elif words == ["lab", "interrupted"]:
        code = ("import sys, signal; sys.path.insert(0, sys.argv[1]); from gaknifur.errors import caught\n"
                "signal.signal(signal.SIGINT, signal.default_int_handler)  # (a job in the background of a shell ignores it)\n"
                "sys.exit(caught(lambda: signal.raise_signal(signal.SIGINT) or 0))")
        words = ["/usr/bin/python3", "-c", code, str(TOP / "python")]
    else:
        words = [programs.get(words[0], TOP / words[0]), *words[1:]]
    done = subprocess.run(words, cwd=room, env=env, capture_output=True, text=True, stdin=subprocess.DEVNULL, timeout=300)
    return done.returncode, (done.stdout + done.stderr)[-500:]


def main(words):
    etcs, etcs_lab = (str(Path(word).resolve()) for word in words)
    env = os.environ | {"GAKNIFUR_ETCS": etcs, "GAKNIFUR_ETCS_LAB": etcs_lab}
    count = Compared()
    with tempfile.TemporaryDirectory() as at:
        room = Path(at)
        rooms(room, etcs, env)
        for line in ROWS.splitlines():
            status, *row = line.split()
            found, text = status_of(room, row, {"etcs": etcs, "etcs_lab": etcs_lab}, env)
            count.unless(found == int(status), f"{' '.join(row)}: status {found}, wanted {status}: {text}")
    return count.end(f"exit statuses: {count.count} comparisons")


if __name__ == "__main__":
    sys.exit(main(sys.argv[1:]))
