"""Every command of the program etcs_lab on small inputs, for the tests of this folder. `ETCS_LAB` names another program than the one
that the full check leaves."""
import json
import os
import subprocess

from built import AUTHORITY, FULL_SUPERVISION, RESTRICTION, STAFF_RESPONSIBLE, TOP, formatted, run_program

LAB = os.environ.get("ETCS_LAB") or str(TOP / "crates/etcs_lab/out/etcs_lab")
FAULTY = {"groups": [{"at": 0, "spacing": 1, "balises": [RESTRICTION]}, {}], "steps": [{"dirve": [1, 1]}, {"clock": -1}], "more": 1}
BEYOND = {"groups": [], "steps": [{"flush": True}, {"clock": -1}]}


def laid(folder):
    """The files that the words are given: two images, one of them altered, and scenarios. By a name each."""
    files = {name: folder / name for name in ("image", "altered", "good", "faulty", "beyond", "lines")}
    formatted(files["image"], 4)
    files["good"].write_text(json.dumps(STAFF_RESPONSIBLE))
    for scenario in (STAFF_RESPONSIBLE, FULL_SUPERVISION):
        (folder / "scenario").write_text(json.dumps(scenario))
        run_program(["run", folder / "scenario", files["image"]])
    data = bytearray(files["image"].read_bytes())
    data[512 + 512 + 700] ^= 1
    files["altered"].write_bytes(data)
    files["faulty"].write_text(json.dumps(FAULTY))
    files["beyond"].write_text(json.dumps(BEYOND))
    files["lines"].write_text("".join(json.dumps({"id": name, "scenario": scenario}) + "\n" for name, scenario in (
        ("good", STAFF_RESPONSIBLE), ("faulty", FAULTY), ("beyond", BEYOND), ("lives", [STAFF_RESPONSIBLE, FULL_SUPERVISION]))))
    return files


def all_words(files):
    """Each command with each of its options, on each of its files."""
    rows = [["--help"], ["decode", AUTHORITY], ["decode", "--json", AUTHORITY], ["decode", "9"], ["decode", "--json", "90"],
            ["packets", AUTHORITY], ["packets", "--json", AUTHORITY], ["packets", "90"]]
    for image in ("image", "altered"):
        rows += [[word, *option, files[image]] for word, option in (
            ("examine", []), ("examine", ["--json"]), ("events", []), ("events", ["--all"]), ("replay", []), ("replay", ["--json"]), ("why", []), ("why", ["--json"]))]
    rows += [["why", files["image"], "3"], ["why", "--json", files["image"], "3"]]
    rows += [["run", files[name]] for name in ("good", "faulty", "beyond")]
    rows += [["play", "-"], ["play", files["lines"]], ["play", "--slots=2", "--outputs=all", files["lines"], files["lines"]]]
    return [list(map(str, row)) for row in rows]


def lab_ran(words, stdin=None, stdout=subprocess.PIPE, preload=None, **environment):
    """Status, printed and said of a run."""
    env = dict(os.environ, **environment)
    if preload:
        env["LD_PRELOAD"] = preload
    with open(stdin or os.devnull, "rb") as given:
        done = subprocess.run([LAB, *words], stdin=given, stdout=stdout, stderr=subprocess.PIPE, env=env, timeout=60)
    return done.returncode, (done.stdout or b"").decode(), done.stderr.decode()
