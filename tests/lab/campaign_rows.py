#!/usr/bin/env python3
"""Run campaigns on the programs: the same lives in processes of this machine, and by a scheduler with two workers, one of which is
killed in the middle, and by campaigns that are interrupted, or one of whose processes is killed, and that go on, give the same table; a row has what
`etcs_lab play` prints of its life; a program that alters an output, a full disk and images that don't fit are reported; a case file gives its row.

    tests/lab/campaign_rows.py ETCS ETCS_LAB [LIVES]
"""
import json
import os
import random
import signal
import sqlite3
import subprocess
import sys
import tempfile
import time
from pathlib import Path

TOP = Path(__file__).resolve().parents[2]
PYTHON = sys.executable
WAIT = 300  # seconds, on a busy machine
LIVES_BOTH_WAYS = 60
sys.path.insert(0, str(TOP / "python"))
from gaknifur.playing import ended, play  # noqa: E402
from gaknifur.search import random_lives  # noqa: E402

failed = 0


def unless(holds, text):
    """Counts what doesn't hold."""
    global failed
    if not holds:
        failed += 1
        print(f"campaign_rows: {text}", file=sys.stderr)


def lab(*words, **named):
    return subprocess.run([TOP / "lab", *map(str, words)], stdin=subprocess.DEVNULL, capture_output=True, text=True, **named)


def rows(path, counted="count(*)"):
    """How many rows a table has, by its own connection."""
    try:
        with sqlite3.connect(f"file:{path}?mode=ro", uri=True) as connection:
            return connection.execute(f"SELECT {counted} FROM result").fetchone()[0]
    except sqlite3.Error:
        return 0


def until(holds, what):
    """Waits until a condition holds."""
    begun = time.monotonic()
    while not holds():
        if time.monotonic() - begun > WAIT:
            raise SystemExit(f"campaign_rows: waited {WAIT} s for {what}")
        time.sleep(0.05)


def by_two_workers(room, lives):
    """The lives by a scheduler and two workers; one is killed once some rows are there."""
    scheduler_file = room / "scheduler.json"
    quiet = {"stdout": subprocess.DEVNULL, "stderr": subprocess.DEVNULL, "cwd": room,
             "env": os.environ | {"PYTHONPATH": str(TOP / "python")}}
    start = lambda module, *words: subprocess.Popen([PYTHON, "-m", f"distributed.cli.{module}", *words], **quiet)
    scheduler = start("dask_scheduler", "--host", "127.0.0.1", "--port", "0", "--no-dashboard", "--no-show", "--scheduler-file", str(scheduler_file))
    workers = []
    try:
        until(scheduler_file.exists, "the scheduler")
        workers = [start("dask_worker", "--scheduler-file", str(scheduler_file), "--nthreads", "1", "--no-nanny", "--no-dashboard", "--host",
                         "127.0.0.1") for _ in range(2)]
        address = json.loads(scheduler_file.read_text())["address"]
        out = room / "dask.db"
        playing = subprocess.Popen([TOP / "lab", "campaign", str(out), "--random", str(lives), "--seed", "7", "--scheduler", address],
                                   stdin=subprocess.DEVNULL, stdout=subprocess.PIPE, stderr=subprocess.PIPE, text=True)
        until(lambda: rows(out, "count(DISTINCT worker)") >= 2 or playing.poll() is not None, "rows of both workers")
        unless(playing.poll() is None, "the campaign ended before a worker could be killed; take more lives")
        workers[0].send_signal(signal.SIGKILL)
        printed, said = playing.communicate(timeout=20 * WAIT)
        unless(playing.returncode == 0 and printed.startswith(f"{lives} rows, {lives} of them"), f"by a scheduler: {printed}{said}")
        unless("Mismatched versions" not in said, f"the client reports other versions than it has: {said}")
        with sqlite3.connect(out) as connection:
            names = connection.execute("SELECT count(DISTINCT worker) FROM result").fetchone()[0]
        unless(names == 2, f"{names} workers played; two are wanted")
        return out
    finally:
        for process in (*workers, scheduler):
            process.kill()
            process.wait()


def interrupted(room, lives):
    """The lives by processes here, interrupted once some rows are there, and then gone on with."""
    out = room / "interrupted.db"
    words = [TOP / "lab", "campaign", str(out), "--random", str(lives), "--seed", "7", "--jobs", "2"]
    # (a shell without job control has what it starts in the background ignore interrupts)
    playing = subprocess.Popen(words, stdin=subprocess.DEVNULL, stdout=subprocess.PIPE, stderr=subprocess.PIPE, text=True,
                               start_new_session=True, preexec_fn=lambda: signal.signal(signal.SIGINT, signal.SIG_DFL))
    until(lambda: rows(out) >= 5 or playing.poll() is not None, "rows")
    os.killpg(playing.pid, signal.SIGSTOP)
    second(out)
    os.killpg(playing.pid, signal.SIGCONT)
    unless(playing.poll() is None, "the campaign ended before it could be interrupted; take more lives")
    os.killpg(playing.pid, signal.SIGINT)
    said = playing.communicate(timeout=WAIT)[1]
    before = rows(out)
    unless(playing.returncode == 130 and said.splitlines()[-1:] and "The same command continues" in said.splitlines()[-1], f"interrupted: {said}")
    unless(5 <= before < lives, f"{before} rows where it was interrupted")
    again = lab(*words[1:])
    unless(again.returncode == 0 and again.stdout.startswith(f"{lives} rows, {lives - before} of them"), f"gone on: {again.stdout}{again.stderr}")
    return out


def second(out):
    """A second campaign into a table to which another one writes is refused at once."""
    done = lab("campaign", out, "--random", "1", "--seed", "8")
    unless((done.returncode, done.stdout, done.stderr) == (3, "", f"lab: {out}: another program is writing to it; wait for its end, or name another "
           "file\n"), f"a second campaign: {done.returncode} {done.stdout}{done.stderr}")


# A scenario for each way in which one is refused, and the last word of how each ends.
FAULTY = (b"", b"{}", b"[]", b"7", b"{", b'{"groups":[],"steps":[]}', b'{"groups":[],"steps":[],"cold":7}', b'{"groups":[],"steps":[{"clock":1},{"clock":-1}]}',
          b'{"groups":[],"steps":[{"clock":9},{"clock":8}]}', b'{"groups":[],"steps":[{"clock":1e3}]}', b'{"groups":[],"steps":[{"telegram":"9"}]}',
          b'{"groups":[],"groups":[],"steps":[]}', b'{"groups":[],"steps":[{"clock":NaN}]}', b'{"groups":[],"steps":[]}}', b'{"groups":[],"steps":[]},"slots":2',
          b'{"groups":[],\n\t"steps":[\r\n]}', b'{"groups":[],"steps":[{"driver":[1,"A\\u0042"]}]}', b'{"groups":[],"steps":[{"driver":[1,"A\n"]}]}',
          b'\xef\xbb\xbf{"groups":[],"steps":[]}', b'{"groups":[],"steps":[{"driver":[1,"\xff"]}]}', b'{"groups":[],"steps":[' + b"[" * 300 + b"]" * 300 + b"]}",
          b'{"groups":[],"steps":[' + b",".join(b'{"clock":%d},{"flush":true}' % at for at in range(200)) + b"]}")
ENDS = ("NotJson Shape Shape Shape NotJson out OutOfRange OutOfRange ClockBack Shape BadHex out NotJson NotJson NotJson out out NotJson NotJson NotJson "
        "NotJson out").split()


def by_both_ways(room, lives):
    """Lives, and scenarios with faults: a row has what `etcs_lab play` prints, also where the ring is full."""
    folder = room / "faulty"
    folder.mkdir()
    for number, text in enumerate(FAULTY):
        (folder / f"{number:02}.json").write_bytes(text)
    for slots, seed in ((64, 9), (3, 10)):
        out = room / f"slots{slots}.db"
        done = lab("campaign", "--slots", slots, "--random", lives, "--seed", seed, folder, out)
        unless(done.returncode == 0, f"{slots} slots: {done.stdout}{done.stderr}")
        with sqlite3.connect(out) as connection:
            found = {name: rest for name, *rest in connection.execute(
                "SELECT name, ended, image_sha256, mode, brake, limit_m_per_h, trips, sound FROM result WHERE kind = 'scenario'")}
        unless(len(found) == lives + len(FAULTY), f"{slots} slots: {len(found)} rows")
        scenarios = (json.loads(random_lives.scenario(random.Random(f"{seed}/{number}"))) for number in range(lives))
        for number, one in enumerate(play(({"scenario": each, "sha256": True} for each in scenarios), slots=slots)):
            last = one["outputs"][-1] if one["outputs"] else {}
            wanted = [ended(one), one["sha256"], *map(last.get, ("mode", "brake", "limit_m_per_h")), one["trips"], 1]
            unless(not last or found[f"random/{seed}/{number:07}"] == wanted or slots == 3 and found[f"random/{seed}/{number:07}"][:5] == wanted[:5],
                   f"{slots} slots, life {number}: {found[f'random/{seed}/{number:07}']}, and etcs_lab play {wanted}")
        faulty = [found[f"{number:02}.json"] for number in range(len(FAULTY))]
        unless(all(one[-1] == 1 for one in faulty) and [one[0].split()[-1] for one in faulty] == ENDS, f"{slots} slots, faults: {faulty}")


def only_refused(room):
    """A campaign in which each scenario is refused plays nothing: it says so, and fails. One that is played makes it good."""
    folder = room / "refused"
    folder.mkdir()
    for number, text in enumerate((b"{}", b"[]")):
        (folder / f"{number}.json").write_bytes(text)
    for how, more, status, said in (("only", (), 1, f"lab: {room}/only.db: each scenario was refused, so nothing was played\n"), ("also", ("--random", "1"), 0, "")):
        done = lab("campaign", folder, room / f"{how}.db", *more)
        count = 2 + len(more) // 2
        unless((done.returncode, done.stdout, done.stderr) == (
            status, f"{count} rows, {count} of them played now; 0 not sound\n2 scenarios were refused, and nothing of them was played; the first: "
            "0.json: refused 2 Shape\n", said), f"{how} refused: {done.returncode} {done.stdout}{done.stderr}")


STAND_IN = """#!/bin/sh
# Runs a life as etcs does, but alters the last output of some.
[ "$1" = run ] || exec "{etcs}" "$@"
"{etcs}" "$@" >"$0.$$"
status=$?
sed '20,$s/mode [A-Z]*/mode SF/' "$0.$$"
rm "$0.$$"
exit $status
"""


def altering(room):
    """A program that alters outputs: rows aren't sound."""
    path = room / "altering"
    path.write_text(STAND_IN.format(etcs=os.environ["GAKNIFUR_ETCS"]))
    path.chmod(0o755)
    done = lab("campaign", "--random", "20", "--jobs", "1", room / "altering.db", env=os.environ | {"GAKNIFUR_ETCS": str(path)})
    unless(done.returncode == 4 and " not sound\n" in done.stdout and "; expected: the output of its record: event " in done.stdout,
           f"an altered output: {done.stdout}{done.stderr}")


def killed(room, whole, lives):
    """A process that plays is killed: the campaign says so and ends, and the same command goes on."""
    out = room / "killed.db"
    words = ("campaign", out, "--random", lives, "--seed", "7", "--jobs", "2")
    playing = subprocess.Popen([TOP / "lab", *map(str, words)], stdin=subprocess.DEVNULL, stdout=subprocess.PIPE, stderr=subprocess.PIPE, text=True)
    until(lambda: rows(out) >= 5 or playing.poll() is not None, "rows")
    with sqlite3.connect(f"file:{out}?mode=ro", uri=True) as connection:
        worker = connection.execute("SELECT worker FROM result LIMIT 1").fetchone()[0]
    unless(playing.poll() is None, "the campaign ended before a process could be killed; take more lives")
    os.kill(int(worker.rpartition("/")[2]), signal.SIGKILL)
    printed, said = playing.communicate(timeout=WAIT)
    before = rows(out)
    unless((playing.returncode, printed, said) == (3, "", f"lab: a process was killed, or ran out of memory; {before} were run and are kept. "
           "The same command continues\n"), f"a killed process: {playing.returncode} {printed}{said}")
    done = lab(*words)
    unless(done.returncode == 0 and done.stdout.startswith(f"{lives} rows, {lives - before} of them"), f"after a killed process: {done.stdout}{done.stderr}")
    done = lab("compare", whole, out)
    unless(done.returncode == 0, f"a killed process: {done.stdout}{done.stderr}")


def full_disk(room):
    """A table that can't grow: the campaign fails and says so, keeps what it has, and goes on later."""
    out, lives = room / "full.db", 300
    words = [str(TOP / "lab"), "campaign", str(out), "--random", str(lives), "--seed", "7", "--slots", "8", "--jobs", "2"]
    done = subprocess.run(["sh", "-c", 'ulimit -f 60; trap "" XFSZ; exec "$@"', "sh", *words], stdin=subprocess.DEVNULL, capture_output=True, text=True)
    unless(done.returncode == 3 and f"lab: {out}: " in done.stderr, f"a full disk: {done.returncode} {done.stdout}{done.stderr}")
    before = rows(out)
    done = lab(*words[1:])
    unless(done.returncode == 0 and done.stdout.startswith(f"{lives} rows, {lives - before} of them"), f"after a full disk: {done.stdout}{done.stderr}")


def full_images(room):
    """Images that don't fit into their folder, which is in a small memory disk: their rows say so, and run again. Only where the user may mount one."""
    if subprocess.run(["unshare", "-rm", "true"], stderr=subprocess.DEVNULL).returncode:
        print("campaign_rows: no memory disk can be mounted here, so images that don't fit weren't tried")
        return
    small, out, lives = room / "small", room / "images.db", 40
    small.mkdir()
    words = ("campaign", "--random", lives, "--seed", "7", "--jobs", "1", out)
    done = subprocess.run(["unshare", "-rm", "sh", "-c", 'mount -t tmpfs -o size=16k none "$0" && TMPDIR=$0 exec "$@"', small, TOP / "lab", *map(str, words)],
                          stdin=subprocess.DEVNULL, capture_output=True, text=True)
    unless(done.returncode == 4 and ": failed: " in done.stdout, f"images that don't fit: {done.returncode} {done.stdout}{done.stderr}")
    failed = int(done.stdout.partition("played now; ")[2].partition(" ")[0] or 0)
    done = lab(*words)
    unless(failed and done.stdout == f"{lives} rows, {failed} of them played now; 0 not sound\n", f"after images that didn't fit: {done.stdout}{done.stderr}")


def faults(room, whole):
    """What has to be reported: a row that differs, a table of other programs, a case that fails, words that are none."""
    other = room / "other.db"
    other.write_bytes(whole.read_bytes())
    with sqlite3.connect(other) as connection:
        name = connection.execute("SELECT name FROM result ORDER BY name LIMIT 1").fetchone()[0]
        connection.execute("UPDATE result SET image_sha256 = 'other' WHERE name = ?", (name,))
        connection.execute("UPDATE result SET seconds = 99, worker = 'other'")
    connection.close()
    done = lab("compare", whole, other)
    unless(done.returncode == 4 and done.stdout.splitlines()[-1] == "1 rows differ" and done.stdout.startswith(f"{name}: image_sha256"),
           f"a row that differs: {done.stdout}")
    with sqlite3.connect(other) as connection:
        connection.execute("UPDATE campaign SET value = 'other' WHERE name = 'etcs_sha256'")
    connection.close()
    done = lab("campaign", other, "--random", "1")
    unless(done.returncode == 1 and "was made with etcs_sha256 other" in done.stderr, f"other programs: {done.stderr}")
    done = lab("campaign", room / "none.db")
    unless(done.returncode == 2, f"neither a folder nor lives: {done.returncode}")
    folder = room / "cases"
    (folder / "inner").mkdir(parents=True)
    scenario = (TOP / "examples" / "trip" / "scenario.json").read_bytes()
    (folder / "its lives.json").write_bytes(scenario)
    (folder / "alone.json").write_bytes(scenario)
    (folder / "bad.json").write_bytes(b"{}")
    # a file that a comment names is no file of the case
    case = ("# alone.json, ../alone.json\ntest_case: {}\nfeature: Trip\nsections: [3.8.1]\nrule: the train trips\nstarting_conditions: level 1\n"
            "lives: [{{scenario: ../its lives.json}}]\nexpected:\n  - {{note: as in the example, at: {{mode: TR}}, expect: {{brake: {}}}}}\n")
    (folder / "inner" / "good.case.yaml").write_text(case.format("good", "emergency"))
    (folder / "inner" / "wrong.case.yaml").write_text(case.format("wrong", "none"))
    out = room / "cases.db"
    done = lab("campaign", folder, "--jobs", "2", out)
    with sqlite3.connect(out) as connection:
        found = {name: rest for name, *rest in connection.execute("SELECT name, kind, ended, tests, missed, sound FROM result")}
    wanted = {"inner/good.case.yaml": ["case", "carried out", 1, 0, 1], "inner/wrong.case.yaml": ["case", "carried out", 1, 1, 0],
              "alone.json": ["scenario", "carried out", None, None, 1], "bad.json": ["scenario", "refused 2 Shape", None, None, 1]}
    unless(done.returncode == 4 and found == wanted, f"the folder: {done.stdout}{done.stderr}{found}")


def main():
    os.environ |= {"GAKNIFUR_ETCS": str(Path(sys.argv[1]).resolve()), "GAKNIFUR_ETCS_LAB": str(Path(sys.argv[2]).resolve())}
    lives = int(sys.argv[3]) if len(sys.argv) > 3 else 300
    with tempfile.TemporaryDirectory(prefix="campaign-") as folder:
        room = Path(folder)
        whole = room / "whole.db"
        done = lab("campaign", whole, "--random", lives, "--seed", "7", "--jobs", "2")
        unless(done.returncode == 0 and done.stdout.startswith(f"{lives} rows, {lives} of them"), f"here: {done.stdout}{done.stderr}")
        for made in (by_two_workers(room, lives), interrupted(room, lives)):
            done = lab("compare", whole, made)
            unless(done.returncode == 0 and done.stdout == "0 rows differ\n", f"{made.name}: {done.stdout}{done.stderr}")
        by_both_ways(room, LIVES_BOTH_WAYS)
        only_refused(room)
        altering(room)
        killed(room, whole, lives)
        full_disk(room)
        full_images(room)
        faults(room, whole)
    print(f"campaign_rows: {lives} lives here, by two workers of which one was killed, interrupted, and with faults: the same table; {LIVES_BOTH_WAYS} "
          f"lives both ways; {failed} failed")
    sys.exit(failed > 0)


main()
