#!/usr/bin/env python3
"""Trains in a closed loop with the onboard unit's library, which `GAKNIFUR_ETCS_UNIT` names: those of examples/closed_loop.

    tests/lab/drive_rows.py ETCS ETCS_LAB

What the unit was given is played again by `etcs run`: outputs and image have to be the same, byte for byte. `./lab drive` makes
its files, and says each of its refusals. With each planted fault, in the train, in the driver and between unit and train, some
expected result of the cases doesn't come.
"""
import os
import re
import subprocess
import sys
import tempfile
from dataclasses import replace
from pathlib import Path
from unittest.mock import patch

TOP = Path(__file__).resolve().parents[2]
DRIVES = TOP / "examples/closed_loop"
sys.path[:0] = [str(TOP / "python"), str(TOP / "tests")]
from compared import Compared  # noqa: E402
from gaknifur import program  # noqa: E402
from gaknifur.cases import case_files, case_runner, cases, coverage  # noqa: E402
from gaknifur.cli import drive_commands  # noqa: E402
from gaknifur.simulation import closed_loop, drives, driving  # noqa: E402
from gaknifur.unit import Brake, FileMedium, Unit  # noqa: E402
from gaknifur.units import own_unit  # noqa: E402

SWAPPED = {Brake.NONE: Brake.EMERGENCY, Brake.SERVICE: Brake.SERVICE, Brake.EMERGENCY: Brake.NONE}
FLUSH, MOVE, READ, DUE = Unit.flush, driving.Motion.move, driving.Loop.read, driving.Motion.due


def with_brakes(brakes):
    """A unit that commands other brakes than it records."""
    return lambda self: [replace(output, brake=brakes.get(output.brake, output.brake)) for output in FLUSH(self)]


def decides(self, speed, limit, ms):
    """A driver who only accelerates."""
    return 1.0, 0.0


# A fault: where it is planted, and the replacement.
PLANTED = {
    "a train that ignores its brakes": (driving.Motion, "brake", lambda self, wanted, seconds: 0.0),
    "a train whose brakes hold on": (driving.Motion, "due", lambda self, moment: max(DUE(self, moment), self.braking)),
    "rails that are never slippery": (drives.Train, "grip", lambda self, place: 1.0),
    "a train that pulls while it is braked": (driving.Motion, "move", lambda self, moment, ms, power: MOVE(self, moment, ms, 0.0) or setattr(
        self, "speed", self.speed + self.train.acceleration * ms / 1000)),
    "a driver who heeds nothing": (driving.Driving, "decide", decides),
    "a driver who does nothing else": (driving.Driving, "acts", lambda self, moment, motion, output: ()),
    "a unit whose brakes are swapped": (Unit, "flush", with_brakes(SWAPPED)),
    "a unit without a service brake": (Unit, "flush", with_brakes({Brake.SERVICE: Brake.NONE})),
    "a unit without an emergency brake": (Unit, "flush", with_brakes({Brake.EMERGENCY: Brake.NONE})),
    "a service brake in place of each emergency brake": (Unit, "flush", with_brakes({Brake.EMERGENCY: Brake.SERVICE})),
    "an odometer that isn't read": (driving.Loop, "read", lambda self, speed, is_wanted: None),
    "an odometer that measures half of the speed": (driving.Loop, "read", lambda self, speed, is_wanted: READ(self, speed // 2, is_wanted)),
}


def missed(found, table):
    """The results that don't come, case by case."""
    for case in found:
        try:
            played = case_runner.play(case)
            for expected in case.expected:
                try:
                    case_runner.judge(expected, played, table)
                except case_runner.Missed as one:
                    yield f"{case.name}: {expected.note}: {' '.join(str(one).split())}"
        except (case_runner.Missed, program.Failed) as one:
            yield f"{case.name}: {' '.join(str(one).split())}"


def lab(*words, env=()):
    done = subprocess.run([TOP / "lab", *words], capture_output=True, text=True, stdin=subprocess.DEVNULL, env={**os.environ, **dict(env)})
    return done.returncode, done.stdout, done.stderr


class Driven(Compared):
    def __init__(self, room):
        super().__init__()
        self.room = room

    def drive(self, path):
        """A drive, its files, and the same events by the program."""
        image, again, scenario, rows, picture = (self.room / f"{path.stem}.{end}" for end in ("image", "again", "json", "csv", "svg"))
        status, output, said = lab("drive", path, "--image", image, "--scenario", scenario, "--csv", rows, "--picture", picture)
        self.same(f"{path.name}: status", (status, said), (0, ""))
        program.etcs("format", "--", str(again), str((image.stat().st_size // 512 - 1) // 6))
        status, printed = program.etcs("run", "--", str(scenario), str(again))
        self.same(f"{path.name}: etcs run", status, 0)
        self.same(f"{path.name}: the images", image.read_bytes() == again.read_bytes(), True)
        table = [line.split(",") for line in rows.read_text().splitlines()]
        outputs = {int(words[1]): words for words in map(str.split, printed) if words[0] == "event"}
        for row in table[1:]:
            answer = outputs[int(row[2])]
            self.same(f"{path.name}: {row}", (row[5], row[7], row[8]), (answer[9], answer[7], answer[3]))
        self.same(f"{path.name}: the picture", picture.read_text().count("<svg"), 1)
        self.same(f"{path.name}: output", len(output.splitlines()) >= 3 and "end of authority is at" in output.splitlines()[-1], True)

    def refusals(self):
        none = self.room / "none.yaml"
        none.write_text("steps: [start]\n")
        kept = DRIVES / "heeds_the_limit.yaml"
        for words, status, said in ((["drive", none], 1, "has no `drive`"), (["drive", self.room / "nothing.yaml"], 3, "No such file"),
                                    (["drive", kept, "--picture", self.room / "x.gif"], 2, "--picture: the file name has to end in .svg or .png"),
                                    (["build", kept], 1, "use lab drive --scenario"),
                                    (["drive", kept, "--image", self.room], 1, "isn't a regular file"),
                                    (["drive", kept, "--image", kept], 1, "is an input of this command"),
                                    (["drive", kept, "--image", none], 1, "isn't an image that `lab drive` made"),
                                    (["drive", kept, "--csv", kept, "--force"], 1, "is an input of this command")):
            found = lab(*words)
            self.same(f"{words}", (found[0], said in found[2]), (status, True))
        found = lab("drive", kept, env={"GAKNIFUR_ETCS_UNIT": str(self.room / "no.so")}.items())
        self.same("no library", (found[0], "tools/library --unproved PREFIX" in found[2]), (3, True))
        found = lab("drive", kept, env={"GAKNIFUR_ETCS_UNIT": "libc.so.6"}.items())
        self.same("another library", (found[0], "has another interface" in found[2]), (3, True))

    def build_up(self):
        """The longer the brakes need, the farther the train runs; by hand half of the build-up time at 140 km/h more."""
        beyond, text = [], (DRIVES / "overruns.yaml").read_text().replace("../suites", str(TOP / "examples/suites"))
        for seconds in range(4):
            path = self.room / f"build_up_{seconds}.yaml"
            path.write_text(text.replace("train: {", f"train: {{build_up: {seconds} s, "))
            output = lab("drive", path)[1]
            beyond.append(float(output.split()[-4]))
        for at in range(3):
            self.same(f"a second more: {beyond}", 18.0 < beyond[at + 1] - beyond[at] < 19.7, True)

    def lives(self):
        """A second life on an image begins after the first one, and is replayed with it."""
        image = self.room / "lives"
        program.etcs("format", "--", str(image), "1024")
        (self.room / "lives.identity").write_text("unit: lab drive\n")
        for _ in range(2):
            self.same("a life", lab("drive", DRIVES / "heeds_the_limit.yaml", "--image", image)[0], 0)
        done = subprocess.run([os.environ["GAKNIFUR_ETCS_LAB"], "replay", "--json", image], capture_output=True, text=True)
        self.cuts(image, [line for line in subprocess.run([os.environ["GAKNIFUR_ETCS"], "journal", image], capture_output=True,
                                                          text=True).stdout.splitlines()])
        self.same("two lives", (done.returncode, len(re.findall('"replay":"agrees"', done.stdout)), "differ" in done.stdout.replace("nothing_differs", "")),
                  (0, 2, False))


    def cuts(self, image, listed):
        """Where a life on an image that is there is cut off within a write, all is still there that was."""
        scenario, drive = drives.read(DRIVES / "heeds_the_limit.yaml")
        before, write = image.read_bytes(), FileMedium.write
        for last in (1, 2, 3, 10, 11, 100):
            image.write_bytes(before)
            done = 0

            def cut(medium, sector, data):
                nonlocal done
                done += 1
                if done == last:
                    write(medium, sector, data[:len(data) // 2])
                if done >= last:
                    raise OSError(5, "the power is cut")
                write(medium, sector, data)

            with patch.object(FileMedium, "write", cut):
                try:
                    drive_commands.on_file(image, scenario, drive)
                    self.same(f"cut at {last}", "a life", "a cut")
                except program.Failed as failed:
                    self.same(f"cut at {last}", "the power is cut" in str(failed), True)
            events = subprocess.run([os.environ["GAKNIFUR_ETCS"], "journal", image], capture_output=True, text=True).stdout.splitlines()
            self.same(f"the events before, cut at {last}", events[:len(listed)], listed)
        image.write_bytes(before)


def main(etcs, etcs_lab):
    os.environ |= {"GAKNIFUR_ETCS": str(Path(etcs).resolve()), "GAKNIFUR_ETCS_LAB": str(Path(etcs_lab).resolve())}
    own_unit.check_library()
    found, table = coverage.all_cases(DRIVES), coverage.mode_table()
    wrong = list(missed(found, table))
    for one in wrong:
        print(f"tests/lab/drive_rows.py: {one}")
    left = []
    for name, (owner, attribute, stands) in PLANTED.items():
        with patch.object(owner, attribute, stands):
            if next(missed(found, table), None) is None:
                left.append(name)
                print(f"tests/lab/drive_rows.py: not found: {name}")
    with tempfile.TemporaryDirectory() as folder:
        compared = Driven(Path(folder))
        for path in sorted(DRIVES.glob("*.yaml")):
            if not case_files.is_case_file(path.name):
                compared.drive(path)
        compared.refusals()
        compared.build_up()
        compared.lives()
    print(f"tests/lab/drive_rows.py: {len(found)} cases, {len(PLANTED)} planted faults, {len(left)} not found; {compared.count} comparisons, "
          f"{compared.differ} differ")
    return 1 if wrong or left or compared.differ or len(found) < 6 or compared.count < 1_000 else 0


if __name__ == "__main__":
    sys.exit(main(*sys.argv[1:]))
