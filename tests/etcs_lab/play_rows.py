#!/usr/bin/env python3
"""What `etcs_lab play` prints of many scenarios in one process: random scenarios and the examples, compared with the reference model (each
output, each count, and the image byte by byte), and with `etcs run` on an image in a file; lists of scenarios, each a life on the journal that the one
before left; hand-written cases that can't be played or read.

    tests/etcs_lab/play_rows.py ETCS_LAB ETCS                       the full check
    tests/etcs_lab/play_rows.py ETCS_LAB ETCS SCENARIOS [SEED]      only random scenarios, each by `etcs_lab play`, `etcs run` and the reference model
"""
import hashlib
import json
import os
import random
import re
import subprocess
import sys
import tempfile
from collections import Counter
from pathlib import Path

HERE = Path(__file__).resolve().parent
TOP = HERE.parents[1]
sys.path[:0] = [str(HERE), str(TOP / "tests"), str(TOP / "tests/model"), str(TOP / "tests/hostile"), str(TOP / "python")]
from blocks import image_of  # noqa: E402
from compared import Compared, objects, run, status_of_full  # noqa: E402
from disk import Disk  # noqa: E402
from format_rows import live  # noqa: E402
from journal import Refused, signs_of  # noqa: E402
from onboard import MOST_PENDING, Unit  # noqa: E402
from program import WORDS, event_of  # noqa: E402
from random_lists import Numbers  # noqa: E402
from run_rows import Played, RunRows, lived, placed, wanted_of  # noqa: E402

SCENARIOS, SEED, LEAST_OUTPUTS = 400, 7, 5_000
LISTS, MOST_LIVES, LEAST_LATER = 60, 4, 100
OUTPUT = ("event", "mode", "level", "brake", "limit_m_per_h", "indications")
SLOTS = (2, 3, 16, 64)
LONGEST = 16_777_216
CLOCK = '{"groups":[],"steps":[{"clock":1000}]}'
MEMBERS = "an object of scenario, and perhaps id, cold, slots and sha256"
LIST = "a scenario, or a list of scenarios"

NOT_JSON = {"id": None, "pointer": "", "fault": 1, "name": "NotJson", "wanted": "a JSON object on one line"}

# By hand: a line, and what is printed for it along with its number.
FAULTS = (
    ("{", NOT_JSON),
    ("[]", {"id": None, "pointer": "", "fault": 2, "name": "Shape", "wanted": MEMBERS}),
    (CLOCK, {"id": None, "pointer": "", "fault": 2, "name": "Shape", "wanted": MEMBERS}),
    ('{"id":"a","scenario":%s,"more":1}' % CLOCK, {"id": "a", "pointer": "", "fault": 2, "name": "Shape", "wanted": MEMBERS}),
    *(('{"scenario":%s,%s}' % (CLOCK, twice), {"id": None, "pointer": "", "fault": 2, "name": "Shape", "wanted": MEMBERS})
      for twice in ('"scenario":{}', '"scenario":null', '"scenario":%s' % CLOCK, r'"\u0073cenario":%s' % CLOCK, '"cold":0,"cold":0')),
    ('{"id":[],"scenario":%s}' % CLOCK, {"id": None, "pointer": "/id", "fault": 2, "name": "Shape", "wanted": "a text or a whole number"}),
    ('{"id":1.5,"scenario":%s}' % CLOCK, {"id": None, "pointer": "/id", "fault": 2, "name": "Shape", "wanted": "a text or a whole number"}),
    ('{"id":2,"cold":3,"scenario":%s}' % CLOCK, {"id": 2, "pointer": "/cold", "fault": 3, "name": "OutOfRange", "wanted": "a whole number, 0 to 2"}),
    ('{"slots":1,"scenario":%s}' % CLOCK, {"id": None, "pointer": "/slots", "fault": 3, "name": "OutOfRange", "wanted": "a whole number, 2 to 1048576"}),
    ('{"slots":1048577,"scenario":%s}' % CLOCK, {"id": None, "pointer": "/slots", "fault": 3, "name": "OutOfRange", "wanted": "a whole number, 2 to 1048576"}),
    ('{"sha256":1,"scenario":%s}' % CLOCK, {"id": None, "pointer": "/sha256", "fault": 2, "name": "Shape", "wanted": "true or false"}),
    ('{"scenario":{"groups":[],"steps":[{"clock":1},{"clock":-1}]}}', {"id": None, "pointer": "/scenario/steps/1/clock", "fault": 3, "name": "OutOfRange"}),
    ('{"scenario":{"groups":[],"steps":[{"telegram":"9"}]}}', {"id": None, "pointer": "/scenario/steps/0/telegram", "fault": 4, "name": "BadHex"}),
    ('{"scenario":{"groups":[],"steps":[}}}', NOT_JSON),
    ('{"scenario":{"groups":[],"steps":[]}}}', NOT_JSON),
    ('{"scenario":%s,"id":}' % CLOCK, NOT_JSON),
    ('{"scenario":{"groups":[],"steps":[1 2]}}', NOT_JSON),
    ('{"scenario":7}', {"id": None, "pointer": "/scenario", "fault": 2, "name": "Shape"}),
    (r'{"\u0073cenario":7}', {"id": None, "pointer": "/scenario", "fault": 2, "name": "Shape"}),
    ('{"scenario":null}', {"id": None, "pointer": "/scenario", "fault": 2, "name": "Shape"}),
    ('{"scenario":[]}', {"id": None, "pointer": "/scenario", "fault": 2, "name": "Shape", "wanted": LIST}),
    ('{"scenario":[%s}' % CLOCK, NOT_JSON),
    ('{"id":3,"scenario":[%s] 7}' % CLOCK, NOT_JSON),
    ('{"id":4,"scenario":[%s,]}' % CLOCK, NOT_JSON),
    ('{"scenario":[%s,{"groups":[],"steps":[{"clock":-1}]}]}' % CLOCK, {"id": None, "pointer": "/scenario/1/steps/0/clock", "fault": 3, "name": "OutOfRange"}),
    ('{"scenario":[%s,[%s]]}' % (CLOCK, CLOCK), {"id": None, "pointer": "/scenario/1", "fault": 2, "name": "Shape"}),
)

# Lives that stop: nothing is pending, or some events are, which are lost.
FALLING = (
    [{"clock": 9}, {"clock": 8}],
    [{"clock": 9}, {"flush": True}, {"clock": 10}, {"drive": [25_000, 10_000]}, {"clock": 3}, {"clock": 11}],
    [*[{"clock": at} for at in range(20)], {"flush": True}, {"clock": 18}],
)


def counts(outputs):
    """How often the train was tripped, and each brake was commanded anew, from a power-up on that commands the emergency brake."""
    found, mode, brake = Counter(), "SB", "emergency"
    for one in outputs:
        found["trips"] += one["mode"] == "TR" != mode
        if one["brake"] != brake:
            found[f"{one['brake']}_brakes"] += 1
        mode, brake = one["mode"], one["brake"]
    return {name: found[name] for name in ("trips", "service_brakes", "emergency_brakes")}


def chosen(outputs, which):
    """The outputs that an option prints."""
    if which == "changes":
        return [one for before, one in zip([None, *outputs], outputs) if before is None or any(one[name] != before[name] for name in OUTPUT[1:])]
    return {"all": outputs, "last": outputs[-1:], "none": []}[which]


class Case:
    """A scenario, how it is played, and what is wanted of it by the reference model."""

    def __init__(self, name, scenario, lines, slots, given, digest=True):
        self.name, self.scenario, self.slots, self.given, self.digest = name, scenario, slots, given, digest
        asked = scenario if given is None else scenario | {"cold": given}
        lines = lived(asked) if lines is None or given is not None else lines
        printed, self.status = wanted_of(asked, lines)
        self.asked, self.end = asked, printed[-1]
        self.outputs = [{name: one[name] for name in OUTPUT} for one in printed[1:-1]]
        disk = Disk.of(image_of(slots))
        live(disk, asked)
        self.image = disk.data()

    def members(self):
        """What a line has."""
        return {"id": self.name, "scenario": self.scenario, "slots": self.slots, **({} if self.given is None else {"cold": self.given}),
                **({} if self.digest is None else {"sha256": self.digest})}

    def line(self, id, blanks):
        """The line, whose members stand in any order, with blanks between them."""
        members = list(self.members().items())
        random.Random(id).shuffle(members)
        gap = " " * blanks
        return "{" + ",".join(f"{gap}{json.dumps(name)}{gap}:{gap}{json.dumps(value)}{gap}" for name, value in members) + "}"

    def wanted(self, id, line, which, image):
        end = {} if self.end["end"] == "done" else {name: self.end[name] for name in ("step", "number", "name")}
        return {"id": id, "line": line, "status": self.end["end"], **end, "events": len(self.outputs), **counts(self.outputs),
                "sha256": hashlib.sha256(self.image).hexdigest() if self.digest else None, "image": image, "outputs": chosen(self.outputs, which)}


def life_on(disk, scenario):
    """A life of the plain unit on a disk: its outputs, and how it ends."""
    outputs, at = [], None
    unit = Unit(disk, WORDS[scenario.get("cold", 0)])
    try:
        for at, asked in placed(scenario):
            if asked is None or len(unit.pending) == MOST_PENDING:
                outputs += unit.flush()
            if asked is not None:
                unit.accept(*event_of(*asked)[1:3])
        outputs += unit.flush()
        end = {"status": "done"}
    except Refused as refused:
        number, name = str(refused).split()
        end = {"status": "stopped", "step": at, "number": int(number), "name": name}
    values = [(event, one.mode, None if one.level == "-" else int(one.level), one.brake, one.limit, signs_of(one.indications)) for event, one in outputs]
    return [dict(zip(OUTPUT, one)) for one in values], end


class Lives:
    """Scenarios that are lives after one another on one journal, and what is wanted of them by the plain unit."""

    def __init__(self, name, scenarios, slots, given):
        self.name, self.scenarios, self.slots, self.given = name, scenarios, slots, given
        self.asked = [one if given is None else one | {"cold": given} for one in scenarios]
        disk = Disk.of(image_of(slots))
        self.ends, self.outputs, self.images = [], [], []
        for one in self.asked:
            outputs, end = life_on(disk, one)
            self.outputs.append(outputs)
            self.ends.append(end)
            self.images.append(disk.data())
        self.status = max(end["status"] != "done" for end in self.ends)

    def members(self):
        """What a line has."""
        return {"id": self.name, "scenario": self.scenarios, "slots": self.slots, "sha256": True, **({} if self.given is None else {"cold": self.given})}

    def wanted(self, line, which, image):
        """The line that is printed; the images are numbered from this number on, if they are kept."""
        lives = [end | {"events": len(outputs)} | counts(outputs) | {
            "sha256": hashlib.sha256(held).hexdigest(), "image": None if image is None else image + number, "outputs": chosen(outputs, which)}
            for number, (end, outputs, held) in enumerate(zip(self.ends, self.outputs, self.images))]
        return {"id": self.name, "line": line, "lives": lives}


class Plays(Compared):
    def __init__(self, lab, etcs, folder):
        super().__init__()
        self.lab, self.etcs, self.folder = lab, etcs, folder
        self.met = Counter()

    def play(self, text, *words):
        """The objects that are printed for some lines, the status, and what is said."""
        printed, said, status = run(self.lab, ["play", *words], text)
        return objects(printed), status, said

    def cases(self):
        for path in sorted((TOP / "examples").glob("*/*.json")):
            scenario = json.loads(path.read_text())
            yield Case(f"example {path.parent.name}", scenario, lived(scenario), 16, None)
        for number, steps in enumerate(FALLING):
            yield Case(f"a clock that falls, {number}", {"groups": [], "steps": steps}, None, 16, None)
        yield from self.random_cases(SCENARIOS, SEED)

    def random_cases(self, count, seed):
        numbers, chance = Numbers(seed), random.Random(seed)
        for number in range(count):
            made = Played(numbers)
            yield Case(f"scenario {number}", made.scenario(), made.life.lines, chance.choice(SLOTS), chance.choice((None, None, 0, 1, 2)),
                       chance.choice((True, True, False, None)))

    def many(self, which, cases):
        """All in one process, the images kept."""
        images = self.folder / f"images {which}"
        images.mkdir()
        text = "".join(("\n" if number % 5 == 0 else "") + case.line(case.name, number % 3) + "\n" for number, case in enumerate(cases))
        found, status, said = self.play(text[:-1], "--outputs", which, "--images", images)
        self.unless((status, said) == (max(case.status for case in cases), "") and len(found) == len(cases), f"{which}: status {status}, {said}")
        at = 0
        for number, (case, one) in enumerate(zip(cases, found)):
            at += 2 if number % 5 == 0 else 1
            self.same_json(f"{which}, {case.name}", one, case.wanted(case.name, at, which, number + 1))
            left = images / f"{number + 1}.image"
            self.unless(left.exists() and left.read_bytes() == case.image, f"{which}, {case.name}: another image")
            self.met["outputs"] += len(case.outputs)
            self.met[case.end["end"]] += 1
            self.met.update(name for name, count in counts(case.outputs).items() if count)

    def lists(self):
        """Lists of scenarios: each is a life on the journal that the one before left, as `etcs run` runs it on that image. One scenario in a list
        is as one that is in none."""
        numbers, chance = Numbers(SEED + 1), random.Random(SEED + 1)
        made = [Played(numbers).scenario() for _ in range(LISTS)] + [{"groups": [], "steps": steps} for steps in FALLING]
        lists = [Lives(f"list {number}", [chance.choice(made) for _ in range(chance.randint(1, MOST_LIVES))], chance.choice(SLOTS),
                       chance.choice((None, None, 0, 1, 2))) for number in range(LISTS)]
        text = "".join(json.dumps(one.members(), indent=chance.choice((None, 1))).replace("\n", " ") + "\n" for one in lists)
        for which in ("all", "changes"):
            images, image = self.folder / f"lists {which}", 1
            images.mkdir()
            found, status, said = self.play(text, "--outputs", which, "--images", images)
            self.unless((status, said, len(found)) == (max(one.status for one in lists), "", len(lists)), f"lists: status {status}, {said}, {len(found)}")
            for number, (one, other) in enumerate(zip(lists, found)):
                self.same_json(f"{which}, {one.name}", other, one.wanted(number + 1, which, image))
                for held in one.images:
                    path = images / f"{image}.image"
                    self.unless(path.exists() and path.read_bytes() == held, f"{which}, {one.name}: image {image} is another")
                    image += 1
                self.met["later"] += len(one.scenarios) - 1
        for one in lists[::6]:
            path, image = self.folder / "scenario.json", self.folder / "image"
            run(self.etcs, ["format", image, one.slots])
            for scenario, outputs, end, held in zip(one.asked, one.outputs, one.ends, one.images):
                path.write_text(json.dumps(scenario))
                lines, _, _ = run(self.etcs, ["run", path, image])
                printed = RunRows.as_printed("".join(json.dumps(output) + "\n" for output in outputs))
                if end["status"] == "stopped":
                    printed += f"stopped {end['number']} {end['name']}\n"
                self.same(f"etcs run, {one.name}", (lines, image.read_bytes()), (printed, held))
            path.write_text(json.dumps(one.asked, indent=2))
            found, status, said = self.play(None, "--outputs", "all", "--slots", one.slots, path)
            (wanted,) = [one.wanted(None, "all", None) | {"id": None}]
            for life in wanted["lives"]:
                life["sha256"] = None
            self.same(f"a file, {one.name}", (found, status, said), ([wanted], one.status, ""))

    def as_run(self, cases):
        """As `etcs run` on an image in a file."""
        path, image = self.folder / "scenario.json", self.folder / "image"
        for case in cases:
            lines, status = self.ran(case, path, image)
            found, other, _ = self.play(json.dumps({"scenario": case.asked, "sha256": True}), "--outputs", "all", "--slots", case.slots)
            if not self.unless(len(found) == 1, f"{case.name}: {len(found)} lines"):
                continue
            one = found[0]
            same = self.play(None, "--outputs", "all", "--slots", case.slots, path)
            self.same(f"a file, {case.name}", same, ([one | {"line": None, "sha256": None}], other, ""))
            printed = RunRows.as_printed("".join(json.dumps(output) + "\n" for output in one["outputs"]))
            if one["status"] == "stopped":
                printed += f"stopped {one['number']} {one['name']}\n"
            self.same(f"etcs run, {case.name}", (status, lines, hashlib.sha256(image.read_bytes()).hexdigest()), (other, printed, one["sha256"]))

    def ran(self, case, path, image):
        """The lines of `etcs run` and its status."""
        path.write_text(json.dumps(case.asked))
        run(self.etcs, ["format", image, case.slots])
        lines, _, status = run(self.etcs, ["run", path, image])
        return lines, status

    def random_only(self, count, seed):
        """Random scenarios, each by `etcs_lab play` and by `etcs run`: the outputs and the image of the reference model."""
        for done in range(0, count, SCENARIOS):
            with tempfile.TemporaryDirectory() as folder:
                self.folder = Path(folder)
                cases = list(self.random_cases(min(SCENARIOS, count - done), seed + done // SCENARIOS))
                self.many("all", cases)
                for case in cases:
                    lines, status = self.ran(case, self.folder / "scenario.json", self.folder / "image")
                    printed = RunRows.as_printed("".join(json.dumps(output) + "\n" for output in case.outputs))
                    if case.end["end"] == "stopped":
                        printed += f"stopped {case.end['number']} {case.end['name']}\n"
                    self.same(f"etcs run, {case.name}", (lines, status, (self.folder / "image").read_bytes()), (printed, case.status, case.image))
        return self.end(f"play: {self.count} comparisons, {count} random scenarios with {self.met['outputs']} outputs by etcs_lab play and etcs run")

    def faults(self):
        """A line that can't be played doesn't stop the others."""
        good = '{"id":"good","scenario":%s}' % CLOCK
        found, status, said = self.play("".join(f"{line}\n{good}\n" for line, _ in FAULTS))
        if not self.unless((status, said, len(found)) == (1, "", 2 * len(FAULTS)), f"faults: status {status}, {said}, {len(found)} lines"):
            return
        for number, (line, wanted) in enumerate(FAULTS):
            one, after = found[2 * number], found[2 * number + 1]
            all_of = {"id": wanted["id"], "line": 2 * number + 1, "status": "refused"} | wanted
            self.same_json(line, one, all_of if "wanted" in wanted else all_of | {"wanted": one.get("wanted")})
            self.unless(after["status"] == "done" and after["line"] == 2 * number + 2, f"after {line}: {after}")
        path = self.folder / "faulty.json"
        for text, wanted in (('{"groups":[],"steps":[{"clock":-1}]}', ("/steps/0/clock", "OutOfRange")), ("[%s" % CLOCK, ("", "NotJson")), ("[]", ("", "Shape"))):
            path.write_text(text)
            (one,), status, _ = self.play(None, path)
            self.same(f"a file with a fault, {text}", (one["pointer"], one["name"], status), (*wanted, 1))

    def several(self):
        """Several files: each line has its file, images are numbered on, and a file that can't be read or has no scenario doesn't stop the others."""
        images, room = self.folder / "of several", self.folder / "several"
        for folder in (images, room):
            folder.mkdir()
        lines, one, empty, odd, gone, end = (room / name for name in ("lines", "one.json", "empty", 'a "b" \\ c', "gone", "end"))
        good = '{"id":"a","scenario":%s}\n' % CLOCK
        lines.write_text(good + "{\n")
        one.write_text('[%s,%s]' % (CLOCK, CLOCK))
        empty.write_text("\n")
        odd.write_text("\n" + good)
        end.write_text(good + f"{' ' * LONGEST} ")
        found, status, said = self.play(good, "--images", images, lines, gone, one, "-", empty, odd, room, end, one)
        self.same("several files", [(each["file"], each["line"], [life["status"] for life in each.get("lives", [each])],
                                     [life.get("image") for life in each.get("lives", [each])]) for each in found], [
            (str(lines), 1, ["done"], [1]), (str(lines), 2, ["refused"], [None]), (str(one), None, ["done", "done"], [3, 4]), ("-", 1, ["done"], [5]),
            (str(odd), 2, ["done"], [6]), (str(end), 1, ["done"], [7]), (str(end), 2, ["unread"], [None]), (str(one), None, ["done", "done"], [9, 10])])
        self.same("what isn't played of several files", (said, status), (
            f"etcs_lab: {gone}: can't be read\netcs_lab: {empty}: has no scenario\netcs_lab: {room}: can't be read from line 1 on\n"
            f"etcs_lab: {end}: line 2 has more than {LONGEST} bytes; it and what follows it isn't read\n", 3))
        self.same("images of several files", sorted(int(each.stem) for each in images.iterdir()), [1, 3, 4, 5, 6, 7, 9, 10])
        for files, wanted in (((one, odd), 0), ((one, empty), 1), ((empty, one), 1), ((gone, lines), 3), ((lines, gone), 3), ((empty, empty), 1)):
            self.same(f"the status of {files}", self.play(None, *files)[1], wanted)
        self.same("standard input twice", [each["file"] for each in self.play(good, "-", "-")[0]], ["-"])
        found, _, _ = self.play(None, odd, odd)
        self.same("each as by itself", found, 2 * [{"file": str(odd)} | self.play(None, odd)[0][0]])
        self.unless("file" not in self.play(None, odd)[0][0], "one file is named")

    def unread(self):
        """Nothing to play, a file that can't be read, a line without an end, an output that takes nothing, images that can't be written."""
        path = self.folder / "lines"
        for text in ("", "\n \n\t\n"):
            path.write_text(text)
            self.same("nothing", self.play(None, path), ([], 1, f"etcs_lab: {path}: has no scenario\n"))
            self.same("nothing on standard input", self.play(text), ([], 1, "etcs_lab: standard input: has no scenario\n"))
        for path in (self.folder / "none", self.folder / "none.json"):
            self.same("no file", self.play(None, path), ([], 3, f"etcs_lab: {path}: can't be read\n"))
        self.same("a folder", self.play(None, self.folder)[1:], (3, f"etcs_lab: {self.folder}: can't be read from line 1 on\n"))
        with subprocess.Popen([self.lab, "play", "/dev/zero"], stdout=subprocess.PIPE, stderr=subprocess.PIPE) as process:
            printed, said = process.communicate(timeout=60)
        self.same("an endless line", (printed, said, process.returncode), (
            b'{"id":null,"line":1,"status":"unread","name":"TooLong"}\n',
            f"etcs_lab: /dev/zero: line 1 has more than {LONGEST} bytes; it and what follows it isn't read\n".encode(), 1))
        long = '{"id":1,"scenario":%s}' % CLOCK
        found, status, said = self.play(f"{long}{' ' * (LONGEST - len(long))}\n{long}\n")
        self.unless(([one["status"] for one in found], status, said) == (["done", "done"], 0, ""), f"the longest line: {found} {status} {said}")
        path = self.folder / "one"
        path.write_text(long)
        self.unless(status_of_full(self.lab, ["play", path]) == 1, "a full device")
        self.same("other outputs", self.play(long, "--outputs", "some")[::2], ([], "error: invalid value for '--outputs <WHICH>'\n"
                  "  [possible values: all, last, changes, none]\n\nFor more information, try '--help'.\n"))
        self.images(path)

    def images(self, path):
        """An image that is there stays, and no part of one that can't be written is left."""
        images = self.folder / "few"
        self.same("no folder", self.play(None, "--images", images, path), ([], 3, f"etcs_lab: {images}/1.image: can't be made\n"))
        images.mkdir()
        (images / "1.image").write_text("mine")
        self.same("an image is there", self.play(None, "--images", images, path), (
            [], 1, f"etcs_lab: {images}/1.image: is there already, and stays as it is\n"))
        self.same("it stays", (images / "1.image").read_text(), "mine")
        (images / "1.image").unlink()
        done = subprocess.run(["sh", "-c", 'ulimit -f 8; trap "" XFSZ; exec "$@"', "sh", self.lab, "play", "--images", images, path],
                              capture_output=True, text=True)
        self.same("no room", (done.stdout, done.stderr, done.returncode, os.listdir(images)), (
            "", f"etcs_lab: {images}/1.image: can't be written\n", 3, []))

    def from_python(self, cases):
        """The same by gaknifur.play, of which one that nobody reads to its end leaves no process."""
        os.environ["GAKNIFUR_ETCS_LAB"] = str(self.lab)
        from gaknifur import play
        from gaknifur.program import Failed
        for number, (case, one) in enumerate(zip(cases, play((case.members() for case in cases), outputs="changes"), strict=True)):
            self.same(f"python, {case.name}", one, case.wanted(case.name, number + 1, "changes", None))
        (one,) = play([json.loads(CLOCK)])
        self.same("python, a scenario alone", (one["id"], one["status"], one["events"]), (None, "done", 1))
        first = play({"id": number, "scenario": json.loads(CLOCK)} for number in range(10**9))
        self.same("python, the first of many", next(first)["id"], 0)
        first.close()

        def broken():
            yield json.loads(CLOCK)
            raise ValueError("mine")

        for name, asked, options, wanted in (
                ("nothing", [], {}, "Failed: standard input: has no scenario"), ("an error of the caller", broken(), {}, "ValueError: mine"),
                ("no folder", [json.loads(CLOCK)], {"images": self.folder / "no"}, f"Failed: {self.folder}/no/1.image: can't be made")):
            try:
                list(play(asked, **options))
                self.unless(False, f"python, {name}: no error")
            except (Failed, ValueError) as error:
                self.same(f"python, {name}", f"{type(error).__name__}: {error}", wanted)

    def judged(self):
        cases = list(self.cases())
        for which in ("all", "last", "changes", "none"):
            self.many(which, cases)
        self.lists()
        self.as_run(cases[::4])
        self.from_python(cases[::7])
        self.faults()
        self.several()
        self.unread()
        for word in ("done", "stopped", "trips", "service_brakes", "emergency_brakes"):
            self.unless(self.met[word], f"no scenario has {word}")
        self.unless(self.met["later"] >= LEAST_LATER, f"{self.met['later']} later lives are too few")
        self.unless(self.met["outputs"] >= 4 * LEAST_OUTPUTS, f"{self.met['outputs'] // 4} outputs are too few")
        return self.end(f"play: {self.count} comparisons, {len(cases)} scenarios in 4 ways, a fourth of them by etcs run")


def main(lab, etcs, scenarios=None, seed=SEED):
    if scenarios is not None:
        return Plays(lab, etcs, None).random_only(int(scenarios), int(seed))
    with tempfile.TemporaryDirectory() as folder:
        return Plays(lab, etcs, Path(folder)).judged()


if __name__ == "__main__":
    sys.exit(main(*sys.argv[1:]))
