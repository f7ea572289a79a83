#!/usr/bin/env python3
"""What `etcs_lab run` has to print: hand-written cases, and all lines of the examples and of random scenarios, compared with the plain program and
the causes that it works out (tests/model/why.py). `etcs run` has to print the same outputs of the same scenario on an empty image.

    tests/etcs_lab/run_rows.py ETCS_LAB ETCS     run both programs on each scenario, and compare
"""
import json
import sys
import tempfile
from collections import Counter
from itertools import product
from pathlib import Path

HERE = Path(__file__).resolve().parent
TOP = HERE.parents[1]
sys.path[:0] = [str(HERE), str(TOP / "tests"), str(TOP / "tests/model"), str(TOP / "tests/hostile")]
import program  # noqa: E402
from compared import Compared, is_same, lines_differ, objects, run, status_of_full  # noqa: E402
from items import Kept  # noqa: E402
from journal import SIGNS, signs_of  # noqa: E402
from life import Life  # noqa: E402
from random_inputs import Made  # noqa: E402
from random_lists import Numbers  # noqa: E402
from why import TRIPS, WORDS, Reasons  # noqa: E402

SCENARIOS, SEED = 2_000, 42
LEAST_LINES = 20_000  # so many outputs at least
# Texts that are no scenario, the place of the fault, and what is wanted there.
TEXT, SCENARIO = "JSON (RFC 8259)", "an object of groups, steps and perhaps cold"
GROUP, STEP = "an object of at, spacing and balises, within their limits", "drive, telegram, clock, driver or flush, within its limits"
FAULTS = (
    ("", "", TEXT), ('{"groups":[],"steps":[}', "", TEXT), ("[]", "", SCENARIO), ('{"groups":[],"steps":[],"more":1}', "", SCENARIO),
    ('{"steps":[]}', " at /groups", "a list of groups"), ('{"groups":[{}]}', " at /steps", "a list of steps"),
    ('{"groups":[{}],"steps":[],"cold":3}', " at /cold", "0, 1 or 2"),
    ('{"groups":[{"at":1,"spacing":1,"balises":["90"]},{"at":0,"spacing":1,"balises":["90"]}],"steps":[]}', " at /groups/1", GROUP),
    ('{"groups":[],"steps":[{"clock":-1}]}', " at /steps/0/clock", STEP), ('{"groups":[],"steps":[{"clock":1},{"telegram":"9"}]}', " at /steps/1/telegram", STEP),
    ('{"groups":[],"steps":[{"clock":1,"flush":true}]}', " at /steps/0", STEP), ('{"groups":[],"steps":[{"clok":1}]}', " at /steps/0", STEP),
)
MOST_PENDING = 8
COLD = ("unknown", "moved", "not_moved")

# By hand. Each step of a scenario gives the events that it says: a drive of 250 m three readings, and a telegram where it passes a balise.
SR_STEPS = [{"driver": [1, "A 1"]}, {"driver": [4, 1]}, {"driver": [3, 20000, 160000, 70, 0, 15]}, {"driver": [6]}]
STEPS_BY_HAND = (
    ("no step", [], [], "done"),
    ("one step each", SR_STEPS, [0, 1, 2, 3], "done"),
    ("flushes give no event", [{"flush": True}, {"clock": 5}, {"flush": True}, {"clock": 6}], [1, 3], "done"),
    ("a drive gives readings", [{"clock": 1}, {"drive": [25000, 10000]}, {"drive": [0, 0]}], [0, 1, 1, 1, 2], "done"),
    ("a drive over a balise", [{"drive": [30000, 10000]}, {"clock": 1}], [0, 0, 0, 0, 0, 1], "done"),  # 100, 100, 50 m, a telegram, 50 m
    ("more than eight events", [{"clock": 1}] * 20, list(range(20)), "done"),
    ("many flushes", [{"clock": 1}] * 4_000, list(range(4_000)), "done"),
    ("a clock that falls", [{"clock": 9}, {"flush": True}, {"clock": 10}, {"clock": 3}, {"clock": 11}], [0], (3, 11, "ClockBack")),
)
BALISE = [{"at": 25000, "spacing": 1, "balises": ["90007F802001FFC0"]}]
# The keys of a scenario in their orders. Where the steps come before the groups, the scenario is read as a whole value, not as its tokens come.
ORDERS = (("groups", "steps"), ("cold", "groups", "steps"), ("groups", "steps", "cold"), ("steps", "groups"))


def ends_of(end):
    return {"end": "done"} if end == "done" else dict(zip(("end", "step", "number", "name"), ("stopped", *end)))


def placed(scenario):
    """The inputs of a scenario, each with the step that it comes from; None is a flush."""
    laid, front = program.balises(scenario["groups"]), 0
    for at, step in enumerate(scenario["steps"]):
        (key, value), = step.items()
        if key == "drive":
            yield from ((at, asked) for asked in program.drive(laid, front, *value))
            front += value[0]
        elif key == "flush":
            yield at, None
        else:
            yield at, (key, *(value if key == "driver" else [value]))


class ReportingLife(Life):
    """A life that reports each event as `etcs_lab run` does, but for the step."""

    def __init__(self, kept=Kept(), cold="unknown"):
        super().__init__(kept, cold)
        self.reasons, self.lines = Reasons(self, 0), []

    def take(self, word, value):
        output = super().take(word, value)
        number = len(self.lines) + 1
        self.reasons.note(number)
        place = self.place()
        more = {
            "mode": output.mode, "level": None if output.level == "-" else int(output.level), "indications": signs_of(output.indications),
            "place_cm": place[0], "uncertainty_cm": place[1],
        }
        self.lines.append((self.reasons.members(number), more))
        return output


def wanted_of(scenario, lines):
    """The lines of a run and its status, from the line of each event of the life."""
    steps = scenario["steps"]
    printed, pending, moment, event = [{"scenario": {"cold": COLD[scenario.get("cold", 0)], "steps": len(steps)}}], [], 0, 0
    for at, asked in placed(scenario):
        if asked is None or len(pending) == MOST_PENDING:
            printed += pending
            pending = []
        if asked is None:
            continue
        if asked[0] == "clock":
            if asked[1] < moment:
                return [*printed, ends_of((at, 11, "ClockBack"))], 1
            moment = asked[1]
        members, more = lines[event]
        pending.append(members | {"step": at} | more)
        event += 1
    return [*printed, *pending, ends_of("done")], 0


def lived(scenario):
    """The line of each event of a scenario, worked out anew."""
    life = ReportingLife(Kept(), program.WORDS[scenario.get("cold", 0)])
    for asked in program.inputs_of(scenario):
        if asked is not None:
            life.take(*program.event_of(*asked)[1:3])
    return life.lines


class Played(Made):
    """A random scenario, made along with a life and its lines."""

    def __init__(self, numbers):
        super().__init__(numbers, self)

    lives = property(lambda self: [None])  # an image in which it is the first life

    @staticmethod
    def begun(cold):
        return ReportingLife(Kept(), cold)


class RunRows(Compared):
    def __init__(self, lab, etcs, folder):
        super().__init__()
        self.lab, self.etcs, self.folder = lab, etcs, folder
        self.path, self.image = folder / "scenario.json", folder / "image"
        self.outputs = 0
        self.met = Counter()

    @staticmethod
    def ran(program, *words):
        printed, said, status = run(program, words)
        return status, printed, said

    def play(self, text):
        self.path.write_text(text)
        return self.ran(self.lab, "run", self.path)

    def by_hand(self):
        for (name, steps, places, end), keys in product(STEPS_BY_HAND, ORDERS):
            values = {"groups": BALISE if "balise" in name else [], "steps": steps, "cold": 1}
            status, text, said = self.play(json.dumps({key: values[key] for key in keys}))
            printed = objects(text)
            first, events, last = printed[:1], printed[1:-1], printed[-1:]
            cold = "moved" if "cold" in keys else "unknown"
            self.unless(
                status == (0 if end == "done" else 1) and not said and is_same(first, [{"scenario": {"cold": cold, "steps": len(steps)}}])
                and is_same([line.get("step") for line in events], places)
                and is_same([line.get("event") for line in events], list(range(1, len(places) + 1)))
                and is_same(last, [ends_of(end)]), f"by hand: {name}, {keys}: status {status}, {said}{text}")
            self.as_run(f"by hand: {name}, {keys}", status, text)
            self.met["stopped"] += end != "done"

    def faults(self):
        """What is no scenario is reported on standard error, as `etcs run` does, with its place, and plays nothing."""
        for text, place, wanted in FAULTS:
            status, out, said = self.play(text)
            other, refusal, _ = self.ran(self.etcs, "run", self.path, self.image)
            self.unless((status, out, said) == (other, "", f"etcs_lab: {self.path}: {refusal.strip()}{place}; wanted: {wanted}\n"),
                        f"{text!r}: {status} {out} {said}, {refusal}")
        status, out, said = self.ran(self.lab, "run", self.folder / "nothing")
        self.unless((status, out) == (3, "") and said, f"no file: status {status}, {out}{said}")
        self.path.write_text('{"groups":[],"steps":[{"clock":1}]}')
        status = status_of_full(self.lab, ["run", self.path])
        self.unless(status == 1, f"a full device: status {status}")

    def compare_with_plain(self, name, scenario, lines):
        """Compared with the plain program, and along with `etcs run` on an empty image."""
        status, text, said = self.play(json.dumps(scenario))
        wanted_lines, wanted = wanted_of(scenario, lines)
        differs = lines_differ(text, wanted_lines)
        self.unless((status, said, differs) == (wanted, "", None), f"{name}: {json.dumps(scenario)}\n  status {status}, wanted {wanted} {said}\n  {differs}")
        self.as_run(name, status, text)
        for line in wanted_lines[1:-1]:
            self.outputs += 1
            self.met.update(word for word, *_ in WORDS.values() if line[word] is not None)
            self.met[f"trip {line['trip_cause']}"] += 1
        self.met["stopped"] += wanted_lines[-1]["end"] == "stopped"

    def as_run(self, name, status, text):
        """As `etcs run` does on an empty image."""
        self.ran(self.etcs, "format", self.image, 2)
        other, lines, _ = self.ran(self.etcs, "run", self.path, self.image)
        self.unless((status, self.as_printed(text)) == (other, lines), f"{name}: {text}  etcs run prints {other} {lines}")

    @staticmethod
    def as_printed(text):
        """The lines of `etcs run` that say the same."""
        said = []
        for line in map(json.loads, text.splitlines()):
            if "event" in line:
                shown = sum(1 << SIGNS.index(sign) for sign in line["indications"])
                level = "-" if line["level"] is None else line["level"]
                said.append(f"event {line['event']} mode {line['mode']} level {level} brake {line['brake']} limit {line['limit_m_per_h']} "
                            f"ind {shown}")
            elif line.get("end") == "stopped":
                said.append(f"stopped {line['number']} {line['name']}")
        return "".join(line + "\n" for line in said)

    def judged(self):
        self.by_hand()
        self.faults()
        for path in sorted((TOP / "examples").glob("*/*.json")):
            scenario = json.loads(path.read_text())
            self.compare_with_plain(f"example {path.parent.name}", scenario, lived(scenario))
        numbers = Numbers(SEED)
        for number in range(SCENARIOS):
            made = Played(numbers)
            self.compare_with_plain(f"scenario {number}", made.scenario(), made.life.lines)
        print(f"run: {self.count} comparisons, {self.outputs} outputs of {SCENARIOS} random scenarios and the examples, {self.differ} differ")
        for word in ["stopped", *(word for word, *_ in WORDS.values()), *(f"trip {why}" for why in TRIPS)]:
            if not self.met[word] and word != "in_system_failure":  # 2^40 cm would take more events than a scenario has
                self.unless(False, f"no scenario has {word}")
        self.unless(self.outputs >= LEAST_LINES, f"{self.outputs} outputs are too few")
        return 1 if self.differ else 0


def main(lab, etcs):
    with tempfile.TemporaryDirectory() as folder:
        return RunRows(lab, etcs, Path(folder)).judged()


if __name__ == "__main__":
    sys.exit(main(*sys.argv[1:]))
