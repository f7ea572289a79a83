"""Trains in a closed loop: how they move, by hand; and over the plain kernel what comes of a drive, and what is reported of it."""
import contextlib
import importlib
import io
import tempfile
import unittest
from collections.abc import Callable
from decimal import Decimal
from pathlib import Path
from types import SimpleNamespace
from typing import Any
from unittest.mock import patch

from gaknifur.cases import case_runner, cases
from gaknifur.cases.case_runner import Missed, Played, with_speeds, with_trains
from gaknifur.cli import drive_commands
from gaknifur.program import Failed
from gaknifur.simulation import closed_loop, drives, driving
from gaknifur.simulation.drives import Drive, Driver, Train
from gaknifur.simulation.driving import Driven, Driving, Loop, Motion, Row
from gaknifur.simulation.scenarios import Scenario
from gaknifur.unit import Brake, Indication, Level, Mode, Output
from gaknifur.units import own_unit
from gaknifur.units.protocol import MODES
from gaknifur.yaml_files import document

from .plain_unit import PlainUnit
from .samples import InFolder, record

# An authority of 300 m. At a place of x cm the maximum safe front is at 1.05 * x + 500, so the limit is 0 from 28,095 cm on.
DRIVE = """\
  train: {acceleration: 0.6 m/s2, service: 0.9 m/s2, reaction: 0.5 s, build_up: 1 s}
  driver: {heeds: limit}
  time_step: 500 ms
  lasts: 100 s
  until: standstill
"""
STEPS = """
  - telegram: "NID_BG 2; 12: V_MAIN 24, L_ENDSECTION 300; 21: D_GRADIENT 0, Q_GDIR 1, G_A 0; 27: D_STATIC 0, V_STATIC 24, Q_FRONT 1"
  - enter_identity: IC 704
  - choose_level: 1
  - enter_train_data: {length: 200 m, maximum: 160 km/h, deceleration: 0.7 m/s2}
  - start
  - mark: started
"""
CASE = """\
test_case: a
feature: b
sections: [3.13]
rule: c
starting_conditions: d
lives: [{scenario: drive.yaml}]
expected:
  - {note: runs, at: {train_speed_kmh: {least: 20}}, expect: {mode: FS, brake: none}}
  - {note: within the limit, from: {mark: started}, always: {above_limit_kmh: {most: 0}}}
  - {note: no brake, from: {mark: started}, never: {brake: [service, emergency]}}
  - {note: stands, at: end, expect: {train_speed_kmh: 0, train_place_m: {least: 260, most: 280.95},
        beyond_location_m: {least: -40, most: -19.05}}}
"""


def plain_lines(digits: str) -> list[str]:
    """What the plain decoder finds, as `etcs decode` prints it."""
    decoded: Any = importlib.import_module("decoded")
    return [*decoded.lines_of(bytes.fromhex(digits)), "end"]


def output_members(output: Output) -> dict[str, Any]:
    """An output as a record says it."""
    return {"mode": MODES[output.mode], "level": None if output.level.value > 1 else output.level.value,
            "brake": driving.BRAKES[output.brake], "limit_m_per_h": output.limit_m_per_h,
            "indications": [one.name.lower() for one in output.indications if one.name]}


def played(driven: Driven, case: cases.Case) -> Played:
    """The records of a drive."""
    steps = [step for step in driven.steps if "flush" not in step]
    records = [record(0, "powerup", mode="SB", level=None, brake="emergency", limit_m_per_h=0, indications=["not_revalidated"])]
    for step, output in zip(steps, driven.outputs, strict=True):
        (word, value), = step.items()
        more = {"speed_m_per_h": value[1], "movement_cm": value[0]} if word == "drive" else {}
        kind = {"drive": "odometer", "driver": "driver", "telegram": "telegram", "clock": "clock"}[word]
        records.append(record(output.event, kind, **output_members(output), **more))
    trains = with_trains(with_speeds(records), [driven])
    return Played(trains, case_runner.marked(case, trains, [driven]))


class Trains(unittest.TestCase):
    """How a train moves. Braking ends at a standstill whatever the time step is."""

    def moved(self, train: Train, speed: float, ask: float, ms: int = 10) -> Motion:
        """A train that runs, and is braked to a standstill."""
        motion, moment = Motion(train), 0
        motion.speed = speed
        motion.command(0, ask)
        while motion.speed > 0:
            motion.move(moment, ms, 0.0)
            moment += ms
        return motion

    def test_it_pulls(self) -> None:
        motion = Motion(Train(50, 70, 90))
        for second in range(10):
            motion.move(1000 * second, 1000, 1.0)
        self.assertEqual((motion.speed, motion.place, motion.m_per_h), (500.0, 2500.0, 18_000.0))

    def test_it_brakes_at_once(self) -> None:
        for ms in (10, 500, 1000):
            self.assertAlmostEqual(self.moved(Train(50, 70, 90), 2000, 70, ms).place, 2000 ** 2 / 140, 6)

    def test_it_brakes_after_its_reaction(self) -> None:
        self.assertAlmostEqual(self.moved(Train(50, 70, 90, reaction_ms=1000), 2000, 90).place, 2000 + 2000 ** 2 / 180, 6)

    def test_its_brakes_build_up(self) -> None:
        # 2 s with a deceleration that grows evenly to 70: 2,000 * 2 - 70 * 4 / 6 cm, and 1,930 cm/s are left.
        self.assertAlmostEqual(self.moved(Train(50, 70, 70, build_up_ms=2000), 2000, 70).place,
                               4000 - 280 / 6 + 1930 ** 2 / 140, 0)

    def test_it_stands(self) -> None:
        motion = Motion(Train(50, 70, 70))
        motion.command(0, 70)
        motion.move(0, 500, 0.0)
        self.assertEqual((motion.speed, motion.place, motion.stands), (0.0, 0.0, True))


    def test_its_rates_depend_on_the_speed(self) -> None:
        # 1 m/s2 up to 18 km/h, which is 500 cm/s, and half of it beyond: 5 s, and 5 s more.
        train = Train(50, 70, 90, rates=(("acceleration", ((18_000, 100), (600_000, 50))), ("emergency", ((36_000, 120), (600_000, 90)))))
        motion = Motion(train)
        for second in range(10):
            motion.move(1000 * second, 1000, 1.0)
        # After 5 s it runs 18 km/h just so, and pulls a second more with 1 m/s2.
        self.assertEqual(motion.speed, 500.0 + 100 + 4 * 50)
        self.assertEqual([train.rate("emergency", speed) for speed in (36_000, 36_001)], [120, 90])
        self.assertEqual((train.rate("service", 1), train.strongest), (70, 120))

    def test_adhesion(self) -> None:
        # Half of 70 cm/s2 reaches the rails from 10 m on.
        train = Train(50, 70, 70, adhesion=((Decimal("0.5"), 1000, None),))
        self.assertEqual([train.grip(place) for place in (999, 1000)], [1.0, 0.5])
        self.assertAlmostEqual(self.moved(Train(50, 70, 70, adhesion=((Decimal("0.5"), 0, None),)), 2000, 70).place, 2000 ** 2 / 70, 6)


class Drivers(unittest.TestCase):
    """What a driver decides: power, and brake."""

    def test_he_is_late(self) -> None:
        late = Driving(Driver("limit", 0, late_ms=1000))
        # With steps of half a second he goes by the limit of two steps ago.
        self.assertEqual([late.decide(45_000, limit, 500) for limit in (50_000, 40_000, 40_000, 40_000)],
                         [(1.0, 0.0), (1.0, 0.0), (1.0, 0.0), (0.0, 1.0)])

    def test_he_is_hasty(self) -> None:
        self.assertEqual(Driving(Driver("limit", -8_000)).decide(44_000, 40_000, 500), (1.0, 0.0))

    def test_he_acknowledges(self) -> None:
        shown = Output(1, Mode.ON_SIGHT, Level.LEVEL_1, Brake.NONE, 0, Indication.ON_SIGHT | Indication.TRIP)
        runs, slow = Motion(Train(50, 70, 70)), Driving(Driver("limit", 0, acknowledges_ms=2000))
        runs.stands = False
        self.assertEqual([list(slow.acts(moment, runs, shown)) for moment in (0, 1999, 2000, 2500)], [[], [], [[10, 2]], []])
        self.assertEqual(list(Driving(Driver("limit", 0)).acts(9_000, runs, shown)), [])
        # A trip at standstill alone.
        quick, stands = Driving(Driver("limit", 0, acknowledges_ms=0)), Motion(Train(50, 70, 70))
        self.assertEqual(list(quick.acts(0, stands, shown)), [[10, 1], [10, 2]])

    def test_he_heeds_the_limit(self) -> None:
        driving_ = Driving(Driver("limit", 4_000))
        self.assertEqual(driving_.decide(0, 40_000, 500), (1.0, 0.0))
        self.assertEqual(driving_.decide(35_000, 40_000, 500), (0.0, 0.0))
        self.assertEqual(driving_.decide(38_500, 40_000, 500), (0.0, 0.5))
        self.assertEqual(driving_.decide(45_000, 40_000, 500), (0.0, 1.0))
        # The limit falls by 1,000 in half a second, so by 6,000 in three: he aims at 39,000 - 4,000 - 6,000.
        self.assertEqual(driving_.decide(34_000, 39_000, 500), (0.0, 1.0))

    def test_he_heeds_nothing(self) -> None:
        self.assertEqual(Driving(Driver("nothing", 4_000)).decide(99_000, 0, 500), (1.0, 0.0))


class Loops(InFolder):
    """Drives over the plain kernel."""

    def setUp(self) -> None:
        super().setUp()
        self.folder = self.room
        decodes = patch("gaknifur.program.decode", plain_lines)
        decodes.start()
        self.addCleanup(decodes.stop)

    def written(self, drive: str = DRIVE, groups: str = "", steps: str = STEPS) -> tuple[Scenario, Drive]:
        """A scenario with a drive."""
        path = self.folder / "drive.yaml"
        path.write_text(f"{groups}steps:{steps}drive:\n{drive}", encoding="utf-8")
        scenario, found = drives.read(path)
        assert found is not None
        return scenario, found

    def missed(self, unit: PlainUnit, drive: str = DRIVE) -> set[str]:
        """Which expected results of the case don't come."""
        scenario, found = self.written(drive)
        (self.folder / "x.case.yaml").write_text(CASE, encoding="utf-8")
        case, = cases.read(self.folder / "x.case.yaml")
        result = played(driving.play(unit, scenario, found), case)
        missed = set()
        for expected in case.expected:
            try:
                case_runner.judge(expected, result, {})
            except Missed:
                missed.add(expected.note)
        return missed

    def test_what_is_expected_comes(self) -> None:
        self.assertEqual(self.missed(PlainUnit()), set())

    def test_a_driver_who_heeds_nothing(self) -> None:
        self.assertEqual(self.missed(PlainUnit(), DRIVE.replace("heeds: limit", "heeds: nothing")), {"within the limit", "no brake", "stands"})

    def test_a_train_that_ignores_its_brakes(self) -> None:
        with patch.object(Motion, "brake", lambda self, wanted, seconds: 0.0):
            self.assertEqual(self.missed(PlainUnit()), {"within the limit", "no brake", "stands"})

    def test_a_unit_whose_brakes_are_swapped(self) -> None:
        swapped = {Brake.NONE: Brake.EMERGENCY, Brake.EMERGENCY: Brake.NONE, Brake.SERVICE: Brake.SERVICE}

        class Swapped(PlainUnit):
            """It commands the emergency brake where it should command none."""

            def flush(self) -> list[Output]:
                """The outputs, with other brakes."""
                return [Output(one.event, one.mode, one.level, swapped[one.brake], one.limit_m_per_h, one.indications)
                        for one in super().flush()]

        self.assertEqual(self.missed(Swapped()), {"runs", "no brake", "stands"})

    def test_the_inputs_of_the_unit(self) -> None:
        scenario, drive = self.written(DRIVE.replace("lasts: 100 s", "lasts: 4 s"), 'groups: [{at: 1 m, spacing: 1 m, balises: ["9000", "9001"]}]\n')
        driven = driving.play(PlainUnit(), scenario, drive)
        steps = [step for step in driven.steps if "flush" not in step][5:]
        # With 60 cm/s2 the front is at 30 * t * t cm: 8, 30, 68, 120 after the first four half seconds.
        self.assertEqual(steps[:9], [{"clock": 500}, {"drive": [8, 1080]}, {"clock": 1000}, {"drive": [22, 2160]}, {"clock": 1500},
                                    {"drive": [38, 3240]}, {"clock": 2000}, {"drive": [32, 4320]}, {"telegram": "9000"}])
        self.assertEqual(steps[9:13], [{"drive": [20, 4320]}, {"clock": 2500}, {"drive": [68, 5400]}, {"clock": 3000}])
        self.assertEqual([round(row.place_cm) for row in driven.rows[:4]], [8, 30, 68, 120])
        self.assertEqual(driven.heard[1:], [(100, "9000"), (100, "9001")])
        self.assertEqual((driven.rows[0].first_event, driven.rows[0].event, driven.rows[3].event), (6, 7, 15))

    def test_it_does_not_pull_while_it_is_braked(self) -> None:
        """Nor where that brake has no effect: it rolls on."""
        drive = DRIVE.replace("service: 0.9 m/s2", "service: 0 m/s2, emergency: 0.9 m/s2").replace("heeds: limit", "heeds: nothing")
        scenario, found = self.written(drive)
        braked = [row for row in driving.play(PlainUnit(), scenario, found).rows if row.brake == "service"]
        self.assertGreaterEqual(len(braked), 3)
        self.assertEqual({row.speed_m_per_h for row in braked}, {braked[0].speed_m_per_h})

    def test_an_odometer_that_measures_less(self) -> None:
        scenario, drive = self.written(DRIVE.replace("build_up: 1 s", "build_up: 1 s, odometer: 95 %"), steps=STEPS + "  - drive: 10 m at 5 km/h\n")
        loop = Loop(PlainUnit(), scenario, drive)
        driven = loop.play()
        measured = sum(step["drive"][0] for step in driven.steps if "drive" in step)
        self.assertEqual(measured, 1000 + round((loop.motion.place - 1000) * 0.95))
        self.assertEqual([step["drive"] for step in driven.steps if "drive" in step][0], [1000, 5000])

    def test_a_speedometer_and_readings_that_are_off(self) -> None:
        words = "build_up: 1 s, speedometer: 90 %, reading_error: 20 cm"
        scenario, drive = self.written(DRIVE.replace("build_up: 1 s", words).replace("lasts: 100 s", "lasts: 2 s"))
        readings = [step["drive"] for step in driving.play(PlainUnit(), scenario, drive).steps if "drive" in step]
        # The front is at 8, 30, 68, 120. It is reported 28, then not 10 but as before, 88, 100.
        self.assertEqual(readings, [[28, 972], [0, 1944], [60, 2916], [12, 3888]])

    def test_an_antenna_away_from_the_front(self) -> None:
        groups = 'groups: [{at: 1 m, spacing: 1 m, balises: ["9000", "9001"]}]\n'
        scenario, drive = self.written(DRIVE.replace("build_up: 1 s", "build_up: 1 s, antenna: 50 cm"), groups)
        loop = Loop(PlainUnit(), scenario, drive)
        driven = loop.play()
        at = driven.steps.index({"telegram": "9000"})
        self.assertEqual(sum(step["drive"][0] for step in driven.steps[:at] if "drive" in step), 150)
        # Distances count from the group; those of the telegram before the drive from the antenna.
        self.assertEqual([place for place, _ in driven.heard], [-50, 100, 100])

    def test_what_a_driver_does_once(self) -> None:
        acts = "driver: {heeds: nothing, acts: [{when: {place: 1 m}, after: 1 s, heeds: limit}, {when: {stands: true, time: 5 s}, do: close_desk}]}"
        scenario, drive = self.written(DRIVE.replace("driver: {heeds: limit}", acts).replace("  until: standstill\n", ""))
        driven = driving.play(PlainUnit(), scenario, drive)
        self.assertEqual(sum(step == {"driver": [11]} for step in driven.steps), 1)
        stood = next(at for at, row in enumerate(driven.rows) if row.time_ms >= 5000 and not row.speed_m_per_h)
        self.assertEqual([row.mode for row in driven.rows[stood:stood + 2]], ["FS", "SB"])

    def test_the_description(self) -> None:
        scenario, drive = self.written()
        driven = driving.play(PlainUnit(), scenario, drive)
        lines, last = drive_commands.describe(driven), driven.rows[-1]
        self.assertEqual(closed_loop.ends_of(driven), (30_000, 30_000))
        self.assertTrue(lines[0].startswith("FS, brake none: at 0.08 m after 0.5 s, speed 1.1, limit "))
        self.assertTrue(lines[-2].startswith(f"stopped: at {last.place_cm / 100:.2f} m after {last.time_ms / 1000:g} s, speed 0.0, limit "))
        self.assertEqual(lines[-1], f"the end of authority is at 300.00 m: {(30_000 - last.place_cm) / 100:.2f} m before it")
        text = drive_commands.csv_text(driven).splitlines()
        self.assertEqual(text[0], "time_ms,first_event,event,place_cm,speed_m_per_h,limit_m_per_h,above_m_per_h,brake,mode,braking_cm_per_s2")
        self.assertEqual(len(text), 1 + len(driven.rows))

    def test_the_end_for_the_direction_of_the_train(self) -> None:
        """Balises that are read in reverse: the authority of Q_DIR 0 counts; in their order that of Q_DIR 1."""
        head = "telegram N_PIG={} NID_C=1 NID_BG=4"
        decoded = {"AA": [head.format(0), "packet 12 Q_DIR=1 Q_SCALE=1 L_ENDSECTION=900", "packet 12 Q_DIR=0 Q_SCALE=1 L_ENDSECTION=300 D_DP=20", "bits 9"],
                   "BB": [head.format(1), "bits 9"]}
        with patch("gaknifur.program.decode", decoded.__getitem__):
            self.assertEqual(closed_loop.ends_of(driving.Driven(heard=[(100.0, "BB"), (400.0, "AA")])), (30_400, 32_400))
            self.assertEqual(closed_loop.ends_of(driving.Driven(heard=[(100.0, "AA"), (400.0, "BB")])), (90_100, 90_100))

    def test_faults_and_their_places(self) -> None:
        for wrong, message in (
                (DRIVE.replace("service", "servise"), 'drive.yaml:9:35: "servise" is not allowed here; did you mean "service"?'),
                (DRIVE.replace("0.6 m/s2", "0.6 m"), "drive.yaml:9:25: expected an acceleration, a number and cm/s2 or m/s2"),
                (DRIVE.replace("limit", "limits"), 'drive.yaml:10:19: "limits" is not allowed here; did you mean "limit"?'),
                (DRIVE.replace("500 ms", "10 ms").replace("100 s", "10001 s"), "drive.yaml:12:10: 1,000,100 time steps are more than 1,000,000"),
                (DRIVE.replace("0.6 m/s2", "[0.6 m/s2, 0.3 m/s2]"), "drive.yaml:9:26: each rate except the last one needs `up to`"),
                (DRIVE.replace("0.6 m/s2", "[0.6 m/s2 up to 40 km/h]"), "drive.yaml:9:26: each rate except the last one needs `up to`"),
                (DRIVE.replace("0.6 m/s2", "[1 m/s2 up to 40 km/h, 0.5 m/s2 up to 40 km/h, 0.2 m/s2]"), "drive.yaml:9:48: the speeds have to rise"),
                (DRIVE.replace("build_up: 1 s", "adhesion: [30 % from 7 m to 7 m]"), "drive.yaml:9:82: a stretch has to begin before it ends"),
                (DRIVE.replace("build_up: 1 s", "adhesion: [30 %]"), "drive.yaml:9:82: expected a share and a stretch"),
                (DRIVE.replace("build_up: 1 s", "adhesion: 101 %"), "drive.yaml:9:81: expected a number from 1 to 100 with %"),
                (DRIVE.replace("standstill", "rest"), 'drive.yaml:13:10: "rest" is not allowed here'),
                (DRIVE.replace("0.9 m/s2", "0 m/s2"), "drive.yaml:9:10: emergency is missing"),
                (DRIVE.replace("limit}", "limit, acts: [{when: {}, do: start}]}"), "drive.yaml:10:40: expected one of place, time, mode"),
                (DRIVE.replace("limit}", "limit, acts: [{when: {time: 1 s}}]}"), "drive.yaml:10:33: `when` needs one of do, heeds"),
                (DRIVE.replace("build_up: 1 s", "odometer: 5 %"), "drive.yaml:9:81: expected a number from 50 to 150 with %")):
            with self.assertRaises(Failed) as found:
                self.written(wrong)
            self.assertTrue(str(found.exception).removeprefix(f"{self.folder}/").startswith(message), f"{found.exception}\n{message}")

    def test_a_long_drive(self) -> None:
        """Its journal has the newest blocks alone, so that no case has such a drive."""
        scenario, drive = self.written(DRIVE.replace("100 s", "40000 s"))
        self.assertEqual((drive.cycles, drives.slots_for(scenario, drive)), (80_000, 65_536))
        (self.folder / "x.case.yaml").write_text(CASE, encoding="utf-8")
        with self.assertRaisesRegex(Failed, "x.case.yaml:6:9: the drives of a case have at most 65,536 time steps"):
            cases.read(self.folder / "x.case.yaml")
        self.written(DRIVE.replace("100 s", "32000 s"))
        self.assertEqual(cases.read(self.folder / "x.case.yaml")[0].slots, 64 + 8 + 64_000 + 5)

    def test_without_a_drive(self) -> None:
        (self.folder / "x.case.yaml").write_text(CASE.replace("scenario: drive.yaml", "steps: [start, {mark: started}]"), encoding="utf-8")
        with self.assertRaisesRegex(Failed, '"train_speed_kmh" is not allowed here'):
            cases.read(self.folder / "x.case.yaml")
        path = self.folder / "none.yaml"
        path.write_text("steps: [start]", encoding="utf-8")
        self.assertEqual(drives.read(path)[1], None)
        self.assertTrue(document(path).is_mapping())

    def test_where_no_drive_is_to_be_judged(self) -> None:
        """A record of a life that isn't driven says nothing of the train."""
        self.written()
        (self.folder / "x.case.yaml").write_text(CASE + "  - {note: never beyond, never: {train_place_m: {least: 300}}}\n", encoding="utf-8")
        case, = cases.read(self.folder / "x.case.yaml")
        for number in (1, 4):
            with self.assertRaisesRegex(Missed, "records to be judged\nfound:    there is none of a drive"):
                case_runner.judge(case.expected[number], Played(with_speeds([record(1)]), {"started": 0}), {})


def rows(*states: tuple[str, str]) -> Driven:
    """Rows with these modes and brakes."""
    return Driven([Row(500 * at, at, at, 100 * at, 10, 20, brake, mode, 0) for at, (mode, brake) in enumerate(states, 1)])


class Pictures(unittest.TestCase):
    """The picture of a drive."""

    def test_runs(self) -> None:
        drive_picture: Any = importlib.import_module("gaknifur.simulation.drive_picture")
        self.assertEqual(drive_picture.runs(rows(("FS", "none"), ("FS", "service"), ("FS", "service"), ("FS", "none"))), [(0, 1), (1, 3), (3, 3)])

    def test_files(self) -> None:
        drive_picture: Any = importlib.import_module("gaknifur.simulation.drive_picture")
        drawn: Callable[..., bytes] = drive_picture.drawn
        driven = rows(("FS", "none"), ("FS", "service"), ("FS", "emergency"), ("TR", "emergency"))
        for ends, count in ((None, 0), ((300, 300), 1), ((300, 400), 2)):
            svg = drawn(driven, ends, "a drive", ".svg")
            self.assertEqual(svg, drawn(driven, ends, "a drive", ".svg"))
            self.assertEqual(sum(text in svg for text in (b"end of authority", b"supervised location")), count)
        self.assertTrue(drawn(driven, None, "a drive", ".png").startswith(b"\x89PNG"))
        with self.assertRaisesRegex(Failed, "--picture: the file name has to end in .svg or .png"):
            drive_commands.outs_of(SimpleNamespace(picture=Path("drive.gif")))


class Library(unittest.TestCase):
    """The library of the unit."""

    def test_an_unproved_one_is_named(self) -> None:
        """By what tools/library --unproved leaves in its file."""
        for mark, is_named in ((b"\0Gaknifur 0.1.0, commit 0123abc, unproved\0", True), (b"\0Gaknifur 0.1.0, commit 0123abc, proved\0", False),
                               (b"", False)):
            with self.subTest(mark=mark), tempfile.TemporaryDirectory() as folder, contextlib.redirect_stderr(io.StringIO()) as errors:
                path = Path(folder, "libetcs_unit.so")
                path.write_bytes(b"\x7fELF" + mark + b"\0")
                with patch("gaknifur.units.own_unit.library", lambda: SimpleNamespace(_name=str(path))):
                    own_unit.check_library.__wrapped__()
                self.assertEqual(errors.getvalue(), f"lab: this run is unproved: {path} was compiled without proof\n" if is_named else "")


if __name__ == "__main__":
    unittest.main()
