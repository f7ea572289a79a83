"""Whether a train braked: figures by hand, from docs/reference/lab.md (Did the train brake). 36 km/h are 10 m/s, and 1 m/s² stops that in 50 m."""
import unittest

from gaknifur.journal.braking import flat, measures, parts, promised_cm, promised_curve, row, rows
from gaknifur.program import Json

from .samples import AUTHORITY, record

FAST = 36_000
SLOWING = [(950, 32_400), (850, 28_800), (750, 25_200), (650, 21_600), (550, 18_000), (450, 14_400), (350, 10_800), (250, 7_200), (150, 3_600), (50, 0)]
"""A reading each second of a train that brakes from 36 km/h with 1 m/s²: 50 m in all."""


class Drive:
    """The records of a life: train data of 1 m/s², and a reading each second, from 1 s on."""

    def __init__(self, reaction_ms: int = 0, life: int = 1, first: int = 0, is_entered: bool = True) -> None:
        self.life, self.event, self.time_ms, self.brake, self.mode = life, first, 0, "none", "FS"
        self.records: list[Json] = []
        self.add("powerup", brake="emergency", mode="SB")
        if is_entered:
            self.add("driver", action="enter_train_data", mode="SB", deceleration_cm_per_s2=100, reaction_ms=reaction_ms)

    def add(self, kind: str, **more: object) -> None:
        """A record."""
        usual = {"life": self.life, "time_ms": self.time_ms, "brake": self.brake, "mode": self.mode}
        self.records.append(record(self.event, kind, **{**usual, **more}))
        self.event += 1

    def clock(self, ms: int = 1_000) -> None:
        """The next moment."""
        self.time_ms += ms
        self.add("clock", now_ms=self.time_ms)

    def read(self, *readings: tuple[int, int], ms: int = 1_000, brake: str | None = None) -> None:
        """Moments, each with a reading. The brake holds from the last reading on."""
        for at, (moved, speed) in enumerate(readings, 1):
            self.clock(ms)
            if brake is not None and at == len(readings):
                self.brake = brake
            self.add("odometer", movement_cm=moved, speed_m_per_h=speed)

    def last(self) -> Json:
        """The row of the last command."""
        return list(rows(self.records))[-1]


def braked(reaction_ms: int = 0) -> Drive:
    """A train at 36 km/h, and the emergency brake by a reading at 2 s, event 5."""
    drive = Drive(reaction_ms)
    drive.read((500, FAST), (1_000, FAST), brake="emergency")
    return drive


class ByHand(unittest.TestCase):
    """Rows of each answer."""

    def same(self, found: Json, **wanted: object) -> None:
        """Compares members."""
        self.assertEqual({name: found[name] for name in wanted}, wanted)

    def test_it_brakes_at_once(self) -> None:
        drive = braked()
        drive.read(*SLOWING, brake="none")
        drive.clock()
        # Readings at 3 s to 12 s, each up to a second later. Deceleration begins before 4 s. From 2 s to 13 s at most 11 s, 90.9 cm/s²; from
        # 4 s to 11 s at least 7 s, 142.9 cm/s². It stands between 11 s and 13 s; the command came between 2 s and 3 s.
        self.same(drive.last(), life=1, first_event=5, last_event=24, brake="emergency", trip_event=None, answer="stopped", until="standstill",
                  speed_m_per_h=FAST, begins_ms=[0, 2_000], begins_cm=[0, 950], rate_cm_per_s2=[90, 143], ends_ms=[8_000, 11_000],
                  way_cm=[5_000, 5_000], promised_cm=5_000, reaction="not_sure", rate="not_sure", way="kept")

    def test_it_brakes_a_centimetre_too_far(self) -> None:
        drive = braked()
        drive.read(*SLOWING[:-1], (51, 0))
        self.same(drive.last(), way_cm=[5_001, 5_001], way="broken", until="standstill")

    def test_it_brakes_after_the_reaction_time(self) -> None:
        drive = braked(2_000)
        drive.read((1_000, FAST), (1_000, FAST), *SLOWING)
        drive.clock()
        # The last reading with 36 km/h is at 4 s, the next one at 5 s.
        self.same(drive.last(), answer="stopped", begins_ms=[1_000, 4_000], begins_cm=[2_000, 2_950], rate_cm_per_s2=[90, 143],
                  ends_ms=[10_000, 13_000], way_cm=[7_000, 7_000], promised_cm=7_000, reaction="not_sure", way="kept")

    def test_long_before_and_long_after_the_reaction_time(self) -> None:
        for reaction, said in ((4_000, "kept"), (3_999, "not_sure"), (1_000, "not_sure"), (999, "broken")):
            drive = braked(reaction)
            drive.read((1_000, FAST), (1_000, FAST), *SLOWING)
            self.same(drive.last(), reaction=said, reaction_ms=reaction)

    def test_a_rate_that_is_sure(self) -> None:
        for speed, said in ((13_752, "kept"), (13_753, "not_sure")):
            # Released at 4 s: from 36 to 13.752 km/h are 618 cm/s, in 3 s at most.
            drive = braked()
            drive.records[1]["deceleration_cm_per_s2"] = 206
            drive.read((700, 25_000), (500, speed), brake="none")
            drive.clock()
            self.same(drive.last(), answer="slowed", until="released", rate=said)

    def test_it_never_brakes(self) -> None:
        drive = braked()
        drive.read(*[(1_000, FAST)] * 6)
        # The last reading is at 8 s, and no moment follows; the command came before 3 s.
        self.same(drive.last(), answer="not_slowed", until="end", begins_ms=[5_000, None], begins_cm=[6_000, None], rate_cm_per_s2=[None, None],
                  ends_ms=[5_000, None], way_cm=[6_000, 6_000], reaction="broken", rate=None, way="broken")

    def test_exactly_as_far_as_promised(self) -> None:
        drive = braked()
        drive.read(*[(1_000, FAST)] * 5)
        self.same(drive.last(), answer="not_slowed", way_cm=[5_000, 5_000], promised_cm=5_000, way="not_sure")

    def test_each_part_of_a_promise_is_rounded_up(self) -> None:
        # 3,601 m/h: 1.0003 cm in 10 ms, and 50.03 cm with 1 m/s².
        self.assertEqual(promised_cm(3_601, {"deceleration_cm_per_s2": 100, "reaction_ms": 10}), 2 + 51)

    def test_it_is_driven_faster(self) -> None:
        drive = braked()
        drive.read((1_050, FAST + 3_600), (1_050, FAST), (900, FAST - 3_600))
        self.same(drive.last(), answer="slowed", begins_cm=[1_050, 2_100], way_cm=[3_000, 3_000], way="not_sure")

    def test_it_stands_before(self) -> None:
        drive = Drive()
        drive.read((0, 0), (0, 0), brake="service")
        drive.read((0, 0), (0, 0))
        self.same(drive.last(), answer="standing", until="end", begins_ms=[None, None], way_cm=[None, None], promised_cm=None, way=None)
        self.same(next(rows(drive.records)), brake="emergency", first_event=0, last_event=0, answer="standing", until="released")

    def test_it_stands_and_begins_to_move(self) -> None:
        drive = Drive()
        drive.read((0, 0), brake="service")
        drive.read((0, 0), (100, 7_200), (150, 3_600), (20, 0), (500, 9_000))
        self.same(drive.last(), answer="stopped", speed_m_per_h=0, begins_cm=[100, 250], way_cm=[270, 270], promised_cm=0, way="broken")

    def test_it_is_released_half_way(self) -> None:
        drive = braked()
        drive.read(*SLOWING[:4])
        drive.brake = "none"
        drive.clock()
        drive.read((600, 21_600))
        # From 36 to 21.6 km/h are 400 cm/s, from 2 s to 7 s at most, and from 4 s to 6 s at least.
        self.same(drive.last(), answer="slowed", until="released", last_event=13, rate_cm_per_s2=[80, 200], ends_ms=[3_000, 5_000],
                  way_cm=[3_200, 3_200], way="not_sure")

    def test_too_few_readings(self) -> None:
        drive = braked()
        drive.clock(60_000)
        self.same(drive.last(), answer="too_few", way_cm=[None, None], way=None)
        drive.add("odometer", movement_cm=4_000, speed_m_per_h=0)
        # One reading after a minute: it stands before an unknown end, and the rate is above 0.
        self.same(drive.last(), answer="stopped", begins_ms=[0, None], begins_cm=[0, 4_000], rate_cm_per_s2=[0, None], ends_ms=[0, None],
                  way_cm=[4_000, 4_000], reaction="not_sure", rate="not_sure", way="kept")

    def test_it_rolls_backward(self) -> None:
        drive = Drive()
        drive.read((-100, 3_600), (-150, 5_400), brake="emergency")
        drive.read((-100, 1_800), (-20, 0))
        # 1.5 m/s: 112.5 cm are promised.
        self.same(drive.last(), answer="stopped", begins_cm=[0, 100], way_cm=[120, 120], promised_cm=113, way="broken")

    def test_the_life_ends_before_it_stands(self) -> None:
        drive = braked()
        drive.read(*SLOWING[:2])
        self.same(drive.last(), answer="slowed", until="end", way_cm=[1_800, 1_800], ends_ms=[1_000, None], way="not_sure")

    def test_a_power_up_in_between(self) -> None:
        drive = braked()
        drive.read(*SLOWING[:2])
        later = Drive(life=2, first=drive.event, is_entered=False)
        later.read((0, 0))
        found = list(rows(drive.records + later.records))
        self.assertEqual([(one["life"], one["answer"], one["until"]) for one in found],
                         [(1, "standing", "released"), (1, "slowed", "end"), (2, "standing", "released")])
        self.same(found[2], deceleration_cm_per_s2=100)

    def test_a_telegram_commands_it(self) -> None:
        drive = Drive()
        drive.read((500, FAST), (1_000, FAST))
        drive.brake, drive.mode = "emergency", "TR"
        drive.add("telegram", telegram="90", decoded=AUTHORITY)
        drive.read(*SLOWING)
        # A part of the first 9.5 m is before the command.
        self.same(drive.last(), trip_event=6, begins_cm=[0, 950], way_cm=[4_050, 5_000], way="kept")

    def test_a_trip_under_the_brake(self) -> None:
        drive = braked()
        drive.read(SLOWING[0])
        drive.mode = "TR"
        drive.read(*SLOWING[1:])
        self.same(drive.last(), first_event=5, trip_event=8, answer="stopped", way="kept")

    def test_a_trip_whose_beginning_is_lost(self) -> None:
        drive = braked()
        drive.mode = "TR"
        drive.read(*SLOWING)
        self.assertEqual(list(rows(drive.records[6:]))[0]["trip_event"], None)

    def test_service_and_then_emergency(self) -> None:
        drive = Drive()
        drive.read((1_000, FAST), brake="service")
        drive.read((1_000, FAST), (1_000, FAST), brake="emergency")
        drive.read(*SLOWING)
        service, emergency = list(rows(drive.records))[1:]
        self.same(service, brake="service", first_event=3, last_event=6, answer="not_slowed", until="changed", way_cm=[2_000, 2_000])
        self.same(emergency, brake="emergency", first_event=7, answer="stopped", way_cm=[5_000, 5_000])

    def test_the_beginning_is_lost(self) -> None:
        drive = braked()
        drive.read(*SLOWING)
        found = list(rows(drive.records[5:]))
        self.same(found[0], speed_m_per_h=FAST, answer="stopped", promised_cm=None, way=None, deceleration_cm_per_s2=None)
        found = list(rows(drive.records[6:]))
        # The reading before the command is lost too: a part of the first 9.5 m may be before it.
        self.same(found[0], speed_m_per_h=None, answer="stopped", begins_cm=[0, 1_800], way_cm=[4_050, 5_000], way=None)

    def test_a_gap(self) -> None:
        drive = braked()
        drive.read(*SLOWING)
        del drive.records[8:10]
        self.assertEqual([one["until"] for one in rows(drive.records)], ["released", "end", "standstill"])

    def test_data_that_are_entered_later_or_elsewhere_do_not_count(self) -> None:
        drive = Drive()
        drive.add("driver", action="enter_train_data", mode="FS", deceleration_cm_per_s2=200, reaction_ms=0)
        drive.read((500, FAST), (1_000, FAST), brake="emergency")
        drive.add("driver", action="enter_train_data", mode="SB", deceleration_cm_per_s2=300, reaction_ms=0)
        drive.read(*SLOWING)
        self.same(drive.last(), deceleration_cm_per_s2=100)


class Curves(unittest.TestCase):
    """What charts and tables show."""

    def test_the_promised_curve(self) -> None:
        curve = promised_curve(FAST, {"deceleration_cm_per_s2": 100, "reaction_ms": 2_000})
        self.assertEqual([curve[0], curve[1], curve[-1]], [(0, 0, FAST), (2_000, 2_000, FAST), (12_000, 7_000, 0)])
        self.assertEqual(curve[6], (7_000, 5_750, FAST / 2))  # 5 s of braking: 37.5 m

    def test_points(self) -> None:
        drive = braked()
        drive.clock()
        drive.read(*SLOWING[:2])
        self.assertEqual(list(measures(drive.records))[-1].points(), [(0, 0, FAST), (2_000, 950, 32_400), (3_000, 1_800, 28_800)])

    def test_flat(self) -> None:
        self.assertEqual(flat({"rate_cm_per_s2": [1, None], "rate": "kept"}), {"rate_least_cm_per_s2": 1, "rate_most_cm_per_s2": None, "rate": "kept"})


class AsText(unittest.TestCase):
    """The line of a row."""

    def test_a_line(self) -> None:
        drive = braked()
        drive.read(*SLOWING)
        drive.clock()
        self.assertEqual("; ".join(parts(drive.last())), "life 1 events 5..26: emergency brake at 36 km/h: the train stops; deceleration begins after 0 to 2 s, 0 to 9.5 m: 0.9 "
                         "to 1.43 m/s²; standstill after 8 to 11 s, 50 m; the train data promise 1 m/s² after 0 s, 50 m: reaction not sure, rate not sure, way kept")

    def test_standing(self) -> None:
        self.assertEqual(parts(row(next(measures(Drive().records)))), ["life 1 events 0..0: emergency brake at 0 km/h: the train stands"])


if __name__ == "__main__":
    unittest.main()
