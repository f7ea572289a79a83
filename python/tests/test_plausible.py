"""What is implausible in records."""
import random
import unittest
from collections.abc import Callable

from gaknifur.journal import plausibility
from gaknifur.journal.plausibility import Thresholds, judge
from gaknifur.program import Json

from .samples import AUTHORITY, record


def drive(speeds: list[int], cycle_ms: int = 500, life: int = 1, first: int = 0, share: float = 1.0) -> list[Json]:
    """A power-up, and then each cycle a moment and a reading; the movement is that of the mean speed, times a share."""
    records, event, before = [record(first, "powerup", life=life)], first + 1, 0
    for at, speed in enumerate(speeds, 1):
        records.append(record(event, "clock", life=life, time_ms=at * cycle_ms, now_ms=at * cycle_ms))
        moved = round((before + speed) / 2 * cycle_ms * plausibility.CM_PER_M_PER_H_MS * share)
        records.append(record(event + 1, "odometer", life=life, time_ms=at * cycle_ms, movement_cm=moved, speed_m_per_h=speed))
        event, before = event + 2, speed
    return records


def usual(numbers: random.Random, count: int) -> list[int]:
    """Speeds of a train that runs and brakes."""
    speeds, speed = [], 0
    for _ in range(count):
        speed = min(max(speed + numbers.randint(-1_500, 1_500), 0), 160_000)
        speeds.append(speed)
    return speeds


def telegram(event: int, group: int, place: int, life: int = 1) -> Json:
    """A telegram of a group at a place."""
    header = AUTHORITY["header"] | {"NID_BG": group}
    return record(event, "telegram", life=life, place_cm=place, telegram="90", decoded=AUTHORITY | {"header": header})


def words(records: list[Json], limits: Thresholds = Thresholds()) -> list[str]:
    """What is found."""
    return [one["implausible"] for one in judge(records, limits).findings]


class Movement(unittest.TestCase):
    """Movement, speeds and moments."""

    def test_a_drive_is_plausible(self) -> None:
        numbers = random.Random(5)
        for cycle in (100, 500, 2_000):
            for share in (0.93, 1.0, 1.07):
                self.assertEqual(words(drive(usual(numbers, 400), cycle, share=share)), [], (cycle, share))

    def test_speeds_that_were_made_lower_are_found(self) -> None:
        records = drive([40_000] * 200)
        for one in records:
            if one["kind"] == "odometer":
                one["speed_m_per_h"] = 30_000
        found = judge(records).findings
        self.assertEqual({one["implausible"] for one in found} - {"jump"}, {"too_far"})
        self.assertLess(found[-1]["last_event"], 401)

    def test_speeds_that_were_made_greater_are_found(self) -> None:
        records = drive([30_000] * 200)
        for one in records:
            if one["kind"] == "odometer":
                one["speed_m_per_h"] = 40_000
        self.assertEqual(set(words(records)) - {"jump"}, {"too_short"})

    def test_by_hand_at_the_bound(self) -> None:
        # 36 km/h are 10 m a second. Three readings, 1 s apart, of which the second moved further: 10 m and 10 % for the second itself and
        # for the second after it, and 15 m, are 37 m.
        for moved, is_one in ((3_700, False), (3_701, True)):
            records = drive([36_000] * 4, 1_000)
            records[4]["movement_cm"] = moved
            records[2]["movement_cm"] = 1_000
            self.assertEqual("too_far" in words(records), is_one, moved)

    def test_a_safe_speed_is_above_the_true_one(self) -> None:
        # Four minutes at 20 km/h that are handed in as 23.
        records = drive([20_000] * 480)
        for one in records:
            if one["kind"] == "odometer":
                one["speed_m_per_h"] += 3_000
        self.assertEqual(words(records), [])
        self.assertEqual(set(words(records, Thresholds(safe_m_per_h=0))), {"too_short"})

    def test_moments_that_go_on_without_movement(self) -> None:
        records = drive([36_000] * 40, 1_000)
        for one in records[41:]:
            one["time_ms"] += 60_000
        found = judge(records).findings
        self.assertEqual([(one["implausible"], one["first_event"] <= 42 <= one["last_event"]) for one in found if one["implausible"] != "jump"], [("too_short", True)])

    def test_a_speed_that_jumps(self) -> None:
        for to, is_one in ((20_000 + 5_000 + 10_800, False), (20_000 + 5_000 + 10_801, True)):
            records = drive([20_000, 20_000, to, to], 500)  # 3 m/s2 for two cycles of 500 ms are 10.8 km/h
            self.assertEqual("jump" in words(records), is_one, to)

    def test_a_sum_of_small_jumps(self) -> None:
        # Each half second 12.5 km/h more: in a second, to the end of the later reading, 10.8 and 5 km/h are possible. Two steps are 25 km/h
        # in 1.5 s, for which 16.2 and 5 are possible.
        for speeds, is_one in (([0, 0, 12_500, 12_500, 12_500], False), ([0, 0, *range(0, 100_001, 12_500), 100_000], True), ([25_000, 25_000, 12_500, 0, 0], True)):
            self.assertEqual("jump" in words(drive(speeds, 500)), is_one, speeds)

    def test_a_train_that_turns_round_at_once(self) -> None:
        records = drive([36_000] * 12, 1_000)
        for one in records[14:]:
            if one["kind"] == "odometer":
                one["movement_cm"] = -one["movement_cm"]
        found = [one for one in judge(records).findings if one["implausible"] == "jump"]
        self.assertEqual([(one["from_m_per_h"], one["to_m_per_h"]) for one in found], [(36_000, -36_000)])

    def test_no_moments(self) -> None:
        records = [record(0, "powerup"), *(record(at, "odometer", movement_cm=10_000, speed_m_per_h=90_000) for at in range(1, 50))]
        found = judge(records)
        self.assertEqual((found.findings, found.lives, found.timed, found.readings), ([], 1, 0, 49))

    def test_movement_at_standstill(self) -> None:
        for moved, is_one in ((500, False), (501, True)):
            records = [record(0, "powerup"), *(record(at, "odometer", movement_cm=moved, speed_m_per_h=0) for at in range(1, 5))]
            self.assertEqual(words(records), ["standing"] if is_one else [], moved)

    def test_thresholds_can_be_set(self) -> None:
        records = drive([20_000, 20_000, 40_000, 40_000], 500)
        self.assertIn("jump", words(records))
        self.assertNotIn("jump", words(records, Thresholds(jump_m_per_h=20_000)))
        self.assertIn("20000 m/h", Thresholds(jump_m_per_h=20_000).text())


class Altered(unittest.TestCase):
    """What is reported of drives that were altered within the limits."""

    def count_found(self, alter: Callable[[random.Random, list[Json]], None], count: int = 40) -> int:
        """How many of some drives are reported, each altered in one way."""
        numbers, found = random.Random(1), 0
        for _ in range(count):
            records = drive(usual(numbers, 400))
            alter(numbers, records)
            found += bool(words(records))
        return found

    def test_counts(self) -> None:
        def one(numbers: random.Random, records: list[Json]) -> None:
            chosen = numbers.choice([record for record in records if record.get("speed_m_per_h")])
            chosen["speed_m_per_h"] = numbers.randrange(1, 160_000)

        def all_lower(numbers: random.Random, records: list[Json]) -> None:
            for record in records:
                if "speed_m_per_h" in record:
                    record["speed_m_per_h"] = record["speed_m_per_h"] * 7 // 10

        def an_hour(numbers: random.Random, records: list[Json]) -> None:
            for record in records[numbers.randrange(100, 700):]:
                record["time_ms"] += 3_600_000

        self.assertEqual(self.count_found(lambda numbers, records: None), 0)
        for alter, least in ((one, 30), (all_lower, 36), (an_hour, 22)):
            self.assertGreaterEqual(self.count_found(alter), least, alter.__name__)


TRAIN = {"action": "enter_train_data", "mode": "SB", "maximum_m_per_h": 160_000}
Alter = Callable[[list[Json]], None]


def trip(numbers: random.Random, cycle_ms: int = 500) -> list[int]:
    """Speeds of a train that starts, runs, brakes and stops twice, with at most 2.5 m/s2."""
    speeds, step = [], cycle_ms * 9 // 10
    for _ in range(2):
        top = numbers.randrange(40_000, 160_000)
        up, down = numbers.randrange(step, 4 * step), numbers.randrange(2 * step, 10 * step)
        speeds += [*range(0, top, up), *[top] * numbers.randrange(20, 60), *range(top, 0, -down), *[0] * 10]
    return speeds


def with_groups(records: list[Json], every_cm: int, group: int = 1) -> list[Json]:
    """The records with their places, and a telegram at the first reading and then each `every_cm`."""
    place, passed, found = 0, 0, []
    for one in records:
        place += one.get("movement_cm", 0)
        found.append(one | {"place_cm": place})
        if one["kind"] == "odometer" and place >= passed:
            found.append(telegram(0, group, place, life=one["life"]) | {"time_ms": one["time_ms"]})
            group, passed = group + 1, passed + every_cm
    return [one | {"event": event} for event, one in enumerate(found)]


def honest(seed: int, safe: Callable[[int], int] = lambda speed: speed) -> list[Json]:
    """Two lives of a train that reports safe speeds: it runs, is switched off, and runs back past the same groups."""
    numbers = random.Random(seed)
    share, cycle_ms = numbers.uniform(0.95, 1.05), numbers.choice((200, 500, 1_000))
    first = with_groups([*drive(trip(numbers, cycle_ms), cycle_ms, share=share)], 50_000)
    first.insert(1, record(1, "driver", **TRAIN))
    back = drive([36_000] * (first[-1]["place_cm"] * 1_000 // (1_000 * cycle_ms) + 20), cycle_ms, life=2)
    back[0]["word"] = "not_moved"
    way, place, second = first[-1]["place_cm"], 0, list[Json]()
    groups = [one for one in first if one["kind"] == "telegram"][::-1]
    for one in back:
        place += one.get("movement_cm", 0)
        second.append(one | {"place_cm": place})
        while groups and way - place <= groups[0]["place_cm"]:
            second.append(telegram(0, groups.pop(0)["decoded"]["header"]["NID_BG"], place, life=2) | {"time_ms": one["time_ms"]})
    records = [one | {"event": event} for event, one in enumerate(first + second)]
    for one in records:
        if one.get("speed_m_per_h"):
            one["speed_m_per_h"] = safe(one["speed_m_per_h"])
    return records


class Honest(unittest.TestCase):
    """Nothing is found in drives that could have been, also with speeds above the true ones."""

    def test_honest_drives(self) -> None:
        margins: tuple[Callable[[int], int], ...] = (lambda speed: speed, lambda speed: speed + 3_000, lambda speed: speed * 115 // 100 if speed < 30_000 else
                                                     speed + 4_000, lambda speed: speed + 2_000 + speed * 4 // 100)
        for seed in range(10):
            for at, safe in enumerate(margins):
                self.assertEqual([plausibility.text(one) for one in judge(honest(seed, safe)).findings], [], (seed, at))


def readings(records: list[Json], first: int = 40, last: int = 200) -> list[Json]:
    """Some readings of the first life."""
    return [one for one in records if one["kind"] == "odometer" and one["life"] == 1][first:last]


def scale(name: str, share: float) -> Alter:
    """Changes a member of all readings."""
    def alter(records: list[Json]) -> None:
        for one in readings(records, 0):
            one[name] = round(one[name] * share)
    return alter


def put(name: str, *values: int, first: int = 60) -> Alter:
    """Puts values into a member of consecutive readings."""
    def alter(records: list[Json]) -> None:
        for one, value in zip(readings(records, first), values):
            one[name] = value
    return alter


def later(ms: int, share: float = 1.0) -> Alter:
    """Changes the moments from reading 60 on: so much later, or so much faster."""
    def alter(records: list[Json]) -> None:
        since = readings(records, 60)[0]["time_ms"]
        for one in records:
            if one["life"] == 1 and one["time_ms"] >= since:
                one["time_ms"] = since + ms + int((one["time_ms"] - since) * share)
    return alter


def leave_out(records: list[Json]) -> None:
    """Leaves out 40 readings."""
    gone = {one["event"] for one in readings(records, 40, 80)}
    records[:] = [one for one in records if one["event"] not in gone]


def move_groups(life: int, off: int, only: int | None = None) -> Alter:
    """Moves the groups of a life, or one of them."""
    def alter(records: list[Json]) -> None:
        for at, one in enumerate(one for one in records if one["kind"] == "telegram" and one["life"] == life):
            one["place_cm"] += off if only is None or at == only else 0
    return alter


def again(off: int) -> Alter:
    """Reads the first group again, elsewhere."""
    def alter(records: list[Json]) -> None:
        heard = [one for one in records if one["kind"] == "telegram" and one["life"] == 1]
        heard[-1]["decoded"] = heard[0]["decoded"]
        heard[-1]["place_cm"] = heard[0]["place_cm"] + off
    return alter


PLANTED: dict[str, tuple[tuple[str, ...], list[Alter]]] = {
    "lower speeds": (("too_far",), [scale("speed_m_per_h", share) for share in (0.3, 0.5, 0.7)]),
    "greater speeds": (("too_short", "above_maximum"), [scale("speed_m_per_h", share) for share in (1.5, 2, 3)]),
    "more movement": (("too_far",), [scale("movement_cm", share) for share in (1.5, 2, 10)]),
    "less movement": (("too_short",), [scale("movement_cm", share) for share in (0.1, 0.4, 0.6)]),
    "no movement": (("too_short",), [put("movement_cm", *[0] * count, first=40) for count in (40, 60, 80)]),
    "movement at standstill": (("standing", "too_far"), [scale("speed_m_per_h", 0), put("speed_m_per_h", *[0] * 30), put("speed_m_per_h", *[0] * 60)]),
    "a later clock": (("too_short",), [later(ms) for ms in (120_000, 600_000, 3_600_000)]),
    "a slower clock": (("too_far", "jump"), [later(0, share) for share in (0.1, 0.3, 0.5)]),
    "a faster clock": (("too_short",), [later(0, share) for share in (2, 3, 10)]),
    "readings left out": (("too_short",), [leave_out] * 3),
    "backward at once": (("jump",), [put("movement_cm", *[-moved] * 20) for moved in (300, 1_000, 2_000)]),
    "one speed": (("jump", "above_maximum"), [put("speed_m_per_h", speed) for speed in (250_000, 400_000, 599_999)]),
    "faster than a train": (("jump",), [put("speed_m_per_h", *speeds) for speeds in ([0, 25_000, 50_000, 75_000, 100_000], [100_000, 60_000, 20_000, 0],
                                                                               [0, 0, 20_000, 40_000, 60_000, 80_000])]),
    "above the maximum": (("above_maximum",), [put("speed_m_per_h", *[speed] * 20) for speed in (200_001, 300_000, 480_000)]),
    "a group read again": (("place",), [again(off) for off in (3_000, 50_000, -50_000)]),
    "another distance": (("distance", "place", "kept"), [move_groups(2, off, 0) for off in (9_000, 20_000, -15_000)]),
    "moved while switched off": (("kept",), [move_groups(2, off) for off in (120_000, 30_000, 15_000)])}
"""What is altered in an honest drive: what finds it, and three ways of it."""


class Planted(unittest.TestCase):
    """Each of 51 impossibilities is found."""

    def test_each_is_found(self) -> None:
        missed = []
        for kind, (wanted, alters) in PLANTED.items():
            for number, alter in enumerate(alters):
                records = honest(number + 1, lambda speed: speed + 2_000)
                alter(records)
                found = set(words(records))
                if not found & set(wanted):
                    missed.append((kind, number, found))
        self.assertEqual(missed, [])
        self.assertEqual(sum(len(alters) for _, alters in PLANTED.values()), 51)


class Groups(unittest.TestCase):
    """Places of groups."""

    def test_a_group_that_is_read_again(self) -> None:
        for place, is_one in ((2_000, False), (2_001, True)):  # 500 cm of uncertainty each, and 1,000
            self.assertEqual(words([telegram(0, 7, 0), telegram(1, 8, 90_000), telegram(2, 7, place)]).count("place"), int(is_one), place)

    def test_a_distance_in_another_life(self) -> None:
        for way, is_one in ((100_000, False), (106_200, False), (109_000, True), (91_000, True)):
            found = [telegram(0, 7, 0), telegram(1, 8, 100_000), telegram(2, 8, 0, life=2), telegram(3, 7, -way, life=2)]
            self.assertEqual(words(found), ["distance"] if is_one else [], way)

    def test_a_group_that_only_an_older_life_read(self) -> None:
        # Life 1: group 8 is 1,667 m from group 7. Life 2 ends 333 m from group 7, so group 8 is 1,334 m or 2,000 m from there. It may be off by
        # 10 m, 5 uncertainties of 5 m, and 5 % of 1,667 m, the longest way, or of the way to it in life 3: 118.35 m and 135 m.
        for way, kept in ((133_400, None), (121_565, None), (121_564, 133_400), (-133_400, None), (213_500, None), (214_500, 200_000),
                          (166_700, 133_400), (7_500, 133_400)):
            found = judge([telegram(0, 7, 0), telegram(1, 8, 166_700), telegram(2, 7, 0, life=2), record(3, life=2, place_cm=33_300),
                           record(4, "powerup", life=3, word="not_moved"), telegram(5, 8, way, life=3)]).findings
            self.assertEqual([(one["implausible"], one["first_event"], one["last_event"], one["kept_cm"]) for one in found],
                             [] if kept is None else [("kept", 2, 5, kept)], way)
        self.assertEqual(plausibility.text(found[0]), "implausible: life 3, events 2 to 5: group 1/8 was read after 75 m, and the train was switched off "
                         "1334 m from it and hadn't moved")

    def test_in_words(self) -> None:
        found = judge([telegram(0, 7, 0), telegram(1, 8, 90_000), telegram(2, 7, 5_000)])
        self.assertEqual(plausibility.text(found.findings[0]), "implausible: life 1, events 0 to 2: group 1/7 was read at another place of the life, 50 m off")
        self.assertTrue(plausibility.summary(found, Thresholds()).startswith("plausibility: 1 implausible; 0 readings and 3 groups of 1 life"))


if __name__ == "__main__":
    unittest.main()
