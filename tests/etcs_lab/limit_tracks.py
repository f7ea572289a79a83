"""Scenarios that show what decides a limit: for each kind one that was worked out by hand, and pseudo-random tracks from which what
decides is taken away. Places are centimetres, speeds metres per hour."""
from collections import namedtuple
from dataclasses import replace

from blocks import image_of
from journal import block_of, event_of, record_of
from life import Life
from limit_reasons import targets_ahead
from named import written
from random_lists import Numbers
from replay_rows import ends_of, parts
from speed import Target

FASTEST = 600_000

ENTERED = ("enter-identity A 1", "choose-level 1")
TRAIN = "enter-train-data 20000 160000 70 0 15"
DRIVER = (*ENTERED, TRAIN, "start")


def authority(metres, main=24, end_speed=0, beyond="Q_DANGERPOINT 0, Q_OVERLAP 0"):
    return (f"12: V_MAIN {main}, V_LOA {end_speed}, T_LOA 1023, N_ITER 0, L_ENDSECTION {metres}, Q_SECTIONTIMER 0, Q_ENDTIMER 0, {beyond}")


def statics(*speeds):
    """Static speeds: the metres from the one before, and V_STATIC."""
    elements = [f"D_STATIC {metres}, V_STATIC {speed}, Q_FRONT 0, N_ITER 0" for metres, speed in speeds]
    return f"27: {elements[0]}, N_ITER {len(speeds) - 1}" + "".join(f", {it}" for it in elements[1:])


LEVEL = "21: D_GRADIENT 0, Q_GDIR 1, G_A 0, N_ITER 0"
FAST = statics((0, 24))


def heard(*packets, group=2):
    return "hear " + written("; ".join((f"NID_BG {group}", *packets)))


def danger_point(metres, release):
    return f"Q_DANGERPOINT 1, D_DP {metres}, V_RELEASEDP {release}, Q_OVERLAP 0"


# By hand. The train brakes with 70 cm/s^2 and without delay on level track: for a stop d cm ahead of its maximum safe front it may run v with
# v^2 <= 2592 * 70 * d, for a speed u with v^2 <= u^2 + 2592 * 70 * d. The front is 500 cm ahead of the estimate, and 5 % of the way more.
BY_HAND = (
    ("no_speed", (), "\n  no train may run in this mode: 0 km/h (4.4)\n"),
    ("national_staff_responsible", DRIVER, "\n  the limit is the national value V_NVSTFF: 40 km/h (3.11.7, 3.18.2)\n"),
    ("national_override", (*DRIVER, "override"),
     "\n  an override is active, and the limit is the national value V_NVSUPOVTRP: 30 km/h (3.11.7, 3.18.2)\n"),
    ("national_shunting", (*ENTERED, "choose-shunting"), "\n  the limit is the national value V_NVSHUNT: 30 km/h (3.11.7, 3.18.2)\n"),
    ("national_unfitted", ("enter-identity A 1", "choose-level 0", TRAIN, "start"),
     "\n  the limit is the national value V_NVUNFIT: 100 km/h (3.11.7, 3.18.2)\n"),
    ("train_maximum", (*ENTERED, "enter-train-data 20000 25000 70 0 15", "start"),
     "\n  the limit is the greatest speed of the train: 25 km/h (3.11.8)\n"),
    # V_MAIN 6 is 30 km/h.
    ("main_speed", (heard(authority(3_000, main=6), LEVEL, FAST), *DRIVER), "\n  the limit is V_MAIN of the authority: 30 km/h (3.11.6)\n"),
    # At 29,000 the front is at 29,000 + 500 + 1,450, beyond the end at 30,000.
    ("end_speed", (heard(authority(300, end_speed=6), LEVEL, FAST), *DRIVER, *["move 10000 20000"] * 2, "move 9000 20000"),
     "\n  the limit is V_LOA, the end of authority being reached: 30 km/h (3.8)\n"),
    ("static_speed", (heard(authority(3_000), LEVEL, statics((0, 12))), *DRIVER),
     "\n  the limit is the static speed over the train: 60 km/h at 0 m (3.11.3)\n"),
    # From 10 m beyond the group on for 500 m; at 2,000 the front is at 2,600.
    ("restriction", (heard("65: NID_TSR 9, D_TSR 10, L_TSR 500, Q_FRONT 1, V_TSR 4", authority(3_000), LEVEL, FAST), *DRIVER,
                     "move 2000 10000"),
     "\n  the limit is that of a temporary speed restriction over the train: 20 km/h at 10 m, number 9 (3.11.5)\n"),
    ("restriction, in Staff Responsible", (*DRIVER, heard("65: NID_TSR 9, D_TSR 0, L_TSR 500, Q_FRONT 1, V_TSR 4")),
     "\n  the limit is that of a temporary speed restriction over the train: 20 km/h at 0 m, number 9 (3.11.5)\n  group 1 2 in mode SR, "
     "direction not known: accepted, linking not being in use (3.4.4)\n    packet 65 Temporary Speed Restriction\n"),
    # An On Sight area of 30 km/h from 10 m on.
    ("mode_area", (heard(authority(3_000), LEVEL, FAST, "80: D_MAMODE 10, M_MAMODE 0, V_MAMODE 6, L_MAMODE 500, L_ACKMAMODE 0, N_ITER 0"),
                   *DRIVER, "move 2000 10000"),
     "\n  the limit is that of a mode area over the train: 30 km/h at 10 m (3.12.4)\n"),
    # 30,000^2 + 181,440 * 19,500 = 4,438,080,000, the square of 66,618.9.
    ("static_speed_ahead", (heard(authority(3_000), LEVEL, statics((0, 24), (200, 6))), *DRIVER),
     "event 5: brake none, limit 66.618 km/h, speed 0 km/h\n  the limit is that of a static speed ahead: 30 km/h "
     "at 200 m (3.11.3, 3.13)\n"),
    # 181,440 * 19,500 = 3,538,080,000, the square of 59,481.7. A later packet 27 leaves the track unknown from 200 m on.
    ("unknown_speed_ahead", (heard(authority(3_000), LEVEL, FAST), *DRIVER, heard(statics((0, 24), (200, 127)), group=3)),
     "event 6: brake none, limit 59.481 km/h, speed 0 km/h\n  the limit is that of a stop where no static speed is "
     "known: 0 km/h at 200 m (3.11.3, 3.13)\n  group 1 3 in mode FS, direction not known: accepted, linking "
     "not being in use (3.4.4)\n    packet 27 International Static Speed Profile\n"),
    ("restriction_ahead", (heard("65: NID_TSR 9, D_TSR 200, L_TSR 50, Q_FRONT 1, V_TSR 6", authority(3_000), LEVEL, FAST), *DRIVER),
     "event 5: brake none, limit 66.618 km/h, speed 0 km/h\n  the limit is that of a temporary speed restriction "
     "ahead: 30 km/h at 200 m, number 9 (3.11.5, 3.13)\n"),
    ("mode_area_ahead", (heard(authority(3_000), LEVEL, FAST, "80: D_MAMODE 200, M_MAMODE 0, V_MAMODE 6, L_MAMODE 50, L_ACKMAMODE 0, N_ITER 0"),
                         *DRIVER),
     "event 5: brake none, limit 66.618 km/h, speed 0 km/h\n  the limit is that of a mode area ahead: 30 km/h at "
     "200 m (3.12.4, 3.13)\n"),
    # 181,440 * 29,500 = 5,352,480,000, the square of 73,160.6.
    ("end_of_authority", (heard(authority(300), LEVEL, FAST), *DRIVER),
     "event 5: brake none, limit 73.16 km/h, speed 0 km/h\n  the limit is that of the end of authority: 0 km/h at "
     "300 m (3.8, 3.13)\n"),
    # A danger point at 32,000 with 100 km/h: 181,440 * 31,500 = 5,715,360,000, the square of 75,600.
    ("supervised_location", (heard(authority(300, beyond=danger_point(20, 20)), LEVEL, FAST), *DRIVER),
     "event 5: brake none, limit 75.6 km/h, speed 0 km/h\n  the limit is that of the supervised location: 0 km/h at "
     "320 m (3.8, 3.13)\n"),
    # At 27,000 the front is at 27,000 + 500 + 1,350: for the end 14,444 m/h, for the danger point 23,906; 20 km/h to release.
    ("release_speed", (heard(authority(300, beyond=danger_point(20, 4)), LEVEL, FAST), *DRIVER, *["move 9000 10000"] * 3),
     "event 8: brake none, limit 20 km/h, speed 10 km/h\n  the limit is the release speed of the authority: "
     "20 km/h (3.8, 3.13)\n"),
    # .. for a danger point at 40,000 it is 44,978, and V_NVREL is 40 km/h.
    ("national_release_speed", (heard(authority(300, beyond=danger_point(100, 127)), LEVEL, FAST), *DRIVER, *["move 9000 10000"] * 3),
     "event 8: brake none, limit 40 km/h, speed 10 km/h\n  the limit is the national release speed V_NVREL: "
     "40 km/h (3.8, 3.13)\n"),
)

# ---- pseudo-random tracks

Track = namedtuple("Track", "main maximum end statics restrictions areas moves")


def random_track(numbers):
    """Metres and steps of 5 km/h; each static speed has its metres from the one before."""
    end = 150 + numbers.below(600)
    return Track(
        main=3 + numbers.below(30),
        maximum=20_000 + 5_000 * numbers.below(28),
        end=end,
        statics=[(0, 4 + numbers.below(28)), *((20 + numbers.below(80), 2 + numbers.below(30)) for _ in range(numbers.below(4)))],
        restrictions=[(number, numbers.below(end), 10 + numbers.below(100), 1 + numbers.below(30)) for number in range(numbers.below(4))],
        areas=[(numbers.below(200), 1 + numbers.below(30), 10 + numbers.below(100)) for _ in range(numbers.below(3))],
        moves=[1 + numbers.below(6_000) for _ in range(numbers.below(3))],
    )


def inputs_of(track):
    packets = [f"65: NID_TSR {number}, D_TSR {at}, L_TSR {metres}, Q_FRONT 1, V_TSR {speed}" for number, at, metres, speed in track.restrictions]
    packets += [authority(track.end, main=track.main), LEVEL, statics(*track.statics)]
    if track.areas:
        areas = [f"D_MAMODE {at}, M_MAMODE 0, V_MAMODE {speed}, L_MAMODE {metres}, L_ACKMAMODE 0" for at, speed, metres in track.areas]
        packets.append(f"80: {areas[0]}, N_ITER {len(areas) - 1}" + "".join(f", {it}" for it in areas[1:]))
    driver = (*ENTERED, f"enter-train-data 20000 {track.maximum} 70 0 15", "start")
    return (heard(*packets), *driver, *(f"move {moved} 1000" for moved in track.moves))


def places(distances):
    """Each distance counts from the one before."""
    at, found = 0, []
    for metres in distances:
        at += 100 * metres
        found.append(at)
    return found


def without(track, reason):
    """The track without what decides, by its kind, its place and its number; None where that isn't one thing of it."""
    kind, place, number = reason["limit_cause"], reason["limit_cause_place_cm"], reason["limit_cause_number"]
    if kind == "train_maximum":
        return track._replace(maximum=FASTEST)
    if kind == "main_speed":
        return track._replace(main=120)
    if kind == "end_of_authority":
        return track._replace(end=20_000)
    if kind in ("restriction", "restriction_ahead"):
        return track._replace(restrictions=[it for it in track.restrictions if it[0] != number])
    if kind in ("static_speed", "static_speed_ahead"):
        starts = [at for at in places(it[0] for it in track.statics) if at <= place]
        # The first one holds beyond the start too: the train may cover the track beyond the group, of which nothing is known.
        fast = [(metres, 120 if number == len(starts) - 1 else speed) for number, (metres, speed) in enumerate(track.statics)]
        return track._replace(statics=fast) if starts else None
    if kind in ("mode_area", "mode_area_ahead"):
        starts = places(it[0] for it in track.areas)
        left = [(at, *it[1:]) for at, it in zip(starts, track.areas)]
        covering = [it for it in left if it[0] <= place < it[0] + 100 * it[2] and 5_000 * it[1] == reason["limit_cause_speed_m_per_h"]]
        if len(covering) != 1:
            return None
        left.remove(covering[0])
        steps = zip(left, [0, *(it[0] for it in left)])
        return track._replace(areas=[((it[0] - before) // 100, *it[1:]) for it, before in steps])
    return None


def forces(inputs):
    """The speed that each thing alone gives, as the plain program says it, whatever else limits: of what lies over the train, and ahead."""
    life = Life()
    for said in inputs:
        life.take(*parts(said))
    it = life.situation()
    over = [*it.maximum(), *it.static_speeds(), *it.restriction_speeds(), *it.area_speeds(), *([it.main] if it.end else [])]
    ahead = [Target(target.place, target.speed) for target in targets_ahead(life, it)]
    ahead += [Target(it.end.place, it.end.speed)] if it.end else []
    return over + [it.greatest(FASTEST, [target]) for target in ahead]


def unanswered(inputs):
    """An image of a life with one output in all its records: a replay for `why` doesn't compare them."""
    life = Life()
    kept, output, place = life.kept(), life.now.output, life.place()
    said = [("powerup", 0), *(event_of(*parts(it)) for it in inputs)]
    records = [record_of(number, event, 0, output, place) for number, event in enumerate(said)]
    ends = ends_of(records, 5, False)
    return image_of(16, [block_of(number, records[first:end], replace(kept, events=end)) for number, (first, end) in enumerate(zip([0, *ends], ends), 1)])


def tracks(count):
    numbers = Numbers(42)
    for _ in range(count):
        yield random_track(numbers)
