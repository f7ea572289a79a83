#!/usr/bin/env python3
"""Tests the cases of docs/explain/integration.md on the library that $GAKNIFUR_ETCS_UNIT names: telegrams that come late, and centimetres that are cut off.

The numbers were worked out by hand. The group is announced 300 m after the first one, with Q_LOCACC 5 m: its fix is exact to 5 m and 5 m. A 20th of
the path since is added, rounded up. 5 km/h in 100 ms are 13.8 cm.
"""
import sys
from pathlib import Path

TOP = Path(__file__).resolve().parents[2]
sys.path[:0] = [str(TOP / "tests"), str(TOP / "python")]

from compared import Compared  # noqa: E402
from gaknifur.telegrams import telegrams  # noqa: E402
from gaknifur.unit import Action, MemoryMedium, TrainData, Unit  # noqa: E402

FIRST = ("NID_BG 2; 5: D_LINK 300, Q_NEWCOUNTRY 0, NID_BG 3, Q_LINKORIENTATION 1, Q_LINKREACTION 1, Q_LOCACC 5, N_ITER 0; 12: V_MAIN 32, L_ENDSECTION 2000; "
         "21: D_GRADIENT 0, Q_GDIR 0, G_A 0, N_ITER 0; 27: D_STATIC 0, V_STATIC 28, Q_FRONT 0, N_ITER 0")
FAST, STEP, LATE = 140_000, 389, 778


def telegram(text):
    return bytes.fromhex(telegrams.telegram(text).digits)


def drive(unit, way):
    while way > 0:
        unit.odometer(min(way, STEP), FAST)
        unit.flush()
        way -= STEP


def passed(before, after):
    """Front and uncertainty where the second group is handed in after so many centimetres, and then so many more are driven."""
    with Unit(MemoryMedium.formatted(16)) as unit:
        unit.telegram(telegram(FIRST))
        unit.identity("A")
        unit.action(Action.CHOOSE_LEVEL_1)
        unit.train_data(TrainData(20_000, 160_000, 70, 1_000, 15))
        unit.action(Action.START)
        unit.flush()
        drive(unit, before)
        unit.telegram(telegram("NID_BG 3, Q_LINK 1"))
        unit.flush()
        drive(unit, after)
        state = unit.state()
    return state.front_cm, state.uncertainty_cm


def moved(carries):
    """Front and uncertainty after 7,200 readings at 5 km/h, the rest of each carried over, or cut off."""
    with Unit(MemoryMedium.formatted(4)) as unit:
        rest = 0
        for cycle in range(7_200):
            way, rest = divmod(5_000 * 100 + (rest if carries else 0), 36_000)
            unit.odometer(way, 5_000)
            if cycle % 8 == 7:
                unit.flush()
        state = unit.state()
    return state.front_cm, state.uncertainty_cm


def main():
    compared = Compared()
    compared.same("at the balise", passed(30_000, 0), (30_000, 1_000))
    compared.same("two cycles late", passed(30_000 + LATE, 0), (30_000, 1_000))
    compared.same("at its stamp", passed(30_000, LATE), (30_778, 1_000 + 39))
    compared.same("the rest cut off", moved(False), (7_200 * 13, 500 + 7_200 * 13 // 20))
    compared.same("the rest carried over", moved(True), (100_000, 500 + 5_000))
    return compared.end(f"conditions of an integrator: {compared.count} tried")


if __name__ == "__main__":
    sys.exit(main())
