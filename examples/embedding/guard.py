#!/usr/bin/env python3
"""The guard in Python. It prints what guard.c prints.

    PYTHONPATH=python GAKNIFUR_ETCS_UNIT=PREFIX/lib/libetcs_unit.so examples/embedding/guard.py
"""
from gaknifur.guard import Demand, Direction, Guard
from gaknifur.unit import Brake, Mode

STOP = bytes.fromhex("90007F80200162600C3FC0")
"""A packet 137 for both directions with Q_SRSTOP 0."""
MODES = {"FS": Mode.FULL_SUPERVISION, "OS": Mode.ON_SIGHT, "SR": Mode.STAFF_RESPONSIBLE, "SH": Mode.SHUNTING, "UN": Mode.UNFITTED}


def main() -> None:
    found: list[Demand] = []
    for letters, mode in MODES.items():
        guard = Guard()
        found += guard.hear(STOP, mode, Direction.NOMINAL)
        print(f"{letters}: {guard.command(Brake.NONE).name.lower()}")
    for one in found:
        print(f"packet {one.packet}: {one.demanded.name.lower()}, {one.section}, {one.sureness.name.lower()}")


if __name__ == "__main__":
    main()
