"""A guard next to the onboard unit, over the library that `gaknifur.unit` loads: what a train of issue 2.3.0 stops for, or
obeys, in a telegram, and the unit skips or refuses (docs/howto/c-guard.md).

    guard = Guard()
    guard.hear(telegram, mode)                      # each telegram, before the unit gets it
    brake = guard.command(output.brake)             # each output: obey this brake
    guard.acknowledge(speed_m_per_h)                # the driver acknowledges

It only adds braking, and the unit and its journal know nothing of it. Any exception means the emergency brake.
"""
import ctypes
from collections.abc import Iterator
from dataclasses import dataclass

from . import _header, unit
from ._header import Demanded, Direction, Fault, Finding, GuardPolicy, Sureness
from .unit import Brake, Mode, Refused, Status

__all__ = ["Demand", "Demanded", "Direction", "Fault", "Finding", "Guard", "GuardPolicy", "Sureness", "demands"]

NO_PACKET = 256


@dataclass(frozen=True, slots=True)
class Demand:
    """What a telegram demands: a row of the guard's table that applies (crates/track_guard/README.md)."""

    demanded: Demanded
    finding: Finding
    packet: int | None
    """NID_PACKET; None if the whole telegram is refused."""
    start: int
    """The place of the packet's first bit in the telegram, from 0."""
    bits: int
    """Its L_PACKET; 0 if the telegram is refused."""
    fault: Fault | None
    """Why the telegram is refused."""
    section: str
    """The section of SUBSET-026 issue 2.3.0, as 4.6.3."""
    sureness: Sureness


def _demand(demand: _header.etcs_demand) -> Demand:
    parts = [demand.chapter, demand.section] + [demand.clause] * (demand.clause > 0)
    return Demand(Demanded(demand.demanded), Finding(demand.finding), None if demand.packet == NO_PACKET else demand.packet,
                  demand.start, demand.bits, Fault(demand.fault) if demand.fault else None, ".".join(map(str, parts)),
                  Sureness(demand.sureness))


def demands(telegram: bytes, mode: Mode, direction: Direction = Direction.NOT_KNOWN, *, overridden: bool = False) -> Iterator[Demand]:
    """The demands of a telegram in a mode (that of the last output), for a train that passes the group in this direction:
    first that of a telegram which the unit refuses, then those of its packets, in their order. `overridden` is set while
    an override is active."""
    situation, demand, index = _header.etcs_situation(mode, direction, overridden), _header.etcs_demand(), 0
    while (status := unit._called("etcs_guard_demand_", telegram, len(telegram), ctypes.byref(situation), index,
                                  ctypes.byref(demand))) == Status.OK:
        yield _demand(demand)
        index += 1
    if status != Status.END:
        raise Refused(status)


class Guard:
    """The guard of one unit, begun anew at each power-up. With `GuardPolicy.STRICT` it brakes for a demand of a trip or of the
    service brake until the driver acknowledges at standstill; with `GuardPolicy.WARN` it only reports."""

    def __init__(self, policy: GuardPolicy = GuardPolicy.STRICT) -> None:
        self._guard = _header.etcs_guard()
        self._check("begin", policy)

    def _check(self, name: str, *arguments: object) -> None:
        unit._check(unit._called(f"etcs_guard_{name}_", ctypes.byref(self._guard), *arguments))

    @property
    def brake(self) -> Brake:
        """The brake that the guard holds."""
        return Brake(self._guard.brake)

    @property
    def has_heard(self) -> bool:
        """Whether it has heard a telegram since the power-up: before, it knows of none."""
        return bool(self._guard.has_heard)

    def hear(self, telegram: bytes, mode: Mode, direction: Direction = Direction.NOT_KNOWN, *, overridden: bool = False) -> list[Demand]:
        """Takes a telegram before the unit gets it, and returns its demands, as `demands` does. Of a group of several
        balises hand each telegram in again when the direction is known."""
        situation, count = _header.etcs_situation(mode, direction, overridden), ctypes.c_uint32()
        self._check("hear", telegram, len(telegram), ctypes.byref(situation), ctypes.byref(count))
        return list(demands(telegram, mode, direction, overridden=overridden))

    def command(self, unit_brake: Brake) -> Brake:
        """The brake to obey if the unit commands this one: the stronger one of the unit's and the guard's."""
        brake = ctypes.c_uint32()
        self._check("command", unit_brake, ctypes.byref(brake))
        return Brake(brake.value)

    def acknowledge(self, speed_m_per_h: int) -> None:
        """The driver acknowledges at this speed: at 0 the guard releases its brake, otherwise nothing changes."""
        self._check("acknowledge", unit._number(speed_m_per_h, 32))
