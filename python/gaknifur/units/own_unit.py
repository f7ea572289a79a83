"""Serve the proved unit with the protocol of docs/howto/oracle.md: the library of `unit`, with a journal in memory.

Each event is flushed by itself, so that each has its answer at once. The output of a power-up is never released; it is read from
its record.
"""
import functools
import os
import re
import sys
from pathlib import Path
from typing import BinaryIO

from .. import unit
from ..errors import say
from ..program import DEVICE, REFUSED, Failed, Json
from ..unit import Action, Brake, Cold, Indication, Level, MemoryMedium, Refused, TrainData, Unit, library
from . import protocol
from .protocol import MODES

SLOTS = 64
UNPROVED = re.compile(rb"Gaknifur [^\0]{1,200}, unproved\0")
"""The text in a library that tools/library --unproved made."""


@functools.cache
def check_library() -> None:
    """Fails unless the unit's library exists and has the interface of this package. Says on standard error, once, if it is unproved."""
    try:
        found = library()
    except OSError as error:
        raise Failed(f"can't load the library of the onboard unit ({error}). Make it with `tools/library --unproved PREFIX` (two to three "
                     "minutes, without proof) or `tools/library PREFIX`, and set GAKNIFUR_ETCS_UNIT=PREFIX/lib/libetcs_unit.so",
                     DEVICE) from error
    except (Refused, AttributeError) as error:
        raise Failed(f"the library of the onboard unit has another interface: {error}", DEVICE) from error
    file = Path(found._name)
    if file.is_file() and UNPROVED.search(file.read_bytes()):
        say(f"this run is unproved: {file} was compiled without proof")


def action_of(event: Json) -> Action:
    """The driver's action, if it has no value or one of a few."""
    name = event["action"]
    if name == "choose_level":
        return Action[f"CHOOSE_LEVEL_{event['chosen_level']}"]
    if name in ("confirm", "acknowledge"):
        return Action[f"{name}_{event['confirmed' if name == 'confirm' else 'acknowledged']}".upper()]
    return Action[name.upper()]


def members_of(event: int, mode: unit.Mode, level: unit.Level, brake: Brake, shows: Indication, place: int | None,
               uncertainty: int | None, limit: int | None) -> Json:
    """An answer, with all its members."""
    return {"event": event, "mode": MODES[mode], "level": None if level == Level.INVALID else int(level),
            "brake": brake.name.lower(),
            "indications": [one.name.lower() for one in Indication if one in shows and one.name], "place_cm": place,
            "uncertainty_cm": uncertainty, "limit_m_per_h": limit}


class OwnUnit:
    """The proved unit. It had no power before the first power-up; each later power-up is after a loss of power."""

    def __init__(self) -> None:
        check_library()
        self.medium = MemoryMedium.formatted(SLOTS)
        self.unit: Unit | None = None

    def close(self) -> None:
        """Frees its memory."""
        if self.unit:
            self.unit.close()
        self.unit = None

    def power_up(self, word: str) -> Json:
        """Takes power away, if there was any, and powers up."""
        self.close()
        opened = Unit(self.medium, Cold[word.upper()])
        opened.open()
        self.unit = opened
        last = list(unit.records(self.medium.read()))[-1]
        return members_of(last.event, last.mode, last.level, last.brake, last.indications, last.front_cm, last.uncertainty_cm,
                          last.limit_m_per_h)

    def take(self, one: Unit, event: Json) -> None:
        """Gives the unit an event."""
        kind, action = event["kind"], event.get("action")
        if kind == "telegram":
            one.telegram(bytes.fromhex(event["telegram"]))
        elif kind == "odometer":
            one.odometer(event["movement_cm"], event["speed_m_per_h"])
        elif kind == "clock":
            one.clock(event["now_ms"])
        elif action == "enter_identity":
            one.identity(event["identity"])
        elif action == "enter_running_number":
            one.running_number(event["running_number"])
        elif action == "enter_train_data":
            one.train_data(TrainData(*(event[name]
                                       for name in ("length_cm", "maximum_m_per_h", "deceleration_cm_per_s2",
                                                    "reaction_ms",
                                                                "category"))))
        else:
            one.action(action_of(event))

    def answer(self, event: Json) -> Json:
        """The answer to an event. `Refused` if the unit doesn't accept it."""
        if event["kind"] == "powerup":
            return self.power_up(event["word"])
        if self.unit is None:
            raise Failed(f"event {event['event']}: the first event has to be a power-up", REFUSED)
        self.take(self.unit, event)
        output, = self.unit.flush()
        state = self.unit.state()
        return members_of(output.event, output.mode, output.level, output.brake, output.indications, state.front_cm,
                          state.uncertainty_cm, output.limit_m_per_h)


def answered(own: OwnUnit, line: bytes, is_first: bool) -> Json:
    """The answer to a line: the greeting to the first line, then answers to events."""
    if len(line) > protocol.MOST_LINE:
        raise protocol.Wrong(protocol.TOO_LONG)
    message = protocol.object_of(line)
    if is_first:
        protocol.check_version(message)
        return {"protocol": protocol.PROTOCOL, "unit": f"Gaknifur {unit.version()}", "members": list(protocol.ANSWER)}
    protocol.check_event(message)
    return own.answer(message)


def serve(into: BinaryIO, out: BinaryIO) -> None:
    """Answers each line until there are no more."""
    own = OwnUnit()
    try:
        for number, line in enumerate(iter(lambda: into.readline(protocol.MOST_LINE + 1), b"")):
            try:
                answer = answered(own, line, number == 0)
            except (protocol.Wrong, Refused, KeyError, ValueError) as error:
                reason = f"{error} is missing or unknown" if isinstance(error, KeyError) else str(error)
                raise Failed(f"serve: line {number + 1}: {reason}", REFUSED) from error
            out.write(protocol.line_of(answer).encode())
            out.flush()
    finally:
        own.close()


def serve_streams() -> None:
    """Answers on the standard streams."""
    if sys.stdin is None or sys.stdin.closed:
        raise Failed(f"serve: {os.strerror(9)}", DEVICE)
    serve(sys.stdin.buffer, sys.stdout.buffer)
