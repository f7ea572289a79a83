"""Read a drive in a closed loop from YAML: a train, its driver and a time step. docs/reference/drives.md describes the keys.

A drive follows the steps of a life, which are played before the train moves. `driving` plays it.
"""
import re
from dataclasses import dataclass, field
from decimal import Decimal
from pathlib import Path
from typing import Any

from ..journal.wording import INDICATIONS, MODES
from ..yaml_files import Value, document
from . import scenarios

HEEDS = ("limit", "nothing")
STANDSTILL = "standstill"
WHEN = ("place", "time", "mode", "shows", "stands")
WITH_VALUE = ("enter_identity", "enter_running_number", "enter_train_data", "choose_level", "confirm", "acknowledge")
DRIVE = ("train", "driver", "time_step", "lasts")
MOST_ACCELERATION, MOST_DELAY_MS, MOST_STEP_MS, MOST_LASTS_MS = 1_000, 60_000, 10_000, 86_400_000
MOST_CYCLES = 1_000_000
MOST_SLOTS = 65_536
"""The most slots of an image of a drive: 201 MB. A longer drive overwrites its oldest blocks."""
PERCENT = re.compile(r"([0-9]+(?:\.[0-9]+)?) ?%")
UP_TO, STRETCH = re.compile(r"(.+?) up to (.+)"), re.compile(r"(.+?) from (.+?) to (.+)")
Rates = tuple[tuple[int, int], ...]
"""Rates in cm/s2, each up to a speed in m/h."""
MOST_ERROR_CM, MOST_ANTENNA_CM = 1_000, 10_000


@dataclass(frozen=True)
class Train:
    """How a train moves, in cm/s2 and ms. Commands reach its brakes after the reaction time; then the brakes build up, and
    release, evenly within the build-up time."""

    acceleration: int
    service: int
    emergency: int
    """Each is the least value if it depends on the speed."""
    reaction_ms: int = 0
    build_up_ms: int = 0
    odometer: Decimal = Decimal(1)
    """The factor by which its odometer measures distances."""
    speedometer: Decimal = Decimal(1)
    """The factor by which it measures the speed."""
    reading_error_cm: int = 0
    """The error of a reading's place, forward in one time step and backward in the next; it doesn't add up."""
    antenna_cm: int = 0
    """The distance of its antenna from its front, towards the rear."""
    rates: tuple[tuple[str, Rates], ...] = ()
    """Acceleration, service and emergency, by their names, if they depend on the speed."""
    adhesion: tuple[tuple[Decimal, int, int | None], ...] = ()
    """The share of traction and braking that reaches the rails, from one place to another or from a place on; elsewhere all of it."""

    def rate(self, name: str, m_per_h: float) -> int:
        """Acceleration, service or emergency at a speed."""
        for up_to, rate in dict(self.rates).get(name, ()):
            if m_per_h <= up_to:
                return rate
        return int(getattr(self, name))

    @property
    def strongest(self) -> int:
        """The greatest deceleration of both brakes at any speed."""
        rates_of_brakes = [rate for name, rates in self.rates if name != "acceleration" for _, rate in rates]
        return max(self.service, self.emergency, *rates_of_brakes)

    def grip(self, place_cm: float) -> float:
        """The share of traction and braking that reaches the rails at a place."""
        return next((float(share) for share, start, end in self.adhesion if start <= place_cm and (end is None or place_cm < end)), 1.0)


@dataclass(frozen=True)
class When:
    """A condition, all parts of which have to hold at once: the place and the moment are reached, and the last output has this mode
    and indication."""

    place_cm: int | None = None
    time_ms: int | None = None
    mode: str | None = None
    shows: str | None = None
    stands: bool | None = None


@dataclass(frozen=True)
class Act:
    """What a driver does, once: `after_ms` after the first moment at which the condition holds."""

    when: When
    after_ms: int
    action: list[Any] | None
    """As in a scenario; None if the driver changes what he heeds."""
    heeds: str | None = None


@dataclass(frozen=True)
class Driver:
    """A driver: what he heeds, how far he stays below the limit (above it if negative), and his actions."""

    heeds: str
    below: int
    acts: list[Act] = field(default_factory=list)
    late_ms: int = 0
    """The age of what he acts on."""
    acknowledges_ms: int | None = None
    """The delay after which he acknowledges an indication; None if he never does."""


@dataclass(frozen=True)
class Drive:
    """A drive in a closed loop."""

    at: Value
    train: Train
    driver: Driver
    step_ms: int
    lasts_ms: int
    until_standstill: bool

    @property
    def cycles(self) -> int:
        """The greatest number of its time steps."""
        return -(-self.lasts_ms // self.step_ms)


def percent(at: Value, text: str, least: int, most: int) -> Decimal:
    """A percentage, as a share of 1."""
    found = PERCENT.fullmatch(text.strip())
    if not found or not least <= at.decimal(found[1]) <= most:
        raise at.fault(f"expected a number from {least} to {most} with %, found {at.describe()}")
    return scenarios.EXACT.divide(at.decimal(found[1]), Decimal(100))


def rates_of(at: Value, least: int) -> Rates:
    """A rate, or a list of rates; each but the last one applies up to a speed."""
    if not at.is_list():
        return ((scenarios.MOST_SPEED, scenarios.quantity_of(at, "acceleration", least, MOST_ACCELERATION)),)
    found: list[tuple[int, int]] = []
    elements = at.elements()
    for number, one in enumerate(elements):
        parts = UP_TO.fullmatch(one.text())
        if (parts is None) != (number == len(elements) - 1):
            raise one.fault("each rate except the last one needs `up to` and a speed, such as \"0.8 m/s2 up to 40 km/h\"")
        up_to = scenarios.quantity(parts[2], one, "speed", 1, scenarios.MOST_SPEED) if parts else scenarios.MOST_SPEED
        if found and up_to <= found[-1][0]:
            raise one.fault("the speeds have to rise")
        found.append((up_to, scenarios.quantity(parts[1] if parts else one.text(), one, "acceleration", least, MOST_ACCELERATION)))
    if not found:
        raise at.fault("the list of rates is empty")
    return tuple(found)


def adhesion_of(at: Value) -> tuple[tuple[Decimal, int, int | None], ...]:
    """The share that reaches the rails: everywhere, or on stretches of the track."""
    if not at.is_list():
        return ((percent(at, at.text(), 1, 100), 0, None),)
    found: list[tuple[Decimal, int, int | None]] = []
    for one in at.elements():
        parts = STRETCH.fullmatch(one.text())
        if parts is None:
            raise one.fault("expected a share and a stretch, such as \"30 % from 400 m to 700 m\"")
        start, end = (scenarios.quantity(text, one, "distance", 0, scenarios.MOST_PLACE_CM) for text in (parts[2], parts[3]))
        if start >= end:
            raise one.fault("a stretch has to begin before it ends")
        found.append((percent(one, parts[1], 1, 100), start, end))
    return tuple(found)


OF_TRAIN = ("emergency", "reaction", "build_up", "odometer", "speedometer", "reading_error", "antenna", "adhesion")


def train_of(at: Value) -> Train:
    """A train."""
    members = at.members(("acceleration", "service"), OF_TRAIN)

    def delay(name: str) -> int:
        return scenarios.quantity_of(members[name], "time", 0, MOST_DELAY_MS) if name in members else 0

    def share(name: str) -> Decimal:
        return percent(members[name], members[name].text(), 50, 150) if name in members else Decimal(1)

    def distance(name: str, most: int) -> int:
        return scenarios.quantity_of(members[name], "distance", 0, most) if name in members else 0

    rates = {name: rates_of(members[name], least) for name, least in (("acceleration", 1), ("service", 0), ("emergency", 1)) if name in members}
    least = {name: min(rate for _, rate in found) for name, found in rates.items()}
    if "emergency" not in members:
        if not least["service"]:
            raise at.fault("emergency is missing: a train whose service brake has no effect has another brake")
        rates["emergency"], least["emergency"] = rates["service"], least["service"]
    return Train(least["acceleration"], least["service"], least["emergency"], delay("reaction"), delay("build_up"), share("odometer"),
                 share("speedometer"), distance("reading_error", MOST_ERROR_CM), distance("antenna", MOST_ANTENNA_CM),
                 tuple((name, found) for name, found in rates.items() if len(found) > 1),
                 adhesion_of(members["adhesion"]) if "adhesion" in members else ())


def when_of(at: Value) -> When:
    """The condition of an action."""
    members = at.members((), WHEN)
    if not members:
        raise at.fault(f"expected one of {', '.join(WHEN)}")
    return When(scenarios.quantity_of(members["place"], "distance", 0, scenarios.MOST_PLACE_CM) if "place" in members else None,
                scenarios.quantity_of(members["time"], "time", 0, scenarios.MOST_MOMENT) if "time" in members else None,
                members["mode"].one_of(MODES) if "mode" in members else None,
                members["shows"].one_of(INDICATIONS) if "shows" in members else None,
                members["stands"].truth() if "stands" in members else None)


def act_of(at: Value) -> Act:
    """An action of a driver."""
    members = at.members(("when",), ("after", "do", "heeds", *WITH_VALUE))
    what = [name for name in members if name not in ("when", "after")]
    if len(what) != 1:
        raise at.fault(f"`when` needs one of do, heeds, {', '.join(WITH_VALUE)}")
    word, value = what[0], members[what[0]]
    when = when_of(members["when"])
    after = scenarios.quantity_of(members["after"], "time", 0, MOST_LASTS_MS) if "after" in members else 0
    if word == "heeds":
        return Act(when, after, None, value.one_of(HEEDS))
    return Act(when, after, scenarios.action_of(value.one_of(scenarios.WITHOUT_VALUE) if word == "do" else word, value))


def driver_of(at: Value) -> Driver:
    """A driver."""
    members = at.members(("heeds",), ("below", "acts", "late", "acknowledges"))
    below = scenarios.quantity_of(members["below"], "speed", -scenarios.MOST_SPEED, scenarios.MOST_SPEED) if "below" in members else 4_000
    return Driver(members["heeds"].one_of(HEEDS), below, [act_of(one) for one in members["acts"].elements()] if "acts" in members else [],
                  scenarios.quantity_of(members["late"], "time", 0, MOST_DELAY_MS) if "late" in members else 0,
                  scenarios.quantity_of(members["acknowledges"], "time", 0, MOST_DELAY_MS) if "acknowledges" in members else None)


def drive_of(at: Value) -> Drive:
    """A drive."""
    members = at.members(DRIVE, ("until",))
    drive = Drive(at, train_of(members["train"]), driver_of(members["driver"]),
                  scenarios.quantity_of(members["time_step"], "time", 10, MOST_STEP_MS),
                  scenarios.quantity_of(members["lasts"], "time", 10, MOST_LASTS_MS),
                  "until" in members and members["until"].one_of([STANDSTILL]) == STANDSTILL)
    if drive.cycles > MOST_CYCLES:
        raise members["lasts"].fault(f"{drive.cycles:,} time steps are more than {MOST_CYCLES:,}")
    return drive


def read(path: Path) -> tuple[scenarios.Scenario, Drive | None]:
    """The scenario of a YAML file, and its drive, if it has one."""
    at = document(path)
    members = at.members(("steps",), (*scenarios.LIFE, "drive", *scenarios.SHARED))
    built = scenarios.build(members, scenarios.shared_of(members, path))
    return built, drive_of(members["drive"]) if "drive" in members else None


def slots_for(scenario: scenarios.Scenario, drive: Drive) -> int:
    """The slots that a life of this drive needs: one for each time step, and more if there are many balises. A longer drive keeps
    only its newest blocks."""
    balises = sum(len(group["balises"]) for group in scenario.groups)
    return min(8 + drive.cycles + scenario.events + 2 * balises + len(drive.driver.acts), MOST_SLOTS)
