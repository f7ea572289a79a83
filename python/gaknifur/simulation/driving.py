"""Run a train in a closed loop with an onboard unit: the unit gets the train's movement, and its commands move the train.

In each time step the driver decides by what he was shown last, the train moves by his commands and the unit's, and the unit gets
the moment, the odometer readings and each balise that was passed; then the driver acts. The train is a point that moves on level
track; its antenna may be at a distance from its front. This model is not proved. The unit is anything with the calls of `unit.Unit`.
"""
from collections.abc import Iterable
from dataclasses import dataclass, field
from typing import Any, Protocol

from ..etcs_run import Released
from ..unit import OUTPUTS, Action, Brake, Indication, Level, Mode, Output, TrainData
from ..units.protocol import MODES
from .drives import Act, Drive, Driver, Train, When
from .scenarios import ACKNOWLEDGED, LONGEST_CM, Scenario

BEFORE = Output(0, Mode.STAND_BY, Level.INVALID, Brake.EMERGENCY, 0, Indication.NOT_REVALIDATED)
"""The output until the first one is released: that of the power-up never is."""
BRAKES = {brake: brake.name.lower() for brake in Brake}
CM_PER_S = 36
"""1 cm/s in m/h."""
CONFIRMS = {1: Action.CONFIRM_IDENTITY, 2: Action.CONFIRM_RUNNING_NUMBER, 3: Action.CONFIRM_TRAIN_DATA, 4: Action.CONFIRM_LEVEL}
ACKNOWLEDGES = {1: Action.ACKNOWLEDGE_TRIP, 2: Action.ACKNOWLEDGE_ON_SIGHT, 3: Action.ACKNOWLEDGE_SHUNTING,
                4: Action.ACKNOWLEDGE_LEVEL_0}
WITHOUT_VALUE = {6: Action.START, 7: Action.CHOOSE_SHUNTING, 8: Action.LEAVE_SHUNTING, 9: Action.OVERRIDE, 11: Action.CLOSE_DESK}
LOOKS_AHEAD_S, BAND, LEAST = 3, 5_000, 0.2
"""A driver who heeds the limit looks LOOKS_AHEAD_S seconds ahead and brakes fully at BAND m/h above his aim; LEAST is the least part
of the service brake that he uses."""


class Drivable(Protocol):
    """The calls of a unit that the loop uses."""

    def telegram(self, data: bytes) -> None:
        """Takes the bytes that a balise sent."""

    def odometer(self, movement_cm: int, speed_m_per_h: int) -> None:
        """Takes a reading."""

    def clock(self, moment_ms: int) -> None:
        """Takes a moment."""

    def action(self, action: Action) -> None:
        """Takes an action of the driver."""

    def identity(self, text: str) -> None:
        """The driver enters an identity."""

    def running_number(self, number: int) -> None:
        """The driver enters a running number."""

    def train_data(self, data: TrainData) -> None:
        """The driver enters train data."""

    def flush(self) -> list[Output]:
        """Records pending events, and returns their outputs."""


# ---- the train

class Motion:
    """The place of a train in cm, its speed in cm/s, and the effect of its brakes in cm/s2."""

    def __init__(self, train: Train, place_cm: float = 0.0) -> None:
        self.train, self.place, self.speed, self.braking = train, place_cm, 0.0, 0.0
        self.commands: list[tuple[int, float]] = [(0, 0.0)]
        """The commands to the brakes, each from a moment on."""
        self.stands = True
        """Whether it didn't move in the last time step; the unit then got a standstill."""

    def command(self, moment: int, braking: float) -> None:
        """Commands the brakes from this moment on."""
        if self.commands[-1][1] != braking:
            self.commands.append((moment, braking))

    def due(self, moment: int) -> float:
        """The command that reaches the brakes at a moment."""
        while len(self.commands) > 1 and self.commands[1][0] + self.train.reaction_ms <= moment:
            self.commands.pop(0)
        return self.commands[0][1]

    def brake(self, wanted: float, seconds: float) -> float:
        """Moves the brakes towards what is wanted; returns their mean effect over the time."""
        if not self.train.build_up_ms:
            self.braking = wanted
            return wanted
        rate = 1000 * self.train.strongest / self.train.build_up_ms
        needs = abs(wanted - self.braking) / rate
        before, part = self.braking, min(seconds, needs)
        self.braking = wanted if needs <= seconds else before + (rate if wanted > before else -rate) * seconds
        return (part * (before + self.braking) / 2 + (seconds - part) * self.braking) / seconds

    def move(self, moment: int, ms: int, power: float) -> None:
        """Moves for `ms` from a moment on."""
        seconds = ms / 1000
        braking, grip = self.brake(self.due(moment), seconds), self.train.grip(self.place)
        change = grip * (power * self.train.rate("acceleration", self.m_per_h) - braking)
        before, after = self.speed, self.speed + change * seconds
        if after > 0:
            self.place += (before + after) / 2 * seconds
        elif before:
            self.place += before * before / (2 * -change)
        self.speed = max(0.0, after)
        self.stands = not before and not self.speed

    @property
    def m_per_h(self) -> float:
        """Its speed in m/h."""
        return CM_PER_S * self.speed


# ---- the driver

class Driving:
    """The state of a driver."""

    def __init__(self, driver: Driver) -> None:
        self.driver, self.heeds = driver, driver.heeds
        self.limit: int | None = None
        self.limits: list[int] = []
        """The limits that he was shown, as far back as he is late."""
        self.shown: dict[str, int] = {}
        """Since when each indication that he has to acknowledge is shown."""
        self.fall = 0.0
        self.left: list[tuple[Act, int | None]] = [(act, None) for act in driver.acts]
        """The actions that he hasn't done yet, and since when their conditions hold."""

    def decide(self, speed: float, limit: int, ms: int) -> tuple[float, float]:
        """The shares of the train's power and of its service brake that he uses."""
        self.limits = [*self.limits, limit][-1 - -(-self.driver.late_ms // ms):]
        limit = self.limits[0]
        self.fall = max(0.0, ((self.limit or limit) - limit) / ms * 1000)
        self.limit = limit
        if self.heeds == "nothing":
            return 1.0, 0.0
        aim = limit - self.driver.below - LOOKS_AHEAD_S * self.fall
        if speed > aim:
            return 0.0, max(LEAST, min(1.0, (speed - aim) / BAND))
        return (1.0, 0.0) if speed < aim - BAND / 2 else (0.0, 0.0)

    def acts(self, moment: int, motion: Motion, output: Output) -> Iterable[list[Any]]:
        """The actions that are due, each once, and the acknowledgements."""
        yield from self.acknowledgements(moment, motion, output)
        left = []
        for act, since in self.left:
            if since is None and holds(act.when, moment, motion, output):
                since = moment
            if since is None or since + act.after_ms > moment:
                left.append((act, since))
            elif act.action is None:
                self.heeds = act.heeds or self.heeds
            else:
                yield act.action
        self.left = left

    def acknowledgements(self, moment: int, motion: Motion, output: Output) -> Iterable[list[Any]]:
        """The acknowledgements that are due: of what has been shown long enough, and of a trip only at standstill."""
        if self.driver.acknowledges_ms is None:
            return
        for word, code in ACKNOWLEDGED.items():
            if Indication[word.upper()] not in output.indications or word == "trip" and not motion.stands:
                self.shown.pop(word, None)
            elif self.shown.setdefault(word, moment) + self.driver.acknowledges_ms <= moment:
                del self.shown[word]
                yield [10, code]


def holds(when: When, moment: int, motion: Motion, output: Output) -> bool:
    """Whether all parts of a condition hold."""
    return ((when.place_cm is None or motion.place >= when.place_cm) and (when.time_ms is None or moment >= when.time_ms)
            and (when.mode is None or MODES[output.mode] == when.mode)
            and (when.shows is None or Indication[when.shows.upper()] in output.indications)
            and (when.stands is None or motion.stands == when.stands))


# ---- the loop

@dataclass(frozen=True)
class Row:
    """The end of a time step: its events, the train's state and the unit's output."""

    time_ms: int
    first_event: int
    event: int
    place_cm: int
    speed_m_per_h: int
    limit_m_per_h: int
    brake: str
    mode: str
    braking_cm_per_s2: int

    @property
    def above_m_per_h(self) -> int:
        """How far the speed is above the limit; negative if it is below."""
        return self.speed_m_per_h - self.limit_m_per_h


@dataclass
class Driven:
    """The course of a drive."""

    rows: list[Row] = field(default_factory=list)
    outputs: list[Output] = field(default_factory=list)
    steps: list[dict[str, Any]] = field(default_factory=list)
    """The inputs of the unit, as steps of a scenario."""
    heard: list[tuple[float, str]] = field(default_factory=list)
    """Each telegram, and the place from which its distances count."""

    def released(self) -> list[Released]:
        """The outputs with the names of records."""
        return [Released(one.event, MODES[one.mode], None if one.level == Level.INVALID else int(one.level), BRAKES[one.brake],
                         one.limit_m_per_h, int(one.indications)) for one in self.outputs]


class Loop:
    """A unit and a train, step by step."""

    def __init__(self, unit: Drivable, scenario: Scenario, drive: Drive) -> None:
        self.unit, self.scenario, self.drive = unit, scenario, drive
        self.driven, self.output, self.pending, self.moment = Driven(), BEFORE, 0, 0
        self.balises: list[tuple[int, int, str]] = [
            (group["at"] + number * group["spacing"] + drive.train.antenna_cm, group["at"], digits)
            for group in scenario.groups for number, digits in enumerate(group["balises"])]
        """For each balise the place of the front when it is read, the place where its group begins, and its telegram."""
        self.balises.sort(key=lambda balise: balise[0])
        self.motion = Motion(drive.train)
        self.reported_cm, self.share = 0, 1.0
        self.base: tuple[float, int] = 0.0, 0
        """The place from which the odometer reports that share of the distance, and what it had reported there."""
        self.error_cm = 0
        """The error of the readings of a time step."""

    def accept(self, step: dict[str, Any], origin_cm: float | None = None) -> None:
        """Gives the unit one event, written as the step of a scenario; `origin_cm` is where the group of a telegram begins. If no more
        events may be pending, they are recorded first."""
        if self.pending == OUTPUTS:
            self.flush()
        (word, value), = step.items()
        if word == "telegram":
            self.unit.telegram(bytes.fromhex(value))
            here = self.motion.place - self.drive.train.antenna_cm
            self.driven.heard.append((here if origin_cm is None else origin_cm, value))
        elif word == "drive":
            self.unit.odometer(*value)
        elif word == "clock":
            self.unit.clock(value)
            self.moment = value
        else:
            self.act(value)
        self.pending += 1
        self.driven.steps.append(step)

    def act(self, action: list[Any]) -> None:
        """Gives the unit an action, by the code and values of a scenario."""
        code, *values = action
        if code == 1:
            self.unit.identity(values[0])
        elif code == 2:
            self.unit.running_number(values[0])
        elif code == 3:
            self.unit.train_data(TrainData(*values))
        elif code == 4:
            self.unit.action(Action.CHOOSE_LEVEL_1 if values[0] else Action.CHOOSE_LEVEL_0)
        else:
            self.unit.action({5: CONFIRMS, 10: ACKNOWLEDGES}[code][values[0]] if values else WITHOUT_VALUE[code])

    def flush(self) -> None:
        """Records pending events, and takes their outputs."""
        outputs = self.unit.flush()
        if outputs:
            self.driven.steps.append({"flush": True})
        self.driven.outputs += outputs
        self.output = outputs[-1] if outputs else self.output
        self.pending = 0

    def pass_to(self, end_cm: float, speed: int) -> None:
        """Gives the unit the movement up to a place, and the balises that are passed."""
        start, is_read = self.motion.place, False
        for place, origin, digits in self.balises:
            if start < place <= end_cm:
                self.motion.place = place
                self.read(speed, self.measured() != self.reported_cm)
                self.accept({"telegram": digits}, origin)
                is_read = True
        self.motion.place = end_cm
        self.read(speed, not is_read or self.measured() != self.reported_cm)

    def measured(self) -> int:
        """The distance up to the train's place as the odometer measures it. With an error it doesn't decrease, and doesn't change at
        standstill."""
        place, reported = self.base
        here = reported + round((self.motion.place - place) * self.share)
        if not self.error_cm:
            return here
        return self.reported_cm if self.motion.stands else max(self.reported_cm, here + self.error_cm)

    def read(self, speed: int, is_wanted: bool) -> None:
        """Gives the unit readings of the odometer up to the train's place, each of at most 100 m, the longest ones first."""
        end = self.measured()
        while is_wanted:
            way = max(-LONGEST_CM, min(LONGEST_CM, end - self.reported_cm))
            self.accept({"drive": [way, speed]})
            self.reported_cm += way
            is_wanted = self.reported_cm != end

    def begin(self) -> None:
        """Plays the steps before the drive. The odometer measures their movements exactly."""
        for step in self.scenario.steps:
            if "drive" in step:
                way, speed = step["drive"]
                self.pass_to(self.motion.place + way, speed)
            elif "flush" in step:
                self.flush()
            else:
                self.accept(step)
        self.flush()
        self.base, self.share = (self.motion.place, self.reported_cm), float(self.drive.train.odometer)

    def cycle(self, driving: Driving) -> None:
        """One time step."""
        motion, step_ms, start = self.motion, self.drive.step_ms, self.moment
        power, own = driving.decide(motion.m_per_h, self.output.limit_m_per_h, step_ms)
        service, emergency = (self.drive.train.rate(name, motion.m_per_h) for name in ("service", "emergency"))
        commanded = {Brake.NONE: 0, Brake.SERVICE: service, Brake.EMERGENCY: emergency}
        motion.command(start, max(own * service, commanded[self.output.brake]))
        before, known = motion.place, len(self.driven.outputs)
        motion.move(start, step_ms, 0.0 if own or self.output.brake != Brake.NONE else power)
        end, motion.place = motion.place, before
        speed = round(motion.m_per_h * float(self.drive.train.speedometer))
        self.error_cm = -self.error_cm if self.error_cm else self.drive.train.reading_error_cm
        self.accept({"clock": start + step_ms})
        self.pass_to(end, 0 if motion.stands else max(1, speed))
        for action in driving.acts(self.moment, motion, self.output):
            self.accept({"driver": action})
        self.flush()
        self.driven.rows.append(Row(self.moment, self.driven.outputs[known].event, self.output.event, round(motion.place),
                                    round(motion.m_per_h), self.output.limit_m_per_h, BRAKES[self.output.brake],
                                    MODES[self.output.mode], round(motion.braking)))

    def play(self) -> Driven:
        """The steps, and then the drive to its end."""
        self.begin()
        driving, moved = Driving(self.drive.driver), False
        for _ in range(self.drive.cycles):
            self.cycle(driving)
            moved = moved or not self.motion.stands
            if self.drive.until_standstill and moved and self.motion.stands:
                break
        return self.driven


def play(unit: Drivable, scenario: Scenario, drive: Drive) -> Driven:
    """Plays a drive on a unit that is open."""
    return Loop(unit, scenario, drive).play()
