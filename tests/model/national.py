"""National values and the countries that they are for (SUBSET-026, 3.18.2; packet 3, defaults: this project's)."""
from dataclasses import dataclass

NO_END = None
NOW = 32767


def speed_of(steps):
    """Steps of 5 km/h in metres per hour."""
    return 5000 * steps


@dataclass(frozen=True)
class Values:
    """Speeds in m/h, distances in cm, times in ms."""

    shunting: int = 30_000
    staff_responsible: int = 40_000
    on_sight: int = 30_000
    unfitted: int = 100_000
    release: int = 40_000
    roll: int = 200
    override_allowed: int = 0
    override_speed: int = 30_000
    override_distance: int = 20_000
    override_time: int = 60_000
    staff_responsible_distance: int = NO_END


DEFAULTS = Values()


def values_of(packet):
    scale = packet.scale_cm
    return Values(
        shunting=speed_of(packet.shunting), staff_responsible=speed_of(packet.staff_responsible),
        on_sight=speed_of(packet.on_sight), unfitted=speed_of(packet.unfitted), release=speed_of(packet.release),
        roll=packet.roll * scale, override_allowed=speed_of(packet.override_allowed),
        override_speed=speed_of(packet.override_speed), override_distance=packet.override_distance * scale,
        override_time=NO_END if packet.override_time_s == 255 else 1000 * packet.override_time_s,
        staff_responsible_distance=(NO_END if packet.staff_responsible_distance == 32767
                                    else packet.staff_responsible_distance * scale))


@dataclass(frozen=True)
class InForce:
    values: Values = DEFAULTS
    countries: tuple = ()  # at first the defaults hold for no country


class National:
    """What is in force, and the packet 3 that waits."""

    def __init__(self, kept=InForce()):
        self.in_force = kept
        self.announced = None

    def entered(self, country):
        """An accepted group of a country that is none of theirs puts the defaults in force, for that country alone. While
        no country is known this does nothing."""
        if self.in_force.countries and country not in self.in_force.countries:
            self.in_force = InForce(DEFAULTS, (country,))

    def announce(self, fact):
        """A newer packet 3 replaces an announced one."""
        self.announced = fact

    def reach(self, max_front):
        """Where the greatest front has reached the place the values are in force, for the listed countries and that of the
        group."""
        if self.announced is None:
            return
        packet, place = self.announced.packet, self.announced.place
        if packet.start == NOW or max_front >= place + packet.start * packet.scale_cm:
            self.in_force = InForce(values_of(packet), (*packet.countries, self.announced.group[0]))
            self.announced = None
