"""Run a drive with the onboard unit: the library that `tools/library` makes, on an image in memory."""
from pathlib import Path

from .. import program
from ..journal.wording import SCALES_CM
from ..program import REFUSED, Failed
from ..unit import Cold, Medium, MemoryMedium, Refused, Unit
from ..units.own_unit import check_library
from . import driving, scenarios
from .drives import Drive, slots_for


def over_image(data: bytes, scenario: scenarios.Scenario, drive: Drive) -> tuple[driving.Driven, bytes]:
    """Runs a life on an image; returns the drive and the image after it."""
    medium = MemoryMedium(data)
    driven = on_medium(medium, scenario, drive)
    return driven, medium.read()


def on_medium(medium: Medium, scenario: scenarios.Scenario, drive: Drive) -> driving.Driven:
    """Runs a life on a medium: writes and syncs in the order of the unit's requests, and outputs after them."""
    check_library()
    try:
        with Unit(medium, Cold(scenario.cold)) as unit:
            return driving.play(unit, scenario, drive)
    except Refused as refused:
        raise Failed(f"{drive.at.path}:{drive.at.line}: the unit answers {refused}", REFUSED) from refused


def fresh(scenario: scenarios.Scenario, drive: Drive) -> bytes:
    """An empty image that holds all of a drive."""
    check_library()
    return MemoryMedium.formatted(slots_for(scenario, drive)).read()


def fields_of(line: str) -> list[tuple[str, int]]:
    """The variables on a line of `etcs decode`; none of a telegram that is refused."""
    pairs = (word.partition("=") for word in line.split() if "=" in word)
    return [(name, int(number)) for name, _, number in pairs]


def is_for(fields: dict[str, int], header: dict[str, int], heard: list[dict[str, int]]) -> bool:
    """Whether a packet is valid in the direction in which the balises of its group were read. With only one of them both directions count."""
    order = [one["N_PIG"] for one in heard if one and (one["NID_C"], one["NID_BG"]) == (header["NID_C"], header["NID_BG"])]
    return len(order) < 2 or fields["Q_DIR"] in (2, int(order[-2] < order[-1]))


def ends_of(driven: driving.Driven) -> tuple[int, int] | None:
    """The end of the last authority for the train's direction and its supervised location, as packet 12 announced them, in cm from the
    start of the drive; None without an authority."""
    headers = [dict(fields_of(program.decode(digits)[0])) for _, digits in driven.heard]
    for (origin, digits), header in zip(reversed(driven.heard), reversed(headers)):
        for line in program.decode(digits):
            fields = fields_of(line)
            one = dict(fields)
            if not line.startswith("packet 12 ") or not is_for(one, header, headers):
                continue
            scale = SCALES_CM.get(one["Q_SCALE"], 100)
            end = round(origin) + scale * sum(number for name, number in fields if name in ("L_SECTION", "L_ENDSECTION"))
            return end, end + scale * one.get("D_OL", one.get("D_DP", 0))
    return None
