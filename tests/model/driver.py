"""The driver's actions, and when they are accepted (SUBSET-026, 4.6 and 5; the table is this project's)."""
from items import UNKNOWN, VALID

ENTERED = {"enter-identity": "identity", "enter-running-number": "running-number", "enter-train-data": "train-data",
           "choose-level": "level"}
KINDS = ("on-sight", "shunting", "level-0")

ACTIONS = (*ENTERED, "confirm", "start", "choose-shunting", "leave-shunting", "override", "acknowledge", "close-desk")


def conditions(life, word, value):
    """What an action asks for, by the state before the event, each with the reason where it fails. Standstill is the speed of the
    last reading alone."""
    def standing(*modes):
        return [(life.mode() in modes, "other_mode"), (life.speed() == 0, "not_at_standstill")]

    def valid(item):
        return life.item(item).status == VALID, f"{item.replace('-', '_')}_not_valid"

    leaving = [valid("identity"), valid("level"), (not life.is_tripped(), "trip_outstanding")]
    if word in ENTERED:
        return standing("SB")
    if word == "confirm":
        return [*standing("SB"), (life.item(value).status != UNKNOWN, "nothing_to_confirm")]
    if word == "start":
        return [*standing("SB", "PT"), *leaving, valid("train-data")]
    if word == "choose-shunting":
        return [*standing("SB", "FS", "OS", "SR", "UN", "PT"), *leaving]
    if word == "leave-shunting":
        return standing("SH")
    if word == "override":
        return [(life.mode() in ("FS", "OS", "SR", "PT"), "other_mode"),
                (life.speed() <= life.national.in_force.values.override_allowed, "too_fast")]
    if word == "acknowledge":
        if value == "trip":
            return [*standing("TR", "SB"), (life.is_tripped(), "no_trip")]
        return [(life.acknowledgement(value).waits(), "not_requested")]
    if word == "close-desk":
        return standing("FS", "OS", "SR", "SH", "UN", "PT")
    raise ValueError(word)


def refusal(life, word, value):
    """Why an action isn't accepted: the first condition that fails; None where it is."""
    return next((why for holds, why in conditions(life, word, value) if not holds), None)


def accepts(life, word, value):
    return refusal(life, word, value) is None


def entered(word, value):
    """The item that an action makes valid, and its value."""
    if word == "enter-train-data":
        return tuple(map(int, value.split()))
    return int(value) if word in ("enter-running-number", "choose-level") else value
