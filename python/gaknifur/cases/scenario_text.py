"""Write the JSON of scenarios as steps of a test case in YAML."""
import json
from collections.abc import Iterable
from typing import Any

from ..program import Json
from ..simulation.scenarios import ACKNOWLEDGED, COLD, CONFIRMED, WITHOUT_VALUE
from .yaml_text import quoted

Texts = dict[str, tuple[str, str]]
"""The name and the variables of each telegram, by its digits."""


def text_of(life: dict[str, Any]) -> str:
    """A scenario as text; equal scenarios have equal texts."""
    return json.dumps(life, separators=(",", ":"))


def name_of(numbers: dict[str, int], value: int) -> str:
    """The name of a number."""
    return next(word for word, number in numbers.items() if number == value)


def action_text(action: list[Any]) -> str:
    """An action of the driver as a step in YAML."""
    code, *values = action
    if not values:
        return name_of(WITHOUT_VALUE, code)
    if code == 3:
        length, maximum, deceleration, reaction, category = values
        return (f"enter_train_data: {{length: {length} cm, maximum: {maximum} m/h, deceleration: {deceleration} cm/s2, "
                f"reaction: {reaction} ms, category: {category}}}")
    if code in (5, 10):
        word, words = ("confirm", CONFIRMED) if code == 5 else ("acknowledge", ACKNOWLEDGED)
        return f"{word}: {name_of(words, values[0])}"
    return {1: f"enter_identity: {quoted(str(values[0]))}", 2: f"enter_running_number: {values[0]}",
            4: f"choose_level: {values[0]}"}[code]


def step_text(step: Json, texts: Texts) -> str:
    """A step in YAML."""
    (word, value), = step.items()
    if word == "telegram":
        return f"telegram: {texts[value][0] if value in texts else value}"
    if word == "drive":
        return f"drive: {value[0]} cm at {value[1]} m/h"
    if word == "clock":
        return f"clock: {value} ms"
    return action_text(value) if word == "driver" else "flush"


def life_lines(life: Json, texts: Texts) -> list[str]:
    """A life in YAML, one line for each step."""
    lines = [f"  - cold: {name_of(COLD, life['cold'])}"]
    if life["groups"]:
        lines.append("    groups:")
    for group in life["groups"]:
        balises = ", ".join(texts[one][0] if one in texts else one for one in group["balises"])
        lines.append(f"      - {{at: {group['at']} cm, balises: [{balises}]}}")
    steps = [f"      - {step_text(step, texts)}" for step in life["steps"]]
    return [*lines, *(["    steps:", *steps] if steps else ["    steps: []"])]


def digits_of(life: Json) -> list[str]:
    """The telegrams of a life."""
    return [step["telegram"] for step in life["steps"] if "telegram" in step] + [one for group in life["groups"]
                                                                                 for one in group["balises"]]


def telegram_lines(lives: Iterable[Json], texts: Texts) -> list[str]:
    """The named telegrams of lives in YAML, with their variables."""
    used = {texts[digits] for life in lives for digits in digits_of(life) if digits in texts}
    return ["telegrams:", *(f"  {name}: {quoted(' '.join(text.split()))}" for name, text in sorted(used))] if used else []
