"""The faults of a scenario in JSON, each at its place: what scenario.schema.json refuses."""
import functools
import json
from collections.abc import Iterator
from dataclasses import dataclass
from importlib import resources
from pathlib import Path
from typing import Any

import jsonschema

from ..program import naming
from ..yaml_files import shortened


JSON = "JSON (RFC 8259)"


@dataclass(frozen=True)
class Fault:
    """A fault: its JSON pointer (RFC 6901), what is wanted there, what is there; and line and column of what is no JSON."""

    pointer: str
    wanted: str
    there: str
    line: int | None = None
    column: int | None = None


class Real(float):
    """A number with decimals or an exponent, which is no whole number, whatever its value."""

    def is_integer(self) -> bool:
        return False


@functools.cache
def schema() -> jsonschema.Draft202012Validator:
    """The schema of scenarios."""
    text = resources.files(__package__).joinpath("scenario.schema.json").read_text(encoding="utf-8")
    return jsonschema.Draft202012Validator(json.loads(text))


def refuse(constant: str) -> None:
    """Refuses Infinity and NaN, which are no JSON."""
    raise ValueError(f"{constant} is no number of JSON")


def pointer_of(path: Any) -> str:
    """The JSON pointer of a path."""
    return "".join("/" + str(part).replace("~", "~0").replace("/", "~1") for part in path)


def there(error: jsonschema.ValidationError) -> str:
    """What is at the place of an error: the value, or which of its names."""
    if error.validator in ("additionalProperties", "required"):
        return str(error.message)
    return shortened(json.dumps(error.instance, ensure_ascii=False))


def faults(path: Path) -> Iterator[Fault]:
    """The faults of a file, by place, of each value the first one; and names that come twice, of which `etcs run` takes the last value."""
    twice: list[str] = []

    def members(pairs: list[tuple[str, Any]]) -> dict[str, Any]:
        names = [name for name, _ in pairs]
        twice.extend(name for number, name in enumerate(names) if name in names[:number])
        return dict(pairs)

    with naming(path):
        text = path.read_bytes()
    try:
        scenario = json.loads(text.decode("utf-8"), parse_float=Real, parse_constant=refuse, object_pairs_hook=members)
    except json.JSONDecodeError as error:
        yield Fault("", JSON, error.msg, error.lineno, error.colno)
        return
    except RecursionError:
        yield Fault("", JSON, "too many lists and objects in one another")
        return
    except ValueError as error:
        yield Fault("", JSON, str(error))
        return
    found: dict[str, Fault] = {}
    for one in sorted(schema().iter_errors(scenario), key=lambda one: [(isinstance(part, str), part) for part in one.absolute_path]):
        pointer = pointer_of(one.absolute_path)
        found.setdefault(pointer, Fault(pointer, one.schema["description"], there(one)))
    yield from found.values()
    for name in twice:
        yield Fault("", "each name once in its object", f"{json.dumps(name)} again")
