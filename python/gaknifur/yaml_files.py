"""Read YAML whose values know their place, so that each error names the file, line and column.

Every scalar is a text as it was written, so `on`, `no` and `3.10` stay what they are; a caller that needs a number or a truth
value gets one or an error. A key that is given twice is refused. Anchors and aliases of YAML work; merge keys and tags don't.
The size of a file is bounded, so that each file is read in a bounded time, and each error is one line.
"""
import difflib
import functools
import re
from collections.abc import Iterable, Iterator
from dataclasses import dataclass
from decimal import Decimal
from pathlib import Path
from typing import Any

import yaml

from .program import REFUSED, Failed, naming

NUMBER = re.compile(r"-?[0-9][0-9_]*(\.[0-9]+)?")
MOST_BYTES, MOST_DEPTH, MOST_VALUES, MOST_DIGITS, MOST_SHOWN, MOST_MESSAGE = 1 << 20, 64, 1 << 20, 28, 80, 4_000
"""The bounds of a file: its bytes, how deep lists and mappings are nested, and the number of its values, where each alias counts
as what it refers to; the digits of a number; the length of a text that an error quotes, and of an error."""
TAGS = {"scalar": "tag:yaml.org,2002:str", "sequence": "tag:yaml.org,2002:seq", "mapping": "tag:yaml.org,2002:map"}
"""The tags of nodes that are given no tag."""


class BadFile(Failed):
    """A value of a file isn't allowed at its place."""

    def __init__(self, path: Path, line: int, column: int, message: str) -> None:
        super().__init__(f"{path}:{line}:{column}: {on_a_line(message[:MOST_MESSAGE])}", REFUSED)


def on_a_line(message: str) -> str:
    """A text with line breaks and invisible characters escaped."""
    return "".join(one if one.isprintable() else one.encode("unicode_escape").decode() for one in message)


def shortened(text: str) -> str:
    """A text as an error quotes it: only the beginning of a long one."""
    return text if len(text) <= MOST_SHOWN else f"{text[:MOST_SHOWN]}.. ({len(text):,} characters)"


def guess(word: str, words: Iterable[str]) -> str:
    """The nearest known word, and all known words."""
    there = sorted(words)
    if not there:
        return "none is defined"
    near = difflib.get_close_matches(word, there, 1)
    return (f"did you mean \"{near[0]}\"? " if near else "") + f"known: {', '.join(there)}"


@dataclass(frozen=True)
class Value:
    """A value of a file, with its place."""

    path: Path
    node: yaml.Node

    @property
    def line(self) -> int:
        """The line where it begins, from 1 on."""
        return int(self.node.start_mark.line) + 1

    @property
    def column(self) -> int:
        """The column where it begins, from 1 on."""
        return int(self.node.start_mark.column) + 1

    def fault(self, message: str) -> BadFile:
        """An error at this place."""
        return BadFile(self.path, self.line, self.column, message)

    def inner(self, pointer: str) -> "Value":
        """The value at a JSON pointer; if there is none, the last one on the way."""
        at = self
        for word in pointer.split("/")[1:]:
            inner = at.entries() if at.is_mapping() else {}
            if at.is_list():
                inner = {str(number): value for number, value in enumerate(at.elements())}
            if word not in inner:
                break
            at = inner[word]
        return at

    def is_text(self) -> bool:
        """Whether it is a scalar."""
        return isinstance(self.node, yaml.ScalarNode)

    def is_list(self) -> bool:
        """Whether it is a list."""
        return isinstance(self.node, yaml.SequenceNode)

    def is_mapping(self) -> bool:
        """Whether it is a mapping."""
        return isinstance(self.node, yaml.MappingNode)

    def describe(self) -> str:
        """The value as an error names it."""
        if isinstance(self.node, yaml.ScalarNode):
            return f"\"{shortened(self.node.value)}\"" if self.node.value else "nothing"
        return "a list" if self.is_list() else "names with values"

    def text(self) -> str:
        """A text that isn't empty."""
        if isinstance(self.node, yaml.ScalarNode) and self.node.value:
            return str(self.node.value)
        raise self.fault(f"expected a text, found {self.describe()}")

    def number(self) -> Decimal:
        """A number, with or without decimals."""
        text = self.node.value if isinstance(self.node, yaml.ScalarNode) else ""
        if not NUMBER.fullmatch(text):
            raise self.fault(f"expected a number, found {self.describe()}")
        return self.decimal(text)

    def decimal(self, text: str) -> Decimal:
        """The number of some digits at this place; refuses more digits than it can calculate with."""
        if sum(one.isdigit() for one in text) > MOST_DIGITS:
            raise self.fault(f"expected a number of at most {MOST_DIGITS} digits, found {self.describe()}")
        return Decimal(text.replace("_", ""))

    def integer(self, least: int, most: int) -> int:
        """A whole number within limits."""
        number = self.number()
        if number != int(number) or not least <= number <= most:
            raise self.fault(f"expected a whole number from {least:,} to {most:,}, found {self.describe()}")
        return int(number)

    def truth(self) -> bool:
        """`true` or `false`, and nothing else."""
        text = self.node.value if isinstance(self.node, yaml.ScalarNode) else ""
        if text not in ("true", "false"):
            raise self.fault(f"expected true or false, found {self.describe()}")
        return bool(text == "true")

    def one_of(self, words: Iterable[str]) -> str:
        """One of some words."""
        text, words = self.text(), list(words)
        if text not in words:
            raise self.fault(f"\"{shortened(text)}\" is not allowed here; {guess(text[:MOST_SHOWN], words)}")
        return text

    def file(self) -> Path:
        """The file that a text names, relative to the file that contains the text."""
        text = self.text()
        path = self.path.parent / text
        try:
            is_there = path.is_file()
        except (OSError, ValueError) as error:
            why = error.strerror if isinstance(error, OSError) else "a character of it can't be in a name"
            raise self.fault(f"\"{shortened(text)}\" names no file: {why}") from None
        if not is_there:
            raise self.fault(f"no such file: {shortened(str(path))}")
        return path

    def elements(self) -> list["Value"]:
        """The elements of a list."""
        if not isinstance(self.node, yaml.SequenceNode):
            raise self.fault(f"expected a list, found {self.describe()}")
        return [Value(self.path, node) for node in self.node.value]

    def below(self, names: Iterable[str]) -> Iterator["Value"]:
        """The texts anywhere below some names, one for each node."""
        left, seen = [(self.node, False)], set[tuple[int, bool]]()
        while left:
            node, is_named = left.pop()
            if (id(node), is_named) in seen:
                continue
            seen.add((id(node), is_named))
            if isinstance(node, yaml.ScalarNode) and is_named and node.value:
                yield Value(self.path, node)
            if isinstance(node, yaml.SequenceNode):
                left += [(one, is_named) for one in node.value]
            if isinstance(node, yaml.MappingNode):
                left += [(value, key.value in names) for key, value in node.value if isinstance(key, yaml.ScalarNode)]

    def entries(self) -> dict[str, "Value"]:
        """The names of a mapping, with their values."""
        if not isinstance(self.node, yaml.MappingNode):
            raise self.fault(f"expected names with values, found {self.describe()}")
        found: dict[str, Value] = {}
        for key, value in self.node.value:
            name = Value(self.path, key).text()
            if name in found:
                raise Value(self.path, key).fault(f"\"{shortened(name)}\" is given twice, first in line {found[name].line}")
            found[name] = Value(self.path, value)
        return found

    def members(self, needed: Iterable[str], others: Iterable[str] = ()) -> dict[str, "Value"]:
        """The names of a mapping with their values: all of the needed ones, and no others than those given."""
        found, needed, others = self.entries(), list(needed), list(others)
        assert isinstance(self.node, yaml.MappingNode)
        for key, _ in self.node.value:
            Value(self.path, key).one_of({*needed, *others})
        for name in needed:
            if name not in found:
                raise self.fault(f"{name} is missing")
        return found


class Loader(yaml.composer.Composer, getattr(yaml, "CBaseLoader", yaml.BaseLoader)):  # type: ignore[misc]
    """Reads each scalar as the text that was written. Refuses what is nested too deep."""

    def __init__(self, text: str) -> None:
        super(yaml.composer.Composer, self).__init__(text)
        self.anchors: dict[str, yaml.Node] = {}
        self.deep = 0

    def compose_node(self, parent: yaml.Node | None, index: Any) -> yaml.Node:
        """The next node."""
        if self.deep > MOST_DEPTH:
            raise yaml.MarkedYAMLError(problem=f"it is more than {MOST_DEPTH} deep", problem_mark=self.peek_event().start_mark)
        self.deep += 1
        node = super().compose_node(parent, index)
        self.deep -= 1
        return node


def check(path: Path, node: yaml.Node, sizes: dict[int, int]) -> int:
    """Refuses tags such as `!!python`, which have no meaning here, and aliases of what they are in. Returns the number of values of the node,
    each alias counted as what it refers to."""
    if id(node) not in sizes:
        if node.tag != TAGS[node.id]:
            raise Value(path, node).fault(f"the tag {shortened(node.tag)} is not allowed")
        sizes[id(node)] = 0  # until it is known: it is in itself
        pairs = node.value if isinstance(node, yaml.MappingNode) else [] if isinstance(node, yaml.ScalarNode) else [node.value]
        sizes[id(node)] = 1 + sum(check(path, one, sizes) for pair in pairs for one in pair)
        if sizes[id(node)] > MOST_VALUES:
            raise Value(path, node).fault(f"this has more than {MOST_VALUES:,} values, each alias counted as what it refers to")
    elif not sizes[id(node)]:
        raise Value(path, node).fault("this holds itself by an alias")
    return sizes[id(node)]


def text_of(path: Path) -> str:
    """The text of a file."""
    with naming(path), path.open("rb") as file:
        data = file.read(MOST_BYTES + 1)
    if len(data) > MOST_BYTES:
        raise Failed(f"{path}: has more than {MOST_BYTES:,} bytes", REFUSED)
    try:
        return data.decode("utf-8")
    except UnicodeDecodeError as error:
        raise at_byte(path, data, error.start, "this is no text in UTF-8") from error


def at_byte(path: Path, data: bytes, at: int, message: str) -> BadFile:
    """An error at a byte of a file."""
    before = data[:at].decode("utf-8")
    return BadFile(path, before.count("\n") + 1, len(before) - before.rfind("\n"), message)


def documents(path: Path) -> list[Value]:
    """The documents of a file, `---` between them."""
    return [Value(path, node) for node in nodes_of(path, text_of(path))]


@functools.lru_cache(maxsize=32)
def nodes_of(path: Path, text: str) -> list[yaml.Node]:
    """The documents of the text of a file, which are checked. Many files include the same ones."""
    try:
        nodes = list(yaml.compose_all(text, Loader))
        sizes: dict[int, int] = {}
        for node in nodes:
            check(path, node, sizes)
        return nodes
    except yaml.MarkedYAMLError as error:
        mark = error.problem_mark or error.context_mark
        raise BadFile(path, mark.line + 1, mark.column + 1, f"not YAML: {error.problem or error.context}") from error
    except yaml.reader.ReaderError as error:
        raise at_byte(path, text.encode("utf-8"), error.position, f"not YAML: {error.reason}") from error


def document(path: Path) -> Value:
    """The only document of a file."""
    found = documents(path)
    if not found:
        raise BadFile(path, 1, 1, "the file is empty; one document is needed")
    if len(found) > 1:
        raise found[1].fault(f"expected one document, found {len(found)}")
    return found[0]
