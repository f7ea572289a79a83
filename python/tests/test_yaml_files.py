"""YAML with the places of its values."""
import unittest
from pathlib import Path

from gaknifur import yaml_files
from gaknifur.yaml_files import BadFile, Value

PATH = Path("file.yaml")


def nodes(text: str) -> list[Value]:
    """The documents of a text."""
    return [Value(PATH, node) for node in yaml_files.nodes_of(PATH, text)]


class Places(unittest.TestCase):
    """Values by hand: each scalar is the text that was written, and knows its line and column."""

    def test_scalars(self) -> None:
        found, = nodes("a: on\nb: [3.10, 'no', ~]\nc:\n  - |\n    two\n    lines\n  - \"\\xe9\"\n  -\n")
        texts = [(one.node.value, one.line, one.column) for name, value in found.entries().items()
                 for one in (value.elements() if value.is_list() else [value])]
        self.assertEqual(texts, [("on", 1, 4), ("3.10", 2, 5), ("no", 2, 11), ("~", 2, 17), ("two\nlines\n", 4, 5), ("é", 7, 5), ("", 8, 4)])

    def test_documents_and_aliases(self) -> None:
        one, other = nodes("a: &it {b: c}\nd: *it\n---\n- é\n")
        self.assertEqual([(value.entries()["b"].text(), value.entries()["b"].line) for value in one.entries().values()], [("c", 1), ("c", 1)])
        self.assertEqual([(value.text(), value.line, value.column) for value in other.elements()], [("é", 4, 3)])

    def test_faults(self) -> None:
        for text, wanted in (("a: b: c", "1:5: not YAML: mapping values are not allowed in this context"), ("[a, b", "2:1: not YAML: did not find expected ',' or ']'"),
                             ("a:\n\tb", "2:1: not YAML: found character that cannot start any token"), ("*b", "1:1: not YAML: found undefined alias 'b'"),
                             ("é: \x07", "1:4: not YAML: control characters are not allowed"), ("a: !!int 3", "1:4: the tag tag:yaml.org,2002:int is not allowed"),
                             ("&a [b, [*a]]", "1:1: this holds itself by an alias"), ("'", "1:2: not YAML: found unexpected end of stream")):
            with self.subTest(text), self.assertRaises(BadFile) as found:
                nodes(text)
            self.assertEqual(str(found.exception), f"file.yaml:{wanted}")

    def test_depth(self) -> None:
        """What is too deep is refused, without a deep stack."""
        for text in ("[" * 100_000, "- " * 100_000, "{a: " * 100_000):
            with self.assertRaisesRegex(BadFile, "it is more than 64 deep"):
                nodes(text)
        self.assertEqual(len(nodes("[" * 64 + "]" * 64)), 1)


if __name__ == "__main__":
    unittest.main()
