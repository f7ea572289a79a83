"""The order of the packages. A package imports only those before it. The modules at the top are below all packages, except `__init__` and
`__main__`, which are above them."""
import ast
import unittest
from importlib.util import resolve_name
from pathlib import Path

import gaknifur

FOLDER = Path(gaknifur.__file__).parent
ORDER = ("telegrams", "units", "journal", "evidence", "simulation", "cases", "track", "search", "cli")


def imported(file: Path) -> set[str]:
    """The packages of `gaknifur`, and its modules at the top, that a module imports anywhere."""
    package = ".".join(("gaknifur", *file.relative_to(FOLDER).parent.parts))
    nodes = [node for node in ast.walk(ast.parse(file.read_text(encoding="utf-8"))) if isinstance(node, ast.Import | ast.ImportFrom)]
    names = ["." * node.level + ".".join(filter(None, (node.module, one.name))) if isinstance(node, ast.ImportFrom) else one.name
             for node in nodes for one in node.names]
    return {name.split(".")[1] for name in (resolve_name(name, package) for name in names) if name.startswith("gaknifur.")}


class Packages(unittest.TestCase):
    """No module imports a package that comes later."""

    def test_order(self) -> None:
        self.assertEqual(sorted(path.parent.name for path in FOLDER.glob("*/__init__.py")), sorted(ORDER))
        for file in FOLDER.rglob("*.py"):
            top = file.relative_to(FOLDER).parts[0]
            if top not in ("__init__.py", "__main__.py"):
                with self.subTest(file=file):
                    self.assertEqual(imported(file).intersection(ORDER[ORDER.index(top) + 1:] if top in ORDER else ORDER), set())
