"""Write pytest's results as XML, under a temporary name until they are whole."""
import contextlib
import tempfile
from collections.abc import Iterator
from pathlib import Path
from typing import Any

import pytest

from .. import files


def writers(session: pytest.Session) -> list[Any]:
    """The plugins that write pytest's results."""
    return [plugin for plugin in session.config.pluginmanager.get_plugins() if type(plugin).__name__ == "LogXML"]


class Results:
    """A plugin of pytest that moves its results from a temporary folder to the output file, and adds a property that marks them as
    made by this package."""

    def __init__(self, out: files.Out, made: Path) -> None:
        self.out, self.made = out, made

    @pytest.hookimpl(tryfirst=True)  # type: ignore[misc]
    def pytest_sessionstart(self, session: pytest.Session) -> None:
        """Adds the property."""
        for writer in writers(session):
            writer.add_global_property("generator", files.MAKER)

    @pytest.hookimpl(trylast=True)  # type: ignore[misc]
    def pytest_sessionfinish(self, session: pytest.Session) -> None:
        """Moves the results, which pytest has written."""
        if self.made.exists():
            files.write(self.out, self.made.read_bytes())
        for writer in writers(session):
            writer.logfile = str(self.out.path.absolute())


@contextlib.contextmanager
def results_in_xml(out: files.Out | None) -> Iterator[tuple[list[str], list[object]]]:
    """The options of pytest for its results, and the plugin that moves them to the output file."""
    if out is None:
        yield [], []
        return
    with tempfile.TemporaryDirectory(prefix="gaknifur-") as folder:
        made = Path(folder) / "results.xml"
        yield [f"--junitxml={made}"], [Results(out, made)]
