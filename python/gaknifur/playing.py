"""Run many scenarios on empty journals in memory, with one process of `etcs_lab play`.

    for result in gaknifur.play({"id": number, "scenario": scenario} for number, scenario in enumerate(scenarios)):
        print(result["id"], result["status"], result["emergency_brakes"])

Each is an input line of `etcs_lab play` (docs/reference/json.md, Many scenarios): an object with a member `scenario`, which may be a list of scenarios, and
perhaps `id`, `cold`, `slots` and `sha256`; or only a scenario. The results are the objects that the program prints, in the order of the scenarios. A scenario that can't be run has a
result too. `play_images` also returns the journal image of each scenario; searches use it.
"""
import contextlib
import json
import os
import subprocess
import tempfile
import threading
from collections.abc import Generator, Iterable, Mapping
from pathlib import Path
from typing import IO, Any, Literal

from . import program
from .program import REFUSED, WHOLE, Failed

Result = dict[str, Any]
Which = Literal["all", "last", "changes", "none"]
AHEAD = 8
"""64 times as many images are at most written before they are read: then their results fill the pipe."""


class Feeder(threading.Thread):
    """Writes the input lines to the program while its results are read."""

    def __init__(self, lines: Iterable[bytes], to: IO[bytes]) -> None:
        super().__init__(daemon=True)
        self.lines, self.to = lines, to
        self.count = 0
        self.error: BaseException | None = None

    def run(self) -> None:
        try:
            for line in self.lines:
                self.to.write(line + b"\n")
                self.count += 1
        except BrokenPipeError:
            pass  # the program ended, and says why
        except BaseException as error:  # from the caller's iterator; raised where the results are read
            self.error = error
        finally:
            try:
                self.to.close()
            except OSError:
                pass  # the program doesn't read the rest any more


def line_of(scenario: Mapping[str, Any]) -> bytes:
    """The input line of a scenario, or of an object with one."""
    return json.dumps(scenario if "scenario" in scenario else {"scenario": scenario}, separators=(",", ":")).encode()


def result_of(line: bytes) -> Result:
    """The object on a line that the program printed."""
    try:
        found = json.loads(line)
    except ValueError:
        found = None
    if not isinstance(found, dict) or not line.endswith(b"\n"):
        raise Failed("etcs_lab play printed a line that isn't a JSON object, or only a part of one", REFUSED)
    return found


def play(scenarios: Iterable[Mapping[str, Any]], *, slots: int = 16, outputs: Which = "last",
         images: Path | None = None) -> Generator[Result, None, None]:
    """The result of each scenario, in order. `slots` is the number of slots of each journal, `outputs` selects the outputs of a result, and
    each journal image is written into the folder `images`. Fails if the program can't do its work: it is missing, there is no scenario,
    an image can't be written, or it is killed."""
    yield from played(map(line_of, scenarios), slots, outputs, images)


def played(lines: Iterable[bytes], slots: int, outputs: Which, images: Path | None) -> Generator[Result, None, None]:
    """The result of each input line."""
    words = [program.find(), "play", f"--slots={slots}", f"--outputs={outputs}", *([] if images is None else [f"--images={images}"])]
    count = 0
    with tempfile.TemporaryFile() as errors:
        with program.naming(words[0]):
            process = subprocess.Popen(words, stdin=subprocess.PIPE, stdout=subprocess.PIPE, stderr=errors)
        assert process.stdin is not None and process.stdout is not None
        feeder = Feeder(lines, process.stdin)
        feeder.start()
        try:
            for line in process.stdout:
                yield result_of(line)
                count += 1
            status = process.wait()
            feeder.join()
        finally:
            process.kill()
            process.wait()
            process.stdout.close()
        if feeder.error is not None:
            raise feeder.error
        errors.seek(0)
        messages = errors.read().decode(errors="replace").splitlines()
    if messages:
        raise Failed(messages[-1].removeprefix("etcs_lab: "), status if status > 0 else REFUSED)
    if status not in (WHOLE, REFUSED) or count != feeder.count:
        raise Failed(f"etcs_lab ended with status {status}, after {count} results", status if status > 0 else REFUSED)


def play_images(scenarios: Iterable[bytes], slots: int, folder: Path) -> Generator[tuple[Result, Path | None], None, None]:
    """The result of each scenario or list of scenarios, which is given as its JSON on one line, and its journal image, that of a list after its
    last life; None if it can't be run. The image is there until the next result is taken. The folder contains no other image."""
    for found in played((b'{"scenario":%b}' % one for one in scenarios), slots, "none", folder):
        paths = [folder / f"{life['image']}.image" for life in lives_of(found) if life.get("image") is not None]
        try:
            yield found, paths[-1] if paths else None
        finally:
            for path in paths:
                path.unlink(missing_ok=True)


def lives_of(result: Result) -> list[Result]:
    """The lives of a result: those of a list of scenarios, or its only one."""
    lives: list[Result] = result.get("lives", [result])
    return lives


ENDED = {"done": "carried out", "stopped": "stopped {number} {name}", "refused": "refused {fault} {name}"}


def ended(result: Result) -> str | None:
    """How a scenario ended, as `etcs run` prints it; None if it wasn't run for a reason that isn't its own, such as refused memory."""
    text = ENDED.get(result["status"])
    return text and text.format_map(result)
