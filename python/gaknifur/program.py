"""Run the programs `etcs_lab` and `etcs`. Only this module and `other_unit`, which runs a maker's own unit, start processes.

`$GAKNIFUR_ETCS_LAB` and `$GAKNIFUR_ETCS` name the programs. If they are not set, the script of the program is asked once per
process whether there is a proved program of these sources. If there is none, the script compiles the sources unproved, keeps
the program, and says so on standard error. The scripts are those of this repository; an installed package uses those next to
it, or else those on the PATH.
"""
import contextlib
import functools
import os
import shutil
import subprocess
import tempfile
from collections.abc import Generator, Iterator, Sequence
from dataclasses import dataclass
from pathlib import Path
from typing import Any

from . import layout

WHOLE, REFUSED, WRONG_WORDS, DEVICE, NOT_WHOLE = range(5)
FOUND = NOT_WHOLE
"""The exit statuses, which mean the same in each program (docs/reference/refusals.md, Exit statuses). 4 is a finding, in an image or elsewhere."""
PROCESSORS = os.cpu_count() or 1
Json = dict[str, Any]
"""An object of JSON."""
MEMORY, MANY = Path("/dev/shm"), 64
"""The folder that Linux keeps in memory, and how many images have to fit into it before it is used for one."""


class Failed(Exception):
    """Something can't be done: the message, in one line, and the exit status."""

    def __init__(self, message: str, status: int) -> None:
        super().__init__(message)
        self.status = status

    def __reduce__(self) -> tuple[type["Failed"], tuple[str, int]]:
        """What a process sends to another one."""
        return Failed, (str(self), self.status)

    def messages(self) -> list[str]:
        """The messages, one for each line that is printed."""
        return [str(self)]


class AllFailed(Failed):
    """Several things can't be done; the status is that of the first."""

    def __init__(self, failures: list[Failed]) -> None:
        super().__init__("\n".join(map(str, failures)), failures[0].status)
        self.failures = failures

    def __reduce__(self) -> tuple[type[Failed], tuple[list[Failed]]]:  # type: ignore[override]
        """What a process sends to another one."""
        return AllFailed, (self.failures,)

    def messages(self) -> list[str]:
        """The messages, one for each line that is printed."""
        return [str(one) for one in self.failures]


@contextlib.contextmanager
def naming(what: object) -> Iterator[None]:
    """Raises an error of the system inside the block as `Failed`, whose message names what it is about."""
    try:
        yield
    except OSError as error:
        raise Failed(f"{what}: {error.strerror}", DEVICE) from error


HERE = Path(__file__).resolve()
VERSION_TOOL = HERE.parents[2] / "tools" / "version"
TOP = HERE.parents[2] if VERSION_TOOL.exists() else HERE.parents[3] / "gaknifur"
"""The repository that contains this package, or else the folder of the installed product, next to Python's."""


@functools.cache
def version() -> str:
    """The version of the product, and its commit if that is known."""
    release = HERE.with_name("RELEASE")
    if VERSION_TOOL.exists():
        return subprocess.run([VERSION_TOOL], stdin=subprocess.DEVNULL, capture_output=True, text=True).stdout.strip()
    if release.exists():
        return release.read_text(encoding="utf-8").strip()
    import importlib.metadata  # (it takes a while to load)
    return f"{importlib.metadata.version('gaknifur')}, commit unknown"


@functools.cache
def script(name: str) -> Path:
    """The script of a program."""
    if (found := TOP / name).exists():
        return found
    if on_path := shutil.which(name):
        return Path(on_path).resolve()
    raise Failed(f"{name} is missing, next to this package and on the PATH; GAKNIFUR_{name.upper()} can name it", DEVICE)


@functools.cache
def proved(script: Path) -> Path | None:
    """The proved program of a script, if there is one of these sources. To find out takes a digest of all sources, so it is
    done once per process."""
    if subprocess.run([script, "--is-proved"], stdin=subprocess.DEVNULL, capture_output=True).returncode:
        return None
    installed = script.parent / "programs" / script.name
    return installed if installed.exists() else script.parent / "crates" / script.name / "out" / script.name


@functools.cache
def tried(script: Path) -> Path:
    """The program that a script compiles from the sources, unproved, unless it has done so before. The script says so on
    standard error."""
    done = subprocess.run([script, "--tried"], stdin=subprocess.DEVNULL, stdout=subprocess.PIPE)
    if done.returncode:
        raise Failed(f"{script.name} can't be run, as the lines above say", DEVICE)
    return Path(os.fsdecode(done.stdout.removesuffix(b"\n")))


def tool(*words: str | Path, folder: Path, given: bytes = b"") -> tuple[int, list[str]]:
    """The status of sha512sum or ssh-keygen, run in a folder, and the lines that it prints, those of standard error last. Raises Failed if
    it is missing."""
    try:
        done = subprocess.run(words, cwd=folder, input=given, capture_output=True)
    except FileNotFoundError as error:
        raise Failed(f"{words[0]} is missing; install it (Debian's packages coreutils and openssh-client). Nothing was changed.", DEVICE) from error
    return done.returncode, (done.stdout + done.stderr).decode(errors="replace").splitlines()


def find(name: str = "etcs_lab") -> str:
    """The path of a program."""
    if named := os.environ.get(f"GAKNIFUR_{name.upper()}"):
        return named
    return str(proved(script(name)) or tried(script(name)))


@functools.cache
def proof(name: str) -> bool | None:
    """Whether a program is the proved one of these sources; None if the environment names another one, which isn't known."""
    if not (named := os.environ.get(f"GAKNIFUR_{name.upper()}")):
        return proved(script(name)) is not None
    try:
        own = proved(script(name))
        return True if own is not None and os.path.samefile(own, named) else None
    except (Failed, OSError):
        return None


def reader_is_proved() -> bool | None:
    """Whether the `etcs_lab` that reads images is proved; None if that isn't known."""
    return proof("etcs_lab")


PROOF = {True: "etcs_lab is proved", False: "etcs_lab is not proved: it was compiled without a proof",
         None: "the environment named etcs_lab, and nothing says whether it is proved"}
"""The text about the reader for each value of `reader_is_proved`."""


def reader() -> str:
    """What reads an image: the version and the commit, and whether `etcs_lab` is proved."""
    return f"gaknifur {version()}; {PROOF[reader_is_proved()]}"


def ran(words: Sequence[str]) -> subprocess.CompletedProcess[bytes]:
    """Runs a program to its end."""
    with naming(words[0]):
        return subprocess.run(words, stdin=subprocess.DEVNULL, capture_output=True)


class Run:
    """A run of `etcs_lab` on an image: its lines as they are printed, and then its status and its messages."""

    def __init__(self, words: Sequence[str], image: Path, *more: str) -> None:
        self.image = str(image.absolute())
        self.words = [find(), *words, "--", self.image, *more]
        self.status = -1
        self.messages: list[str] = []

    def lines(self) -> Generator[str, None, None]:
        """The lines of standard output."""
        with tempfile.TemporaryFile() as errors:
            with naming(self.words[0]), subprocess.Popen(self.words, stdin=subprocess.DEVNULL, stdout=subprocess.PIPE, stderr=errors,
                                                          text=True, encoding="utf-8", errors="replace") as process:
                assert process.stdout is not None
                yield from process.stdout
                self.status = process.wait()
            errors.seek(0)
            self.messages = os.fsdecode(errors.read()).split("\n")[:-1]

    def all_text(self) -> str:
        """All of standard output at once, for a run with little output."""
        done = ran(self.words)
        self.status, self.messages = done.returncode, os.fsdecode(done.stderr).split("\n")[:-1]
        return done.stdout.decode(errors="replace")

    def all_lines(self) -> list[str]:
        """Its lines."""
        lines = self.all_text().split("\n")
        return lines if lines[-1] else lines[:-1]

    def last_message(self) -> str:
        """The last line on standard error, without the program's name and the image."""
        if not self.messages:
            return f"etcs_lab ended with status {self.status}"
        escaped = self.image.translate({ord(sign): f"\\{sign}" for sign in "\\'\""})
        return self.messages[-1].removeprefix("etcs_lab: ").removeprefix(f"{escaped}: ")

    def failed(self, image: Path) -> Failed:
        """The error for a run that failed."""
        return Failed(f"{image}: {self.last_message()}", self.status if self.status > 0 else REFUSED)


def etcs(*words: str) -> tuple[int, list[str]]:
    """Runs `etcs`; returns its status and the lines that it prints."""
    done = ran([find("etcs"), *words])
    messages = done.stderr.decode(errors="replace").splitlines()
    printed = done.stdout.decode(errors="replace").splitlines()
    if not printed and (done.returncode < 0 or done.returncode > DEVICE):
        raise Failed(f"etcs {words[0]} ended with status {done.returncode}{': ' + messages[-1] if messages else ''}", REFUSED)
    return done.returncode, printed


def format_image(image: Path, slots: int) -> None:
    """Makes an empty image by `etcs format`."""
    status, printed = etcs("format", "--", str(image), str(slots))
    if status:
        raise Failed(f"etcs format: {' '.join(printed)}", REFUSED)


def temporary_folder(slots: int) -> tempfile.TemporaryDirectory[str]:
    """A folder for a temporary image of this number of slots. It is in memory, since each sync would wait for a disk, unless
    TMPDIR names a folder or memory is short."""
    if "TMPDIR" not in os.environ and os.access(MEMORY, os.W_OK | os.X_OK):
        space = os.statvfs(MEMORY)
        if space.f_bavail * space.f_frsize > MANY * slots * layout.SLOT:
            return tempfile.TemporaryDirectory(prefix="gaknifur-", dir=MEMORY)
    return tempfile.TemporaryDirectory(prefix="gaknifur-")


@functools.lru_cache(maxsize=4096)
def decode(digits: str) -> list[str]:
    """What `etcs decode` prints of a telegram."""
    lines = etcs("decode", "--", digits)[1]
    if not lines:
        raise Failed("etcs decode printed nothing", REFUSED)
    return lines
