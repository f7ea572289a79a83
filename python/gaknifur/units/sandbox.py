"""Confine a unit under test: a session of its own, limits of the system, and a sandbox if bubblewrap is available.

The limits hold for each of its processes, and are set after the process starts and before the unit's program does. The sandbox
(`bwrap`) has its own processes, few environment variables and no network. It sees the files of the system without those of running
and temporary programs, and can write only to a small folder in memory. docs/reference/unit-protocol.md lists the limits.
"""
import contextlib
import errno
import functools
import os
import shutil
import signal
import subprocess
import tempfile
from collections.abc import Callable, Sequence
from pathlib import Path

from ..program import DEVICE, WRONG_WORDS, Failed

MIB = 1 << 20
MEMORY, SANDBOX = "GAKNIFUR_UNIT_MEMORY", "GAKNIFUR_UNIT_SANDBOX"
"""Environment variables: the unit's address space in MiB, 0 for no limit; and `none` for no sandbox."""
MEMORY_MIB, FILE_MIB, OPEN_FILES, PROCESSES = 4_096, 64, 256, 256
"""Address space of a process, greatest file, open files, and processes and threads in addition to the system's current ones."""
SCRATCH_MIB = 64
TEMPORARY = ("/run", "/tmp", "/var/run", "/var/tmp")
PASSED_ON = ("PATH", "LANG")
PROC = Path("/proc")


def memory_mib() -> int:
    """The limit of the address space in MiB; 0 for none."""
    text = os.environ.get(MEMORY, str(MEMORY_MIB))
    if not text.isascii() or not text.isdigit() or int(text) >= 1 << 30:
        raise Failed(f"{MEMORY}: a number of MiB is needed, or 0 for no limit", WRONG_WORDS)
    return int(text)


def tasks() -> int:
    """The number of processes and threads of the system, which is at least that of the user."""
    try:
        return int((PROC / "loadavg").read_text().split()[3].partition("/")[2])
    except (OSError, ValueError, IndexError):
        return 1 << 12


def limits() -> dict[int, int]:
    """The limits of a unit's process. A limit that is lower already stays."""
    import resource
    wanted = {resource.RLIMIT_CORE: 0, resource.RLIMIT_FSIZE: FILE_MIB * MIB, resource.RLIMIT_NOFILE: OPEN_FILES,
              resource.RLIMIT_NPROC: tasks() + PROCESSES}
    if mib := memory_mib():
        wanted[resource.RLIMIT_AS] = mib * MIB
    found = {}
    for which, value in wanted.items():
        highest = resource.getrlimit(which)[1]
        found[which] = value if highest == resource.RLIM_INFINITY else min(value, highest)
    return found


def limiting() -> Callable[[], None]:
    """The function that sets the limits in a unit's process before its program starts. It takes no lock and reads no file."""
    import resource
    pairs = [(which, (value, value)) for which, value in limits().items()]
    set_limit = resource.setrlimit

    def limit() -> None:
        for which, value in pairs:
            set_limit(which, value)

    return limit


def own_variables() -> dict[str, str]:
    """The environment variables that a unit in a sandbox gets, besides TMPDIR."""
    return {name: value for name, value in os.environ.items() if name in PASSED_ON or name.startswith("GAKNIFUR_")}


def hidden_folders() -> set[Path]:
    """The folders with the sockets and temporary files of this machine, without links."""
    names = (*TEMPORARY, tempfile.gettempdir(), os.environ.get("XDG_RUNTIME_DIR", ""))
    return {Path(os.path.realpath(name)) for name in names if os.path.isabs(name) and os.path.isdir(name)} - {Path("/")}


def needed_files(words: Sequence[str]) -> set[str]:
    """The files and folders that a command and its environment name, and the current folder."""
    names = {os.getcwd(), *(shutil.which(word) or word for word in words[:1]), *words[1:], *own_variables().values()}
    return {path for name in names if os.path.exists(name) for path in (os.path.abspath(name), os.path.realpath(name))}


def mounts(words: Sequence[str]) -> dict[Path, str]:
    """How each hidden folder and each needed one inside those is mounted. Of a file its folder is needed, unless that one is hidden."""
    hidden = hidden_folders()
    found = dict.fromkeys(hidden, "--tmpfs")
    for path in sorted(file if file.is_dir() or file.parent in hidden else file.parent for file in map(Path, needed_files(words))):
        if next((found[one] for one in path.parents if one in found), "") == "--tmpfs":
            found.setdefault(path, "--ro-bind")
    return found


def sandbox(scratch: Path, words: Sequence[str]) -> list[str]:
    """The options of bubblewrap."""
    size, over = ["--size", str(SCRATCH_MIB * MIB), "--tmpfs"], sorted(mounts(words).items())
    options = ["--unshare-all", "--die-with-parent", "--ro-bind", "/", "/", "--proc", "/proc", "--dev", "/dev",
               *size, "/dev/shm", "--remount-ro", "/dev"]
    for path, how in over:
        options += [how, str(path), str(path)] if how == "--ro-bind" else [how, str(path)]
    options += [*size, str(scratch), "--setenv", "TMPDIR", str(scratch)]
    return options + [word for path, how in over if how == "--tmpfs" for word in ("--remount-ro", str(path))]


@functools.cache
def bubblewrap() -> str | None:
    """The path of bubblewrap; None if it is missing, or may not make a namespace."""
    path = shutil.which("bwrap")
    if path is None:
        return None
    with tempfile.TemporaryDirectory(prefix="gaknifur-") as scratch:
        done = subprocess.run([path, *sandbox(Path(scratch), ["true"]), "true"], stdin=subprocess.DEVNULL, capture_output=True)
    return path if done.returncode == 0 else None


def is_sandboxed() -> bool:
    """Whether a unit runs in a sandbox."""
    wanted = os.environ.get(SANDBOX, "")
    if wanted not in ("", "none"):
        raise Failed(f"{SANDBOX}: none is the only value", WRONG_WORDS)
    return wanted != "none" and bubblewrap() is not None


def check_program(name: str) -> None:
    """Fails if a program can't be started; otherwise bubblewrap would report it instead of the unit."""
    if shutil.which(name) is None:
        number = errno.EACCES if os.path.exists(name) else errno.ENOENT
        raise Failed(f"--against: {name}: {os.strerror(number)}", DEVICE)


class Confined:
    """A unit's process, and all that it starts."""

    def __init__(self, words: Sequence[str]) -> None:
        if os.name != "posix":
            raise Failed("--against: a unit under test is run on Linux only", DEVICE)
        self.scratch = tempfile.TemporaryDirectory(prefix="gaknifur-") if is_sandboxed() else None
        try:
            command, environment = list(words), None
            if self.scratch is not None:
                check_program(command[0])
                command = [str(bubblewrap()), *sandbox(Path(self.scratch.name), words), "--", *words]
                environment = own_variables()  # (not by --clearenv: bubblewrap's own process would still show the others)
            self.process = subprocess.Popen(command, stdin=subprocess.PIPE, stdout=subprocess.PIPE, stderr=subprocess.PIPE,
                                            start_new_session=True, bufsize=0, preexec_fn=limiting(), env=environment)
        except BaseException:
            self.give_back()
            raise

    def status(self) -> int | None:
        """Its exit status, negative for a signal; None while it runs. Bubblewrap reports a signal like a shell, as 128 plus its
        number."""
        status = self.process.poll()
        if status is None or self.scratch is None or status <= 128:
            return status
        return 128 - status if status - 128 in signal.Signals.__members__.values() else status

    def kill(self) -> None:
        """Kills all processes of its session, also those that left its group. The system doesn't reuse the session's number before
        its first process is waited for, which is done last."""
        with contextlib.suppress(ProcessLookupError, PermissionError):
            os.killpg(self.process.pid, signal.SIGKILL)
        for _ in range(100):
            left = members(self.process.pid)
            for one in left:
                with contextlib.suppress(ProcessLookupError, PermissionError):
                    os.kill(one, signal.SIGKILL)
            if not left:
                break
        self.process.wait()
        self.give_back()

    def give_back(self) -> None:
        """Removes its folder."""
        if self.scratch is not None:
            self.scratch.cleanup()


def members(session: int) -> list[int]:
    """The running processes of a session, if the system lists them."""
    found = []
    for folder in PROC.glob("[0-9]*"):
        with contextlib.suppress(OSError, IndexError, ValueError):
            state, _, _, of = (folder / "stat").read_bytes().rpartition(b")")[2].split()[:4]
            if int(of) == session and state not in (b"Z", b"X"):
                found.append(int(folder.name))
    return found
