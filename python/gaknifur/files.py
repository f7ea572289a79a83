"""Write files without losing existing ones: without `--force` none is overwritten; with it one regular file is replaced, whole or not at
all. A journal image never is, whatever its name is."""
import contextlib
import hashlib
import os
import secrets
import shutil
import sqlite3
from collections.abc import Callable, Iterable, Iterator
from dataclasses import dataclass
from pathlib import Path
from typing import BinaryIO

from . import layout
from .program import DEVICE, REFUSED, Failed, naming

try:
    import fcntl
except ImportError:
    fcntl = None  # type: ignore[assignment]

WAIT_SECONDS = 60.0
"""How long to wait for a database that another program writes to."""
MAKER = "gaknifur lab"
"""The name of the maker in pages, pictures and workbooks."""


def refused(path: Path, reason: str) -> Failed:
    """The error for a file that isn't written."""
    return Failed(f"{path}: {reason}", REFUSED)


def lock(descriptor: int, is_shared: bool = False) -> None:
    """Takes the lock of an open file (`flock`). Raises `BlockingIOError` if another program holds it."""
    if fcntl is None:
        raise Failed("this system has no file locks (flock), which lab needs to open images; run it on Linux", DEVICE)
    fcntl.flock(descriptor, (fcntl.LOCK_SH if is_shared else fcntl.LOCK_EX) | fcntl.LOCK_NB)


def open_to_read(path: Path) -> BinaryIO:
    """An image, opened for reading under the shared lock that etcs_lab takes, so that no unit runs on it meanwhile."""
    with naming(path):
        file = path.open("rb")
    try:
        lock(file.fileno(), is_shared=True)
        return file
    except BaseException as error:
        file.close()
        if isinstance(error, BlockingIOError):
            raise Failed(f"{path}: another program is writing it", DEVICE) from error
        raise


def digest(path: Path) -> str:
    """The SHA-256 of a file."""
    with naming(path), path.open("rb") as file:
        return hashlib.file_digest(file, "sha256").hexdigest()


# ---- output files

@dataclass(frozen=True)
class Out:
    """An output file of a command."""

    path: Path
    is_forced: bool = False


def is_there(path: Path, inputs: Iterable[Path] = ()) -> bool:
    """Whether a file exists that a command may write to. Refuses links, what isn't a regular file, what is write-protected, and the
    inputs of the command."""
    with naming(path):
        if not os.path.lexists(path):
            return False
        found = path.lstat()
        why = "is a link" if path.is_symlink() else "isn't a regular file" if not path.is_file() else \
            "has several names (hard links)" if found.st_nlink > 1 else "is write-protected" if not found.st_mode & 0o222 else \
            "is an input of this command" if any(one.exists() and one.samefile(path) for one in inputs) else ""
    if why:
        raise refused(path, f"{why}, so it is not written to. Name a new file. Nothing was changed.")
    return True


def check(out: Out, inputs: Iterable[Path] = ()) -> bool:
    """Whether an output file will replace an existing one. Refuses one that may not be written."""
    if not is_there(out.path, inputs):
        if not out.path.parent.is_dir():
            raise Failed(f"{out.path}: its folder doesn't exist", DEVICE)
        return False
    if not out.is_forced:
        raise refused(out.path, "already exists; --force overwrites it")
    with naming(out.path), out.path.open("rb") as file:
        if file.read(len(layout.MARK)) == layout.MARK:
            raise refused(out.path, "holds a journal, which is never overwritten")
    return True


def check_all(outs: Iterable[Out], inputs: Iterable[Path] = (), others: Iterable[Path] = ()) -> None:
    """Refuses files that may not be written, before anything is done, and a name that is given twice; `others` are made too."""
    inputs, seen = list(inputs), {os.path.realpath(one) for one in others}
    for out in outs:
        check(out, inputs)
        if os.path.realpath(out.path) in seen:
            raise refused(out.path, "is named twice; each output needs a file of its own")
        seen.add(os.path.realpath(out.path))


def write(out: Out, data: str | bytes | Iterable[str], inputs: Iterable[Path] = ()) -> None:
    """Writes a text, bytes, or the parts of a text, which needn't be in memory at once. A file that can't be written to its end is
    removed; an existing one is replaced when the new one is whole and synced."""
    path, parts = out.path, (data,) if isinstance(data, str | bytes) else data
    place = path.with_name(f".lab-{secrets.token_hex(8)}") if check(out, inputs) else path
    with naming(path):
        try:
            file = place.open("xb")
        except FileExistsError as error:
            raise refused(path, "was created by somebody else meanwhile; it is not overwritten") from error
        try:
            with file:
                file.writelines(part if isinstance(part, bytes) else part.encode() for part in parts)
                file.flush()
                os.fsync(file.fileno())
            if place != path:
                shutil.copymode(path, place)
                os.replace(place, path)
        except BaseException:
            place.unlink()
            raise


@contextlib.contextmanager
def new_folder(path: Path) -> Iterator[Path]:
    """A new folder of files, which is filled under another name, and renamed once they are write-protected and synced. If it can't be
    filled, nothing is left."""
    if os.path.lexists(path):
        raise refused(path, "already exists; name a new folder")
    place = path.with_name(f".lab-{secrets.token_hex(8)}")
    with naming(path):
        place.mkdir()
        try:
            yield place
            for one in place.iterdir():
                one.chmod(0o444)
                with one.open("rb") as file:
                    os.fsync(file.fileno())
            place.rename(path)
        except BaseException:
            shutil.rmtree(place, ignore_errors=True)
            raise


# ---- databases

@dataclass(frozen=True)
class Database:
    """A kind of SQLite database: its name, its `PRAGMA application_id`, and the statements that make an empty one, each with a line of its own."""

    name: str
    application_id: int
    schema: str


@contextlib.contextmanager
def sqlite_errors(path: Path) -> Iterator[None]:
    """Raises an error of SQLite inside the block as `Failed`: the database was altered, say, or can't be written."""
    try:
        yield
    except (sqlite3.Error, UnicodeError) as error:
        is_busy = getattr(error, "sqlite_errorcode", None) == sqlite3.SQLITE_BUSY
        raise Failed(f"{path}: {'another program is writing to it; wait for its end, or name another file' if is_busy else error}",
                     DEVICE) from error


def connected(path: Path, mode: str, wait: float) -> sqlite3.Connection:
    """A connection whose transactions the caller begins."""
    return sqlite3.connect(f"{path.absolute().as_uri()}?mode={mode}", wait, isolation_level=None, uri=True)


def check_kind(connection: sqlite3.Connection, path: Path, kind: Database) -> None:
    """Refuses a database of another kind."""
    if connection.execute("PRAGMA application_id").fetchone() != (kind.application_id,):
        raise refused(path, f"is not {kind.name} that lab made")


def open_database(path: Path, kind: Database, fill: Callable[[sqlite3.Connection], None], inputs: Iterable[Path] = (),
                  wait: float = WAIT_SECONDS) -> sqlite3.Connection:
    """Opens a database. An empty one is made and filled in one transaction, also if two programs do so at once."""
    is_there(path, inputs)
    with sqlite_errors(path):
        connection = connected(path, "rwc", wait)
        try:
            connection.execute("BEGIN IMMEDIATE")
            if connection.execute("SELECT 1 FROM sqlite_master").fetchone() is None:
                for statement in kind.schema.split(";\n"):
                    connection.execute(statement)
                connection.execute(f"PRAGMA application_id = {kind.application_id}")
                fill(connection)
            check_kind(connection, path, kind)
            connection.execute("COMMIT")
        except BaseException:
            connection.close()
            raise
    return connection


@contextlib.contextmanager
def read_database(path: Path, kind: Database) -> Iterator[sqlite3.Connection]:
    """A database that is opened for reading only."""
    with naming(path):
        path.stat()
    with sqlite_errors(path), contextlib.closing(connected(path, "ro", WAIT_SECONDS)) as connection:
        check_kind(connection, path, kind)
        yield connection
