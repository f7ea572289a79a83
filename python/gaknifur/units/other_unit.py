"""Run a maker's own unit: a program that speaks the protocol of docs/howto/oracle.md over its standard streams.

It is started once for each case or image, gets event by event, and is ended. Whatever it does, each call returns within the time
limit: a unit that breaks the protocol, is late or ends early raises `Broken`, and none of its processes is left. Its resources are
limited (module `sandbox`).
"""
import contextlib
import os
import selectors
import shlex
import signal
import subprocess
import time
from typing import Self

from ..program import DEVICE, WRONG_WORDS, Failed, Json
from .protocol import MOST_LINE, PROTOCOL, TOO_LONG, Greeting, Wrong, checked, greeting_of, line_of, short
from .sandbox import Confined

WITHIN_S, MOST_WITHIN_S = 10.0, 3_600.0
"""The default and the longest time limit of a unit for an answer, in seconds."""
MOST_ERRORS, MOST_READS, LOOK_S = 4_096, 64, 0.001
"""The bytes of standard error that are kept, the most reads of a stream that has ended or is given up, and the interval at which
the end of a process is checked."""


class Broken(Exception):
    """A unit broke the protocol: the message, and the number of answers before it."""

    def __init__(self, message: str, answers: int) -> None:
        super().__init__(message)
        self.answers = answers


def within_of(seconds: float) -> float:
    """The time limit for each answer of another unit."""
    if not 0 < seconds <= MOST_WITHIN_S:
        raise Failed(f"--answer-within: has to be more than 0 and at most {MOST_WITHIN_S:g} s", WRONG_WORDS)
    return seconds


def words_of(command: str) -> list[str]:
    """The arguments of a command, split like in a shell; no shell runs it."""
    try:
        words = shlex.split(command)
    except ValueError as error:
        raise Failed(f"--against: {error}", WRONG_WORDS) from None
    if not words:
        raise Failed("--against: a command is missing", WRONG_WORDS)
    return words


class Streams:
    """The pipes to and from a unit. No wait is longer than a deadline, and no more is kept of each than a message or the last
    line needs."""

    def __init__(self, process: "subprocess.Popen[bytes]") -> None:
        assert process.stdin is not None and process.stdout is not None and process.stderr is not None
        self.into, self.out, self.errors = process.stdin, process.stdout, process.stderr
        self.unsent, self.received, self.last_errors = b"", b"", b""
        self.is_at_end = False
        self.ready = selectors.DefaultSelector()
        for stream in (self.into, self.out, self.errors):
            os.set_blocking(stream.fileno(), False)
        self.ready.register(self.out, selectors.EVENT_READ, self.receive)
        self.ready.register(self.errors, selectors.EVENT_READ, self.listen)

    def send(self, message: bytes) -> None:
        """Queues a message, which `move` sends."""
        self.unsent = message
        self.ready.register(self.into, selectors.EVENT_WRITE, self.write)

    def move(self, deadline: float) -> bool:
        """Waits until a stream is ready, and transfers what can be transferred; returns whether one was ready in time."""
        left = deadline - time.monotonic()
        found = self.ready.select(left) if left > 0 else []
        for key, _ in found:
            key.data()
        return bool(found)

    def write(self) -> None:
        """Sends as much as the unit accepts."""
        try:
            self.unsent = self.unsent[os.write(self.into.fileno(), self.unsent):]
        except BlockingIOError:
            return
        except BrokenPipeError:  # (its standard output then says how it ended)
            self.unsent = b""
        if not self.unsent:
            self.ready.unregister(self.into)

    def receive(self) -> None:
        """Receives from its standard output."""
        data = os.read(self.out.fileno(), MOST_LINE)
        self.received += data
        if not data:
            self.is_at_end = True
            self.ready.unregister(self.out)

    def listen(self) -> bool:
        """Receives from its standard error; returns whether there was something."""
        try:
            data = os.read(self.errors.fileno(), MOST_LINE)
        except BlockingIOError:
            return False
        self.last_errors = (self.last_errors + data)[-MOST_ERRORS:]
        if not data:
            self.ready.unregister(self.errors)
        return bool(data)

    def last_line(self) -> str | None:
        """The last line on standard error that isn't empty."""
        if self.errors in self.ready.get_map():
            any(not self.listen() for _ in range(MOST_READS))
        lines = [line for line in self.last_errors.decode("utf-8", "replace").splitlines() if line.strip()]
        return lines[-1] if lines else None

    def close_input(self) -> None:
        """Closes its standard input."""
        with contextlib.suppress(OSError):
            self.into.close()

    def close(self) -> None:
        """Closes all of them."""
        self.ready.close()
        for stream in (self.into, self.out, self.errors):
            with contextlib.suppress(OSError):
                stream.close()


class OtherUnit:
    """A unit's process, from `with` on to its end."""

    def __init__(self, command: str, within_s: float = WITHIN_S) -> None:
        self.words, self.within_s = words_of(command), within_s
        self.answers = 0
        self.greeting: Greeting | None = None
        try:
            self.confined = Confined(self.words)
        except OSError as error:
            raise Failed(f"--against: {short(self.words[0])}: {error.strerror}", DEVICE) from None
        self.process = self.confined.process
        self.streams = Streams(self.process)

    def __enter__(self) -> Self:
        return self

    def __exit__(self, *_: object) -> None:
        self.kill()

    def kill(self) -> None:
        """Kills the process, and all processes of its session."""
        self.confined.kill()
        self.streams.close()

    # ---- lines

    def broken(self, problem: str) -> Broken:
        """An error with the last line that the unit wrote on standard error."""
        line = self.streams.last_line()
        return Broken(problem if line is None else f"{problem}; it said: {short(line)}", self.answers)

    def unrequested(self, where: str) -> Broken:
        """The error for a line that isn't an answer."""
        return self.broken(f"{where}: a line that wasn't requested: {short(self.streams.received.decode('utf-8', 'replace'))}")

    def ended(self, deadline: float) -> str:
        """How its process ended, after the end of its standard output."""
        while (status := self.confined.status()) is None and (now := time.monotonic()) < deadline:
            self.streams.move(min(deadline, now + LOOK_S))
        if status is None:
            return "closed its standard output"
        if status < 0:
            name = signal.Signals(-status).name if -status in signal.Signals.__members__.values() else "unknown"
            return f"was ended by signal {-status} ({name})"
        return f"ended with status {status}"

    def exchange(self, message: Json, where: str) -> bytes:
        """Sends a message; returns the line that answers it. One time limit holds for reading the message and answering it."""
        streams, deadline = self.streams, time.monotonic() + self.within_s
        if streams.received:
            raise self.unrequested(where)
        streams.send(line_of(message).encode())
        while True:
            line, end, rest = streams.received.partition(b"\n")
            if len(line) >= MOST_LINE:
                raise self.broken(f"{where}: {TOO_LONG}")
            if end and not streams.unsent:
                streams.received = rest
                return line
            if streams.is_at_end and not end:
                subject = "a line without its end, and then it" if line else "it"
                raise self.broken(f"{where}: {subject} {self.ended(deadline)}")
            if not streams.move(deadline):
                problem = "it doesn't read its input, and has not taken the message" if streams.unsent else "no answer"
                raise self.broken(f"{where}: {problem} within {self.within_s:g} s")

    # ---- the protocol

    def greet(self, name: str) -> Greeting:
        """The greeting: the name of the unit, and the members of its answers."""
        line = self.exchange({"protocol": PROTOCOL, "case": name}, "greeting")
        try:
            self.greeting = greeting_of(line)
        except Wrong as wrong:
            raise self.broken(f"greeting: {wrong}") from None
        return self.greeting

    def answer(self, event: Json) -> Json:
        """Its answer to an event."""
        assert self.greeting is not None
        where = f"event {event['event']}"
        line = self.exchange(event, where)
        try:
            found = checked(line, event["event"], self.greeting.members)
        except Wrong as wrong:
            raise self.broken(f"{where}: {wrong}") from None
        self.answers += 1
        return found

    def end(self) -> None:
        """Closes its standard input. Fails unless the unit then ends with status 0, without further output."""
        self.streams.close_input()
        deadline = time.monotonic() + self.within_s
        while not self.streams.received and not self.streams.is_at_end:
            if not self.streams.move(deadline):
                raise self.broken(f"end: it keeps running for {self.within_s:g} s")
        if self.streams.received:
            raise self.unrequested("end")
        how = self.ended(deadline)
        if how != "ended with status 0":
            raise self.broken(f"end: it {how}")
