"""A station behind two pipes: replay as a child, one event at a time."""

from __future__ import annotations

import os
import select
import subprocess
import tempfile
import threading
import time
from collections.abc import Sequence
from contextlib import ExitStack
from os import PathLike
from pathlib import Path
from types import TracebackType
from typing import BinaryIO, TypeVar, cast

from .answers import Answer, Error, Finished, Ok, Refused, Sent, Unexpected, Waiting, read_answer
from .commands import Command
from .events import AnyFrame, Event, Fresh, Heard, Look, Register, Remove, Start, Step
from .held import Held
from .values import Frame

LONGEST = 4096
LONGEST_LIMIT = 86400.0
A = TypeVar("A")


class Died(Exception):
    """The child is gone. Keeps its status, the last event said to it, what it said to that, and its own complaint."""

    def __init__(self, status: int | None, last_event: str, last_answers: list[str], complaint: str = "", how: str = "") -> None:
        if status is not None:
            how = f"killed by signal {-status}" if status < 0 else f"status {status}"
        how = how or "it closed its pipe and was ended"
        last = f"the last event was {last_event!r}" if last_event else "no event had been sent"
        said = f"its answer so far was {last_answers!r}" if last_answers else "it gave no answer to it"
        text = f"replay is gone ({how}); {last}, {said}. The motors keep what they were last sent."
        super().__init__(text + (f" It said: {complaint.strip()}" if complaint.strip() else ""))
        self.status = status
        self.last_event = last_event
        self.last_answers = last_answers
        self.complaint = complaint


class TimedOut(Died):
    """The child didn't take an event, answer it or come to its end within the time limit, and was ended."""


class Station:
    """Runs replay and speaks with it. `recording` gets each event before it is sent, `answers` each line that comes back.

    Both are new files: one that is there already is an error, so that no recording is lost. An event is answered within `limit`
    seconds. After Died, which TimedOut is too, or Unexpected, or where an exchange was broken off, the station is of no more use
    and every call raises that again. Threads may share a station: one exchange is made at a time, and `close` waits for it.
    """

    def __init__(
        self,
        program: str | PathLike[str] | Sequence[str],
        recording: str | PathLike[str] | None = None,
        answers: str | PathLike[str] | None = None,
        limit: float = 10.0,
    ) -> None:
        if not 0 < limit <= LONGEST_LIMIT:
            raise ValueError(f"the time limit is more than 0 and at most {LONGEST_LIMIT} seconds, not {limit!r}")
        command = [str(program)] if isinstance(program, (str, PathLike)) else list(program)
        with ExitStack() as opened:
            paths = (recording, answers)
            self._files = [opened.enter_context(open(path, "xb", buffering=0)) if path else None for path in paths]
            self._complaints = opened.enter_context(tempfile.TemporaryFile())
            pipe = subprocess.PIPE
            self._child = subprocess.Popen(command, stdin=pipe, stdout=pipe, stderr=self._complaints, bufsize=0)
            opened.pop_all()
        self._in = cast(BinaryIO, self._child.stdin)
        self._out = cast(BinaryIO, self._child.stdout)
        os.set_blocking(self._in.fileno(), False)
        self._limit = limit
        self._until = 0.0  # when the running exchange is over time
        self._rest = b""  # what the child said after the last line that was read
        self._lock = threading.RLock()  # of all below; a signal's handler may close what its own thread waits for
        self._broken: Exception | None = None
        self.last_event = ""
        self.last_answers: list[str] = []

    # ---- the events

    def fresh(self) -> Ok:
        """Begin again with no motor."""
        return self._typed(Fresh(), Ok)

    def register(self, id: int, host: int, model: str, wait: int, time: int) -> Ok | Refused:
        return self._typed(Register(id, host, model, wait, time), Ok, Refused)

    def start(self, id: int, time: int, command: Command) -> Sent | Waiting | Finished | Refused:
        return self._typed(Start(id, time, command), Sent, Waiting, Finished, Refused)

    def step(self, id: int, time: int) -> Sent | Waiting | Finished | Refused:
        """The operation goes on. Step after each frame of the motor and at each due time."""
        return self._typed(Step(id, time), Sent, Waiting, Finished, Refused)

    def frame(self, time: int, id: int, data: bytes, extended: bool = True, dlc: int = 8, rx: bool = True) -> Ok | Refused:
        """Any frame at all."""
        return self._typed(AnyFrame(time, id, data, extended, dlc, rx), Ok, Refused)

    def heard(self, frame: Frame) -> Ok | Refused:
        """A frame heard on the bus."""
        return self._typed(Heard(frame), Ok, Refused)

    def look(self, id: int) -> Held | Refused:
        """All that is held for a motor."""
        return self._typed(Look(id), Held, Refused)

    def remove(self, id: int, time: int) -> Ok | Refused:
        return self._typed(Remove(id, time), Ok, Refused)

    def note(self, text: str) -> None:
        """A comment in the recording."""
        self.say(f"# {text}")

    def send(self, event: Event) -> Answer:
        """An event as a value."""
        return self._typed(event, Ok, Sent, Waiting, Finished, Refused, Held)

    def say(self, line: str) -> Answer | None:
        """Any one line as it stands, which may be no event at all; None where it is blank or a comment.

        The way for recorded lines. The methods above make lines that are always events.
        """
        if not isinstance(line, str) or not line.isascii() or any(c in line for c in "\r\n\0"):
            raise ValueError(f"one line of ASCII characters is asked for, not {line!r}")
        if len(line) > LONGEST:
            raise ValueError(f"a line has at most {LONGEST} bytes, not {len(line)}")
        with self._lock:
            return self._exchange(line)

    def _typed(self, event: Event, *kinds: type[A]) -> A:
        line = event.line
        with self._lock:
            answer = self.say(line)
            if isinstance(answer, kinds):
                return answer
            said = answer.lines()[0] if answer else ""
            self._broken = Unexpected(line, said, "the event's line was refused as text" if isinstance(answer, Error) else "")
            raise self._broken

    # ---- the pipes

    def _exchange(self, line: str) -> Answer | None:
        if self._broken:
            raise self._broken
        if self._in.closed:
            raise ValueError("the station is closed")
        self.last_event, self.last_answers = line, []
        self._broken = Unexpected(line, "", "the exchange was broken off before the answer was read")
        self._until = time.monotonic() + self._limit
        try:
            self._write(line)
            answer = read_answer(line, self._line)
        except (Died, Unexpected) as end:
            self._broken = end
            raise
        self._broken = None
        return answer

    def _write(self, line: str) -> None:
        data = line.encode("ascii") + b"\n"
        if self._files[0]:
            self._files[0].write(data)
        try:
            while data:
                self._wait(self._in, select.POLLOUT)
                data = data[self._in.write(data) or 0 :]
        except OSError:
            raise self._died() from None

    def _line(self) -> str:
        while b"\n" not in self._rest and (more := self._read()):
            self._rest += more
        data, end, self._rest = self._rest.partition(b"\n")
        if self._files[1]:
            self._files[1].write(data + end)
        text = data.decode("ascii", "backslashreplace")
        if data or end:
            self.last_answers.append(text)
        if not end:
            raise self._died()
        return text

    def _read(self) -> bytes:
        """What the child says next; nothing where it has closed its pipe."""
        self._wait(self._out, select.POLLIN)
        return self._out.read(1 << 16)

    def _wait(self, pipe: BinaryIO, event: int) -> None:
        """Until a pipe is ready. Past the time limit the child is ended."""
        poll = select.poll()
        poll.register(pipe, event)
        left = self._until - time.monotonic()
        if left <= 0 or not poll.poll(left * 1000):
            self._child.kill()
            self._child.wait()
            raise self._end(TimedOut, None, f"it wasn't done within {self._limit:g} s and was ended")

    def _died(self) -> Died:
        try:
            status: int | None = self._child.wait(5)
        except subprocess.TimeoutExpired:
            self._child.kill()
            self._child.wait()
            status = None
        return self._end(Died, status)

    def _end(self, kind: type[Died], status: int | None, how: str = "") -> Died:
        self._complaints.seek(0)
        complaint = self._complaints.read()[-2000:].decode("utf-8", "replace")
        return kind(status, self.last_event, list(self.last_answers), complaint, how)

    # ---- the end

    def close(self) -> None:
        """Ends the child and closes the files, after the exchange that another thread has begun. Raises Died where the child
        didn't end well."""
        with self._lock:
            if self._out.closed:
                return
            try:
                self._in.close()
                if not self._broken:
                    self._ended_well()
            finally:
                self._child.kill()  # which does nothing where it has ended
                self._child.wait()
                for file in (self._out, self._complaints, *self._files):
                    if file:
                        file.close()

    def _ended_well(self) -> None:
        """The child says nothing more and ends with status 0."""
        self._until = time.monotonic() + self._limit
        said = self._rest or self._read()
        died = self._died()
        if said or died.status != 0:
            raise died

    def __enter__(self) -> Station:
        return self

    def __exit__(self, kind: type[BaseException] | None, error: BaseException | None, trace: TracebackType | None) -> None:
        try:
            self.close()
        except Died:
            if error is None:
                raise


def program_of(repository: Path) -> str:
    """The replay program: what COMBRADISH_REPLAY names, else the repository's own build."""
    return os.environ.get("COMBRADISH_REPLAY") or str(repository / "crates" / "replay" / "out" / "replay")
