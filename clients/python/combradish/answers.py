"""Answers: what replay says. Each prints itself again; `read_answer` reads one, strictly as docs/REPLAY.md has it."""

from __future__ import annotations

import re
from collections.abc import Callable
from dataclasses import dataclass
from typing import assert_never

from .events import answers_of
from .held import Held, PingReply, VersionReply, held_of
from .refusals import Refusal
from .values import Frame, Mode, Value, Word, decimal, digits, signed

SENT = re.compile(r"\((0|[1-9][0-9]*)\.[0-9]{3}000\) can0 [0-9A-F]{8}#[0-9A-F]{16}")


class Unexpected(Exception):
    """An answer that isn't of docs/REPLAY.md's form. From here on nothing that is read can be trusted."""

    def __init__(self, event: str, line: str, why: str = "") -> None:
        super().__init__(f"to {event!r} came {line!r}, which isn't its answer{why and f': {why}'}")
        self.event = event
        self.line = line


@dataclass(frozen=True)
class ProtocolFlag:
    """get_protocol_flag's result."""

    bits: int


# none; ping; mode; value of get_parameter; flag; f32's Word; i8's int; version
Result = None | PingReply | Mode | Value | ProtocolFlag | Word | int | VersionReply


def result_text(result: Result) -> str:
    """The words after `finished`."""
    match result:
        case None:
            return "none"
        case PingReply():
            return f"ping {result.text}"
        case Mode():
            return f"mode {result.value}"
        case Value():
            return f"value {result.text}"
        case ProtocolFlag():
            return f"flag {result.bits:02X}"
        case Word():
            return f"f32 {result:08X}"
        case int():
            return f"i8 {result}"
        case VersionReply():
            return f"version {result.text}"
    assert_never(result)


def result_of(words: list[str]) -> Result:
    """The result that the words after `finished` are."""
    match words:
        case ["none"]:
            return None
        case ["ping", *rest]:
            return PingReply.parse(rest)
        case ["mode", name]:
            return Mode(name)
        case ["value", kind, bits]:
            return Value.parse(kind, bits)
        case ["flag", bits]:
            return ProtocolFlag(digits(bits, 2))
        case ["f32", bits]:
            return Word(digits(bits, 8))
        case ["i8", number]:
            return signed(number)
        case ["version", *rest]:
            return VersionReply.parse(rest)
    raise ValueError("it isn't a result")


@dataclass(frozen=True)
class Ok:
    """Done, or a frame that was taken."""

    def lines(self) -> list[str]:
        return ["ok"]


@dataclass(frozen=True)
class Sent:
    """A frame goes out, and the next step is due at a time."""

    frame: Frame
    due: int

    def lines(self) -> list[str]:
        return [self.frame.line, f"sent due {self.due}"]


@dataclass(frozen=True)
class Waiting:
    """Nothing goes out, and the next step is due at a time."""

    due: int

    def lines(self) -> list[str]:
        return [f"waiting due {self.due}"]


@dataclass(frozen=True)
class Finished:
    """The operation has ended well; a last frame may go out."""

    result: Result
    frame: Frame | None = None

    def lines(self) -> list[str]:
        return ([self.frame.line] if self.frame else []) + [f"finished {result_text(self.result)}"]


@dataclass(frozen=True)
class Refused:
    """The call was refused, or the operation's step failed."""

    refusal: Refusal

    def lines(self) -> list[str]:
        return [f"refused {self.refusal.text}"]


@dataclass(frozen=True)
class Error:
    """The line was no event. The text is for people."""

    text: str

    def lines(self) -> list[str]:
        return [f"error {self.text}"]


Answer = Ok | Sent | Waiting | Finished | Refused | Error | Held


def one_line(words: list[str], frame: Frame | None) -> Answer:
    """The answer that a line's words are, after the frame that stands before it."""
    match words:
        case ["ok"] if not frame:
            return Ok()
        case ["sent", "due", time] if frame:
            return Sent(frame, decimal(time))
        case ["finished", *result]:
            return Finished(result_of(result), frame)
        case ["waiting", "due", time] if not frame:
            return Waiting(decimal(time))
        case ["refused", _, *_] if not frame:
            return Refused(Refusal.parse(words[1:]))
    raise ValueError("it isn't an answer")


def read_answer(event: str, next_line: Callable[[], str]) -> Answer | None:
    """The answer to an event's line, from the lines that next_line gives; None where there is nothing to answer."""
    if not event.rstrip("\r\n") or event.startswith("#"):
        return None
    firsts = answers_of(event.rstrip("\r\n"))
    said = ""

    def line() -> str:
        nonlocal said
        said = next_line()
        return said

    def after(first: str) -> list[str]:
        word, *rest = line().split(" ")
        if word != first:
            raise ValueError(f"{first!r} is missing")
        return rest

    try:
        if line().startswith("error "):
            return Error(said[6:])
        frame = None
        if said.startswith("(") and "sent" in firsts:
            frame = Frame.parse(said)
            if not SENT.fullmatch(said):
                raise ValueError("the frame isn't in replay's form")
            line()
        words = said.split(" ")
        if words[0] not in firsts:
            raise ValueError("it isn't an answer to this event")
        return held_of(said, after, line) if words[0] == "motor" else one_line(words, frame)
    except ValueError as wrong:
        raise Unexpected(event, said, str(wrong)) from None
