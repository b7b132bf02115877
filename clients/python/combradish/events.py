"""Events: what is said to replay. Each checks its arguments and prints its line; `parse_event` reads a line back."""

from __future__ import annotations

from collections.abc import Sequence
from dataclasses import dataclass
from typing import Any

from .commands import COMMANDS, Command
from .shapes import checked, printed, read
from .values import Frame, Word, of_type


class Called:
    """An event of the table EVENTS. Its fields are the arguments of its shape."""

    @property
    def shape(self) -> str:
        return EVENTS[NAMES[type(self)]].shape

    @property
    def arguments(self) -> tuple[object, ...]:
        return tuple(vars(self).values())

    @property
    def line(self) -> str:
        arguments = checked(self.shape, self.arguments)
        words = printed(self.shape, arguments)
        if self.shape.startswith("I"):
            words[0] = str(arguments[0])  # the motor's id is decimal, a host hexadecimal
        return " ".join([NAMES[type(self)], *words])

    @classmethod
    def of(cls, words: Sequence[str]) -> Any:
        """The event that the words after its name are."""
        kind: Any = cls
        return kind(*read(EVENTS[NAMES[cls]].shape, words))


@dataclass(frozen=True)
class Fresh(Called):
    """Begin again with no motor."""


@dataclass(frozen=True)
class Register(Called):
    id: int
    host: int
    model: str
    wait: int
    time: int


@dataclass(frozen=True)
class Start(Called):
    """An operation's start. The command's arguments stand behind its name."""

    id: int
    time: int
    command: Command

    def __post_init__(self) -> None:
        of_type(Command, self.command)

    @property
    def shape(self) -> str:
        return super().shape + COMMANDS[self.command.name]

    @property
    def arguments(self) -> tuple[object, ...]:
        return (self.id, self.time, self.command.name, *self.command.arguments)

    @classmethod
    def of(cls, words: Sequence[str]) -> Start:
        return cls(*read("IT", words[:2]), Command.parse(words[2:]))


@dataclass(frozen=True)
class Step(Called):
    id: int
    time: int


@dataclass(frozen=True)
class AnyFrame(Called):
    """Any frame at all, in every field that a frame has."""

    time: int
    id: int
    data: bytes
    extended: bool = True
    dlc: int = 8
    rx: bool = True

    @property
    def arguments(self) -> tuple[object, ...]:
        return (self.time, Word(self.id), self.data, self.extended, self.dlc, self.rx)


@dataclass(frozen=True)
class Look(Called):
    id: int


@dataclass(frozen=True)
class Remove(Called):
    id: int
    time: int


@dataclass(frozen=True)
class Heard:
    """A frame heard, as candump logs it."""

    frame: Frame

    def __post_init__(self) -> None:
        of_type(Frame, self.frame)

    @property
    def line(self) -> str:
        return self.frame.line


Event = Fresh | Register | Start | Step | AnyFrame | Heard | Look | Remove


@dataclass(frozen=True)
class Row:
    """A row of the table of events: the type, the shape, and the words with which an answer may begin."""

    kind: type[Any]
    shape: str
    answers: str


# The table of events. Behind the shape of a start stands its command's.
EVENTS: dict[str, Row] = {
    "fresh": Row(Fresh, "", "ok"),
    "register": Row(Register, "IIXTT", "ok refused"),
    "step": Row(Step, "IT", "sent waiting finished refused"),
    "frame": Row(AnyFrame, "TWDFBF", "ok refused"),
    "look": Row(Look, "I", "motor refused"),
    "remove": Row(Remove, "IT", "ok refused"),
    "start": Row(Start, "ITX", "sent waiting finished refused"),
}
NAMES: dict[type[Any], str] = {row.kind: name for name, row in EVENTS.items()}


def parse_event(line: str) -> Event | None:
    """The event that a line is, in any form that replay takes; None for a blank line or a comment."""
    line = line.removesuffix("\n").removesuffix("\r")
    if not line or line.startswith("#"):
        return None
    if line.startswith("("):
        return Heard(Frame.parse(line))
    name, *words = line.split(" ")
    if name not in EVENTS:
        raise ValueError(f"{line!r} isn't an event")
    event: Event = EVENTS[name].kind.of(words)
    return event


def answers_of(line: str) -> list[str]:
    """The words with which an answer to a line may begin, `error` aside. A frame heard is answered as any other."""
    name = "frame" if line.startswith("(") else line.split(" ")[0]
    return EVENTS[name].answers.split(" ") if name in EVENTS else []
