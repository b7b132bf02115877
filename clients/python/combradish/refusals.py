"""Refusals: document 01's numbers, by name, with the values that they carry."""

from __future__ import annotations

from collections.abc import Callable
from dataclasses import dataclass
from enum import IntEnum
from typing import Any

from .values import decimal, digits, signed


class Reason(IntEnum):
    """Why a call is refused: the table of refusals, with each one's number and the values that it carries."""

    carries: tuple[str, ...]

    def __new__(cls, number: int, *carries: str) -> Reason:
        made = int.__new__(cls, number)
        made._value_ = number
        made.carries = carries
        return made

    MOTOR_ID_NOT_1_TO_255 = 1
    HOST_ID_ABOVE_255 = 2
    MODEL_UNKNOWN = 3
    EIGHT_MOTORS_REGISTERED = 4
    ID_REGISTERED = 5
    ID_NOT_REGISTERED = 6
    TIME_OUT_OF_ORDER = 7
    OPERATION_RUNNING = 8
    TIMEOUT_OR_WAIT_ABOVE_60000 = 9
    WRITTEN_ID_UNLISTED = 10
    KIND_DIFFERS = 11
    PROTOCOL_NOT_0_TO_2 = 12
    FRAME_NOT_ACCEPTED = 13
    READ_STATUS_NOT_ZERO = 14, "parameter", "status"
    NO_ROOM_FOR_READING = 15
    LAST_WINDOW_GONE = 16
    RUN_MODE_UNKNOWN = 17
    THIRD_MODE_ATTEMPT_FAILED = 18, "last"
    NEW_DEVICE_ID_0 = 19
    READING_OF_ANOTHER_KIND = 20
    NOTHING_RUNNING = 21
    NOT_A_PING_REPLY = 22
    NOT_A_VERSION_REPLY = 23

    @property
    def text(self) -> str:
        """The reason in words."""
        return self.name.lower().replace("_", " ")


ENDING = (Reason.LAST_WINDOW_GONE, Reason.RUN_MODE_UNKNOWN, Reason.THIRD_MODE_ATTEMPT_FAILED, Reason.READING_OF_ANOTHER_KIND)

# How a value that is carried is printed and read.
CARRIED: dict[str, tuple[Callable[[Any], str], Callable[[str], int | None]]] = {
    "parameter": ("{:04X}".format, lambda word: digits(word, 4)),
    "status": ("{:02X}".format, lambda word: digits(word, 2)),
    "last": (lambda last: "none" if last is None else str(last), lambda word: None if word == "none" else signed(word)),
}


@dataclass(frozen=True)
class Refusal:
    """A refusal: its reason, of 14 the parameter and the read status, of 18 the last value read or None."""

    number: Reason
    parameter: int | None = None
    status: int | None = None
    last: int | None = None

    @property
    def name(self) -> str:
        return self.number.name

    @property
    def text(self) -> str:
        """The words after `refused`."""
        return " ".join([str(int(self.number)), *(CARRIED[name][0](getattr(self, name)) for name in self.number.carries)])

    @staticmethod
    def parse(words: list[str]) -> Refusal:
        """The refusal that the words after `refused` are."""
        number = Reason(decimal(words[0]))
        if len(words) != 1 + len(number.carries):
            raise ValueError("the refusal has too few words or too many")
        return Refusal(number, **{name: CARRIED[name][1](word) for name, word in zip(number.carries, words[1:])})
