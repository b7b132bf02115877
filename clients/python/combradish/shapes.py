"""Shapes: a letter for each word of an event after its name, by which replay reads a line too.

T a number: a time, a timeout or a wait. I a motor's id or a host, P a protocol. B a number up to 255, H up to 65,535, W up to
2^32 - 1, F 0 or 1. D a payload of 16 digits. C a mode, K a kind. X any word. A kind and the number behind it, KW, are one Value.
"""

from __future__ import annotations

import re
from collections.abc import Callable, Iterable, Sequence
from dataclasses import dataclass
from typing import Any

from .values import MOST, Kind, Mode, Value, Word, as_word, of_type, plain_word, whole

Argument = float | str | bytes | Mode | Value  # an int, a bool and a Word are floats to a type checker


def number(text: str, most: int = MOST) -> int:
    """A number of a session: decimal, or hexadecimal after 0x."""
    if re.fullmatch(r"[0-9]+", text):
        return whole("a number", int(text), most)
    if re.fullmatch(r"0x[0-9A-Fa-f]+", text):
        return whole("a number", int(text, 16), most)
    raise ValueError(f"{text!r} isn't a number")


@dataclass(frozen=True)
class Part:
    """An argument: the test of what a caller gives, its words in a line, and how those are read back."""

    check: Callable[[object], Argument]
    text: Callable[[Any], str]
    read: Callable[..., Argument]


def counted(what: str, most: int, form: str = "{}") -> Part:
    """A number from 0 to the most."""
    return Part(lambda given: whole(what, given, most), form.format, lambda word: number(word, most))


def typed(kind: type[Any], text: Callable[[Any], str], read: Callable[..., Argument]) -> Part:
    """A value of a type, which has checked it."""
    return Part(lambda given: of_type(kind, given), text, read)


def payload(given: object) -> bytes:
    if not isinstance(given, bytes) or len(given) != 8:
        raise ValueError(f"the data is 8 bytes, not {given!r}")
    return given


def payload_of(word: str) -> bytes:
    if not re.fullmatch(r"[0-9A-Fa-f]{16}", word):
        raise ValueError(f"{word!r} isn't 16 hexadecimal digits")
    return bytes.fromhex(word)


def any_word(word: str) -> str:
    if not word:
        raise ValueError("a word is missing")
    return word


# Every argument, by its letters.
PARTS: dict[str, Part] = {
    "T": counted("a time or a timeout", MOST),
    "I": counted("an id", MOST, "0x{:02X}"),
    "P": counted("a protocol", MOST),
    "B": counted("a byte", 0xFF),
    "H": counted("a parameter id", 0xFFFF, "0x{:04X}"),
    "W": Part(lambda given: as_word("a float", given), "0x{:08X}".format, lambda word: Word(number(word))),
    "F": typed(bool, lambda on: str(int(on)), lambda word: bool(number(word, 1))),
    "D": Part(payload, lambda data: data.hex().upper(), payload_of),
    "C": typed(Mode, lambda mode: mode.value, Mode),
    "KW": typed(Value, lambda value: value.argument, lambda kind, bits: Value(Kind(kind), number(bits))),
    "X": Part(lambda given: plain_word("a name", given), str, any_word),
}


def parts(shape: str) -> list[str]:
    """A shape's arguments."""
    return re.findall("KW|.", shape)


def checked(shape: str, arguments: Sequence[object]) -> tuple[Argument, ...]:
    """The arguments, if they are what a shape asks for."""
    asked = parts(shape)
    if len(arguments) != len(asked):
        raise ValueError(f"{len(asked)} arguments are asked for, not {len(arguments)}")
    return tuple(PARTS[part].check(given) for part, given in zip(asked, arguments))


def printed(shape: str, arguments: Iterable[Argument]) -> list[str]:
    """Checked arguments as words."""
    return [PARTS[part].text(argument) for part, argument in zip(parts(shape), arguments)]


def read(shape: str, words: Sequence[str]) -> tuple[Any, ...]:
    """The arguments that words are, each of its letter's type."""
    if len(words) != len(shape):
        raise ValueError(f"{len(shape)} words are asked for, not {len(words)}")
    rest = iter(words)
    return tuple(PARTS[part].read(*(next(rest) for _ in part)) for part in parts(shape))
