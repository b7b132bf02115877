"""Numbers, floats' words, modes, parameter values and frames, as docs/REPLAY.md writes them."""

from __future__ import annotations

import re
import struct
from dataclasses import dataclass
from enum import Enum
from typing import TypeVar, assert_never

MOST = 2**64 - 1
T = TypeVar("T")


def of_type(kind: type[T], given: object) -> T:
    """What is given, if it is of a type."""
    if not isinstance(given, kind):
        raise ValueError(f"a {kind.__name__} is asked for, not {given!r}")
    return given


def whole(name: str, number: object, most: int = MOST) -> int:
    """The number, if it is an int from 0 to most."""
    if isinstance(number, bool) or not isinstance(number, int):
        raise ValueError(f"{name} is a whole number, not {number!r}")
    if not 0 <= number <= most:
        raise ValueError(f"{name} is from 0 to {most}, not {number}")
    return int(number)


def plain_word(name: str, text: object) -> str:
    """The text, if it is one word of visible ASCII characters."""
    if not isinstance(text, str) or not re.fullmatch(r"[!-~]+", text):
        raise ValueError(f"{name} is one word of ASCII characters without spaces, not {text!r}")
    return text


def digits(text: str, width: int) -> int:
    """Capital hexadecimal digits of a fixed width."""
    if not re.fullmatch(rf"[0-9A-F]{{{width}}}", text):
        raise ValueError(f"{text!r} isn't {width} capital hexadecimal digits")
    return int(text, 16)


def decimal(text: str, most: int = MOST) -> int:
    """A decimal number as replay writes it, with no leading zero."""
    if not re.fullmatch(r"0|[1-9][0-9]*", text) or int(text) > most:
        raise ValueError(f"{text!r} isn't a decimal number up to {most}")
    return int(text)


def signed(text: str) -> int:
    """A decimal number from -128 to 127."""
    if not re.fullmatch(r"0|-?[1-9][0-9]*", text) or not -128 <= int(text) <= 127:
        raise ValueError(f"{text!r} isn't a number from -128 to 127")
    return int(text)


class Word(int):
    """32 bits: those of a float, or of a frame's id."""

    def __new__(cls, bits: int) -> Word:
        return super().__new__(cls, whole("a word", bits, 0xFFFF_FFFF))

    def __repr__(self) -> str:
        return f"Word(0x{int(self):08X})"


def word(number: float) -> Word:
    """The word of the 32-bit float that is nearest to the number."""
    if isinstance(number, bool) or not isinstance(number, float):
        raise ValueError(f"a float is asked for, not {number!r}")
    try:
        return Word(struct.unpack("<I", struct.pack("<f", number))[0])
    except OverflowError:
        raise ValueError(f"{number!r} is beyond a 32-bit float") from None


def value(bits: int) -> float:
    """The float of a word. Of a NaN only that it is one: keep the word where its bits count."""
    return float(struct.unpack("<f", struct.pack("<I", Word(bits)))[0])


def as_word(name: str, number: object) -> Word:
    """A Word as it stands, a float as its word. A plain int is refused: it could mean either."""
    if isinstance(number, Word):
        return number
    if not isinstance(number, float):
        raise ValueError(f"{name} is a float such as 2.0, or a Word, not {number!r}")
    return word(number)


class Mode(Enum):
    """A control mode, by its name in sessions."""

    MIT = "mit"
    PP = "pp"
    VELOCITY = "velocity"
    CSP = "csp"


class Kind(Enum):
    """The kind of a parameter's value."""

    I8 = "i8"
    U8 = "u8"
    U16 = "u16"
    U32 = "u32"
    F32 = "f32"

    @property
    def width(self) -> int:
        """Hexadecimal digits of the value's bits."""
        return {"i8": 2, "u8": 2, "u16": 4, "u32": 8, "f32": 8}[self.value]


@dataclass(frozen=True)
class Value:
    """A parameter's value: its kind and its bits."""

    kind: Kind
    bits: int

    def __post_init__(self) -> None:
        of_type(Kind, self.kind)
        whole(f"the bits of a {self.kind.value}", self.bits, 16**self.kind.width - 1)

    @staticmethod
    def i8(number: int) -> Value:
        if isinstance(number, bool) or not isinstance(number, int) or not -128 <= number <= 127:
            raise ValueError(f"an i8 is from -128 to 127, not {number!r}")
        return Value(Kind.I8, number & 0xFF)

    @staticmethod
    def u8(number: int) -> Value:
        return Value(Kind.U8, number)

    @staticmethod
    def u16(number: int) -> Value:
        return Value(Kind.U16, number)

    @staticmethod
    def u32(number: int) -> Value:
        return Value(Kind.U32, number)

    @staticmethod
    def f32(number: float | Word) -> Value:
        return Value(Kind.F32, as_word("an f32", number))

    @property
    def number(self) -> int | float:
        """What the bits stand for."""
        match self.kind:
            case Kind.I8:
                return self.bits - 256 if self.bits > 127 else self.bits
            case Kind.U8 | Kind.U16 | Kind.U32:
                return self.bits
            case Kind.F32:
                return value(self.bits)
        assert_never(self.kind)

    @property
    def text(self) -> str:
        """KIND BITS, as an answer has them."""
        return f"{self.kind.name} {self.bits:0{self.kind.width}X}"

    @property
    def argument(self) -> str:
        """KIND VALUE, as an event has them."""
        return f"{self.kind.value} 0x{self.bits:0{self.kind.width}X}"

    @staticmethod
    def parse(kind: str, bits: str) -> Value:
        """The value that an answer's KIND BITS is."""
        if kind not in Kind.__members__:
            raise ValueError(f"{kind!r} isn't a kind")
        return Value(Kind[kind], digits(bits, Kind[kind].width))


FRAME = re.compile(r"\(([0-9]+)\.([0-9]{6})\) ([!-~]+) ([0-9A-Fa-f]{8}|[0-9A-Fa-f]{3})#((?:[0-9A-Fa-f]{2}){0,8})( [RT])?")


@dataclass(frozen=True)
class Frame:
    """A data frame as a line of a candump log. The time is in microseconds."""

    micros: int
    id: int
    data: bytes
    extended: bool = True
    interface: str = "can0"

    def __post_init__(self) -> None:
        whole("a frame's time", self.micros, (MOST + 1) * 1000 - 1)
        of_type(bool, self.extended)
        whole("a frame's id", self.id, 0x1FFF_FFFF if self.extended else 0xFFF)
        if not isinstance(self.data, bytes) or len(self.data) > 8:
            raise ValueError(f"a frame's data is at most 8 bytes, not {self.data!r}")
        plain_word("an interface", self.interface)

    @staticmethod
    def at(time: int, id: int, data: bytes, extended: bool = True) -> Frame:
        """A frame at a time in milliseconds."""
        return Frame(whole("a time", time) * 1000, id, data, extended)

    @property
    def time(self) -> int:
        """Whole milliseconds."""
        return self.micros // 1000

    @property
    def line(self) -> str:
        seconds, micros = divmod(self.micros, 1_000_000)
        width = 8 if self.extended else 3
        return f"({seconds}.{micros:06}) {self.interface} {self.id:0{width}X}#{self.data.hex().upper()}"

    @staticmethod
    def parse(line: str) -> Frame:
        """The frame that a log's line is."""
        found = FRAME.fullmatch(line)
        if not found:
            raise ValueError(f"{line!r} isn't a data frame of a candump log")
        seconds, micros, interface, id, data = found.group(1, 2, 3, 4, 5)
        return Frame(int(seconds) * 1_000_000 + int(micros), int(id, 16), bytes.fromhex(data), len(id) == 8, interface)
