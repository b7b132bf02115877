"""What is held for a motor: a look's answer."""

from __future__ import annotations

from collections.abc import Callable
from dataclasses import dataclass

from .commands import COMMANDS
from .values import Value, Word, decimal, digits, plain_word

STATUS_FLAGS = ("undervoltage", "overcurrent", "overtemperature", "magnetic_encoder_fault", "stall", "uncalibrated")
FAULT_FLAGS = (
    "overtemperature", "driver_fault", "undervoltage", "overvoltage", "phase_b_overcurrent", "phase_c_overcurrent",
    "encoder_uncalibrated", "hardware_id_fault", "position_init_fault", "stall_overload", "phase_a_overcurrent",
)  # fmt: skip
WARNING_FLAGS = ("overtemperature_warning",)


@dataclass(frozen=True)
class PingReply:
    device: int
    responder: int
    payload: bytes

    @property
    def text(self) -> str:
        return f"{self.device:02X} {self.responder:02X} {self.payload.hex().upper()}"

    @staticmethod
    def parse(words: list[str]) -> PingReply:
        device, responder, payload = words
        return PingReply(digits(device, 2), digits(responder, 2), digits(payload, 16).to_bytes(8, "big"))


@dataclass(frozen=True)
class VersionReply:
    """A firmware's version: its four bytes in order."""

    device: int
    version: bytes

    @property
    def text(self) -> str:
        return f"{self.device:02X} {self.version.hex().upper()}"

    @staticmethod
    def parse(words: list[str]) -> VersionReply:
        device, version = words
        return VersionReply(digits(device, 2), digits(version, 8).to_bytes(4, "big"))


def flags_of(text: str, names: tuple[str, ...]) -> tuple[str, ...]:
    """Flags' names in rising bit order, or - for none."""
    flags = () if text == "-" else tuple(text.split(","))
    if flags != tuple(name for name in names if name in flags):
        raise ValueError(f"{text!r} isn't a list of flags")
    return flags


def flags_text(flags: tuple[str, ...]) -> str:
    return ",".join(flags) or "-"


@dataclass(frozen=True)
class Feedback:
    """The last status: the frame's id, the device, its state, four floats and the flags that are set."""

    id: int
    device: int
    mode_state: int
    pos: Word
    vel: Word
    torque: Word
    temp: Word
    flags: tuple[str, ...]

    @property
    def text(self) -> str:
        floats = f"{self.pos:08X} {self.vel:08X} {self.torque:08X} {self.temp:08X}"
        return f"{self.id:08X} {self.device:02X} {self.mode_state} {floats} {flags_text(self.flags)}"

    @staticmethod
    def parse(words: list[str]) -> Feedback:
        id, device, state, *floats, flags = words
        pos, vel, torque, temp = (Word(digits(text, 8)) for text in floats)
        named = flags_of(flags, STATUS_FLAGS)
        return Feedback(digits(id, 8), digits(device, 2), decimal(state, 9), pos, vel, torque, temp, named)


@dataclass(frozen=True)
class Fault:
    """The fault report: its raw words and the flags that are set."""

    fault_raw: int
    warning_raw: int
    faults: tuple[str, ...]
    warnings: tuple[str, ...]

    @property
    def text(self) -> str:
        return f"{self.fault_raw:08X} {self.warning_raw:08X} {flags_text(self.faults)} {flags_text(self.warnings)}"

    @staticmethod
    def parse(words: list[str]) -> Fault:
        fault, warning, faults, warnings = words
        return Fault(digits(fault, 8), digits(warning, 8), flags_of(faults, FAULT_FLAGS), flags_of(warnings, WARNING_FLAGS))


@dataclass(frozen=True)
class Running:
    """The running operation's name and its next due time."""

    command: str
    due: int

    @property
    def text(self) -> str:
        return f"{self.command} due {self.due}"

    @staticmethod
    def parse(words: list[str]) -> Running:
        command, due, time = words
        if command not in COMMANDS or due != "due":
            raise ValueError("it isn't a running operation")
        return Running(command, decimal(time))


@dataclass(frozen=True)
class Reading:
    """What is held for a parameter."""

    value: Value

    @property
    def text(self) -> str:
        return self.value.text

    @staticmethod
    def parse(words: list[str]) -> Reading:
        kind, bits = words
        return Reading(Value.parse(kind, bits))


@dataclass(frozen=True)
class Held:
    """All that is held for a motor. The version is the answer that the running get_version has so far."""

    id: int
    host: int
    model: str
    wait: int
    clock: int
    responses: int
    sequence: int
    feedback: Feedback | None
    fault: Fault | None
    ping: PingReply | None
    version: VersionReply | None
    kp: Word
    kd: Word
    running: Running | None
    readings: dict[int, Reading]

    def lines(self) -> list[str]:
        first = f"motor {self.id:02X} {self.host:02X} {self.model} {self.wait}"
        counts = [f"clock {self.clock}", f"responses {self.responses}", f"sequence {self.sequence}"]
        parts = {"feedback": self.feedback, "fault": self.fault, "ping": self.ping, "version": self.version}
        held = [f"{name} {part.text if part else 'none'}" for name, part in parts.items()]
        rest = [f"gains {self.kp:08X} {self.kd:08X}", f"running {self.running.text if self.running else 'none'}"]
        readings = [f"reading {id:04X} {reading.text}" for id, reading in self.readings.items()]
        return [first, *counts, *held, *rest, *readings, "end"]


def held_of(first: str, after: Callable[[str], list[str]], line: Callable[[], str]) -> Held:
    """A look's answer from its first line on. `after` gives the next line's words after its name."""
    name, id, host, model, wait = first.split(" ")
    (clock,), (responses,), (sequence,) = after("clock"), after("responses"), after("sequence")
    feedback, fault, ping, version = after("feedback"), after("fault"), after("ping"), after("version")
    (kp, kd), running = after("gains"), after("running")
    none = ["none"]
    readings: dict[int, Reading] = {}
    while (text := line()) != "end":
        name, parameter, *words = text.split(" ")
        if name != "reading" or digits(parameter, 4) <= max(readings, default=-1):
            raise ValueError("readings stand in rising id")
        readings[digits(parameter, 4)] = Reading.parse(words)
    return Held(
        digits(id, 2), digits(host, 2), plain_word("a model", model), decimal(wait), decimal(clock), decimal(responses),
        decimal(sequence), None if feedback == none else Feedback.parse(feedback), None if fault == none else Fault.parse(fault),
        None if ping == none else PingReply.parse(ping), None if version == none else VersionReply.parse(version),
        Word(digits(kp, 8)), Word(digits(kd, 8)), None if running == none else Running.parse(running), readings,
    )  # fmt: skip
