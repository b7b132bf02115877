"""Short labels for frames, commands, readings and answers."""

from __future__ import annotations

from combradish import PARAMETERS, Command, Finished, Kind, Mode, Refusal, Value, VersionReply, Word, kind_of, value
from combradish.answers import result_text
from combradish.held import STATUS_FLAGS

ACCEPTED = (0, 2, 17, 21, 24, 25)
READ, WRITE = 17, 18
VERSION_REQUEST = bytes((0, 0xC4, 0, 0, 0, 0, 0, 0))
VERSION_REPLY = bytes((0x00, 0xC4, 0x56))
ANGLE = 0x7019
UNITS = {0x7016: "rad", ANGLE: "rad", 0x700A: "rad/s", 0x7017: "rad/s", 0x701B: "rad/s", 0x7024: "rad/s", 0x701C: "V"}


def number_text(number: int | float) -> str:
    """A number in few digits."""
    return f"{number:.6g}" if isinstance(number, float) else str(number)


def frame_type(id: int) -> int:
    return id >> 24 & 0x1F


def extra_low(id: int) -> int:
    """The low byte of the extra field: of a frame heard the motor it is from, of one sent the host."""
    return id >> 8 & 0xFF


def parameter_of(data: bytes) -> int:
    return int.from_bytes(data[:2].ljust(2, b"\0"), "little")


def value_of(data: bytes) -> Value:
    """The value of a read reply or a write, by its parameter's kind."""
    kind = kind_of(parameter_of(data))
    raw = data.ljust(8, b"\0")[4 : 4 + kind.width // 2]
    return Value(kind, int.from_bytes(raw, "little"))


def reading_text(parameter: int, held: Value) -> str:
    """7019 mechPos = 0.75; of run_mode the mode's name too."""
    name = PARAMETERS[parameter][0] if parameter in PARAMETERS else "unlisted"
    modes = {0: "mit", 1: "pp", 2: "velocity", 5: "csp"}
    said = f"({modes[held.bits]})" if parameter == 0x7005 and held.bits in modes else UNITS.get(parameter, "")
    return f"{parameter:04X} {name} = {number_text(held.number)} {said}".rstrip()


def sent_label(id: int, data: bytes, host: int) -> str:
    """What a frame that was sent asks for; the host where it isn't the motor's own."""
    kind = frame_type(id)
    fixed = {0: "ping", 1: "motion", 3: "enable", 6: "set zero", 22: "save"}
    if kind in fixed:
        text = fixed[kind]
    elif kind == 4 and data == VERSION_REQUEST:
        text = "version?"
    elif kind == 4:
        text = "clear error" if data[0] == 1 else "disable"
    elif kind == 7:
        text = f"new id {id >> 16 & 0xFF}"
    elif kind == READ:
        text = f"read {parameter_of(data):04X}"
    elif kind == WRITE:
        text = f"write {parameter_of(data):04X} = {number_text(value_of(data).number)}"
    elif kind == 24:
        text = f"report {'on' if data[6] else 'off'}"
    else:
        text = f"protocol {data[6]}" if kind == 25 else f"type {kind}"
    used = extra_low(id)
    return text if kind == 1 or used == host else f"{text} (host {used:02X})"


def heard_label(id: int, data: bytes, extended: bool = True, asked: bool = False) -> str:
    """What a frame that was heard says. A version reply is one where a version was asked for, else it is taken for a status."""
    kind = frame_type(id)
    if not extended:
        return f"standard {id:03X}"
    if kind == READ:
        status = id >> 16 & 0xFF
        said = number_text(value_of(data).number)
        return f"{parameter_of(data):04X} = {said}" if status == 0 else f"{parameter_of(data):04X} status {status:02X}"
    if kind == 2 and data.startswith(VERSION_REPLY):
        version = version_text(data.ljust(7, b"\0")[3:7])
        return version if asked else f"status ({version})"
    if kind in (2, 24):
        flags = [name for bit, name in enumerate(STATUS_FLAGS) if id >> 16 + bit & 1]
        return ", ".join([{2: "status", 24: "report"}[kind], *flags])
    return {0: "ping reply", 21: "fault report", 25: "protocol reply"}.get(kind, f"type {kind}")


def version_text(version: bytes) -> str:
    """version 0.3.1.7"""
    return "version " + ".".join(str(byte) for byte in version)


def command_label(command: Command) -> str:
    """The command's name and its arguments in words."""
    words = [command.name]
    for argument in command.arguments:
        if isinstance(argument, Mode):
            words.append(argument.value)
        elif isinstance(argument, Value):
            words.append(f"= {number_text(argument.number)}")
        elif isinstance(argument, Word):
            words.append(number_text(value(argument)))
        elif command.name in WITH_PARAMETER and len(words) == 1:
            words.append(f"{int(argument):04X}")
        else:
            words.append(str(int(argument)))
    return " ".join(words)


WITH_PARAMETER = (
    "write_parameter", "request_parameter", "get_parameter", "get_parameter_with_host_id", "get_parameter_f32",
    "get_parameter_i8",
)  # fmt: skip


def result_label(answer: Finished) -> str:
    """The result in words, empty where there is none."""
    if answer.result is None:
        return ""
    if isinstance(answer.result, Word):
        return number_text(value(answer.result))
    if isinstance(answer.result, Value):
        suffix = "" if answer.result.kind is Kind.F32 else f" ({answer.result.kind.value})"
        return number_text(answer.result.number) + suffix
    if isinstance(answer.result, VersionReply):
        return version_text(answer.result.version)
    return result_text(answer.result)


def refusal_label(refusal: Refusal) -> str:
    """16 last window gone"""
    return f"{int(refusal.number)} {refusal.number.text}"
