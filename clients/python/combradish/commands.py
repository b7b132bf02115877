"""The operations. Each checks its arguments and prints its words; `parse` reads them back."""

from __future__ import annotations

from collections.abc import Callable, Sequence
from dataclasses import dataclass
from functools import wraps
from inspect import signature
from typing import ParamSpec

from .shapes import Argument, checked, printed, read
from .values import Mode, Value

Arguments = tuple[Argument, ...]
P = ParamSpec("P")

# The table of commands: a name, and the shape of its arguments. The constructors of Command are its rows, in their order.
COMMANDS: dict[str, str] = {}


def row(shape: str) -> Callable[[Callable[P, Arguments]], staticmethod[P, Command]]:
    """A row of the table and the constructor of its command, from a function that gives the arguments in order."""

    def made(arguments: Callable[P, Arguments]) -> staticmethod[P, Command]:
        name = arguments.__name__
        COMMANDS[name] = shape

        @wraps(arguments)
        def command(*args: P.args, **kwargs: P.kwargs) -> Command:
            return Command(name, arguments(*args, **kwargs))

        setattr(command, "__signature__", signature(arguments).replace(return_annotation="Command"))
        return staticmethod(command)

    return made


def shape_of(name: str) -> str:
    if name not in COMMANDS:
        raise ValueError(f"{name!r} isn't a command")
    return COMMANDS[name]


@dataclass(frozen=True)
class Command:
    """An operation: the Rust method's name, or get_version, and its arguments. Made by the constructors below, which are the rows of COMMANDS."""

    name: str
    arguments: Arguments = ()

    def __post_init__(self) -> None:
        object.__setattr__(self, "arguments", checked(shape_of(self.name), self.arguments))

    @property
    def text(self) -> str:
        return " ".join([self.name, *printed(COMMANDS[self.name], self.arguments)])

    @staticmethod
    def parse(words: Sequence[str]) -> Command:
        """The command that the words of a start are."""
        name, *arguments = words
        return Command(name, read(shape_of(name), arguments))

    @row("T")
    def ping(timeout: int) -> Arguments:
        return (timeout,)

    @row("IT")
    def ping_with_host_id(host: int, timeout: int) -> Arguments:
        return host, timeout

    @row("C")
    def set_mode(mode: Mode) -> Arguments:
        return (mode,)

    @row("CT")
    def ensure_control_mode(mode: Mode, timeout: int) -> Arguments:
        return mode, timeout

    @row("")
    def set_zero_position() -> Arguments:
        return ()

    @row("")
    def save_parameters() -> Arguments:
        return ()

    @row("T")
    def get_protocol_flag(timeout: int) -> Arguments:
        return (timeout,)

    @row("PT")
    def set_protocol(protocol: int, timeout: int) -> Arguments:
        return protocol, timeout

    @row("B")
    def set_device_id(new_id: int) -> Arguments:
        return (new_id,)

    @row("")
    def enable() -> Arguments:
        return ()

    @row("")
    def disable() -> Arguments:
        return ()

    @row("")
    def clear_error() -> Arguments:
        return ()

    @row("F")
    def set_active_report(on: bool) -> Arguments:
        return (on,)

    @row("WWWWW")
    def send_cmd_mit(pos: float, vel: float, kp: float, kd: float, torque: float) -> Arguments:
        return pos, vel, kp, kd, torque

    @row("W")
    def set_velocity_target(vel: float) -> Arguments:
        return (vel,)

    @row("T")
    def get_control_mode(timeout: int) -> Arguments:
        return (timeout,)

    @row("T")
    def controlled_stop(timeout: int) -> Arguments:
        return (timeout,)

    @row("HKW")
    def write_parameter(parameter: int, value: Value) -> Arguments:
        return parameter, value

    @row("WW")
    def send_cmd_pos_vel_csp(pos: float, vlim: float) -> Arguments:
        return pos, vlim

    @row("WWW")
    def send_cmd_pos_vel_pp(pos: float, vmax: float, acc: float) -> Arguments:
        return pos, vmax, acc

    @row("H")
    def request_parameter(parameter: int) -> Arguments:
        return (parameter,)

    @row("HT")
    def get_parameter(parameter: int, timeout: int) -> Arguments:
        return parameter, timeout

    @row("HIT")
    def get_parameter_with_host_id(parameter: int, host: int, timeout: int) -> Arguments:
        return parameter, host, timeout

    @row("HT")
    def get_parameter_f32(parameter: int, timeout: int) -> Arguments:
        return parameter, timeout

    @row("HT")
    def get_parameter_i8(parameter: int, timeout: int) -> Arguments:
        return parameter, timeout

    @row("")
    def get_version() -> Arguments:
        return ()
