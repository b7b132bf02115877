"""A client of replay, the motor station: types for its events and answers, and a station behind two pipes.

    from combradish import Command, Frame, Station

    with Station("crates/replay/out/replay", recording="today.session", answers="today.answers") as station:
        station.register(2, 0xFD, "rs-00", 0, 1000)
        answer = station.start(2, 1100, Command.controlled_stop(200))
"""

from .answers import Answer, Error, Finished, Ok, ProtocolFlag, Refused, Result, Sent, Unexpected, Waiting, read_answer
from .commands import COMMANDS, Command
from .events import EVENTS, AnyFrame, Event, Fresh, Heard, Look, Register, Remove, Start, Step, parse_event
from .held import Fault, Feedback, Held, PingReply, Reading, Running, VersionReply
from .parameters import PARAMETERS, kind_of
from .refusals import ENDING, Reason, Refusal
from .station import Died, Station, TimedOut, program_of
from .values import Frame, Kind, Mode, Value, Word, value, word

__all__ = [
    "Answer", "AnyFrame", "COMMANDS", "Command", "Died", "ENDING", "EVENTS", "Error", "Event", "Fault", "Feedback", "Finished",
    "Frame", "Fresh", "Heard", "Held", "Kind", "Look", "Mode", "Ok", "PARAMETERS", "PingReply", "ProtocolFlag", "Reading", "Reason",
    "Refusal", "Refused", "Register", "Remove", "Result", "Running", "Sent", "Start", "Station", "Step", "TimedOut", "Unexpected",
    "Value", "VersionReply", "Waiting", "Word",
    "kind_of", "parse_event", "program_of", "read_answer", "value", "word",
]  # fmt: skip
