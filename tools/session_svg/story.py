"""The story of a session: a panel from each fresh to the next, in it a lane for each motor with all that happened."""

from __future__ import annotations

from collections.abc import Iterator
from dataclasses import dataclass, field

from combradish import (
    ENDING, Answer, AnyFrame, Error, Finished, Fresh, Heard, Held, Look, Ok, Reason, Refusal, Refused, Register, Remove, Sent,
    Start, Step, Value, parse_event, read_answer,
)  # fmt: skip
from combradish.events import Event

from .labels import (
    ACCEPTED, READ, command_label, extra_low, frame_type, heard_label, parameter_of, reading_text, refusal_label,
    result_label, sent_label, value_of,
)  # fmt: skip


@dataclass
class Tick:
    """A frame at a time, with its label and its whole line."""

    time: int
    label: str
    line: str


@dataclass
class Bar:
    """An operation: how is running, finished or failed."""

    start: int
    name: str
    label: str
    line: str
    end: int | None = None
    how: str = "running"


@dataclass
class Mark:
    """A refusal's number or an error's E."""

    time: int
    text: str
    about: str


@dataclass
class Span:
    """A reading and how long it was held."""

    parameter: int
    held: Value
    start: int
    end: int | None = None

    @property
    def label(self) -> str:
        return reading_text(self.parameter, self.held)


@dataclass
class Lane:
    """A motor's part of a panel; id 0 is for what no motor took."""

    id: int
    model: str = ""
    host: int = 0
    heard: list[Tick] = field(default_factory=list)
    sent: list[Tick] = field(default_factory=list)
    bars: list[Bar] = field(default_factory=list)
    marks: list[Mark] = field(default_factory=list)
    spans: list[Span] = field(default_factory=list)
    looks: list[int] = field(default_factory=list)
    life: list[tuple[int, int | None]] = field(default_factory=list)
    now: dict[int, Span] = field(default_factory=dict)
    astray: int = 0  # looks that showed other readings than the frames told

    def hold(self, parameter: int, held: Value, time: int) -> None:
        """A reading as of now; the same again goes on."""
        if parameter in self.now and self.now[parameter].held == held:
            return
        self.drop(parameter, time)
        self.now[parameter] = Span(parameter, held, time)
        self.spans.append(self.now[parameter])

    def drop(self, parameter: int, time: int) -> None:
        if parameter in self.now:
            self.now.pop(parameter).end = time

    def running(self) -> Bar | None:
        return self.bars[-1] if self.bars and self.bars[-1].how == "running" else None


@dataclass
class Panel:
    """What happened from one fresh to the next."""

    title: str = ""
    lanes: dict[int, Lane] = field(default_factory=dict)
    notes: list[Tick] = field(default_factory=list)
    times: list[int] = field(default_factory=list)

    def lane(self, id: int) -> Lane:
        """The lane of a motor that was registered, else the lane of what no motor took."""
        return self.lanes[id] if id in self.lanes else self.lanes.setdefault(0, Lane(0))


def exchanges(session: str, answers: str) -> Iterator[tuple[str, Event | None, Answer | None]]:
    """Each line of a session with its event and its answer. Answers that end early end the picture too. A last line without LF
    was answered, and not run: it is no event."""
    lines = iter(answers.removesuffix("\n").split("\n") if answers else [])
    *whole, torn = session.split("\n")
    for line in whole:
        line = line.removesuffix("\r")
        try:
            answer = read_answer(line, lambda: next(lines))
        except StopIteration:
            return
        try:
            event = parse_event(line)
        except ValueError:
            event = None
        yield line, event, answer
    said = next(lines, "") if torn else ""
    if said.startswith("error "):
        yield torn, None, Error(said[6:])


class Story:
    """Goes through a session and fills its panels."""

    def __init__(self, session: str, answers: str) -> None:
        self.title = ""
        self.panel = Panel()
        self.panels: list[Panel] = []
        self.comments: list[str] = []
        for line, event, answer in exchanges(session, answers):
            if answer is None:
                self.comment(line)
            else:
                self.take(line, event, answer)
        self.end_panel()

    def comment(self, line: str) -> None:
        text = line.lstrip("# ").rstrip()
        if text and not self.title:
            self.title = text
        elif text:
            self.comments.append(text)

    def end_panel(self) -> None:
        if self.panel.lanes:
            self.panels.append(self.panel)

    def take(self, line: str, event: Event | None, answer: Answer) -> None:
        if isinstance(event, Fresh):
            self.end_panel()
            self.panel = Panel(title=" ".join(self.comments))
            self.comments = []
            return
        own = getattr(event, "time", event.frame.time if isinstance(event, Heard) else None)
        late = isinstance(answer, Refused) and answer.refusal.number == Reason.TIME_OUT_OF_ORDER
        last = self.panel.times[-1] if self.panel.times else 0
        time = last if own is None or late else own
        if own is not None and not late:
            self.panel.times.append(time)
        if not isinstance(answer, Held):
            for text in self.comments:
                self.panel.notes.append(Tick(time, text, text))
            self.comments = []
        self.event(line, event, answer, time)

    def event(self, line: str, event: Event | None, answer: Answer, time: int) -> None:
        match event:
            case Register():
                self.register(event, answer)
            case Start() | Step():
                self.operate(line, event, answer, time)
            case Heard():
                self.hear(line, event.frame.id, event.frame.data, event.frame.extended, answer, time)
            case AnyFrame():
                self.hear(line, event.id, event.data, event.extended, answer, time)
            case Look() if isinstance(answer, Held):
                self.look(answer)
            case Remove() if isinstance(answer, Ok):
                lane = self.panel.lane(event.id)
                lane.life[-1] = (lane.life[-1][0], time)
                for parameter in list(lane.now):
                    lane.drop(parameter, time)
        if isinstance(answer, Refused) and not isinstance(event, Heard | AnyFrame):
            self.mark(self.panel.lane(event.id if event else 0), time, line, answer.refusal)
        if isinstance(answer, Error):
            self.panel.lane(0).marks.append(Mark(time, "E", f"{line}: error {answer.text}"))

    def mark(self, lane: Lane, time: int, line: str, refusal: Refusal) -> None:
        lane.marks.append(Mark(time, str(int(refusal.number)), f"{line}: {refusal_label(refusal)}"))

    def register(self, event: Register, answer: Answer) -> None:
        if isinstance(answer, Ok):
            lane = self.panel.lanes.setdefault(event.id, Lane(event.id))
            lane.model, lane.host = event.model, event.host
            lane.life.append((event.time, None))

    def operate(self, line: str, event: Start | Step, answer: Answer, time: int) -> None:
        lane = self.panel.lane(event.id)
        if isinstance(event, Start) and not isinstance(answer, Refused):
            lane.bars.append(Bar(time, event.command.name, command_label(event.command), line))
        bar = lane.running()
        frame = answer.frame if isinstance(answer, Sent | Finished) else None
        if frame:
            lane.sent.append(Tick(time, sent_label(frame.id, frame.data, lane.host), frame.line))
            if frame_type(frame.id) == READ:
                lane.drop(parameter_of(frame.data), time)
        if bar and isinstance(answer, Finished):
            bar.end, bar.how = time, "finished"
            result = result_label(answer)
            bar.label += f" \u2192 {result}" if result else ""
        if bar and isinstance(event, Step) and isinstance(answer, Refused) and answer.refusal.number in ENDING:
            bar.end, bar.how = time, "failed"
            bar.label += f" \u2717 {refusal_label(answer.refusal)}"

    def hear(self, line: str, id: int, data: bytes, extended: bool, answer: Answer, time: int) -> None:
        number = int(answer.refusal.number) if isinstance(answer, Refused) else 0
        motor = extra_low(id) if extended and frame_type(id) in ACCEPTED else 0
        lane = self.panel.lane(0 if number == Reason.FRAME_NOT_ACCEPTED else motor)
        bar = lane.running()
        label = heard_label(id, data, extended, bar is not None and bar.name == "get_version")
        if lane.id == 0 and motor:
            label += f" of {motor}"
        if number != Reason.TIME_OUT_OF_ORDER:
            lane.heard.append(Tick(time, label, line))
        if isinstance(answer, Refused):
            self.mark(lane, time, line, answer.refusal)
        elif isinstance(answer, Ok) and frame_type(id) == READ:
            lane.hold(parameter_of(data), value_of(data), time)

    def look(self, held: Held) -> None:
        lane = self.panel.lane(held.id)
        lane.looks.append(held.clock)
        shown = {parameter: reading.value for parameter, reading in held.readings.items()}
        if shown != {parameter: span.held for parameter, span in lane.now.items()}:
            lane.astray += 1
        for parameter in [known for known in lane.now if known not in shown]:
            lane.drop(parameter, held.clock)
        for parameter, value in shown.items():
            lane.hold(parameter, value, held.clock)
