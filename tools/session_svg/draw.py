"""Draws a story as SVG."""

from __future__ import annotations

from collections import Counter

from combradish import Reason

from . import marks as m
from .labels import ANGLE, number_text
from .layout import Rows, Scale, clipped, text_width
from .story import Bar, Lane, Mark, Panel, Span, Story, Tick

LABEL, ROW, BAR, STRIP = 120.0, 17.0, 24.0, 22.0
MOST_ROWS, MOST_MARKS, MOST_STRIPS, MOST_NOTES = 5, 4, 5, 4
Placed = list[tuple[Tick, tuple[int, float] | None]]  # ticks with their labels' rows and places


class Picture:
    """The picture of a story, line by line from the top."""

    def __init__(self, story: Story, width: int = 1600) -> None:
        self.width = float(width)
        self.y = 0.0
        self.parts: list[str] = []
        self.numbers: set[int] = set()
        self.heading(story)
        for panel in story.panels:
            self.panel(panel)
        self.reasons()

    def svg(self) -> str:
        """The whole file."""
        size = f'width="{self.width:.0f}" height="{self.y:.0f}" viewBox="0 0 {self.width:.0f} {self.y:.0f}"'
        font = 'font-family="DejaVu Sans, Verdana, Arial, sans-serif"'
        head = f'<?xml version="1.0" encoding="UTF-8"?>\n<svg xmlns="http://www.w3.org/2000/svg" {size} {font}>\n'
        return head + m.DEFS + '\n<rect width="100%" height="100%" fill="#ffffff"/>\n' + "\n".join(self.parts) + "\n</svg>\n"

    def add(self, part: str) -> None:
        self.parts.append(part)

    def heading(self, story: Story) -> None:
        title = clipped(story.title or "A session", self.width - 40, 18)
        self.add(f"<title>{m.clean(title)}</title>")
        self.add(m.text(20, 34, title, size=18, font_weight="bold"))
        self.add(m.legend(64))
        self.y = 82.0

    def reasons(self) -> None:
        """The refusals that came up, in words."""
        x = 20.0
        for number in sorted(self.numbers):
            said = Reason(number).text
            if x + 40 + text_width(said) > self.width:
                x, self.y = 20.0, self.y + 24
            self.add(m.badge(x, self.y, str(number), ""))
            self.add(m.text(x + 32, self.y + 13, said))
            x += 52 + text_width(said)
        self.y += 40 if self.numbers else 4

    # ---- a panel: notes, axis, lanes

    def panel(self, panel: Panel) -> None:
        lanes = sorted(panel.lanes.values(), key=lambda lane: (lane.id == 0, lane.id))
        clocks = [time for lane in lanes for time in lane.looks]
        scale = Scale(panel.times + clocks, LABEL + 16, self.width - 230)
        if panel.title:
            self.y += 10
            self.add(m.text(20, self.y + 16, clipped(panel.title, self.width - 40, 14), size=14, font_weight="bold"))
            self.y += 24
        self.notes(panel, scale)
        top, self.y = self.y, self.y + 24
        grid = len(self.parts)
        for i, lane in enumerate(lanes):
            self.lane(lane, scale, m.LANES[i % 2])
        self.axis(scale, top, grid)
        self.y += 18

    def notes(self, panel: Panel, scale: Scale) -> None:
        """Comments, each at the time of the event that follows it."""
        rows = Rows(MOST_NOTES, self.width - 10)
        for note in panel.notes:
            said = clipped(note.label, self.width * 0.6)
            if place := rows.place(scale.x(note.time), text_width(said) + 14):
                y = self.y + 14 + place[0] * ROW
                self.add(m.text(place[1], y, "\u25be " + said, m.FAINT, font_style="italic"))
        self.y += rows.height(ROW)

    def axis(self, scale: Scale, top: float, grid: int) -> None:
        """Round times above, and their lines behind the lanes' contents."""
        lines = []
        for x, said in scale.ticks():
            lines.append(m.line(x, top + 20, x, self.y, m.GRID))
            self.add(m.text(x, top + 15, said, m.FAINT, text_anchor="middle"))
        for x, gap in scale.breaks():
            lines.append(m.box(x - 5, top + 20, 10, self.y - top - 20, "#e4e4e4", about=f"{gap:,} ms in which nothing happened"))
            if all(abs(x - at) > text_width(said) / 2 + 12 for at, said in scale.ticks()):
                self.add(m.text(x, top + 16, "\u2248", m.FAINT, 14, text_anchor="middle"))
        self.add(m.text(LABEL - 8, top + 15, "ms", m.FAINT, text_anchor="end"))
        backs = [part for part in self.parts[grid:] if part.startswith('<rect class="lane"')]
        rest = [part for part in self.parts[grid:] if not part.startswith('<rect class="lane"')]
        self.parts[grid:] = backs + lines + rest

    # ---- a lane: heard, refusals, the operations' bars, sent, held

    def lane(self, lane: Lane, scale: Scale, back: str) -> None:
        start, right = self.y, self.width - 8
        heard, above, sent = Rows(MOST_ROWS, right), Rows(MOST_MARKS, right), Rows(MOST_ROWS, right)
        ups = self.placed(lane.heard, scale, heard)
        marks = self.placed_marks(lane, scale, above)
        downs = self.placed(lane.sent, scale, sent)
        bar = start + 8 + heard.height(ROW) + above.height(20) + 12
        self.life(lane, scale, bar + BAR / 2)
        base = bar - 12 - above.height(20)
        self.leaders(ups, downs, scale, bar, base)
        for tick, place in ups:
            self.heard(tick, scale.x(tick.time), bar, base, place)
        for tick, place in downs:
            self.sent(tick, scale.x(tick.time), bar + BAR, place)
        self.bars(lane, scale, bar)
        for item, row, x in marks:
            self.mark(item, x, bar - 6 - (row + 1) * 20)
        self.y = bar + BAR + 12 + sent.height(ROW) + 4
        self.strips(lane, scale)
        self.y = max(self.y + 8, start + 58)
        self.names(lane, start, heard.left_out + above.left_out + sent.left_out)
        self.add(m.box(0, start, self.width, self.y - start, back, name="lane", about=self.lane_name(lane)))

    def lane_name(self, lane: Lane) -> str:
        return f"motor {lane.id}" if lane.id else "no motor"

    def names(self, lane: Lane, start: float, left_out: int) -> None:
        self.add(m.text(14, start + 24, self.lane_name(lane), size=16, font_weight="bold"))
        more = [lane.model, f"host {lane.host:02X}"] if lane.id else ["not taken"]
        more += [f"{left_out} labels", "left out"] if left_out else []
        for i, said in enumerate(more):
            self.add(m.text(14, start + 42 + i * 16, clipped(said, LABEL - 16), m.FAINT))

    def placed(self, ticks: list[Tick], scale: Scale, rows: Rows) -> Placed:
        ticks = sorted(ticks, key=lambda tick: tick.time)
        widths = [text_width(tick.label, 12, tick.label.startswith("write")) for tick in ticks]
        return [(tick, rows.place(scale.x(tick.time) + 3, width)) for tick, width in zip(ticks, widths)]

    def placed_marks(self, lane: Lane, scale: Scale, rows: Rows) -> list[tuple[Mark | Bar, int, float]]:
        """Refusals, and the labels of bars that are too narrow for theirs."""
        narrow = [bar for bar in lane.bars if self.inside(bar, scale) is None]
        items: list[tuple[int, Mark | Bar]] = [(bar.start, bar) for bar in narrow] + [(mark.time, mark) for mark in lane.marks]
        found = []
        for time, item in sorted(items, key=lambda pair: pair[0]):
            width, slack = (text_width(item.label), 0) if isinstance(item, Bar) else (8 + 8 * len(item.text), 150)
            if place := rows.place(scale.x(time), width, slack):
                found.append((item, *place))
        return found

    def mark(self, item: Mark | Bar, x: float, y: float) -> None:
        if isinstance(item, Bar):
            self.add(m.text(x, y + 13, item.label, m.BARS[item.how]))
            return
        if item.text.isdigit():
            self.numbers.add(int(item.text))
        self.add(m.badge(x, y, item.text, item.about))

    def ends(self, bar: Bar, scale: Scale) -> tuple[float, float]:
        x = scale.x(bar.start)
        return x, max(scale.at[-1] + 12 if bar.end is None else scale.x(bar.end), x + 5)

    def inside(self, bar: Bar, scale: Scale) -> str | None:
        """The label, or the name alone, where the bar has room for it."""
        x, end = self.ends(bar, scale)
        return next((said for said in (bar.label, bar.name) if text_width(said) + 10 <= end - x), None)

    def life(self, lane: Lane, scale: Scale, y: float) -> None:
        """The lane's line: dotted where the motor isn't registered."""
        self.add(m.line(LABEL, y, self.width - 8, y, "#8c8c8c", 1, "2 4"))
        for start, end in lane.life:
            x = self.width - 8 if end is None else scale.x(end)
            self.add(m.line(scale.x(start), y, x, y, "#737373", 2))
            for at in (scale.x(start), x) if end is not None else (scale.x(start),):
                self.add(m.line(at, y - 8, at, y + 8, "#737373", 2))

    def leaders(self, ups: Placed, downs: Placed, scale: Scale, bar: float, base: float) -> None:
        """The lines from labels to the lane's line, behind all labels and bars."""
        middle = bar + BAR / 2
        for tick, place in ups:
            x, y = scale.x(tick.time), base - place[0] * ROW - 10 if place else bar
            self.add(m.line(x, y, x, middle, m.HEARD))
        for tick, place in downs:
            x, y = scale.x(tick.time), bar + BAR + (20 + place[0] * ROW if place else 0)
            self.add(m.line(x, middle, x, y, m.SENT))

    def bars(self, lane: Lane, scale: Scale, y: float) -> None:
        for bar in lane.bars:
            x, end = self.ends(bar, scale)
            fill = "url(#hatch)" if bar.how == "failed" else m.BARS[bar.how]
            self.add(m.box(x, y, end - x, BAR, fill, "#ffffff", f"{bar.line}: {bar.label}", f"bar {bar.how}"))
            if said := self.inside(bar, scale):
                back = m.box(x + 4, y + 4, text_width(said) + 4, BAR - 8, m.BARS["failed"]) if bar.how == "failed" else ""
                self.add(back + m.text(x + 6, y + 16.5, said, "#ffffff", 12, plain="1"))

    def heard(self, tick: Tick, x: float, bar: float, base: float, place: tuple[int, float] | None) -> None:
        if place:
            self.add(m.text(place[1], base - place[0] * ROW, tick.label, m.HEARD))
        self.add(m.arrow(x, bar, m.HEARD, tick.line, "heard"))

    def sent(self, tick: Tick, x: float, bar: float, place: tuple[int, float] | None) -> None:
        if place:
            bold = {"font_weight": "bold"} if tick.label.startswith("write") else {}
            self.add(m.text(place[1] + 3, bar + 20 + place[0] * ROW, tick.label, m.SENT, **bold))
        self.add(m.arrow(x, bar + 8, m.SENT, tick.line, "sent"))

    def strips(self, lane: Lane, scale: Scale) -> None:
        """A strip for each reading, those that changed most if there are too many."""
        counts = Counter(span.parameter for span in lane.spans)
        chosen = sorted(counts, key=lambda parameter: (parameter != ANGLE, -counts[parameter], parameter))
        left = len(chosen) - MOST_STRIPS
        for parameter in sorted(chosen[:MOST_STRIPS]):
            self.add(m.text(LABEL - 8, self.y + 15, f"{parameter:04X}", m.FAINT, text_anchor="end"))
            for span in lane.spans:
                if span.parameter == parameter:
                    self.strip(span, scale)
            self.y += STRIP
        if left > 0:
            self.add(m.text(LABEL + 16, self.y + 13, f"and {left} more readings", m.FAINT))
            self.y += ROW
        for time in sorted(set(lane.looks)):
            self.add(m.diamond(scale.x(time), self.y + 8, f"looked at, clock {time}"))
        self.y += ROW if lane.looks else 0

    def strip(self, span: Span, scale: Scale) -> None:
        x = scale.x(span.start)
        end = self.width - 8 if span.end is None else max(scale.x(span.end), x + 3)
        fill = m.ANGLE_FILL if span.parameter == ANGLE else m.HELD_FILL
        self.add(m.box(x, self.y + 1, end - x, STRIP - 3, fill, m.HELD_EDGE, f"{span.label} ({span.held.text})", "held"))
        choices = (span.label, span.label.split(" ", 1)[1], number_text(span.held.number))
        said = next((said for said in choices if text_width(said, 13, True) + 10 <= end - x), None)
        if said:
            self.add(m.text(x + 8, self.y + 15, said, m.INK, 13, font_weight="bold", plain="1"))
