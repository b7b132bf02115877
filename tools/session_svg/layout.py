"""Where things go: times along the picture's width, labels in rows that don't overlap."""

from __future__ import annotations

from bisect import bisect_right

BREAK = 70.0  # width of a long gap, in pixels
GAPS = 5  # a gap may be cut where it is longer than this many usual ones and a quarter of all that is left


def text_width(text: str, size: int = 12, bold: bool = False) -> float:
    """About the width of a text, rather too much than too little."""
    return len(text) * size * (0.69 if bold else 0.6)


def clipped(text: str, width: float, size: int = 12) -> str:
    """The text, cut where it is wider."""
    most = max(1, int(width / (size * 0.6)))
    return text if len(text) <= most else text[: most - 1].rstrip() + "\u2026"


class Scale:
    """Times to pixels: linear, with long gaps in which nothing happens cut to a short break."""

    def __init__(self, times: list[int], left: float, right: float) -> None:
        self.times = sorted(set(times)) or [0]
        gaps = [b - a for a, b in zip(self.times, self.times[1:])]
        self.cut = cuts(gaps)
        breaks = min(BREAK, (right - left) / (2 * sum(self.cut) + 1))
        plain = sum(gap for gap, cut in zip(gaps, self.cut) if not cut)
        self.per_ms = (right - left - breaks * sum(self.cut)) / plain if plain else 1.0
        self.at = [left]
        for gap, cut in zip(gaps, self.cut):
            self.at.append(self.at[-1] + (breaks if cut else gap * self.per_ms))

    def x(self, time: int) -> float:
        """A time's place; before the first and after the last it is theirs."""
        i = bisect_right(self.times, time) - 1
        if i < 0:
            return self.at[0]
        if i == len(self.at) - 1:
            return self.at[-1]
        part = (time - self.times[i]) / (self.times[i + 1] - self.times[i])
        return self.at[i] + part * (self.at[i + 1] - self.at[i])

    def breaks(self) -> list[tuple[float, int]]:
        """The middle of each break and the milliseconds that it stands for."""
        ends = zip(self.times, self.times[1:], self.at, self.at[1:], self.cut)
        return [((x + y) / 2, b - a) for a, b, x, y, cut in ends if cut]

    def ticks(self) -> list[tuple[float, str]]:
        """Round times with room for their labels, in each stretch without a break; its first time where none is round."""
        room = text_width(f"{self.times[-1]:,}") + 30
        step = round_step(room / self.per_ms)
        found: list[tuple[float, str]] = []
        first = 0
        for i in range(len(self.times)):
            if i < len(self.cut) and not self.cut[i]:
                continue
            a, b = self.times[first], self.times[i]
            marks = list(range(-(-a // step) * step, b + 1, step)) or [a]
            found += [(self.x(t), f"{t:,}") for t in marks if not found or self.x(t) - found[-1][0] >= room]
            first = i + 1
        return found


def cuts(gaps: list[int]) -> list[bool]:
    """Which gaps are cut: the longest first, while it takes up much of what is left."""
    usual = max(1, sorted(gaps)[len(gaps) * 3 // 4]) if gaps else 1
    cut, left = [False] * len(gaps), sum(gaps)
    for i in sorted(range(len(gaps)), key=lambda i: -gaps[i]):
        if gaps[i] <= GAPS * usual or gaps[i] * 4 <= left:
            break
        cut[i] = True
        left -= gaps[i]
    return cut


def round_step(least: float) -> int:
    """The least of 1, 2, 5, 10, 20, .. that isn't below."""
    power = 1
    while True:
        for digit in (1, 2, 5):
            if digit * power >= least:
                return digit * power
        power *= 10


class Rows:
    """Rows of labels, filled greedily from the first; what finds no room is counted."""

    def __init__(self, most: int, right: float) -> None:
        self.most = most
        self.right = right
        self.ends: list[float] = []
        self.used = 0
        self.left_out = 0

    def place(self, x: float, width: float, slack: float = 0) -> tuple[int, float] | None:
        """A row and the place in it, moved left where the picture ends, and right by slack where no row has room."""
        x = min(x, self.right - width)
        if len(self.ends) < self.most:
            self.ends.append(-1.0)
        for allowed in (0.0, slack):
            for row, end in enumerate(self.ends):
                if end <= x + allowed and max(end, x) + width <= self.right:
                    x = max(end, x)
                    self.ends[row] = x + width + 6
                    self.used = max(self.used, row + 1)
                    return row, x
        self.left_out += 1
        return None

    def height(self, each: float) -> float:
        return self.used * each
