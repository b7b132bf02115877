"""Tries wrong programs on benches, some at a time, and says how each ended."""

from __future__ import annotations

import queue
import threading
from collections.abc import Iterable, Iterator

from .bench import Bench
from .repository import Edit
from .verdict import FACT, PROVED, REFUSED, UNCOMPILED, UNTOLD, Verdict

WIDTH = 160


def tried(benches: list[Bench], edits: Iterable[Edit]) -> Iterator[tuple[Edit, Verdict]]:
    """Each edit with its verdict, as they end; an edit is taken only when a bench is free for it."""
    source, lock = iter(edits), threading.Lock()
    ended: queue.Queue[tuple[Edit, Verdict] | Exception | None] = queue.Queue()

    def work(bench: Bench) -> None:
        try:
            while True:
                with lock:
                    edit = next(source, None)
                if edit is None:
                    break
                ended.put((edit, bench.attempt(edit)))
        except Exception as wrong:
            ended.put(wrong)
        ended.put(None)

    for bench in benches:
        threading.Thread(target=work, args=(bench,), daemon=True).start()
    working = len(benches)
    while working:
        result = ended.get()
        if isinstance(result, Exception):
            raise result
        if result is None:
            working -= 1
        else:
            yield result


def line_of(edit: Edit, verdict: Verdict) -> str:
    """One line: how it ended, seconds where it was looked at by itself, what the error shows, where it stands, and how it begins."""
    words = " ".join(verdict.message.split())
    begins = words if len(words) <= WIDTH else words[: WIDTH - 3] + "..."
    took = f" ({verdict.seconds:.1f} s)" if verdict.seconds else ""
    shown = f"{verdict.shows}: {verdict.reason}; " if verdict.ending == REFUSED else ""
    error = f"{shown}{verdict.place} {begins}" if verdict.ending != PROVED else ""
    return f"{edit.label}: {verdict.ending}{took} {error}".rstrip()


class Tally:
    """Edits tried, counted."""

    def __init__(self) -> None:
        self.refused = 0
        self.facts = 0
        self.failed: list[str] = []

    def count(self, edit: Edit, verdict: Verdict) -> None:
        if verdict.ending == REFUSED:
            self.refused += 1
            self.facts += verdict.shows == FACT
        else:
            self.failed.append(edit.label)

    def last_line(self) -> str:
        every = self.refused + len(self.failed)
        return (
            f"wrong-programs: {every} edits, {self.refused} refused, {self.facts} of them by a fact, "
            f"{len(self.failed)} failed"
        )


class MutantTally:
    """Mutants tried, counted: those that don't compile never reach the prover."""

    def __init__(self, crate: str, count: int) -> None:
        self.crate = crate
        self.wanted_count = count
        self.endings = dict.fromkeys((REFUSED, PROVED, UNTOLD, UNCOMPILED), 0)
        self.facts = 0
        self.survivors: list[str] = []

    def reached(self) -> int:
        return sum(self.endings.values()) - self.endings[UNCOMPILED]

    def wanted(self, mutants: Iterable[Edit]) -> Iterator[Edit]:
        """Mutants, until as many as are wanted have reached the prover."""
        for mutant in mutants:
            if self.reached() >= self.wanted_count:
                return
            yield mutant

    def count(self, edit: Edit, verdict: Verdict) -> None:
        self.endings[verdict.ending] += 1
        self.facts += verdict.ending == REFUSED and verdict.shows == FACT
        if verdict.ending in (PROVED, UNTOLD):
            self.survivors.append(f"{edit.label}: {verdict.ending}")

    def last_line(self) -> str:
        survivors = "".join(f"survivor: {line}\n" for line in self.survivors)
        return (
            f"{survivors}wrong-programs: {self.crate}: {self.reached()} mutants reached the prover, "
            f"{self.endings[REFUSED]} refused, {self.facts} of them by a fact, {self.endings[PROVED]} proved, {self.endings[UNTOLD]} without a verdict; "
            f"{self.endings[UNCOMPILED]} didn't compile"
        )
