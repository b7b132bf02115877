"""The walls between the rooms of a crate, by the paths that its files name.

    python3 tools/test_rooms.py

motor's engine names nothing of the motor's own files but the limits, and what it shows them is what it makes public; the station's by-value
calls don't see the lent ones.
"""

from __future__ import annotations

import re
import shutil
import tempfile
import unittest
from collections.abc import Iterator
from pathlib import Path

ROOT = Path(__file__).resolve().parents[1]
PARTS = ("src", "specs", "proofs")
# what of the engine anybody may call
ENGINE = {"host_candidates", "begin_at", "advance_at", "no_operation", "no_frame"}


def files(crate: Path) -> Iterator[tuple[Path, str, str]]:
    """Each file of a crate: its path, the room that it stands in (or its own name), and its text."""
    for part in PARTS:
        for path in sorted((crate / part).rglob("*")):
            if path.suffix in (".rt", ".antt"):
                yield path.relative_to(crate), path.relative_to(crate / part).parts[0].split(".")[0], path.read_text()


def named(crate: str, text: str) -> Iterator[str]:
    """The first name of each path into the crate: of code, of definitions, of proofs and of declared types."""
    own = re.escape(crate)
    for pattern in (
        r"\bcrate::(?:(?:specs|proofs)::)?(?:(?:declared|contracts)::)?(\w+)",
        rf"\bRattle\.{own}\.specs\.(?:(?:declared|contracts)\.)?(\w+)",
        rf"\bRattle\.{own}\.proofs\.(\w+)",
        rf"\b{own}::(\w+)::",
    ):
        yield from re.findall(pattern, text)


def engine_sees(crate: Path) -> list[str]:
    """What the engine's files name outside the engine."""
    return [
        f"{path}: {name}"
        for path, room, text in files(crate)
        if room == "engine"
        for name in named("motor", text)
        if name.lower() not in ("engine", "limits")
    ]


def engine_shows(crate: Path) -> set[str]:
    """The functions of the engine that are public beyond it."""
    return {
        name
        for path, room, text in files(crate)
        if room == "engine" and path.suffix == ".rt"
        for name in re.findall(r"^ *pub(?:\(crate\))? fn (\w+)", text, re.M)
    }


def lent_seen(crate: Path) -> list[str]:
    """Where the station's other files name the lent ones."""
    return [
        f"{path}: {name}"
        for path, room, text in files(crate)
        if room != "lent"
        for name in named("station", text)
        if name == "lent"
    ]


class Rooms(unittest.TestCase):
    def test_engine_names_nothing_of_the_motor(self) -> None:
        self.assertEqual(engine_sees(ROOT / "crates/motor"), [])

    def test_engine_shows_what_it_promises(self) -> None:
        self.assertEqual(engine_shows(ROOT / "crates/motor"), ENGINE)

    def test_by_value_calls_do_not_see_lent(self) -> None:
        self.assertEqual(lent_seen(ROOT / "crates/station"), [])

    def test_a_broken_wall_is_found(self) -> None:
        with tempfile.TemporaryDirectory() as scratch:
            for crate in ("motor", "station"):
                shutil.copytree(ROOT / "crates" / crate, Path(scratch) / crate)
            motor, station = Path(scratch) / "motor", Path(scratch) / "station"
            append(motor / "src/engine/run.rt", "use crate::receive::is_late;\npub fn shown() {}\n")
            append(motor / "src/engine/moves.rt", "#[tactic(auto, using(crate::proofs::Clock::clock_of))]\nfn hidden() {}\n")
            append(motor / "specs/engine/Run.antt", "use Rattle.motor.specs.Lone.{hears}\nuse Rattle.motor.specs.declared.motor.State.{State}\n")
            append(motor / "proofs/engine/Choices.antt", "use Rattle.motor.proofs.Clock.{clock_of}\n")
            append(station / "src/station.rt", "use crate::lent::call::call;\n")
            append(station / "proofs/Contracts.antt", "use Rattle.station.proofs.lent.LentRuns.{runs}\n")
            self.assertEqual([line.split(": ")[1] for line in engine_sees(motor)], ["Clock", "receive", "Lone", "motor", "Clock"])
            self.assertEqual(engine_shows(motor) - ENGINE, {"shown"})
            self.assertEqual(len(lent_seen(station)), 2)


def append(path: Path, text: str) -> None:
    path.parent.mkdir(parents=True, exist_ok=True)
    path.write_text((path.read_text() if path.is_file() else "") + text)


if __name__ == "__main__":
    unittest.main()
