"""session-svg on the incident, on the whole recorded sample and on odd input.

    python3 tools/test_session_svg.py
"""

from __future__ import annotations

import os
import random
import subprocess
import sys
import tempfile
import unittest
import xml.etree.ElementTree as xml
from collections import Counter
from pathlib import Path

sys.path.insert(0, str(Path(__file__).resolve().parent))

from session_svg.draw import Picture  # noqa: E402
from session_svg.layout import Rows, Scale  # noqa: E402
from session_svg.story import Story  # noqa: E402

from combradish import program_of  # noqa: E402

ROOT = Path(__file__).resolve().parents[1]
TOOL = [sys.executable, str(ROOT / "tools/session-svg")]
INCIDENT = ROOT / "sessions/incident.session", ROOT / "sessions/incident.answers"
SAMPLE = ROOT / "crates/replay/stdin", ROOT / "crates/replay/stdout"
SVG = "{http://www.w3.org/2000/svg}"


def run(*words: object, seed: str = "0") -> subprocess.CompletedProcess[bytes]:
    return subprocess.run([*TOOL, *map(str, words)], capture_output=True, env={**os.environ, "PYTHONHASHSEED": seed})


def classes(root: xml.Element) -> Counter[str]:
    """How many elements of each class."""
    return Counter(name for element in root.iter() for name in [element.get("class")] if name)


def lanes(root: xml.Element) -> list[str]:
    found = [rect for rect in root.iter(f"{SVG}rect") if rect.get("class") == "lane"]
    return [rect.findtext(f"{SVG}title", "") for rect in found]


class Incident(unittest.TestCase):
    def setUp(self) -> None:
        self.drawn = run(*INCIDENT)
        self.root = xml.fromstring(self.drawn.stdout)

    def test_lanes_bars_and_ticks(self) -> None:
        self.assertEqual(lanes(self.root), ["motor 2", "motor 6"])
        expected = {"lane": 2, "bar finished": 4, "heard": 8, "sent": 12, "held": 8, "look": 2}
        found = classes(self.root)
        self.assertEqual({name: found[name] - (name == "look") for name in expected}, expected)  # one look is the legend's
        self.assertEqual((found["bar failed"], found["bar running"], found["refusal"]), (0, 0, 1))

    def test_each_flap_at_its_own_angle(self) -> None:
        story = Story(*(path.read_text("ascii") for path in INCIDENT))
        (panel,) = story.panels
        angles = {id: [s.held.number for s in lane.spans if s.parameter == 0x7019] for id, lane in panel.lanes.items()}
        self.assertEqual(angles, {2: [0.75, 0.25], 6: [-0.5, -1.0]})
        writes = {id: [t.label for t in lane.sent if "7016" in t.label] for id, lane in panel.lanes.items()}
        self.assertEqual(writes[2], ["write 7016 = 0.75", "write 7016 = 0.25"])
        self.assertEqual(writes[6], ["write 7016 = -0.5", "write 7016 = -1"])
        self.assertEqual([lane.astray for lane in panel.lanes.values()], [0, 0])

    def test_title_and_labels(self) -> None:
        said = ["".join(text.itertext()) for text in self.root.iter(f"{SVG}text")]
        first = INCIDENT[0].read_text("ascii").splitlines()[0]
        self.assertIn(first.removeprefix("# "), said)
        for label in ("motor 2", "7019 = -0.5", "read 7005", "7019 mechPos = 0.75 rad", "7019 mechPos = -1 rad", "1,200"):
            self.assertIn(label, said)
        sizes = [int(text.get("font-size", "0")) for text in self.root.iter(f"{SVG}text")]
        self.assertGreaterEqual(min(sizes), 12)

    def test_the_same_again(self) -> None:
        self.assertEqual(run(*INCIDENT, seed="7").stdout, self.drawn.stdout)
        self.assertEqual(run("--replay", program_of(ROOT), INCIDENT[0]).stdout, self.drawn.stdout)
        self.assertEqual((ROOT / "docs/incident.svg").read_bytes(), self.drawn.stdout)


class Sample(unittest.TestCase):
    def setUp(self) -> None:
        self.session, self.answers = (path.read_text("ascii") for path in SAMPLE)
        self.story = Story(self.session, self.answers)

    def test_well_formed_and_the_same_again(self) -> None:
        drawn = Picture(self.story).svg()
        root = xml.fromstring(drawn.encode())
        motors = [f"motor {id}" for panel in self.story.panels for id in sorted(panel.lanes) if id]
        self.assertEqual([name for name in lanes(root) if name != "no motor"], motors)
        self.assertEqual(classes(root)["sent"], sum(line.startswith("(") for line in self.answers.splitlines()))
        self.assertEqual(Picture(Story(self.session, self.answers)).svg(), drawn)

    def test_nothing_is_lost(self) -> None:
        """What the story has, counted against the answers' lines."""
        every = [lane for panel in self.story.panels for lane in panel.lanes.values()]
        words = Counter(line.split(" ")[0] for line in self.answers.splitlines())
        refused = Counter(line.split(" ")[1] for line in self.answers.splitlines() if line.startswith("refused"))
        how = Counter(bar.how for lane in every for bar in lane.bars)
        self.assertEqual(how["finished"], words["finished"])
        self.assertEqual(how["failed"], sum(refused[number] for number in ("16", "17", "18", "20")))
        self.assertEqual(sum(len(lane.marks) for lane in every), words["refused"])
        self.assertEqual(Counter(mark.text for lane in every for mark in lane.marks), refused)
        self.assertEqual(sum(len(lane.looks) for lane in every), words["motor"])

    def test_readings_as_every_look_shows_them(self) -> None:
        every = [lane for panel in self.story.panels for lane in panel.lanes.values()]
        self.assertEqual([lane.id for lane in every if lane.astray], [])


class Odd(unittest.TestCase):
    def draw(self, session: str) -> xml.Element:
        replay = subprocess.run([program_of(ROOT)], input=session.encode(), capture_output=True, check=True)
        return xml.fromstring(Picture(Story(session, replay.stdout.decode())).svg().encode())

    def test_text_is_escaped(self) -> None:
        root = self.draw("# <jam> & \"more\"\nregister 1 0xFD <&> 0 1\nregister 1 0xFD rs-00 0 1\n# <note>\nfly <1>\x01\nlook 1")
        self.assertEqual(lanes(root), ["motor 1", "no motor"])
        self.assertIn('<jam> & "more"', ["".join(text.itertext()) for text in root.iter(f"{SVG}text")])

    def test_versions(self) -> None:
        """A version reply is one where it was asked for, and elsewhere taken for a status."""
        reply = "can0 020001FD#00C4560102030400\n"
        session = f"register 1 0xFD rs-00 0 5\n(0.010000) {reply}start 1 20 get_version\n(0.040000) {reply}step 1 50\n"
        said = ["".join(text.itertext()) for text in self.draw(session).iter(f"{SVG}text")]
        for label in ("status (version 1.2.3.4)", "version?", "version 1.2.3.4", "get_version \u2192 version 1.2.3.4"):
            self.assertIn(label, said)
        self.assertNotIn("disable", said)

    def test_a_torn_end_is_not_run(self) -> None:
        motor = "register 1 0xFD rs-00 0 5\n"
        self.assertEqual(classes(self.draw(motor + "start 1 5 enable\n"))["bar running"], 1)
        root = self.draw(motor + "start 1 5 enable")
        self.assertEqual(classes(root)["bar running"], 0)
        self.assertEqual(lanes(root), ["motor 1", "no motor"])

    def test_little_and_much(self) -> None:
        self.assertEqual(lanes(self.draw("")), [])
        self.assertEqual(lanes(self.draw("fresh\nfresh\nlook 1\n")), ["no motor"])
        motors = "".join(f"register {id} 0xFD rs-00 0 5\nstart {id} 5 enable\n" for id in range(1, 9))
        root = self.draw(motors + "(18446744073709551.615000) can0 028001FD#\nframe 0 1 0000000000000000 1 8 1\n")
        self.assertEqual(len(lanes(root)), 9)
        self.assertEqual(classes(root)["bar running"], 8)

    def test_answers_that_end_early_or_are_others(self) -> None:
        session, answers = (path.read_text("ascii") for path in INCIDENT)
        for cut in range(0, len(answers.splitlines()), 5):
            Picture(Story(session, "".join(answers.splitlines(True)[:cut]))).svg()
        with tempfile.NamedTemporaryFile("w") as file:
            file.write("sent due 3\n" * 40)
            file.flush()
            other = run(INCIDENT[0], file.name)
        self.assertEqual(other.returncode, 1)
        self.assertIn(b"aren't the answers to this session", other.stderr)


class Layout(unittest.TestCase):
    def test_labels_never_overlap(self) -> None:
        dice = random.Random(5)
        for _ in range(200):
            rows, placed = Rows(4, 500.0), []
            for x in sorted(dice.uniform(0, 500) for _ in range(40)):
                width = dice.uniform(5, 120)
                if found := rows.place(x, width, dice.choice((0, 90))):
                    placed.append((found[0], found[1], found[1] + width))
            for row, start, end in placed:
                self.assertLessEqual(end, 500.001)
                others = [p for p in placed if p[0] == row and p != (row, start, end)]
                self.assertFalse([p for p in others if p[1] < end and start < p[2]])

    def test_times_stay_in_order(self) -> None:
        dice = random.Random(6)
        for _ in range(200):
            times = [dice.randrange(10 ** dice.randrange(1, 20)) for _ in range(dice.randrange(1, 30))]
            scale = Scale(times, 100, 1000)
            places = [scale.x(time) for time in sorted(times)]
            self.assertEqual(places, sorted(places))
            self.assertTrue(100 <= places[0] and places[-1] <= 1000.001)
            self.assertLess(len(scale.ticks()), 60)


if __name__ == "__main__":
    unittest.main()
