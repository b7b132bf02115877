"""The client's tables of commands, events and refusals are the program's own.

replay is asked: a line with a word that is missing is answered with what the word is to be, and a number that is too great with
the refusal of what it counts. So each shape is recovered, letter by letter. That no name is left out is seen in the tables that
replay is compiled from.
"""

from __future__ import annotations

import inspect
import re
import sys
import unittest
from pathlib import Path

sys.path.insert(0, str(Path(__file__).resolve().parents[1]))

from combradish import (  # noqa: E402
    COMMANDS, ENDING, EVENTS, Command, Error, Kind, Mode, Reason, Refusal, Refused, Sent, Station, Value, Waiting,
    Word, parse_event, program_of,
)  # fmt: skip
from combradish.shapes import PARTS, parts  # noqa: E402

ROOT = Path(__file__).resolve().parents[3]
REPLAY = program_of(ROOT)

# What replay says that a word isn't, the letters that this may mean, and a word that is good there.
WANTED = {
    "a number up to 255": ("B", "8"),
    "a number up to 0xFFFF": ("H", "0x7005"),
    "a number up to 0xFFFFFFFF": ("W", "0x028001FD"),
    "0 or 1": ("F", "1"),
    "16 hexadecimal digits": ("D", "0" * 16),
    "mit, pp, velocity or csp": ("C", "mit"),
    "i8, u8, u16, u32 or f32": ("K", "u32"),
    "a word": ("X", "rs-00"),
    "a number below 2^64, in decimal or after 0x": ("TIP", "1"),
}
# Which of T, I and P a number is, by the refusal of the greatest one: of a time or a timeout, an id or a host, a protocol.
GREATEST = {7: "T", 9: "T", 1: "I", 2: "I", 6: "I", 12: "P"}


class Probe:
    """Asks replay what the words of a line are to be. Motor 1 is registered at time 1, and nothing that is asked starts anything."""

    def __init__(self, station: Station) -> None:
        self.station = station
        station.register(1, 0xFD, "rs-00", 0, 1)

    def error(self, words: list[str]) -> str:
        answer = self.station.say(" ".join(words))
        assert isinstance(answer, Error), (words, answer)
        return answer.text

    def shape(self, name: str, command: str | None = None) -> str:
        """The shape of an event; of a start with a command, both together."""
        fixed = {4: command} if command else {}
        count = re.fullmatch(r"this event has (\d+) words, parted by single spaces", self.error(self.line(name, 12, fixed)))
        assert count, (name, command)
        words = self.line(name, int(count[1]), fixed)
        letters = [""]
        for place in range(2, len(words) + 1):
            letters.append("X" if place in fixed else self.letters(words, place))
        return "".join(self.told_apart(words, place, found) for place, found in enumerate(letters))

    def line(self, name: str, count: int, fixed: dict[int, str]) -> list[str]:
        """A line of so many words, all missing but those that are fixed."""
        return [name, *(fixed.get(place, "") for place in range(2, count + 1))]

    def letters(self, words: list[str], place: int) -> str:
        """What the first missing word is to be; it is put in."""
        told = re.fullmatch(rf"word {place} isn't (.*)", self.error(words))
        assert told, words
        found, words[place - 1] = WANTED[told[1]]
        return found

    def told_apart(self, words: list[str], at: int, found: str) -> str:
        if len(found) < 2:
            return found
        answer = self.station.say(" ".join([*words[:at], str(2**64 - 1), *words[at + 1 :]]))
        assert isinstance(answer, Refused), (words, answer)
        return GREATEST[answer.refusal.number]


class Shapes(unittest.TestCase):
    def test_the_program_reads_by_the_same_shapes(self) -> None:
        with Station(REPLAY) as station:
            probe = Probe(station)
            start = EVENTS["start"].shape
            self.assertEqual({name: probe.shape("start", name) for name in COMMANDS}, {n: start + s for n, s in COMMANDS.items()})
            others = {name: row.shape for name, row in EVENTS.items() if name != "start"}
            self.assertEqual({name: probe.shape(name) for name in others}, others)

    def test_a_name_that_is_none(self) -> None:
        with Station(REPLAY) as station:
            for line, text in (("fly", "no event begins with this word"), ("start 1 1 fly", "start has no such command")):
                self.assertEqual(station.say(line), Error(text))
                with self.assertRaises(ValueError):
                    parse_event(line)

    def test_no_name_is_left_out(self) -> None:
        """The tables that replay is compiled from: names and shapes in the same order."""
        start = EVENTS["start"].shape
        self.assertEqual(compiled("ping"), {name: start + shape for name, shape in COMMANDS.items()})
        events = compiled("fresh")
        self.assertEqual(list(events), list(EVENTS))
        self.assertEqual({**events, "start": events["start"] or start}, {name: row.shape for name, row in EVENTS.items()})

    def test_modes_and_kinds(self) -> None:
        """The names are those that replay says."""
        said = {letters: re.split(", | or ", text) for text, (letters, _) in WANTED.items()}
        self.assertEqual([mode.value for mode in Mode], said["C"])
        self.assertEqual([(kind.value, kind.name) for kind in Kind], [(name, name.upper()) for name in said["K"]])
        with Station(REPLAY) as station:
            for kind in Kind:
                for digits, good in ((kind.width, True), (kind.width + 1, False)):
                    line = f"start 1 1 write_parameter 0x7005 {kind.value} 0x{'F' * digits}"
                    self.assertEqual(isinstance(station.say(line), Refused), good, line)

    def test_every_letter_is_known(self) -> None:
        rows = [*COMMANDS.values(), *(row.shape for row in EVENTS.values())]
        self.assertEqual({part for shape in rows for part in parts(shape)}, set(PARTS))

    def test_each_constructor_is_a_row(self) -> None:
        kinds = {**dict.fromkeys("TIPBH", "int"), "C": "Mode", "W": "float", "F": "bool", "KW": "Value"}
        some = {**dict.fromkeys("TIPBH", 1), "C": Mode.MIT, "W": Word(1), "F": True, "KW": Value.u8(1)}
        made = {name for name, part in vars(Command).items() if isinstance(part, staticmethod)} - {"parse"}
        self.assertEqual(made, set(COMMANDS))
        for name, shape in COMMANDS.items():
            constructor = getattr(Command, name)
            taken = [parameter.annotation for parameter in inspect.signature(constructor).parameters.values()]
            self.assertEqual(taken, [kinds[part] for part in parts(shape)], name)
            arguments = tuple(some[part] for part in parts(shape))
            self.assertEqual(constructor(*arguments), Command(name, arguments))


def source(crate: str) -> str:
    """The Rattle files of a crate, one behind the other."""
    files = sorted((ROOT / "crates" / crate / "src").rglob("*.rt"))
    return "".join(file.read_text("utf-8") for file in files)


def compiled(first: str) -> dict[str, str]:
    """The table of crates/session/src that begins with a name: one constant, names and shapes by turns."""
    constants = re.findall(r'b"([^"]*)"', source("session"))
    found = [text for text in constants if text.startswith(f"{first} ")]
    assert len(found) == 1, f"{len(found)} constants of crates/session/src begin with {first!r}"
    words = found[0].split(" ")
    names, shapes = words[::2], words[1::2]
    assert all(re.fullmatch("[a-z0-9_]+", name) for name in names), names
    assert all(re.fullmatch("[A-Z]*", shape) for shape in shapes), shapes
    return dict(zip(names, shapes, strict=True))


READ = "frame 100 0x110001FD {}0000{} 1 8 1"  # a reply to a read: the parameter and the value
# Lines after which the last is refused, of a station with motor 1 at time 100.
REFUSALS: dict[int, list[str]] = {
    1: ["register 0 0xFD rs-00 0 100"],
    2: ["register 2 256 rs-00 0 100"],
    3: ["register 2 0xFD rs-99 0 100"],
    4: [f"register {id} 0xFD rs-00 0 100" for id in range(2, 10)],
    5: ["register 1 0xFD rs-00 0 100"],
    6: ["start 9 100 enable"],
    7: ["step 1 99"],
    8: ["start 1 100 enable", "start 1 100 enable"],
    9: ["start 1 100 ping 60001"],
    10: ["start 1 100 write_parameter 0x200D u8 0"],
    11: ["start 1 100 write_parameter 0x7005 u8 0"],
    12: ["start 1 100 set_protocol 3 0"],
    13: ["frame 100 0x020002FD 0000000000000000 1 8 1"],
    14: ["frame 100 0x110101FD 0570000000000000 1 8 1"],
    15: [READ.format(f"{id:02X}30", "00000000") for id in range(97)],
    16: ["start 1 100 enable", "step 1 1000", "step 1 2000", "step 1 3000"],
    17: ["start 1 100 controlled_stop 0", READ.format("0570", "03000000"), "step 1 100"],
    18: ["start 1 100 ensure_control_mode velocity 0"],
    19: ["start 1 100 set_device_id 0"],
    20: ["start 1 100 get_parameter_f32 0x7005 0", READ.format("0570", "03000000"), "step 1 100"],
    21: ["step 1 100"],
}
# The codec's alone: no line of a session is refused with it.
CODEC = {Reason.NOT_A_PING_REPLY, Reason.NOT_A_VERSION_REPLY}


class Refusals(unittest.TestCase):
    def test_the_program_refuses_by_the_same_table(self) -> None:
        self.assertEqual([int(reason) for reason in Reason], list(range(1, len(Reason) + 1)))
        self.assertEqual({Reason(number) for number in REFUSALS} | CODEC, set(Reason))
        with Station(REPLAY) as station:
            for number, lines in REFUSALS.items():
                *before, last = self.answers(station, lines)
                self.assertEqual((last[:2], len(last) - 2), (["refused", str(number)], len(Reason(number).carries)), last)
                self.assertNotIn("refused", [words[0] for words in before], number)
                if number in ENDING:
                    self.assertEqual(station.say("step 1 1000000"), Refused(Refusal(Reason.NOTHING_RUNNING)))

    def test_no_refusal_is_left_out(self) -> None:
        """`enum Refusal` of crates/codec/src, which replay is compiled from, has a case for each, in the order of the numbers."""
        cases = re.search(r"pub enum Refusal \{\n(.*?)\n\}", source("codec"), re.DOTALL)
        assert cases
        carries = [carried != "" for carried in re.findall(r"^    [A-Z]\w* ?([({]?)", cases[1], re.MULTILINE)]
        self.assertEqual([bool(reason.carries) for reason in Reason], carries)

    def answers(self, station: Station, lines: list[str]) -> list[list[str]]:
        """The words of the answers. An operation that then runs is stepped on to its end."""
        station.fresh(), station.register(1, 0xFD, "rs-00", 0, 100)
        said = [station.say(line) for line in lines]
        while isinstance(said[-1], (Sent, Waiting)):
            said.append(station.step(1, said[-1].due))
        return [answer.lines()[-1].split(" ") for answer in said if answer]

    def test_the_values_that_are_carried(self) -> None:
        with Station(REPLAY) as station:
            (unread,) = self.answers(station, REFUSALS[14])
            *_, silent = self.answers(station, REFUSALS[18])
            station.fresh(), station.register(1, 0xFD, "rs-00", 0, 100)
            answer = station.start(1, 100, Command.ensure_control_mode(Mode.VELOCITY, 0))
            while isinstance(answer, (Sent, Waiting)):
                if isinstance(answer, Sent) and answer.frame.id >> 24 == 17:
                    station.say(READ.format("0570", "FF000000").replace("100", str(answer.frame.time), 1))
                    answer = station.step(1, answer.frame.time)
                else:
                    answer = station.step(1, answer.due)
            assert isinstance(answer, Refused)
            self.assertEqual((unread[2:], silent[2:], answer.refusal.last), (["7005", "01"], ["none"], -1))


if __name__ == "__main__":
    unittest.main()
