"""The client against replay, by the recorded sample and by hand.

    python3 -m unittest discover -s clients/python/tests
"""

from __future__ import annotations

import math
import random
import signal
import subprocess
import sys
import tempfile
import threading
import time
import unittest
from collections.abc import Callable
from pathlib import Path

sys.path.insert(0, str(Path(__file__).resolve().parents[1]))

from combradish import (  # noqa: E402
    COMMANDS, Command, Died, Error, Finished, Frame, Held, Kind, Mode, Ok, Reading, Reason, Refusal, Refused, Sent, Station,
    TimedOut, Unexpected, Value, VersionReply, Waiting, Word, parse_event, program_of, read_answer, value, word,
)  # fmt: skip
from combradish.shapes import parts  # noqa: E402

ROOT = Path(__file__).resolve().parents[3]
REPLAY = program_of(ROOT)


def child(code: str) -> list[str]:
    """A program that stands in for replay."""
    return [sys.executable, "-c", code]


def saying(text: str) -> list[str]:
    """A child that gives the same text to its first event and then waits for the end."""
    return child(f"import sys; sys.stdin.readline(); sys.stdout.write({text!r}); sys.stdout.flush(); sys.stdin.read()")


class Sample(unittest.TestCase):
    def test_sample_byte_for_byte(self) -> None:
        lines = (ROOT / "crates/replay/stdin").read_text("ascii").splitlines()
        answers: list[str] = []
        typed = raw = 0
        with tempfile.TemporaryDirectory() as folder:
            recording, kept = Path(folder, "session"), Path(folder, "answers")
            with Station(REPLAY, recording, kept) as station:
                for line in lines:
                    event = parse_event(line)
                    if event is not None and event.line == line:
                        answer = station.send(event)
                        typed += 1
                    else:
                        answer = station.say(line)
                        raw += event is not None
                    answers += answer.lines() if answer else []
            self.assertEqual(recording.read_text("ascii").splitlines(), lines)
            expected = (ROOT / "crates/replay/stdout").read_bytes()
            self.assertEqual(kept.read_bytes(), expected)
        self.assertEqual("".join(f"{line}\n" for line in answers).encode(), expected)
        self.assertGreater(typed, 3900)
        self.assertLess(raw, 50)

    def test_events_mean_the_same_when_printed_again(self) -> None:
        """A line in another form and its printed event: the same event."""
        for line in (ROOT / "crates/replay/stdin").read_text("ascii").splitlines():
            if event := parse_event(line):
                self.assertEqual(parse_event(event.line), event)

    def test_lines_that_are_events_to_replay_are_events_here(self) -> None:
        """The sample's lines with a character changed, put in or taken out: parsed where replay takes them, else refused."""
        dice = random.Random(2026)
        lines = [line for line in (ROOT / "crates/replay/stdin").read_text("ascii").splitlines() if line[:1] not in ("", "#")]
        with Station(REPLAY) as station:
            for _ in range(6000):
                line = dice.choice(lines)
                at = dice.randrange(len(line) + 1)
                line = line[:at] + dice.choice(["", *"0 19xXaFg#.(-)_R"]) + line[at + dice.randrange(2) :]
                answer = station.say(line)
                try:
                    event = parse_event(line)
                except ValueError:
                    event = None
                self.assertEqual(event is None, answer is None or isinstance(answer, Error), line)
                if event:
                    self.assertEqual(parse_event(event.line), event)


class Incident(unittest.TestCase):
    def test_each_flap_is_held_at_its_own_angle(self) -> None:
        """The first half of sessions/incident.session, by the methods."""
        with tempfile.TemporaryDirectory() as folder:
            recording = Path(folder, "session")
            with Station(REPLAY, recording) as station:
                station.note("Flaps 2 and 6 jam.")
                for flap in (2, 6):
                    self.assertEqual(station.register(flap, 0xFD, "rs-00", 0, 1000), Ok())
                sent = station.start(2, 1100, Command.controlled_stop(200))
                self.assertEqual(sent, Sent(Frame.at(1100, 0x1100FD02, bytes.fromhex("0570000000000000")), 1300))
                station.start(6, 1101, Command.controlled_stop(200))
                for flap, time in ((6, 1120), (2, 1121)):
                    station.heard(Frame.at(time, 0x110000FD | flap << 8, bytes.fromhex("0570000005000000")))
                station.step(2, 1122), station.step(6, 1123)
                for flap, time, angle in ((6, 1140, "000000BF"), (2, 1141, "0000403F")):
                    station.heard(Frame.at(time, 0x110000FD | flap << 8, bytes.fromhex("19700000" + angle)))
                for flap, time, angle in ((2, 1142, 0.75), (6, 1143, -0.5)):
                    finished = station.step(flap, time)
                    assert isinstance(finished, Finished) and finished.frame
                    self.assertEqual(finished.result, Mode.CSP)
                    self.assertEqual(value(int.from_bytes(finished.frame.data[4:], "little")), angle)
                    held = station.look(flap)
                    assert isinstance(held, Held)
                    self.assertEqual(held.readings, {0x7005: Reading(Value.i8(5)), 0x7019: Reading(Value.f32(angle))})
            lines = (ROOT / "sessions/incident.session").read_text("ascii").splitlines()
            said = [line for line in recording.read_text("ascii").splitlines() if not line.startswith(("#", "look"))]
            self.assertEqual(said, [line for line in lines if not line.startswith("#")][: len(said)])

    def test_a_torn_recording_ends_with_an_error(self) -> None:
        session = "register 1 0xFD rs-00 0 100\nstart 1 100 get_parameter 0x7019 50"
        for end in ("", "00", " fly"):
            said = subprocess.run([REPLAY], input=(session + end).encode("ascii"), capture_output=True, check=True).stdout
            lines = iter(said.decode("ascii").splitlines())
            answers = [read_answer(event, lambda: next(lines)) for event in (session + end).split("\n")]
            self.assertEqual(answers, [Ok(), Error("the input ends within a line")])
            self.assertEqual(next(lines, None), None)

    def test_refusals(self) -> None:
        with Station(REPLAY) as station:
            self.assertEqual(station.look(9), Refused(Refusal(Reason.ID_NOT_REGISTERED)))
            station.register(1, 0xFD, "rs-00", 0, 100)
            unread = station.heard(Frame.at(100, 0x118001FD, bytes.fromhex("19700000")))
            self.assertEqual(unread, Refused(Refusal(Reason.READ_STATUS_NOT_ZERO, parameter=0x7019, status=0x80)))
            self.assertEqual(station.step(1, 100), Refused(Refusal(Reason.NOTHING_RUNNING)))
            station.start(1, 100, Command.enable())
            self.assertEqual(station.step(1, 200), Waiting(340))
            self.assertEqual(station.remove(1, 200), Refused(Refusal(Reason.OPERATION_RUNNING)))
            self.assertIsInstance(station.say("register"), Error)
            self.assertIsNone(station.say(""))
            self.assertEqual(station.fresh(), Ok())


class Version(unittest.TestCase):
    def test_a_version_is_no_status(self) -> None:
        """Asked twice: while it waits a look shows the answer so far, the later one counts, and no feedback comes of it."""
        with Station(REPLAY) as station:
            station.register(6, 0xFD, "rs-00", 0, 100)
            asked = station.start(6, 100, Command.get_version())
            self.assertEqual(asked, Sent(Frame.at(100, 0x0400FD06, bytes.fromhex("00C4000000000000")), 340))
            for time, version in ((120, "00030106"), (400, "00030206")):
                self.assertEqual(station.heard(Frame.at(time, 0x020006FD, bytes.fromhex(f"00C456{version}00"))), Ok())
                held = station.look(6)
                assert isinstance(held, Held)
                self.assertEqual(held.version, VersionReply(6, bytes.fromhex(version)))
            self.assertEqual(station.step(6, 401), Finished(VersionReply(6, bytes((0, 3, 2, 6)))))
            held = station.look(6)
            assert isinstance(held, Held)
            self.assertEqual((held.version, held.feedback, held.sequence, held.responses), (None, None, 0, 2))


class Death(unittest.TestCase):
    def test_what_was_last_said_is_kept(self) -> None:
        code = "import sys; sys.stdin.readline(); print('ok', flush=True); sys.stdin.readline(); "
        code += "sys.stdout.write('wait'); sys.exit('no memory')"
        with tempfile.TemporaryDirectory() as folder:
            recording, answers = Path(folder, "session"), Path(folder, "answers")
            with self.assertRaises(Died) as caught, Station(child(code), recording, answers) as station:
                station.register(2, 0xFD, "rs-00", 0, 1000)
                station.step(2, 1001)
            died = caught.exception
            self.assertEqual((died.status, died.last_event, died.last_answers), (1, "step 2 1001", ["wait"]))
            for part in ("status 1", "'step 2 1001'", "no memory"):
                self.assertIn(part, str(died))
            self.assertEqual(recording.read_text(), "register 2 0xFD rs-00 0 1000\nstep 2 1001\n")
            self.assertEqual(answers.read_text(), "ok\nwait")

    def test_killed_and_called_again(self) -> None:
        station = Station(child("import os; os.kill(os.getpid(), 9)"))
        for _ in range(2):
            with self.assertRaises(Died) as caught:
                station.fresh()
            self.assertEqual((caught.exception.status, caught.exception.last_event), (-9, "fresh"))
        station.close()
        with self.assertRaises(Died), Station(child("import sys; sys.exit(4)")):
            pass

    def test_an_exchange_that_is_broken_off(self) -> None:
        """An answer that comes too late isn't taken for the next event's."""

        def ring(*_: object) -> None:
            raise KeyboardInterrupt

        before = signal.signal(signal.SIGALRM, ring)
        self.addCleanup(signal.signal, signal.SIGALRM, before)
        with Station(child("import sys, time; sys.stdin.readline(); time.sleep(0.3); print('ok'); sys.stdin.read()")) as station:
            signal.setitimer(signal.ITIMER_REAL, 0.1)
            with self.assertRaises(KeyboardInterrupt):
                station.fresh()
            with self.assertRaises(Unexpected):
                station.fresh()

    def test_no_recording_is_overwritten(self) -> None:
        with tempfile.NamedTemporaryFile() as file, self.assertRaises(FileExistsError):
            Station(REPLAY, file.name)
        with self.assertRaises(FileNotFoundError):
            Station("no/such/program")


def meanwhile(call: Callable[[], object]) -> tuple[threading.Thread, list[object]]:
    """A call of another thread, with what it gives or raises."""
    ended: list[object] = []

    def run() -> None:
        try:
            ended.append(call())
        except Exception as error:
            ended.append(error)

    thread = threading.Thread(target=run, daemon=True)
    thread.start()
    return thread, ended


class Fair:
    """A lock that lets the others go first where it is released."""

    def __init__(self) -> None:
        self.lock = threading.RLock()

    def __enter__(self) -> None:
        self.lock.acquire()

    def __exit__(self, *_: object) -> None:
        self.lock.release()
        time.sleep(0.3)


class Limit(unittest.TestCase):
    def test_a_child_that_never_answers(self) -> None:
        """It is ended, and what it might have said is no later event's answer."""
        for said in ("", "waiting", "(0.100000) can0 0300FD01#0000000000000000\n"):
            code = f"import sys, time; sys.stdout.write({said!r}); sys.stdout.flush(); time.sleep(60)"
            with self.subTest(said), Station(child(code), limit=0.5) as station:
                begun = time.monotonic()
                with self.assertRaises(TimedOut) as caught:
                    station.step(1, 100)
                self.assertLess(time.monotonic() - begun, 30)
                self.assertEqual((caught.exception.status, caught.exception.last_event), (None, "step 1 100"))
                self.assertIn("within 0.5 s", str(caught.exception))
                self.assertIsNotNone(station._child.poll())
                with self.assertRaises(TimedOut) as again:
                    station.fresh()
                self.assertIs(again.exception, caught.exception)

    def test_a_child_that_says_no_end(self) -> None:
        """Bytes that go on and on don't put the limit off."""
        code = "import sys, time\nwhile True: sys.stdout.write('a'); sys.stdout.flush(); time.sleep(0.05)"
        with self.assertRaises(TimedOut), Station(child(code), limit=0.5) as station:
            station.fresh()

    def test_a_child_that_takes_nothing(self) -> None:
        """Comments have no answer, so a child that doesn't read is noticed where its pipe is full."""
        with self.assertRaises(TimedOut), Station(child("import time; time.sleep(60)"), limit=0.5) as station:
            for _ in range(100):
                station.note("a" * 4000)

    def test_a_child_that_does_not_end(self) -> None:
        with self.assertRaises(TimedOut), Station(child("import time; time.sleep(60)"), limit=0.5):
            pass

    def test_limits(self) -> None:
        for limit in (0, -1, math.nan, math.inf):
            with self.subTest(limit), self.assertRaises(ValueError):
                Station(REPLAY, limit=limit)


class Threads(unittest.TestCase):
    def test_closed_while_another_waits(self) -> None:
        """The other thread has its answer, and then the station is closed."""
        code = "import sys, time; sys.stdin.readline(); time.sleep(0.5); print('ok', flush=True); sys.stdin.read()"
        station = Station(child(code))
        thread, ended = meanwhile(station.fresh)
        while not station.last_event:
            time.sleep(0.01)
        station.close()
        thread.join(10)
        self.assertEqual(ended, [Ok()])
        with self.assertRaises(ValueError):
            station.fresh()
        station.close()

    def test_closed_while_another_waits_for_nothing(self) -> None:
        station = Station(child("import time; time.sleep(60)"), limit=0.5)
        thread, ended = meanwhile(station.fresh)
        while not station.last_event:
            time.sleep(0.01)
        station.close()
        thread.join(10)
        self.assertIsInstance(ended[0], TimedOut)

    def test_what_breaks_one_thread_breaks_all(self) -> None:
        """An answer that the event can't have: no thread that waits for its turn says an event more."""
        code = "import sys\nfor line in sys.stdin: print('error no such event', flush=True)"
        with tempfile.TemporaryDirectory() as folder:
            recording = Path(folder, "session")
            station = Station(child(code), recording)
            setattr(station, "_lock", Fair())
            calls = [meanwhile(station.fresh) for _ in range(4)]
            for thread, _ in calls:
                thread.join(10)
            raised = [ended[0] for _, ended in calls]
            self.assertIsInstance(raised[0], Unexpected)
            self.assertTrue(all(error is raised[0] for error in raised))
            self.assertEqual(recording.read_text(), "fresh\n")
            station.close()


class Strict(unittest.TestCase):
    def test_answers_of_another_form(self) -> None:
        frame = "(0.100000) can0 0300FD01#0000000000000000\n"
        bad = ["sent due 340\n", "ok\n", "waiting due\n", "waiting due 0340\n", "waiting due 340 \n", "finished\n",
               "finished mode PP\n", "finished value F32 3F80000\n", "finished f32 3f800000\n", "refused\n", "refused 0\n", "refused 255\n",
               "refused 14\n", "refused 18 128\n", "refused 1 2\n", frame + "refused 1\n", frame + "waiting due 1\n",
               frame + frame + "sent due 1\n", frame.lower() + "sent due 1\n", "motor 01 FD rs-00 0\n", "\n", "\xff\n",
               "error word 2 is bad\n"]  # fmt: skip
        for text in bad:
            with self.subTest(text), self.assertRaises(Unexpected) as caught, Station(saying(text)) as station:
                station.step(1, 100)
            self.assertEqual(caught.exception.event, "step 1 100")

    def test_answers_to_another_event(self) -> None:
        pairs = [("step 1 1", "ok"), ("look 1", "ok"), ("start 1 1 enable", "ok"), ("fly", "ok"), ("fly", "refused 6"),
                 ("fresh", "refused 6"), ("look 1", "waiting due 1"), ("register 1 1 a 1 1", "finished none"),
                 ("(0.000000) can0 123#", "sent due 1"), ("frame", "(0.000000) can0 00000001#0000000000000000")]  # fmt: skip
        for event, line in pairs:
            with self.subTest(event=event, line=line), self.assertRaises(Unexpected):
                read_answer(event, iter([line, "ok"]).__next__)
        self.assertIsNone(read_answer("# a comment", iter([]).__next__))

    def test_looks_of_another_form(self) -> None:
        with Station(REPLAY) as station:
            station.register(1, 0xFD, "rs-00", 0, 100)
            station.heard(Frame.at(100, 0x028001FD, bytes(8)))
            held = station.look(1)
            assert isinstance(held, Held)
        lines = held.lines()
        bad = [lines[:i] + lines[i + 1 :] + ["end"] for i in range(len(lines) - 1)]
        bad += [lines[:-1] + ["reading 7019 F32 00000000"] * 2 + ["end"]]
        for some in bad:
            with self.subTest(some), self.assertRaises(Unexpected), Station(saying("\n".join(some) + "\n")) as station:
                station.look(1)


class Misuse(unittest.TestCase):
    def test_arguments(self) -> None:
        frame = Frame.at(0, 1, b"")
        with tempfile.TemporaryDirectory() as folder:
            recording = Path(folder, "session")
            with Station(REPLAY, recording) as s:
                calls = [
                    lambda: s.register(1, 0xFD, "rs 00", 0, 0), lambda: s.register(1, 0xFD, "", 0, 0),
                    lambda: s.register(1, 0xFD, "rs-00\n", 0, 0), lambda: s.register(1, 0xFD, "r\u00e9", 0, 0),
                    lambda: s.register(1, 0xFD, "r" * 5000, 0, 0), lambda: s.register(-1, 0xFD, "rs-00", 0, 0),
                    lambda: s.register(1, 2**64, "rs-00", 0, 0), lambda: s.register("1", 0xFD, "rs-00", 0, 0),
                    lambda: s.step(1, 1.5), lambda: s.step(True, 1), lambda: s.look(None), lambda: s.remove(1, -1),
                    lambda: s.start(1, 0, "enable"), lambda: s.heard("(0.1) can0"), lambda: s.frame(0, 2**32, bytes(8)),
                    lambda: s.frame(0, 1, bytes(7)), lambda: s.frame(0, 1, bytes(8), 1), lambda: s.frame(0, 1, bytes(8), True, 256),
                    lambda: s.note("two\nlines"), lambda: s.say("fresh\nfresh"), lambda: s.say("fresh\r"), lambda: s.say("\u00e9"),
                ]  # fmt: skip
                for i, call in enumerate(calls):
                    with self.subTest(i), self.assertRaises(ValueError):
                        call()
                self.assertIsInstance(s.heard(frame), Refused)
            self.assertEqual(recording.read_text(), "(0.000000) can0 00000001#\n")

    def test_commands(self) -> None:
        calls = [
            lambda: Command.ping(-1), lambda: Command.ping(2**64), lambda: Command.ping(1.0), lambda: Command.set_mode("mit"),
            lambda: Command.set_device_id(256), lambda: Command.request_parameter(0x10000),
            lambda: Command.set_active_report(1), lambda: Command.set_velocity_target(2), lambda: Command.set_velocity_target(1e39),
            lambda: Command.write_parameter(0x7005, 1), lambda: Command("fly"), lambda: Command("enable", (1,)),
            lambda: Value(Kind.U8, 256), lambda: Value.i8(128), lambda: Value.i8(-129), lambda: Value.f32(1), lambda: Value("u8", 1),
            lambda: Word(2**32), lambda: Word(-1), lambda: word(1), lambda: Frame(0, 2**29, b""), lambda: Frame(0, 0x1000, b"", False),
            lambda: Frame(0, 0, bytes(9)), lambda: Frame(0, 0, b"", True, "can 0"), lambda: Frame.at(2**64, 0, b""),
        ]  # fmt: skip
        for i, call in enumerate(calls):
            with self.subTest(i), self.assertRaises(ValueError):
                call()

    def test_every_command_is_an_event(self) -> None:
        """Each constructor's line is read by replay, with its arguments at both ends of their ranges."""
        most = {**dict.fromkeys("TIP", 2**64 - 1), "C": Mode.CSP, "B": 255, "F": True, "W": Word(2**32 - 1), "H": 0xFFFF,
                "KW": Value.u16(0xFFFF)}  # fmt: skip
        least = {**dict.fromkeys("TIPBH", 0), "C": Mode.MIT, "F": False, "W": -0.0, "KW": Value.i8(-1)}
        with Station(REPLAY) as station:
            for name, shape in COMMANDS.items():
                for table in (most, least):
                    command = getattr(Command, name)(*(table[part] for part in parts(shape)))
                    self.assertEqual(station.start(1, 0, command), Refused(Refusal(Reason.ID_NOT_REGISTERED)))
                    self.assertEqual(Command.parse(command.text.split(" ")), command)

    def test_floats(self) -> None:
        self.assertEqual((word(1.5), value(0x3FC00000), word(-0.0)), (0x3FC00000, 1.5, 0x80000000))
        self.assertTrue(math.isnan(value(word(math.nan))))
        self.assertEqual((Value.i8(-1).bits, Value.i8(-1).number, Value.f32(0.1).number), (0xFF, -1, value(0x3DCCCCCD)))
        self.assertEqual(Command.set_velocity_target(Word(0x7FA00000)).text, "set_velocity_target 0x7FA00000")


if __name__ == "__main__":
    unittest.main()
