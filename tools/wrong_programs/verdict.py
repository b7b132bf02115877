"""What the prover said of a wrong program."""

from __future__ import annotations

import re
from dataclasses import dataclass, replace
from pathlib import Path

from .repository import PROOF, Aim
from .source import functions_in

REFUSED = "refused"
PROVED = "PROVED"
UNCOMPILED = "DOESN'T COMPILE"
UNTOLD = "NO VERDICT"
ELSEWHERE = "REFUSED ELSEWHERE"

FACT = "fact"
FIT = "fit"

# An error of antt's, or a goal of a function that no search closed.
ERROR = re.compile(r"^(?:\./)?(?P<place>\S+:\d+:\d+): error: (?P<text>.*)$")
NEED = re.compile(r"^note: (?:\./)?(?P<place>\S+:\d+:\d+): (?P<text>it is not proved that .*)$")
# A function whose goals a search left open.
OPEN = re.compile(r"^fn (?P<place>[\w+:]+): (?P<text>no proof: .*did not prove .*)$")
FRONT = re.compile(r"^error\S*: .*$|^\S+: error.*$", re.M)
# Behind the first failure callers fail too, and say no more than that.
CONSEQUENCE = "was not admitted"

# How the prover words a fact that doesn't hold, and a proof that only doesn't fit; the first that is found counts.
WORDS = (
    ("no occurrence of the path's left endpoint", FIT, "a rewrite finds no place"),
    ("is not in scope", FIT, "a name is gone"),
    ("has no field", FIT, "a name is gone"),
    ("has no `", FIT, "a name is gone"),
    ("it is not proved that", FACT, "a goal isn't proved"),
    ("did not prove", FACT, "a goal isn't proved"),
    ("the goal does not follow", FACT, "a counterexample"),
    ("does not hold", FACT, "two sides differ"),
    ("must be a path whose two ends are equal", FACT, "two sides differ"),
    ("give a proof of that as the last argument", FACT, "two sides differ"),
    ("`search`: no proof", FACT, "a goal isn't proved"),
    ("the two types", FACT, "two sides differ"),
    ("but this has type", FACT, "two sides differ"),
    ("expected type `", FACT, "two sides differ"),
)
# What rt must-fail says in brackets of a refusal that says little, and of an edit that it takes for one that the prover can't read, by the
# first line about an edited file. An edit that changes a lemma's own table falls under this too.
NAMED = "only because a proof file names what the edit took away"
LIMIT = "only by a limit of the prover"
UNREAD = "the prover cannot read the edited text"


@dataclass(frozen=True)
class Verdict:
    """One try: how it ended, how long it took, where the error that counts stands, and what that error shows."""

    ending: str
    seconds: float
    place: str
    message: str
    shows: str
    reason: str


# The lines of rt must-fail. What the prover said first follows, cut to 160 letters.
SAID = re.compile(
    r"^rt: must-fail (?P<label>[\w.-]+/[\w.-]+)\.edit: (?P<how>refused, as it must be|NOT REFUSED|BAD EDIT|NOT TRIED)(?: \((?P<only>only [^)]*)\))?(?:: (?P<text>.*))?$"
)
ENDINGS = {"refused, as it must be": REFUSED, "NOT REFUSED": PROVED, "BAD EDIT": UNCOMPILED, "NOT TRIED": UNTOLD}


def verdicts_of(said: str) -> dict[str, Verdict]:
    """Each edit's verdict, by its name, of what rt must-fail printed."""
    found: dict[str, Verdict] = {}
    label = ""
    for line in said.split("\n"):
        hit = SAID.match(line)
        if hit:
            label = hit["label"]
            found[label] = verdict_in(ENDINGS[hit["how"]], hit["only"] or "", hit["text"] or "")
        elif line.startswith("rt: "):
            label = ""
        elif label and found[label].ending in (UNCOMPILED, UNTOLD):
            # what the compiler said stands on the lines below
            found[label] = replace(found[label], message=f"{found[label].message} {line.strip()}".strip())
    return found


def verdict_in(ending: str, only: str, text: str) -> Verdict:
    hit = ERROR.match(text) or NEED.match(text)
    place, message = (hit["place"], hit["text"]) if hit else ("", text)
    shows, reason = ("", "") if ending != REFUSED else shown_by(message)
    if only.startswith(NAMED):
        shows, reason = FIT, "a name is gone"
    if only.startswith(LIMIT):
        shows, reason = FIT, "a limit of the prover"
    return Verdict(ending, 0.0, place, message, shows, reason)


def is_settled(verdict: Verdict, aim: Aim | None, folder: Path, texts: dict[str, str]) -> bool:
    """Whether the first line of a refusal says all: it stands where it must, and shows what it shows."""
    if verdict.ending != REFUSED or verdict.reason == "a limit of the prover":
        return not verdict.message.startswith(UNREAD)
    return bool(verdict.shows == FACT and (aim is None or is_at(verdict.place, aim, folder, texts)))


def verdict_of(status: int, said: str, seconds: float, crate: str, aim: Aim | None, folder: Path, texts: dict[str, str]) -> Verdict:
    """What rt check said of an edited crate. Refused is what isn't proved, at what is named; an edit that doesn't reach the prover says
    nothing. What counts is the first error there, or, where nothing is named, the first of all: one that shows a fact before one that doesn't."""
    if status == 1 and re.search(r"^(?:logic=not-proved|only=\d+ proved=)", said, re.M):
        ending = REFUSED
    elif status == 0 and re.search(r"^(?:logic=proved|only=\d+ proved=)", said, re.M):
        ending = PROVED
    elif status == 3:
        ending = UNTOLD
    else:
        ending = UNCOMPILED
    place, message = first_error(said)
    if ending == REFUSED:
        there = [error for error in own_errors(said) if aim is None or is_at(error[0].removeprefix(f"{crate}::"), aim, folder, texts)]
        if there:
            place, message = min(there, key=lambda error: shown_by(error[1])[0] != FACT)
        elif aim is not None:
            ending = ELSEWHERE
    shows, reason = shown_by(message)
    return Verdict(ending, seconds, place, message, shows, reason)


def errors(said: str) -> list[tuple[str, str]]:
    """Each error: where it stands in the crate, or the function that it is said of, and its text with the lines that explain it."""
    found: list[tuple[str, list[str]]] = []
    inside = False
    for line in said.split("\n"):
        hit = ERROR.match(line) or NEED.match(line) or OPEN.match(line)
        if hit:
            found.append((hit["place"], [hit["text"]]))
        elif inside and line.startswith(" "):
            found[-1][1].append(line.strip())
        inside = bool(found) and (hit is not None or (inside and line.startswith(" ")))
    return [(place, "\n".join(lines)) for place, lines in found]


def own_errors(said: str) -> list[tuple[str, str]]:
    """Those that aren't another's consequence."""
    return [error for error in errors(said) if CONSEQUENCE not in error[1]]


def is_at(place: str, aim: Aim, folder: Path, texts: dict[str, str]) -> bool:
    """Whether an error stands at a function, in its text or in a file of its proof, or in a file."""
    if not place:
        return False
    if not re.search(r":\d+:\d+$", place):
        return place == aim.function
    file, line, _ = place.rsplit(":", 2)
    if aim.file:
        return file == aim.file
    proof = PROOF.fullmatch(file)
    if proof:
        return "::".join(part.removeprefix("+") for part in proof[1].split("/")) == aim.function
    if not file.startswith("src/") or not (folder / file).is_file():
        return False
    there = [function.path for function in functions_in(folder, file, texts.get(file)) if function.first <= int(line) <= function.last]
    return aim.function in there


def first_error(said: str) -> tuple[str, str]:
    """The first error that isn't another's consequence; of a program that doesn't compile, the compiler's."""
    found = own_errors(said) or errors(said)
    if found:
        return found[0]
    front = FRONT.search(said)
    return "", front[0] if front else said.strip().split("\n")[0]


def shown_by(message: str) -> tuple[str, str]:
    """Whether an error shows a fact that doesn't hold, and how it is worded."""
    for words, shows, reason in WORDS:
        if words in message:
            return shows, reason
    return FIT, "the proof doesn't fit"
