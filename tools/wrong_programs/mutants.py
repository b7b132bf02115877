"""Small wrong programs made by rule.

A relation, an operator, a constant off by one, two arguments exchanged, two fields exchanged, an assignment left out, a bool
turned: one of these in one place of a function's body.
"""

from __future__ import annotations

import random
import re
from collections.abc import Iterator
from itertools import zip_longest
from pathlib import Path

from .repository import Change, Edit
from .source import closed, open_to_change, parts

RELATIONS = {"<": "<=", "<=": "<", ">": ">=", ">=": ">", "==": "!=", "!=": "=="}
OPERATORS = {
    "+": "-", "-": "+", "*": "/", "/": "*", "%": "/", "&": "|", "|": "&", "^": "&", "<<": ">>", ">>": "<<",
    "&&": "||", "||": "&&", "+=": "-=", "-=": "+=",
}  # fmt: skip
RELATION = re.compile(r"(?<=\S )(<=|>=|==|!=|<|>)(?= )")
OPERATOR = re.compile(r"(?<=\S )(\+=|-=|<<|>>|&&|\|\||[-+*/%&|^])(?= )")
NUMBER = re.compile(r"(?<![\w.])(0x[0-9A-Fa-f_]+|\d[\d_]*)(\.\d+)?(?![\w.])")
CALL = re.compile(r"[A-Za-z_]\w*\(")
STRUCT = re.compile(r"\b[A-Z]\w*(?:::\w+)* \{")
ASSIGNMENT = re.compile(r"^ *[a-z_][\w.\[\]]* (?:=|\+=|-=) [^;]*;\n", re.M)
BOOL = re.compile(r"\b(true|false)\b")
CONDITION = re.compile(r"\bif (?!let\b)(?!!)([^{}]+) \{")
NEGATION = re.compile(r"(?<=[\s(])!(?=[\w(])")

# a change of a text: where it begins and ends, and what stands there then
Place = tuple[int, int, str]


def relations(shown: str) -> Iterator[Place]:
    for hit in RELATION.finditer(shown):
        yield hit.start(), hit.end(), RELATIONS[hit[1]]


def operators(shown: str) -> Iterator[Place]:
    for hit in OPERATOR.finditer(shown):
        yield hit.start(), hit.end(), OPERATORS[hit[1]]


def constants(shown: str) -> Iterator[Place]:
    for hit in NUMBER.finditer(shown):
        digits, fraction = hit[1].replace("_", ""), hit[2] or ""
        for off in (1, -1):
            number = int(digits, 16 if digits.startswith("0x") else 10) + off
            if number >= 0:
                yield hit.start(), hit.end(), (f"0x{number:X}" if digits.startswith("0x") else str(number)) + fraction


def exchanged(shown: str, one: tuple[int, int], other: tuple[int, int]) -> Place:
    between = shown[one[1] : other[0]]
    return one[0], other[1], shown[slice(*other)] + between + shown[slice(*one)]


def arguments(shown: str) -> Iterator[Place]:
    for hit in CALL.finditer(shown):
        given = parts(shown, hit.end(), closed(shown, hit.end() - 1))
        for one, other in zip(given, given[1:]):
            if shown[slice(*one)] != shown[slice(*other)]:
                yield exchanged(shown, one, other)


def fields(shown: str) -> Iterator[Place]:
    for hit in STRUCT.finditer(shown):
        given = parts(shown, hit.end(), closed(shown, hit.end() - 1))
        named = [(span, re.fullmatch(r"(\w+)(?:: (.+))?", shown[slice(*span)], re.S)) for span in given]
        for (one, first), (other, second) in zip(named, named[1:]):
            if first and second and (first[2] or first[1]) != (second[2] or second[1]):
                between = shown[one[1] : other[0]]
                text = f"{first[1]}: {second[2] or second[1]}{between}{second[1]}: {first[2] or first[1]}"
                yield one[0], other[1], text


def assignments(shown: str) -> Iterator[Place]:
    for hit in ASSIGNMENT.finditer(shown):
        yield hit.start(), hit.end(), ""


def bools(shown: str) -> Iterator[Place]:
    for hit in BOOL.finditer(shown):
        yield hit.start(), hit.end(), "false" if hit[1] == "true" else "true"
    for hit in CONDITION.finditer(shown):
        yield hit.start(1), hit.end(1), f"!({hit[1]})"
    for hit in NEGATION.finditer(shown):
        yield hit.start(), hit.end(), ""


RULES = {
    "relation": relations,
    "operator": operators,
    "constant": constants,
    "arguments": arguments,
    "fields": fields,
    "assignment": assignments,
    "bool": bools,
}


def change_at(file: str, text: str, start: int, end: int, new: str) -> Change:
    """The change as whole lines, as many above it as make them the only ones of their kind."""
    first = text.rfind("\n", 0, start) + 1
    last = text.find("\n", max(start, end - 1))
    while text.count(text[first:last]) > 1 and first > 0:
        first = text.rfind("\n", 0, first - 1) + 1
    return Change(file, text[first:last], text[first:start] + new + text[end:last])


def words_of(text: str) -> str:
    return " ".join(text.split()) or "nothing"


def mutants_in(file: str, text: str, crate: str) -> Iterator[Edit]:
    """Every mutant of a file."""
    shown = open_to_change(text)
    for rule, places in RULES.items():
        for start, end, new in places(shown):
            line = text.count("\n", 0, start) + 1
            # byte strings and comments are blank in what the rules see
            new = new if shown[start:end] == text[start:end] else None
            if new is not None:
                name = f"{rule} {file}:{line}: {words_of(text[start:end])} -> {words_of(new)}"
                yield Edit(crate, name, (change_at(file, text, start, end, new),))


def mutants_of(folder: Path, crate: str, seed: int) -> Iterator[Edit]:
    """Every mutant of a crate, one of each rule after the other, in an order that the seed gives."""
    found: dict[str, list[Edit]] = {rule: [] for rule in RULES}
    for path in sorted((folder / "src").rglob("*.rt")):
        for mutant in mutants_in(str(path.relative_to(folder)), path.read_text(encoding="utf-8"), crate):
            found[mutant.name.split()[0]].append(mutant)
    for mutants in found.values():
        random.Random(seed).shuffle(mutants)
    for turn in zip_longest(*found.values()):
        yield from (mutant for mutant in turn if mutant)
