"""One name for a function and its definition, and one meaning for the name of a type.

    python3 tools/test_names.py

A contract that says `result ≡ definition` of the function's own parameters names the definition by the function: that of `fn
some_name` is `some_name`; of a method the type comes first, but where the definition takes its fields; a function that puts text into a
buffer, `put_thing`, puts `thing_text`; one word may have a preposition or the type of the result after it (docs/ARCHITECTURE.md, 'Names').
"""

from __future__ import annotations

import re
import shutil
import tempfile
import unittest
from collections.abc import Collection, Iterator
from dataclasses import dataclass
from pathlib import Path

ROOT = Path(__file__).resolve().parents[1]
PREPOSITIONS = ("of", "in", "at", "by", "to")
TESTS_ONLY = ("codec_abi", "codec_abi_c", "station_abi", "vectors")
# a function that promises another function's definition, and why
PROMISED = {
    "answers/src/said.rt put_last_line": "last_line: the last line of what is said to a start or a step, older than its function",
    "codec/src/model.rt name": "model_text: the text of a model, as answers' definitions of text are called",
    "codec/src/protocol.rt of_kind": "value_as: the definitions of document 01's values are older than their type's methods",
    "codec/src/protocol.rt kind": "kind_in, likewise",
    "codec/src/protocol.rt raw": "raw_of, likewise",
    "codec/src/replies.rt ping_reply": "ping_reply_of: `ping_reply` is a field of the motor's state, and a clause would read that",
    "motor/src/engine/moves.rt count_by": "acknowledgement_count: `count_by` is a word of the library",
    "motor/src/motor.rt idle_at": "remove_said: a removal's two tests are a start's first",
    "text/src/put.rt put_decimal_in": "decimal_in: it is on at most k digits, and `decimal_text` is that of all twenty",
}
# what a definition is given: parameters, and fields of self
GIVEN = r"((?: (?:self\.)?\w+)*)"
# a name that several types have, and why
TYPES = {
    "Row": "a row of a table of examples, each table's own",
}


@dataclass(frozen=True)
class Function:
    """A function as its source states it: where it stands, its type where it is a method, and its contracts."""

    place: str
    name: str
    type: str
    parameters: list[str]
    result: str
    contracts: list[str]


def functions(crates: Path) -> Iterator[Function]:
    for path in sorted(crates.glob("*/src/**/*.rt")):
        text = path.read_text()
        heads = list(re.finditer(r"^ *(?:pub(?:\(\w+\))? )?(?:extern \"C\" )?fn (\w+)(?:<[^>(]*>)?\(", text, re.M))
        for head, after in zip(heads, [*heads[1:], None]):
            whole = text[head.end() : after.start() if after else len(text)]
            signature = re.match(r"([^)]*)\)(?: -> ([^\n{]+))?", whole)
            assert signature, head[1]
            owners = re.findall(r"^(?:impl(?:<[^>]*>)? (\w+)|(\}))", text[: head.start()], re.M)
            yield Function(
                place=f"{path.relative_to(crates)} {head[1]}",
                name=head[1],
                type=owners[-1][0] if owners else "",
                parameters=re.findall(r"\b(self|\w+(?=:))", signature[1]),
                result=(signature[2] or "").strip(),
                contracts=list(ensured(whole)),
            )


def ensured(text: str) -> Iterator[str]:
    """The clauses of a function that say what it ensures, each on one line."""
    for head in re.finditer(r"^ *ensures(?: \w+)? \{", text, re.M):
        depth, place = 1, head.end()
        while depth:
            depth += {"{": 1, "}": -1}.get(text[place], 0)
            place += 1
        yield " ".join(text[head.end() : place - 1].split())


def snake(name: str) -> str:
    return re.sub(r"(?<=[a-z0-9])[A-Z]", lambda capital: f"_{capital[0]}", name).lower()


def names(function: Function, form: str) -> set[str]:
    """What a function's definition may be called, by the form of what it promises."""
    name = function.name.removeprefix("codec_") if function.place.startswith("codec_abi") else function.name
    if form == "put" and name.startswith("put_"):
        return {f"{name.removeprefix('put_')}_text"}
    if function.type and form != "fields":
        return {f"{snake(function.type)}_{name}"}
    if "_" in name:
        return {name}
    return {name, *(f"{name}_{word}" for word in PREPOSITIONS), f"{name}_{snake(function.result)}"}


def promised(function: Function) -> Iterator[tuple[str, str]]:
    """The definition that a contract says of the function's own parameters alone, and the form: `put` of text that is put, `fields`
    where self is given by its fields, or else `whole`."""
    for contract in function.contracts:
        text = re.sub(r"\b(\w+)\.(?:old|now)\b", r"\1", contract).replace("«", "").replace("»", "")
        said = re.match(rf"\(?result ≡ ([a-z][\w.]*){GIVEN}(?=\)? ×|$)", text)
        put = re.match(rf"(?:out\.new ≡ put out|self\.new ≡ put self|Put out at) \(?([a-z][\w.]*){GIVEN}\)?(?: out\.new result)?$", text)
        found = said or put
        if not found:
            continue
        own = [name for name in function.parameters if not (put and name in ("out", "at", "self"))]
        given = re.sub(r"\bself\.\w+(?: self\.\w+)*", "self", found[2])
        if sorted(given.split()) == sorted(own):
            yield found[1].split(".")[-1], "put" if put else "whole" if given == found[2] else "fields"


def defined(crates: Path) -> set[str]:
    """The definitions of all specs."""
    return {
        name
        for path in crates.glob("*/specs/**/*.antt")
        for name in re.findall(r"^(?:\w+ )?pub (\S+) :", path.read_text(), re.M)
    }


def misnamed(crates: Path, exceptions: Collection[str] = PROMISED) -> list[str]:
    """The functions whose definition has another name."""
    known = defined(crates)
    return [
        f"{function.place}: {definition}, not {' or '.join(sorted(names(function, form)))}"
        for function in functions(crates)
        for definition, form in promised(function)
        if definition in known and definition not in names(function, form) and function.place not in exceptions
    ]


def types_twice(crates: Path) -> list[str]:
    """The names that two types of code or definitions have."""
    places: dict[str, list[str]] = {}
    for path in sorted([*crates.glob("*/src/**/*.rt"), *crates.glob("*/specs/**/*.antt")]):
        if path.relative_to(crates).parts[0] not in TESTS_ONLY:
            for name in re.findall(r"^ *(?:pub(?:\(\w+\))? )?(?:struct|enum|record|data) (\w+)", path.read_text(), re.M):
                places.setdefault(name, []).append(str(path.relative_to(crates)))
    return [f"{name}: {', '.join(found)}" for name, found in places.items() if len(found) > 1 and name not in TYPES]


class Names(unittest.TestCase):
    def test_a_definition_has_its_functions_name(self) -> None:
        self.assertEqual(misnamed(ROOT / "crates"), [])

    def test_a_type_has_one_meaning(self) -> None:
        self.assertEqual(types_twice(ROOT / "crates"), [])

    def test_enough_contracts_are_seen(self) -> None:
        self.assertGreater(sum(1 for function in functions(ROOT / "crates") for _ in promised(function)), 200)

    def test_exceptions_are_needed(self) -> None:
        self.assertEqual({line.split(":")[0] for line in misnamed(ROOT / "crates", ())}, set(PROMISED))

    def test_a_broken_name_is_found(self) -> None:
        with tempfile.TemporaryDirectory() as scratch:
            crates = Path(scratch)
            shutil.copytree(ROOT / "crates/codec", crates / "codec")
            (crates / "codec/src/told.rt").write_text(TOLD)
            (crates / "codec/specs/Told.antt").write_text(DEFINITIONS)
            self.assertEqual(
                [line.split(":")[0].split()[-1] for line in misnamed(crates)],
                ["hear_state", "put_ok", "look", "pinged", "put_one"],
            )
            self.assertEqual(types_twice(crates), ["CanFrame: codec/specs/Told.antt, codec/src/bus.rt"])


# five broken names, and seven right ones
TOLD = """
fn hear_state(s: State, now: u64) -> State
    ensures { result ≡ state_heard s now }
fn put_ok<const N: usize>(n: u64, out: &mut Text<N>)
    ensures { out.new ≡ put out.old (ok_of n) }
fn look(st: &[u8], id: u16) -> Looked
    ensures is {
        (result ≡ spec.shown_in st.now id) × (id ≤ 9)
    }
fn told_by(s: State) -> State
    ensures { result ≡ told_by s }
fn put_no<const N: usize>(n: u64, out: &mut Text<N>)
    ensures { out.new ≡ put out.old (spec.no_text n) }
fn new(id: u16) -> Motor
    ensures { result ≡ new_motor id }
fn start(s: State) -> State
    ensures { result ≡ spec.start_in s }
fn stop(s: State) -> State
    ensures kept { result ≡ s }
    ensures { result ≡ spec.stop s }
impl Turn {
    fn tried(self, wait: u64) -> Moved
        ensures { result ≡ tried self.sight self.time wait }
    fn pinged(self, wait: u64) -> Moved
        ensures { result ≡ tried self.sight self.time wait }
    fn put_one(&mut self, n: u64)
        ensures { self.new ≡ put self.old (one_of n) }
    fn put_ten(&mut self, n: u64)
        ensures { self.new ≡ put self.old (ten_text n) }
}
"""
DEFINITIONS = "pub record CanFrame : Type 0 where\n" + "".join(
    f"abbrev pub {name} : A\n"
    for name in ("state_heard", "ok_of", "shown_in", "told_by", "no_text", "new_motor", "start_in", "stop", "tried", "one_of", "ten_text")
)


if __name__ == "__main__":
    unittest.main()
