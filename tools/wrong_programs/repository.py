"""The crates of the repository, and the edits beside them."""

from __future__ import annotations

import re
from dataclasses import dataclass
from pathlib import Path

from .source import functions_in

PARTS = ("src", "specs", "proofs")
# where edits stand: those that rt ci tries, and those that only this tool does
FOLDERS = ("must-fail", "wrong-programs")
# the comment line that names what refuses the edit: a function, by a proof file of it or by its source, or a file of lemmas
REFUSED_AT = re.compile(r"^# refused at: (\S+(?: fn \w+)?)$", re.M)
PROOF = re.compile(r"proofs/(.+)/(?:Proof|Answers|Invariants)\.antt")


class BadEdit(Exception):
    """An edit that can't be applied."""


@dataclass(frozen=True)
class Change:
    """One text in a file for another."""

    file: str
    old: str
    new: str


@dataclass(frozen=True)
class Aim:
    """What must refuse an edit: a function, by its path in the crate, or any line of a file."""

    function: str = ""
    file: str = ""

    def __str__(self) -> str:
        return f"fn {self.function}" if self.function else self.file


@dataclass(frozen=True)
class Edit:
    """A wrong program: changes of one crate, in rt's format, and what must refuse it, which a mutant doesn't know."""

    crate: str
    name: str
    changes: tuple[Change, ...]
    aim: Aim | None = None
    path: Path | None = None

    @property
    def label(self) -> str:
        return f"{self.crate}/{self.name}"

    def texts(self, folder: Path) -> dict[str, str]:
        """The files of the crate as the edit leaves them. An old text that isn't there, or stands there twice, is refused, as rt refuses it."""
        if not self.changes:
            raise BadEdit("it has no 'old:' and 'new:' pair")
        texts: dict[str, str] = {}
        for change in self.changes:
            path = folder / change.file
            inside = change.file.split("/")[0] in PARTS and ".." not in change.file.split("/")
            if not inside or not path.is_file():
                raise BadEdit(f"{change.file} is no file of the crate")
            text = texts.get(change.file) or path.read_text(encoding="utf-8")
            if not change.old or text.count(change.old) != 1:
                raise BadEdit(f"an 'old:' text is in {change.file} {text.count(change.old) if change.old else 'no'} times")
            texts[change.file] = text.replace(change.old, change.new)
        if all(text == (folder / file).read_text(encoding="utf-8") for file, text in texts.items()):
            raise BadEdit("it changes nothing")
        return texts


def changes_of(text: str) -> tuple[Change, ...]:
    """rt's format: a 'file:' line holds for the 'old:' and 'new:' pairs after it; any other line is passed over."""
    file, old, found = "", "", []
    for line in text.split("\n"):
        if line.startswith("file: "):
            file = line[6:]
        elif line.startswith("old: "):
            old = line[5:]
        elif line.startswith("new:"):
            new = line[4:]
            found.append(Change(file, old, new[1:] if new.startswith(" ") else new))
            old = ""
    return tuple(found)


def aim_of(folder: Path, said: str) -> Aim | None:
    """What a line 'refused at' names, if the crate has it: `proofs/word/value/Answers.antt`, whether or not the function has such a file,
    `src/word.rt fn value`, `proofs/Masks.antt` or `src/main.rt`."""
    proof = PROOF.fullmatch(said)
    file, _, name = said.partition(" fn ")
    if proof:
        path = "::".join(part.removeprefix("+") for part in proof[1].split("/"))
        known = [function.path for source in sources(folder) for function in functions_in(folder, source)]
        return Aim(function=path) if known.count(path) == 1 else None
    if file.split("/")[0] not in PARTS or not (folder / file).is_file():
        return None
    if not name:
        return Aim(file=file)
    found = [function.path for function in functions_in(folder, file) if function.name == name] if file.startswith("src/") else []
    return Aim(function=found[0]) if len(found) == 1 else None


def sources(folder: Path) -> list[str]:
    """The crate's source files."""
    return sorted(str(path.relative_to(folder)) for path in (folder / "src").rglob("*.rt"))


class Repository:
    """A folder with crates.txt."""

    def __init__(self, root: Path):
        self.root = root
        self.needs: dict[str, list[str]] = {}
        for line in (root / "crates.txt").read_text(encoding="utf-8").splitlines():
            words, colon, needs = line.partition("#")[0].partition(":")
            if colon:
                self.needs[words.split()[0]] = needs.split()

    def crate(self, name: str) -> Path:
        return self.root / "crates" / name

    def edits(self, name: str) -> list[Edit]:
        """The edits of a crate, by name."""
        files = [file for folder in FOLDERS for file in (self.crate(name) / folder).glob("*.edit")]
        names = [file.stem for file in files]
        twice = sorted({n for n in names if names.count(n) > 1})
        if twice:
            raise BadEdit(f"{name} has two edits of the name {twice[0]}")
        return [self.edit(name, file) for file in sorted(files, key=lambda file: file.stem)]

    def edit(self, name: str, file: Path) -> Edit:
        """An edit of a crate, as its file has it."""
        text = file.read_text(encoding="utf-8")
        said = REFUSED_AT.findall(text)
        aim = aim_of(self.crate(name), said[0]) if len(said) == 1 else None
        if aim is None:
            raise BadEdit(f"{name}/{file.stem} doesn't name the one proof that must refuse it, as in '# refused at: src/word.rt fn value'")
        return Edit(name, file.stem, changes_of(text), aim, file)
