"""What a Rattle file has: its functions by their paths, and what of it a mutant may change, bodies and the values of constants."""

from __future__ import annotations

import re
from dataclasses import dataclass
from pathlib import Path

HIDDEN = re.compile(r"//[^\n]*|b\"(?:\\.|[^\"\\])*\"|b'(?:\\.[^']*|[^'\\])'")
FUNCTION = re.compile(r"\bfn\s+\w+")
CONSTANT = re.compile(r"\bconst\s+\w+\s*:[^=]+=([^;]*);")
AHEAD = re.compile(r"\b(?:requires|ensures|ghost)\b|[{;]")
CLOSING = {"(": ")", "{": "}", "[": "]"}
HEAD = re.compile(r"^ *(?:pub(?:\(\w+\))? )?(?:const )?(?:extern \"C\" )?fn (\w+)", re.M)
OWNER = re.compile(r"^(?:impl(?:<[^>]*>)? ([^{]+?) *\{|(\}))", re.M)


@dataclass(frozen=True)
class Function:
    """A function of a crate: its path, as rt says it, and the lines from its attributes on."""

    path: str
    first: int
    last: int

    @property
    def name(self) -> str:
        return self.path.split("::")[-1]


def module_of(file: str) -> list[str]:
    """The path of a source file's module."""
    parts = file.removeprefix("src/").removesuffix(".rt").split("/")
    return [] if parts in (["lib"], ["main"]) else parts


def owner_of(head: str) -> str:
    """The name that rt gives an impl: `ControlMode`, and `KindDisplay` for `fmt::Display for Kind`."""
    words = [re.sub(r"<.*", "", word).split("::")[-1] for word in re.split(r"\bfor\b", head)]
    return "".join(word.strip() for word in reversed(words))


def functions_in(folder: Path, file: str, text: str | None = None) -> list[Function]:
    """The functions of a source file."""
    whole = (folder / file).read_text(encoding="utf-8") if text is None else text
    lines, found = whole.split("\n"), []
    for head in HEAD.finditer(whole):
        first = whole.count("\n", 0, head.start()) + 1
        while first > 1 and re.match(r" *(?:#\[|//)", lines[first - 2]):
            first -= 1
        owners = [owner_of(owner[1]) if owner[1] else "" for owner in OWNER.finditer(whole[: head.start()])]
        owner = [owners[-1]] if owners and owners[-1] else []
        found.append((first, "::".join([*module_of(file), *owner, head[1]])))
    ends = [first - 1 for first, _ in found[1:]] + [len(lines)]
    return [Function(path, first, last) for (first, path), last in zip(found, ends)]


def blank(text: str) -> str:
    """Spaces of the same length, lines kept."""
    return re.sub(r"[^\n]", " ", text)


def closed(text: str, opening: int) -> int:
    """Where the bracket that opens here is closed."""
    depth, one, other = 0, text[opening], CLOSING[text[opening]]
    for place in range(opening, len(text)):
        depth += (text[place] == one) - (text[place] == other)
        if depth == 0:
            return place
    raise ValueError(f"a bracket at {opening} isn't closed")


def body_of(text: str, place: int) -> tuple[int, int] | None:
    """The body of the function whose name ends here: behind its parameters and its clauses."""
    place = closed(text, text.index("(", place)) + 1
    while ahead := AHEAD.search(text, place):
        if ahead[0] == ";":
            return None
        opening = text.index("{", ahead.start())
        closing = closed(text, opening)
        if ahead[0] == "{":
            return opening, closing
        place = closing + 1
    return None


def open_to_change(text: str) -> str:
    """The text with all else blanked: comments, byte strings, declarations, signatures and clauses."""
    bare = HIDDEN.sub(lambda hidden: blank(hidden[0]), text)
    spans = [constant.span(1) for constant in CONSTANT.finditer(bare)]
    for function in FUNCTION.finditer(bare):
        body = body_of(bare, function.end())
        if body:
            spans.append(body)
    shown = list(blank(bare))
    for start, end in spans:
        shown[start:end] = bare[start:end]
    return "".join(shown)


def parts(text: str, start: int, end: int) -> list[tuple[int, int]]:
    """What commas part between two places, brackets kept whole, without the blanks around each part."""
    cuts, place = [start], start
    while place < end:
        if text[place] in CLOSING:
            place = closed(text, place)
        elif text[place] == ",":
            cuts += [place, place + 1]
        place += 1
    cuts.append(end)
    trimmed = []
    for one, other in zip(cuts[::2], cuts[1::2]):
        inner = text[one:other]
        if inner.strip():
            lead = len(inner) - len(inner.lstrip())
            trimmed.append((one + lead, one + lead + len(inner.strip())))
    return trimmed
