#!/usr/bin/env python3
"""Brings the repository's own definitions and lemmas to snake case, once, after port.py.

    python3 tools/port_names.py            at the top of the repository: renames in place, and prints what it renamed
    python3 tools/port_names.py --list     only prints the names

A name is the repository's own where a file of specs/ or proofs/ declares it. Types, records and modules keep their spelling;
a name with dashes is turned part by part. Strings, and the code of src/ outside contracts, keep theirs: no name of the code
is in camel case. SPECIAL has the names that would fall together with another one.
"""

from __future__ import annotations

import re
import sys
from collections.abc import Iterator
from pathlib import Path

ROOT = Path(__file__).resolve().parents[1]
DECLARED = re.compile(r"^ *(?:(?:unfoldable|abbrev|abstract) )?(?:pub )?([^\s:(){}.,;\"⌜]+)(?: *[({:])")
TOKEN = re.compile(r'"(?:[^"\\\n]|\\.)*"|[^\s(){};:,."\[\]·]+')
# a name that would fall together with another one: a field, a word of the library, a label or another lemma of the same file
SPECIAL = {
    "pingReply": "ping_reply_of",  # `ping_reply` is a field of the motor's state
    "countBy": "acknowledgement_count",  # `count_by` is the library's
    "isOk": "answered_ok",  # `is_ok` is the library's
}
# a label, a local name or a lemma that one of the new names would fall together with
LOCAL = {
    "crates/motor/proofs/LoneOperating.antt": {"step_by": "step-as_lone", "wanted_by": "wanted-as_lone"},
    "crates/motor/proofs/Receiving.antt": {"read_taken": "taken_by-read"},
    "crates/motor/proofs/Editing.antt": {"read_taken": "taken_by-read"},
    "crates/station/proofs/lent/LentPromises.antt": {"call_asks": "call-asks"},
    "crates/station/proofs/lent/LentRuns.antt": {"call_asks": "call-asks"},
    "crates/session/proofs/Reading.antt": {"past_row": "past_row-slice"},
}


def files(root: Path) -> Iterator[Path]:
    for crate in sorted((root / "crates").iterdir()):
        for part in ("src", "specs", "proofs", "must-fail", "wrong-programs"):
            for path in sorted((crate / part).rglob("*")):
                if path.suffix in (".rt", ".antt", ".edit") and "out" not in path.relative_to(root).parts:
                    yield path


def snake(name: str) -> str:
    if name in SPECIAL:
        return SPECIAL[name]
    parts = [p if p[:1].isupper() else re.sub(r"(?<=[a-z0-9])[A-Z]+", lambda m: "_" + m[0].lower(), p) for p in name.split("-")]
    return "-".join(parts)


def own_names(root: Path) -> dict[str, str]:
    """Each declared name in camel case, and what it becomes."""
    found: dict[str, str] = {}
    for path in files(root):
        if path.suffix != ".antt":
            continue
        for line in path.read_text().splitlines():
            declared = DECLARED.match(line)
            if declared and not line.lstrip().startswith(("--", "use ", "pub use ")):
                name = declared[1]
                if re.search(r"[a-z0-9][A-Z]", name) and not name[0].isupper() and not name[0].isdigit():
                    found[name] = snake(name)
    return found


def renamed(text: str, names: dict[str, str]) -> str:
    return TOKEN.sub(lambda m: m[0] if m[0].startswith('"') else names.get(m[0], m[0]), text)


def main() -> int:
    names = own_names(ROOT)
    print("\n".join(f"{old} {new}" for old, new in sorted(names.items())))
    if "--list" in sys.argv:
        return 0
    for path in files(ROOT):
        old = path.read_text()
        new = renamed(old, LOCAL.get(str(path.relative_to(ROOT)), {}) | names)
        if new != old:
            path.write_text(new)
    return 0


if __name__ == "__main__":
    raise SystemExit(main())
