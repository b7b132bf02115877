"""What the tool does: tries the chosen edits, or mutants, prints a line for each, and counts."""

from __future__ import annotations

import re
import tempfile
from collections.abc import Iterator
from contextlib import contextmanager
from dataclasses import replace
from pathlib import Path

from .bench import Bench, Unready, lay, rt, unapplied
from .mutants import mutants_of
from .repository import BadEdit, Edit, Repository
from .tries import MutantTally, Tally, line_of, tried
from .verdict import ELSEWHERE, PROVED, REFUSED, UNTOLD, Verdict, is_settled, verdicts_of

# What rt must-fail says where a crate as it stands isn't proved; it then tries each edit all the same.
UNPROVED = re.compile(r"^rt: (\S+): the check that its must-fail edits begin with did not end well", re.M)


def chosen_edits(repository: Repository, words: list[str]) -> dict[str, list[Edit]]:
    """The edits that the words name, by crate: a crate's name, CRATE/EDIT, or an edit's name; no word names all."""
    every = {crate: repository.edits(crate) for crate in repository.needs}
    for word in words:
        if not any(word in (crate, edit.label, edit.name) for crate, edits in every.items() for edit in edits):
            raise BadEdit(f"no crate with edits, and no edit, is named {word}")
    chosen = {
        crate: [edit for edit in edits if not words or any(word in (crate, edit.label, edit.name) for word in words)]
        for crate, edits in every.items()
    }
    return {crate: edits for crate, edits in chosen.items() if edits}


@contextmanager
def scratch() -> Iterator[Path]:
    """A folder outside the repository, since rt ci refuses a second one within."""
    with tempfile.TemporaryDirectory(prefix="wrong-programs-") as room:
        yield Path(room)


def try_edits(repository: Repository, chosen: dict[str, list[Edit]], jobs: int | None, anew: bool = False) -> Tally:
    """By one run of rt must-fail; where the first line that it gives of a refusal doesn't say enough, by a check of the edited crate."""
    tally = Tally()

    def told(edit: Edit, verdict: Verdict) -> None:
        tally.count(edit, verdict)
        print(line_of(edit, verdict), flush=True)

    texts: dict[str, dict[str, str]] = {}
    for edit in (edit for edits in chosen.values() for edit in edits):
        try:
            texts[edit.label] = edit.texts(repository.crate(edit.crate))
        except BadEdit as wrong:
            told(edit, unapplied(wrong))
    applied = [edit for edits in chosen.values() for edit in edits if edit.label in texts]
    with scratch() as room:
        verdicts = must_fail(repository, room, applied, jobs, anew)
        unsettled = []
        for edit in applied:
            if is_settled(verdicts[edit.label], edit.aim, repository.crate(edit.crate), texts[edit.label]):
                told(edit, verdicts[edit.label])
            else:
                unsettled.append(edit)
        if unsettled:
            print(f"wrong-programs: the first error says too little of {len(unsettled)}, which are looked at by themselves", flush=True)
            for edit, verdict in tried([Bench(repository, room / f"bench-{place}") for place in range(jobs or 2)], unsettled):
                first = verdicts[edit.label]
                if verdict.ending == PROVED and first.ending == REFUSED:
                    # (the crate isn't proved, and what must refuse it is)
                    verdict = replace(first, ending=ELSEWHERE)
                told(edit, verdict)
    return tally


def must_fail(repository: Repository, room: Path, edits: list[Edit], jobs: int | None, anew: bool) -> dict[str, Verdict]:
    """What rt must-fail says of each. It begins with a check of each crate as it stands, but for a single edit over nothing kept."""
    if not edits:
        return {}
    root = room / "edits"
    lay(repository, root, edits)
    crates = list(dict.fromkeys(edit.crate for edit in edits))
    for crate in crates:
        if sum(edit.crate == crate for edit in edits) == 1:
            status, said = rt(root / "crates" / crate, "check")
            if status != 0 or "\nlogic=proved" not in said:
                raise Unready(said)
    _, said = rt(root, "must-fail", *(["--anew"] if anew else []), *crates, jobs=jobs)
    verdicts = verdicts_of(said)
    if any(verdict.ending == UNTOLD for verdict in verdicts.values()):
        # a check that was killed, most likely for memory; what was told is kept
        _, said = rt(root, "must-fail", *crates, jobs=jobs)
        verdicts = verdicts_of(said)
    if UNPROVED.search(said) or any(edit.label not in verdicts for edit in edits):
        raise Unready(said)
    return verdicts


def try_mutants(repository: Repository, crate: str, count: int, seed: int, jobs: int | None) -> MutantTally:
    if crate not in repository.needs:
        raise BadEdit(f"no crate is named {crate}")
    tally = MutantTally(crate, count)
    with scratch() as room:
        benches = [Bench(repository, room / f"bench-{place}") for place in range(jobs or 2)]
        control = benches[0].control(crate)
        print(f"wrong-programs: {crate} as it stands is proved ({control.seconds:.1f} s)", flush=True)
        for edit, verdict in tried(benches, tally.wanted(mutants_of(repository.crate(crate), crate, seed))):
            tally.count(edit, verdict)
            print(line_of(edit, verdict), flush=True)
        # what a try left kept proves nothing wrong
        benches[0].control(crate)
    return tally
