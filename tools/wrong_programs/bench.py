"""Where a wrong program is tried: scratch repositories with the crates' texts, and nothing of what was proved of them.

rt itself shares what checks kept among the copies of a repository on one machine (`rt check` and `rt must-fail` begin with it), so a
scratch repository is as warm as the newest check of the same text anywhere, and from nothing where there was none.
"""

from __future__ import annotations

import os
import shutil
import subprocess
import time
from dataclasses import dataclass
from pathlib import Path

from .repository import PARTS, BadEdit, Edit, Repository
from .verdict import UNCOMPILED, Verdict, verdict_of


class Unready(Exception):
    """The crate as it stands isn't proved, so nothing can be tried on it."""


@dataclass(frozen=True)
class Control:
    """The crate as it stands is proved."""

    seconds: float


def rt(folder: Path, *words: str, jobs: int | None = None) -> tuple[int, str]:
    """Runs rt in a folder, and gives all that it prints. With jobs it does so many things at a time."""
    environment = {**os.environ, **({"RT_JOBS": str(jobs)} if jobs else {})}
    done = subprocess.run(["rt", *words], cwd=folder, env=environment, stdout=subprocess.PIPE, stderr=subprocess.STDOUT)
    return done.returncode, done.stdout.decode("utf-8", "replace")


def lay(repository: Repository, root: Path, edits: list[Edit]) -> None:
    """A scratch repository: the crates' texts, and of the edits, each in its crate's must-fail, these alone."""
    # (it is the top of a repository)
    (root / ".git").mkdir(parents=True)
    for file in ("crates.txt", "HANDLES"):
        if (repository.root / file).is_file():
            shutil.copy(repository.root / file, root)
    for crate in repository.needs:
        for part in PARTS:
            if (repository.crate(crate) / part).is_dir():
                shutil.copytree(repository.crate(crate) / part, root / "crates" / crate / part)
    for edit in edits:
        assert edit.path is not None
        folder = root / "crates" / edit.crate / "must-fail"
        folder.mkdir(exist_ok=True)
        shutil.copy(edit.path, folder)


class Bench:
    """A scratch repository in which one edit after the other is put into its crate, checked, and taken out again."""

    def __init__(self, repository: Repository, root: Path):
        self.repository = repository
        self.root = root

    def control(self, crate: str) -> Control:
        """The crate as it stands is proved."""
        self.laid()
        began = time.monotonic()
        status, said = rt(self.root / "crates" / crate, "check")
        if status != 0 or "\nlogic=proved" not in said:
            raise Unready(said)
        return Control(time.monotonic() - began)

    def attempt(self, edit: Edit) -> Verdict:
        """Checks the crate with the edit: the function that must refuse it, or else all of the crate."""
        self.laid()
        own = self.repository.crate(edit.crate)
        try:
            texts = edit.texts(own)
        except BadEdit as wrong:
            return unapplied(wrong)
        folder = self.root / "crates" / edit.crate
        only = ["--only", edit.aim.function] if edit.aim and edit.aim.function else []
        try:
            for file, text in texts.items():
                (folder / file).write_text(text, encoding="utf-8")
            began = time.monotonic()
            status, said = rt(folder, "check", *only)
            return verdict_of(status, said, time.monotonic() - began, edit.crate, edit.aim, folder, texts)
        finally:
            for file in texts:
                shutil.copy(own / file, folder / file)

    def laid(self) -> None:
        if not self.root.is_dir():
            lay(self.repository, self.root, [])


def unapplied(wrong: BadEdit) -> Verdict:
    """Of an edit that can't be applied."""
    return Verdict(UNCOMPILED, 0.0, "", f"it doesn't apply: {wrong}", "", "")
