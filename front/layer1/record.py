"""The record of a sitting, sitting.txt: what it is of, the number of each sheet, and size and SHA-256 of every file. Its last line is the SHA-256 of those
above."""

import hashlib
import os
import re
from dataclasses import dataclass, field
from pathlib import Path
from typing import Dict, Iterable, List, Tuple

from . import files
from .modes import mode_of
from .outcomes import Failed, Misused, Refused
from .questions import Run

NAME = "sitting.txt"
TITLE = "FM Layer 1 sitting"
HEADS = ("mode", "frames", "without", "candidates", "questions", "seed", "software")
LINE = re.compile(r"([a-z]+)(?: ([^:]+))?: (.+)")
END = "sha256: "
MOST = 999
"""Candidates of a sitting."""


@dataclass
class Record:
    """A sitting by its record."""

    folder: Path
    run: Run
    heads: Dict[str, str]
    sheets: Dict[str, str] = field(default_factory=dict)
    made: Dict[str, str] = field(default_factory=dict)
    hashes: Dict[str, str] = field(default_factory=dict)

    @property
    def candidates(self) -> List[str]:
        """The candidates by their numbers."""
        return list(self.sheets)

    def text(self) -> str:
        """As sitting.txt has it."""
        lines = [TITLE, *(f"{name}: {self.heads[name]}" for name in HEADS)]
        lines += [f"sheet {candidate}: {number}" for candidate, number in self.sheets.items()]
        lines += [f"made {candidate}: {self.made[candidate]}" for candidate in self.sheets if candidate in self.made]
        lines += [f"file {name}: {content}" for name, content in sorted(self.hashes.items())]
        text = "\n".join(lines) + "\n"
        return f"{text}{END}{digest(text.encode())}\n"

    def take(self, content: Dict[str, bytes]) -> None:
        """Records files."""
        for name, data in content.items():
            self.hashes[name] = fingerprint(data)

    def content(self, name: str) -> bytes:
        """A recorded file; one that has changed is refused by name."""
        path = self.folder / name
        try:
            data = path.read_bytes()
        except FileNotFoundError:
            raise Refused(f"refused: {path} is missing") from None
        except OSError as error:
            raise Failed(f"{path}: {files.reason(error)}") from None
        if fingerprint(data) != self.hashes.get(name):
            raise Refused(f"refused: {path} has changed since it was recorded")
        return data

    def written(self, content: Dict[str, bytes], replaced: Iterable[str] = ()) -> None:
        """Writes new files and the record of them, all or none; a file that is there must be the same, unless it is to be replaced."""
        new = {}
        for name, data in content.items():
            path = self.folder / name
            if name not in replaced and os.path.lexists(path):
                if not path.is_file() or path.read_bytes() != data:
                    raise Refused(f"refused: {path} is there and is not what is made now; nothing is written over")
                continue
            new[name] = data
        self.take(content)
        new[NAME] = self.text().encode()
        files.write_all(self.folder, new)


def digest(data: bytes) -> str:
    """SHA-256 in hexadecimal."""
    return hashlib.sha256(data).hexdigest()


def fingerprint(data: bytes) -> str:
    """Size and SHA-256 of a file."""
    return f"{len(data)} {digest(data)}"


def opened(folder: str) -> Record:
    """The sitting in a folder, by a record that is whole."""
    path = Path(folder) / NAME
    try:
        text = path.read_bytes().decode("utf-8", "replace")
    except OSError as error:
        raise Misused(f"{path}: {files.reason(error)}") from None
    body, mark, end = text.rpartition(END)
    if not mark or end != f"{digest(body.encode())}\n" or not body.startswith(TITLE + "\n"):
        raise Refused(f"refused: {path} has changed since it was written, or is no record of a sitting")
    return taken(Path(folder), body.splitlines()[1:])


def taken(folder: Path, lines: List[str]) -> Record:
    """A record by its lines."""
    heads: Dict[str, str] = {}
    named: Dict[str, Dict[str, str]] = {"sheet": {}, "made": {}, "file": {}}
    for line in lines:
        found = LINE.fullmatch(line)
        if found is None:
            raise Refused(f"refused: {line!r} is no line of {NAME}")
        (named[found[1]] if found[2] else heads)[found[2] or found[1]] = found[3]
    without = tuple(heads["without"].split()) if heads["without"] != "none" else ()
    run = Run(mode_of(heads["mode"]), int(heads["frames"]), without)
    return Record(folder, run, heads, named["sheet"], named["made"], named["file"])


def candidate_names(count: int) -> List[str]:
    """The numbers of candidates, from 01 on."""
    return [f"{number:02d}" for number in range(1, count + 1)]


def one_of(record: Record, word: str) -> str:
    """The candidate that a word names, 7 as well as 07."""
    name = word.zfill(2) if re.fullmatch(r"[0-9]{1,3}", word, re.ASCII) else word
    if name not in record.sheets:
        raise Misused(f"there is no candidate {word}; there are {record.candidates[0]} to {record.candidates[-1]}")
    return name


def by_sheet(record: Record, word: str) -> str:
    """The candidate whose sheet has a number."""
    found = [candidate for candidate, number in record.sheets.items() if number == word]
    if len(found) != 1:
        raise Misused(f"{'no' if not found else 'more than one'} sheet of {record.folder} has the number {word}")
    return found[0]


def damaged(record: Record) -> Tuple[List[str], List[str]]:
    """Of the recorded files those that are missing and those that have changed."""
    missing, changed = [], []
    for name, content in sorted(record.hashes.items()):
        path = record.folder / name
        if not path.is_file():
            missing.append(name)
        elif fingerprint(path.read_bytes()) != content:
            changed.append(name)
    return missing, changed
