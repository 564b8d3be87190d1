"""Transcripts: a line `$ COMMAND`, then what it says and prints, and `[STATUS]` where that is not 0. Lines of the manual are indented by four."""

import re
from dataclasses import dataclass
from typing import Iterator, List

from .bench import Bench


@dataclass
class Case:
    """A command, what is stored of it, and where."""

    line: int
    command: str
    stored: List[str]


def cases(text: str, indent: str = "") -> Iterator[Case]:
    """The cases of a text. A line that ends in ... stands for the line and any lines behind it."""
    found = None
    for number, line in enumerate(text.splitlines(), 1):
        if line.startswith(f"{indent}$ "):
            if found:
                yield found
            found = Case(number, line[len(indent) + 2 :], [])
        elif found and line.startswith(indent) and line.strip() and not line.startswith("#"):
            found.stored.append(line[len(indent) :])
        elif found and not line.startswith(indent):
            yield found
            found = None
    if found:
        yield found


def shown(bench: Bench, command: str) -> List[str]:
    """What a command gives, as it is stored."""
    done = bench.run(command)
    lines = done.stdout.decode("utf-8", "replace").splitlines()
    return lines + ([f"[{done.returncode}]"] if done.returncode else [])


def agrees(stored: List[str], lines: List[str]) -> bool:
    """Whether the lines are those that are stored; `...` stands for any number of lines."""
    pattern = "".join("(?:.*\n)*?" if line == "..." else re.escape(line) + "\n" for line in stored)
    return re.fullmatch(pattern, "".join(line.rstrip() + "\n" for line in lines if line.strip())) is not None
