"""The verb compare: the cells in which two dumps differ, each with its owner and both bits."""

import argparse
from collections import Counter
from typing import Iterator, List, Tuple

from . import dumps, hints, owners, sequences
from .dumps import Dump
from .files import say, shown
from .modes import PAIR_ROWS, Mode, mode_of, number_of
from .outcomes import DONE, REFUSED, Misused
from .owners import FILL, Bit, Cell
from .progress import Progress
from .words import Verbs

SHOWN = 20
"""Differences that are shown without --all."""


def arrange(verbs: Verbs) -> None:
    """The words of the verb."""
    verb = verbs.add_parser(
        "compare",
        help="the cells in which two dumps differ",
        description="Says in which cells two dumps differ, whose they are, and both bits. Exit status 0 if the dumps are equal, 1 if not.",
    )
    verb.add_argument("first", metavar="DUMP", help="a dump")
    verb.add_argument("second", metavar="DUMP", help="another, or - for standard input")
    verb.add_argument("--all", action="store_true", help=f"shows every difference, not the first {SHOWN}")
    verb.add_argument("--raw", nargs=2, metavar=("MODE", "COUNT"), help="each may be the matrices of COUNT L1 frames without a dump's header")
    verb.set_defaults(run=run)


class Tally:
    """What is counted of the differences, and how many may still be shown."""

    def __init__(self, show_all: bool) -> None:
        self.matrices: "Counter[str]" = Counter()
        self.channels: "Counter[str]" = Counter()
        self.frames: "Counter[int]" = Counter()
        self.show_all = show_all
        self.total = 0

    def add(self, frame: int, matrix: str, channel: str, words: str) -> None:
        """One difference more."""
        if self.show_all or self.total < SHOWN:
            say(words + "\n")
        self.total += 1
        self.matrices[matrix] += 1
        self.channels[channel] += 1
        self.frames[frame] += 1

    def summary(self) -> None:
        """The counts."""
        if self.total > SHOWN and not self.show_all:
            say(f"and {self.total - SHOWN} more; --all shows them\n")
        say(f"different: {self.total}\n")
        for title, counts in (("matrix", self.matrices.items()), ("channel", self.channels.items()), ("L1 frame", self.frames.items())):
            say(f"by {title}: " + ", ".join(f"{name} {n}" for name, n in counts) + "\n")


def run(given: argparse.Namespace) -> int:
    """The verb compare."""
    raw = None
    if given.raw:
        raw = (mode_of(given.raw[0]), number_of(given.raw[1], "COUNT", 10**9))
    if given.first == given.second == "-":
        raise Misused("only one of the two can be standard input")
    with dumps.dump(given.first, raw) as a, dumps.dump(given.second, raw) as b:
        if a.mode != b.mode:
            say(f"different: {shown(a.name)} is of {a.mode.name}, {shown(b.name)} of {b.mode.name}\n")
            return REFUSED
        tally = compared(a, b, given.all)
        return told(a, b, tally)


def told(a: Dump, b: Dump, tally: Tally) -> int:
    """What is said at the end."""
    if a.count != b.count:
        say(f"different: {shown(a.name)} has {a.count} L1 frames, {shown(b.name)} {b.count}\n")
    if tally.total:
        tally.summary()
    found = hints.hint(a, b) if tally.total else None
    if found:
        say(f"hint: {found}\n")
    if tally.total or a.count != b.count:
        return REFUSED
    say(f"equal: {a.count} L1 frame{'s' * (a.count != 1)} of {a.mode.name}\n")
    return DONE


def compared(a: Dump, b: Dump, show_all: bool) -> Tally:
    """All differences in the L1 frames that both have."""
    tally = Tally(show_all)
    count = min(a.count, b.count)
    progress = Progress("comparing")
    for number in range(count):
        progress.tell(number, count)
        first, second = a.frame(number), b.frame(number)
        if first != second:
            compare_frame(a.mode, number, first, second, tally)
    progress.end()
    return tally


def compare_frame(mode: Mode, number: int, first: bytes, second: bytes, tally: Tally) -> None:
    """The differences in an L1 frame, matrix by matrix, then in its control."""
    one, other = dumps.matrices_of(mode, first), dumps.matrices_of(mode, second)
    cells: List[Cell] = []
    bits: List[Tuple[int, int]] = []
    for matrix in ("PM", "PX1", "PX2"):
        for cell, pair in differing(mode, number, matrix, one[matrix], other[matrix]):
            cells.append(cell)
            bits.append(pair)
    for cell, (x, y), (channel, whose) in zip(cells, bits, owned(mode, cells)):
        tally.add(number, cell.matrix, channel, f"{cell.words(True)}: {x} and {y}; {whose}")
    for field in sequences.differences(one["control"], other["control"]):
        tally.add(number, "control", "control", f"L1 frame {number}, {field.words()}")


def owned(mode: Mode, cells: List[Cell]) -> Iterator[Tuple[str, str]]:
    """For each cell the channel whose bit it shows, and whose bit in words."""
    if not mode.has_owners:
        yield from [("not told", f"whose it is is not told in {mode.name}")] * len(cells)
        return
    for answer in owners.asked(mode, cells):
        yield answer.channel if isinstance(answer, Bit) else FILL, owners.owner_in_words(answer)


def differing(mode: Mode, number: int, matrix: str, one: bytes, other: bytes) -> Iterator[Tuple[Cell, Tuple[int, int]]]:
    """The cells in which a matrix differs, with both bits."""
    columns = mode.columns(matrix)
    for at, (x, y) in enumerate(zip(one, other)):
        if x == y:
            continue
        for place in range(8):
            weight = 128 >> place
            if (x ^ y) & weight:
                row, column = divmod(8 * at + place, columns)
                pair = None if matrix == "PM" else row // PAIR_ROWS
                cell = Cell(number, matrix, pair, row if pair is None else row % PAIR_ROWS, column)
                yield cell, (int(bool(x & weight)), int(bool(y & weight)))
