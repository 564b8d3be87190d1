"""One slip that would explain every difference between two dumps: rows moved, partitions crossed, L1 frames off."""

import hashlib
from typing import Dict, List, Optional

from .dumps import Dump, matrices_of
from .modes import PARTITION, ROWS, Mode

GREATEST_SHIFT = 64
"""Rows or L1 frames by which one side may be off."""


def hint(a: Dump, b: Dump) -> Optional[str]:
    """The slip in words, or nothing."""
    return frame_hint(a, b) or matrix_hint(a, b)


def frame_hint(a: Dump, b: Dump) -> Optional[str]:
    """L1 frame n of one is L1 frame n + d of the other, for every n that both have."""
    first, second = ([hashlib.sha256(dump.frame(n)).digest() for n in range(dump.count)] for dump in (a, b))
    for shift in range(1, GREATEST_SHIFT + 1):
        frames = "the first L1 frame of {} is" if shift == 1 else f"the first {shift} L1 frames of {{}} are"
        if first[shift:] and first[shift:] == second[: a.count - shift]:
            return f"equal if {frames.format(a.name)} left out"
        if second[shift:] and second[shift:] == first[: b.count - shift]:
            return f"equal if {frames.format(b.name)} left out"
    return None


def matrix_hint(a: Dump, b: Dump) -> Optional[str]:
    """In every L1 frame that both have, one matrix has its rows moved or its partitions crossed, and the others are equal."""
    count = min(a.count, b.count)
    slips: Dict[str, Slips] = {}
    for number in range(count):
        one, other = matrices_of(a.mode, a.frame(number)), matrices_of(b.mode, b.frame(number))
        for name in one:
            slips.setdefault(name, Slips(a.mode, name)).narrow(one[name], other[name])
        if not all(slip.equal or slip.possible() for slip in slips.values()):
            return None
    found = [slip.words() for slip in slips.values() if not slip.equal]
    if not found or not all(found):
        return None
    return "equal if " + " and ".join(str(words) for words in found)


class Slips:
    """What could still explain the differences in a matrix after some L1 frames."""

    def __init__(self, mode: Mode, name: str) -> None:
        self.name = name
        self.columns = mode.columns(name)
        self.equal = True
        self.shifts = [shift for shift in range(-GREATEST_SHIFT, GREATEST_SHIFT + 1) if shift != 0]
        partitions = self.columns // PARTITION if name != "control" else 0
        self.places: List[List[int]] = [list(range(partitions)) for _ in range(partitions)]

    def narrow(self, one: bytes, other: bytes) -> None:
        """Takes out what one more L1 frame does not allow."""
        self.equal = self.equal and one == other
        size = self.columns // 8
        self.shifts = [shift for shift in self.shifts if moved(one, other, shift * size)]
        if any(self.places):
            a, b = parted(one, self.columns), parted(other, self.columns)
            self.places = [[q for q in places if a[q] == b[p]] for p, places in enumerate(self.places)]

    def possible(self) -> bool:
        """Whether anything is left."""
        return bool(self.shifts) or (bool(self.places) and all(self.places))

    def words(self) -> Optional[str]:
        """The slip that is left."""
        if self.shifts:
            shift = min(self.shifts, key=abs)
            return f"the rows of {self.name} are moved {'down' if shift > 0 else 'up'} by {abs(shift)}"
        order = matched(self.places)
        return None if order is None else crossed(self.name, order)


def moved(one: bytes, other: bytes, shift: int) -> bool:
    """Whether the other is the one moved by so many bytes, as far as both have them, or around the end."""
    if shift < 0:
        return moved(other, one, -shift)
    return len(one) > shift and one[: len(one) - shift] == other[shift:]


def parted(matrix: bytes, columns: int) -> List[List[int]]:
    """The partitions of a matrix, each as its rows."""
    size = columns // 8
    rows = [int.from_bytes(matrix[size * row : size * (row + 1)], "big") for row in range(ROWS)]
    mask = (1 << PARTITION) - 1
    return [[row >> (columns - PARTITION * (p + 1)) & mask for row in rows] for p in range(columns // PARTITION)]


def matched(places: List[List[int]]) -> Optional[List[int]]:
    """For each partition another of those that it may be, no two the same; itself where that is possible."""
    taken: Dict[int, int] = {}

    def seat(p: int, tried: List[int]) -> bool:
        for q in sorted(places[p], key=lambda q: q != p):
            if q not in tried:
                tried.append(q)
                if q not in taken or seat(taken[q], tried):
                    taken[q] = p
                    return True
        return False

    if not all(seat(p, []) for p in range(len(places))):
        return None
    order = {p: q for q, p in taken.items()}
    return [order[p] for p in range(len(places))]


def crossed(name: str, order: List[int]) -> str:
    """A partition order in words."""
    pairs = [(p, q) for p, q in enumerate(order) if p < q and order[q] == p]
    others = [p for p, q in enumerate(order) if order[q] != p]
    of = "" if name == "PM" else f" of {name}"
    words = [f"partitions {' and '.join(str(p) for p in sorted_by_order(pair))}{of} are exchanged" for pair in pairs]
    if others:
        moves = ", ".join(f"{order[p]} at {p}" for p in others)
        words.append(f"partitions{of} are put otherwise: {moves}")
    return " and ".join(words)


ORDER = [10, 2, 18, 6, 14, 8, 16, 0, 12, 4, 11, 3, 19, 7, 15, 9, 17, 1, 13, 5]
"""The partition order v of document 01, by which a pair is named as the papers name it."""


def sorted_by_order(pair: "tuple[int, int]") -> List[int]:
    """A pair as it comes in v."""
    return sorted(pair, key=ORDER.index)
