"""What a service mode has, by documents 01 and 02: the lengths of an L1 frame's frames and matrices, in bytes."""

import re
from dataclasses import dataclass
from typing import Iterable, Tuple

from .outcomes import Misused

MATRICES = ("PM", "PX1", "PX2", "control")
"""What a sending writes for an L1 frame, in this order."""

ROWS = 512
"""Rows of PM, of the eight matrices of PX1 or PX2 end to end, and of the control in an L1 frame."""

PARTITION = 36
"""Columns of a partition."""

PAIR_ROWS = 64
"""Rows of a matrix of PX1 or PX2, of which an L1 frame has one for each block pair."""

BLOCK_ROWS = 32
"""Rows of an L1 block."""


@dataclass(frozen=True)
class Mode:
    """A covered service mode: bytes of P1, PIDS, P2, P3, P4, and of PM, PX1, PX2, control; how long P1 waits on the way back."""

    number: int
    frames: Tuple[int, int, int, int, int]
    matrices: Tuple[int, int, int, int]
    delay: int = 0

    @property
    def name(self) -> str:
        """As 1011s names it."""
        return f"MP{self.number}"

    @property
    def matrix_bytes(self) -> int:
        """What is sent for an L1 frame."""
        return sum(self.matrices)

    @property
    def has_owners(self) -> bool:
        """Whether the finders cover it: S-9 keeps them to the older modes."""
        return self.delay == 0

    def input_bytes(self, without: Tuple[str, ...] = ()) -> int:
        """What a sender reads for an L1 frame: its reserved number, and its transfer frames."""
        left_out = {"P3": self.frames[3], "P4": self.frames[4]}
        return 1 + sum(self.frames) - sum(left_out[channel] for channel in without)

    def returned_bytes(self, frame: int) -> int:
        """What a reader writes for an L1 frame of a run without refusals."""
        p1, pids, p2, p3, p4 = self.frames
        return 1 + (p1 if frame >= self.delay else 0) + pids + p2 + (p3 + p4 if frame >= 2 else 0)

    def columns(self, matrix: str) -> int:
        """Cells of a row."""
        return 8 * self.matrices[MATRICES.index(matrix)] // ROWS


MODES = {
    mode.number: mode
    for mode in (
        Mode(1, (18272, 160, 0, 0, 0), (46080, 0, 0, 4096)),
        Mode(2, (18272, 160, 0, 2304, 0), (46080, 4608, 0, 4096)),
        Mode(3, (18272, 160, 0, 4608, 0), (46080, 9216, 0, 4096)),
        Mode(5, (4608, 160, 13664, 4608, 0), (46080, 9216, 9216, 4096), delay=3),
        Mode(6, (9216, 160, 9056, 0, 0), (46080, 0, 18432, 4096), delay=3),
        Mode(11, (18272, 160, 0, 4608, 4608), (46080, 9216, 9216, 4096)),
    )
}


def mode_of(word: str) -> Mode:
    """The mode that a word names: 11 or MP11."""
    found = re.fullmatch(r"(?:MP)?(0*[0-9]{1,3})", word, re.ASCII | re.IGNORECASE)
    mode = MODES.get(int(found[1])) if found else None
    if mode is None:
        covered = ", ".join(known.name for known in MODES.values())
        raise Misused(f"{word} is no covered service mode; {covered} are (number 1)")
    return mode


def without_of(mode: Mode, words: Iterable[str]) -> Tuple[str, ...]:
    """Channels without bytes, in order; the mode has them."""
    without = tuple(sorted(set(words)))
    for channel in without:
        if not mode.frames[int(channel[1])]:
            raise Misused(f"{mode.name} has no {channel}")
    return without


def number_of(word: str, what: str, greatest: int) -> int:
    """A word of decimal digits as a number, at most so great."""
    if not re.fullmatch(r"[0-9]{1,20}", word, re.ASCII) or int(word) > greatest:
        raise Misused(f"{what} is a number from 0 to {greatest}, not {word!r}")
    return int(word)
