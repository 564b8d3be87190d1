"""A dump of L1 frames (document 02, S-13), or raw matrices as a sender writes them without a header: its L1 frames, and the bits in them."""

import contextlib
from dataclasses import dataclass
from typing import IO, Dict, Iterator, Optional, Tuple

from . import causes
from .files import opened, shown, size_of
from .modes import MATRICES, MODES, PAIR_ROWS, Mode
from .outcomes import Failed, Misused, Refused
from .owners import Cell

MARK = b"HDM"
HEADER = 8
GREATEST_COUNT = 65535
"""L1 frames that a dump can hold."""


def header(mode: Mode, count: int) -> bytes:
    """The first eight bytes of a dump."""
    return MARK + (1).to_bytes(2, "big") + bytes([mode.number]) + count.to_bytes(2, "big")


@dataclass
class Dump:
    """An open dump."""

    name: str
    file: IO[bytes]
    mode: Mode
    count: int
    start: int

    def frame(self, number: int) -> bytes:
        """PM, PX1, PX2 and control of an L1 frame."""
        self.file.seek(self.start + number * self.mode.matrix_bytes)
        return self.file.read(self.mode.matrix_bytes)

    def checked_frame(self, number: int) -> bytes:
        """The same, where it is one of them."""
        if number >= self.count:
            raise Misused(f"{shown(self.name)} has {self.count} L1 frame{'s' * (self.count != 1)}, from 0; there is no {number}")
        return self.frame(number)


def matrices_of(mode: Mode, frame: bytes) -> Dict[str, bytes]:
    """The matrices of an L1 frame by name."""
    parts, at = {}, 0
    for name, length in zip(MATRICES, mode.matrices):
        parts[name] = frame[at : at + length]
        at += length
    return parts


def bit_of(mode: Mode, frame: bytes, cell: Cell) -> int:
    """The bit in a cell that the mode has."""
    columns = mode.columns(cell.matrix)
    row = cell.row if cell.pair is None else PAIR_ROWS * cell.pair + cell.row
    at = row * columns + cell.column
    return matrices_of(mode, frame)[cell.matrix][at // 8] >> (7 - at % 8) & 1


def cell_at(mode: Mode, frame: int, place: int) -> Cell:
    """The cell that a place under 7 counts: through PX1, then PX2, in MP5 and MP6 through PM first."""
    names = ("PM", "PX1", "PX2") if mode.delay else ("PX1", "PX2")
    left = place
    for name in names:
        cells = 8 * mode.matrices[MATRICES.index(name)]
        if left < cells:
            row, column = divmod(left, mode.columns(name))
            return Cell(frame, name, None, row, column) if name == "PM" else Cell(frame, name, row // PAIR_ROWS, row % PAIR_ROWS, column)
        left -= cells
    raise Failed(f"{mode.name} has no cell {place}")


def headed(file: IO[bytes]) -> Tuple[Mode, int]:
    """Mode and count of a dump by its header, refused as a judge refuses it."""
    file.seek(0)
    head = file.read(HEADER)
    if len(head) < HEADER or head[:3] != MARK:
        raise causes.refusal(17, 0)
    if head[3:5] != b"\x00\x01":
        raise causes.refusal(18, 0)
    mode = MODES.get(head[5])
    if mode is None:
        raise causes.refusal(1, 0)
    return mode, int.from_bytes(head[6:8], "big")


@contextlib.contextmanager
def dump(name: str, raw: Optional[Tuple[Mode, int]] = None) -> Iterator[Dump]:
    """A dump of exactly the length that it says; with `raw`, matrices of that mode and count, with a dump's header or without."""
    with opened(name) as file:
        size = size_of(file)
        if raw is not None and size == raw[1] * raw[0].matrix_bytes:
            yield Dump(name, file, *raw, 0)
            return
        try:
            mode, count = headed(file)
        except Refused as refused:
            if raw is None:
                raise Refused(f"{shown(name)}: {refused}") from None
            wanted = raw[1] * raw[0].matrix_bytes
            raise Refused(f"{shown(name)}: refused: {size} bytes are not {raw[1]} L1 frames of {raw[0].name}, {wanted} bytes (number 3)") from None
        if size != HEADER + count * mode.matrix_bytes:
            frame = min(count, (size - HEADER) // mode.matrix_bytes)
            raise Refused(f"{shown(name)}: {causes.refusal(19, 0, frame)}")
        yield Dump(name, file, mode, count, HEADER)
