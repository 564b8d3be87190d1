"""The control of an L1 frame as its sequences (document 01, Control): which field of which block and column a bit belongs to."""

from dataclasses import dataclass
from typing import Iterator, List, Tuple

from .modes import BLOCK_ROWS, ROWS

COLUMNS = 61
"""Columns of a block that carry a sequence; the last three bits of a row's eight bytes are zero."""

FIELDS: List[Tuple[int, int, str]] = [
    (31, 25, "sync"),
    (24, 24, "reserved number, weight 4"),
    (23, 23, "parity of bit 24"),
    (22, 22, "sync, bit 22"),
    (21, 20, "reference subcarrier identification"),
    (19, 19, "secondary channel"),
    (18, 18, "parity of bits 21 to 19"),
    (17, 17, "sync, bit 17"),
    (16, 16, "reserved number, weight 2"),
    (15, 12, "block count"),
    (11, 11, "parity of bits 16 to 12"),
    (10, 9, "sync, bits 10 and 9"),
    (8, 8, "P3 interleaver"),
    (7, 7, "reserved number, weight 1"),
    (6, 1, "service mode"),
    (0, 0, "parity of bits 8 to 1"),
]
"""Highest and lowest bit of each field of a sequence, and its name."""


@dataclass(frozen=True)
class FieldDifference:
    """A field of a sequence that two controls have otherwise."""

    block: int
    column: int
    field: str
    first: str
    second: str

    def words(self) -> str:
        """For people."""
        return f"control block {self.block}, column {self.column}: {self.field}, {self.first} and {self.second}"


def columns_of(control: bytes, block: int) -> List[int]:
    """The 64 columns of a block, each as its 32 bits, row 0 heaviest."""
    rows = [int.from_bytes(control[8 * row : 8 * row + 8], "big") for row in range(BLOCK_ROWS * block, BLOCK_ROWS * (block + 1))]
    columns = []
    for column in range(64):
        value = 0
        for row in rows:
            value = value << 1 | (row >> (63 - column) & 1)
        columns.append(value)
    return columns


def sequence(encoded: int) -> int:
    """The sequence of a column: differential encoding undone, each row with the one before."""
    return encoded ^ encoded >> 1


def differences(first: bytes, second: bytes) -> Iterator[FieldDifference]:
    """The fields in which the controls of an L1 frame differ."""
    size = 8 * BLOCK_ROWS
    for block in range(ROWS // BLOCK_ROWS):
        if first[size * block : size * (block + 1)] == second[size * block : size * (block + 1)]:
            continue
        for column, (a, b) in enumerate(zip(columns_of(first, block), columns_of(second, block))):
            if a != b and column >= COLUMNS:
                yield FieldDifference(block, column, "no column of the control, must be zero", f"{a:032b}", f"{b:032b}")
            elif a != b:
                yield from field_differences(block, column, sequence(a), sequence(b))


def field_differences(block: int, column: int, a: int, b: int) -> Iterator[FieldDifference]:
    """The fields in which two sequences differ."""
    for high, low, name in FIELDS:
        width = high - low + 1
        mask = (1 << width) - 1
        one, other = a >> low & mask, b >> low & mask
        if one != other:
            bits = f"bit {high}" if width == 1 else f"bits {high} to {low}"
            yield FieldDifference(block, column, f"{name} ({bits})", f"{one:0{width}b}", f"{other:0{width}b}")
