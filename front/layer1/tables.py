"""What the programs print of every cell, packed for the bench page: four characters for each, and nothing that has to be computed again."""

import base64
from typing import Any, Dict, List, Tuple

from . import causes, listed, owners
from .modes import BLOCK_ROWS, MATRICES, MODES, PAIR_ROWS, PARTITION, ROWS, Mode
from .outcomes import Failed
from .owners import FILL, Bit, Cell

BIT_WIDTH = 19
"""Of the 24 bits of four characters, those that number the coded bit in its transfer frame; the others number its kind."""

HALVES = 2
"""The cells of PX1 and PX2 in an L1 frame depend on whether its number is even or odd."""

Kind = Tuple[str, int, int]
"""A channel, a transfer frame of it, and how many L1 frames before this one that was handed over."""


def packed(cells: List[Tuple[Kind, int]]) -> Dict[str, Any]:
    """The kinds that occur, and for each cell its kind and coded bit in three bytes, that is four characters of base64."""
    kinds = sorted({kind for kind, _ in cells})
    if len(kinds) > 1 << (24 - BIT_WIDTH) or any(bit >= 1 << BIT_WIDTH for _, bit in cells):
        raise Failed("the owners of the cells do not fit into the bench page")
    number = {kind: at << BIT_WIDTH for at, kind in enumerate(kinds)}
    data = b"".join((number[kind] | bit).to_bytes(3, "big") for kind, bit in cells)
    return {"kinds": kinds, "cells": base64.b64encode(data).decode("ascii")}


def main_matrix(mode: Mode) -> Dict[str, Any]:
    """PM, by the program cells."""
    return packed([((bit.channel, bit.tframe, 0), bit.bit) for bit in listed.all_cells(mode.columns("PM"))])


def asked(mode: Mode, matrix: str, frame: int) -> List[owners.Answer]:
    """The owners of every cell of PX1 or PX2 in an L1 frame, by the program owners."""
    pairs, columns = ROWS // PAIR_ROWS, mode.columns(matrix)
    return owners.asked(mode, [Cell(frame, matrix, pair, row, column) for pair in range(pairs) for row in range(PAIR_ROWS) for column in range(columns)])


def half(mode: Mode, matrix: str, parity: int) -> Dict[str, Any]:
    """PX1 or PX2 in the even or the odd L1 frames. The first of them must differ from the next in nothing but the fill, which age alone decides."""
    frame = parity + HALVES
    cells = []
    for first, later in zip(asked(mode, matrix, parity), asked(mode, matrix, frame)):
        if not isinstance(later, Bit):
            raise Failed(f"the program owners shows fill in L1 frame {frame}")
        age = frame - later.frame
        if first != (FILL if age > parity else Bit(parity - age, later.channel, later.tframe, later.bit)):
            raise Failed(f"the program owners shows other bits in L1 frame {parity} than in {frame}")
        cells.append(((later.channel, later.tframe, age), later.bit))
    return packed(cells)


def covered() -> List[Mode]:
    """The modes that have owners."""
    return [mode for mode in MODES.values() if mode.has_owners]


class Kept:
    """Tables, each once, however many matrices show it."""

    def __init__(self) -> None:
        self.tables: List[Dict[str, Any]] = []

    def place_of(self, table: Dict[str, Any]) -> int:
        """Where a table stands among them."""
        if table not in self.tables:
            self.tables.append(table)
        return self.tables.index(table)


def tables() -> Dict[str, Any]:
    """All that the page looks up; PX1 and PX2 are asked for first, since PM is there in every revision."""
    kept = Kept()
    found = {mode.number: extended(mode, kept) for mode in covered()}
    main = {"columns": covered()[0].columns("PM"), "paired": False, "tables": [kept.place_of(main_matrix(covered()[0]))]}
    modes = [
        {"number": mode.number, "name": mode.name, "frames": mode.frames, "matrices": {"PM": main, **found[mode.number]}} for mode in covered()
    ]
    return {"modes": modes, "tables": kept.tables, **layout()}


def extended(mode: Mode, kept: Kept) -> Dict[str, Any]:
    """PX1 and PX2, where the mode has them."""
    found = {}
    for name in ("PX1", "PX2"):
        if mode.columns(name):
            places = [kept.place_of(half(mode, name, parity)) for parity in range(HALVES)]
            found[name] = {"columns": mode.columns(name), "paired": True, "tables": places}
    return found


def layout() -> Dict[str, Any]:
    """What is needed beside the tables: rows and partitions, the lengths of dumps in bytes, and the words of their refusals."""
    return {
        "rows": ROWS,
        "pairRows": PAIR_ROWS,
        "blockRows": BLOCK_ROWS,
        "partition": PARTITION,
        "bitWidth": BIT_WIDTH,
        "parts": MATRICES,
        "dumps": {mode.number: mode.matrices for mode in MODES.values()},
        "words": {number: causes.words_of(str(number), 0) for number in (1, 17, 18, 19)},
    }
