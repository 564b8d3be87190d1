"""The program cells: whose coded bit stands in each cell of PM. The format of its lines stands here alone."""

import re
from typing import List

from . import programs
from .modes import ROWS
from .outcomes import Failed
from .owners import Bit

HEAD = "ROW COL CHANNEL FRAME BIT"
LINE = re.compile(r"(\d+ \d+) (P1|PIDS) (\d+) (\d+)", re.ASCII)


def all_cells(columns: int) -> List[Bit]:
    """The owner of every cell of PM, row by row; PM is alike in the modes that have owners, and in every L1 frame."""
    wanted = [f"{row} {column}" for row in range(ROWS) for column in range(columns)]
    lines = programs.lines_of("cells", [], "".join(cell + "\n" for cell in wanted))
    if not lines or lines[0] != HEAD or len(lines) != len(wanted) + 1:
        raise Failed(f"the output of cells is not whole: {len(lines)} lines for {len(wanted)} cells and a head")
    owners = []
    for cell, line in zip(wanted, lines[1:]):
        found = LINE.fullmatch(line)
        if found is None or found[1] != cell:
            raise Failed(f"the output of cells is not whole: {line!r} is no answer to {cell!r}")
        owners.append(Bit(0, found[2], int(found[3]), int(found[4])))
    return owners
