"""The layout of an answer sheet, in one place: the boxes of a question, which tables a sheet has, and their text for a screen."""

from dataclasses import dataclass
from typing import Dict, List, Tuple

from .answers import BIT, PM, PX, Row, Sheet

ASKED: Dict[str, Tuple[str, ...]] = {
    PM: ("L1/frame", "Row", "Column"),
    PX: ("L1/frame", "Matrix", "Block/pair", "Row", "Column"),
    BIT: ("L1/frame", "Channel", "Transfer/frame", "Coded/bit"),
}
"""What a question of a kind says, by heads; a slash where one may be broken."""

BOXES: Dict[str, Tuple[str, ...]] = {
    PM: ("Channel", "Transfer/frame", "Coded/bit", "Value"),
    PX: ("Channel", "Coded in/L1 frame", "Transfer/frame", "Coded/bit", "Value"),
    BIT: ("Matrix", "Sent in/L1 frame", "Block/pair", "Row", "Column", "Value"),
}
"""The boxes of its answer, in the order of the program's line."""


@dataclass(frozen=True)
class Table:
    """A table of a sheet for a screen: its heads, and rows with the number of their answer."""

    title: str
    heads: List[str]
    rows: List[Row]


def tables(sheet: Sheet) -> List[Table]:
    """The tables that have rows. A row's number is that of its answer among all."""
    titles = {PM: "PM", PX: px_title(sheet.mode), BIT: "Coded bits"}
    found = []
    for kind, title in titles.items():
        rows = [(str(number), *words_of(answer.question, kind), *answer.boxes) for number, answer in enumerate(sheet.answers, 1) if answer.kind == kind]
        if rows:
            found.append(Table(title, ["No.", *ASKED[kind], *BOXES[kind]], rows))
    return found


def words_of(question: Row, kind: str) -> Row:
    """The words of a question under its heads; that a cell is one of PM stands in the title."""
    return question if kind != PM else (question[0], *question[2:])


def px_title(mode: int) -> str:
    """The matrices of P3 and P4 in a mode."""
    return "PX1 and PX2" if mode == 11 else "PX1"


def run_in_words(sheet: Sheet) -> str:
    """The run that a sheet is of."""
    without = f", without {sheet.without.replace(' ', ' and ')}" if sheet.without else ""
    return f"Service mode MP{sheet.mode}, {sheet.count} L1 frame{'s' * (sheet.count != 1)}{without}"


def text(sheet: Sheet) -> str:
    """A sheet for a screen: headed columns, as wide as what stands in them."""
    lines = ["FM Layer 1 answer sheet", run_in_words(sheet)]
    if sheet.refused:
        lines.append("Refused lines of the cell list: " + ", ".join(map(str, sheet.refused)))
    for table in tables(sheet):
        lines += ["", table.title, *aligned(table)]
    return "\n".join(lines) + "\n"


def aligned(table: Table) -> List[str]:
    """The lines of a table, each cell set to the right."""
    upper = [head.partition("/")[0] if "/" in head else "" for head in table.heads]
    lower = [head.rpartition("/")[2] for head in table.heads]
    widths = [max(map(len, column)) for column in zip(upper, lower, *table.rows)]
    return ["  ".join(cell.rjust(width) for cell, width in zip(row, widths)).rstrip() for row in (upper, lower, *table.rows)]
