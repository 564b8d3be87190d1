"""The verbs whose and where: whose bit stands in a cell, and where a bit goes."""

import argparse
from typing import List, Optional

from . import owners
from .files import say
from .modes import Mode, mode_of, number_of
from .outcomes import DONE, Misused
from .owners import Bit, Cell
from .words import Verbs

GREATEST = 10**9
"""No number of a question is greater; what a mode has decides the program."""

PIDS_BITS = 200
"""Coded bits of a PIDS frame."""


def arrange(verbs: Verbs) -> None:
    """The words of both verbs."""
    whose = verbs.add_parser("whose", help="whose coded bit stands in a cell", description="Says whose coded bit stands in a cell of a matrix.")
    whose.add_argument("cell", nargs="+", metavar="WORD", help="ROW COL or PM ROW COL; PX1 PAIR ROW COL or PX2 PAIR ROW COL")
    options(whose)
    whose.set_defaults(run=run_whose)
    where = verbs.add_parser("where", help="into which cell a coded bit goes", description="Says into which cell of which matrix a coded bit goes.")
    words = "P1 BIT; PIDS TFRAME BIT, P3 TFRAME BIT or P4 TFRAME BIT; for PIDS, BIT may be all, its 200 in coded order"
    where.add_argument("bit", nargs="+", metavar="WORD", help=words)
    options(where)
    where.set_defaults(run=run_where)


def options(verb: argparse.ArgumentParser) -> None:
    """What both verbs take beside the question."""
    verb.add_argument("--mode", help="service mode; for PM the four older ones are alike (default: 1, for PX needed)")
    verb.add_argument("--frame", default="0", help="L1 frame of the run, from 0: of the cell, or of the transfer frame (default: 0)")
    verb.add_argument("--lines", action="store_true", help="question and answer in numbers, as the program prints them")


def cell_of_words(words: List[str], frame: int) -> Cell:
    """A cell as it is typed; without the name of a matrix it is one of PM."""
    if words[0].isdigit():
        words = ["PM", *words]
    matrix = words[0].upper()
    numbers = [number_of(word, "a block pair, row or column", GREATEST) for word in words[1:]]
    if matrix == "PM" and len(numbers) == 2:
        return Cell(frame, matrix, None, *numbers)
    if matrix in ("PX1", "PX2") and len(numbers) == 3:
        return Cell(frame, matrix, *numbers)
    raise Misused("a cell is ROW COL, PM ROW COL, PX1 PAIR ROW COL or PX2 PAIR ROW COL")


def mode_for(word: Optional[str], needed: bool) -> Mode:
    """The mode of a question."""
    if word is None and needed:
        raise Misused("in PX1 and PX2, and of P3 and P4, the answer depends on the service mode: say --mode")
    mode = mode_of(word or "1")
    if not mode.has_owners:
        raise Misused(f"there are no answers in {mode.name} yet; there are in MP1, MP2, MP3 and MP11")
    return mode


def run_whose(given: argparse.Namespace) -> int:
    """The verb whose."""
    cell = cell_of_words(given.cell, number_of(given.frame, "--frame", GREATEST))
    answer = owners.owner(mode_for(given.mode, cell.matrix != "PM"), cell)
    if given.lines:
        say(f"{cell.line()} {numbers_of(answer, cell.matrix != 'PM')}\n")
    else:
        say(f"{cell.words(cell.matrix != 'PM')}: {owners.owner_in_words(answer)}\n")
    return DONE


def numbers_of(answer: owners.Answer, with_frame: bool) -> str:
    """An answer as the program prints it behind its question."""
    if isinstance(answer, Bit):
        frame = f"{answer.frame} " if with_frame else ""
        return f"{answer.channel} {frame}{answer.tframe} {answer.bit}"
    if isinstance(answer, Cell):
        pair = "" if answer.pair is None else f"{answer.pair} "
        return f"{answer.matrix} {answer.frame} {pair}{answer.row} {answer.column}"
    return answer


def bits_of_words(words: List[str], frame: int) -> List[Bit]:
    """Coded bits as they are typed."""
    channel = words[0].upper()
    if channel == "P1" and len(words) == 2:
        words = ["P1", "0", words[1]]
    if channel not in ("P1", "PIDS", "P3", "P4") or len(words) != 3:
        raise Misused("a bit is P1 BIT, PIDS TFRAME BIT, P3 TFRAME BIT or P4 TFRAME BIT")
    tframe = number_of(words[1], "a transfer frame", GREATEST)
    if channel == "PIDS" and words[2] == "all":
        return [Bit(frame, channel, tframe, bit) for bit in range(PIDS_BITS)]
    return [Bit(frame, channel, tframe, number_of(words[2], "a coded bit", GREATEST))]


def run_where(given: argparse.Namespace) -> int:
    """The verb where."""
    bits = bits_of_words(given.bit, number_of(given.frame, "--frame", GREATEST))
    extended = bits[0].channel in ("P3", "P4")
    for bit, answer in zip(bits, owners.asked(mode_for(given.mode, extended), bits)):
        cell = owners.cell_of(answer)
        say(f"{bit.line()} {numbers_of(cell, True)}\n" if given.lines else f"{bit.words(extended)}: {cell.words(extended)}\n")
    return DONE
