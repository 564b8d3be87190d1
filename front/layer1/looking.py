"""The verbs bit and pids: what stands in a dump."""

import argparse

from . import dumps, owners
from .asking import GREATEST, PIDS_BITS, cell_of_words, mode_for
from .files import say
from .modes import number_of
from .outcomes import DONE
from .owners import Bit
from .words import Verbs


def arrange(verbs: Verbs) -> None:
    """The words of both verbs."""
    described = "Says which bit stands in a cell of a dump, and whose it is."
    bit = verbs.add_parser("bit", help="the bit in a cell of a dump, and whose it is", description=described)
    bit.add_argument("dump", metavar="DUMP", help="a dump; - is standard input")
    bit.add_argument("frame", metavar="FRAME", help="L1 frame, from 0")
    bit.add_argument("cell", nargs="+", metavar="WORD", help="ROW COL or PM ROW COL; PX1 PAIR ROW COL or PX2 PAIR ROW COL")
    bit.set_defaults(run=run_bit)
    pids = verbs.add_parser(
        "pids",
        help="the 200 cells of a PIDS frame, as nearest and restore take them",
        description="Prints the bits in the 200 cells of a PIDS frame of a dump in coded order, a line as nearest and restore take it.",
    )
    pids.add_argument("dump", metavar="DUMP", help="a dump; - is standard input")
    pids.add_argument("frame", metavar="FRAME", help="L1 frame, from 0")
    pids.add_argument("tframe", metavar="TFRAME", help="PIDS frame of the L1 frame, 0 to 15")
    pids.set_defaults(run=run_pids)


def run_bit(given: argparse.Namespace) -> int:
    """The verb bit."""
    number = number_of(given.frame, "FRAME", GREATEST)
    cell = cell_of_words(given.cell, number)
    with dumps.dump(given.dump) as dump:
        frame = dump.checked_frame(number)
        answer = owners.owner(mode_for(str(dump.mode.number), True), cell)
        bit = dumps.bit_of(dump.mode, frame, cell)
        say(f"{bit} in {cell.words(True)}: {owners.owner_in_words(answer)}\n")
    return DONE


def run_pids(given: argparse.Namespace) -> int:
    """The verb pids."""
    number = number_of(given.frame, "FRAME", GREATEST)
    tframe = number_of(given.tframe, "TFRAME", 15)
    with dumps.dump(given.dump) as dump:
        frame = dump.checked_frame(number)
        wanted = [Bit(number, "PIDS", tframe, bit) for bit in range(PIDS_BITS)]
        cells = owners.asked(mode_for(str(dump.mode.number), True), wanted)
        say("".join(str(dumps.bit_of(dump.mode, frame, owners.cell_of(cell))) for cell in cells) + "\n")
    return DONE
