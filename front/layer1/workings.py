"""The working of a coded bit in words, by sections 9.3 and 10.2: which bits of frame and scrambler its generator takes, and where its interleaver writes it."""

from typing import List, Tuple

from .answers import LATER, Answer, Coded, Working
from .owners import Bit, Cell

WORK = "work"
"""The word with which the program sheet prints workings."""

INTERLEAVER = {"P1": "10.2.3", "PIDS": "10.2.4", "P3": "10.2.6", "P4": "10.2.6"}
"""The section with the equations by which a channel's bits are written."""

Row = Tuple[str, List[str]]


def rows(working: Working) -> List[Row]:
    """The seven bits, newest first: the frame's, the scrambler's at their places, and which of them the generator takes."""
    taps = format(int(working.generator, 8), "07b")
    heads = ["j", *(f"j−{back}" for back in range(1, len(taps)))]
    named = [("Frame", working.bits), ("Scrambler", working.scrambling)]
    return [("Bit", heads), *((name, [str(bit) for bit in bits]) for name, bits in named), (f"Generator {working.generator}", list(taps))]


def sum_words(working: Working) -> str:
    """What the generator gives."""
    return f"ones of frame and scrambler where the generator has a 1: {working.ones}"


def writing_words(coded: Coded, working: Working) -> str:
    """How the interleaver writes the bit."""
    place = f"block {working.block}, partition {working.partition}, row {working.row}, column {working.column}"
    inside = " of the internal matrix" if coded.channel in ("P3", "P4") else ""
    return f"i = {working.step}, k = {working.k}; {place}; cell {working.cell}{inside}"


def step_lines(coded: Coded, working: Working) -> List[str]:
    """A working as lines of text."""
    table = rows(working)
    width = max(len(name) for name, _ in table)
    out = [f"bit j = {working.number} of the transfer frame, generator {working.generator} (9.3)"]
    out += [f"{name.lower().ljust(width)} {''.join(word.replace('−', '-').rjust(4) for word in words)}" for name, words in table]
    return [*out, f"{sum_words(working)}, modulo 2 {working.ones % 2}", f"{writing_words(coded, working)} ({INTERLEAVER[coded.channel]})"]


def answer_line(answer: Answer, coded: Coded) -> str:
    """Coded bit, value and cell of an answer."""
    value = answer.boxes[-1]
    cell = Cell(**vars(answer.place)).words(True)
    return f"{Bit(**vars(coded)).words(True)}: {'sent after these L1 frames,' if value == LATER else value} in {cell}"


def in_words(answer: Answer) -> str:
    """An answer and its working as text; zero fill has none."""
    coded, working = answer.coded, answer.working
    if coded is None or working is None:
        return ""
    return "".join(f"{line}\n" for line in (answer_line(answer, coded), *(f"    {line}" for line in step_lines(coded, working))))
