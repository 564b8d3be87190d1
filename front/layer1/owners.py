"""The program owners: whose coded bit stands in a cell, and into which cell a coded bit goes. The format of its lines stands here alone."""

import re
from dataclasses import dataclass
from typing import Iterable, List, Optional, Tuple, Union

from . import causes, programs
from .modes import Mode
from .outcomes import Failed, Refused


@dataclass(frozen=True)
class Cell:
    """A cell of a matrix in an L1 frame; pair is the block pair in PX1 and PX2."""

    frame: int
    matrix: str
    pair: Optional[int]
    row: int
    column: int

    def line(self) -> str:
        """As a question."""
        return " ".join(str(word) for word in (self.frame, self.matrix, self.pair, self.row, self.column) if word is not None)

    def words(self, with_frame: bool) -> str:
        """For people."""
        pair = "" if self.pair is None else f" block pair {self.pair},"
        frame = f"L1 frame {self.frame}, " if with_frame else ""
        return f"{frame}{self.matrix}{pair} row {self.row}, column {self.column}"


@dataclass(frozen=True)
class Bit:
    """A coded bit: of a transfer frame of a channel, in the L1 frame in which that was handed over."""

    frame: int
    channel: str
    tframe: int
    bit: int

    def line(self) -> str:
        """As a question."""
        return f"{self.frame} {self.channel} {self.tframe} {self.bit}"

    def words(self, with_frame: bool) -> str:
        """For people."""
        of = f" of L1 frame {self.frame}" if with_frame else ""
        return f"{self.channel}, transfer frame {self.tframe}{of}, coded bit {self.bit}"


FILL = "FILL"
"""The owner of a cell that can show only the zero fill of a fresh start."""

Question = Union[Cell, Bit]
Answer = Union[Cell, Bit, str]

NUMBER = r"(\d+)"
PM_OWNER = re.compile(rf"{NUMBER} PM {NUMBER} {NUMBER} (P1|PIDS) {NUMBER} {NUMBER}", re.ASCII)
PX_OWNER = re.compile(rf"{NUMBER} (PX[12]) {NUMBER} {NUMBER} {NUMBER} (P[34]) {NUMBER} {NUMBER} {NUMBER}", re.ASCII)
PX_FILL = re.compile(rf"{NUMBER} (PX[12]) {NUMBER} {NUMBER} {NUMBER} FILL", re.ASCII)
PM_CELL = re.compile(rf"{NUMBER} (P1|PIDS) {NUMBER} {NUMBER} PM {NUMBER} {NUMBER} {NUMBER}", re.ASCII)
PX_CELL = re.compile(rf"{NUMBER} (P[34]) {NUMBER} {NUMBER} (PX[12]) {NUMBER} {NUMBER} {NUMBER} {NUMBER}", re.ASCII)


def taken(line: str) -> Optional[Tuple[Question, Answer]]:
    """An answer line as its question and its answer; nothing for another line."""
    found = PM_OWNER.fullmatch(line)
    if found:
        frame, row, column = int(found[1]), int(found[2]), int(found[3])
        return Cell(frame, "PM", None, row, column), Bit(frame, found[4], int(found[5]), int(found[6]))
    found = PX_OWNER.fullmatch(line) or PX_FILL.fullmatch(line)
    if found:
        cell = Cell(int(found[1]), found[2], int(found[3]), int(found[4]), int(found[5]))
        if line.endswith(FILL):
            return cell, FILL
        return cell, Bit(int(found[7]), found[6], int(found[8]), int(found[9]))
    found = PM_CELL.fullmatch(line)
    if found:
        bit = Bit(int(found[1]), found[2], int(found[3]), int(found[4]))
        return bit, Cell(int(found[5]), "PM", None, int(found[6]), int(found[7]))
    found = PX_CELL.fullmatch(line)
    if found:
        bit = Bit(int(found[1]), found[2], int(found[3]), int(found[4]))
        return bit, Cell(int(found[6]), found[5], int(found[7]), int(found[8]), int(found[9]))
    return None


def asked(mode: Mode, questions: Iterable[Question]) -> List[Answer]:
    """The answers to questions, one for each and in their order; the first that cannot be answered is refused."""
    wanted = list(questions)
    if not wanted:
        return []
    lines = programs.lines_of("owners", [str(mode.number)], "".join(question.line() + "\n" for question in wanted))
    answers = []
    for number, question in enumerate(wanted):
        line = lines[number] if number < len(lines) else ""
        if line == f"REFUSED {number + 1}":
            raise Refused(f"refused: {question.words(False)}: {causes.words_of('3', 0, 'owners')} (number 3)")
        found = taken(line)
        if found is None or found[0] != question:
            raise Failed(f"the output of owners is not whole: line {number + 1} is no answer to {question.line()!r}")
        answers.append(found[1])
    if len(lines) != len(wanted):
        raise Failed(f"the output of owners is not whole: {len(lines)} lines for {len(wanted)} questions")
    return answers


def owner(mode: Mode, cell: Cell) -> Answer:
    """Whose coded bit a cell shows."""
    return asked(mode, [cell])[0]


def cell_of(answer: Answer) -> Cell:
    """The cell that an answer to a question for a bit is."""
    if not isinstance(answer, Cell):
        raise Failed("the program owners answered with something else than a cell")
    return answer


def owner_in_words(answer: Answer) -> str:
    """An answer for people; the L1 frame of a bit is said for P3 and P4, which come from other ones."""
    if isinstance(answer, Bit):
        return answer.words(answer.channel in ("P3", "P4"))
    if isinstance(answer, Cell):
        return answer.words(answer.matrix != "PM")
    return "only the zero fill of a fresh start"
