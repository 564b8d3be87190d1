"""What the program sheet prints: a head, refused lines, answers, perhaps with workings, and an end, or why there is no sheet.
The format of its lines stands here alone."""

import re
from dataclasses import dataclass, field, replace
from typing import List, Optional, Tuple

from . import causes
from .outcomes import Failed, Refused

HEAD = re.compile(r"MP(\d+) (\d+)(?: without (P3|P4|P3 P4))?( work)?", re.ASCII)
NO_SHEET = re.compile(r"(NO SHEET [A-Z]+(?: [A-Z]+)?)(?: (\d+))?", re.ASCII)
NO_FRAME = re.compile(r"NO SHEET FRAME (\d+) NUMBER (\d+) PLACE (\d+)", re.ASCII)
PM_LINE = re.compile(r"(\d+) (PM) (\d+) (\d+) (P1|PIDS) (\d+) (\d+) ([01])", re.ASCII)
PX_LINE = re.compile(r"(\d+) (PX[12]) (\d+) (\d+) (\d+) (P[34]) (\d+) (\d+) (\d+) ([01])", re.ASCII)
FILL_LINE = re.compile(r"(\d+) (PX[12]) (\d+) (\d+) (\d+) FILL", re.ASCII)
PM_BIT_LINE = re.compile(r"(\d+) (P1|PIDS) (\d+) (\d+) (PM) (\d+) (\d+) (\d+) ([01]|LATER)", re.ASCII)
PX_BIT_LINE = re.compile(r"(\d+) (P[34]) (\d+) (\d+) (PX[12]) (\d+) (\d+) (\d+) (\d+) ([01]|LATER)", re.ASCII)
SEVEN = r"([01](?: [01]){6})"
WORK_LINE = re.compile(
    rf"WORK BIT (\d+) GENERATOR (133|171|165) FRAME {SEVEN} SCRAMBLER {SEVEN} SUM (\d+)"
    r" STEP (\d+) K (\d+) BLOCK (\d+) PARTITION (\d+) ROW (\d+) COLUMN (\d+) CELL (\d+)",
    re.ASCII,
)

Row = Tuple[str, ...]

PM, PX, BIT = "PM", "PX", "BIT"
"""The kinds of a question: for a cell of PM, for one of PX1 or PX2, for a coded bit."""

DASH = "-"
"""Stands in a box to which there is no answer."""

FILL = "FILL"
LATER = "LATER"


@dataclass(frozen=True)
class Working:
    """The working of a coded bit: its frame bits and scrambling bits, newest first, how many ones its generator takes, and the interleaver's step."""

    number: int
    generator: str
    bits: Tuple[int, ...]
    scrambling: Tuple[int, ...]
    ones: int
    step: int
    k: int
    block: int
    partition: int
    row: int
    column: int
    cell: int


@dataclass(frozen=True)
class Coded:
    """A coded bit: of a transfer frame of a channel, in the L1 frame in which that was handed over."""

    frame: int
    channel: str
    tframe: int
    bit: int


@dataclass(frozen=True)
class Place:
    """A cell: the L1 frame in which it is sent, and its place; pair is the block pair in PX1 and PX2."""

    frame: int
    matrix: str
    pair: Optional[int]
    row: int
    column: int


@dataclass(frozen=True)
class Answer:
    """A question by its words, and what is to be written into its boxes, in the order of the program's line."""

    kind: str
    question: Row
    boxes: Row
    working: Optional[Working] = None

    @property
    def fill(self) -> bool:
        """Whether the cell shows zero fill."""
        return self.boxes[0] == FILL

    @property
    def coded(self) -> Optional[Coded]:
        """The coded bit that is asked for or answered; zero fill is none."""
        if self.kind == BIT:
            frame, channel, tframe, bit = self.question
            return Coded(int(frame), channel, int(tframe), int(bit))
        if self.fill:
            return None
        frame, channel = (self.question[0], self.boxes[0]) if self.kind == PM else (self.boxes[1], self.boxes[0])
        return Coded(int(frame), channel, int(self.boxes[-3]), int(self.boxes[-2]))

    @property
    def place(self) -> Place:
        """The cell that is asked for or answered."""
        if self.kind == BIT:
            matrix, frame, pair, row, column = self.boxes[:5]
        else:
            frame, matrix, row, column = self.question[0], self.question[1], self.question[-2], self.question[-1]
            pair = self.question[2] if self.kind == PX else DASH
        return Place(int(frame), matrix, None if pair == DASH else int(pair), int(row), int(column))


@dataclass
class Sheet:
    """An answer sheet: its run, whether workings were asked for, the refused lines, and the answers in the order of the program."""

    mode: int
    count: int
    without: str
    worked: bool = False
    refused: List[int] = field(default_factory=list)
    answers: List[Answer] = field(default_factory=list)

    def of_kind(self, kind: str) -> List[Answer]:
        """The answers to questions of a kind."""
        return [answer for answer in self.answers if answer.kind == kind]


def answer_of(line: str) -> Optional[Answer]:
    """An answer, if the line is one."""
    found = PM_LINE.fullmatch(line)
    if found:
        return Answer(PM, found.groups()[:4], found.groups()[4:])
    found = PX_LINE.fullmatch(line)
    if found:
        return Answer(PX, found.groups()[:5], found.groups()[5:])
    found = FILL_LINE.fullmatch(line)
    if found:
        return Answer(PX, found.groups(), (FILL, DASH, DASH, DASH, DASH))
    found = PM_BIT_LINE.fullmatch(line)
    if found:
        matrix, sent, row, column, value = found.groups()[4:]
        return Answer(BIT, found.groups()[:4], (matrix, sent, DASH, row, column, value))
    found = PX_BIT_LINE.fullmatch(line)
    return Answer(BIT, found.groups()[:4], found.groups()[4:]) if found else None


def working_of(line: str) -> Optional[Working]:
    """The working of a coded bit, if the line is one."""
    found = WORK_LINE.fullmatch(line)
    if found is None:
        return None
    bits, scrambling = (tuple(map(int, found[n].split())) for n in (3, 4))
    return Working(int(found[1]), found[2], bits, scrambling, *(int(found[n]) for n in range(5, 13)))


def no_sheet(line: str) -> Refused:
    """Why there is no sheet, in words."""
    frame = NO_FRAME.fullmatch(line)
    if frame:
        at, number, place = map(int, frame.groups())
        return causes.refusal(number, place, at, "sender")
    found = NO_SHEET.fullmatch(line)
    if not found:
        raise not_whole(repr(line))
    return Refused(f"refused: {causes.words_of(found[1], int(found[2] or 0), 'sheet')} ({line.replace('NO SHEET ', '').lower()})")


def not_whole(why: str) -> Failed:
    """What is said of output that is no sheet."""
    return Failed(f"the output of sheet is not whole: {why}")


def is_unworked(line: str) -> bool:
    """Whether a line is the head of a sheet without workings."""
    head = HEAD.fullmatch(line)
    return head is not None and head[4] is None


def sheet_of(lines: List[str]) -> Sheet:
    """A sheet by all of its lines; one that is not whole is none."""
    if len(lines) == 1 and lines[0].startswith("NO SHEET"):
        raise no_sheet(lines[0])
    head = HEAD.fullmatch(lines[0]) if lines else None
    if head is None:
        raise not_whole("it has no head")
    sheet = Sheet(int(head[1]), int(head[2]), head[3] or "", head[4] is not None)
    body = lines[1:-1]
    while body and re.fullmatch(r"REFUSED \d+", body[0], re.ASCII):
        sheet.refused.append(int(body.pop(0).split()[1]))
    for line in body:
        taken(sheet, line)
    if lines[-1] != f"END {len(sheet.answers)}":
        raise not_whole("it has no end")
    for answer in sheet.answers:
        if (answer.working is not None) != (sheet.worked and not answer.fill):
            raise not_whole(f"the working of {' '.join(answer.question)!r} is missing, or was not asked for")
    return sheet


def taken(sheet: Sheet, line: str) -> None:
    """Takes an answer, or the working of the last one."""
    answer, working = answer_of(line), working_of(line)
    if answer is not None:
        sheet.answers.append(answer)
    elif working is not None and sheet.answers and sheet.answers[-1].working is None:
        sheet.answers[-1] = replace(sheet.answers[-1], working=working)
    else:
        raise not_whole(f"{line!r} is no answer")
