"""sitting mark: what a clerk typed from the boxes of a paper, held against the answers. Nothing is guessed: a line that does not fit is named, and nothing
is marked."""

import argparse
import csv
import io
import re
from dataclasses import dataclass
from typing import Dict, List, Optional, Sequence

from . import making, record
from .answers import DASH, Answer, sheet_of
from .explaining import answer_words
from .files import say, shown, text_of
from .layout import BOXES
from .outcomes import DONE, Refused
from .record import Record
from .workings import step_lines

MARKS = "examiner/marks.csv"
HEADS = ["candidate", "sheet", "number", "question", "given", "answer", "boxes", "result", "points", "of"]
EMPTY = "_"
"""A box in which nothing stands, as it is typed."""

RIGHT, WRONG, UNANSWERED = "right", "wrong", "empty"


@dataclass(frozen=True)
class Marked:
    """A question, what stands in its boxes, and right, wrong or empty for each."""

    number: int
    answer: Answer
    given: List[str]
    boxes: List[str]

    @property
    def result(self) -> str:
        """The question as a whole."""
        return self.boxes[0] if len(set(self.boxes)) == 1 else WRONG

    @property
    def points(self) -> int:
        """A point for each right box."""
        return self.boxes.count(RIGHT)

    def row(self, candidate: str, sheet: str) -> List[str]:
        """As marks.csv has it."""
        answer = self.answer
        named = [candidate, sheet, str(self.number), " ".join(answer.question), " ".join(self.given), " ".join(answer.boxes)]
        return [*named, " ".join(self.boxes), self.result, str(self.points), str(len(answer.boxes))]


def plain(word: str) -> str:
    """A word as it is compared: capitals, numbers without zeros before them, one kind of dash."""
    word = word.strip().upper()
    if word in ("-", "–", "—"):
        return DASH
    return str(int(word)) if re.fullmatch(r"[0-9]+", word, re.ASCII) else word or EMPTY


def typed(name: str, answers: Sequence[Answer]) -> Dict[int, List[str]]:
    """What stands in the boxes of each question."""
    text = text_of(name, 1 << 20).encode("latin-1").decode("utf-8-sig", "replace")
    separator = ";" if ";" in text else "," if "," in text else None
    found: Dict[int, List[str]] = {}
    for number, line in enumerate(text.splitlines(), 1):
        where = f"{shown(name)}: refused: line {number}"
        words = next(csv.reader(io.StringIO(line), delimiter=separator), []) if separator else line.split()
        words = [word.strip() for word in words]
        if not any(words) or (number == 1 and separator and words[0].upper().rstrip(".") in ("NO", "NUMBER")):
            continue
        if not re.fullmatch(r"[0-9]{1,4}", words[0], re.ASCII) or not 1 <= int(words[0]) <= len(answers):
            raise Refused(f"{where} begins with no number of a question, 1 to {len(answers)}: {line!r}")
        if int(words[0]) in found:
            raise Refused(f"{where} is a second one for question {int(words[0])}: {line!r}")
        given = boxes_of(words[1:], answers[int(words[0]) - 1], separator is not None)
        if given is None:
            heads = ", ".join(head.replace("/", " ").lower() for head in BOXES[answers[int(words[0]) - 1].kind])
            raise Refused(f"{where} has not one word for each box ({heads}; {EMPTY} for an empty one): {line!r}")
        found[int(words[0])] = given
    left = [number for number in range(1, len(answers) + 1) if number not in found]
    if left:
        raise Refused(f"{shown(name)}: refused: there is no line for question {left[0]}; one without an answer is typed as its number alone")
    return found


def boxes_of(words: List[str], answer: Answer, fields: bool) -> Optional[List[str]]:
    """The words of a line by boxes, nothing where they are not as many; in CSV there may be empty fields behind them."""
    boxes = len(answer.boxes)
    if fields and not any(words[boxes:]):
        words = words[:boxes]
    if not any(words):
        return [EMPTY] * boxes
    return [plain(word) for word in words] if len(words) == boxes else None


def marked(answers: Sequence[Answer], given: Dict[int, List[str]]) -> List[Marked]:
    """Right, wrong or empty for each box."""
    found = []
    for number, answer in enumerate(answers, 1):
        boxes = [UNANSWERED if word == EMPTY else RIGHT if word == right else WRONG for word, right in zip(given[number], answer.boxes)]
        found.append(Marked(number, answer, given[number], boxes))
    return found


def run_mark(given: argparse.Namespace) -> int:
    """sitting mark."""
    found = record.opened(given.folder)
    candidate = record.one_of(found, given.candidate)
    if candidate not in found.made:
        raise Refused(f"refused: the sheet of candidate {candidate} is not made yet: layer1 sitting make {given.folder} {candidate}")
    text = found.content(making.answers_name(candidate)).decode("latin-1")
    answers = sheet_of(text.splitlines()).answers
    questions = marked(answers, typed(given.file, answers))
    lines = [question.row(candidate, found.sheets[candidate]) for question in questions]
    points, of = sum(question.points for question in questions), sum(len(question.answer.boxes) for question in questions)
    lines.append([candidate, found.sheets[candidate], "total", "", "", "", "", "", str(points), str(of)])
    kept(found, candidate, lines, given.force)
    for question in questions:
        say(in_words(question))
    say(f"candidate {candidate}, sheet {found.sheets[candidate]}: {points} of {of} points\n")
    return DONE


def kept(found: Record, candidate: str, lines: List[List[str]], force: bool) -> None:
    """Adds the marks of a candidate to marks.csv; other marks of the same one are replaced only where that is said."""
    rows = list(csv.reader(io.StringIO(found.content(MARKS).decode()))) if MARKS in found.hashes else [HEADS]
    before = [row for row in rows if row[0] == candidate]
    if before == lines:
        return
    if before and not force:
        raise Refused(f"refused: candidate {candidate} has other marks already; --force replaces them")
    rows = sorted([row for row in rows[1:] if row[0] != candidate] + lines, key=lambda row: row[0])
    out = io.StringIO()
    csv.writer(out, lineterminator="\n").writerows([HEADS, *rows])
    found.written({MARKS: out.getvalue().encode()}, replaced=[MARKS])


def in_words(question: Marked) -> str:
    """A question's marks; where it is contested, both answers beside each other and the working."""
    answer = question.answer
    text = f"{question.number}: {question.result}, {question.points} of {len(answer.boxes)}\n"
    if question.result != WRONG:
        return text
    text += f"    question  {' '.join(answer.question)}\n"
    heads = [head.replace("/", " ") for head in BOXES[answer.kind]]
    widths = [max(map(len, column)) for column in zip(heads, question.given, answer.boxes, question.boxes)]
    for name, words in (("", heads), ("given", question.given), ("answer", answer.boxes), ("", question.boxes)):
        text += f"    {name:8}  {'  '.join(word.ljust(width) for word, width in zip(words, widths))}".rstrip() + "\n"
    return text + working_words(answer)


def working_words(answer: Answer) -> str:
    """The working of an answer as text; the answer itself where it has none, as zero fill and a sheet that was made without workings."""
    coded, working = answer.coded, answer.working
    if coded is None or working is None:
        return f"    sheet     {' '.join(answer.question)} {answer_words(answer)}\n"
    return "".join(f"    {'' if number else 'working':8}  {line}\n" for number, line in enumerate(step_lines(coded, working)))
