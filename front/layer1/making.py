"""The sheet of a candidate, made from frames and questions: answers by the program sheet, the same from the second program where it is built, and both
papers."""

import io
import os
import subprocess
from concurrent.futures import ThreadPoolExecutor
from dataclasses import dataclass
from typing import Dict, List, Sequence

from . import paper, programs, windows
from .answers import Sheet, is_unworked
from .files import reason
from .outcomes import Failed, Refused
from .paper import Paper
from .questions import Run
from .record import Record
from .sheets import number_of_sheet, printed, sheet_in
from .workings import WORK

ALL = "examiner/all.html"


def answers_name(candidate: str) -> str:
    """The file of a candidate's answers."""
    return f"{candidate}/answers"


def page_names(candidate: str) -> Sequence[str]:
    """The files of the two copies."""
    return f"papers/{candidate}.html", f"examiner/{candidate}.html"


@dataclass(frozen=True)
class Made:
    """What is made for a candidate."""

    paper: Paper
    content: Dict[str, bytes]


def answered(run: Run, questions: str, frames: bytes, words: Sequence[str]) -> List[str]:
    """The lines of the program sheet on a list and frames."""
    return printed([*run.words(), *words], questions + "\n", io.BytesIO(frames))


def made(record: Record, candidate: str, revision: str) -> Made:
    """Answers and papers of a candidate."""
    run = record.run
    questions = record.content(f"{candidate}/questions").decode("latin-1")
    data = record.content(f"{candidate}/frames")
    number = number_of_sheet(run.words(), questions + "\n", data)
    if number != record.sheets[candidate]:
        raise Refused(f"refused: the sheet of candidate {candidate} has the number {number} by its questions and frames, and another is recorded")
    words = [WORK] if with_workings(record, candidate) else []
    lines = answered(run, questions, data, words)
    sheet, text = sheet_in(lines, [*run.words(), *words]), "\n".join(lines) + "\n"
    in_step(sheet, questions, candidate)
    second_agrees([*run.words(), *words], questions, data, text, candidate)
    frames = windows.Frames(run.mode, run.without, data)
    windows.agree(frames, sheet.answers)
    on_paper = Paper(sheet, number, candidate, revision, frames, questions)
    pages = [paper.page(on_paper, examiner).encode() for examiner in (False, True)]
    return Made(on_paper, {answers_name(candidate): text.encode("latin-1"), **dict(zip(page_names(candidate), pages))})


def with_workings(record: Record, candidate: str) -> bool:
    """Whether a sheet has workings: all but one that was made without them, by an earlier revision, and is made again."""
    path = record.folder / answers_name(candidate)
    try:
        first = path.read_bytes().partition(b"\n")[0] if path.is_file() else b""
    except OSError as error:
        raise Failed(f"{path}: {reason(error)}") from None
    return not is_unworked(first.decode("latin-1"))


def in_step(sheet: Sheet, questions: str, candidate: str) -> None:
    """A list with a refused line makes no paper; line, answer and paper have one number."""
    if sheet.refused:
        raise Refused(f"refused: line {sheet.refused[0]} of {candidate}/questions has no answer, and a list with such a line makes no paper")
    asked = [" ".join(answer.question) for answer in sheet.answers]
    if asked != questions.splitlines():
        raise Refused(f"refused: {candidate}/questions is not in the order of the sheet")


def second_agrees(words: Sequence[str], questions: str, frames: bytes, text: str, candidate: str) -> None:
    """The second program, where it is built, prints the same bytes."""
    program = programs.second()
    if program is None:
        return
    asked = [str(program), "sheet", *words]
    try:
        done = subprocess.run(asked, input=questions.encode("latin-1") + b"\n" + frames, stdout=subprocess.PIPE, stderr=subprocess.PIPE)
    except OSError as error:
        raise Failed(f"{program} cannot be run: {reason(error)}") from None
    if done.returncode not in (0, 1):
        said = done.stderr.decode("utf-8", "replace").strip()
        raise Failed(f"the second program, {program}, did not do its work: {said}")
    theirs = done.stdout.decode("latin-1")
    if theirs != text:
        ours, other = first_difference(text, theirs)
        raise Refused(f"refused: candidate {candidate}: the second program differs: {other!r}, where the program sheet has {ours!r}")


def first_difference(ours: str, theirs: str) -> Sequence[str]:
    """The first lines that are not the same; an empty one where a text has ended."""
    a, b = ours.splitlines(), theirs.splitlines()
    length = max(len(a), len(b))
    pairs = zip(a + [""] * (length - len(a)), b + [""] * (length - len(b)))
    return next((pair for pair in pairs if pair[0] != pair[1]), ("", ""))


def made_all(record: Record, candidates: Sequence[str], revisions: Dict[str, str]) -> List[Made]:
    """The sheets of candidates, as many at a time as there are processors."""
    programs.program("sheet")
    with ThreadPoolExecutor(os.cpu_count() or 1) as pool:
        return list(pool.map(lambda candidate: made(record, candidate, revisions[candidate]), candidates))


def all_page(found: Sequence[Made]) -> bytes:
    """The examiner's copies of all candidates."""
    return paper.all_pages([each.paper for each in found]).encode()


def second_in_words() -> str:
    """Whether the second program was asked."""
    return "the second program agrees" if programs.second() else "the second program is not built and was not asked"


def of_candidate(name: str, candidate: str) -> bool:
    """Whether a file is one of a candidate's."""
    return name.startswith(f"{candidate}/") or name.partition("/")[2].partition(".")[0] == candidate

