"""The verbs sheet and work: answers to a list of questions about L1 frames, by the program sheet."""

import argparse
import hashlib
from pathlib import Path
from typing import IO, List, Sequence

from . import layout, paper, programs, windows
from .answers import Sheet, sheet_of
from .asking import GREATEST, bits_of_words
from .files import behind, opened, refuse_existing, say, shown, size_of, text_of, write_text
from .modes import mode_of, number_of, without_of
from .outcomes import DONE, Failed, Refused
from .questions import Run
from .revision import revision
from .words import Verbs
from .workings import WORK, in_words

COPIES = ("candidate", "examiner")


def arrange(verbs: Verbs) -> None:
    """The words of both verbs."""
    sheet = verbs.add_parser(
        "sheet",
        help="the answers to a list of questions about L1 frames",
        description="Answers a list of questions about L1 frames, as a text, or as two copies for A4 paper, the candidate's and the examiner's.",
    )
    sheet.add_argument("mode", metavar="MODE", help="service mode")
    sheet.add_argument("count", metavar="COUNT", help="how many L1 frames")
    sheet.add_argument("questions", metavar="QUESTIONS", help="lines FRAME PM ROW COL, FRAME PX1 PAIR ROW COL and so on")
    sheet.add_argument("frames", metavar="FRAMES", help="numbers and frames of the L1 frames, as send reads them")
    left_out(sheet)
    sheet.add_argument("--lines", action="store_true", help="the lines as the program prints them")
    sheet.add_argument("--html", metavar="FOLDER", help="writes candidate.html and examiner.html into this folder")
    sheet.add_argument("--force", action="store_true", help="writes over files that exist")
    sheet.set_defaults(run=run_sheet)
    work = verbs.add_parser("work", help="the working of a coded bit", description="Prints how a coded bit and its cell come about, step by step.")
    work.add_argument("bit", nargs="+", metavar="WORD", help="P1 BIT; PIDS TFRAME BIT, P3 TFRAME BIT or P4 TFRAME BIT")
    work.add_argument("--frames", metavar="FILE", required=True, help="numbers and frames of the L1 frames, as send reads them")
    work.add_argument("--mode", metavar="MODE", required=True, help="service mode")
    work.add_argument("--frame", default="0", help="L1 frame in which the transfer frame is handed over, from 0 (default: 0)")
    left_out(work)
    work.add_argument("--lines", action="store_true", help="answer and working as the program prints them")
    work.set_defaults(run=run_work)


def left_out(verb: argparse.ArgumentParser) -> None:
    """The word that both verbs have."""
    verb.add_argument("--without", nargs="+", choices=("P3", "P4"), default=[], help="channels of which there are no bytes; zeros are sent for them")


def list_of(name: str) -> str:
    """A list of questions as the program takes it: an empty line ends it, and only one, at its end."""
    text = text_of(name).rstrip("\n")
    if "\n\n" in text or text.startswith("\n"):
        line = 1 if text.startswith("\n") else text[: text.index("\n\n")].count("\n") + 2
        raise Refused(f"{shown(name)}: refused: line {line} is empty, and an empty line ends the list")
    return text + "\n\n" if text else "\n"


def printed(words: Sequence[str], questions: str, frames: IO[bytes]) -> List[str]:
    """The lines that the program sheet prints."""
    with behind(questions.encode("latin-1"), frames) as source, programs.running("sheet", words, source) as out:
        text = out.read().decode("latin-1")
    if not text.endswith("\n"):
        raise Failed("the output of sheet is not whole: its last line has no end")
    return text.splitlines()


def sheet_in(lines: List[str], words: Sequence[str]) -> Sheet:
    """The sheet in the lines, which is of this run and with or without workings as it was asked for."""
    sheet = sheet_of(lines)
    if lines[0] != f"MP{' '.join(words)}":
        raise Failed(f"the output of sheet is that of {lines[0]!r}")
    return sheet


def run_sheet(given: argparse.Namespace) -> int:
    """The verb sheet."""
    mode, count = mode_of(given.mode), number_of(given.count, "COUNT", 10**9)
    names = [str(Path(given.html) / f"{copy}.html") for copy in COPIES] if given.html else []
    for name in names:
        refuse_existing(name, given.force)
    without = tuple(sorted(set(given.without)))
    words = Run(mode, count, without).words()
    questions = list_of(given.questions)
    with opened(given.frames) as frames:
        asked = [*words, *([WORK] if names else [])]
        lines = printed(asked, questions, frames)
        sheet = sheet_in(lines, asked)
        if given.html is None:
            say("\n".join(lines) + "\n" if given.lines else layout.text(sheet))
            return DONE
        frames.seek(0)
        data = windows.Frames(mode, without, frames.read())
    windows.agree(data, sheet.answers)
    on_paper = paper.Paper(sheet, number_of_sheet(words, questions, data.data), "", revision(), data, questions[:-1])
    pages = [paper.page(on_paper, copy == "examiner") for copy in COPIES]
    Path(given.html).mkdir(parents=True, exist_ok=True)
    for name, page in zip(names, pages):
        write_text(name, page, given.force)
        say(f"{name}\n")
    return DONE


def number_of_sheet(words: Sequence[str], questions: str, frames: bytes) -> str:
    """A sheet's own number, of ten digits, made from mode, questions and frames: nothing of the answers can be computed from it."""
    digest = hashlib.sha256(" ".join(words).encode() + b"\n" + questions.encode("latin-1") + frames).digest()
    return f"{int.from_bytes(digest[:4], 'big'):010d}"


def run_work(given: argparse.Namespace) -> int:
    """The verb work: the working that the program prints under its answer."""
    mode = mode_of(given.mode)
    without = without_of(mode, given.without)
    bits = bits_of_words(given.bit, number_of(given.frame, "--frame", GREATEST))
    with opened(given.frames) as frames:
        count, rest = divmod(size_of(frames), mode.input_bytes(without))
        if rest or not count:
            raise Refused(f"{shown(given.frames)}: refused: {size_of(frames)} bytes are no whole L1 frames of {mode.name} (number 3)")
        words = [*Run(mode, count, without).words(), WORK]
        lines = printed(words, "".join(bit.line() + "\n" for bit in bits) + "\n", frames)
    sheet = sheet_in(lines, words)
    if sheet.refused:
        raise Refused("refused: the L1 frames have no such coded bit (number 3)")
    say("".join(line + "\n" for line in lines[1:-1]) if given.lines else "".join(map(in_words, sheet.answers)))
    return DONE
