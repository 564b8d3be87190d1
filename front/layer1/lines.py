"""The verbs nearest, restore and places: a line of the input, a line of the answer."""

import argparse
import re
from typing import Dict, List, Pattern, Sequence

from . import causes, programs
from .files import STANDARD, say, text_of
from .modes import number_of
from .outcomes import DONE, REFUSED, Failed
from .words import Verbs

FRAME = r"[0-9A-F]{20}"
NEAREST = re.compile(rf"{FRAME} \d+ \d+|REFUSED \d+", re.ASCII)
RESTORED = re.compile(rf"{FRAME}|NO FRAME FITS|SEVERAL FRAMES FIT|REFUSED \d+", re.ASCII)
PLACES = re.compile(r"\d+( \d+){15}|REFUSED 10 0|BAD LINE \d+", re.ASCII)
GREATEST_PLACES = 16384
"""Bytes that the program allocate takes."""

CELLS = "lines of 200 cells in coded order, each 0, 1, or ? where it was not read"


def arrange(verbs: Verbs) -> None:
    """The words of the verbs."""
    nearest = verbs.add_parser(
        "nearest",
        help="the PIDS frame nearest to mis-copied cells",
        description=f"Takes {CELLS}, and prints for each the nearest PIDS frame in hexadecimal, the cells that differ, and the margin.",
    )
    nearest.add_argument("file", metavar="CELLS", nargs="?", default=STANDARD, help="the lines (default: standard input)")
    nearest.add_argument("--budget", default="64", metavar="N", help="register starts that are tried, 1 to 64 (default: 64, with which the margin is 0)")
    nearest.set_defaults(run=run_nearest)
    restore = verbs.add_parser(
        "restore",
        help="the PIDS frame that fits the cells that were read",
        description=f"Takes {CELLS}, and prints for each the PIDS frame in hexadecimal that fits, if exactly one does.",
    )
    restore.add_argument("file", metavar="CELLS", nargs="?", default=STANDARD, help="the lines (default: standard input)")
    restore.set_defaults(run=run_restore)
    places = verbs.add_parser(
        "places",
        help="the sixteen PIDS places of an L1 frame, shared by eight sources",
        description="Takes lines of eight shares and eight counts of messages waiting, and prints for each the sources of the sixteen PIDS places.",
    )
    places.add_argument("file", metavar="SHARES", nargs="?", default=STANDARD, help="the lines (default: standard input)")
    places.set_defaults(run=run_places)


def answered(name: str, words: Sequence[str], text: str, form: Pattern[str]) -> List[str]:
    """What a program prints of lines, one of this form for each."""
    answers = programs.lines_of(name, words, text)
    wanted = text.count("\n")
    wrong = [answer for answer in answers if not form.fullmatch(answer)]
    if len(answers) != wanted or wrong:
        raise Failed(f"the output of {name} is not whole: {len(answers) - len(wrong)} of {wanted} answers")
    return answers


def told(answers: List[str], reasons: Dict[str, str]) -> int:
    """Prints the answers, behind one that is a refusal the reason in words. Status 1 if there is one."""
    status = DONE
    for answer in answers:
        why = [reason for begin, reason in reasons.items() if answer.startswith(begin)]
        say(f"{answer}: {why[0]}\n" if why else f"{answer}\n")
        status = REFUSED if why else status
    return status


NO_CELLS = "the line is not 200 cells, each 0, 1 or ?"


def run_nearest(given: argparse.Namespace) -> int:
    """The verb nearest."""
    budget = number_of(given.budget, "--budget", 10**9)
    if not 1 <= budget <= 64:
        raise causes.refusal(16, 0)
    return told(answered("nearest", [str(budget)], text_of(given.file), NEAREST), {"REFUSED": NO_CELLS})


def run_restore(given: argparse.Namespace) -> int:
    """The verb restore."""
    reasons = {
        "REFUSED": NO_CELLS,
        "NO FRAME": f"{causes.words_of('14', 0)} (number 14)",
        "SEVERAL": f"{causes.words_of('15', 0)} (number 15)",
    }
    return told(answered("restore", [], text_of(given.file), RESTORED), reasons)


def run_places(given: argparse.Namespace) -> int:
    """The verb places."""
    reasons = {
        "REFUSED 10 0": f"{causes.words_of('10', 0)} (number 10)",
        "BAD LINE": "the line is not eight shares, 0 to 16, and eight counts, 0 to 255",
    }
    return told(answered("allocate", [], text_of(given.file, GREATEST_PLACES), PLACES), reasons)
