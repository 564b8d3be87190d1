"""The verb sitting: frames and questions for candidates, their papers and answers, a check of them all, and marks."""

import argparse
import os
import secrets
import tempfile
from concurrent.futures import ThreadPoolExecutor
from pathlib import Path
from typing import Dict, List, Sequence, Tuple

from . import checking, making, marking, pdf, programs, record
from .answers import Sheet, sheet_of
from .drawing import Source
from .files import reason, say, synced, umask, write_all
from .modes import MODES, mode_of, number_of, without_of
from .outcomes import DONE, Failed, Misused, Refused
from .questions import Run, Wanted, frames_of, list_for, refuse_missing
from .record import Record
from .revision import revision
from .sheets import number_of_sheet
from .words import Parser, Verbs

KINDS = {
    "pm": (4, "cells of PM with a bit of P1"),
    "pids": (2, "cells of PM with a bit of PIDS"),
    "px": (4, "cells of PX1 and PX2 with a coded bit"),
    "fill": (1, "cells of PX1 and PX2 with zero fill"),
    "bits": (4, "coded bits whose cell is asked for"),
}
"""How many questions of a kind a candidate has where nothing is said, and what they are."""


def arrange(verbs: Verbs) -> None:
    """The words of the verb."""
    sitting = verbs.add_parser("sitting", help="papers, answers and marks for the candidates of a sitting", description=__doc__)
    parts = sitting.add_subparsers(metavar="WHAT", parser_class=Parser)
    sitting.set_defaults(run=lambda given: misused())
    arrange_new(parts)
    made = parts.add_parser("make", help="answers, then papers", description="Makes answers and papers; where the second program is built, it must agree.")
    folder_of(made)
    made.add_argument("candidate", metavar="CANDIDATE", nargs="?", help="a candidate's number (default: all)")
    made.add_argument("--pdf", action="store_true", help="also a PDF of each paper, by chromium or weasyprint")
    made.set_defaults(run=run_make)
    check = parts.add_parser("check", help="everything made again and compared", description="Makes everything again from frames and questions and compares.")
    folder_of(check)
    check.set_defaults(run=checking.run_check)
    mark = parts.add_parser("mark", help="right, wrong or empty for each box", description="Marks a candidate's answers, and adds them to examiner/marks.csv.")
    folder_of(mark)
    mark.add_argument("candidate", metavar="CANDIDATE", help="the candidate's number")
    mark.add_argument("file", metavar="FILE", help="lines NO ANSWER.., a word for each box, _ for an empty one; or CSV")
    mark.add_argument("--force", action="store_true", help="marks a candidate again whose marks are there")
    mark.set_defaults(run=marking.run_mark)
    show = parts.add_parser("show", help="files, hashes and revision of a sheet", description="Says what is recorded of a sheet.")
    folder_of(show)
    show.add_argument("sheet", metavar="SHEET", help="the ten digits on the paper")
    show.set_defaults(run=checking.run_show)


def misused() -> int:
    """The verb alone."""
    raise Misused("sitting new, make, check, mark or show?")


def folder_of(verb: argparse.ArgumentParser) -> None:
    """The word that all parts have."""
    verb.add_argument("folder", metavar="DIR", help="the folder of the sitting")


def arrange_new(parts: Verbs) -> None:
    """The words of new."""
    new = parts.add_parser("new", help="draws frames and questions", description="Draws frames and questions for the candidates of a sitting.")
    new.add_argument("folder", metavar="DIR", help="the folder that is made")
    new.add_argument("--mode", required=True, help="service mode")
    new.add_argument("--frames", required=True, metavar="COUNT", help="how many L1 frames each candidate has")
    new.add_argument("--candidates", required=True, metavar="COUNT", help="how many candidates")
    new.add_argument("--without", nargs="+", choices=("P3", "P4"), default=[], help="channels of which there are no bytes; zeros are sent for them")
    for name, (number, words) in KINDS.items():
        new.add_argument(f"--{name}", metavar="N", help=f"{words} (default: {number}, where there are any)")
    new.add_argument("--seed", metavar="N", help="draws the same again; who knows the number can draw it too (default: from the system's random source)")
    new.set_defaults(run=run_new)


def run_of(given: argparse.Namespace) -> Run:
    """What is asked for, as a run."""
    mode = mode_of(given.mode)
    if not mode.has_owners:
        raise Misused(f"there are no sheets for {mode.name}; there are for {', '.join(known.name for known in MODES.values() if known.has_owners)}")
    without = without_of(mode, given.without)
    count = number_of(given.frames, "--frames", 64)
    if count == 0:
        raise Misused("--frames is a number from 1 to 64, not '0'")
    return Run(mode, count, without)


def wanted_of(given: argparse.Namespace, run: Run) -> Wanted:
    """How many questions of each kind; by default none of what the mode has not."""
    missing = set() if run.matrices() else {"px", "fill"}
    numbers = {}
    for name, (number, _) in KINDS.items():
        word = getattr(given, name)
        default = 0 if name in missing else number
        numbers[name] = default if word is None else number_of(word, f"--{name}", 1000)
    wanted = Wanted(**numbers)
    refuse_missing(run, wanted)
    return wanted


def run_new(given: argparse.Namespace) -> int:
    """sitting new."""
    run = run_of(given)
    wanted = wanted_of(given, run)
    count = number_of(given.candidates, "--candidates", record.MOST)
    if count == 0:
        raise Misused(f"--candidates is a number from 1 to {record.MOST}, not '0'")
    folder = Path(given.folder)
    if os.path.lexists(folder):
        raise Misused(f"{folder} exists; a sitting is never drawn over another one")
    seed = secrets.token_hex(32) if given.seed is None else str(number_of(given.seed, "--seed", 10**18))
    heads = {"mode": run.mode.name, "frames": str(run.count), "without": " ".join(run.without) or "none", "candidates": str(count)}
    heads.update(questions=wanted.text(), seed=seed, software=revision())
    drawn = Record(folder, run, heads)
    content = drawn_content(drawn, wanted, record.candidate_names(count))
    whole_folder(folder, {**content, record.NAME: drawn.text().encode()})
    say(f"{folder}: {count} candidate{'s' * (count != 1)}, {wanted.total} questions each\n")
    return DONE


def drawn_content(drawn: Record, wanted: Wanted, candidates: Sequence[str]) -> Dict[str, bytes]:
    """Frames and questions of all candidates, which the record then has."""
    seed = drawn.heads["seed"].encode()
    programs.program("cells")
    programs.program("sheet")
    with ThreadPoolExecutor(os.cpu_count() or 1) as pool:
        found = list(pool.map(lambda candidate: drawn_for(drawn.run, wanted, seed, candidate), candidates))
    content = {}
    for candidate, (frames, questions) in zip(candidates, found):
        drawn.sheets[candidate] = number_of_sheet(drawn.run.words(), questions + "\n", frames)
        content.update({f"{candidate}/frames": frames, f"{candidate}/questions": questions.encode()})
    if len(set(drawn.sheets.values())) != len(candidates):
        raise Refused("refused: two sheets would have the same number; draw again")
    drawn.take(content)
    return content


def drawn_for(run: Run, wanted: Wanted, seed: bytes, candidate: str) -> Tuple[bytes, str]:
    """Frames and questions of a candidate."""
    frames = frames_of(run, Source(seed, f"frames {candidate}"))

    def answered(lines: List[str]) -> Sheet:
        return sheet_of(making.answered(run, "".join(line + "\n" for line in lines), frames, []))

    return frames, list_for(run, wanted, seed, candidate, answered)


def whole_folder(folder: Path, content: Dict[str, bytes]) -> None:
    """Makes a folder with these files in it, whole or not at all."""
    try:
        with tempfile.TemporaryDirectory(prefix=folder.name + ".", dir=folder.resolve().parent) as beside:
            new = Path(beside) / "new"
            new.mkdir()
            write_all(new, content, folder)
            new.chmod(0o777 & ~umask())
            if os.path.lexists(folder):
                raise Misused(f"{folder} exists; a sitting is never drawn over another one")
            os.rename(new, folder)
            synced(folder.resolve().parent)
    except OSError as error:
        raise Failed(f"{folder} is not written: {reason(error)}") from None


def run_make(given: argparse.Namespace) -> int:
    """sitting make."""
    found = record.opened(given.folder)
    candidates = found.candidates if given.candidate is None else [record.one_of(found, given.candidate)]
    now = revision()
    revisions = {candidate: found.made.get(candidate, now) for candidate in candidates}
    sheets = making.made_all(found, candidates, revisions)
    content = {name: data for each in sheets for name, data in each.content.items()}
    if given.candidate is None:
        content[making.ALL] = making.all_page(sheets)
    found.made.update(revisions)
    found.written(content)
    if given.pdf:
        make_pdf(found, [name for candidate in candidates for name in making.page_names(candidate)])
    say(f"{found.folder}: {len(candidates)} sheet{'s' * (len(candidates) != 1)} made; {making.second_in_words()}\n")
    return DONE


def make_pdf(found: Record, names: Sequence[str]) -> None:
    """A PDF beside each page that has none yet."""
    left = [name for name in names if name.replace(".html", ".pdf") not in found.hashes]
    with ThreadPoolExecutor(os.cpu_count() or 1) as pool:
        printed = list(pool.map(lambda name: pdf.printed(found.folder / name), left))
    found.written({name.replace(".html", ".pdf"): data for name, data in zip(left, printed)})
