"""The verb page: the bench page, one HTML file that looks up what the proved programs printed when it was made."""

import argparse
import hashlib
import html
import json
from pathlib import Path

from . import programs, tables
from .files import reason, refuse_existing, say, write_text
from .outcomes import DONE, Failed, Misused
from .revision import revision
from .words import Verbs

NAME = "bench.html"
PARTS = Path(__file__).resolve().parent / "page"
"""The page's own files; the first has a place for each of the others."""

PLACED = ("page.css", "lookup.js", "picture.js", "pointing.js", "answers.js", "opened.js", "paper.js", "measure.js", "page.js")
"""The others, in their order."""

ASKED = ("owners", "cells")
"""The programs whose answers are in the page."""


def arrange(verbs: Verbs) -> None:
    """The words of the verb."""
    page = verbs.add_parser(
        "page",
        help="the bench page, one HTML file for a tablet beside the board",
        description=f"Writes {NAME} into a folder: a picture of each matrix to tap in, whose bit it is, and where a bit goes, without network or server.",
    )
    page.add_argument("folder", metavar="FOLDER", help=f"where {NAME} is written; made where it is not there")
    page.add_argument("--force", action="store_true", help="writes over a page that exists")
    page.set_defaults(run=run_page)


def run_page(given: argparse.Namespace) -> int:
    """The verb page."""
    folder = Path(given.folder)
    refuse_other(folder)
    refuse_existing(str(folder / NAME), given.force)
    text = page()
    try:
        folder.mkdir(parents=True, exist_ok=True)
    except OSError as error:
        raise Failed(f"{folder} cannot be made: {reason(error)}") from None
    write_text(str(folder / NAME), text, given.force)
    say(f"{folder / NAME}\n")
    return DONE


def refuse_other(folder: Path) -> None:
    """Something else than a folder on the way is said before any work is done."""
    for path in (folder, *folder.parents):
        if path.exists():
            if not path.is_dir():
                raise Misused(f"{path} is no folder")
            return


def page() -> str:
    """The page, put together."""
    made_of = [fingerprint(name) for name in ASKED]
    parts = {name: (PARTS / name).read_text(encoding="utf-8") for name in PLACED}
    parts["tables.json"] = json.dumps(tables.tables(), separators=(",", ":")).replace("<", "\\u003c")
    parts["revision"] = html.escape(revision())
    parts["programs"] = html.escape(", ".join(made_of))
    text = (PARTS / "page.html").read_text(encoding="utf-8")
    for part, content in parts.items():
        mark = f"[[{part}]]"
        if text.count(mark) != 1:
            raise Failed(f"the page's own files do not fit: {mark} stands {text.count(mark)} times in page.html")
        text = text.replace(mark, content)
    return text


def fingerprint(name: str) -> str:
    """A program by name and the beginning of its SHA-256, so that it can be told which one made a page."""
    return f"{name} {hashlib.sha256(programs.program(name).read_bytes()).hexdigest()[:16]}"
