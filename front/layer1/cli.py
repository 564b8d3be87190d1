"""The command line: its verbs, and what each ending is said as."""

import sys
from typing import List, Optional

from . import asking, comparing, files, lines, looking, pages, sending, sheets, sitting, subcarriers
from .outcomes import DONE, FAILED, Ended, Failed
from .words import Parser

DESCRIPTION = "FM Layer 1 answers from the proved programs. Exit status: 0 done, 1 refused or different, 2 wrong use, 3 the system failed."


def parser() -> Parser:
    """All verbs."""
    top = Parser(prog="layer1", description=DESCRIPTION, allow_abbrev=False)
    verbs = top.add_subparsers(metavar="VERB", parser_class=Parser)
    for module in (asking, looking, comparing, sending, lines, subcarriers, sheets, sitting, pages):
        module.arrange(verbs)
    return top


def main(words: Optional[List[str]] = None) -> int:
    """Runs a verb, and answers its exit status."""
    try:
        status = obeyed(words)
        files.flush()
        return status
    except Ended as ended:
        return said(str(ended), ended.status)
    except BrokenPipeError:
        return said("standard output: Broken pipe", FAILED)
    except KeyboardInterrupt:
        return said("broken off", FAILED)
    except (OSError, MemoryError) as error:
        return said(files.reason(error) if isinstance(error, OSError) else "not enough memory", FAILED)


def obeyed(words: Optional[List[str]]) -> int:
    """Runs a verb; `--help` and wrong words end in the parser."""
    top = parser()
    try:
        given = top.parse_args(words)
        if not hasattr(given, "run"):
            top.error("which verb?")
        status = given.run(given)
    except SystemExit as end:
        status = end.code
    if not isinstance(status, int):
        raise Failed(f"a verb ended with {status!r}")
    return status


def said(message: str, status: int) -> int:
    """Says why a verb ends, and lets nothing more be written."""
    if status == FAILED:
        files.give_up_output()
    else:
        try:
            files.flush()
        except Failed as failed:
            files.give_up_output()
            message, status = str(failed), FAILED
    if sys.stderr is not None:
        sys.stderr.write(f"layer1: {message}\n")
    return status if status != DONE else FAILED
