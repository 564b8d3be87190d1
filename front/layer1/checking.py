"""sitting check and sitting show: whether everything is as it was recorded, and comes out the same when it is made again."""

import argparse
from typing import Dict, List

from . import making, record
from .files import say
from .outcomes import DONE, REFUSED, Ended, Failed
from .record import Record, fingerprint


def run_check(given: argparse.Namespace) -> int:
    """sitting check."""
    found = record.opened(given.folder)
    missing, changed = record.damaged(found)
    complaints = [f"{name} is missing" for name in missing] + [f"{name} has changed since it was recorded" for name in changed]
    complaints += made_again(found, set(missing + changed))
    for line in complaints:
        say(f"{line}\n")
    for name in unrecorded(found):
        say(f"note: {name} is not recorded in {record.NAME}\n")
    if complaints:
        return REFUSED
    made = len(found.made)
    say(f"{len(found.hashes)} files are as recorded; {made} of {len(found.sheets)} sheets made again are the same; {making.second_in_words()}\n")
    return DONE


def made_again(found: Record, damaged: "set[str]") -> List[str]:
    """What is not the same when sheets are made again from frames and questions; those of a candidate whose frames or questions are damaged cannot be."""
    whole = [name for name in found.made if not {f"{name}/frames", f"{name}/questions"} & damaged]
    try:
        sheets = making.made_all(found, whole, found.made)
    except Failed:
        raise
    except Ended as ended:
        return [str(ended)]
    content: Dict[str, bytes] = {name: data for each in sheets for name, data in each.content.items()}
    if making.ALL in found.hashes and len(whole) == len(found.sheets):
        content[making.ALL] = making.all_page(sheets)
    return [f"{name}, made again, is not what was recorded" for name, data in content.items() if found.hashes.get(name) != fingerprint(data)]


def unrecorded(found: Record) -> List[str]:
    """Files in the folder that the record has not."""
    names = (str(path.relative_to(found.folder)) for path in found.folder.rglob("*") if path.is_file())
    return sorted(name for name in names if name not in found.hashes and name != record.NAME)


def run_show(given: argparse.Namespace) -> int:
    """sitting show."""
    found = record.opened(given.folder)
    candidate = record.by_sheet(found, given.sheet)
    missing, changed = record.damaged(found)
    say(f"sheet {given.sheet}: candidate {candidate}, {found.run.mode.name}, {found.run.count} L1 frames, without {found.heads['without']}\n")
    say(f"drawn by software {found.heads['software']}, {'made by software ' + found.made[candidate] if candidate in found.made else 'not made yet'}\n")
    for name, content in sorted(found.hashes.items()):
        if making.of_candidate(name, candidate):
            size, digest = content.split()
            state = " (missing)" if name in missing else " (changed)" if name in changed else ""
            say(f"{name}: {size} bytes, SHA-256 {digest}{state}\n")
    return DONE if not set(missing + changed) & {name for name in found.hashes if making.of_candidate(name, candidate)} else REFUSED
