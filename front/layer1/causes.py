"""The one table of causes, causes.tsv: what a refusal's number and place mean, in words."""

import functools
from typing import Dict, Optional, Tuple

from .outcomes import Failed, Refused
from .paths import ROOT

TABLE = ROOT / "causes.tsv"


@functools.lru_cache(maxsize=None)
def table() -> Dict[Tuple[str, str], Tuple[str, str]]:
    """For a cause and a call, `any` being every other one: what its place counts, and its words."""
    rows = {}
    for line in TABLE.read_text(encoding="utf-8").splitlines()[1:]:
        cause, call, place, words = line.split("\t")
        rows[cause, call] = (place, words)
    return rows


def place_in_words(meaning: str, place: int) -> str:
    """A place by name. A meaning is a list of names by `|`; NAME*n stands for NAME 0 to NAME n-1, NAME* for any number of them."""
    left = place
    for item in meaning.split("|"):
        name, star, count = item.partition("*")
        size = (int(count) if count else left + 1) if star else 1
        if left < size:
            return f"{name} {left}".strip() if star else name
        left -= size
    return f"place {place}"


def words_of(cause: str, place: int, call: str = "any") -> str:
    """The words for a cause as a call refuses with it."""
    row = table().get((cause, call)) or table().get((cause, "any"))
    if row is None:
        raise Failed(f"cause {cause} is not in {TABLE.name}")
    meaning, words = row
    return words.replace("{place}", place_in_words(meaning, place))


def refusal(number: int, place: int, frame: Optional[int] = None, call: str = "any") -> Refused:
    """A refusal by number, place and L1 frame, in words."""
    where = "" if frame is None else f" in L1 frame {frame}"
    return Refused(f"refused{where}: {words_of(str(number), place, call)} (number {number}, place {place})")
