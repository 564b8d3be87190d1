"""The verb vector: the subcarriers of a symbol of a dump, as lines or as a picture."""

import argparse
import re
from dataclasses import dataclass
from typing import List, Optional, Tuple

from . import causes, dumps, picture, programs, scales, sending
from .files import STANDARD, behind, refuse_existing, say, write_text
from .modes import MODES, Mode, mode_of, number_of
from .outcomes import DONE, Failed, Refused
from .words import Verbs

SUBCARRIERS = 1093
LINE = re.compile(r"(-?\d+) (-?\d+(?:\.\d+)?) (-?\d+(?:\.\d+)?) (?:(PM|PX1|PX2|R) (\d+)|-)", re.ASCII)
UNITS = ("1", "0.5")
"""Scales that tell the sidebands apart where the program does not take those that were typed."""


@dataclass(frozen=True)
class Subcarrier:
    """A line of the program vector: a part is a sign, or nothing, and a scale."""

    number: int
    re: str
    im: str
    matrix: Optional[str]
    column: int

    def line(self) -> str:
        """As the program prints it."""
        source = "-" if self.matrix is None else f"{self.matrix} {self.column}"
        return f"{self.number} {self.re} {self.im} {source}\n"


def arrange(verbs: Verbs) -> None:
    """The words of the verb."""
    verb = verbs.add_parser(
        "vector",
        help="the subcarriers of a symbol",
        description="Prints for each of the 1,093 subcarriers of a symbol its number, its two parts, and the cells that they come from.",
    )
    verb.add_argument("dump", metavar="DUMP", help="a dump; - is standard input")
    verb.add_argument("symbol", metavar="SYMBOL", help="symbol of the L1 frame, 0 to 511")
    verb.add_argument("lower", metavar="LOWER", nargs="?", default="1", help="scale of the lower sideband, at most 24 digits behind the point (default: 1)")
    verb.add_argument("upper", metavar="UPPER", nargs="?", help="scale of the upper sideband (default: as LOWER)")
    verb.add_argument("--frame", default="0", help="L1 frame, from 0 (default: 0)")
    verb.add_argument("--raw", nargs=2, metavar=("MODE", "COUNT"), help="matrices and control of COUNT L1 frames without a dump's header")
    verb.add_argument("--picture", metavar="FILE", help="draws them on a page of A4 paper: FILE is .svg or .html, or - for SVG on standard output")
    verb.add_argument("--force", action="store_true", help="writes over a file that exists")
    verb.set_defaults(run=run)


def run(given: argparse.Namespace) -> int:
    """The verb vector."""
    refuse_existing(given.picture, given.force)
    symbol = number_of(given.symbol, "SYMBOL", 10**9)
    number = number_of(given.frame, "--frame", 10**9)
    typed = (given.lower, given.upper or given.lower)
    values = [scales.scale_of(word) for word in typed]
    raw = (mode_of(given.raw[0]), number_of(given.raw[1], "COUNT", sending.GREATEST_COUNT)) if given.raw else None
    with dumps.dump(given.dump, raw) as dump:
        frame = dump.checked_frame(number)
        mode = dump.mode
    check_control(mode, frame)
    words = tuple(scales.decimal(value) for value in values)
    direct = all(scales.is_taken(value) for value in values)
    found = vector(mode, symbol, frame, words if direct else UNITS)
    if not direct:
        found = [scaled(subcarrier, words) for subcarrier in found]
    if given.picture is None:
        say("".join(subcarrier.line() for subcarrier in found))
        return DONE
    title = f"Service mode {mode.name}, L1 frame {number}, symbol {symbol}"
    page = picture.svg(title, found)
    write_text(given.picture, picture.html(title, page) if given.picture.endswith((".html", ".htm")) else page, given.force)
    if given.picture != STANDARD:
        say(f"{given.picture}\n")
    return DONE


def check_control(mode: Mode, frame: bytes) -> None:
    """The control of an L1 frame must be that of its mode, or its reference subcarriers would be wrong without a word."""
    number, place = control_answer(mode, frame)
    if number == 4:
        control = dumps.matrices_of(mode, frame)["control"]
        others = [other.name for other in MODES.values() if control_answer(other, bytes(other.matrix_bytes - len(control)) + control)[0] != 4]
        hint = f"; it is that of {others[0]}" if others else ""
        raise Refused(f"refused: the control is not that of {mode.name}: {causes.words_of('4', place)} (number 4, place {place}){hint}")


def control_answer(mode: Mode, frame: bytes) -> Tuple[int, int]:
    """Number and place of a judge's answer to a dump of this one L1 frame: 4 exactly if its control is not the mode's, since no lower number is met."""
    with behind(dumps.header(mode, 1) + frame) as source:
        number, place, _ = sending.judged(source)
    return number, place


def vector(mode: Mode, symbol: int, frame: bytes, words: Tuple[str, ...]) -> List[Subcarrier]:
    """What the program vector prints, whole."""
    with behind(frame) as source, programs.running("vector", [str(mode.number), str(symbol), *words], source) as out:
        lines = out.read().decode("latin-1").splitlines()
    found = []
    for number, line in enumerate(lines):
        parts = LINE.fullmatch(line)
        if parts is None or int(parts[1]) != number - SUBCARRIERS // 2:
            raise Failed(f"the output of vector is not whole: line {number + 1} is {line!r}")
        found.append(Subcarrier(int(parts[1]), parts[2], parts[3], parts[4], int(parts[5] or 0)))
    if len(found) != SUBCARRIERS:
        raise Failed(f"the output of vector is not whole: {len(found)} of {SUBCARRIERS} lines")
    return found


def scaled(subcarrier: Subcarrier, words: Tuple[str, ...]) -> Subcarrier:
    """A subcarrier with the typed scales in the place of the units: a part is a unit of either sign times its scale, so only the digits change."""
    names = dict(zip(UNITS, words))

    def part(text: str) -> str:
        sign, digits = ("-", text[1:]) if text.startswith("-") else ("", text)
        return sign + names.get(digits, digits)

    return Subcarrier(subcarrier.number, part(subcarrier.re), part(subcarrier.im), subcarrier.matrix, subcarrier.column)
