"""The questions of a candidate, drawn evenly over L1 frames, channels, blocks and partitions. Whose bit a cell shows is what the programs cells and sheet
say."""

import re
from dataclasses import dataclass
from typing import Callable, Dict, Iterator, List, Sequence, Tuple

from . import programs
from .answers import Answer, Sheet
from .drawing import Source
from .modes import BLOCK_ROWS, PARTITION, ROWS, Mode
from .outcomes import Failed, Misused, Refused
from .windows import COUNTS, ORDER

LIST_BYTES = 4095
"""The program sheet takes a list of so many bytes."""

SAMPLES, AT_A_TIME, TRIES = 12, 15, 4
"""Cells that are looked at for a question, questions in a list, and lists before another block and partition is drawn."""

FILL_FRAMES = 2
"""Only the first two L1 frames of a run have cells with zero fill."""

ATTEMPTS = 50
"""Drawings before it is said that there are not enough cells."""

CELL = re.compile(r"(\d+) (\d+) (P1|PIDS) \d+ \d+", re.ASCII)

Stratum = Tuple[int, str, int, int]
"""An L1 frame, a matrix, a block and a partition."""

Answered = Callable[[List[str]], Sheet]
"""What the program sheet answers to lines."""


@dataclass(frozen=True)
class Wanted:
    """How many questions of each kind: cells of PM with a bit of P1 and of PIDS, cells of PX with a bit and with zero fill, coded bits."""

    pm: int
    pids: int
    px: int
    fill: int
    bits: int

    @property
    def total(self) -> int:
        """All of them."""
        return self.pm + self.pids + self.px + self.fill + self.bits

    def text(self) -> str:
        """As sitting.txt has it."""
        return " ".join(f"{name} {number}" for name, number in vars(self).items())


@dataclass(frozen=True)
class Run:
    """What questions are drawn for."""

    mode: Mode
    count: int
    without: Tuple[str, ...]

    def words(self) -> List[str]:
        """The words of the program sheet."""
        return [str(self.mode.number), str(self.count), *(["without", *self.without] if self.without else [])]

    def matrices(self) -> List[str]:
        """PX1 and PX2, as far as the mode has them."""
        return [name for name in ("PX1", "PX2") if self.mode.columns(name)]


def frames_of(run: Run, source: Source) -> bytes:
    """Drawn reserved numbers and transfer frames."""
    size = run.mode.input_bytes(run.without) - 1
    return b"".join(bytes([source.below(8)]) + source.take(size) for _ in range(run.count))


def strata(source: Source, frames: Sequence[int], matrices: Sequence[str], run: Run) -> Iterator[Stratum]:
    """L1 frames, matrices, blocks and partitions, each spread by itself."""
    blocks = source.rounds(range(ROWS // BLOCK_ROWS))
    named = source.rounds(matrices)
    numbered = source.rounds(frames)
    partitions = {name: source.rounds(range(run.mode.columns(name) // PARTITION)) for name in matrices}
    while True:
        matrix = next(named)
        yield next(numbered), matrix, next(blocks), next(partitions[matrix])


def pm_cells(run: Run, source: Source, channel: str, number: int) -> List[str]:
    """Questions for cells of PM that show a bit of the channel."""
    chosen = strata(source, range(run.count), ["PM"], run)
    out = []
    for _ in range(number):
        frame, _, block, partition = next(chosen)
        fitting = cells_of(block, partition).get(channel, [])
        if not fitting:
            raise Failed(f"the program cells names no cell of {channel} in block {block}, partition {partition}")
        out.append(f"{frame} PM {fitting[source.below(len(fitting))]}")
    return out


def cells_of(block: int, partition: int) -> Dict[str, List[str]]:
    """For P1 and PIDS, the cells of a block and a partition of PM that show one of its bits, as the program cells says."""
    lines = [
        f"{row} {column}"
        for row in range(BLOCK_ROWS * block, BLOCK_ROWS * (block + 1))
        for column in range(PARTITION * partition, PARTITION * (partition + 1))
    ]
    found: Dict[str, List[str]] = {}
    printed = programs.lines_of("cells", [], "\n".join(lines) + "\n")[1:]
    if len(printed) != len(lines):
        raise Failed(f"the output of cells is not whole: {len(printed)} lines for {len(lines)} cells")
    for line, answer in zip(lines, printed):
        words = CELL.fullmatch(answer)
        if words is None or f"{words[1]} {words[2]}" != line:
            raise Failed(f"the output of cells is not whole: {answer!r} is no answer to {line!r}")
        found.setdefault(words[3], []).append(line)
    return found


def px_cells(run: Run, source: Source, fill: bool, number: int, answered: Answered) -> List[str]:
    """Questions for cells of PX1 and PX2 that show zero fill, or a bit."""
    frames = range(min(run.count, FILL_FRAMES) if fill else run.count)
    chosen = strata(source, frames, run.matrices(), run) if number else iter(())
    out: List[str] = []
    pending = [(next(chosen), 0) for _ in range(number)]
    while pending:
        now, pending = pending[:AT_A_TIME], pending[AT_A_TIME:]
        drawn = [sample(stratum, source) for stratum, _ in now]
        found = {" ".join(answer.question): answer.fill for answer in answered([line for lines in drawn for line in lines]).answers}
        for (stratum, tries), lines in zip(now, drawn):
            fitting = [line for line in lines if found.get(line) == fill]
            if fitting:
                out.append(fitting[0])
            else:
                pending.append((stratum, tries + 1) if tries < TRIES else (next(chosen), 0))
    return out


def sample(stratum: Stratum, source: Source) -> List[str]:
    """Drawn cells of PX1 or PX2 in a block and a partition, as questions."""
    frame, matrix, block, partition = stratum
    cells = [(source.below(BLOCK_ROWS), source.below(PARTITION)) for _ in range(SAMPLES)]
    return [f"{frame} {matrix} {block // 2} {BLOCK_ROWS * (block % 2) + row} {PARTITION * partition + column}" for row, column in cells]


def bit_lines(run: Run, source: Source, number: int) -> List[str]:
    """Questions for coded bits of the channels that have data."""
    channels = [name for name in ("P1", "PIDS", "P3", "P4") if run.mode.frames[ORDER.index(name)] and name not in run.without]
    named, numbered = source.rounds(channels), source.rounds(range(run.count))
    tframes = {name: source.rounds(range(COUNTS[name])) for name in channels}
    out = []
    for _ in range(number):
        channel = next(named)
        size = run.mode.frames[ORDER.index(channel)] * 8 // COUNTS[channel]
        coded = size * 5 // 2 if channel in ("P1", "PIDS") else size * 2
        out.append(f"{next(numbered)} {channel} {next(tframes[channel])} {source.below(coded)}")
    return out


def list_for(run: Run, wanted: Wanted, seed: bytes, candidate: str, answered: Answered) -> str:
    """The list of a candidate, in the order of its sheet, no cell in it twice."""
    for attempt in range(ATTEMPTS):
        source = Source(seed, f"questions {candidate} {attempt}")
        lines = pm_cells(run, source, "P1", wanted.pm) + pm_cells(run, source, "PIDS", wanted.pids)
        lines += px_cells(run, source, False, wanted.px, answered) + px_cells(run, source, True, wanted.fill, answered)
        lines += bit_lines(run, source, wanted.bits)
        if sum(len(line) + 1 for line in lines) > LIST_BYTES:
            raise Misused(f"{len(lines)} questions are more than the {LIST_BYTES} bytes of a list")
        ordered = in_order(lines, answered)
        if len({answer.place for answer in ordered}) == len(lines):
            return "".join(" ".join(answer.question) + "\n" for answer in ordered)
    raise Refused(f"refused: {wanted.total} questions without a cell twice were not found in {ATTEMPTS} drawings")


def in_order(lines: List[str], answered: Answered) -> List[Answer]:
    """The answers to lines in the order of the sheet: by L1 frame, and in each as they are drawn, cells before bits."""
    sheet = answered(lines)
    if sheet.refused:
        raise Failed(f"the program sheet refuses {lines[sheet.refused[0] - 1]!r}, which was drawn for it")
    return sheet.answers


def refuse_missing(run: Run, wanted: Wanted) -> None:
    """A run without PX has no questions for it; a list has one question at least."""
    if (wanted.px or wanted.fill) and not run.matrices():
        raise Misused(f"{run.mode.name} has neither PX1 nor PX2: say --px 0 --fill 0")
    if not wanted.total:
        raise Misused("a paper has one question at least")
