"""The bytes of transfer frames that a paper hands out: for each question two rows of ten bytes, one of them with the bits that its value is made from. The
other one is drawn, so that the rows do not tell which transfer frame and which of its bits a question is about."""

import hashlib
from dataclasses import dataclass
from typing import Dict, List, Sequence, Set, Tuple

from .answers import BIT, PM, Answer, Coded
from .drawing import Source
from .modes import Mode
from .outcomes import Failed

WIDTH = 10
"""Bytes of a row, as many as a PIDS frame has."""

TAKEN = 7
"""Bits of a transfer frame that a coded bit is made from (section 9.3): its own and the six before it, round the frame's end."""

COUNTS: Dict[str, int] = {"P1": 1, "PIDS": 16, "P2": 1, "P3": 8, "P4": 8}
"""Transfer frames of a channel in an L1 frame, in the order in which a sender reads the channels."""

ORDER = list(COUNTS)


@dataclass(frozen=True)
class Window:
    """Bytes of a transfer frame: the first one's number, and the bytes, byte 0 behind the frame's last."""

    channel: str
    frame: int
    tframe: int
    first: int
    data: bytes

    @property
    def place(self) -> Tuple[int, int, int, int]:
        """Its place among others."""
        return ORDER.index(self.channel), self.frame, self.tframe, self.first


@dataclass(frozen=True)
class Frames:
    """The input of a run: mode, channels without bytes, and the bytes."""

    mode: Mode
    without: Tuple[str, ...]
    data: bytes

    def size(self, channel: str) -> int:
        """Bytes of a transfer frame."""
        return self.mode.frames[ORDER.index(channel)] // COUNTS[channel]

    def transfer_frame(self, coded: Coded) -> bytes:
        """The transfer frame of a coded bit; zeros where nothing is handed over."""
        size = self.size(coded.channel)
        if coded.channel in self.without:
            return bytes(size)
        start = coded.frame * self.mode.input_bytes(self.without) + 1 + coded.tframe * size
        for number, channel in enumerate(ORDER[: ORDER.index(coded.channel)]):
            start += 0 if channel in self.without else self.mode.frames[number]
        return self.data[start : start + size]

    def window(self, coded: Coded, first: int) -> Window:
        """The row from a byte on."""
        frame = self.transfer_frame(coded)
        first = 0 if len(frame) == WIDTH else first % len(frame)
        return Window(coded.channel, coded.frame, coded.tframe, first, (frame + frame)[first : first + WIDTH])


def number_of_bit(coded: Coded) -> int:
    """The bit of its transfer frame that a coded bit is made for (9.3): of five coded bits at rate 2/5 three and two, at rate 1/2 two for each."""
    if coded.channel in ("P1", "PIDS"):
        return 2 * (coded.bit // 5) + coded.bit % 5 // 3
    return coded.bit // 2


def taken_bits(frames: Frames, coded: Coded) -> Tuple[int, ...]:
    """The bits that a coded bit is made from, newest first."""
    frame, number = frames.transfer_frame(coded), number_of_bit(coded)
    places = [(number - back) % (8 * len(frame)) for back in range(TAKEN)]
    return tuple(frame[at // 8] >> (7 - at % 8) & 1 for at in places)


def bytes_of(frames: Frames, coded: Coded) -> List[Tuple[int, int]]:
    """The one or two bytes in which these bits stand, with their numbers."""
    frame, number = frames.transfer_frame(coded), number_of_bit(coded)
    first, last = ((number - back) % (8 * len(frame)) // 8 for back in (TAKEN - 1, 0))
    return [(at, frame[at]) for at in ([first] if first == last else [first, last])]


def windows(frames: Frames, questions: str, answers: Sequence[Answer]) -> List[Window]:
    """The rows of a paper, each once and in order. What is drawn comes from frames and questions, of which a candidate has not all."""
    seed = hashlib.sha256(questions.encode("latin-1") + b"\n" + frames.data).digest()
    source = Source(seed, "bytes")
    found: Set[Window] = set()
    for answer in answers:
        for coded, first in pair_of(frames, answer, source):
            if coded.channel not in frames.without:
                found.add(frames.window(coded, first))
    return sorted(found, key=lambda window: window.place)


def pair_of(frames: Frames, answer: Answer, source: Source) -> List[Tuple[Coded, int]]:
    """For a question the two rows, by transfer frame and first byte: in PM one of P1 and one of PIDS, else two of the channel."""
    coded = answer.coded
    if answer.kind == PM:
        channels = ["P1", "PIDS"]
    else:
        channel = coded.channel if coded else {"PX1": "P3", "PX2": "P4"}[answer.place.matrix]
        channels = [channel, channel]
    rows = []
    for channel in channels:
        if coded is not None and channel == coded.channel:
            rows.append((coded, bytes_of(frames, coded)[0][0] - source.below(WIDTH - 1)))
            coded = None
        else:
            rows.append(drawn(frames, answer, channel, source))
    return rows


def drawn(frames: Frames, answer: Answer, channel: str, source: Source) -> Tuple[Coded, int]:
    """A row that no question needs: of an L1 frame that a bit in the cell could be of."""
    last = int(answer.question[0])
    earliest = last if answer.kind == BIT or channel in ("P1", "PIDS") else max(0, last - 2)
    frame = earliest + source.below(last - earliest + 1)
    return Coded(frame, channel, source.below(COUNTS[channel]), 0), source.below(frames.size(channel))


def agree(frames: Frames, answers: Sequence[Answer]) -> None:
    """The workings that the program prints are of the bits that the paper hands out."""
    for answer in answers:
        coded, working = answer.coded, answer.working
        if coded and working and (working.number, working.bits) != (number_of_bit(coded), taken_bits(frames, coded)):
            raise Failed(f"the working of {' '.join(answer.question)!r} is of other bits than the paper hands out")
