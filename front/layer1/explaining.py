"""How an answer comes about, for the examiner: the working of its coded bit as the program prints it, and a small picture of the matrix with the place
marked."""

from typing import List

from .answers import LATER, Answer, Place, Sheet, Working
from .modes import BLOCK_ROWS, MODES, PAIR_ROWS, PARTITION
from .windows import Frames, bytes_of
from .workings import INTERLEAVER, rows, sum_words, writing_words

BLOCKS = 16
"""L1 blocks of an L1 frame."""

CELL = "cell\u00a0"
"""Kept on one line with its number."""

LEFT, TOP, WIDTH, HEIGHT = 11.0, 4.0, 40.0, 27.0
"""The picture's matrix in millimetres."""


def workings(sheet: Sheet, frames: Frames) -> List[List[str]]:
    """For each answer the lines of its working."""
    return [explained(number, answer, sheet, frames) for number, answer in enumerate(sheet.answers, 1)]


def explained(number: int, answer: Answer, sheet: Sheet, frames: Frames) -> List[str]:
    """The working of an answer beside the picture of its place."""
    out = ['<table class="working"><colgroup><col style="width: 12mm"><col style="width: 114mm"><col style="width: 56mm"></colgroup><tr>']
    out += [f"<td><b>{number}</b></td>", "<td>", f"<p>{' '.join(answer.question)}: <b>{answer_words(answer)}</b></p>"]
    out += steps(answer, frames)
    return [*out, "</td>", f"<td>{picture(answer.place, sheet.mode)}</td>", "</tr></table>"]


def answer_words(answer: Answer) -> str:
    """An answer as the program prints it."""
    return " ".join(word for word in answer.boxes if word != "-")


def steps(answer: Answer, frames: Frames) -> List[str]:
    """How the coded bit and its cell come about."""
    coded, working = answer.coded, answer.working
    if coded is None:
        return ["<p>Only the zero fill of a fresh start can stand here: no bit of this run has been written into the cell yet.</p>"]
    numbered = ", ".join(f"byte\u00a0{number}\u00a0=\u00a0{value:02X}" for number, value in bytes_of(frames, coded))
    name = f"{coded.channel}, transfer frame {coded.tframe} of L1 frame {coded.frame}"
    if working is None:
        return [f"<p>{name}, {numbered} (hexadecimal).</p>"]
    out = [f"<p>{name}: bit j = {working.number}, generator {working.generator}, {numbered} (hexadecimal).</p>", *seven(working)]
    out.append(f"<p>{sum_words(working).capitalize()}, modulo 2 <b>{working.ones % 2}</b>.</p>")
    if answer.boxes[-1] == LATER:
        out.append(f"<p>L1 frame {answer.place.frame} is not of this run.</p>")
    return [*out, f"<p>By {INTERLEAVER[coded.channel]}: {writing_words(coded, working).replace('cell ', CELL)}.</p>"]


def seven(working: Working) -> List[str]:
    """The seven bits, the scrambling bits at their places, and which of them the generator takes."""
    lines = [f"<tr><th>{name}</th>{''.join(f'<td>{word}</td>' for word in words)}</tr>" for name, words in rows(working)]
    return ['<table class="seven">', *lines, "</table>"]


def picture(place: Place, mode: int) -> str:
    """The matrix of an L1 frame in its blocks and partitions, the place marked."""
    columns = MODES[mode].columns(place.matrix)
    partitions = columns // PARTITION
    line = place.row + PAIR_ROWS * (place.pair or 0)
    block, partition = line // BLOCK_ROWS, place.column // PARTITION
    wide, high = WIDTH / partitions, HEIGHT / BLOCKS
    x, y = LEFT + wide * place.column / PARTITION, TOP + high * line / BLOCK_ROWS
    parts = [f'<rect x="{LEFT + wide * partition:.2f}" y="{TOP + high * block:.2f}" width="{wide:.2f}" height="{high:.2f}" fill="#aaa"/>']
    grid = [f"M{LEFT + wide * n:.2f} {TOP}v{HEIGHT}" for n in range(partitions + 1)] + [f"M{LEFT} {TOP + high * n:.2f}h{WIDTH}" for n in range(BLOCKS + 1)]
    parts.append(f'<path d="{"".join(grid)}" fill="none" stroke="black" stroke-width="0.12"/>')
    parts.append(f'<circle cx="{x:.2f}" cy="{y:.2f}" r="0.6" fill="black"/>')
    middle = min(max(LEFT + wide * (partition + 0.5), LEFT + 6), LEFT + WIDTH - 6)
    parts.append(f'<text x="{middle:.2f}" y="{TOP - 0.9}" text-anchor="middle">partition {partition}</text>')
    parts.append(f'<text x="{LEFT - 0.8}" y="{TOP + high * (block + 0.5) + 0.9:.2f}" text-anchor="end">block {block}</text>')
    parts.append(f'<text x="{LEFT - 0.8}" y="{TOP - 0.9}" text-anchor="end">{place.matrix}</text>')
    return f'<svg viewBox="0 0 52 32" font-size="2.6" font-family="sans-serif" role="img">{"".join(parts)}</svg>'
