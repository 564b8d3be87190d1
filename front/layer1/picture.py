"""The subcarriers of a symbol as a picture on a page of A4 paper, landscape, with a margin that every printer leaves. All labels are taken from the lines."""

import html as markup
from fractions import Fraction
from typing import TYPE_CHECKING, Dict, List, Tuple

from .modes import PARTITION

if TYPE_CHECKING:
    from .subcarriers import Subcarrier

# Tenths of a millimetre.
WIDE, HIGH, MARGIN = 2970, 2100, 110
LEFT = MARGIN + 60
TOPS = (380, 1255)
GAP = 30
TALL = 145
"""The length of the longest stem."""

NAMES = ("PM", "PX1", "PX2")
STYLE = """@page { size: A4 landscape; margin: 0 }
text { font: 21px Arial, "Liberation Sans", sans-serif; fill: #222; text-anchor: middle }
.heading { font-size: 44px; text-anchor: start } .title { font-size: 30px; text-anchor: start } .legend { font-size: 24px; text-anchor: start }
.side { text-anchor: end } .number { fill: #555; font-size: 18px } .column { fill: #b00020; font-size: 18px }
.PM { fill: #e8eef7 } .PX1 { fill: #e6f4e6 } .PX2 { fill: #fbf1dd } .zero { stroke: #888; stroke-width: 1 }
.data { stroke: #1f4e9c; fill: #1f4e9c } .reference { stroke: #b00020; fill: #b00020 } line.data, line.reference { stroke-width: 2.4 }"""


def svg(title: str, subcarriers: "List[Subcarrier]") -> str:
    """The page as an SVG."""
    used = [subcarrier for subcarrier in subcarriers if subcarrier.matrix is not None]
    sides = [[s for s in used if s.number < 0], [s for s in used if s.number > 0]]
    most = max((abs(Fraction(s.re)) for s in used), default=Fraction(1))
    out = [
        f'<svg xmlns="http://www.w3.org/2000/svg" width="297mm" height="210mm" viewBox="0 0 {WIDE} {HIGH}">',
        f"<title>{markup.escape(title)}</title>",
        f"<style>{STYLE}</style>",
        '<rect width="100%" height="100%" fill="white"/>',
        text(MARGIN, MARGIN + 60, "heading", f"{title}: {len(used)} of {len(subcarriers):,} subcarriers are used"),
        *legend(used, MARGIN + 120),
    ]
    for side, name, top in zip(sides, ("Lower", "Upper"), TOPS):
        if side:
            scale = side[0].re.lstrip("-")
            out += panel(side, f"{name} sideband, scale {scale}, subcarriers {side[0].number} to {side[-1].number}", top, most)
    return "\n".join([*out, "</svg>"]) + "\n"


def html(title: str, page: str) -> str:
    """The SVG in a page of its own, which prints on one sheet."""
    style = "@page { size: A4 landscape; margin: 0 } html, body { margin: 0; background: white } svg { display: block; width: 297mm; height: 209.5mm }"
    head = f'<meta charset="utf-8">\n<title>{markup.escape(title)}</title>\n<style>{style}</style>'
    return f'<!DOCTYPE html>\n<html lang="en">\n<head>\n{head}\n</head>\n<body>\n{page}</body>\n</html>\n'


def text(x: float, y: float, name: str, words: str) -> str:
    """Words at a place."""
    return f'<text x="{x:.1f}" y="{y:.1f}" class="{name}">{markup.escape(words)}</text>'


def stem(x: float, start: float, end: float, name: str) -> List[str]:
    """A stem from one height to another, with its head there."""
    line = f'<line x1="{x:.1f}" y1="{start:.1f}" x2="{x:.1f}" y2="{end:.1f}" class="{name}"/>'
    return [line, f'<circle cx="{x:.1f}" cy="{end:.1f}" r="3.2" class="{name}"/>']


def band(x: float, y: float, width: float, height: float, name: str) -> str:
    """The ground of a partition."""
    return f'<rect x="{x:.1f}" y="{y:.1f}" width="{width:.1f}" height="{height:.1f}" class="{name}"/>'


def legend(used: "List[Subcarrier]", y: float) -> List[str]:
    """What the marks mean: the partitions of each matrix that is there, the two signs, a reference subcarrier."""
    out, at = [], float(MARGIN)
    for name in NAMES:
        if any(s.matrix == name for s in used):
            out += [band(at, y - 24, 36, 30, name), text(at + 48, y, "legend", f"partition of {name}")]
            at += 280
    out += [*stem(at, y + 6, y - 20, "data"), text(at + 16, y, "legend", "bit 1")]
    out += [*stem(at + 120, y - 24, y + 2, "data"), text(at + 136, y, "legend", "bit 0 (Re: bit I, Im: bit Q)")]
    return out + [*stem(at + 500, y - 24, y + 2, "reference"), text(at + 516, y, "legend", "reference subcarrier: R and its column, and its number")]


def panel(side: "List[Subcarrier]", title: str, top: float, most: Fraction) -> List[str]:
    """A sideband: the real parts above the imaginary ones, a stem up or down for each subcarrier."""
    first, last = side[0].number, side[-1].number
    step = (WIDE - MARGIN - LEFT) / (last - first + 1)
    x = {s.number: LEFT + step * (s.number - first + 0.5) for s in side}
    out = [text(LEFT, top - 50, "title", title), *bands(side, x, step, top)]
    zeros = [top + 15 + TALL, top + 15 + TALL + 2 * TALL + GAP]
    for zero, name in zip(zeros, ("Re", "Im")):
        out.append(f'<line x1="{LEFT}" y1="{zero:.1f}" x2="{WIDE - MARGIN}" y2="{zero:.1f}" class="zero"/>')
        out.append(text(LEFT - 14, zero + 8, "side", name))
    below = top + 4 * TALL + GAP + 30
    for s in side:
        name = "reference" if s.matrix == "R" else "data"
        for zero, part in zip(zeros, (s.re, s.im)):
            out += stem(x[s.number], zero, zero - float(Fraction(part) / most) * TALL, name)
        if s.matrix == "R":
            out += [text(x[s.number], below + 62, "column", f"R{s.column}"), text(x[s.number], below + 84, "column", str(s.number))]
    return out


def bands(side: "List[Subcarrier]", x: Dict[int, float], step: float, top: float) -> List[str]:
    """The partitions of a sideband, named by matrix and number, with their subcarriers."""
    groups: Dict[Tuple[str, int], List[int]] = {}
    for s in side:
        if s.matrix is not None and s.matrix != "R":
            groups.setdefault((s.matrix, s.column // PARTITION), []).append(s.number)
    out = []
    height = 4 * TALL + GAP + 30
    for (matrix, partition), numbers in groups.items():
        start, end = x[min(numbers)] - step / 2, x[max(numbers)] + step / 2
        out.append(band(start, top, end - start, height, matrix))
        out.append(text((start + end) / 2, top - 12, "name", f"{matrix} {partition}"))
        out.append(text((start + end) / 2, top + height + 26, "number", f"{min(numbers)} .. {max(numbers)}"))
    return out
