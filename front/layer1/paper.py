"""A sheet for A4 paper, in black on white and with nothing from outside the page. A candidate's copy and an examiner's come from one layout: the same lines,
but for the names of the copies, the text in the boxes, and the workings at the examiner's end."""

from dataclasses import dataclass
from html import escape
from typing import List, Sequence

from .answers import BIT, PM, PX, Answer, Sheet
from .explaining import workings
from .layout import BOXES, px_title, run_in_words
from .outcomes import Refused
from .windows import WIDTH, Frames, windows

TITLE = "FM Layer 1 answer sheet"
BOX_WIDTH = 103
"""Millimetres for the boxes of a question together."""

STYLE = """@page { size: A4; margin: 12mm 13mm 16mm; @bottom-right { content: "Page " counter(page) " of " counter(pages); font: 9pt sans-serif; } }
* { box-sizing: border-box; }
body { width: 182mm; margin: 0 auto; font: 10.5pt/1.3 Arial, "Liberation Sans", "DejaVu Sans", sans-serif; color: black; background: white; }
table { border-collapse: collapse; table-layout: fixed; width: 182mm; }
td, th { padding: 0; vertical-align: top; text-align: left; font-weight: normal; }
table.sheet { break-after: page; }
table.sheet:last-child { break-after: auto; }
table.sheet > thead { display: table-header-group; }
table.sheet > tbody > tr { break-inside: avoid; }
table.sheet > tbody > tr.long { break-inside: auto; }
h2 { break-after: avoid; }
table.head td { border: 1pt solid black; height: 13mm; padding: 0.6mm 1.5mm; }
table.head { margin-bottom: 3mm; }
table.head b { font-size: 14pt; }
small { display: block; font-size: 7.5pt; line-height: 1.15; }
h1 { font-size: 18pt; margin: 0; }
h2 { font-size: 13pt; margin: 4mm 0 1mm; }
p { margin: 1.5mm 0 0; }
.words { font-size: 9.5pt; padding-bottom: 3mm; }
table.question td { border: 0.5pt solid black; height: 15mm; padding: 0.8mm 1.2mm; }
table.question { margin-bottom: 1.5mm; }
table.question td.number { font-size: 13pt; font-weight: bold; text-align: center; }
td.asked { font-size: 9.5pt; }
table.question td.box { border: 1.2pt solid black; text-align: center; }
td.box small { text-align: left; height: 6.6mm; }
td.box span { font-weight: bold; font-size: 12pt; }
td.points { text-align: right; }
td.points small { text-align: left; height: 8mm; }
table.bytes { font-size: 9.5pt; font-variant-numeric: tabular-nums; }
table.bytes thead { display: table-header-group; }
table.bytes tr { break-inside: avoid; }
table.bytes td, table.bytes th { border: 0.5pt solid black; text-align: center; vertical-align: middle; height: 7.4mm; padding: 0 0.5mm; }
table.bytes th { font-size: 8pt; line-height: 1.1; }
table.bytes td.byte { font-weight: bold; line-height: 1.1; }
table.bytes td.byte small { font-weight: normal; font-size: 6.5pt; }
table.working { border-top: 0.5pt solid black; }
table.working td { padding: 1mm 1.2mm; font-size: 9.5pt; }
table.seven { width: 92mm; margin: 1mm 0; font-variant-numeric: tabular-nums; }
table.seven td, table.seven th { border: 0.5pt solid black; padding: 0 1mm; text-align: center; font-size: 8.5pt; }
table.seven th { text-align: left; width: 29mm; }
svg { width: 52mm; height: 32mm; }"""


@dataclass(frozen=True)
class Paper:
    """What stands on a paper: a whole sheet, its number, whose it is, the revision of the software, and what its bytes are taken from."""

    sheet: Sheet
    number: str
    candidate: str
    revision: str
    frames: Frames
    questions: str


def page(paper: Paper, examiner: bool) -> str:
    """A copy of a sheet as a page by itself."""
    whose = copy_name(examiner)
    of = f", candidate {paper.candidate}" if paper.candidate else ""
    return document(f"{TITLE} {paper.number}{of}, {whose}", sheet_lines(paper, examiner))


def all_pages(papers: Sequence[Paper]) -> str:
    """The examiner's copies of all sheets, each from a new page on."""
    return document(f"{TITLE}s, {copy_name(True)}", [line for paper in papers for line in sheet_lines(paper, True)])


def copy_name(examiner: bool) -> str:
    """Whose copy it is."""
    return "Examiner’s copy" if examiner else "Candidate’s copy"


def document(title: str, lines: List[str]) -> str:
    """A page with these lines."""
    head = ["<!DOCTYPE html>", '<html lang="en">', "<head>", '<meta charset="utf-8">', f"<title>{title}</title>", "<style>", STYLE, "</style>", "</head>"]
    return "\n".join([*head, "<body>", *lines, "</body>", "</html>"]) + "\n"


def sheet_lines(paper: Paper, examiner: bool) -> List[str]:
    """A copy of a sheet. It is one table, whose head browsers print again on every page; a row is not broken."""
    sheet = paper.sheet
    if sheet.refused:
        raise Refused(f"refused: line {sheet.refused[0]} of the list has no answer, and a list with such a line makes no paper")
    out = ['<table class="sheet">', "<thead>", "<tr><td>", *head(paper, examiner), "</td></tr>", "</thead>", "<tbody>"]
    out += ["<tr><td>", *top(paper), "</td></tr>"]
    for number, answer in enumerate(sheet.answers, 1):
        out += ["<tr><td>", *question(number, answer, examiner), "</td></tr>"]
    out += ["<tr><td>", *total(sheet), "</td></tr>"]
    out += bytes_rows(paper)
    if examiner:
        for number, lines in enumerate(workings(sheet, paper.frames), 1):
            title = [f"<h2>{'Workings' if sheet.worked else 'Bytes and places of the answers'}</h2>"] if number == 1 else []
            out += ['<tr class="working"><td>', *title, *lines, "</td></tr>"]
    return [*out, "</tbody>", "</table>"]


def columns_of(widths: Sequence[float]) -> str:
    """The columns of a table, in millimetres."""
    return f'<colgroup>{"".join(f"""<col style="width: {width:.4g}mm">""" for width in widths)}</colgroup>'


def head(paper: Paper, examiner: bool) -> List[str]:
    """The boxes on every page."""
    return [
        f'<table class="head">{columns_of([72, 22, 36, 26, 26])}<tr>',
        "<td><small>Name</small></td>",
        f"<td><small>Candidate</small><b>{escape(paper.candidate)}</b></td>",
        f"<td><small>Sheet</small><b>{escape(paper.number)}</b></td>",
        "<td><small>Date</small></td>",
        f"<td><small>{copy_name(examiner)}</small></td>",
        "</tr></table>",
    ]


def top(paper: Paper) -> List[str]:
    """The run, and what is to be done."""
    sheet = paper.sheet
    kinds = {answer.kind for answer in sheet.answers}
    lines = [f"<h1>{TITLE}</h1>", f"<p>{run_in_words(sheet)}. Software {escape(paper.revision)}.</p>", '<div class="words">']
    if kinds & {PM, PX}:
        lines.append(
            "<p>A question for a cell: write whose coded bit stands in it, that is the channel, the transfer frame of the channel in its L1 frame, the"
            " coded bit in that transfer frame, and the bit’s value.</p>"
        )
    if PX in kinds:
        lines.append(
            f"<p>In {px_title(sheet.mode)} also write the L1 frame in which the bit was coded. Where only the zero fill of a fresh start can stand, write"
            " FILL as the channel and a dash in each other box.</p>"
        )
    if BIT in kinds:
        lines.append(
            "<p>A question for a coded bit: write the matrix, the L1 frame in which it is sent, its cell, and the bit’s value, or LATER as the value where"
            " that L1 frame is not of this run. In PM write a dash for the block pair.</p>"
        )
    lines.append("<p>Numbers count from 0. Each right box is a point. The bytes that you need are among those behind the questions.</p>")
    return [*lines, "</div>"]


def asked_in_words(answer: Answer) -> List[str]:
    """A question: what it asks for, and of what."""
    words = answer.question
    if answer.kind == BIT:
        return ["Into which cell does this bit go?", kept_together(words[1], f"transfer frame {words[2]}", f"of L1 frame {words[0]}", f"coded bit {words[3]}")]
    pair = [f"block pair {words[2]}"] if answer.kind == PX else []
    return ["Whose bit stands in this cell?", kept_together(f"L1 frame {words[0]}", words[1], *pair, f"row {words[-2]}", f"column {words[-1]}")]


def kept_together(*parts: str) -> str:
    """Parts of a line that may be broken between them alone."""
    return ", ".join(part.replace(" ", "&nbsp;") for part in parts).replace(", of", " of")


def question(number: int, answer: Answer, examiner: bool) -> List[str]:
    """A question with its boxes; on the candidate's copy they are empty."""
    heads = BOXES[answer.kind]
    what, words = asked_in_words(answer)
    out = [f'<table class="question">{columns_of([9, 54, *[BOX_WIDTH / len(heads)] * len(heads), 16])}<tr>']
    out += [f'<td class="number">{number}</td>', f'<td class="asked"><small>{what}</small>{words}</td>']
    for name, text in zip(heads, answer.boxes):
        shown = ("–" if text == "-" else text) if examiner else ""
        out.append(f'<td class="box"><small>{name.replace("/", " ")}</small><span>{shown}</span></td>')
    return [*out, f'<td class="points"><small>Points</small>of {len(heads)}</td>', "</tr></table>"]


def points(answer: Answer) -> int:
    """Points of a question: one for each of its boxes."""
    return len(BOXES[answer.kind])


def total(sheet: Sheet) -> List[str]:
    """The sum of the points."""
    return [
        f'<table class="question">{columns_of([142, 40])}<tr>',
        '<td class="asked">Total, and the marker’s name</td>',
        f'<td class="points"><small>Points</small>of {sum(map(points, sheet.answers))}</td>',
        "</tr></table>",
    ]


def bytes_rows(paper: Paper) -> List[str]:
    """The bytes that are handed out, each with its number."""
    columns = columns_of([14, 14, 16, *[13.8] * WIDTH])
    without = "".join(f" Nothing was handed over for {channel}, and zeros are sent for it." for channel in paper.frames.without)
    out = ['<tr class="long"><td>', "<h2>Bytes of transfer frames</h2>", '<div class="words">']
    out += [
        "<p>Each byte has its number in the transfer frame above it, and its value in hexadecimal. Bit n of a transfer frame stands in byte n / 8, rounded"
        f" down, the first of eight bits weighing 128. Not all of these bytes are needed.{without}</p>",
        "</div>",
    ]
    out.append(f'<table class="bytes">{columns}<thead>')
    out.append(f'<tr><th>Channel</th><th>L1 frame</th><th>Transfer frame</th><th colspan="{WIDTH}">Bytes</th></tr></thead>')
    out.append("<tbody>")
    for window in windows(paper.frames, paper.questions, paper.sheet.answers):
        size = paper.frames.size(window.channel)
        numbered = [f'<td class="byte"><small>{(window.first + n) % size}</small>{byte:02X}</td>' for n, byte in enumerate(window.data)]
        named = f"<td>{window.channel}</td><td>{window.frame}</td><td>{window.tframe}</td>"
        out.append(f"<tr>{named}{''.join(numbered)}</tr>")
    return [*out, "</tbody>", "</table>", "</td></tr>"]
