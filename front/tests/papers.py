"""Papers read back: what stands on a page as a reader sees it, with nothing on it but what a paper may have."""

import re
from html.parser import HTMLParser
from typing import Dict, List, Optional, Tuple

TAGS = set("html head meta title style body table colgroup col thead tbody tr td th p div h1 h2 small span b".split())
PICTURE = set("svg rect path circle text".split())
ATTRIBUTES = {
    "html": {"lang"},
    "meta": {"charset"},
    "col": {"style"},
    "table": {"class"},
    "tr": {"class"},
    "td": {"class"},
    "th": {"colspan"},
    "div": {"class"},
    "svg": {"viewbox", "font-size", "font-family", "role"},
    "rect": {"x", "y", "width", "height", "fill"},
    "path": {"d", "fill", "stroke", "stroke-width"},
    "circle": {"cx", "cy", "r", "fill"},
    "text": {"x", "y", "text-anchor"},
}
CLASSES = set("sheet head question number asked box points words bytes byte long working seven".split())
WORKING = re.compile(r'<tr class="working"><td>\n.*?\n</td></tr>\n', re.DOTALL)
BOX = re.compile(r'(<td class="box"><small>[A-Za-z0-9 ]+</small><span>)([^<]*)(</span></td>)')
NAMED = {"<title>": "TITLE", "<td><small>Candidate’s copy</small></td>": "COPY", "<td><small>Examiner’s copy</small></td>": "COPY"}
"""Lines in which the copies differ by design: a page's title, and the name of the copy in its head."""


class Page(HTMLParser):
    """A page as a tree's walk: the text of each cell by the classes around it; anything that a paper may not have is an error."""

    def __init__(self, text: str) -> None:
        super().__init__(convert_charrefs=True)
        self.open: List[Tuple[str, str]] = []
        self.questions: List[Dict[str, List[str]]] = []
        self.rows: List[List[str]] = []
        self.text: List[str] = []
        self.seen: List[str] = []
        self.feed(text)
        self.close()
        assert not self.open, self.open

    def handle_starttag(self, tag: str, attrs: List[Tuple[str, Optional[str]]]) -> None:
        assert tag in TAGS or (tag in PICTURE and "working" in self.classes()), tag
        given = dict(attrs)
        assert set(given) <= ATTRIBUTES.get(tag, set()), (tag, given)
        if tag == "col":
            assert re.fullmatch(r"width: [0-9.]+mm", given["style"] or ""), given
        if "colspan" in given:
            assert given["colspan"] == "10", given
        name = given.get("class") or ""
        assert not name or name in CLASSES, name
        if tag in ("meta", "col", "rect", "path", "circle"):
            return
        self.open.append((tag, name))
        if (tag, name) == ("table", "question"):
            self.questions.append({"number": [], "asked": [], "label": [], "box": [], "points": []})
        if tag == "tr" and "bytes" in self.classes():
            self.rows.append([])
        if tag == "span":
            self.questions[-1]["box"].append("")
        if tag in ("td", "th") and "bytes" in self.classes():
            self.rows[-1].append("")

    def handle_startendtag(self, tag: str, attrs: List[Tuple[str, Optional[str]]]) -> None:
        self.handle_starttag(tag, attrs)

    def handle_endtag(self, tag: str) -> None:
        if tag not in ("rect", "path", "circle"):
            assert self.open and self.open[-1][0] == tag, (tag, self.open)
            self.open.pop()

    def handle_comment(self, data: str) -> None:
        raise AssertionError(f"a comment: {data}")

    def handle_data(self, data: str) -> None:
        tags = [tag for tag, _ in self.open]
        if not data.strip() or "style" in tags:
            return
        self.seen.append(data)
        if "question" in self.classes():
            part = self.classes()[-1]
            if part == "box":
                if tags[-1] == "span":
                    self.questions[-1]["box"][-1] += data
                else:
                    self.questions[-1]["label"].append(data)
            else:
                self.questions[-1][part].append(data)
        elif "bytes" in self.classes():
            self.rows[-1][-1] += f" {data}"

    def classes(self) -> List[str]:
        """The classes around a text, from the outside."""
        return [name for _, name in self.open if name]


def asked(words: List[str]) -> str:
    """The line of the list that a question's words stand for."""
    text = words[1].replace("\xa0", " ")
    cell = re.fullmatch(r"L1 frame (\d+), (PM|PX[12])(?:, block pair (\d+))?, row (\d+), column (\d+)", text)
    if cell:
        assert words[0] == "Whose bit stands in this cell?"
        return " ".join(word for word in cell.groups() if word is not None)
    bit = re.fullmatch(r"(P1|PIDS|P3|P4), transfer frame (\d+) of L1 frame (\d+), coded bit (\d+)", text)
    assert bit and words[0] == "Into which cell does this bit go?", words
    return f"{bit[3]} {bit[1]} {bit[2]} {bit[4]}"


LABELS = {
    4: ["Channel", "Transfer frame", "Coded bit", "Value"],
    5: ["Channel", "Coded in L1 frame", "Transfer frame", "Coded bit", "Value"],
    6: ["Matrix", "Sent in L1 frame", "Block pair", "Row", "Column", "Value"],
}


def taken(text: str) -> List[str]:
    """What a paper says: number, question and boxes of each, as a line of the sheet; an empty box is _."""
    out = []
    questions = Page(text).questions
    for question in questions[:-1]:
        boxes = question["box"]
        assert question["label"] == LABELS[len(boxes)], question
        assert question["points"] == ["Points", f"of {len(boxes)}"], question
        written = " ".join(box or "_" for box in boxes).replace("–", "-")
        out.append(f"{question['number'][0]} {asked(question['asked'])} {written}")
    assert questions[-1]["points"] == ["Points", f"of {sum(len(question['box']) for question in questions)}"]
    return out


def emptied(examiner: str) -> str:
    """The examiner's copy without workings and text in the boxes, and without the lines in which the copies differ by name."""
    return unnamed(BOX.sub(r"\1\3", WORKING.sub("", examiner)))


def unnamed(page: str) -> str:
    """A page without the lines in which the copies differ by name."""
    lines = []
    for line in page.splitlines():
        known = [name for begin, name in NAMED.items() if line.startswith(begin)]
        lines.append(known[0] if known else line)
    return "\n".join(lines) + "\n"
