"""The papers of sheets: every answer is taken back out of both copies and of the text, for the sample and for drawn lists; the sample's pages are stored.
`STORE=papers python3 -m unittest front.tests.test_papers` stores them anew; look at them in a browser before they are kept."""

import os
import re
import shutil
import unittest
from dataclasses import replace
from pathlib import Path
from typing import List
from unittest import mock

from layer1 import answers, paper, windows
from layer1.drawing import Source
from layer1.modes import MODES
from layer1.outcomes import Refused

from . import papers
from .bench import ROOT, Bench
from .test_second import OLDER, SEED

STORED = Path(__file__).resolve().parent / "stored" / "papers"
SAMPLE = ROOT / "sheets" / "sample"
REVISION = re.compile(r"Software [^<]+\.</p>")


def lines_of(sheet: List[str]) -> List[str]:
    """What a paper has to say, with numbers and a dash in each box without an answer, of the lines that the program prints."""
    out = []
    for line in sheet[1:-1]:
        if line.startswith(("REFUSED", "WORK")):
            continue
        line = re.sub(r"FILL$", "FILL - - - -", line)
        line = re.sub(r" PM (\d+) (\d+ \d+ [01L])", r" PM \1 - \2", line) if re.match(r"\d+ (P1|PIDS) ", line) else line
        out.append(f"{len(out) + 1} {line}")
    return out


class Papers(unittest.TestCase):
    """Both copies of a sheet."""

    bench: Bench

    @classmethod
    def setUpClass(cls) -> None:
        cls.bench = Bench()

    @classmethod
    def tearDownClass(cls) -> None:
        cls.bench.close()

    def run_front(self, command: str) -> str:
        """What the command prints; it ends with status 0."""
        done = self.bench.run(f"layer1 {command}")
        self.assertEqual(done.returncode, 0, done.stdout)
        return done.stdout.decode()

    def copies(self, mode: int, count: int, questions: str, frames: str) -> List[str]:
        """Both copies, whose answers were taken back out of them and of the text."""
        lines = self.run_front(f"sheet {mode} {count} {questions} {frames} --lines").splitlines()
        self.run_front(f"sheet {mode} {count} {questions} {frames} --html pages --force")
        candidate, examiner = ((self.bench.folder / "pages" / f"{name}.html").read_text(encoding="utf-8") for name in ("candidate", "examiner"))
        wanted = lines_of(lines)
        self.assertEqual(papers.taken(examiner), wanted)
        answers_of = {4: r"( \S+){4}$", 5: r"( \S+){5}$", 6: r"( \S+){6}$"}
        sizes = [6 if re.match(r"\d+ \d+ P[134I]", line) else 5 if " PX" in line else 4 for line in wanted]
        self.assertEqual(papers.taken(candidate), [re.sub(answers_of[size], " _" * size, line) for line, size in zip(wanted, sizes)])
        self.assertEqual(papers.emptied(examiner), papers.unnamed(candidate))
        self.assertNotEqual(examiner, candidate)
        text = self.run_front(f"sheet {mode} {count} {questions} {frames}")
        rows = sorted((line.split() for line in text.splitlines() if re.match(r" *\d", line)), key=lambda row: int(row[0]))
        self.assertEqual([" ".join(row) for row in rows], [re.sub(r"^(\d+ \d+) PM ", r"\1 ", line) for line in wanted])
        return [candidate, examiner]

    def test_sample(self) -> None:
        """The sample's pages are as stored, but for the revision of the software."""
        for name, page in zip(("candidate", "examiner"), self.copies(11, 3, "questions", "frames")):
            found = REVISION.sub("Software REVISION.</p>", page)
            path = STORED / f"{name}.html"
            if os.environ.get("STORE") == "papers":
                path.parent.mkdir(exist_ok=True)
                path.write_text(found, encoding="utf-8")
            self.assertEqual(found, path.read_text(encoding="utf-8"))

    @unittest.skipUnless(shutil.which("cargo"), "cargo is not installed, so that the second program cannot be built")
    def test_drawn(self) -> None:
        """Drawn lists in every mode that has sheets, without their refused lines."""
        second = ROOT / "target" / "second" / "release" / "second"
        for mode in OLDER:
            with self.subTest(mode=mode, seed=SEED):
                cells = "LC_ALL=C grep -aE '^[0-9]+ P(M|X[12])( [0-9]+)+$' | head -n 150"
                self.bench.run(f"{second} draw {SEED} {mode} 3 >drawn; {second} draw-cells {SEED} {mode} 3 | {cells} >all")
                found = self.run_front(f"sheet {mode} 3 all drawn --lines").splitlines()
                good = [line for line in found[1:-1] if not line.startswith("REFUSED")]
                self.assertGreaterEqual(len(good), 40)
                kept = [" ".join(answer.question) for answer in map(answers.answer_of, good) if answer is not None]
                (self.bench.folder / "good").write_text("".join(line + "\n" for line in kept[:40]))
                self.copies(mode, 3, "good", "drawn")

    def test_refused(self) -> None:
        """A list with a refused line makes no paper."""
        done = self.bench.run("printf '0 PM 1 2\\n0 PM 512 0\\n' | layer1 sheet 11 3 - frames --html none")
        self.assertEqual((done.returncode, b"line 2 of the list" in done.stdout), (1, True), done.stdout)
        self.assertFalse((self.bench.folder / "none").exists())


class Secret(unittest.TestCase):
    """Nothing of the answers stands on the candidate's copy."""

    def paper(self) -> paper.Paper:
        """The sample with two bits asked for."""
        lines = (SAMPLE / "expected").read_text().splitlines()[1:-1]
        more = ["0 P1 0 167602 PM 0 345 678 1", "2 P4 6 7543 PX2 3 7 63 143 LATER"]
        sheet = answers.sheet_of(["MP11 3", *lines, *more, f"END {len(lines) + 2}"])
        frames = windows.Frames(MODES[11], (), (SAMPLE / "frames").read_bytes())
        return paper.Paper(sheet, "0123456789", "07", "revision", frames, "questions")

    def test_values(self) -> None:
        """With every value turned over the candidate's copy is the same."""
        before = self.paper()
        turned = [replace(each, boxes=(*each.boxes[:-1], {"0": "1", "1": "0"}.get(each.boxes[-1], "0"))) for each in before.sheet.answers]
        after = replace(before, sheet=replace(before.sheet, answers=turned))
        self.assertEqual(paper.page(before, False), paper.page(after, False))
        self.assertNotEqual(paper.page(before, True), paper.page(after, True))

    def test_boxes(self) -> None:
        """With any text in the boxes it is the same but for the rows of bytes, which are chosen by the answers."""
        before = self.paper()
        other = [replace(each, boxes=("X",) * len(each.boxes)) for each in before.sheet.answers]
        after = replace(before, sheet=replace(before.sheet, answers=other))
        with mock.patch.object(paper, "windows", return_value=[]):
            self.assertEqual(paper.page(before, False), paper.page(after, False))

    def test_bytes(self) -> None:
        """The bits of every value are handed out, two rows for each question, of P1 and PIDS alike in PM; nothing tells which row is whose."""
        page = self.paper()
        rows = windows.windows(page.frames, page.questions, page.sheet.answers)
        for answer in page.sheet.answers:
            coded = answer.coded
            if coded is None:
                continue
            for number, value in windows.bytes_of(page.frames, coded):
                fitting = [row for row in rows if (row.channel, row.frame, row.tframe) == (coded.channel, coded.frame, coded.tframe)]
                size = page.frames.size(coded.channel)
                self.assertTrue(any((number - row.first) % size < 10 and row.data[(number - row.first) % size] == value for row in fitting), answer)
            pair = [each.channel for each, _ in windows.pair_of(page.frames, answer, Source(b"", "test"))]
            self.assertEqual(pair, ["P1", "PIDS"] if answer.kind == answers.PM else 2 * [coded.channel])
        self.assertEqual(rows, sorted(rows, key=lambda row: row.place))
        self.assertNotEqual(rows, windows.windows(page.frames, "other questions", page.sheet.answers))

    def test_round_the_end(self) -> None:
        """Bit 0 of a transfer frame is coded with the last six; byte 0 stands behind the last one."""
        frames = self.paper().frames
        coded = answers.Coded(0, "P1", 0, 0)
        self.assertEqual([number for number, _ in windows.bytes_of(frames, coded)], [18271, 0])
        row = frames.window(coded, 18270)
        self.assertEqual(row.data[2], frames.transfer_frame(coded)[0])

    def test_without(self) -> None:
        """Of a channel without bytes none are handed out, and that is said."""
        before = self.paper()
        size = MODES[11].input_bytes()
        data = b"".join(before.frames.data[n * size : n * size + 18433] + before.frames.data[n * size + 23041 : (n + 1) * size] for n in range(3))
        frames = windows.Frames(MODES[11], ("P3",), data)
        coded = answers.Coded(1, "P4", 3, 0)
        self.assertEqual(frames.transfer_frame(coded), before.frames.transfer_frame(coded))
        page = paper.page(replace(before, frames=frames, sheet=replace(before.sheet, without="P3")), False)
        self.assertIn("Nothing was handed over for P3", page)
        self.assertNotIn("<tr><td>P3</td>", page)
        self.assertIn("MP11, 3 L1 frames, without P3.", page)

    def test_refused(self) -> None:
        """A list with a refused line makes no paper."""
        before = self.paper()
        with self.assertRaisesRegex(Refused, "line 7 of the list"):
            paper.page(replace(before, sheet=replace(before.sheet, refused=[7])), True)

    def test_reader(self) -> None:
        """What the tests' reader refuses: a comment, a title, hidden text, other colspans, other words in place of a label."""
        page = paper.page(self.paper(), False)
        papers.Page(page)
        for old, new in (
            ("<h1>", "<!-- 1 --><h1>"),
            ("<h1>", '<h1 title="1">'),
            ("<h1>", '<h1 style="display: none">'),
            ("<h1>", '<p hidden>1</p><h1>'),
            ('colspan="10"', 'colspan="9"'),
            ("<td>", '<td class="secret">'),
        ):
            self.assertIn(old, page)
            with self.assertRaises(AssertionError):
                papers.Page(page.replace(old, new, 1))
        for old, new in (("<h1>", "<p>1</p>\n<h1>"), ("count from 0", "count from 1"), ("Points</small>of 4", "Points</small>of 5")):
            self.assertIn(old, page)
            self.assertNotEqual(papers.emptied(paper.page(self.paper(), True)), papers.unnamed(page.replace(old, new, 1)))
        self.assertEqual(papers.emptied(paper.page(self.paper(), True)), papers.unnamed(page))


if __name__ == "__main__":
    unittest.main()
