"""A small sitting from end to end, in two modes: drawn, made, checked, marked; with a full disk, a cut-off answer, a changed byte, a second drawing in the same
place, a second program that differs."""

import csv
import os
import re
import shutil
import unittest
from collections import Counter
from pathlib import Path
from typing import Dict, List, Set
from unittest import mock

from layer1 import drawing, making, marking, pdf, record
from layer1.answers import BIT, PX, sheet_of
from layer1.outcomes import Failed, Refused

from . import papers
from .bench import Bench
from .test_papers import lines_of

MODES = {"eleven": "--mode 11 --frames 3 --candidates 2 --seed 3", "two": "--mode MP2 --frames 2 --candidates 2 --without P3 --bits 2 --seed 4"}


def tree(folder: Path) -> Dict[str, bytes]:
    """All files of a folder."""
    return {str(path.relative_to(folder)): path.read_bytes() for path in sorted(folder.rglob("*")) if path.is_file()}


class Sittings(unittest.TestCase):
    """Two sittings that are drawn and made once."""

    bench: Bench

    @classmethod
    def setUpClass(cls) -> None:
        cls.bench = Bench()
        for name, words in MODES.items():
            done = cls.bench.run(f"layer1 sitting new {name} {words} && layer1 sitting make {name}")
            assert done.returncode == 0, done.stdout

    @classmethod
    def tearDownClass(cls) -> None:
        cls.bench.close()

    def folder(self, name: str) -> Path:
        """A sitting's folder."""
        return self.bench.folder / name

    def ends(self, command: str, status: int, said: str) -> None:
        """A command ends with this status, and says this."""
        done = self.bench.run(command)
        self.assertEqual(done.returncode, status, done.stdout)
        self.assertIn(said, done.stdout.decode())

    def sheet(self, name: str, candidate: str) -> List[str]:
        """The lines of a candidate's answers."""
        return (self.folder(name) / candidate / "answers").read_text().splitlines()

    def test_files(self) -> None:
        """What a sitting has; every file but the record is recorded with its hash, and nothing is left beside it."""
        names = {"01/frames", "01/questions", "01/answers", "papers/01.html", "examiner/01.html"}
        wanted = names | {name.replace("01", "02") for name in names} | {"examiner/all.html", "sitting.txt"}
        for name in MODES:
            self.assertEqual(set(tree(self.folder(name))), wanted)
            self.assertEqual(set(record.opened(str(self.folder(name))).hashes), wanted - {"sitting.txt"})
        self.assertEqual([path.name for path in self.bench.folder.iterdir() if path.name.startswith(("eleven.", "two."))], [])

    def test_questions(self) -> None:
        """As many of each kind as asked for; L1 frames spread; none twice; line, answer and paper have one number."""
        for name, kinds in (("eleven", {"P1": 4, "PIDS": 2, "px": 4, "FILL": 1, "bit": 4}), ("two", {"P1": 4, "PIDS": 2, "px": 4, "FILL": 1, "bit": 2})):
            for candidate in ("01", "02"):
                found = sheet_of(self.sheet(name, candidate))
                counted = Counter("bit" if a.kind == BIT else "FILL" if a.fill else "px" if a.kind == PX else a.boxes[0] for a in found.answers)
                self.assertEqual(counted, kinds)
                self.assertEqual(len({a.place for a in found.answers}), len(found.answers))
                frames = Counter(a.question[0] for a in found.answers if a.boxes[0] == "P1")
                self.assertLessEqual(max(frames.values()) - min(frames.values()), 1)
                self.assertEqual(len(frames), found.count)
                questions = (self.folder(name) / candidate / "questions").read_text().splitlines()
                self.assertEqual([" ".join(a.question) for a in found.answers], questions)

    def test_papers(self) -> None:
        """Every answer is taken back out of both papers; they are the same but for the boxes, the named lines and the workings."""
        for name in MODES:
            both = (self.folder(name) / "examiner" / "all.html").read_text(encoding="utf-8")
            for candidate in ("01", "02"):
                handed, kept = ((self.folder(name) / part / f"{candidate}.html").read_text(encoding="utf-8") for part in ("papers", "examiner"))
                wanted = lines_of(self.sheet(name, candidate))
                self.assertEqual(papers.taken(kept), wanted)
                asked = [" ".join(line.split()[: -line_boxes(line)]) for line in wanted]
                self.assertEqual([re.sub(r"( _)+$", "", line) for line in papers.taken(handed)], asked)
                self.assertEqual(papers.emptied(kept), papers.unnamed(handed))
                number = record.opened(str(self.folder(name))).sheets[candidate]
                for page in (handed, kept):
                    self.assertIn(f"<td><small>Candidate</small><b>{candidate}</b></td>\n<td><small>Sheet</small><b>{number}</b></td>", page)
                self.assertIn(kept[kept.index('<table class="sheet">') : kept.index("</body>")], both)
        self.assertIn("MP2, 2 L1 frames, without P3. Software ", (self.folder("two") / "papers" / "01.html").read_text(encoding="utf-8"))

    def test_workings(self) -> None:
        """The examiner's copy has the working of each answer but FILL, and a picture for each; a mark shows the working of a wrong one."""
        for name in MODES:
            lines = self.sheet(name, "01")
            found = sheet_of(lines)
            self.assertTrue(found.worked)
            page = (self.folder(name) / "examiner" / "01.html").read_text(encoding="utf-8")
            self.assertEqual(page.count("<svg "), len(found.answers))
            self.assertEqual(page.count('<table class="seven">'), len([answer for answer in found.answers if not answer.fill]))
            for answer in found.answers:
                if answer.working is not None:
                    self.assertIn(f"bit j = {answer.working.number}, generator {answer.working.generator}", page)
            self.assertNotIn("seven", papers.unnamed((self.folder(name) / "papers" / "01.html").read_text(encoding="utf-8")).partition("</style>")[2])
        shutil.copytree(self.folder("eleven"), self.folder("marked"))
        self.addCleanup(shutil.rmtree, self.folder("marked"))
        typed = "".join(f"{n} {'_ ' * (line_boxes(line) - 1)}X\n" for n, line in enumerate(lines_of(self.sheet("eleven", "01")), 1))
        (self.bench.folder / "typed").write_text(typed)
        self.addCleanup(os.unlink, self.bench.folder / "typed")
        said = self.bench.run("layer1 sitting mark marked 1 typed").stdout.decode()
        fills = [answer for answer in sheet_of(self.sheet("eleven", "01")).answers if answer.fill]
        self.assertEqual((said.count("    working   bit j = "), said.count("    sheet     ")), (15 - len(fills), len(fills)), said)

    def test_earlier(self) -> None:
        """A sitting that an earlier revision made without workings is made again without them, and marked."""
        self.ends(f"layer1 sitting new early {MODES['eleven']}", 0, "2 candidates")
        self.addCleanup(shutil.rmtree, self.folder("early"))
        found = record.opened(str(self.folder("early")))
        with mock.patch.object(making, "with_workings", return_value=False):
            sheets = making.made_all(found, found.candidates, {candidate: "earlier" for candidate in found.candidates})
        found.made.update({candidate: "earlier" for candidate in found.candidates})
        found.written({**{name: data for each in sheets for name, data in each.content.items()}, making.ALL: making.all_page(sheets)})
        self.ends("layer1 sitting check early && layer1 sitting make early", 0, "2 of 2 sheets made again are the same")
        self.assertNotIn("WORK", (self.folder("early") / "01" / "answers").read_text())
        self.ends("printf '1 X X X X\\n' >early.typed; seq 2 15 >>early.typed; layer1 sitting mark early 1 early.typed", 0, "    sheet     0 ")

    def test_again(self) -> None:
        """A second drawing in the same place is refused; made again, nothing changes; the same seed draws the same; check finds nothing."""
        before = tree(self.folder("eleven"))
        self.ends(f"layer1 sitting new eleven {MODES['eleven']}", 2, "eleven exists; a sitting is never drawn over another one")
        self.ends("layer1 sitting make eleven", 0, "2 sheets made; the second program agrees")
        self.ends("layer1 sitting make eleven 2", 0, "1 sheet made")
        self.ends("layer1 sitting check eleven", 0, "11 files are as recorded; 2 of 2 sheets made again are the same; the second program agrees")
        self.assertEqual(tree(self.folder("eleven")), before)
        self.ends(f"layer1 sitting new same {MODES['eleven']} && layer1 sitting make same", 0, "2 sheets made")
        self.assertEqual(tree(self.folder("same")), before)
        self.ends(f"layer1 sitting new other {MODES['two'].replace('--seed 4', '')} && cmp other/01/questions two/01/questions", 1, "differ")
        for name in ("same", "other"):
            shutil.rmtree(self.folder(name))

    def test_changed(self) -> None:
        """A byte that has changed in any file is found, and the file named."""
        shutil.copytree(self.folder("two"), self.folder("copy"))
        self.addCleanup(shutil.rmtree, self.folder("copy"))
        whole = tree(self.folder("copy"))
        for name, data in whole.items():
            at = len(data) // 2
            (self.folder("copy") / name).write_bytes(data[:at] + bytes([data[at] ^ 1]) + data[at + 1 :])
            self.ends("layer1 sitting check copy", 1, f"{name} has changed since it was")
            if name.endswith(("frames", "questions")):
                self.ends(f"layer1 sitting make copy {name[:2]}", 1, f"{name} has changed since it was recorded")
            (self.folder("copy") / name).write_bytes(data)
        (self.folder("copy") / "01" / "answers").unlink()
        self.ends("layer1 sitting check copy", 1, "01/answers is missing")
        (self.folder("copy") / "01" / "answers").write_text("mine\n")
        self.ends("layer1 sitting make copy 1", 1, "01/answers is there and is not what is made now; nothing is written over")
        (self.folder("copy") / "01" / "answers").write_bytes(whole["01/answers"])
        (self.folder("copy") / "scan.txt").write_text("a note\n")
        self.ends("layer1 sitting check copy", 0, "note: scan.txt is not recorded in sitting.txt")

    def test_broken(self) -> None:
        """A full disk, a program that is cut off, one that complains, a second program that differs: nothing is left of what was begun."""
        command = f"layer1 sitting new broken {MODES['two']}"
        before = set(os.listdir(self.bench.folder))
        self.ends(f"ulimit -f 32; {command}", 3, "File too large")
        self.ends(f"LAYER1_PROGRAMS=failing {command}", 3, "the output of sheet is not whole: its last line has no end")
        self.ends(f"LAYER1_PROGRAMS=complaining {command}", 3, "the program sheet said: not written")
        self.assertEqual(set(os.listdir(self.bench.folder)), before)
        self.ends(command, 0, "2 candidates, 13 questions each")
        self.addCleanup(shutil.rmtree, self.folder("broken"))
        drawn = tree(self.folder("broken"))
        self.ends("ulimit -f 32; layer1 sitting make broken", 3, "File too large")
        self.ends("LAYER1_PROGRAMS=failing layer1 sitting make broken", 3, "the output of sheet is not whole")
        self.differing()
        said = "candidate 01: the second program differs: 'MP1 1', where the program sheet has 'MP2 2"
        self.ends("LAYER1_PROGRAMS=differing layer1 sitting make broken", 1, said)
        self.assertEqual(tree(self.folder("broken")), drawn)
        self.ends("layer1 sitting mark broken 1 empty", 1, "the sheet of candidate 01 is not made yet")
        self.ends("layer1 sitting make broken 01", 0, "1 sheet made")
        self.assertNotIn("examiner/all.html", tree(self.folder("broken")))
        self.ends("layer1 sitting check broken", 0, "1 of 2 sheets made again are the same")

    def differing(self) -> None:
        """A folder with the programs, and a second program that answers otherwise."""
        folder = self.bench.folder / "differing"
        shutil.copytree(self.bench.programs, folder)
        self.addCleanup(shutil.rmtree, folder)
        (folder / "second").write_text("#!/bin/sh\necho MP1 1\n")
        (folder / "second").chmod(0o755)

    def test_full(self) -> None:
        """A disk that is full at any of the writes leaves a sitting as it was."""
        shutil.copytree(self.folder("two"), self.folder("full"))
        self.addCleanup(shutil.rmtree, self.folder("full"))
        found = record.opened(str(self.folder("full")))
        before = tree(self.folder("full"))
        for at in range(4):
            trouble = [None] * at + [OSError(28, "No space left on device")]
            with mock.patch("os.fsync", side_effect=trouble), self.assertRaisesRegex(Exception, "is not written: No space left"):
                found.written({"examiner/a": b"a", "papers/b": b"b", "c": b"c"})
            self.assertEqual(tree(self.folder("full")), before)
        real, done = os.replace, []

        def once(source: Path, target: Path) -> None:
            if done:
                raise OSError(28, "No space left on device")
            done.append(target)
            real(source, target)

        with mock.patch("os.replace", side_effect=once), self.assertRaisesRegex(Exception, "is not written"):
            found.written({"a": b"a", "b": b"b"})
        self.assertEqual(tree(self.folder("full")), before)

    def test_show(self) -> None:
        """Files, hashes and revision of a sheet."""
        found = record.opened(str(self.folder("eleven")))
        number = found.sheets["02"]
        self.assertRegex(number, r"^\d{10}$")
        done = self.bench.run(f"layer1 sitting show eleven {number}")
        lines = done.stdout.decode().splitlines()
        self.assertEqual(lines[0], f"sheet {number}: candidate 02, MP11, 3 L1 frames, without none")
        self.assertIn(f"made by software {found.made['02']}", lines[1])
        self.assertEqual([line.partition(":")[0] for line in lines[2:]], ["02/answers", "02/frames", "02/questions", "examiner/02.html", "papers/02.html"])
        digest = record.digest((self.folder("eleven") / "02" / "frames").read_bytes())
        self.assertIn(f"02/frames: 82947 bytes, SHA-256 {digest}", lines)
        self.ends("layer1 sitting show eleven 1", 2, "no sheet of eleven has the number 1")

    @unittest.skipUnless(shutil.which("chromium") and shutil.which("pdftotext"), "chromium and pdftotext are not installed")
    def test_pdf(self) -> None:
        """A PDF of each paper, recorded; every page has the name line, the candidate's number and the sheet's."""
        shutil.copytree(self.folder("two"), self.folder("printed"))
        self.addCleanup(shutil.rmtree, self.folder("printed"))
        self.ends("layer1 sitting make printed 1 --pdf", 0, "1 sheet made")
        number = record.opened(str(self.folder("printed"))).sheets["01"]
        for name in ("papers/01.pdf", "examiner/01.pdf"):
            pages = self.bench.run(f"pdftotext -layout printed/{name} -").stdout.decode().split("\f")[:-1]
            self.assertGreater(len(pages), 1)
            for page in pages:
                self.assertRegex(page, rf"^\s*Name +Candidate +Sheet +Date +.*copy\n+ +01 +{number}\n")
                self.assertRegex(page, r"Page \d+ of \d+\s*$")
        before = tree(self.folder("printed"))
        self.ends("layer1 sitting make printed 1 --pdf && layer1 sitting check printed", 0, "13 files are as recorded")
        self.assertEqual(tree(self.folder("printed")), before)

    def test_no_browser(self) -> None:
        """Where nothing prints a PDF, that is said; what prints only a part of one has failed."""
        with mock.patch("shutil.which", return_value=None), self.assertRaisesRegex(Refused, "none of them is installed"):
            pdf.printed(Path("page.html"))
        with mock.patch.object(pdf, "command", return_value=["true"]), self.assertRaisesRegex(Failed, "the PDF is not whole"):
            pdf.printed(Path("page.html"))

    def test_words(self) -> None:
        """Words that cannot be meant."""
        for words, status, said in (
            ("new n --mode 5 --frames 3 --candidates 2", 2, "no sheets for MP5"),
            ("new n --mode 1 --frames 3 --candidates 2 --px 1", 2, "MP1 has neither PX1 nor PX2"),
            ("new n --mode 3 --frames 3 --candidates 2 --without P4", 2, "MP3 has no P4"),
            ("new n --mode 3 --frames 65 --candidates 2", 2, "--frames is a number from 0 to 64"),
            ("new n --mode 3 --frames 0 --candidates 2", 2, "--frames is a number from 1 to 64"),
            ("new n --mode 3 --frames 1 --candidates 0", 2, "--candidates is a number from 1 to 999"),
            ("new n --mode 1 --frames 1 --candidates 1 --pm 0 --pids 0 --bits 0", 2, "one question at least"),
            ("new n --mode 1 --frames 1 --candidates 1 --pm 1000", 2, "more than the 4095 bytes of a list"),
            ("new n --mode 1 --frames 1 --candidates 1 --seed x", 2, "--seed is a number"),
            ("new none/n --mode 1 --frames 1 --candidates 1", 3, "is not written: No such file"),
            ("make none", 2, "No such file"),
            ("make eleven 3", 2, "there is no candidate 3; there are 01 to 02"),
            ("check frames", 2, "Not a directory"),
            ("", 2, "sitting new, make, check, mark or show?"),
        ):
            with self.subTest(words=words):
                self.ends(f"layer1 sitting {words}", status, said)
        self.assertFalse((self.bench.folder / "n").exists())


def line_boxes(line: str) -> int:
    """Boxes of a question, by its numbered line."""
    words = line.split()
    return 4 if words[2] == "PM" else 5 if words[2].startswith("PX") else 6


class Marks(unittest.TestCase):
    """Marking of a sitting in MP11."""

    bench: Bench
    lines: List[str]

    @classmethod
    def setUpClass(cls) -> None:
        cls.bench = Bench()
        done = cls.bench.run(f"layer1 sitting new hall {MODES['eleven']} && layer1 sitting make hall")
        assert done.returncode == 0, done.stdout
        numbered = lines_of((cls.bench.folder / "hall/01/answers").read_text().splitlines())
        cls.lines = [" ".join([line.split()[0], *line.split()[-line_boxes(line) :]]) for line in numbered]

    @classmethod
    def tearDownClass(cls) -> None:
        cls.bench.close()

    def mark(self, lines: List[str], status: int, words: str = "") -> str:
        """Marks lines for candidate 01."""
        (self.bench.folder / "typed").write_text("".join(line + "\n" for line in lines), encoding="utf-8")
        done = self.bench.run(f"layer1 sitting mark hall 1 typed {words}")
        self.assertEqual(done.returncode, status, done.stdout)
        return done.stdout.decode()

    def marks(self) -> List[Dict[str, str]]:
        """marks.csv."""
        with open(self.bench.folder / "hall/examiner/marks.csv", newline="") as file:
            return list(csv.DictReader(file))

    def test_marks(self) -> None:
        """All right, in lines and in CSV; some wrong; all empty; marks are kept, and replaced only if told."""
        total = sum(len(line.split()) - 1 for line in self.lines)
        self.assertIn(f"{total} of {total} points", self.mark(self.lines, 0, "--force"))
        self.assertEqual({row["result"] for row in self.marks()}, {"right", ""})
        commas = [line.lower().replace(" ", ",", 1).replace(" ", ", ") for line in reversed(self.lines)]
        self.assertIn(f"{total} of {total} points", self.mark(commas, 0))
        semicolons = [line.replace(" ", ";") + ";" * (7 - len(line.split())) for line in self.lines]
        self.assertIn(f"{total} of {total} points", self.mark(["\ufeffNo;1;2;3;4;5;6", *semicolons], 0))
        wrong = [self.lines[0][:-1] + ("1" if self.lines[0][-1] == "0" else "0"), *self.lines[1:-1], str(len(self.lines))]
        self.assertIn("has other marks already; --force replaces them", self.mark(wrong, 1))
        said = self.mark(wrong, 0, "--force")
        first = self.lines[0].split()
        self.assertIn(f"1: wrong, {len(first) - 2} of {len(first) - 1}\n", said)
        self.assertIn(f"    answer    {first[1]}", said)
        self.assertIn("    working   bit j = ", said)
        self.assertIn(f"{len(self.lines)}: empty, 0 of ", said)
        rows = self.marks()
        self.assertEqual((rows[0]["result"], rows[0]["boxes"].split()[-1], rows[-2]["result"], rows[-1]["number"]), ("wrong", "wrong", "empty", "total"))
        self.assertEqual(int(rows[-1]["points"]), sum(int(row["points"]) for row in rows[:-1]))
        done = self.bench.run("seq 15 >none; layer1 sitting mark hall 2 none; layer1 sitting check hall")
        self.assertIn(f"candidate 02, sheet {rows[0]['sheet'] and self.number('02')}: 0 of ", done.stdout.decode())
        self.assertEqual(done.returncode, 0, done.stdout)
        self.assertEqual(Counter(row["candidate"] for row in self.marks()), {"01": 16, "02": 16})

    def number(self, candidate: str) -> str:
        """The number of a candidate's sheet."""
        return record.opened(str(self.bench.folder / "hall")).sheets[candidate]

    def test_none(self) -> None:
        """Lines that are none are named, and nothing is marked."""
        before = tree(self.bench.folder / "hall")
        for change, said in (
            (lambda lines: [*lines, lines[0]], "line 16 is a second one for question 1"),
            (lambda lines: lines[1:], "there is no line for question 1; one without an answer is typed as its number alone"),
            (lambda lines: [lines[0] + " 1", *lines[1:]], "line 1 has not one word for each box (channel, transfer frame, coded bit, value; _ for an"),
            (lambda lines: [lines[0].rpartition(" ")[0], *lines[1:]], "line 1 has not one word for each box"),
            (lambda lines: ["16 P1 0 1 1", *lines], "line 1 begins with no number of a question, 1 to 15: '16 P1 0 1 1'"),
            (lambda lines: ["P1 0 1 1", *lines], "line 1 begins with no number of a question"),
            (lambda lines: ["0 P1 0 1 1", *lines], "line 1 begins with no number of a question"),
        ):
            self.assertIn(said, self.mark(change(self.lines), 1))
        self.assertIn("there is no line for question 1", self.mark([], 1))
        self.assertEqual(tree(self.bench.folder / "hall"), before)

    def test_words(self) -> None:
        """What counts as the same word."""
        for given, word in {"p1": "P1", "007": "7", "–": "-", "—": "-", "": "_", " fill ": "FILL", "O": "O", "l": "L", "0x1": "0X1"}.items():
            self.assertEqual(marking.plain(given), word)


class Drawn(unittest.TestCase):
    """Drawing by a seed."""

    def test_stored(self) -> None:
        """What a seed draws stays the same, in any version of Python."""
        source = drawing.Source(b"1", "test")
        self.assertEqual((source.take(4).hex(), source.below(1000), source.shuffled(range(5))), ("a485810b", 718, [0, 1, 2, 4, 3]))

    def test_even(self) -> None:
        """In each round every item comes once; numbers are below their limit, and each comes."""
        source = drawing.Source(b"2", "test")
        rounds = source.rounds(range(7))
        for _ in range(5):
            self.assertEqual({next(rounds) for _ in range(7)}, set(range(7)))
        self.assertEqual({source.below(3) for _ in range(100)}, {0, 1, 2})
        firsts: Set[int] = {next(drawing.Source(b"%d" % n, "test").rounds(range(4))) for n in range(60)}
        self.assertEqual(firsts, {0, 1, 2, 3})
        self.assertNotEqual(drawing.Source(b"2", "a").take(8), drawing.Source(b"2", "b").take(8))


if __name__ == "__main__":
    unittest.main()
