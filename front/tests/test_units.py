"""The parts that can be tested without a program: the table of causes, scales, sequences of the control, hints, answers, layouts, pictures, files."""

import io
import os
import re
import sys
import tempfile
import unittest
from fractions import Fraction
from pathlib import Path
from unittest import mock

from layer1 import answers, causes, dumps, files, hints, layout, picture, programs, progress, scales, sequences, workings
from layer1.modes import MODES
from layer1.outcomes import Failed, Misused, Refused
from layer1.owners import taken
from layer1.subcarriers import Subcarrier

ROOT = Path(__file__).resolve().parents[2]
SAMPLE = ROOT / "sheets" / "sample"


class Causes(unittest.TestCase):
    """The table of causes."""

    def test_all_numbers(self) -> None:
        """Documents 01 and 02 have the numbers 1 to 19; for C there is also 0."""
        numbers = {int(cause) for cause, call in causes.table() if cause.isdigit() and call != "c"}
        self.assertEqual(numbers, set(range(1, 20)))

    def test_rows(self) -> None:
        """A row with a place says it, one without does not, and none stands twice."""
        lines = causes.TABLE.read_text(encoding="utf-8").splitlines()[1:]
        self.assertEqual(len(lines), len({tuple(line.split("\t")[:2]) for line in lines}))
        for (_, call), (meaning, words) in causes.table().items():
            self.assertEqual(meaning != "-" and call != "c", "{place}" in words)

    def test_places(self) -> None:
        """Places by name."""
        self.assertIn("P4 frame 2 ", causes.words_of("8", 10))
        self.assertIn("the input ends in PX2", causes.words_of("3", 2, "vector"))
        self.assertIn("the input ends in PX2", causes.words_of("3", 7, "reader"))
        self.assertIn("P2 are", causes.words_of("5", 8))
        self.assertIn("place 99", causes.words_of("4", 99))
        with self.assertRaises(Failed):
            causes.words_of("20", 0)


class Scales(unittest.TestCase):
    """Scales of a sideband."""

    def test_exact(self) -> None:
        """Numbers of single precision are taken, as many digits as they have."""
        for word in ("1", "999", "0.5", "0.046875", "0.707106769084930419921875", "000.0000152587890625"):
            self.assertEqual(Fraction(scales.decimal(scales.scale_of(word))), Fraction(word))
        self.assertTrue(scales.is_taken(Fraction("0.0000152587890625")))
        self.assertFalse(scales.is_taken(Fraction("0.707106769084930419921875")))

    def test_not_exact(self) -> None:
        """Others are not, and the reason is said."""
        for word in ("0.1", "0.7071067811865475", "0.000000000000000000000001"):
            with self.assertRaisesRegex(Misused, "would be rounded; the nearest is "):
                scales.scale_of(word)
        for word in ("", ".5", "1.", "1000", "0x1", "1e0", "nan", "inf", "-1", "0." + 25 * "0", "٣"):
            with self.assertRaisesRegex(Misused, "a scale is"):
                scales.scale_of(word)


class Sequences(unittest.TestCase):
    """The control as sequences."""

    def test_probe(self) -> None:
        """Document 01: MP1, block 0, column 0 is 64640702, encoded 47B805FC."""
        control = (ROOT / "tests" / "control" / "MP1").read_bytes()[:4096]
        column = sequences.columns_of(control, 0)[0]
        self.assertEqual((column, sequences.sequence(column)), (0x47B805FC, 0x64640702))

    def test_fields(self) -> None:
        """The fields are the 32 bits, each once."""
        bits = [bit for high, low, _ in sequences.FIELDS for bit in range(high, low - 1, -1)]
        self.assertEqual(bits, list(range(31, -1, -1)))

    def test_outside(self) -> None:
        """A bit behind the 61 columns is named as such."""
        control = bytes(4096)
        found = list(sequences.differences(control, control[:15] + b"\x01" + control[16:]))
        self.assertEqual([(d.block, d.column) for d in found], [(0, 63)])
        self.assertIn("must be zero", found[0].words())


class Hints(unittest.TestCase):
    """What explains all differences."""

    def test_orders(self) -> None:
        """Pairs, rounds, and partitions that are alike."""
        self.assertEqual(hints.crossed("PM", hints.matched([[0], [2], [1]]) or []), "partitions 2 and 1 are exchanged")
        self.assertEqual(hints.crossed("PX1", [0, 2, 3, 1]), "partitions of PX1 are put otherwise: 2 at 1, 3 at 2, 1 at 3")
        self.assertEqual(hints.matched([[0, 1], [0, 1], [2]]), [0, 1, 2])
        self.assertIsNone(hints.matched([[0], [0]]))

    def test_alike(self) -> None:
        """An equal matrix is not called moved, whatever stands in it."""
        slips = hints.Slips(MODES[1], "PM")
        slips.narrow(bytes(46080), bytes(46080))
        self.assertTrue(slips.equal)


class Answers(unittest.TestCase):
    """What the program sheet prints, and its layouts."""

    def sheet(self) -> answers.Sheet:
        """The sample's sheet, with two bits asked for, a channel left out and a refused line."""
        lines = (SAMPLE / "expected").read_text().splitlines()[1:-1]
        more = ["0 P1 0 167602 PM 0 345 678 1", "2 P4 6 7543 PX2 3 7 63 143 LATER"]
        return answers.sheet_of(["MP11 3 without P3", "REFUSED 7", *lines, *more, f"END {len(lines) + 2}"])

    def test_whole(self) -> None:
        """A sheet without its head, its end or one of its lines is none."""
        lines = ["MP1 1", "0 PM 192 360 P1 0 0 1", "END 1"]
        self.assertEqual(len(answers.sheet_of(lines).answers), 1)
        for part in ([], lines[:1], lines[:2], lines[1:], [lines[0], lines[2]], ["MP1 1", "0 PM 1 2", "END 1"], [*lines, lines[1]]):
            with self.assertRaises(Failed):
                answers.sheet_of(part)

    def test_no_sheet(self) -> None:
        """Why there is none, in words."""
        for line, words in {
            "NO SHEET MODE": "no sheets for this service mode",
            "NO SHEET WITHOUT": "no such channel",
            "NO SHEET COUNT": "0 to 64",
            "NO SHEET LIST": "no empty line",
            "NO SHEET LONG LIST": "more bytes than",
            "NO SHEET SHORT 82947": "fewer than the 82947 bytes",
            "NO SHEET LONG 82947": "more than the 82947 bytes",
            "NO SHEET FRAME 2 NUMBER 9 PLACE 0": "in L1 frame 2: the reserved number is above 7",
        }.items():
            with self.assertRaisesRegex(Refused, words):
                answers.sheet_of([line])
        with self.assertRaises(Failed):
            answers.sheet_of(["NO SHEET whatever"])

    def test_workings(self) -> None:
        """A working belongs to the answer above it; each answer but FILL has one, if they were asked for."""
        work = "WORK BIT 67040 GENERATOR 165 FRAME 1 0 1 1 0 0 1 SCRAMBLER 0 0 1 0 1 1 1 SUM 5 STEP 167602 K 523"
        work += " BLOCK 10 PARTITION 18 ROW 25 COLUMN 30 CELL 249078"
        lines = ["MP11 3 without P3 P4 work", "0 PM 345 678 P1 0 167602 1", work, "0 PX1 0 0 36 FILL", "END 2"]
        sheet = answers.sheet_of(lines)
        working = sheet.answers[0].working
        assert working is not None
        self.assertEqual((working.number, working.generator, working.bits[2:4], working.ones, working.row, working.cell), (67040, "165", (1, 1), 5, 25, 249078))
        self.assertTrue(sheet.worked and sheet.answers[1].fill)
        twice, early, filled = [*lines[:3], work, *lines[3:]], [lines[0], work, *lines[1:]], [*lines[:4], work, lines[4]]
        for wrong in ([*lines[:2], *lines[3:]], twice, early, filled, ["MP11 3", *lines[1:]]):
            with self.assertRaises(Failed):
                answers.sheet_of(wrong)

    def test_working_words(self) -> None:
        """A working in words: its generator's taps, the sum, and the place; of P3 and P4 that of the internal matrix. Zero fill has none."""
        seven = "GENERATOR 133 FRAME 1 0 0 0 1 0 1 SCRAMBLER 1 0 0 0 1 1 0 SUM 4"
        work = f"WORK BIT 2305 {seven} STEP 115202 K 28800 BLOCK 0 PARTITION 1 ROW 0 COLUMN 0 CELL 36"
        sheet = answers.sheet_of(["MP11 3 work", "0 PX1 0 0 36 FILL", "1 P3 4 4610 PX1 2 0 0 36 0", work, "2 P3 4 4610 PX1 3 0 0 36 LATER", work, "END 3"])
        filled, sent, later = (workings.in_words(answer) for answer in sheet.answers)
        self.assertEqual(filled, "")
        lines = sent.splitlines()
        self.assertEqual(lines[0], "P3, transfer frame 4 of L1 frame 1, coded bit 4610: 0 in L1 frame 2, PX1 block pair 0, row 0, column 36")
        self.assertEqual(lines[5], "    generator 133    1   0   1   1   0   1   1")
        self.assertEqual(lines[6], "    ones of frame and scrambler where the generator has a 1: 4, modulo 2 0")
        self.assertEqual(lines[7], "    i = 115202, k = 28800; block 0, partition 1, row 0, column 0; cell 36 of the internal matrix (10.2.6)")
        self.assertIn("coded bit 4610: sent after these L1 frames, in L1 frame 3, PX1", later)

    def test_places(self) -> None:
        """The cell and the coded bit of an answer, whichever of them was asked for."""
        for line, coded, place in (
            ("0 PM 345 678 P1 0 167602 1", (0, "P1", 0, 167602), (0, "PM", None, 345, 678)),
            ("1 PX2 2 31 105 P4 0 7 8797 1", (0, "P4", 7, 8797), (1, "PX2", 2, 31, 105)),
            ("0 PIDS 3 199 PM 0 117 208 0", (0, "PIDS", 3, 199), (0, "PM", None, 117, 208)),
            ("2 P4 6 7543 PX2 3 7 63 143 LATER", (2, "P4", 6, 7543), (3, "PX2", 7, 63, 143)),
        ):
            answer = answers.answer_of(line)
            assert answer is not None and answer.coded is not None
            self.assertEqual((answer.coded, answer.place), (answers.Coded(*coded), answers.Place(*place)))

    def test_text(self) -> None:
        """The sample as it is stored; an answer has its number among all."""
        sheet = answers.sheet_of((SAMPLE / "expected").read_text().splitlines())
        self.assertEqual(layout.text(sheet), (SAMPLE / "printed").read_text())
        text = layout.text(self.sheet())
        self.assertIn("without P3", text)
        self.assertRegex(text, r"\n 16 .* LATER\n")

    def test_owner_lines(self) -> None:
        """Lines of owners; others are none."""
        for line in ("0 PM 1 2 P1 0 134087", "1 PX1 5 40 101 P3 1 3 1373", "0 PX2 3 17 80 FILL", "0 PIDS 3 199 PM 0 117 208", "2 P4 7 9215 PX2 4 1 63 133"):
            found = taken(line)
            assert found is not None
            self.assertTrue(line.startswith(found[0].line() + " "))
        for line in ("", "REFUSED 1", "0 PM 1 2", "0 PM 1 2 P3 0 1", "0 PM 1 2 P1 0 134087 1", "0 PX1 5 40 101 FILL 1", "x PM 1 2 P1 0 1"):
            self.assertIsNone(taken(line))


class Programs(unittest.TestCase):
    """Programs that are not built yet, or do not do their work."""

    def setUp(self) -> None:
        folder = tempfile.TemporaryDirectory()
        self.addCleanup(folder.cleanup)
        self.root = Path(folder.name)
        (self.root / ".ci").mkdir()
        (self.root / "crates" / "new" / "src").mkdir(parents=True)
        (self.root / "crates" / "new" / "src" / "main.rt").write_text("fn main() {}\n")
        for name, value in (("ROOT", self.root), ("BUILT", self.root / "target" / "bin")):
            patch = mock.patch.object(programs, name, value)
            patch.start()
            self.addCleanup(patch.stop)

    def follow(self, *lines: str) -> None:
        """What the project's own progress does."""
        path = self.root / ".ci" / "programs"
        path.write_text("#!/bin/sh\n" + "\n".join(lines) + "\n")
        path.chmod(0o755)

    def test_built(self) -> None:
        """A program is built once, and that is said."""
        made = f"{self.root}/target/bin"
        self.follow('[ "$*" = "new" ] || exit 1', f"mkdir -p {made} && printf '#!/bin/sh\\necho made\\n' >{made}/new && chmod 755 {made}/new", "echo quiet")
        with mock.patch.object(sys, "stderr", io.StringIO()) as said:
            self.assertEqual(programs.lines_of("new", [], ""), ["made"])
            self.assertEqual(programs.lines_of("new", [], ""), ["made"])
        self.assertEqual(said.getvalue().count("proving and building it"), 1)

    def test_not_built(self) -> None:
        """A proof that fails, and a program that there is not."""
        self.follow("exit 1")
        with mock.patch.object(sys, "stderr", io.StringIO()), self.assertRaisesRegex(Failed, "cannot be built"):
            programs.program("new")
        with self.assertRaisesRegex(Failed, "this revision has no program other"):
            programs.program("other")

    def test_told(self) -> None:
        """What a program says on standard error."""
        self.assertIn("the input ends in PX1", str(programs.told("vector", "refused: number 3 place 1 frame 0")))
        self.assertIn("goes on after L1 frame 2", str(programs.told("sender", "refused: input goes on at frame 3")))
        self.assertIsInstance(programs.told("sender", "not written: standard output takes no more"), Failed)
        self.assertIsInstance(programs.told("sender", "usage: sender MODE COUNT"), Failed)


class Cells(unittest.TestCase):
    """Places under 7."""

    def test_cells(self) -> None:
        """The first and the last of each matrix."""
        for mode, place, words in (
            (11, 0, "PX1 block pair 0, row 0, column 0"),
            (11, 73727, "PX1 block pair 7, row 63, column 143"),
            (11, 73728, "PX2 block pair 0, row 0, column 0"),
            (2, 36863, "PX1 block pair 7, row 63, column 71"),
            (5, 368640, "PX1 block pair 0, row 0, column 0"),
            (6, 368640, "PX2 block pair 0, row 0, column 0"),
        ):
            self.assertEqual(dumps.cell_at(MODES[mode], 0, place).words(False), words)
        with self.assertRaises(Failed):
            dumps.cell_at(MODES[1], 0, 0)


class Pictures(unittest.TestCase):
    """The picture of a symbol."""

    def test_page(self) -> None:
        """Two stems for each used subcarrier and a band for each partition, beside the legend's; all within the margins of an A4 page."""
        found = []
        for number in range(-546, 547):
            column = (number - 12) * 2
            used = abs(number) > 300
            found.append(Subcarrier(number, "-0.5" if used else "0", "1" if used else "0", "PM" if used else None, max(0, column)))
        page = picture.svg("Service mode MP1 & more", found)
        used = sum(s.matrix is not None for s in found)
        self.assertEqual(page.count("<circle "), 2 * used + 3)
        self.assertIn("MP1 &amp; more: 492 of 1,093", page)
        self.assertIn("scale 0.5, subcarriers -546 to -301", page)
        for name, most in (("x", 2970), ("cx", 2970), ("x1", 2970), ("x2", 2970), ("y", 2100), ("cy", 2100), ("y1", 2100), ("y2", 2100)):
            for value in re.findall(rf' {name}="([0-9.-]+)"', page):
                self.assertTrue(100 <= float(value) <= most - 100, (name, value))
        self.assertIn("size: A4 landscape", picture.html("t", page))


class Files(unittest.TestCase):
    """Output that is whole or not there."""

    def setUp(self) -> None:
        self.folder = tempfile.TemporaryDirectory()
        self.addCleanup(self.folder.cleanup)
        self.name = os.path.join(self.folder.name, "file")

    def test_written(self) -> None:
        """A file is not overwritten unless told."""
        files.write(self.name, io.BytesIO(b"one"))
        with self.assertRaisesRegex(Misused, "exists"):
            files.write(self.name, io.BytesIO(b"two"))
        files.write(self.name, io.BytesIO(b"two"), force=True)
        self.assertEqual(Path(self.name).read_bytes(), b"two")
        self.assertEqual(os.listdir(self.folder.name), ["file"])

    def test_broken_off(self) -> None:
        """A write that is broken off leaves what was there, and nothing beside it."""
        files.write(self.name, io.BytesIO(b"one"))
        for trouble in (OSError(28, "No space left on device"), KeyboardInterrupt()):
            with mock.patch("shutil.copyfileobj", side_effect=trouble), self.assertRaises((Failed, KeyboardInterrupt)):
                files.write(self.name, io.BytesIO(b"two"), force=True)
            self.assertEqual((Path(self.name).read_bytes(), os.listdir(self.folder.name)), (b"one", ["file"]))

    def test_progress(self) -> None:
        """Nothing in the first second, nothing where there is no terminal, and the line is taken away."""
        terminal = io.StringIO()
        terminal.isatty = lambda: True  # type: ignore[method-assign]
        with mock.patch.object(sys, "stderr", terminal), mock.patch("time.monotonic", side_effect=[0, 0.9, 2]):
            shown = progress.Progress("sending")
            shown.tell(1, 4)
            self.assertEqual(terminal.getvalue(), "")
            shown.tell(2, 4)
            self.assertEqual(terminal.getvalue(), "\rlayer1: sending, 50 %, 2 s")
            shown.end()
            self.assertTrue(terminal.getvalue().endswith("\r"))


if __name__ == "__main__":
    unittest.main()
