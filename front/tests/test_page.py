"""The bench page: its lookups under node, by the script as it stands in the page, against what the programs and the second program print for every
cell and bit; and the page itself in Chromium."""

import os
import random
import re
import shutil
import subprocess
import time
import unittest
from pathlib import Path
from typing import List

from layer1 import tables
from layer1.outcomes import Failed
from layer1.owners import FILL, Bit

from .bench import BUILT, ROOT, Bench

SEED = int(os.environ.get("SEED", time.time())) % 10**6
LOOKUPS = Path(__file__).resolve().parent / "page_lookups.js"
PX_COLUMNS = {1: {}, 2: {"PX1": 72}, 3: {"PX1": 144}, 11: {"PX1": 144, "PX2": 144}}
"""The matrices beside PM of each mode that the page offers."""

ANSWER = "0 P1 0 167602 PM 0 345 678 1"
WORK = (
    "WORK BIT 67040 GENERATOR 165 FRAME 1 0 1 1 0 0 1 SCRAMBLER 0 1 1 0 1 0 0 SUM 5"
    " STEP 167602 K 145 BLOCK 10 PARTITION 18 ROW 25 COLUMN 30 CELL 249078"
)


def px_questions(mode: int, frames: List[int]) -> List[str]:
    """Every cell of PX1 and PX2 in some L1 frames."""
    cells = [(name, pair, row, column) for name, columns in PX_COLUMNS[mode].items() for pair in range(8) for row in range(64) for column in range(columns)]
    return [f"{frame} {name} {pair} {row} {column}" for frame in frames for name, pair, row, column in cells]


class Made(unittest.TestCase):
    """The page as a file."""

    bench: Bench
    page: Path

    @classmethod
    def setUpClass(cls) -> None:
        cls.bench = Bench()
        cls.page = cls.bench.folder / "pages" / "bench.html"
        cls.made = cls.bench.run("layer1 page pages")

    @classmethod
    def tearDownClass(cls) -> None:
        cls.bench.close()

    def looked_up(self, command: str, operand: object, lines: List[str]) -> List[str]:
        """What the page says of lines."""
        words = ["node", str(LOOKUPS), str(self.page), command, str(operand)]
        done = subprocess.run(words, input="".join(line + "\n" for line in lines).encode(), stdout=subprocess.PIPE, check=True)
        return done.stdout.decode().splitlines()

    def printed(self, program: Path, *words: str, lines: List[str]) -> List[str]:
        """What a program prints of lines."""
        given = "".join(line + "\n" for line in lines).encode()
        return subprocess.run([program, *words], input=given, stdout=subprocess.PIPE, check=True).stdout.decode().splitlines()

    def same(self, wanted: List[str], given: List[str]) -> None:
        """Two texts of many lines; the first that differ are told."""
        differing = [pair for pair in zip(wanted, given) if pair[0] != pair[1]]
        self.assertFalse(differing[:3], f"seed {SEED}: {len(differing)} lines differ")
        self.assertEqual(len(wanted), len(given))

    def test_made(self) -> None:
        """One file, a few megabytes, that names nothing outside itself, and says which revision made it."""
        self.assertEqual((self.made.returncode, self.made.stdout.decode()), (0, "pages/bench.html\n"))
        text = self.page.read_text(encoding="utf-8")
        self.assertLess(len(text), 3_000_000)
        self.assertIsNone(re.search(r"https?:|\bsrc=|@import|url\(|<link|\[\[[a-z.]+\]\]", text))
        self.assertRegex(text, r'<b id="revision">([0-9a-f]{12}( with changes)?|not known)</b>')

    @unittest.skipUnless(shutil.which("node"), "node is not installed")
    def test_pm(self) -> None:
        """Every cell of PM as the program cells lists it."""
        cells = [f"{row} {column}" for row in range(512) for column in range(720)]
        listed = self.printed(BUILT / "cells", lines=cells)[1:]
        questions = ["0 PM " + cell for cell in cells]
        self.same([f"0 PM {line}" for line in listed], self.looked_up("owners", 1, questions))

    @unittest.skipUnless(shutil.which("node") and shutil.which("cargo"), "node or cargo is not installed")
    def test_second(self) -> None:
        """Every cell of PX1 and PX2, and every coded bit, as the second program and the program owners, where it is built, answer."""
        second = Path(subprocess.run([ROOT / ".ci" / "second"], stdout=subprocess.PIPE, check=True).stdout.decode().strip())
        draw = random.Random(SEED)
        for mode in PX_COLUMNS:
            later = draw.randrange(4, 10**6)
            bits = self.printed(second, "all-bits", str(mode), str(later), lines=[])
            lines = px_questions(mode, [0, 1, 2, 3, later, later + 1]) + bits + self.odd_questions(draw, mode)
            given = self.looked_up("owners", mode, lines)
            self.same(self.printed(second, "owners", str(mode), lines=lines), given)
            if os.access(BUILT / "owners", os.X_OK):
                self.same(self.printed(BUILT / "owners", str(mode), lines=lines), given)
                last = px_questions(mode, [2**32 - 1]) + [f"{2**32} PM 0 0"]
                self.same(self.printed(BUILT / "owners", str(mode), lines=last), self.looked_up("owners", mode, last))

    def odd_questions(self, draw: random.Random, mode: int) -> List[str]:
        """Cells of PM and bits in drawn L1 frames, and what no mode has."""
        cells = [f"{draw.randrange(10**6)} PM {draw.randrange(512)} {draw.randrange(720)}" for _ in range(1000)]
        outside = ["0 PM 512 0", "0 PM 0 720", "0 PX1 8 0 0", "0 PX1 0 64 0", "0 PX1 0 0 144", "0 PX2 0 0 144", "0 P1 1 0", "0 P1 0 365440", "0 PIDS 16 0"]
        outside += ["0 PIDS 0 200", "0 P3 8 0", "0 P3 0 9216", "0 P4 0 9216", "0 P2 0 0", "x PM 0 0", "0 PM 0", "0 PM 0 0 0", "0 PX1 0 0", ""]
        return cells + outside

    @unittest.skipUnless(shutil.which("node"), "node is not installed")
    def test_values(self) -> None:
        """The bit in a cell of a dump as the front command reads it; a file that is no dump is refused in the words of the table of causes."""
        draw = random.Random(SEED)
        cells = [f"{frame} PM {draw.randrange(512)} {draw.randrange(720)}" for frame in range(3)]
        cells += [f"{frame} {name} {draw.randrange(8)} {draw.randrange(64)} {draw.randrange(144)}" for frame in range(3) for name in ("PX1", "PX2")]
        given = self.looked_up("values", self.bench.folder / "dump", cells)
        self.assertEqual(given, [self.bench.run(f"layer1 bit dump {cell}").stdout.decode()[0] for cell in cells])
        for name in ("cut", "long", "junk", "empty"):
            said = self.bench.run(f"layer1 bit {name} 0 0 0").stdout.decode()
            words = self.looked_up("values", self.bench.folder / name, [])[0].rpartition(": ")[2]
            self.assertIn(words, said)

    @unittest.skipUnless(shutil.which("node"), "node is not installed")
    def test_workings(self) -> None:
        """Workings by coded bit, with head and end or without; what is no working is none."""
        path = self.bench.folder / "workings"
        for text, wanted in (
            (f"MP11 3 work\n{ANSWER}\n{WORK}\nEND 1\n", ["mode 11", f"0 P1 0 167602 1 {WORK}"]),
            (f"{ANSWER}\r\n{WORK}\r\n", ["mode null", f"0 P1 0 167602 1 {WORK}"]),
            (f"2 PM 345 678 P1 0 167602 0\n{WORK}\n", ["mode null", f"2 P1 0 167602 0 {WORK}"]),
            (f"2 PX1 5 40 101 P3 1 3 1373 0\n{WORK}\n", ["mode null", f"1 P3 3 1373 0 {WORK}"]),
            (f"2 P3 7 9215 PX1 4 0 0 36 LATER\n{WORK}\n", ["mode null", f"2 P3 7 9215 LATER {WORK}"]),
            (f"{WORK}\n", ["none"]),
            (f"{ANSWER}\n{WORK} 1\n", ["none"]),
            ("", ["none"]),
        ):
            path.write_text(text, encoding="utf-8", newline="")
            self.assertEqual(self.looked_up("workings", path, []), wanted)

    @unittest.skipUnless(shutil.which("node"), "node is not installed")
    def test_printed_workings(self) -> None:
        """Every working that sheet or layer1 work prints is taken, with the value above it."""
        later = "layer1 work P4 7 9215 --mode 11 --frames frames --frame 2 --lines"
        done = self.bench.run(f"cat questions frames | {BUILT / 'sheet'} 11 3 work >worked; {later} >later; cat later")
        line = done.stdout.decode().splitlines()[-1]
        self.assertEqual(self.looked_up("workings", self.bench.folder / "later", []), ["mode null", f"2 P4 7 9215 LATER {line}"])
        lines = (self.bench.folder / "worked").read_text().splitlines()
        given = self.looked_up("workings", self.bench.folder / "worked", [])
        self.assertEqual(given[0], "mode 11")
        self.assertEqual(sorted(line.partition(" WORK")[2] for line in given[1:]), sorted(line[len("WORK") :] for line in lines if line.startswith("WORK")))

    @unittest.skipUnless(shutil.which("chromium"), "chromium is not installed")
    def test_chromium(self) -> None:
        """The page itself, opened from a file at a cell: it says of the cell what the front command says."""
        draw = random.Random(SEED)
        pair, row, column = draw.randrange(8), draw.randrange(64), draw.randrange(72)
        for mode, frame, cell in ((1, 0, "PM 345 678"), (2, 3, f"PX1 {pair} {row} {column}"), (11, 0, "PX2 0 0 36"), (11, 2, f"PX2 {pair} {row} {2 * column}")):
            words = self.bench.run(f"layer1 whose {cell} --mode {mode} --frame {frame} --lines").stdout.decode().split()[1 + len(cell.split()) :]
            text = self.opened(f"{mode}/{frame}/{cell.replace(' ', '/')}")
            channel, tframe, bit = words[0], words[-2:-1], words[-1]
            self.assertIn("Fill" if words == [FILL] else f"{channel} coded bit {bit} transfer frame {tframe[0]}", text, f"seed {SEED}")
            if len(words) == 4:
                self.assertIn(f"of L1 frame {words[1]},", text)

    def opened(self, address: str) -> str:
        """The words of the answer in Chromium."""
        profile = self.bench.folder / "profile"
        words = ["chromium", "--headless", "--no-sandbox", "--disable-gpu", f"--user-data-dir={profile}", "--dump-dom", f"{self.page.as_uri()}#{address}"]
        text = subprocess.run(words, stdout=subprocess.PIPE, stderr=subprocess.DEVNULL, check=True, timeout=120).stdout.decode()
        answer = text[text.index('<div id="answer"') : text.index('<div class="asks"')]
        return " ".join(re.sub(r"<[^>]*>", " ", answer).split())


class Packed(unittest.TestCase):
    """What goes into the page, and what does not."""

    def test_packed(self) -> None:
        """Four characters for a cell: its kind, and its coded bit."""
        cells = [(("P1", 0, 0), 5), (("PIDS", 3, 0), 199), (("P1", 0, 0), 365439)]
        self.assertEqual(tables.packed(cells), {"kinds": [("P1", 0, 0), ("PIDS", 3, 0)], "cells": "AAAFCADHBZN/"})
        with self.assertRaises(Failed):
            tables.packed([(("P1", 0, 0), 1 << 19)])

    def test_other_halves(self) -> None:
        """An L1 frame that shows other bits than a later one of its parity, or fill where there is none, makes no page."""
        kept = tables.asked
        self.addCleanup(setattr, tables, "asked", kept)
        one, two = Bit(0, "P3", 0, 1), Bit(2, "P3", 0, 2)
        for first, later in ((one, two), (FILL, two), (one, FILL), (one, Bit(1, "P3", 0, 1))):
            tables.asked = lambda mode, matrix, frame, pair=(first, later): [pair[frame // 2]]  # type: ignore[assignment, misc]
            with self.assertRaises(Failed):
                tables.half(tables.covered()[1], "PX1", 0)


if __name__ == "__main__":
    unittest.main()
