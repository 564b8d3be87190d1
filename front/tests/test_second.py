"""Every answer against the second program's, on newly drawn input. SEED=NUMBER draws the same again."""

import os
import random
import re
import shutil
import subprocess
import time
import unittest
from collections import Counter
from pathlib import Path
from typing import List

from .bench import ROOT, Bench

SEED = int(os.environ.get("SEED", time.time())) % 10**6
MODES = (1, 2, 3, 11, 5, 6)
OLDER = (1, 2, 3, 11)
COUNT = 3


@unittest.skipUnless(shutil.which("cargo"), "cargo is not installed, so that the second program cannot be built")
class Second(unittest.TestCase):
    """The front command and the second program on the same input."""

    bench: Bench
    program: Path

    @classmethod
    def setUpClass(cls) -> None:
        cls.bench = Bench()
        cls.program = Path(subprocess.run([ROOT / ".ci" / "second"], stdout=subprocess.PIPE, check=True).stdout.decode().strip())
        for mode in MODES:
            frames = cls.second("draw", SEED, mode, COUNT)
            (cls.bench.folder / f"in{mode}").write_bytes(frames)
            (cls.bench.folder / f"out{mode}").write_bytes(cls.second("dump", mode, COUNT, given=frames))

    @classmethod
    def tearDownClass(cls) -> None:
        cls.bench.close()

    @classmethod
    def second(cls, *words: object, given: bytes = b"") -> bytes:
        """What the second program prints."""
        return subprocess.run([cls.program, *map(str, words)], input=given, stdout=subprocess.PIPE, stderr=subprocess.DEVNULL).stdout

    def front(self, command: str, status: int = 0) -> bytes:
        """What the front command prints; its status is this one."""
        done = self.bench.run(f"layer1 {command}")
        self.assertEqual(done.returncode, status, f"seed {SEED}: layer1 {command}: {done.stdout[:400]!r}")
        return done.stdout

    def file(self, name: str) -> bytes:
        """A file of the folder."""
        return (self.bench.folder / name).read_bytes()

    def test_runs(self) -> None:
        """send, judge, read and keys, in every mode."""
        for mode in MODES:
            with self.subTest(mode=mode, seed=SEED):
                self.assertEqual(self.front(f"send {mode} {COUNT} in{mode}"), self.file(f"out{mode}"))
                self.assertEqual(self.front(f"judge out{mode}"), f"accepted: {COUNT} L1 frames of MP{mode}\n".encode())
                self.assertEqual(self.front(f"read out{mode}"), self.second("read", mode, COUNT, given=self.file(f"out{mode}")[8:]))
                self.assertEqual(self.front(f"keys {mode} {COUNT} in{mode} in{mode} in{mode}"), self.file(f"in{mode}"))
                self.assertEqual(self.front(f"compare out{mode} out{mode}"), f"equal: {COUNT} L1 frames of MP{mode}\n".encode())

    def test_refused_dumps(self) -> None:
        """judge on drawn dumps, most of them damaged: number, place and L1 frame."""
        folder = self.bench.folder / "drawn"
        folder.mkdir()
        self.second("draw-dumps", SEED, 11, folder)
        for name in sorted(os.listdir(folder), key=int)[:12]:
            verdict = self.second("judge", given=(folder / name).read_bytes()).decode().split()
            said = self.front(f"judge drawn/{name}", 0 if verdict[0] == "accepted" else 1).decode()
            if verdict[0] != "accepted":
                _, _, number, _, place, _, frame = verdict
                self.assertIn(f"(number {number}, place {place})", said)
                self.assertTrue(number in ("1", "17", "18") or f"in L1 frame {frame}:" in said, said)

    def test_vector(self) -> None:
        """vector, in the older modes."""
        for mode in OLDER:
            size = (len(self.file(f"out{mode}")) - 8) // COUNT
            frame = self.file(f"out{mode}")[8 + size : 8 + 2 * size]
            symbol = SEED % 512
            wanted = self.second("vector", mode, symbol, "0.5", "0.0625", given=frame)
            self.assertEqual(self.front(f"vector out{mode} {symbol} 0.5 0.0625 --frame 1"), wanted)

    def test_lines(self) -> None:
        """nearest, restore and places: what the second program prints, and words behind it; CR LF ends a line here alone."""
        for verb, words, drawn in (("nearest", "5", "draw-copied"), ("restore", "", "draw-unread"), ("allocate", "", "draw-shares")):
            given = self.second(drawn, SEED, *(["20"] if drawn == "draw-copied" else []))
            (self.bench.folder / "lines").write_bytes(given)
            wanted = self.second(verb, *words.split(), given=given.replace(b"\r\n", b"\n")).decode().splitlines()
            command = {"nearest": "nearest lines --budget 5", "allocate": "places lines"}.get(verb, "restore lines")
            printed = self.bench.run(f"layer1 {command}").stdout.decode().splitlines()
            self.assertEqual([line.partition(":")[0] for line in printed], wanted)

    def test_owners(self) -> None:
        """bit, whose and where against the second program's sheet: the owner of drawn cells, the bit, and the cell of that owner."""
        draw = random.Random(SEED)
        for mode in OLDER:
            lines = self.questions(draw, mode)
            given = "".join(line + "\n" for line in lines).encode() + b"\n" + self.file(f"in{mode}")
            answers = [line for line in self.second("sheet", mode, COUNT, given=given).decode().splitlines() if " PM " in line or " PX" in line]
            self.assertEqual(len(answers), len(lines))
            for answer in answers:
                self.check_answer(mode, answer.split())

    def test_work(self) -> None:
        """work of drawn bits prints what the second program has under its answers; in words it has the same numbers."""
        draw = random.Random(SEED)
        for mode in OLDER:
            channels = {"P1": (1, 365440), "PIDS": (16, 200), **({} if mode == 1 else {"P3": (8, 4608 if mode == 2 else 9216)})}
            for channel, (frames, bits) in channels.items():
                frame, tframe, bit = draw.randrange(COUNT), draw.randrange(frames), draw.randrange(bits)
                given = f"{frame} {channel} {tframe} {bit}\n\n".encode() + self.file(f"in{mode}")
                wanted = self.second("sheet", mode, COUNT, "work", given=given).decode().splitlines()[1:-1]
                asked = f"work {channel} {'' if channel == 'P1' else tframe} {bit} --frame {frame} --frames in{mode} --mode {mode}"
                self.assertEqual(self.front(f"{asked} --lines").decode().splitlines(), wanted)
                words = re.findall(r"\d+", wanted[1])
                numbers = re.findall(r"\d+", " ".join(self.front(asked).decode().splitlines()[1:]))
                self.assertEqual(Counter(words) - Counter(numbers), Counter(), f"seed {SEED}: {wanted}")

    def test_all_bits(self) -> None:
        """where of a whole transfer frame prints what the second program's owners does, and pids piped into restore gives the frame that was sent."""
        tframe = SEED % 16
        questions = "".join(f"1 PIDS {tframe} {bit}\n" for bit in range(200)).encode()
        for mode in OLDER:
            wanted = self.second("owners", mode, given=questions)
            self.assertEqual(self.front(f"where PIDS {tframe} all --mode {mode} --frame 1 --lines"), wanted)
            given = self.file(f"in{mode}")[len(self.file(f"in{mode}")) // COUNT :]
            sent = given[1 + 18272 + 10 * tframe :][:10].hex().upper() + "\n"
            self.assertEqual(self.front(f"pids out{mode} 1 {tframe} | layer1 restore"), sent.encode())

    def questions(self, draw: random.Random, mode: int) -> List[str]:
        """Cells of PM, and of PX where the mode has them."""
        lines = [f"{n % COUNT} PM {draw.randrange(512)} {draw.randrange(720)}" for n in range(2)]
        if mode != 1:
            lines += [f"{n % COUNT} PX1 {draw.randrange(8)} {draw.randrange(64)} {draw.randrange(72)}" for n in range(3)]
        return lines

    def check_answer(self, mode: int, words: List[str]) -> None:
        """An answer of the sheet as the front command gives it."""
        size = 4 if words[1] == "PM" else 5
        frame, cell, owner = words[0], " ".join(words[1:size]), words[size:]
        fill = owner == ["FILL"]
        line = self.front(f"whose {cell} --mode {mode} --frame {frame} --lines").decode().split()
        self.assertEqual(line, words if fill else words[:-1])
        said = self.front(f"bit out{mode} {frame} {cell}").decode()
        self.assertEqual(said[0], "0" if fill else words[-1])
        if fill:
            self.assertIn("zero fill", said)
            return
        bit = " ".join(owner[:-1] if size == 4 else [owner[0], *owner[2:-1]])
        handed = frame if size == 4 else owner[1]
        where = self.front(f"where {bit} --mode {mode} --frame {handed} --lines").decode().split()
        self.assertEqual([where[5], where[4], *where[6:]], [frame, *cell.split()])

    def test_compare(self) -> None:
        """The first cell in which the second program says that two outputs differ is the first that compare shows."""
        for mode in OLDER:
            out = bytearray(self.file(f"out{mode}"))
            at = 8 + SEED * 7919 % 46080
            out[at] ^= 1 << SEED % 8
            (self.bench.folder / "changed").write_bytes(bytes(out))
            (self.bench.folder / "a").write_bytes(self.file(f"out{mode}")[8:])
            (self.bench.folder / "b").write_bytes(bytes(out[8:]))
            names = [str(self.bench.folder / name) for name in ("a", "b")]
            done = subprocess.run([self.program, "compare", str(mode), str(COUNT), *names], stdout=subprocess.PIPE, stderr=subprocess.STDOUT)
            words = done.stdout.decode().split()
            row, column = words[words.index("row") + 1], words[words.index("column") + 1]
            said = self.front(f"compare out{mode} changed", 1).decode()
            self.assertTrue(said.startswith(f"L1 frame 0, PM row {row}, column {column}: "), (said, words))


if __name__ == "__main__":
    unittest.main()
