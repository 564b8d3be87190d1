"""Every verb on good, empty, cut, overlong, CR LF and junk input, closed output, a full disk and unknown words: statuses and messages are as stored.
`STORE=NAME python3 -m unittest front.tests.test_stored` stores stored/NAME.txt anew; read the difference before it is kept."""

import os
import unittest
from concurrent.futures import ThreadPoolExecutor
from pathlib import Path
from typing import List, Tuple

from .bench import Bench
from .transcripts import Case, agrees, cases, shown

STORED = Path(__file__).resolve().parent / "stored"
BESIDE = 4
"""Commands that run at a time; each works on files of its own."""


class Stored(unittest.TestCase):
    """The transcripts in the folder stored."""

    bench: Bench

    @classmethod
    def setUpClass(cls) -> None:
        cls.bench = Bench()

    @classmethod
    def tearDownClass(cls) -> None:
        cls.bench.close()

    def given(self, path: Path) -> List[Tuple[Case, List[str]]]:
        """The cases of a transcript, and what each gives."""
        found = list(cases(path.read_text(encoding="utf-8")))
        with ThreadPoolExecutor(BESIDE) as pool:
            return list(zip(found, pool.map(lambda case: shown(self.bench, case.command), found)))

    def test_stored(self) -> None:
        """Each command gives what is stored of it."""
        for path in sorted(STORED.glob("*.txt")):
            if path.stem == os.environ.get("STORE"):
                path.write_text("".join("\n".join([f"$ {case.command}", *lines]) + "\n" for case, lines in self.given(path)), encoding="utf-8")
                continue
            for case, lines in self.given(path):
                with self.subTest(file=path.name, command=case.command):
                    self.assertTrue(agrees(case.stored, lines), f"line {case.line} of {path.name}: {case.command}\n" + "\n".join(lines[:40]))

    def test_nothing_left(self) -> None:
        """A failed write leaves neither a file nor a part of one."""
        bench = Bench()
        self.addCleanup(bench.close)
        before = sorted(os.listdir(bench.folder))
        bench.run("layer1 send 11 3 frames -o kept && layer1 send 11 3 frames -o kept; layer1 send 11 2 frames -o new; rm -f kept")
        bench.run("LAYER1_PROGRAMS=failing layer1 send 11 3 frames -o new; ulimit -f 100; layer1 send 11 3 frames -o new")
        self.assertEqual(before, sorted(os.listdir(bench.folder)))


if __name__ == "__main__":
    unittest.main()
