"""The examples of docs/MANUAL.md are run, and give what stands there; every verb has a section, and a section for every cause's table is not forgotten."""

import re
import unittest

from layer1.cli import parser

from .bench import ROOT, Bench
from .transcripts import agrees, cases, shown

MANUAL = ROOT / "docs" / "MANUAL.md"


class Manual(unittest.TestCase):
    """The manual."""

    def test_examples(self) -> None:
        """Each example, in the order of the manual, in one folder."""
        bench = Bench()
        self.addCleanup(bench.close)
        found = list(cases(MANUAL.read_text(encoding="utf-8"), "    "))
        self.assertGreater(len(found), 15)
        for case in found:
            with self.subTest(line=case.line, command=case.command):
                lines = shown(bench, case.command)
                self.assertTrue(agrees(case.stored, lines), f"line {case.line}: {case.command}\n" + "\n".join(lines[:40]))

    def test_verbs(self) -> None:
        """A section for each verb, and none for another."""
        verbs = re.findall(r"^## layer1 (\w+)$", MANUAL.read_text(encoding="utf-8"), re.MULTILINE)
        known = re.findall(r"^    (\w+) ", parser().format_help(), re.MULTILINE)
        self.assertEqual(sorted(verbs), sorted(known))


if __name__ == "__main__":
    unittest.main()
