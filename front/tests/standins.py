"""Stand-ins for programs that fail, for the tests alone."""

import os
import sys
from pathlib import Path
from typing import List


def failing(words: List[str]) -> None:
    """A program that ends in the middle of its first line."""
    sys.stdout.write("0 PM 1")


def complaining(words: List[str]) -> None:
    """A program whose output cannot be written."""
    sys.stderr.write("not written: standard output takes no more\n")


def put(folder: Path, name: str, function: str) -> None:
    """Puts a stand-in of this module into a folder as a program."""
    path = folder / name
    here = str(Path(__file__).resolve().parent)
    text = f"#!{sys.executable}\nimport sys\nsys.path.insert(0, {here!r})\nsys.dont_write_bytecode = True\nimport standins\nstandins.{function}(sys.argv[1:])\n"
    path.write_text(text)
    os.chmod(path, 0o755)
