"""A folder with what the tests hand to the command: frames, dumps and damaged ones, all made from the sample, so that stored answers stay as they are."""

import os
import shutil
import subprocess
import tempfile
from pathlib import Path
from typing import Dict

from . import standins

ROOT = Path(__file__).resolve().parents[2]
BUILT = ROOT / "target" / "bin"
SAMPLE = ROOT / "sheets" / "sample"
MATRICES = (46080, 9216, 9216, 4096)
FRAME = sum(MATRICES)
HEADER = 8


def crossed(matrix: bytes, p: int, q: int) -> bytes:
    """PM with two partitions exchanged."""
    out = b""
    for row in range(512):
        bits = format(int.from_bytes(matrix[90 * row : 90 * row + 90], "big"), "0720b")
        parts = [bits[36 * n : 36 * n + 36] for n in range(20)]
        parts[p], parts[q] = parts[q], parts[p]
        out += int("".join(parts), 2).to_bytes(90, "big")
    return out


def with_pm(dump: bytes, change: "object") -> bytes:
    """A dump whose PM is changed in every L1 frame."""
    out = bytearray(dump)
    for start in range(HEADER, len(dump), FRAME):
        out[start : start + MATRICES[0]] = change(dump[start : start + MATRICES[0]])  # type: ignore[operator]
    return bytes(out)


def damaged(dump: bytes) -> bytes:
    """A dump with two cells of PM, one of PX1 and one bit of the control turned over."""
    out = bytearray(dump)
    out[HEADER + 100] ^= 3
    out[HEADER + FRAME + MATRICES[0] + 7] ^= 0x10
    out[HEADER + 3 * FRAME - MATRICES[3] + 8 * 5 + 1] ^= 0x40
    return bytes(out)


def made(name: str, *words: str, given: bytes = b"") -> bytes:
    """What a program writes."""
    return subprocess.run([BUILT / name, *words], input=given, stdout=subprocess.PIPE, stderr=subprocess.PIPE, check=True).stdout


class Bench:
    """The folder, and what a command is run with in it."""

    def __init__(self) -> None:
        self.temporary = tempfile.TemporaryDirectory()
        self.folder = Path(self.temporary.name) / "bench"
        self.programs = Path(self.temporary.name) / "programs"
        self.folder.mkdir()
        self.programs.mkdir()
        self.place_programs()
        self.place_files()
        self.environment = {**os.environ, "PATH": f"{ROOT}:{os.environ.get('PATH', '')}", "LAYER1_PROGRAMS": str(self.programs), "COLUMNS": "100"}

    def place_programs(self) -> None:
        """The second program, where it can be built; stand-ins for programs that fail."""
        if shutil.which("cargo"):
            subprocess.run([ROOT / ".ci" / "second"], stdout=subprocess.DEVNULL, check=True)
        for name in ("failing", "complaining"):
            (self.folder / name).mkdir()
            for program in ("owners", "sheet", "sender", "reader", "judge", "keys", "vector", "nearest", "restore", "allocate"):
                standins.put(self.folder / name, program, name)

    def place_files(self) -> None:
        """Frames, questions and dumps by name."""
        frames = (SAMPLE / "frames").read_bytes()
        dump = made("sender", "11", "3", "dump", given=frames)
        files: Dict[str, bytes] = {
            "frames": frames,
            "questions": (SAMPLE / "cells").read_bytes(),
            "dump": dump,
            "raw": dump[HEADER:],
            "crossed": with_pm(dump, lambda pm: crossed(pm, 10, 2)),
            "turned": with_pm(dump, lambda pm: crossed(crossed(pm, 0, 1), 1, 2)),
            "moved": with_pm(dump, lambda pm: pm[90:] + pm[:90]),
            "late": dump[:7] + b"\x02" + dump[HEADER + FRAME :],
            "damaged": damaged(dump),
            "other-control": dump[: HEADER + FRAME - 4096] + (ROOT / "tests" / "control" / "MP3").read_bytes()[:4096] + dump[HEADER + FRAME :],
            "cut": dump[:-1],
            "long": dump + b"\x00",
            "junk": bytes(range(1, 256)) * 40,
            "empty": b"",
            "frames5": (ROOT / "tests" / "sender" / "MP5.stdin").read_bytes(),
        }
        count = len(files["frames5"]) // 23041
        files["dump5"] = made("sender", "5", str(count), "dump", given=files["frames5"])
        files["damaged5"] = files["dump5"][:20] + bytes([files["dump5"][20] ^ 128]) + files["dump5"][21:]
        for name, content in files.items():
            (self.folder / name).write_bytes(content)

    def run(self, command: str) -> "subprocess.CompletedProcess[bytes]":
        """Runs a command line of bash in the folder; what it says and prints comes in one stream, so that their order is kept."""
        words = ["bash", "-c", command]
        return subprocess.run(words, cwd=self.folder, env=self.environment, stdin=subprocess.DEVNULL, stdout=subprocess.PIPE, stderr=subprocess.STDOUT)

    def close(self) -> None:
        """Takes the folder away."""
        self.temporary.cleanup()
