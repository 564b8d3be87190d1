"""Running the proved programs. What one prints counts only if it ended well and said nothing on standard error; but for the verdict of judge, which that explains."""

import contextlib
import os
import re
import subprocess
import sys
import tempfile
from pathlib import Path
from typing import IO, Dict, Iterator, Optional, Sequence, Union

from . import answers, causes
from .files import behind, reason, size_of
from .outcomes import Ended, Failed, Refused
from .paths import BUILT, ROOT, SECOND
from .progress import Progress

FOLDER_VARIABLE = "LAYER1_PROGRAMS"
"""A folder whose programs are taken before those of target/bin."""

REFUSAL = re.compile(r"refused: number (\d+) place (\d+) frame (\d+)")
FRAMELESS = ("vector", "nearest")
"""Programs whose refusals are of no L1 frame of a run."""

EXPLAINED = ("judge",)
"""Programs that print what they refuse, and say the cause in words."""

NO_VARIABLES: Dict[str, str] = {}
"""What a program gets of our environment."""

GOES_ON = re.compile(r"refused: input goes on at frame (\d+)")


def program(name: str) -> Path:
    """The path of a program, which is proved and built first where it is not there yet."""
    folder = os.environ.get(FOLDER_VARIABLE)
    for place in ([Path(folder)] if folder else []) + [BUILT]:
        if os.access(place / name, os.X_OK):
            return place / name
    build(name)
    return BUILT / name


def second() -> Optional[Path]:
    """The second program, where it is built."""
    folder = os.environ.get(FOLDER_VARIABLE)
    places = ([Path(folder) / "second"] if folder else []) + [SECOND]
    return next((place for place in places if os.access(place, os.X_OK)), None)


def source_of(name: str) -> Path:
    """The source file that a program has in a clone."""
    return ROOT / "crates" / name / "src" / "main.rt"


def build(name: str) -> None:
    """Proves and builds a program by the project's own progress, which goes to standard error."""
    if not source_of(name).exists():
        raise Failed(f"this revision has no program {name}")
    sys.stderr.write(f"layer1: the program {name} is not built yet; proving and building it, which is done once\n")
    sys.stderr.flush()
    done = subprocess.run([str(ROOT / ".ci" / "programs"), name], stdin=subprocess.DEVNULL, stdout=subprocess.DEVNULL)
    if done.returncode != 0 or not os.access(BUILT / name, os.X_OK):
        raise Failed(f"the program {name} cannot be built; target/{name}.log says why")


@contextlib.contextmanager
def running(
    name: str, words: Sequence[str], source: Optional[IO[bytes]] = None, expected: Optional[int] = None
) -> Iterator[IO[bytes]]:
    """What a program prints of an input, as a file. Of `expected` bytes exactly, where that is known."""
    path = program(name)
    with tempfile.TemporaryFile() as out, tempfile.TemporaryFile() as said:
        command = [str(path), *words]
        stdin: Union[int, IO[bytes]] = subprocess.DEVNULL if source is None else at_hand(source)
        try:
            process = subprocess.Popen(command, stdin=stdin, stdout=out, stderr=said, env=NO_VARIABLES)
        except OSError as error:
            raise Failed(f"{path} cannot be run: {reason(error)}") from None
        try:
            status = waited(process, name, out, expected)
        except BaseException:
            process.kill()
            process.wait()
            raise
        judged(name, status, said)
        length = size_of(out)
        if expected is not None and length != expected:
            raise Failed(f"the output of {name} is not whole: {length} of {expected} bytes")
        out.seek(0)
        yield out


def at_hand(source: IO[bytes]) -> IO[bytes]:
    """A file whose next byte for a program is the next one for us, whatever was read ahead."""
    os.lseek(source.fileno(), source.tell(), os.SEEK_SET)
    return source


def waited(process: "subprocess.Popen[bytes]", name: str, out: IO[bytes], expected: Optional[int]) -> int:
    """Waits for a program, and says meanwhile how far it has come."""
    progress = Progress(name)
    try:
        while True:
            try:
                return process.wait(timeout=0.25)
            except subprocess.TimeoutExpired:
                progress.tell(size_of(out), expected)
    finally:
        progress.end()


def judged(name: str, status: int, said: IO[bytes]) -> None:
    """A program that did not end by itself, or said anything, has not done its work."""
    said.seek(0)
    text = said.read(4096).decode("utf-8", "replace").strip()
    if text and name not in EXPLAINED:
        raise told(name, text)
    if status != 0:
        raise Failed(f"the program {name} ended with status {status}")


def told(name: str, text: str) -> Ended:
    """What a program said, in words."""
    first = text.splitlines()[0]
    refusal = REFUSAL.fullmatch(first)
    if refusal:
        number, place, frame = map(int, refusal.groups())
        return causes.refusal(number, place, None if name in FRAMELESS else frame, name)
    goes_on = GOES_ON.fullmatch(first)
    if goes_on:
        return Refused(f"refused: the input goes on after L1 frame {int(goes_on[1]) - 1}, the last")
    if first.startswith("NO SHEET"):
        return answers.no_sheet(first)
    if first.startswith("refused:"):
        return Refused(first)
    return Failed(f"the program {name} said: {first}")


def lines_of(name: str, words: Sequence[str], text: str) -> "list[str]":
    """The whole lines that a program prints of a text."""
    with behind(text.encode("latin-1")) as source, running(name, words, source) as out:
        printed = out.read().decode("latin-1")
    if printed and not printed.endswith("\n"):
        raise Failed(f"the output of {name} is not whole: its last line has no end")
    return printed.splitlines()

