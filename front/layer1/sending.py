"""The verbs send, read, judge and keys: whole runs of L1 frames, by the programs sender, reader, judge and keys."""

import argparse
import contextlib
import re
import tempfile
from typing import IO, List, Tuple

from . import causes, dumps, programs
from .files import STANDARD, opened, refuse_existing, say, shown, size_of, write
from .modes import Mode, mode_of, number_of
from .outcomes import DONE, Failed, Misused, Refused
from .words import Verbs

GREATEST_COUNT = 10**9
VERDICT = re.compile(r"refused: number (\d+) place (\d+) frame (\d+)\n")


def arrange(verbs: Verbs) -> None:
    """The words of the verbs."""
    send = verbs.add_parser(
        "send",
        help="the matrices and control of L1 frames",
        description="Sends L1 frames, each its reserved number, a byte from 0 to 7, and its transfer frames P1, PIDS, P2, P3, P4, and writes a dump.",
    )
    run_words(send)
    send.add_argument("file", metavar="FRAMES", nargs="?", default=STANDARD, help="the numbers and frames (default: standard input)")
    send.add_argument("--without", nargs="+", choices=("P3", "P4"), default=[], help="channels of which there are no bytes; zeros are sent for them")
    send.add_argument("--raw", action="store_true", help="matrices and control alone, without a dump's header")
    output_words(send)
    send.set_defaults(run=run_send)
    read = verbs.add_parser("read", help="the transfer frames of a dump", description="Reads a dump and writes the numbers and transfer frames that come back.")
    read.add_argument("file", metavar="DUMP", nargs="?", default=STANDARD, help="a dump (default: standard input)")
    read.add_argument("--raw", nargs=2, metavar=("MODE", "COUNT"), help="matrices and control of COUNT L1 frames without a dump's header")
    output_words(read)
    read.set_defaults(run=run_read)
    judge = verbs.add_parser("judge", help="the verdict on a dump", description="Says whether a reader accepts a dump to its last L1 frame, or why not.")
    judge.add_argument("file", metavar="DUMP", nargs="?", default=STANDARD, help="a dump (default: standard input)")
    judge.set_defaults(run=run_judge)
    keys = verbs.add_parser(
        "keys",
        help="a new run from an odd number of old ones",
        description="Writes the numbers and frames of the run of the sums, modulo 2 and bit by bit, of an odd number of runs.",
    )
    run_words(keys)
    keys.add_argument("files", metavar="FRAMES", nargs="+", help="the numbers and frames of each run, as send reads them")
    output_words(keys)
    keys.set_defaults(run=run_keys)


def run_words(verb: argparse.ArgumentParser) -> None:
    """The run that a verb makes."""
    verb.add_argument("mode", metavar="MODE", help="service mode")
    verb.add_argument("count", metavar="COUNT", help="how many L1 frames")


def output_words(verb: argparse.ArgumentParser) -> None:
    """Where a verb writes to."""
    verb.add_argument("-o", "--output", metavar="FILE", help="writes to this file, whole or not at all (default: standard output)")
    verb.add_argument("--force", action="store_true", help="writes over a file that exists")


def run_of(given: argparse.Namespace, greatest: int = GREATEST_COUNT) -> Tuple[Mode, int]:
    """Mode and count as typed; a name that exists is refused before anything is computed."""
    refuse_existing(given.output, given.force)
    return mode_of(given.mode), number_of(given.count, "COUNT", greatest)


def refuse_length(name: str, file: IO[bytes], mode: Mode, count: int, each: int) -> None:
    """Bytes too many are refused here: a program that reads L1 frame by L1 frame may not see them. Too few it refuses with their place."""
    size = size_of(file)
    if size > count * each:
        wanted = f"{count} L1 frame{'s' * (count != 1)} of {mode.name} {'have' if count != 1 else 'has'} {count * each} bytes"
        raise Refused(f"{shown(name)}: refused: {wanted}, and {size} are there (number 3)")


def run_send(given: argparse.Namespace) -> int:
    """The verb send."""
    mode, count = run_of(given, GREATEST_COUNT if given.raw else dumps.GREATEST_COUNT)
    without = tuple(sorted(set(given.without)))
    for channel in without:
        if not mode.frames[("P3", "P4").index(channel) + 3]:
            raise Misused(f"{mode.name} has no {channel} to be without")
    words = [str(mode.number), str(count), *(("without", *without) if without else ()), *(() if given.raw else ("dump",))]
    length = count * mode.matrix_bytes + (0 if given.raw else dumps.HEADER)
    with opened(given.file) as source:
        refuse_length(given.file, source, mode, count, mode.input_bytes(without))
        with programs.running("sender", words, source, length) as out:
            write(given.output, out, given.force)
    return DONE


def run_read(given: argparse.Namespace) -> int:
    """The verb read."""
    refuse_existing(given.output, given.force)
    raw = (mode_of(given.raw[0]), number_of(given.raw[1], "COUNT", GREATEST_COUNT)) if given.raw else None
    with dumps.dump(given.file, raw) as dump:
        length = sum(dump.mode.returned_bytes(frame) for frame in range(dump.count))
        dump.file.seek(dump.start)
        with programs.running("reader", [str(dump.mode.number), str(dump.count)], dump.file, length) as out:
            write(given.output, out, given.force)
    return DONE


def run_judge(given: argparse.Namespace) -> int:
    """The verb judge."""
    with opened(given.file) as source:
        number, place, frame = judged(source)
        if number in (1, 17, 18):
            raise causes.refusal(number, place, None, "judge")
        mode, count = dumps.headed(source)
    if number == 0:
        say(f"accepted: {count} L1 frame{'s' * (count != 1)} of {mode.name}\n")
        return DONE
    cell = f"; it is {dumps.cell_at(mode, frame, place).words(False)}" if number == 7 else ""
    raise Refused(f"{causes.refusal(number, place, frame, 'judge')}{cell}")


def judged(source: IO[bytes]) -> Tuple[int, int, int]:
    """The verdict of the program judge on a dump: number, place and L1 frame, all 0 where it is accepted."""
    with programs.running("judge", [], source) as out:
        line = out.read(200).decode("latin-1")
    if line == "accepted\n":
        return 0, 0, 0
    found = VERDICT.fullmatch(line)
    if not found:
        raise Failed("the output of judge is not whole")
    number, place, frame = map(int, found.groups())
    return number, place, frame


def run_keys(given: argparse.Namespace) -> int:
    """The verb keys."""
    mode, count = run_of(given)
    number = len(given.files)
    if number % 2 == 0:
        raise Misused(f"{number} runs are an even number; what stands in every run, as the scrambling sequence, would cancel")
    with contextlib.ExitStack() as stack:
        runs = [stack.enter_context(opened(name)) for name in given.files]
        for name, run in zip(given.files, runs):
            refuse_length(name, run, mode, count, mode.input_bytes())
            if size_of(run) < count * mode.input_bytes():
                raise Refused(f"{shown(name)}: refused: it ends in L1 frame {size_of(run) // mode.input_bytes()} (number 3)")
        turns = stack.enter_context(taken_in_turn(runs, count, mode.input_bytes()))
        out = stack.enter_context(programs.running("keys", [str(mode.number), str(count), str(number)], turns, count * mode.input_bytes()))
        write(given.output, out, given.force)
    return DONE


def taken_in_turn(runs: List[IO[bytes]], count: int, size: int) -> IO[bytes]:
    """The L1 frames of runs as the program keys reads them: the first of each, then the second of each."""
    turns = tempfile.TemporaryFile()
    for _ in range(count):
        for run in runs:
            turns.write(run.read(size))
    turns.flush()
    turns.seek(0)
    return turns
