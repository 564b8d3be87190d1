"""Input that is there whole before it is used, and output that is written whole or not at all."""

import contextlib
import os
import shutil
import stat
import sys
import tempfile
from pathlib import Path
from typing import IO, Dict, Iterator, Optional

from .outcomes import Failed, Misused, Refused

STANDARD = "-"
"""The name that stands for standard input or output."""

BLOCK = 1 << 20


def reason(error: OSError) -> str:
    """Why the system refuses something, without its number."""
    return error.strerror or str(error)


@contextlib.contextmanager
def opened(name: str) -> Iterator[IO[bytes]]:
    """A file, or standard input, to be read from its start; a pipe is copied first, so that its length is known."""
    try:
        source = standard_input() if name == STANDARD else open(name, "rb")
    except IsADirectoryError:
        raise Misused(f"{name} is a folder") from None
    except OSError as error:
        raise Misused(f"{shown(name)}: {reason(error)}") from None
    with source:
        if stat.S_ISREG(os.fstat(source.fileno()).st_mode) and source.tell() == 0:
            yield source
            return
        with tempfile.TemporaryFile() as copy:
            copied(source, copy)
            yield copy


def standard_input() -> IO[bytes]:
    """Standard input as a file of its own, so that closing it closes nothing else."""
    return open(os.dup(0), "rb")


def copied(source: IO[bytes], copy: IO[bytes]) -> None:
    """Copies what is left of a source, and goes back to the copy's start."""
    try:
        shutil.copyfileobj(source, copy, BLOCK)
        copy.flush()
        copy.seek(0)
    except OSError as error:
        raise Failed(f"the input cannot be copied: {reason(error)}") from None


@contextlib.contextmanager
def behind(head: bytes, rest: Optional[IO[bytes]] = None) -> Iterator[IO[bytes]]:
    """Bytes, and a file behind them, as one file."""
    with tempfile.TemporaryFile() as joined:
        joined.write(head)
        if rest is not None:
            rest.seek(0)
            shutil.copyfileobj(rest, joined, BLOCK)
        joined.flush()
        joined.seek(0)
        yield joined


def size_of(file: IO[bytes]) -> int:
    """How many bytes a file has."""
    return os.fstat(file.fileno()).st_size


def text_of(name: str, greatest: int = 1 << 30) -> str:
    """A text as its lines, each ending in a line feed; CR LF, as Windows has it, counts as one. Any byte is a character."""
    with opened(name) as file:
        if size_of(file) > greatest:
            raise Refused(f"{shown(name)} has more than {greatest} bytes")
        text = file.read().decode("latin-1")
    text = text.replace("\r\n", "\n")
    return text if text.endswith("\n") or not text else text + "\n"


def shown(name: str) -> str:
    """The name of an input in a message."""
    return "standard input" if name == STANDARD else name


def say(text: str) -> None:
    """Text on standard output; what the system does not take is reported at the end by `flush`."""
    put(text.encode("utf-8", "replace"))


def put(data: bytes) -> None:
    """Bytes on standard output."""
    try:
        output().write(data)
    except OSError as error:
        raise Failed(f"standard output: {reason(error)}") from None


def output() -> IO[bytes]:
    """Standard output as bytes."""
    if sys.stdout is None:
        raise Failed("standard output is closed")
    return sys.stdout.buffer


def flush() -> None:
    """Hands on what was put on standard output."""
    if sys.stdout is None:
        return
    try:
        sys.stdout.buffer.flush()
    except OSError as error:
        raise Failed(f"standard output: {reason(error)}") from None


def give_up_output() -> None:
    """After a failed write: nothing more is tried when Python ends."""
    with contextlib.suppress(OSError, ValueError, AttributeError):
        os.dup2(os.open(os.devnull, os.O_WRONLY), sys.stdout.fileno())


def refuse_existing(name: Optional[str], force: bool) -> None:
    """A name that exists is not overwritten unless told; said before any work is done."""
    if name is None or name == STANDARD:
        return
    if os.path.isdir(name):
        raise Misused(f"{name} is a folder")
    if not force and (os.path.isfile(name) or os.path.islink(name)):
        raise Misused(f"{name} exists; --force writes over it")


def write(name: Optional[str], source: IO[bytes], force: bool = False) -> None:
    """Writes a whole file under a name, or on standard output where there is none."""
    source.seek(0)
    if name is None or name == STANDARD:
        while True:
            block = source.read(BLOCK)
            if not block:
                return
            put(block)
    refuse_existing(name, force)
    with replacing(Path(name), force) as target:
        shutil.copyfileobj(source, target, BLOCK)


def write_text(name: str, text: str, force: bool = False) -> None:
    """Writes a whole text under a name, or on standard output."""
    if name == STANDARD:
        say(text)
        return
    refuse_existing(name, force)
    with replacing(Path(name), force) as target:
        target.write(text.encode("utf-8"))


@contextlib.contextmanager
def replacing(path: Path, force: bool) -> Iterator[IO[bytes]]:
    """A temporary file beside the target that takes its name at the end, when all of it is on the disk."""
    if path.exists() and not path.is_file():
        with in_place(path) as file:
            yield file
        return
    temporary = None
    try:
        handle, temporary = tempfile.mkstemp(prefix=path.name + ".", dir=path.parent)
        with os.fdopen(handle, "wb") as file:
            yield file
            file.flush()
            os.fchmod(file.fileno(), 0o666 & ~umask())
            os.fsync(file.fileno())
        refuse_existing(str(path), force)
        os.replace(temporary, path)
        temporary = None
        synced(path.parent)
    except OSError as error:
        raise Failed(f"{path} is not written: {reason(error)}") from None
    finally:
        if temporary is not None:
            with contextlib.suppress(OSError):
                os.unlink(temporary)


@contextlib.contextmanager
def in_place(path: Path) -> Iterator[IO[bytes]]:
    """A device or a pipe cannot be replaced: it is written as it is."""
    try:
        with open(path, "wb") as file:
            yield file
    except OSError as error:
        raise Failed(f"{path} is not written: {reason(error)}") from None


def umask() -> int:
    """The mask of a new file's rights, which can only be read by setting it."""
    mask = os.umask(0)
    os.umask(mask)
    return mask


def synced(folder: Path) -> None:
    """The new name is on the disk too."""
    handle = os.open(folder, os.O_RDONLY)
    try:
        os.fsync(handle)
    finally:
        os.close(handle)


def write_all(folder: Path, content: Dict[str, bytes], named: Optional[Path] = None) -> None:
    """Writes files into a folder under their names: all of them are on the disk before the first gets its name, and none stays where one cannot be written.
    The folder may be named by what it becomes."""
    temporary: Dict[str, Path] = {}
    new = []
    try:
        for name, data in content.items():
            path = folder / name
            path.parent.mkdir(parents=True, exist_ok=True)
            handle, copy = tempfile.mkstemp(prefix=path.name + ".", dir=path.parent)
            temporary[name] = Path(copy)
            with os.fdopen(handle, "wb") as file:
                file.write(data)
                file.flush()
                os.fchmod(file.fileno(), 0o666 & ~umask())
                os.fsync(file.fileno())
        for name in content:
            if not os.path.lexists(folder / name):
                new.append(folder / name)
            os.replace(temporary[name], folder / name)
            del temporary[name]
        new.clear()
        for parent in {(folder / name).parent for name in content}:
            synced(parent)
    except OSError as error:
        raise Failed(f"{named or folder} is not written: {reason(error)}") from None
    finally:
        for path in [*temporary.values(), *new]:
            with contextlib.suppress(OSError):
                path.unlink()
