"""Which revision of the project this is: by its history in a clone, by a file where `make install` has put it."""

import contextlib
import subprocess

from .paths import ROOT

FILE = ROOT / "revision"
"""Written by front/install; a clone has none."""


def asked(*words: str) -> str:
    """What git says of the clone, or nothing."""
    done = subprocess.run(["git", "-C", str(ROOT), *words], stdin=subprocess.DEVNULL, stdout=subprocess.PIPE, stderr=subprocess.DEVNULL, check=True)
    return done.stdout.decode().strip()


def revision() -> str:
    """The revision in words."""
    if FILE.is_file():
        return FILE.read_text(encoding="utf-8").strip()
    with contextlib.suppress(OSError, subprocess.CalledProcessError):
        if asked("rev-parse", "--show-toplevel") == str(ROOT):
            changed = asked("status", "--porcelain", "--untracked-files=no")
            return asked("rev-parse", "--short=12", "HEAD") + (" with changes" if changed else "")
    return "not known"
