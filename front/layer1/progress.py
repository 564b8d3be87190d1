"""Says on a terminal how far something has come, once it has taken a second."""

import sys
import time
from typing import Optional


class Progress:
    """One line on standard error that is written over, and taken away at the end; nothing where standard error is no terminal."""

    def __init__(self, label: str) -> None:
        self.label = label
        self.begun = time.monotonic()
        self.said = self.begun
        self.width = 0
        self.shown = sys.stderr is not None and sys.stderr.isatty()

    def tell(self, done: int = 0, total: Optional[int] = None) -> None:
        """Says how much is done, at most twice a second."""
        now = time.monotonic()
        if not self.shown or now - self.begun < 1 or now - self.said < 0.5:
            return
        self.said = now
        share = f"{100 * done // total} %, " if total else ""
        line = f"layer1: {self.label}, {share}{int(now - self.begun)} s"
        sys.stderr.write("\r" + line.ljust(self.width))
        sys.stderr.flush()
        self.width = len(line)

    def end(self) -> None:
        """Takes the line away."""
        if self.width:
            sys.stderr.write("\r" + " " * self.width + "\r")
            sys.stderr.flush()
