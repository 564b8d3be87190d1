"""PDF files of papers, by a browser or weasyprint, where one is installed."""

import os
import shutil
import subprocess
import tempfile
from pathlib import Path
from typing import List

from .outcomes import Failed, Refused

BROWSERS = ("chromium", "chromium-browser", "google-chrome", "chrome")
LONGEST = 120
"""Seconds for a paper."""


def command(page: Path, out: Path, profile: str) -> List[str]:
    """The words that print a page."""
    for name in BROWSERS:
        found = shutil.which(name)
        if found:
            words = [found, "--headless", "--disable-gpu", "--no-pdf-header-footer", f"--user-data-dir={profile}", f"--print-to-pdf={out}"]
            return [*words, *(["--no-sandbox"] if os.geteuid() == 0 else []), page.resolve().as_uri()]
    found = shutil.which("weasyprint")
    if found:
        return [found, str(page), str(out)]
    raise Refused("refused: --pdf needs chromium, google-chrome or weasyprint, and none of them is installed")


def printed(page: Path) -> bytes:
    """A page as a PDF."""
    with tempfile.TemporaryDirectory() as folder:
        out = Path(folder) / "page.pdf"
        words = command(page, out, folder)
        try:
            subprocess.run(words, stdin=subprocess.DEVNULL, stdout=subprocess.DEVNULL, stderr=subprocess.DEVNULL, timeout=LONGEST)
        except (OSError, subprocess.TimeoutExpired) as error:
            raise Failed(f"{words[0]} does not print {page}: {error}") from None
        data = out.read_bytes() if out.exists() else b""
    if not data.startswith(b"%PDF") or b"%%EOF" not in data[-32:]:
        raise Failed(f"{words[0]} does not print {page}: the PDF is not whole")
    return data
