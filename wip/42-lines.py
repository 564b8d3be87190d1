#!/usr/bin/env python3
"""lines: no line of a crate's src, specs and proofs has over 160 characters."""
import sys
from pathlib import Path

ROOT = Path(__file__).resolve().parent.parent
LONGEST = 160


def wrong(path: Path) -> list[str]:
    """What is wrong with the lines of a file."""
    said = []
    for number, line in enumerate(path.read_text().splitlines(), 1):
        if len(line) > LONGEST:
            said.append(f"{path.relative_to(ROOT)}:{number}: {len(line)} characters")
    return said


def main() -> int:
    said = [text for path in sorted((ROOT / "crates").rglob("*")) if path.suffix in (".rt", ".antt") for text in wrong(path)]
    print("\n".join(f"lines: {text}" for text in said), end="\n" if said else "")
    return 1 if said else 0


if __name__ == "__main__":
    sys.exit(main())
