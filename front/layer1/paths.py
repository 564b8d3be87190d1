"""Where the files of a clone, or of an installation, stand."""

from pathlib import Path

ROOT = Path(__file__).resolve().parents[2]
"""The folder that has causes.tsv, front/ and target/bin."""

BUILT = ROOT / "target" / "bin"
"""The proved programs."""

SECOND = ROOT / "target" / "second" / "release" / "second"
"""The second program, where it is built."""
