"""Tests of the front command: `python3 -m unittest` in the clone, on built programs."""

import sys
from pathlib import Path

sys.path.insert(0, str(Path(__file__).resolve().parents[1]))
