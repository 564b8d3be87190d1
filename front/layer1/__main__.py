"""Lets `python3 -m layer1` do what the script layer1 does."""

import sys

from .cli import main

sys.exit(main(sys.argv[1:]))
