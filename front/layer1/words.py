"""The command line's own parser, and what a module arranges its verbs in."""

import argparse
import re
import sys
from typing import TYPE_CHECKING, NoReturn

from .outcomes import MISUSED


class Parser(argparse.ArgumentParser):
    """Says in one line what is wrong, with status 2, as every other wrong use."""

    def error(self, message: str) -> NoReturn:
        """The choices are left out, for Python's versions write them in different ways."""
        plain = re.sub(r" \(choose from .*", "", message)
        sys.stderr.write(f"{self.prog}: {plain}; --help says what it takes\n")
        sys.exit(MISUSED)


if TYPE_CHECKING:
    Verbs = argparse._SubParsersAction[Parser]
else:
    Verbs = object
