"""How a verb ends: the four exit statuses, and the exceptions that stand for the last three."""

DONE = 0
REFUSED = 1
MISUSED = 2
FAILED = 3


class Ended(Exception):
    """A verb that ends before it is done: a status, and what is said on standard error."""

    status = FAILED


class Refused(Ended):
    """The input is not what it should be; nothing was written."""

    status = REFUSED


class Misused(Ended):
    """The words of the command line are not what they should be."""

    status = MISUSED


class Failed(Ended):
    """The system, or a program, did not do what it should: a full disk, a closed pipe, output that is not whole."""

    status = FAILED
