"""How a call ends: the exit statuses, and what is raised to get there."""

DONE, REFUSED, WRONG, FAILED, UNSOUND, INTERRUPTED = 0, 1, 2, 3, 4, 130

TEXT = """Exit status: 0 a cover, 1 a refusal (also explained on standard error), 2 a wrong call or a file that cannot be
read, 3 the program or the system failed (one sentence says how), 130 interrupted. Of several files the highest
counts. A reader that closes the pipe has enough: 0.
"""


class End(Exception):
    """Ends a call with a status; what it says, if anything, is one sentence."""
    status = DONE


class WrongCall(End):
    """What was asked for cannot be done as it was asked, or a named file cannot be read."""
    status = WRONG


class Failure(End):
    """The program or the system failed."""
    status = FAILED


class Enough(End):
    """Whoever read the list has closed the pipe."""


def why(error):
    """The system's own words for what went wrong, to stand after a colon."""
    words = error.strerror or str(error)
    return words[:1].lower() + words[1:]
