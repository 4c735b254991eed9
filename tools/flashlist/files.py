"""What a named file holds; '-' is standard input."""
from . import streams
from .ends import WrongCall, why
from .streams import shown

# Longer than any text that a program takes: what lies beyond changes no answer, and an endless input gets one.
MOST = 1 << 16


def called(name):
    """A file's name for a sentence."""
    return "standard input" if name == "-" else shown(name)


def contents(name):
    if name == "-":
        return streams.read(MOST)
    try:
        with open(name, "rb", buffering=0) as file:
            found = b""
            while len(found) < MOST:
                more = file.read(MOST - len(found))
                if not more:
                    break
                found += more
            return found
    except OSError as error:
        raise WrongCall(f"{shown(name)}: {why(error)}") from error
