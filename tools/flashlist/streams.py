"""Standard input, output and error, by their numbers: nothing is left in a buffer that could fail after the end."""
import os
import sys

from .ends import Enough, Failure, why

INPUT, OUTPUT, ERROR = range(3)


def guard():
    """Puts the null device where a stream is closed, so that no file opened later takes its number."""
    for number, stream in enumerate((sys.stdin, sys.stdout, sys.stderr)):
        if stream is None:
            null = os.open(os.devnull, os.O_RDWR)
            if null != number:
                os.dup2(null, number)
                os.close(null)


def charset(stream):
    return getattr(stream, "encoding", None) or "ascii"


def shown(name):
    """A name in one line of text that no terminal obeys: what cannot be printed is spelt out."""
    spelt = "".join(
        letter if letter.isprintable() else "".join(f"\\x{byte:02x}" for byte in letter.encode("utf-8", "surrogateescape"))
        for letter in name)
    return spelt or "''"


def put(number, data):
    while data:
        data = data[os.write(number, data):]


def write(text):
    """Writes to standard output at once."""
    if sys.stdout is None:
        raise Failure("standard output is closed")
    try:
        put(OUTPUT, text.encode(charset(sys.stdout), "backslashreplace"))
    except BrokenPipeError as error:
        raise Enough from error
    except OSError as error:
        raise Failure(f"standard output cannot be written: {why(error)}") from error


def tell(text):
    """Writes to standard error; where that cannot be done there is nobody to tell."""
    try:
        put(ERROR, text.encode(charset(sys.stderr), "backslashreplace"))
    except OSError:
        pass


def say(text):
    tell(f"flashlist: {text}\n")


def on_terminal(stream):
    return stream is not None and stream.isatty()


def read(most):
    """At most so many bytes of standard input."""
    if sys.stdin is None:
        raise Failure("standard input is closed")
    if os.environ.get("FLASHLIST_INPUT") == "directory":
        raise Failure("standard input is a directory")
    if on_terminal(sys.stdin):
        say("reading from the terminal, up to Control-D")
    found = b""
    try:
        while len(found) < most:
            more = os.read(INPUT, most - len(found))
            if not more:
                break
            found += more
    except OSError as error:
        raise Failure(f"standard input cannot be read: {why(error)}") from error
    return found
