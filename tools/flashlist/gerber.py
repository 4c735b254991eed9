"""./flashlist gerber: a job's cover as a Gerber file, and such a file read back."""
import os

from . import answers, ends, files, programs, streams, words as call
from .ends import Failure, WrongCall, why
from .printed import Printed, record
from .streams import shown

NAME = "gerber"
SUMMARY = "the cover of a job as a Gerber file, and such a file read back"
PROGRAM = "gerberfile"

HELP = f"""usage: ./flashlist gerber --pitch NM [--origin X Y] [--version N] [-o FILE] [JOB]
       ./flashlist gerber --read --pitch NM [--origin X Y] [--version N] [FILE]

Covers a job with the least number of flashes and writes them as a Gerber file: millimetres, format 4.6, a rectangular
aperture for each distinct size of a flash, numbered from D10 in order of first use, and each flash at the centre of its
rectangle. Or reads such a file back, given the pitch and the origin that it was written with, and prints its flashes in
the file's order: `flash`, first column, last column, bottom row, top row, parted by tabs. Without a name, or for '-',
standard input is read.

  --pitch NM      the grid's pitch: an even number of nanometres, 2 to {answers.PITCH:,}
  --origin X Y    the bottom left corner of square (0, 0), in nanometres right of and above panel zero; left of it and
                  below it are numbers below 0, as in --origin -500000 -250000 (without it 0 0)
  --version N     1 writes the file's attribute as a comment, for machines that stop at X2 attribute commands; 2, which
                  stands without it, as a command. The two differ in their first line alone; --read takes either
  -o FILE         writes the Gerber file there and not to standard output; after a refusal no file is made or changed
  --read          reads a file back
  --help          this text
  --              what follows are names, also those that begin with a dash

A refusal prints `refused`, the answer's number and its place, two numbers; after 9 `mark` lines follow.

Exit status: 0 done, 1 a refusal (also explained on standard error), 2 a wrong call or a file that cannot be read or made, 3
the program or the system failed (one sentence says how), 130 interrupted. A reader that closes the pipe has enough: 0.

Answers (2 to 5, 7, 12 and 15 never come from here; reading gives 13, 21 and 30 alone):
"""

# The words that the program is given, by their numbers from 1, and what each has to be.
WORDS = {2: ("the version", "a whole number of 64 bits"), 3: ("the pitch", "a whole number of 64 bits"),
         4: ("the origin's X", "a whole number of 64 bits, with a minus or no sign"),
         5: ("the origin's Y", "a whole number of 64 bits, with a minus or no sign")}


def help_text():
    return HELP + answers.table(*answers.OF_GERBER)


def asked(words):
    """The program's words, the file to write (None is standard output), and the name to read."""
    given, names = call.parsed(words, {"--pitch": 1, "--origin": 2, "--version": 1, "--read": 0, "-o": 1}, NAME)
    if "--pitch" not in given:
        raise WrongCall(f"--pitch NM is to be given; see ./flashlist {NAME} --help")
    if len(names) > 1:
        raise WrongCall(f"one file is to be named, not {len(names)}")
    reading, file = "--read" in given, given.get("-o", [None])[0]
    if reading and file is not None:
        raise WrongCall("-o is for a Gerber file; what --read prints goes to standard output")
    told = ["read" if reading else "write", *given.get("--version", ["2"]), *given["--pitch"], *given.get("--origin", ["0", "0"])]
    return told, file, names[0] if names else "-"


def run(words):
    told, file, name = asked(words)
    held = files.contents(name)
    text = programs.run(PROGRAM, held, told)
    if text.startswith("wrong\t"):
        _, (number,) = record(text.rstrip("\n"))
        what, kind = WORDS[number]
        raise WrongCall(f"{what} is to be {kind}, found {shown(told[number - 1])}")
    if text.startswith("refused\t"):
        streams.write(text)
        streams.tell(f"{answers.sentence(Printed(text), held)}\n")
        return ends.REFUSED
    if file is None:
        streams.write(text)
    else:
        save(name, text, file)
    return ends.DONE


def save(name, text, file):
    if name != "-" and os.path.exists(file) and os.path.samefile(name, file):
        raise WrongCall(f"{shown(file)}: the file would be written over the job")
    try:
        opened = open(file, "w", encoding="ascii", newline="")
    except OSError as error:
        raise WrongCall(f"{shown(file)}: {why(error)}") from error
    try:
        with opened:
            opened.write(text)
    except OSError as error:
        raise Failure(f"{shown(file)}: the file cannot be written: {why(error)}") from error
