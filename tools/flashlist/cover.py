"""./flashlist cover: the flashes and marks of jobs, on request with a picture."""
import os

from . import answers, ends, files, programs, streams, svg, terminal, words as call
from .ends import Failure, WrongCall, why
from .picture import Picture
from .printed import HELP as LINES, Printed
from .streams import shown

NAME = "cover"
SUMMARY = "the least number of flashes for a copper area, and marks that show it"
PROGRAM = "flashlist"

HELP = f"""usage: ./flashlist [cover] [--picture[=FILE.svg]] [JOB..]

Gives the least number of flashes, rectangles that may overlap, whose union is a copper area. Reads a job
from each file named ('-' is standard input), or from standard input where none is named.

A job is text. Line 1 is `shape`, width, height and allowance (the most flashes that you want); then one
line for each row from the top row down: `row`, the row's number, and a character for each column, `#` for
copper and `.` for none. Fields are parted by one tab and each line ends with a line feed. Width and height
are 1 to {answers.SIDE}, the allowance 0 to {answers.SIDE}. Every column's copper must be unbroken.

    shape<tab>3<tab>3<tab>64
    row<tab>2<tab>.#.
    row<tab>1<tab>###
    row<tab>0<tab>.#.

It prints, fields parted by tabs:

{LINES}
Columns count from 0 at the left, rows from 0 at the bottom. Where several jobs are named, a line `job` with
the name stands before each list.

  --picture=FILE.svg    also draws the job: copper, numbered flashes, marks as dots (one job only)
  --picture FILE.svg    the same
  --picture             draws below the list, in the terminal (where no name ending in .svg follows)
  --help                this text
  --                    what follows are names, also those that begin with a dash

{ends.TEXT}
Answers (2 to 5, 7 and 12 are those of the C functions and never come from here, 13 to 17 and 30 from
./flashlist check and ./flashlist gerber):
"""

ENDING = "a picture's name ends in .svg"


def help_text():
    return HELP + answers.table()


def file_follows(words):
    """How many of the next words belong to --picture."""
    return int(bool(words) and words[0].endswith(".svg"))


def asked(words):
    """Whether to draw, into which file (None is the terminal), and the jobs' names."""
    given, names = call.parsed(words, {"--picture": file_follows}, NAME)
    wanted, file = "--picture" in given, (given.get("--picture") or [None])[0]
    if file is not None and not file.endswith(".svg"):
        raise WrongCall(f"{shown(file)}: {ENDING}")
    if file is not None and len(names) > 1:
        raise WrongCall("one picture file is for one job")
    if names.count("-") > 1:
        raise WrongCall("standard input is named twice")
    return wanted, file, names or ["-"]


def run(words):
    wanted, file, names = asked(words)
    if wanted and file is None:
        terminal.check()
    status = ends.DONE
    for name in names:
        try:
            job = files.contents(name)
        except ends.End as end:
            # perhaps it was meant for a picture of another kind
            follows = ("--picture", name) in zip(words, words[1:])
            streams.say(f"{end}; {ENDING}" if follows else end)
            status = max(status, end.status)
            continue
        printed = listed(name, job, len(names) > 1)
        status = max(status, ends.REFUSED if printed.answer else ends.DONE)
        if wanted:
            draw(name, job, printed, file)
    return status


def listed(name, job, several):
    """Prints the list of one job, and explains a refusal."""
    text = programs.run(PROGRAM, job)
    printed = Printed(text)
    streams.write((f"job\t{shown(name)}\n" if several else "") + text)
    refusal = answers.sentence(printed, job)
    if refusal:
        streams.tell(f"{files.called(name)}: {refusal}\n" if several else f"{refusal}\n")
    return printed


def draw(name, job, printed, file):
    if printed.answer not in answers.DRAWN:
        streams.say(f"no picture: {files.called(name)} has no area to draw")
        return
    picture = Picture(files.called(name) if file is None else files.called(os.path.basename(name)), job.decode("ascii"), printed)
    if file is None:
        below(name, picture)
    else:
        save(name, picture, file)


def below(name, picture):
    """Draws in the terminal, or says which file to ask for."""
    columns = terminal.columns_here()
    drawing = terminal.drawn(picture, columns)
    if drawing is not None:
        streams.write("\n" + drawing)
        return
    needs = terminal.needed(picture)
    stem = "job" if name == "-" else os.path.splitext(os.path.basename(name))[0]
    streams.say(f"no picture: {files.called(name)} " + (f"takes {needs} columns, {columns} are there" if needs else "is too crowded for a terminal")
                + f"; ask for a file: --picture={shown(stem)}.svg")


def save(name, picture, file):
    if name != "-" and os.path.exists(file) and os.path.samefile(name, file):
        raise WrongCall(f"{shown(file)}: the picture would be written over the job")
    try:
        opened = open(file, "w", encoding="utf-8")
    except OSError as error:
        raise WrongCall(f"{shown(file)}: {why(error)}") from error
    try:
        with opened:
            opened.write(svg.drawn(picture))
    except OSError as error:
        raise Failure(f"{shown(file)}: the picture cannot be written: {why(error)}") from error
