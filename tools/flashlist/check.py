"""./flashlist check: a flash list from outside held against a job, on request with a picture."""
import os
import tempfile

from . import answers, cover, ends, files, programs, streams, terminal, words as call
from .ends import Failure, WrongCall
from .picture import Picture, span
from .printed import record
from .streams import shown

NAME = "check"
SUMMARY = "whether a flash list from outside is sound, and how far it is above the least number"
PROGRAM = "checklist"

HELP = f"""usage: ./flashlist check [--picture[=FILE.svg]] JOB LIST

Says whether a list of flashes from outside is sound for a job: every flash lies in the copper, and every copper
square lies in a flash. '-' is standard input, for one of the two.

A list is text, a line for each flash in any order: `flash`, first column, last column, bottom row, top row, each 0
to 9999. Fields are parted by one tab and each line ends with a line feed. At most {answers.LIST:,} flashes; no line at all
is a list too. What ./flashlist prints is one once its other lines are taken away.

It prints one of these, fields parted by tabs:

    sound    how many flashes the list has above the least number; `mark` lines follow, column and row, as many as
             the least number. No two marks fit into one rectangle of copper, so fewer flashes cannot do
    bad      the line of the first flash that is reversed, off the grid or not wholly in the copper
    bare     column and row of the first copper square, row 0 first, that lies in no flash (and no flash is bad)
    refused  the answer's number and its place, two numbers

  --picture=FILE.svg    also draws the copper, and with it the marks, the bad flash or the bare square
  --picture FILE.svg    the same
  --picture             draws below the verdict, in the terminal (where no name ending in .svg follows)
  --help                this text
  --                    what follows are names, also those that begin with a dash

Exit status: 0 sound, 1 a refusal (also explained on standard error), 2 a wrong call or a file that cannot be read, 3 the
program or the system failed (one sentence says how), 4 bad or bare, 130 interrupted.

Answers (2 to 5, 7, 9 and 12 never come from here; the job's allowance has no effect, but it must be one):
"""

SOUND, BAD, BARE, REFUSED = "sound", "bad", "bare", "refused"


class Verdict:
    """What the program printed: its word, the answer (0 for a verdict), the place, how many above the least, the marks."""

    def __init__(self, text):
        records = [record(line) for line in text.splitlines()]
        if not records or records[0][0] not in (SOUND, BAD, BARE, REFUSED):
            raise Failure("the program printed no verdict")
        (self.word, numbers), rest = records[0], records[1:]
        self.answer, self.place, self.above = 0, (0, 0), 0
        if self.word == REFUSED:
            self.answer, self.place = numbers[0], numbers[1:3]
        elif self.word == SOUND:
            self.above = numbers[0]
        else:
            self.place = (*numbers, 0)[:2]
        self.marks = [numbers for word, numbers in rest if word == "mark"]
        self.flashes, self.totals = [], {}


class CheckPicture(Picture):
    """The copper, and on it the marks, the bad flash or the bare square."""

    def __init__(self, name, job, verdict, flash):
        super().__init__(name, job, verdict)
        self.flash = flash
        if verdict.word == BARE:
            self.crossed = [verdict.place]
        if verdict.word == BAD:
            first, last, bottom, top = flash
            last, top = min(last, self.width - 1), min(top, self.height - 1)
            if first <= last and bottom <= top:
                self.flashes = [(first, last, bottom, top)]
                squares = [(c, r) for c in range(first, last + 1) for r in range(bottom, top + 1)]
                self.crossed = [square for square in squares if not self.copper(*square)]

    def label(self, index):
        """The one flash that is drawn is called by its line."""
        return str(self.printed.place[0])

    def fault(self):
        """What is to be seen of the bad flash by its numbers alone."""
        first, last, bottom, top = self.flash
        if first > last or bottom > top:
            return ["reversed"]
        return ["off the grid"] if last >= self.width or top >= self.height else []

    def caption(self, mark, cross):
        verdict = self.printed
        if verdict.word == BAD:
            first, last, bottom, top = self.flash
            where = f"{span('column', first, last)}, {span('row', bottom, top)}"
            parts = [f"bad: the flash in line {verdict.place[0]}", where, *self.fault()] + ([f"{cross} = no copper"] if self.crossed else [])
        elif verdict.word == BARE:
            parts = [f"bare: column {verdict.place[0]}, row {verdict.place[1]} lies in no flash", f"{cross} = bare"]
        else:
            parts = [f"sound: {verdict.above} above the least number of {len(self.marks)}"] + ([f"{mark} = mark"] if self.marks else [])
        return f"{self.name}: " + ", ".join(parts)


def help_text():
    return HELP + answers.table(*answers.OF_CHECK)


def asked(words):
    """Whether to draw, into which file (None is the terminal), and the names of job and list."""
    given, names = call.parsed(words, {"--picture": cover.file_follows}, NAME)
    wanted, file = "--picture" in given, (given.get("--picture") or [None])[0]
    if file is not None and not file.endswith(".svg"):
        raise WrongCall(f"{shown(file)}: {cover.ENDING}")
    if len(names) != 2:
        raise WrongCall("a job and a list are to be named; see ./flashlist check --help")
    if names.count("-") > 1:
        raise WrongCall("standard input is named twice")
    return wanted, file, names


def judged(job, list_text):
    """What the program says: the job goes to it as its input, the list in a file."""
    with tempfile.NamedTemporaryFile() as copy:
        copy.write(list_text)
        copy.flush()
        return programs.run(PROGRAM, job, ["/dev/stdin", copy.name])


def run(words):
    wanted, file, (job_name, list_name) = asked(words)
    if wanted and file is None:
        terminal.check()
    job, list_text = files.contents(job_name), files.contents(list_name)
    text = judged(job, list_text)
    verdict = Verdict(text)
    streams.write(text)
    explain(verdict, job)
    if wanted:
        draw(job_name, job, list_text, verdict, file)
    return {SOUND: ends.DONE, REFUSED: ends.REFUSED}.get(verdict.word, ends.UNSOUND)


def explain(verdict, job):
    x, y = verdict.place
    if verdict.word == REFUSED:
        streams.tell(f"{answers.sentence(verdict, job)}\n")
    elif verdict.word == BAD:
        streams.tell(f"bad: the flash in line {x} of the list is reversed, off the grid or not wholly in the copper\n")
    elif verdict.word == BARE:
        streams.tell(f"bare: the copper square in column {x}, row {y} lies in no flash\n")


def draw(name, job, list_text, verdict, file):
    if verdict.answer not in (0, 8):
        streams.say(f"no picture: {files.called(name)} has no area to draw")
        return
    flash = tuple(map(int, list_text.decode("ascii").splitlines()[verdict.place[0] - 1].split("\t")[1:])) if verdict.word == BAD else None
    picture = (Picture if verdict.answer else CheckPicture)(
        files.called(name) if file is None else files.called(os.path.basename(name)), job.decode("ascii"), verdict,
        *([] if verdict.answer else [flash]))
    if file is None:
        cover.below(name, picture)
    else:
        cover.save(name, picture, file)
