"""A refusal as one sentence for a person."""
from . import ruled

# What the programs take at most, as the sentences and the help name it.
SIDE, FLASH_ROOM, MARK_ROOM, RASTER_ROOM, LONGEST, LIST, FILE_ROOM, PITCH = 64, 256, 128, 4096, 4613, 1024, 8192, 1000000

# The answers by number; {x} and {y} are the place.
ANSWERS = {
    1: f"width or height is not 1 to {SIDE}",
    2: "the raster's length is not width times height",
    3: f"the room for flashes is under {FLASH_ROOM} bytes",
    4: f"the room for marks is under {MARK_ROOM} bytes",
    5: f"the room for text is under {LONGEST:,} bytes",
    6: f"the allowance is above {SIDE}",
    7: "the raster's byte at column {x}, row {y} is not 0 or 1",
    8: "column {x} is broken at row {y}",
    9: "the area needs more flashes than the allowance",
    10: f"the text has over {LONGEST:,} bytes",
    11: "line {x} is not as ruled",
    12: f"the room for a raster is under {RASTER_ROOM:,} bytes",
    13: f"the pitch is odd or not 2 to {PITCH:,} nanometres",
    14: "a centre coordinate has more than ten digits",
    15: f"the room for a file is under {FILE_ROOM:,} bytes",
    16: "line {x} of the list is not as ruled",
    17: f"the list has over {LIST:,} flashes",
    21: "the version is not 1 or 2",
    30: "line {x} of the file is not as ruled",
}

# The answers that come with an area: they can be drawn.
DRAWN = (0, 8, 9)


# The answers that one command alone gives.
OF_CHECK, OF_GERBER = (16, 17), (13, 14, 15, 21, 30)


def table(*own):
    """The answers, those of one command alone only where they are asked for."""
    others = {*OF_CHECK, *OF_GERBER} - {*own}
    words = {number: words.format(x="X", y="Y") for number, words in ANSWERS.items() if number not in others}
    return "".join(f"  {number:>2}  {text}\n" for number, text in [(0, "done"), *words.items()])


def sentence(printed, job):
    """A refusal with its number, its place and, where the job's text tells, its cause; nothing for a cover."""
    number, (x, y) = printed.answer, printed.place
    if number == 0:
        return None
    words = ANSWERS.get(number, "an answer that this command does not know").format(x=x, y=y)
    if number == 9:
        allowance = len(printed.marks) - 1
        words += f" of {allowance}" + (
            f": no two of the {len(printed.marks)} marks fit into one rectangle of copper" if allowance else "")
    if number == 11:
        cause = ruled.cause(job, x)
        words += f": {cause}" if cause else ""
    return f"refused {number}: {words}"
