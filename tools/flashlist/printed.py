"""The lines that the programs print, read once for everyone who explains or draws them."""
from .ends import Failure

# The numbers of each line, by its word. Those of `cover` after the first stand in a picture's caption under these names.
LINES = {
    "cover": ("flashes", "copper number", "flashed area"),
    "flash": ("first column", "last column", "bottom row", "top row"),
    "mark": ("column", "row"),
    "refused": ("answer", "x", "y"),
    "sound": ("above the least",),
    "bad": ("line",),
    "bare": ("column", "row"),
    "wrong": ("word",),
}

HELP = """    cover    how many flashes; the copper number (how many squares are copper); the flashed area (the
             sum of the flashes' areas, where a square counts for each flash that holds it)
    flash    first column, last column, bottom row, top row; a line for each flash
    mark     column, row; as many as flashes. No two marks fit into one rectangle of copper, so
             fewer flashes cannot do
    refused  the answer's number and its place, two numbers. After 9, marks follow: one more than the
             allowance, no two in one rectangle of copper
"""


def record(line):
    word, *numbers = line.split("\t")
    if word not in LINES or len(numbers) != len(LINES[word]) or not all(number.isdecimal() for number in numbers):
        raise Failure("the program printed a line that no list has")
    return word, tuple(map(int, numbers))


class Printed:
    """A list: its answer (0 for a cover), the place, flashes as (first, last, bottom, top) and marks as (column, row)."""

    def __init__(self, text):
        records = [record(line) for line in text.splitlines()]
        if not records or records[0][0] not in ("cover", "refused"):
            raise Failure("the program printed no list")
        (word, numbers), rest = records[0], records[1:]
        self.answer, self.place = (0, (0, 0)) if word == "cover" else (numbers[0], numbers[1:3])
        self.totals = dict(zip(LINES["cover"][1:], numbers[1:])) if word == "cover" else {}
        self.flashes = [numbers[:4] for word, numbers in rest if word == "flash"]
        self.marks = [numbers for word, numbers in rest if word == "mark"]
