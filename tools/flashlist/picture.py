"""What a picture shows of a job: its copper, each flash with its number, marks as dots, a refusal's square crossed out.
Flashes are numbered from 1 in the order of the list."""
import textwrap
import unicodedata


def count(number, word):
    return f"{number} {word}" + ("" if number == 1 else "es" if word.endswith("h") else "s")


def span(word, first, last):
    return f"{word} {first}" if first == last else f"{word}s {first} to {last}"


class Picture:
    """What is to be drawn: squares as (column, row), flashes as (first, last, bottom, top)."""

    def __init__(self, name, job, printed):
        lines = [line.split("\t") for line in job.splitlines()]
        self.width, self.height, self.allowance = map(int, lines[0][1:4])
        self.rows = {int(number): body for _, number, body in lines[1:]}
        self.name, self.printed = name, printed
        self.flashes, self.marks = printed.flashes, printed.marks
        self.crossed = [printed.place] if printed.answer == 8 else []

    def copper(self, column, row):
        inside = 0 <= column < self.width and 0 <= row < self.height
        return inside and self.rows[row][column] == "#"

    def slices(self):
        """The runs of copper in each row: (first, last, row)."""
        for row in range(self.height):
            first = None
            for column in range(self.width + 1):
                if self.copper(column, row):
                    first = column if first is None else first
                elif first is not None:
                    yield first, column - 1, row
                    first = None

    def own_squares(self, index):
        """The squares that this flash alone holds; in a least cover there are some."""
        first, last, bottom, top = self.flashes[index]
        others = self.flashes[:index] + self.flashes[index + 1:]
        squares = [(c, r) for c in range(first, last + 1) for r in range(bottom, top + 1)]
        return [(c, r) for c, r in squares if not any(f <= c <= l and b <= r <= t for f, l, b, t in others)] or squares

    def label(self, index):
        """What a flash is called in the picture."""
        return str(index + 1)

    def flash_title(self, index):
        first, last, bottom, top = self.flashes[index]
        return f"flash {self.label(index)}: {span('column', first, last)}, {span('row', bottom, top)}"

    def mark_title(self, index):
        column, row = self.marks[index]
        return f"mark: column {column}, row {row}"

    def caption(self, mark, cross):
        """What the picture shows, and what its signs mean."""
        marks, place = count(len(self.marks), "mark"), self.printed.place
        allowance = f"allowance {self.allowance}"
        if self.printed.answer == 8:
            parts = [f"refused: column {place[0]} is broken at row {place[1]}", allowance, f"{cross} = where it is broken"]
        elif self.printed.answer == 9:
            shows = "shows" if len(self.marks) == 1 else "show"
            parts = [f"refused: more flashes are needed than the allowance of {self.allowance}, as {marks} {shows}", f"{mark} = mark"]
        else:
            totals = [f"{name} {number}" for name, number in self.printed.totals.items()]
            parts = [count(len(self.flashes), "flash"), marks, *totals, allowance]
            parts += [f"{mark} = mark"] if self.marks else []
        return f"{self.name}: " + ", ".join(parts)

    def caption_lines(self, mark, cross, columns):
        """The caption in lines of at most so many columns; what a sign means is not broken up."""
        caption = self.caption(mark, cross).replace(" = ", "\0=\0")
        if any(unicodedata.east_asian_width(letter) in "WF" for letter in caption):
            columns //= 2
        return [line.replace("\0", " ") for line in textwrap.wrap(caption, max(1, columns), break_on_hyphens=False)]
