"""A picture as lines of text. Squares are as wide as the terminal has room for, and no number or mark hides another."""
import shutil
import sys

from . import streams
from .ends import Failure

# The lines that leave a point up, down, to the left and to the right, and the character that has them.
UP, DOWN, LEFT, RIGHT = 1, 2, 4, 8
BOXES = {
    UP | DOWN: "│", LEFT | RIGHT: "─", DOWN | RIGHT: "┌", DOWN | LEFT: "┐", UP | RIGHT: "└", UP | LEFT: "┘",
    UP | DOWN | RIGHT: "├", UP | DOWN | LEFT: "┤", DOWN | LEFT | RIGHT: "┬", UP | LEFT | RIGHT: "┴",
    UP | DOWN | LEFT | RIGHT: "┼", UP: "╵", DOWN: "╷", LEFT: "╴", RIGHT: "╶",
}
COPPER, MARK, CROSS = "░", "●", "×"

# How far apart grid lines stand: the widest that fits is taken. Between rows it is always DEEP.
WIDE, DEEP = (4, 3, 2), 2
# the rows' numbers stand before the picture
MARGIN = 4


def columns_here():
    """How many columns the terminal has; 80 where there is none."""
    return shutil.get_terminal_size().columns or 80


def check():
    """Pictures have characters that not every character set has."""
    charset = streams.charset(sys.stdout)
    try:
        ("".join(BOXES.values()) + COPPER + MARK + CROSS).encode(charset)
    except UnicodeEncodeError as error:
        raise Failure(f"the character set {charset} has no lines for a picture; ask for a file: --picture FILE.svg") from error


def across_needed(picture, across):
    return MARGIN + across * picture.width + 1


def needed(picture):
    """The least number of columns that the picture takes."""
    return min((across_needed(picture, across) for across in WIDE if Canvas(picture, across).complete), default=None)


def drawn(picture, columns):
    """The picture and its caption, or nothing where the picture does not fit into so many columns."""
    for across in WIDE:
        if across_needed(picture, across) <= columns:
            canvas = Canvas(picture, across)
            if canvas.complete:
                caption = picture.caption_lines(MARK, CROSS, columns)
                return "\n".join([*canvas.lines(), *caption]) + "\n"
    return None


class Canvas:
    """Characters by their place, counted from the top left corner; `complete` where every number found room."""

    def __init__(self, picture, across):
        self.picture, self.across, self.points = picture, across, {}
        self.copper()
        self.outlines = self.outlined()
        self.points.update((point, BOXES[directions]) for point, directions in self.outlines.items())
        for square in picture.marks:
            self.write(self.mark_point(square), MARK)
        for square in picture.crossed:
            self.write(self.mark_point(square), CROSS)
        places = [self.label(index) for index in range(len(picture.flashes))]
        self.complete = None not in places

    def at(self, column_line, row_line):
        return self.across * column_line, DEEP * (self.picture.height - row_line)

    def square(self, x, y):
        return x // self.across, self.picture.height - 1 - y // DEEP

    def mark_point(self, square):
        x, y = self.at(square[0] + 1, square[1] + 1)
        return x - 1, y + 1

    def write(self, point, text):
        x, y = point
        self.points.update(((x + i, y), letter) for i, letter in enumerate(text))

    def copper(self):
        """Copper fills its squares, and the lines between copper squares."""
        for first, last, row in self.picture.slices():
            (x0, y), (x1, _) = self.at(first, row + 1), self.at(last + 1, row + 1)
            self.points.update(((x, y + 1), COPPER) for x in range(x0 + 1, x1))
            above = [column for column in range(first, last + 1) if self.picture.copper(column, row + 1)]
            for column in above:
                x, y = self.at(column, row + 1)
                joined = column + 1 in above
                self.points.update(((x + i, y), COPPER) for i in range(1, self.across + joined))

    def outlined(self):
        """The points on flashes' outlines, each with the directions in which lines leave it."""
        lines = {}
        for first, last, bottom, top in self.picture.flashes:
            (x0, y1), (x1, y0) = self.at(first, bottom), self.at(last + 1, top + 1)
            for x in range(x0, x1 + 1):
                for y in (y0, y1):
                    lines[x, y] = lines.get((x, y), 0) | (LEFT if x > x0 else 0) | (RIGHT if x < x1 else 0)
            for y in range(y0, y1 + 1):
                for x in (x0, x1):
                    lines[x, y] = lines.get((x, y), 0) | (UP if y > y0 else 0) | (DOWN if y < y1 else 0)
        return lines

    def label(self, index):
        """Writes a flash's number into copper that it alone holds, away from marks and near the middle; says where, if
        anywhere."""
        text, own = self.picture.label(index), set(self.picture.own_squares(index))
        middle = [sum(square[i] for square in own) / len(own) for i in (0, 1)]

        def free(x, y):
            # a line between two squares belongs to both: without an outline the same flashes hold them
            return self.square(x, y) in own and (x, y) not in self.outlines and self.points.get((x, y)) == COPPER

        def worth(point):
            x, y = point
            column, row = (x + (len(text) - 1) / 2) / self.across - 0.5, self.square(x, y)[1]
            marked = any(self.square(x + i, y) in self.picture.marks for i in range(len(text)))
            return marked, (column - middle[0]) ** 2 + (row - middle[1]) ** 2, point

        starts = {(self.at(c, r + 1)[0] + i, self.at(c, r + 1)[1] + 1) for c, r in own for i in range(1, self.across + 1)}
        places = [
            (x, y) for x, y in starts
            if all(free(x + i, y) for i in range(len(text)))
            and not any(self.points.get((x + i, y), "").isdigit() for i in (-1, len(text)))]
        if not places:
            return None
        place = min(places, key=worth)
        self.write(place, text)
        return place

    def lines(self):
        width, height = self.picture.width, self.picture.height
        for y in range(DEEP * height + 1):
            number = str(height - 1 - y // DEEP) if y % DEEP else ""
            yield (f"{number:>{MARGIN - 1}} " + "".join(self.points.get((x, y), " ") for x in range(self.across * width + 1))).rstrip()
        yield self.column_numbers()

    def column_numbers(self):
        """Each number begins under its own column, between its lines; some are left out where they would touch."""
        longest = len(str(self.picture.width - 1))
        step = next(step for step in (1, 2, 4, 5, 10) if step * self.across > longest)
        line = ""
        for column in range(0, self.picture.width, step):
            number = str(column)
            aside = 1 + max(0, (self.across - 1 - len(number)) // 2)
            line = line.ljust(MARGIN + self.across * column + aside) + number
        return line
