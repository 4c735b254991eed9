"""A picture as an SVG file."""
import colorsys
from html import escape

# The first colours of flashes, dark enough for numbers on copper; more are made where more flashes meet.
COLOURS = ["#1f5fbf", "#b3261e", "#1b7f3b", "#7a3fb0", "#0f7c86", "#a8327d", "#4f5d00", "#5b4636"]
DOT, CROSS = "dot", "cross"

# The caption's font is monospaced: how wide a line becomes is known, with something to spare.
CAPTION_SIZE, CAPTION_LETTER, CAPTION_LINE = 12, 0.63 * 12, 16
LEFT, TOP, RIGHT, LEAST_WIDTH = 34, 12, 12, 300


def colour(number):
    if number < len(COLOURS):
        return COLOURS[number]
    # hues a golden angle apart never come close to an earlier one
    red, green, blue = colorsys.hls_to_rgb(number * 0.618034 % 1, (0.2, 0.28, 0.36)[number % 3], 0.85)
    return f"#{round(red * 255):02x}{round(green * 255):02x}{round(blue * 255):02x}"


def meet(one, other):
    """Whether two flashes share a square or touch, a corner included."""
    (f, l, b, t), (first, last, bottom, top) = one, other
    return f <= last + 1 and first <= l + 1 and b <= top + 1 and bottom <= t + 1


def shares_line(one, other):
    """Whether the outlines of two flashes run along one line somewhere."""
    (f, l, b, t), (first, last, bottom, top) = one, other
    columns_meet, rows_meet = f <= last and first <= l, b <= top and bottom <= t
    return rows_meet and (f == first or l == last) or columns_meet and (b == bottom or t == top)


def apart(flashes, near):
    """A number for each flash, the least that no earlier flash near it has."""
    chosen = []
    for flash in flashes:
        taken = {number for other, number in zip(flashes, chosen) if near(flash, other)}
        chosen.append(next(number for number in range(len(flashes)) if number not in taken))
    return chosen


def label_square(picture, index):
    """A square for a flash's number, near the middle of those that it alone holds, if possible without a mark."""
    own = picture.own_squares(index)
    middle = sum(c for c, _ in own) / len(own), sum(r for _, r in own) / len(own)

    def worth(square):
        column, row = square
        return square in picture.marks, (column - middle[0]) ** 2 + (row - middle[1]) ** 2, square

    return min(own, key=worth)


def drawn(picture):
    """The picture as the text of an SVG file."""
    sheet = Sheet(picture)
    parts = [*sheet.head(), *sheet.copper(), *sheet.grid(), *sheet.numbers(), *sheet.flashes(), *sheet.labels(), *sheet.marks(),
             *sheet.crossed(), *sheet.caption()]
    return "\n".join([*parts, "</svg>"]) + "\n"


class Sheet:
    """A picture's measures. Each method gives the lines of one group; a later group lies above an earlier one."""

    def __init__(self, picture):
        self.picture = picture
        self.cell = max(20, min(48, 960 // max(picture.width, picture.height)))
        self.width = max(LEFT + picture.width * self.cell + RIGHT, LEAST_WIDTH)
        self.lines = picture.caption_lines(DOT, CROSS, int((self.width - LEFT - 6) / CAPTION_LETTER))
        self.caption_top = self.y(0) + 38
        self.height = self.caption_top + len(self.lines) * CAPTION_LINE
        self.label_squares = [label_square(picture, index) for index in range(len(picture.flashes))]
        self.colours = [colour(number) for number in apart(picture.flashes, meet)]

    def x(self, line):
        return LEFT + line * self.cell

    def y(self, line):
        return TOP + (self.picture.height - line) * self.cell

    def head(self):
        yield (f'<svg xmlns="http://www.w3.org/2000/svg" width="{self.width}" height="{self.height}" '
               f'viewBox="0 0 {self.width} {self.height}" font-family="sans-serif">')
        yield f"<title>{escape(self.picture.caption(DOT, CROSS), quote=False)}</title>"
        yield f'<rect width="{self.width}" height="{self.height}" fill="white"/>'

    def copper(self):
        yield '<g class="copper" fill="#e9b872">'
        for first, last, row in self.picture.slices():
            yield f'<rect x="{self.x(first)}" y="{self.y(row + 1)}" width="{(last - first + 1) * self.cell}" height="{self.cell}"/>'
        yield "</g>"

    def grid(self):
        width, height = self.picture.width, self.picture.height
        yield '<g class="grid" stroke="#000000" stroke-opacity="0.13" stroke-width="1">'
        for line in range(width + 1):
            yield f'<line x1="{self.x(line)}" y1="{self.y(0)}" x2="{self.x(line)}" y2="{self.y(height)}"/>'
        for line in range(height + 1):
            yield f'<line x1="{self.x(0)}" y1="{self.y(line)}" x2="{self.x(width)}" y2="{self.y(line)}"/>'
        yield "</g>"

    def numbers(self):
        yield '<g class="numbers" font-size="10" fill="#555555" text-anchor="middle">'
        for column in range(self.picture.width):
            yield f'<text x="{self.x(column) + self.cell / 2}" y="{self.y(0) + 14}">{column}</text>'
        for row in range(self.picture.height):
            yield f'<text x="{LEFT - 14}" y="{self.y(row) - self.cell / 2 + 4}">{row}</text>'
        yield "</g>"

    def flashes(self):
        """Outlines, each so far inside its rectangle that it hides no other."""
        inset = apart(self.picture.flashes, shares_line)
        gap = self.cell * 0.3 / max([3, *inset])
        yield '<g class="flashes" fill-opacity="0.08" stroke-width="2">'
        for index, (first, last, bottom, top) in enumerate(self.picture.flashes):
            d = 1.5 + gap * inset[index]
            yield (f'<rect x="{self.x(first) + d:.2f}" y="{self.y(top + 1) + d:.2f}" width="{(last - first + 1) * self.cell - 2 * d:.2f}" '
                   f'height="{(top - bottom + 1) * self.cell - 2 * d:.2f}" rx="2" fill="{self.colours[index]}" stroke="{self.colours[index]}">'
                   f'<title>{self.picture.flash_title(index)}</title></rect>')
        yield "</g>"

    def labels(self):
        """Flashes' numbers, each in the middle of its square, or in the upper left corner where a mark is there too."""
        yield ('<g class="labels" font-weight="bold" text-anchor="middle" pointer-events="none" stroke="white" stroke-width="3" '
               'paint-order="stroke" stroke-linejoin="round">')
        for index, (column, row) in enumerate(self.label_squares):
            shared = (column, row) in self.picture.marks
            size = 0.45 * self.cell if shared else max(0.4 * self.cell, 12)
            dx, base = (0.34 * self.cell, 0.48 * self.cell) if shared else (0.5 * self.cell, 0.5 * self.cell + 0.36 * size)
            yield (f'<text x="{self.x(column) + dx:.2f}" y="{self.y(row + 1) + base:.2f}" font-size="{size:.1f}" '
                   f'fill="{self.colours[index]}">{self.picture.label(index)}</text>')
        yield "</g>"

    def marks(self):
        """Dots, each in the middle of its square, or in the lower right corner where a number is there too."""
        yield '<g class="marks" fill="#111111" stroke="white" stroke-width="1">'
        for index, (column, row) in enumerate(self.picture.marks):
            middle, radius = (0.76, 0.17) if (column, row) in self.label_squares else (0.5, 0.21)
            yield (f'<circle cx="{self.x(column) + middle * self.cell:.2f}" cy="{self.y(row + 1) + middle * self.cell:.2f}" '
                   f'r="{radius * self.cell:.2f}"><title>{self.picture.mark_title(index)}</title></circle>')
        yield "</g>"

    def crossed(self):
        yield '<g class="crossed" stroke="#c00000" stroke-width="3">'
        for column, row in self.picture.crossed:
            a, b, c, d = self.x(column) + 4, self.x(column + 1) - 4, self.y(row) - 4, self.y(row + 1) + 4
            yield f'<line x1="{a}" y1="{c}" x2="{b}" y2="{d}"/><line x1="{a}" y1="{d}" x2="{b}" y2="{c}"/>'
        yield "</g>"

    def caption(self):
        yield f'<g class="caption" font-family="monospace" font-size="{CAPTION_SIZE}" fill="#222222">'
        for number, line in enumerate(self.lines):
            yield f'<text x="{LEFT}" y="{self.caption_top + CAPTION_LINE * number}">{escape(line, quote=False)}</text>'
        yield "</g>"
