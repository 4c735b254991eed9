"""Compares what gerbv drew of a Gerber file with the raster that the file was made of: every square of the copper's bounding box.

    squares.py PICTURE.png SQUARES.txt PIXELS

SQUARES.txt has the rows of the raster from the top row down, `#` copper and `.` none; a square is PIXELS wide in the picture.
"""

import struct
import sys
import zlib


def picture(path):
    """Row by row from the top, whether each pixel is drawn."""
    data = open(path, "rb").read()
    assert data[:8] == b"\x89PNG\r\n\x1a\n", "no PNG"
    at, packed, head = 8, b"", None
    while at < len(data):
        (size,), kind = struct.unpack(">I", data[at : at + 4]), data[at + 4 : at + 8]
        body = data[at + 8 : at + 8 + size]
        if kind == b"IHDR":
            head = struct.unpack(">IIBBBBB", body)
        elif kind == b"IDAT":
            packed += body
        at += 12 + size
    width, height, depth, colour, _, _, interlace = head
    assert depth == 8 and interlace == 0 and colour in (0, 2, 6), head
    step = {0: 1, 2: 3, 6: 4}[colour]
    raw, before, rows = zlib.decompress(packed), bytearray(width * step), []
    for y in range(height):
        start = y * (width * step + 1)
        way, line = raw[start], bytearray(raw[start + 1 : start + 1 + width * step])
        for i in range(width * step):
            left = line[i - step] if i >= step else 0
            corner = before[i - step] if i >= step else 0
            if way == 1:
                line[i] = (line[i] + left) % 256
            elif way == 2:
                line[i] = (line[i] + before[i]) % 256
            elif way == 3:
                line[i] = (line[i] + (left + before[i]) // 2) % 256
            elif way == 4:
                guess = left + before[i] - corner
                near = min((abs(guess - left), 0, left), (abs(guess - before[i]), 1, before[i]), (abs(guess - corner), 2, corner))
                line[i] = (line[i] + near[2]) % 256
        rows.append([line[x * step] >= 64 for x in range(width)])
        before = line
    return rows


def box(rows):
    """The rows and columns from the first to the last with copper."""
    tall = [y for y, row in enumerate(rows) if "#" in row]
    wide = [x for x in range(len(rows[0])) if any(row[x] == "#" for row in rows)]
    return [row[wide[0] : wide[-1] + 1] for row in rows[tall[0] : tall[-1] + 1]]


def cropped(drawn):
    """The picture from its first to its last drawn pixel: gerbv leaves a thousandth of an inch beside it."""
    tall = [y for y, row in enumerate(drawn) if any(row)]
    wide = [x for x in range(len(drawn[0])) if any(row[x] for row in drawn)]
    return [row[wide[0] : wide[-1] + 1] for row in drawn[tall[0] : tall[-1] + 1]]


def main():
    drawn = cropped(picture(sys.argv[1]))
    width, height = len(drawn[0]), len(drawn)
    squares, pixels = box(open(sys.argv[2]).read().split()), int(sys.argv[3])
    size = (len(squares[0]) * pixels, len(squares) * pixels)
    if abs(width - size[0]) > 1 or abs(height - size[1]) > 1:
        sys.exit(f"{sys.argv[1]}: {width} by {height} pixels, not {size[0]} by {size[1]}")
    for y, row in enumerate(squares):
        for x, square in enumerate(row):
            if drawn[y * pixels + pixels // 2][x * pixels + pixels // 2] != (square == "#"):
                sys.exit(f"{sys.argv[1]}: the square {x} from the left and {y} from the top is {square!r} in the raster, not in the picture")


main()
