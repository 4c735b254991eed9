"""Why a line of a job is not as ruled. The program has judged and named the line; this only finds what a person would
mend there, and says nothing where it finds nothing."""

SHAPE = ("the width", "the height", "the allowance")
MARKS_OF_ORDER = (b"\xef\xbb\xbf", b"\xff\xfe", b"\xfe\xff")


def quoted(field):
    """Bytes of the text for a sentence."""
    spelt = field[:20].decode("ascii", "backslashreplace")
    return "'" + "".join(c if c.isprintable() else f"\\x{ord(c):02x}" for c in spelt) + ("..'" if field[20:] else "'")


def cause(text, number):
    """What is wrong with the line of this number, counted from 1, as the end of a sentence."""
    lines = text.split(b"\n")
    if not 1 <= number <= len(lines):
        return None
    if not text:
        return "the text is empty"
    line, ended = lines[number - 1], number < len(lines)
    if number == 1:
        return odd(line, ended) or blanks(line, 4) or shape(line) or unended(ended)
    try:
        width, height = (int(field) for field in lines[0].split(b"\t")[1:3])
    except ValueError:
        return None
    row = height + 1 - number
    if row < 0:
        return f"nothing follows row 0, found {quoted(line)}" if line else "nothing follows row 0, found an empty line"
    if not line:
        return f"row {row} expected, found {'an empty line' if ended else 'the end of the text'}"
    return odd(line, ended) or blanks(line, 3) or squares(line, row, width) or unended(ended)


def odd(line, ended):
    """Bytes that other programs leave."""
    if line.startswith(MARKS_OF_ORDER):
        return "it begins with a byte order mark"
    if b"\r" in line:
        return "it has a carriage return" + (" before its line feed" if ended and line.endswith(b"\r") else "")
    return None


def blanks(line, fields):
    """Spaces where tabs belong."""
    if b" " in line and len(line.split()) == fields and len(line.split(b"\t")) < fields:
        return "spaces, not tabs, part its fields"
    if line != line.strip(b" \t"):
        return f"it {'ends' if line == line.lstrip() else 'begins'} with a space or a tab"
    return None


def unended(ended):
    return None if ended else "it has no line feed at its end"


def head(line, word, names):
    """The first word, and how many fields follow."""
    found, *fields = line.split(b"\t")
    if found != word:
        return f"it begins with {quoted(found)}, not with '{word.decode()}'"
    if len(fields) != len(names):
        return f"it has {len(fields) + 1} fields, not {len(names) + 1} ('{word.decode()}', {', '.join(names)}), parted by one tab"
    return None


def numeral(name, field):
    if not field:
        return f"{name} is missing"
    if field[:1] in b"+-":
        return f"{name} has a sign: {quoted(field)}"
    if not field.isdigit():
        return f"{name} is no number: {quoted(field)}"
    if field[:1] == b"0" and len(field) > 1:
        return f"{name} has a leading zero: {quoted(field)}"
    return f"{name} is above 9999" if len(field) > 4 else None


def shape(line):
    wrong = head(line, b"shape", SHAPE)
    return wrong or next(filter(None, map(numeral, SHAPE, line.split(b"\t")[1:])), None)


def squares(line, row, width):
    wrong = head(line, b"row", ("the row's number", "its squares"))
    if wrong:
        return wrong
    _, number, body = line.split(b"\t")
    wrong = numeral("the row's number", number)
    if wrong:
        return wrong
    if int(number) != row:
        return f"row {row} expected, found {int(number)}"
    for column in range(len(body)):
        square = body[column:column + 1]
        if square not in (b"#", b"."):
            return f"{quoted(square)} at column {column} is no square (# or .)"
    return f"it has {len(body)} squares, the width is {width}" if len(body) != width else None
