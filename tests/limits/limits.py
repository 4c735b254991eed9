"""Document 01's limits stand once: no line of src/, specs/ or proofs/ but grid's Limits uses one of their numbers.

Comments and quoted words are not looked at; neither are the widths of machine numbers (2 ^ 64) and the values of worked
examples, whose files are named below.
"""
import pathlib
import re
import sys

NUMBERS = re.compile(r"(?<![\w.^])(64|65|128|256|4225|4096|4613|4_?096|4_?613)(?![\w.])")
WIDTH = re.compile(r"2 \^ (8|16|32|64)\b")
# where the numbers belong: the limits themselves, the bits of a machine word, the theorem that says the longest text in numbers, and worked examples
HOME = {
    "grid/src/limits.rt",
    "grid/specs/Limits.antt",
    "words/src/lib.rt",
    "words/specs/Words.antt",
    "job/proofs/Lengths.antt",
}
EXAMPLES = {
    "cover/specs/HeldTo.antt",
    "grid/proofs/Tried.antt",
    "job/proofs/Plus.antt",
    "flashlist/proofs/Plus.antt",
    "printed/proofs/Example.antt",
}
# a line whose number is none of the grid's: the system's longest path
OTHERS = {("checklist/src/main.rt", "const PATH_ROOM: usize = 4096;")}


def code(line, comment):
    """The line without its comment, its strings and the widths of machine numbers."""
    line = re.sub(r'b?"[^"]*"', "", line)
    line = line.split(comment)[0]
    return WIDTH.sub("", line)


def main():
    crates = pathlib.Path(sys.argv[1] if len(sys.argv) > 1 else "crates")
    bad = 0
    looked = 0
    for path in sorted(path for part in ("src", "specs", "proofs") for path in crates.glob(f"*/{part}/**/*")):
        name = path.relative_to(crates).as_posix()
        if path.suffix not in (".rt", ".antt") or name in HOME or name in EXAMPLES:
            continue
        looked += 1
        comment = "//" if path.suffix == ".rt" else "--"
        for number, line in enumerate(path.read_text(encoding="utf-8").split("\n"), 1):
            found = NUMBERS.search(code(line, comment))
            if found and (name, line.strip()) not in OTHERS:
                print(f"error: {path}:{number}: {found.group(0)} stands here: {line.strip()}")
                bad += 1
    print(f"{looked} files name no limit by its number" if bad == 0 else f"{bad} lines name a limit by its number")
    print(f"{int(bad == 0)} passed, {int(bad > 0)} failed")
    sys.exit(bad > 0)


main()
