#!/usr/bin/env python3
"""Spells the repository's own definitions and lemmas as the Rattle library does: words in snake case, facts and types in camel case, a dash between two names alone.

usage: spelling.py [--list] [FOLDER]      once, in the commit that port.py made; --list writes nothing and prints the table
It goes by whole words, in definitions, proofs, clauses, must-fail edits and the code spans of the pages. Names of src/, strings and generated names stay,
and in each file the names that it takes from a library: mathlib has an `and-true` of its own.
"""

import collections
import os
import re
import sys

WORD = re.compile(r'[^\s(){}.;,@"«»`]+')
DECLARED = re.compile(r"(?m)^( *)((?:abbrev|unfoldable|pub|ruleset|data|record) )*([^\s(){}.;,@\"«»=|]+)((?: [^\s(){}.;,@\"«»=|:]+)*)((?: [({][^{}()\n]*[)}])*) :(?= |$)([^\n]*(?:\n(?=\1 +\S)[^\n]*)*)")
USED = re.compile(r"ghost\s+use\b[^;]*;")
TAKEN = re.compile(r"\buse\s+([^\s{};]+)\.\{([^{}]*)\}")
CLAUSE = re.compile(r"(?m)^\s*(?:requires|ensures|ghost)\b[^{\n]*\{")
# words of the library and of generated text that are names, so that a dash may join one to another
STD = set("length take drop map filter append cons nil suc zero add sub mul div mod pow min max set get_or replicate reverse sum not and or eq cond some none first keep count any all gather from down".split())
# where the plain spelling would meet a parameter, a local or another name
CHOSEN = {"flashRoom": "flash_room_size", "markRoom": "mark_room_size", "fileRoom": "file_room_size", "heldIn": "is_held_in", "isDigit": "is_digit_byte", "sameSize": "is_same_size", "coordinateFits": "coordinate_in_range"}
# what Rattle makes, in a walk by hand, and what it is called by
MADE = re.compile(r"(?:returns|loop|search|cast|add|sub|mul|nonzero|After|Need|At|In|inv|slice|array|overflow)-.*|.*-(?:spec|reads|thm|def|holds|again|ends|test|init|preserved|smaller|requires)(?:-\d+)?|.*-\d+")


def texts(top, ends):
    for folder, dirs, files in os.walk(top):
        dirs[:] = sorted(d for d in dirs if d not in ("out", ".git", "target"))
        for f in sorted(files):
            if f.endswith(ends):
                yield os.path.join(folder, f)


def snake(name):
    return re.sub(r"(?<=[a-z0-9])[A-Z]", lambda m: "_" + m[0].lower(), name)


def bare(text):
    return re.sub(r"(?m)(^|(?<=\s))--.*$", "", text)


def table(top):
    declared, made, words, facts, places = {}, set(), collections.Counter(), set(), collections.defaultdict(set)
    bound, held = collections.defaultdict(set), collections.defaultdict(set)
    for p in texts(os.path.join(top, "crates"), ".antt"):
        with open(p, encoding="utf-8") as f:
            t = bare(f.read())
        words.update(WORD.findall(t))
        for w in re.findall(r'(?<![^\s(){};,@"«»`])[^\s(){}.;,@"«»`]+', t):
            bound[w].add(p)
        for w in WORD.findall(t):
            held[w].add(p)
        proof = os.path.basename(p) == "Proof.antt"
        for m in DECLARED.finditer(t):
            kind = m[6].strip()
            for n in [m[3]] + m[4].split():
                if proof and (re.match(r"(?:tie|goal|statement|\{M)\b", kind) or "statement" in kind):
                    made.add(n)
                    continue
                declared.setdefault(n, kind)
                places[n].add(p)
                if re.search(r"(?:→|^)\s*Type(?: 0)?$", kind):
                    facts.add(n)
    names = {snake(n) for n in declared if "-" not in n} | STD
    rows = {}
    for w in words:
        if not re.match(r"[a-z]", w) or w in made:
            continue
        if "-" not in w:
            if re.search(r"[a-z0-9][A-Z]", w):
                new = snake(w)
                rows[w] = "".join(x.capitalize() for x in new.split("_")) if w in facts else new
            continue
        if w not in declared or MADE.fullmatch(w) and all(x.endswith("Proof.antt") for x in places[w]) or w.endswith("-spec"):
            continue
        parts = [snake(x) for x in w.split("-")]
        if not all(re.fullmatch(r"[A-Za-z][\w'′]*", x) for x in parts):
            continue
        new = parts[0]
        for a, b in zip(parts, parts[1:]):
            new += ("-" if a in names and b in names else "_") + b
        rows[w] = new
    # in src/ a parameter, a field or a local hides a word of its name
    for p in texts(os.path.join(top, "crates"), ".rt"):
        with open(p, encoding="utf-8") as f:
            t = re.sub(r"//.*", "", f.read())
        said = " ".join(USED.findall(t)) + " ".join(t[m.start() : clause_end(t, m.end())] for m in CLAUSE.finditer(t))
        for w in WORD.findall(said):
            held[w].add(p)
        for w in re.findall(r"(?<![\w.])(\w+)(?![\w(])", re.sub(r"\b(?:fn|mod|use) [\w:]+", "", t)):
            bound[w].add(p)
    # a name that would meet another gets _lem
    out, taken = {}, {}
    for w in sorted(rows, key=lambda w: ("-" in w, w)):
        new = CHOSEN.get(w, rows[w])
        if new == w:
            continue
        while bound[new] & held[w] or new in taken:
            print(f"meets another: {w} as {new}: {sorted(bound[new] & held[w])[:3]} {taken.get(new, '')}", file=sys.stderr)
            new += "_lem"
        taken[new] = w
        out[w] = new
    return out


def clause_end(t, i):
    deep = 1
    while deep:
        deep += {"{": 1, "}": -1}.get(t[i], 0)
        i += 1
    return i


def turned(text, rows):
    return WORD.sub(lambda m: rows.get(m[0], m[0]), text)


def left(text, rows, own):
    """The table without the names that a file takes from elsewhere than the crates of the repository."""
    taken = set()
    for path, names in TAKEN.findall(text):
        root, _, rest = path.partition(".")
        if root != "tie" and not (root == "Rattle" and rest.partition(".")[0] in own):
            taken |= set(WORD.findall(names))
    return {a: b for a, b in rows.items() if a not in taken}


def antt(text, rows):
    """The code whole; of a comment the words in camel case and the code spans."""
    camel = {a: b for a, b in rows.items() if "-" not in a}

    def line(l):
        m = re.search(r"(^|(?<=\s))--(?=\s|$)", l)
        if not m:
            return turned(l, rows)
        note = re.sub(r"`[^`]*`", lambda s: turned(s[0], rows), l[m.start():])
        return turned(l[: m.start()], rows) + turned(note, camel)

    return "\n".join(line(l) for l in text.split("\n"))


def rt(text, rows):
    text = USED.sub(lambda m: turned(m[0], rows), text)
    out, at = "", 0
    for m in CLAUSE.finditer(text):
        if m.start() < at:
            continue
        i = clause_end(text, m.end())
        out += text[at : m.end()] + turned(text[m.end() : i], rows)
        at = i
    text = out + text[at:]
    return re.sub(r"(?m)//.*$", lambda m: re.sub(r"`[^`]*`", lambda s: turned(s[0], rows), m[0]), text)


def named_by(path, text):
    """The text whose imports a file goes by: a must-fail edit by those of the file that it changes."""
    file = re.search(r"(?m)^file: *(\S+)$", text) if path.endswith(".edit") else None
    if not file:
        return text
    with open(os.path.join(os.path.dirname(os.path.dirname(path)), file[1]), encoding="utf-8") as f:
        return f.read()


def page(text, rows):
    return re.sub(r"`[^`\n]*`", lambda s: turned(s[0], rows), text)


def main(argv):
    listed = argv[:1] == ["--list"]
    top = (argv[listed:] or ["."])[0]
    rows = table(top)
    for a, b in sorted(rows.items()):
        if listed:
            print(f"{a}\t{b}")
    if listed:
        return
    crates = os.path.join(top, "crates")
    own = set(os.listdir(crates))
    for ends, how, where in [(".antt", antt, crates), (".rt", rt, crates), (".edit", turned, crates), (".md", page, os.path.join(top, "docs")), ("README.md", page, top)]:
        for p in texts(where, ends):
            with open(p, encoding="utf-8") as f:
                old = f.read()
            new = how(old, left(named_by(p, old), rows, own))
            if new != old:
                with open(p, "w", encoding="utf-8") as f:
                    f.write(new)
    print(f"{len(rows)} names spelt anew")


if __name__ == "__main__":
    main(sys.argv[1:])
