#!/usr/bin/env python3
"""Counts, in the sources, the places where an older form of the language may stand, for each point of docs/DESIGN-PASS.md.

usage: tools/places.py [POINT] [--list]     at the top of the repository; --list prints each place, as file:line
A place is one to look at: the page says which are kept, and why.
"""
import collections
import pathlib
import re
import sys

NAMES = {
    'enums': '1. own enums',
    'numbers': '1. constants that number a kind or a refusal, and tests of such a number',
    'twins': '2. functions alike but for names, types and numbers, four lines or more',
    'loops': '3. loops over an index: `for` over a range, `while`, `loop`',
    'by-hand': '4. order, equality or copying in a function of its own; comparisons inside a newtype (`.0`); conversions by `as`',
    'facts': '5. facts that stand in the `requires` of three functions or more, by their head',
    'together': '5. parameters, two or more side by side, of the same names and types in three functions or more',
    'lengths': '6. parameters: a slice and a count of what is used of it; parallel slices',
    'switches': '7. a value that says which step to run',
    'repeats': '8. runs of eight lines in proofs that stand twice (folded names); long lines; answers that say `search rules` alone',
}


def sources():
    for file in sorted(pathlib.Path('crates').glob('*/src/**/*.rt')):
        text = file.read_text()
        yield file, text.split('#[cfg(test)]')[0]


def functions():
    """Each function: file, line, name, parameters, clauses, body."""
    head = re.compile(r'^( *)(?:pub )?(?:(?:unsafe )?extern "C" )?fn (\w+)', re.M)
    for file, text in sources():
        for m in head.finditer(text):
            indent = m.group(1)
            stop = re.compile(r'^%s(\}|\{.*\}|[^{\n]*;)$' % indent, re.M)
            end = stop.search(text, m.end())
            whole = text[m.start():end.end() if end else len(text)]
            opened = whole.index('(')
            depth, i = 0, opened
            while True:
                depth += {'(': 1, ')': -1}.get(whole[i], 0)
                if depth == 0:
                    break
                i += 1
            parameters = [' '.join(p.split()) for p in split(whole[opened + 1:i])]
            body = whole.find('\n%s{' % indent, i)
            if body < 0:
                body = whole.find('{', i)
            yield file, text.count('\n', 0, m.start()) + 1, m.group(2), parameters, whole[i + 1:body], whole[body:]


def split(text):
    parts, depth, part = [], 0, ''
    for c in text:
        depth += {'(': 1, '<': 1, '[': 1, ')': -1, '>': -1, ']': -1}.get(c, 0)
        if c == ',' and depth == 0:
            parts.append(part)
            part = ''
        else:
            part += c
    return [p for p in parts + [part] if p.strip()]


def lines(pattern):
    found = []
    for file, text in sources():
        for n, line in enumerate(text.split('\n'), 1):
            code = line.split('//')[0]
            if re.search(pattern, code) and not re.match(r'\s*(ghost|requires|ensures)', code):
                found.append((f'{file}:{n}', code.strip()))
    return found


def enums():
    return lines(r'^\s*(pub )?enum \w+')


def numbers():
    return lines(r'^(pub )?const [A-Z_0-9]+: u64 = \d+;') + lines(r'\.(number|answer|verdict) (==|!=)|\bversion ==|\bplain == 1')


def twins():
    def folded(body):
        body = re.sub(r'//.*', '', body)
        body = re.sub(r"[A-Za-z_][\w']*(::[A-Za-z_]\w*)*", 'n', body)
        return re.sub(r'\d+', '#', re.sub(r'\s+', ' ', body))
    shapes = collections.defaultdict(list)
    for file, line, name, parameters, clauses, body in functions():
        if body.count('\n') >= 4:
            shapes[folded(body)].append((f'{file}:{line}', name))
    return [(', '.join(p for p, _ in same), ' ~ '.join(n for _, n in same)) for same in shapes.values() if len(same) > 1]


def loops():
    return lines(r'^\s*for \w+ in [^{]*\.\.|^\s*while |\bloop \{')


def by_hand():
    found = [(f'{f}:{l}', n) for f, l, n, p, c, b in functions() if re.fullmatch(r'greater|lesser|copy|clear|eq|cmp|min|max|is_digit|digit', n)]
    return found + lines(r'\.0 (<|<=|>|>=|==|!=) |(<|<=|>|>=|==|!=) \w+(\.\w+)*\.0\b') + lines(r'\bas (u8|u16|u32|u64|usize|i64)\b')


def facts():
    heads = collections.defaultdict(list)
    for file, line, name, parameters, clauses, body in functions():
        seen = set()
        for clause in re.findall(r'requires(?: \w+)? \{(.*)\}', clauses):
            for fact in clause.split(' × '):
                fact = fact.strip(' ()')
                head = re.match(r'([A-Z]\w+)', fact)
                seen.add(head.group(1) if head else re.sub(r'\b(\w+)\.(now|old|entry)', r'\1', fact))
        for fact in seen:
            heads[fact].append((f'{file}:{line}', name))
    rows = [(k, v) for k, v in heads.items() if len(v) >= 3]
    return [(place, f'{k}: {name}') for k, v in sorted(rows, key=lambda r: -len(r[1])) for place, name in v]


def together():
    groups = collections.defaultdict(list)
    for file, line, name, parameters, clauses, body in functions():
        if 'extern "C"' in ''.join(parameters):
            continue
        for i in range(len(parameters) - 1):
            groups[', '.join(parameters[i:i + 2])].append((f'{file}:{line}', name))
    rows = [(k, v) for k, v in groups.items() if len(v) >= 3]
    return [(place, f'{k}: {name}') for k, v in sorted(rows, key=lambda r: -len(r[1])) for place, name in v]


def lengths():
    found = []
    for file, line, name, parameters, clauses, body in functions():
        for a, b in zip(parameters, parameters[1:]):
            count = re.match(r'(count|n|flashes|bags|size|end|done|last|length|verdicts): usize', b)
            if (re.search(r': &(mut )?\[', a) and count) or (re.search(r': &(mut )?\[', a) and a.split(': ')[1] == b.split(': ')[1]):
                found.append((f'{file}:{line}', f'{name}({a}, {b})'))
    return found


def switches():
    return lines(r'\b(search|order): (Search|Order)\b|match search|Order::\w+ = order')


def repeats():
    found = []
    files = sorted(pathlib.Path('crates').glob('*/proofs/**/*.antt'))
    for file in files:
        for n, line in enumerate(file.read_text().split('\n'), 1):
            if len(line) > 200:
                found.append((f'{file}:{n}', 'long line'))
            if re.search(r'= (Prim\.)?search rules$', line):
                found.append((f'{file}:{n}', 'search rules alone'))
    skip = re.compile(r'^(use |pub use |mod |pub mod |--)')
    shape = {}
    for file in files:
        kept = [(n, l.strip()) for n, l in enumerate(file.read_text().split('\n'), 1) if l.strip() and not skip.match(l.strip())]
        rows = [re.sub(r'[0-9]+', '#', re.sub(r"[A-Za-z_\u03b1-\u03c9][\w'\u2032-]*", 'n', l)) for _, l in kept]
        i = 0
        while i + 8 <= len(rows):
            key = '\n'.join(rows[i:i + 8])
            if key in shape and shape[key] != (file, i):
                found.append((f'{file}:{kept[i][0]}', f'again as {shape[key][0]}:{shape[key][1]}'))
                i += 8
                continue
            shape.setdefault(key, (file, kept[i][0]))
            i += 1
    return found


COUNTS = {'enums': enums, 'numbers': numbers, 'twins': twins, 'loops': loops, 'by-hand': by_hand, 'facts': facts, 'together': together,
          'lengths': lengths, 'switches': switches, 'repeats': repeats}

if __name__ == '__main__':
    words = [w for w in sys.argv[1:] if not w.startswith('-')] or list(COUNTS)
    for word in words:
        found = COUNTS[word]()
        print(f'{len(found):5} {word:9} {NAMES[word]}')
        if '--list' in sys.argv:
            for place, what in found:
                print(f'      {place}  {what}')
