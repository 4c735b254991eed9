#!/usr/bin/env python3
"""The sets that crate finals reads, and what merging them in three orders gives, by document 01's rules as they stand: an implementation apart from the proved one.

  finals.py stdin     what the program reads, crates/finals/stdin
  finals.py stdout    what it must write, crates/finals/stdout
  finals.py check     compares both files with these, and the three orders with one another; exit status 1 where one differs
"""
import os, sys

COLUMNS = ROWS = 64
FOLDER = os.path.join(os.path.dirname(os.path.abspath(__file__)), '..', '..', 'crates', 'finals')

class Numbers:
    """Knuth's linear congruence for 64 bits; the upper bits are used."""
    def __init__(self, seed):
        self.state = seed

    def below(self, n):
        self.state = (self.state * 6364136223846793005 + 1442695040888963407) % 2 ** 64
        return (self.state >> 33) % n

# Five families of areas. A column is its bottom and its top row, so none is broken.
def walk(seed):
    """Random walk: bottom and top each move by at most two rows."""
    n, columns, bottom, top = Numbers(seed), [], 24, 40
    for _ in range(COLUMNS):
        bottom = min(max(bottom + n.below(5) - 2, 0), ROWS - 1)
        top = min(max(top + n.below(5) - 2, bottom), ROWS - 1)
        columns.append((bottom, top))
    return columns

def scattered(seed):
    """Random columns: each by itself."""
    n, columns = Numbers(seed), []
    for _ in range(COLUMNS):
        a, b = n.below(ROWS), n.below(ROWS)
        columns.append((min(a, b), max(a, b)))
    return columns

def histogram(seed):
    """Histogram: all columns stand on row 0."""
    n = Numbers(seed)
    return [(0, n.below(ROWS)) for _ in range(COLUMNS)]

def stair(seed):
    """Stair: a band that rises by one row a column, now and then by two or by none."""
    n, columns, bottom = Numbers(seed), [], 0
    band = 1 + n.below(4)
    for _ in range(COLUMNS):
        columns.append((bottom, min(bottom + band, ROWS - 1)))
        bottom = min(bottom + (1, 1, 1, 0, 1, 0, 2)[n.below(7)], ROWS - 1)
    return columns

def comb(seed):
    """Comb: teeth of two columns, upward and downward by turns, from a back that wavers."""
    n, columns, bottom, top = Numbers(seed), [], 30, 34
    for c in range(COLUMNS):
        bottom = min(max(bottom + n.below(3) - 1, 26), 31)
        top = min(max(top + n.below(3) - 1, 32), 37)
        up, down = n.below(24), n.below(24)
        columns.append((bottom - down * (c % 4 < 2), top + up * (c % 4 > 1)))
    return columns

FAMILIES = [('random walk', walk, 3), ('random columns', scattered, 3), ('histogram', histogram, 2), ('stair', stair, 2), ('comb', comb, 2)]

# 000, examples 3.2, 3.6 and 3.9
EXAMPLES = [
    ('3.2', 5, [(0, 3), (1, 3), (1, 4), (2, 4), (2, 5), (3, 5)]),
    ('3.6', 4, [(0, 1), (0, 3), (0, 4), (1, 3), (1, 4), (3, 4)]),
    ('3.9', 10, [(0, 2), (0, 5), (1, 7), (3, 7), (4, 6), (4, 9), (5, 10), (8, 10)]),
]

def slices(columns):
    """Rule 1: the longest runs of copper in each row, each once."""
    found = set()
    for row in range(ROWS):
        left = None
        for c in range(COLUMNS + 1):
            copper = c < COLUMNS and columns[c][0] <= row <= columns[c][1]
            if copper and left is None:
                left = c
            if not copper and left is not None:
                found.add((left, c))
                left = None
    return found

def sets():
    for name, last, intervals in EXAMPLES:
        yield 'example ' + name, last, set(intervals)
    for name, family, seeds in FAMILIES:
        for seed in range(1, seeds + 1):
            yield f'{name}, seed {seed}', COLUMNS, slices(family(seed))

def inside(d, i):
    return d[0] <= i[0] and i[1] <= d[1]

def dependent_at(s, right):
    """Rule 2, for the brackets that end at this line: those that are dependent."""
    found, held = [], [0] * right
    for left in range(right - 1, -1, -1):
        for l, r in s:
            if l == left and r <= right:
                for c in range(l, r):
                    held[c] += 1
        if min(held[left:]) >= 2:
            found.append((left, right))
    return found

def brackets(last, s):
    """Rule 2: every dependent bracket, by right line; of one right line the shortest first."""
    return [d for right in range(1, last + 1) for d in dependent_at(s, right)]

def minimal(d, dependent):
    """Rule 3."""
    return not any(e != d and inside(d, e) for e in dependent)

def from_left(dependent, number):
    """Rule 5: the minimal bracket with the least right line."""
    return next(d for d in dependent if minimal(d, dependent))

def from_right(dependent, number):
    """The minimal bracket with the greatest left line."""
    return max(d for d in dependent if minimal(d, dependent))

def at_random(dependent, number):
    """The shortest dependent bracket that ends beyond a line, or else from line 0 on; of those inside it the minimal one with the least right line."""
    start = number // 65536 % (COLUMNS + 1)
    within = next((d for d in dependent if start < d[1]), dependent[0])
    return from_left([d for d in dependent if inside(within, d)], number)

ORDERS = [('from the left', from_left), ('from the right', from_right), ('at random', at_random)]

def reduce(s, d):
    """Rule 4."""
    within = sorted(i for i in s if inside(d, i))
    outermost = [i for i in within if not any(j != i and inside(j, i) for j in within)]
    meets = [(max(i[0], j[0]), min(i[1], j[1])) for i, j in zip(outermost, outermost[1:])]
    return s - set(outermost) | {i for i in meets if i[0] < i[1]}

def following(number):
    return (number % 2 ** 31 * 1103515245 + 12345) % 2 ** 31

def seed(name):
    """The name's bytes, with its line feed, as one number."""
    number = 0
    for byte in (name + '\n').encode():
        number = following(number + byte)
    return number

def merged(last, s, choose, number):
    """The number of reductions, and the set in which no bracket is dependent."""
    for reductions in range(len(s) + 1):
        number = following(number)
        dependent = brackets(last, s)
        if not dependent:
            return reductions, s
        s = reduce(s, choose(dependent, number))
    raise ValueError('more reductions than intervals')

def written(intervals):
    return ''.join(f' ({l}, {r})' for l, r in sorted(intervals))

def stdin():
    return ''.join(f'{name}\nlast line {last}:{written(s)}\n' for name, last, s in sets())

def merges():
    """For each set its name and, for each order, the number of reductions and the final set."""
    for name, last, s in sets():
        yield name, [merged(last, s, choose, seed(name)) for _, choose in ORDERS]

def stdout():
    return ''.join(
        f'{name}\n' + ''.join(f'{order}, {n} reductions:{written(s)}\n' for (order, _), (n, s) in zip(ORDERS, found))
        for name, found in merges())

def check():
    wrong = 0
    for name, found in merges():
        if any(f != found[0] for f in found):
            print(f'finals.py: {name}: the orders differ')
            wrong = 1
    for name, text in (('stdin', stdin()), ('stdout', stdout())):
        with open(os.path.join(FOLDER, name)) as f:
            if f.read() != text:
                print(f'finals.py: crates/finals/{name} differs')
                wrong = 1
    return wrong

if __name__ == '__main__':
    word = sys.argv[1] if len(sys.argv) == 2 else ''
    if word == 'check':
        sys.exit(check())
    if word not in ('stdin', 'stdout'):
        sys.exit(__doc__)
    sys.stdout.write(stdin() if word == 'stdin' else stdout())
