#!/usr/bin/env python3
"""A second reading of 02's Wish 12, for judging the walk straight over a tree text: written from its words, over the second reading of 01.

  metering.py               makes the stored cases, stored/bare-1.txt
  metering.py --check       says whether they are as made

A case is a text, a tree number, answers, a limit, and the six numbers of the answer: number, place, line, PDF number, questions asked, lines read."""
import os
import random
import sys

sys.path.insert(0, os.path.join(os.path.dirname(os.path.abspath(__file__)), '..'))
import folders  # noqa: E402
import accepting  # noqa: E402
import reading  # noqa: E402
import treetexts  # noqa: E402

STORED = os.path.join(folders.STORED, 'bare-1.txt')
CASES = 2400
LARGE = 2 ** 64 - 1


# ---- the rule

class Pass:
    """The lines of a tree, read one after the other; each reading is counted."""

    def __init__(self, lines):
        self.lines, self.read = lines, 0

    def first(self):
        self.read += 1
        return 0

    def last_bearing(self, ident):
        found = None
        for k, line in enumerate(self.lines):
            self.read += 1
            if line[0] == ident:
                found = k
        return found


def bare_walk(s, number, answers, limit):
    try:
        questions, trees = reading.tree_text(s, 0)
        if number >= len(trees):
            return 24, 0, 0, 0, 0, 0
        tree = trees[number]
        reading.link(tree, number, {s[a:b]: i for i, ((a, b), _) in enumerate(questions)}, s)
    except reading.Refused as r:
        return r.number, r.place, r.line, 0, 0, 0
    lines = tree[3]
    one = reading.single(tree)
    if one:
        return 0, 0, 0, one[1], 0, len(lines) if tree[2] is None else 0
    if not lines:
        return 24, 0, 0, 0, 0, 0
    names = [s[a:b] for (a, b), _ in questions]
    way, asked = Pass(lines), 0
    k = way.first()
    while True:
        _, (a, b), no, yes = lines[k]
        question = max(i for i, name in enumerate(names) if name == s[a:b])
        if question >= len(answers):
            return 24, 0, 0, 0, 0, 0
        if asked == limit or asked > 2 * len(lines):  # met twice as often as there are lines, it goes round
            return 25, 0, 0, 0, 0, 0
        asked += 1
        kind, n = yes if answers[question] else no
        if kind != 'N':
            return 0, 0, 0, n, asked, way.read
        k = way.last_bearing(n)


# ---- the worked cases of docs/READINGS.md

TEXT = b'QS A { "a*" }\nQS B { "b*" }\n' + b'\n'.join((
    b'{*}[2]{ 0 A -1 p_3\n-1 B p_1 p_3 }', b'{*}[3]p_7', b'{*}[4]{}', b'{*}[5]{ 0 Z p_4 "p_4" }', b'{*}[6]{ 0 A 0 9 }', b'{*}[7]{ 0 A 0 0 }',
    b'{*}[8]{ 0 A -1 -1\n-1 B 0 p_1\n-1 A p_2 0 }'))


def by_hand():
    for tree, answers, limit, want in (
            (0, [1, 1], 9, (0, 0, 0, 3, 1, 1)), (0, [1, 1], 1, (0, 0, 0, 3, 1, 1)), (0, [1, 1], 0, (25, 0, 0, 0, 0, 0)), (0, [0, 1], 9, (0, 0, 0, 3, 2, 3)), (0, [0, 0], 9, (0, 0, 0, 1, 2, 3)),
            (0, [0, 1], 1, (25, 0, 0, 0, 0, 0)), (0, [], 9, (24, 0, 0, 0, 0, 0)), (0, [], 0, (24, 0, 0, 0, 0, 0)), (0, [1], 9, (0, 0, 0, 3, 1, 1)), (0, [0], 9, (24, 0, 0, 0, 0, 0)),
            (0, [255, 0], 9, (0, 0, 0, 3, 1, 1)), (0, [1, 1, 0, 0, 0], 9, (0, 0, 0, 3, 1, 1)), (1, [], 0, (0, 0, 0, 7, 0, 0)), (2, [], 9, (24, 0, 0, 0, 0, 0)), (3, [], 0, (0, 0, 0, 4, 0, 1)),
            (4, [1, 1], 9, (21, 4, 0, 0, 0, 0)), (5, [1, 1], 9, (23, 5, 0, 0, 0, 0)), (6, [0, 0], 9, (0, 0, 0, 2, 2, 4)), (6, [1, 1], 9, (25, 0, 0, 0, 0, 0)), (6, [1, 0], 2 ** 63, (25, 0, 0, 0, 0, 0)),
            (6, [1, 0], LARGE, (25, 0, 0, 0, 0, 0)), (7, [1, 1], 9, (24, 0, 0, 0, 0, 0)), (LARGE, [1, 1], 9, (24, 0, 0, 0, 0, 0))):
        yield TEXT, tree, answers, limit, want
    yield TEXT + b'\n{*}[-1]p_1', 0, [1, 1], 9, (18, 0, 0, 0, 0, 0)
    yield TEXT + b' x', 0, [1, 1], 9, (17, len(TEXT) + 1, 0, 0, 0, 0)
    yield b'QS A {a}\nQS A {b}\n{*}[2]{0 A p_1 p_2}', 0, [1, 0], 9, (0, 0, 0, 1, 1, 1)
    yield b'', 0, [], 9, (17, 0, 0, 0, 0, 0)
    yield b'{*}[2]-1', 0, [1], 9, (23, 0, 0, 0, 0, 0)
    yield b'QS A {a}\n{*}[2]{0 A p_1 p_2\n-1 B p_1 p_2}', 0, [1], 9, (22, 0, 1, 0, 0, 0)
    yield b'QS A {a}\n{*}[2]{0 B 9 p_2}', 0, [1], 9, (21, 0, 0, 0, 0, 0)
    yield b'QS A {a}\n{*}[2]{0 A p_1 p_2\n-1 B p_1 p_2\n-2 A 9 p_1}', 0, [1], 9, (22, 0, 1, 0, 0, 0)
    yield b'{*}[2]{0 A p_1 p_2}', 0, [1], 9, (22, 0, 0, 0, 0, 0)


# ---- trees of more lines than are looked up at a time, of which one asks what isn't there, or refers to what isn't there

def long_tree(r, n):
    """n lines, each of which leads to the next or to a PDF; some asks Z, some refers to 9, or none."""
    names = [b'Q%d' % i for i in range(r.choice((1, 3, 40)))]
    lines = [[b'%d' % -k, r.choice(names), b'%d' % -min(k + 1, n - 1) if k + 1 < n else b'p_1', b'p_%d' % r.randint(1, 9)] for k in range(n)]
    for k in r.sample(range(n), min(n, r.choice((0, 0, 1, 2)))):
        lines[k][r.choice((1, 2))] = b'9'
    if r.random() < .3:
        lines[0][0] = lines[-1][0]
    return b'\n'.join(b'QS %s {"%s*"}' % (x, x) for x in names) + b'\n{*}[2]{ ' + b'\n'.join(b' '.join(line) for line in lines) + b' }', len(names)


def drawn(number):
    r = random.Random(7000 + number)
    if number % 8 == 7:  # any text of the judge's, broken or not
        s, questions, trees = treetexts.tree_text(number), 3, 3
    elif number % 8 == 6:
        (s, questions), trees = long_tree(r, r.choice((1, 2, 39, 40, 41, 79, 80, 81, 120))), 1
    else:
        s, questions, trees = accepting.text(r), 4, 3
    answers = [r.choice((0, 0, 1, 255)) for _ in range(r.choice((questions, questions, r.randint(0, questions))))]
    return s, r.randrange(trees + (r.random() < .1)), answers, r.choice((0, 1, 2, 3, 50, LARGE))


def cases():
    for s, tree, answers, limit, want in by_hand():
        yield s, tree, answers, limit, want
    for number in range(CASES):
        s, tree, answers, limit = drawn(number)
        s = s.encode('latin-1') if isinstance(s, str) else bytes(s)
        yield s, tree, answers, limit, bare_walk(s, tree, answers, limit)


def line(s, tree, answers, limit, want):
    return ' '.join(str(x) for x in [s.hex() or '-', tree, bytes(answers).hex() or '-', limit] + list(want)) + '\n'


def made():
    for s, tree, answers, limit, want in by_hand():
        assert bare_walk(s, tree, answers, limit) == want, (s, tree, answers, limit, want, bare_walk(s, tree, answers, limit))
    return ''.join(line(*case) for case in cases())


if __name__ == '__main__':
    if sys.argv[1:] == ['--check']:
        with open(STORED) as f:
            sys.exit(0 if f.read() == made() else 'metering: stored/bare-1.txt is not as made')
    with open(STORED, 'w') as f:
        f.write(made())
