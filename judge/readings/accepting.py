#!/usr/bin/env python3
"""A second reading of 02's Wish 13, for judging what is said of somebody else's record rows: written from its words, over the second reading of 01.

  accepting.py               makes the stored cases, stored/accepts-1.txt
  accepting.py --check       says whether they are as made

A case is a text, a tree number, rows (lists of four numbers), number, place and line of the answer; of accepted rows also how walks over the text end, each with its answers,
its limit, number, PDF number and questions asked: a walk over the rows must end so."""
import os
import random
import sys

sys.path.insert(0, os.path.join(os.path.dirname(os.path.abspath(__file__)), '..'))
import folders  # noqa: E402
import reading  # noqa: E402
import treetexts  # noqa: E402

STORED = os.path.join(folders.STORED, 'accepts-1.txt')
CASES = 2400
LARGE = 2 ** 64 - 1


# ---- the rule

def of_lines(s, questions, tree, rows):
    """Lines first in order with the right questions, ids to the last line, PDFs to a leaf of that number; behind the lines leaves alone."""
    lines = tree[3]
    row_of = {s[a:b]: i for i, ((a, b), _) in enumerate(questions)}
    line_of = {ident: k for k, (ident, _, _, _) in enumerate(lines)}

    def goes(reference, to):
        kind, n = reference
        return to == line_of[n] if kind == 'N' else to < len(rows) and rows[to] == [1, n, 0, 0]

    if len(rows) < len(lines) or any(kind != 1 or (a, b) != (0, 0) for kind, _, a, b in rows[len(lines):]):
        return False
    return all(row[:2] == [0, row_of[s[a:b]]] and goes(yes, row[2]) and goes(no, row[3]) for (_, (a, b), no, yes), row in zip(lines, rows))


def accepts(s, number, rows):
    """Number, place and line."""
    try:
        questions, trees = reading.tree_text(s, 0)
        if number >= len(trees):
            return 24, 0, 0
        tree = trees[number]
        reading.link(tree, number, {s[a:b]: i for i, ((a, b), _) in enumerate(questions)}, s)
    except reading.Refused as r:
        return r.number, r.place, r.line
    one = reading.single(tree)
    if one:
        fits = rows == [[1, one[1], 0, 0]]
    else:
        fits = of_lines(s, questions, tree, rows) if tree[3] else rows == []
    return (0 if fits else 37), 0, 0


# ---- the worked cases of docs/READINGS.md

TEXT = b'QS A { "a*" }\nQS B { "b*" }\n' + b'\n'.join((
    b'{*}[2]{ 0 A -1 p_3\n-1 B p_1 p_3 }', b'{*}[3]p_7', b'{*}[4]{}', b'{*}[5]{ 0 Z p_4 p_4 }', b'{*}[6]{ 0 A 9 p_1 }', b'{*}[7]{ 0 A p_1 p_2\n0 A 0 p_2 }'))
OURS = [[0, 0, 3, 1], [0, 1, 3, 2], [1, 1, 0, 0], [1, 3, 0, 0], [1, 3, 0, 0]]
MERGED = [[0, 0, 2, 1], [0, 1, 2, 3], [1, 3, 0, 0], [1, 1, 0, 0]]


def by_hand():
    yes, no = (0, 0, 0), (37, 0, 0)
    for tree, rows, want in (
            (0, OURS, yes), (0, MERGED, yes), (0, [[0, 0, 4, 1]] + OURS[1:] + [[1, 99, 0, 0]], yes), (0, OURS[:3], no), (0, [[0, 1, 2, 1]] + MERGED[1:], no),
            (0, [MERGED[1], MERGED[0]] + MERGED[2:], no), (0, MERGED[:2] + [[1, 3, 0, 1], [1, 1, 0, 0]], no), (0, MERGED + [[0, 0, 2, 2]], no), (0, [], no),
            (1, [[1, 7, 0, 0]], yes), (1, [[1, 7, 0, 0]] * 2, no), (1, [[1, 8, 0, 0]], no), (2, [], yes), (2, [[1, 1, 0, 0]], no),
            (3, [[1, 4, 0, 0]], yes), (3, [[0, 0, 1, 1], [1, 4, 0, 0]], no), (4, OURS, (21, 4, 0)), (4, [], (21, 4, 0)),
            (5, [[0, 0, 3, 2], [0, 0, 3, 1], [1, 1, 0, 0], [1, 2, 0, 0]], yes), (5, [[0, 0, 3, 2], [0, 0, 3, 0], [1, 1, 0, 0], [1, 2, 0, 0]], no),
            (6, OURS, (24, 0, 0)), (LARGE, [], (24, 0, 0)), (0, OURS + [[1, LARGE, 0, 0], [1, 0, 0, 0]], yes)):
        yield TEXT, tree, rows, want
    yield TEXT + b'\n{*}[-1]p_1', 0, OURS, (18, 0, 0)
    yield TEXT + b' x', 0, OURS, (17, len(TEXT) + 1, 0)
    yield b'', 0, [], (17, 0, 0)
    yield b'{*}[2]-1', 0, [[1, 1, 0, 0]], (23, 0, 0)
    yield b'QS A {a}\n{*}[2]{0 B p_1 p_2}', 0, [[0, 0, 1, 2], [1, 1, 0, 0], [1, 2, 0, 0]], (22, 0, 0)
    yield b'QS A {a}\nQS A {b}\n{*}[2]{0 A p_1 p_2}', 0, [[0, 1, 2, 1], [1, 1, 0, 0], [1, 2, 0, 0]], yes
    yield b'QS A {a}\nQS A {b}\n{*}[2]{0 A p_1 p_2}', 0, [[0, 0, 2, 1], [1, 1, 0, 0], [1, 2, 0, 0]], no


# ---- drawn cases: a text, our own rows for a tree of it, and what a supplier or an accident makes of them

def text(r):
    """A text whose trees mostly link: ids in order, in disorder, twice; names twice."""
    names = ['A', 'B', 'C', 'B'][:r.randint(1, 4)]
    out = [b'QS %s { "%s*" }' % (n.encode(), n.lower().encode()) for n in names]
    for t in range(r.randint(1, 3)):
        n = r.choice((0, 1, 1, 2, 3, 4, 6))
        if r.random() < .2:
            out.append(b'{*}[%d]%s' % (t + 2, r.choice((b'p_3', b'"p_4"', b'0'))))
            continue
        ids = [-k for k in range(n)]
        if r.random() < .4:
            ids = [r.choice((0, -1, -2, 5, 2 ** 63 - 1, -2 ** 63)) for _ in ids]
        lines = []
        for k in range(n):
            refs = [b'%d' % r.choice(ids + [9] * (r.random() < .05)) if r.random() < .4 else b'p_%d' % r.randint(0, 3) for _ in '12']
            lines.append(b'%d %s %s' % (ids[k], r.choice(names + ['Z'] * (r.random() < .04)).encode(), b' '.join(refs)))
        out.append(b'{*}[%d]{ %s }' % (t + 2, b'\n'.join(lines)))
    return b'\n'.join(out)


def own_rows(s, number):
    questions, trees = reading.tree_text(s, 0)
    flat = reading.link(trees[number], number, {s[a:b]: i for i, ((a, b), _) in enumerate(questions)}, s)
    return [flat[i:i + 4] for i in range(0, len(flat), 4)]


def rearranged(r, rows):
    """Leaves in another order, repeats merged or not, some more, either of equal ones chosen."""
    n = sum(row[0] == 0 for row in rows)
    leaves = [row[1] for row in rows[n:]]
    if r.random() < .5:
        leaves = sorted(set(leaves))
    leaves += [r.randint(0, 4) for _ in range(r.choice((0, 0, 1, 2)))]
    r.shuffle(leaves)

    def to(k):
        return k if k < n else n + r.choice([i for i, x in enumerate(leaves) if x == rows[k][1]])
    return [[0, q, to(y), to(m)] for _, q, y, m in rows[:n]] + [[1, x, 0, 0] for x in leaves]


def damaged(r, rows):
    rows = [list(row) for row in rows]
    way = r.randrange(6)
    if way == 0 and rows:
        del rows[r.randrange(len(rows))]
    elif way == 1:
        rows.insert(r.randint(0, len(rows)), [r.choice((0, 1, 2)), r.randint(0, 3), r.choice((0, 0, 1)), r.choice((0, 0, 2))])
    elif way == 2 and len(rows) > 1:
        i = r.randrange(len(rows) - 1)
        rows[i], rows[i + 1] = rows[i + 1], rows[i]
    elif rows:
        rows[r.randrange(len(rows))][r.randrange(4)] = r.choice((0, 1, 2, 3, 4, 7, LARGE))
    return rows


def drawn(number):
    r = random.Random(number)
    if number % 8 == 7:  # any text of the judge's, broken or not
        return treetexts.tree_text(number), r.randint(0, 2), [[1, r.randint(0, 3), 0, 0] for _ in range(r.randint(0, 2))]
    s = text(r)
    try:
        count = len(reading.tree_text(s, 0)[1])
        tree = r.randrange(count)
        rows = own_rows(s, tree)
    except reading.Refused:
        return s, r.randint(0, 3), [[r.randint(0, 1), r.randint(0, 3), 0, 0] for _ in range(r.randint(0, 3))]
    if r.random() < .7 and rows and rows[0][0] == 0:
        rows = rearranged(r, rows)
    if r.random() < .5:
        rows = damaged(r, rows)
    return s, tree, rows


def cases():
    for s, tree, rows, want in by_hand():
        yield s, tree, rows, want
    for number in range(CASES):
        s, tree, rows = drawn(number)
        s = s.encode('latin-1') if isinstance(s, str) else bytes(s)
        yield s, tree, rows, accepts(s, tree, rows)


def walks(s, number, r):
    """Some walks over the text as it is written: all answers of up to three questions, and fewer."""
    questions, trees = reading.tree_text(s, 0)
    written = reading.WrittenTree(s, questions, trees[number])
    for _ in range(4):
        answers = [r.randint(0, 1) for _ in range(max(0, len(questions) - (r.random() < .2)))]
        limit = r.choice((0, 1, 2, 9, LARGE))
        try:
            pdf, asked = written.walk(answers, limit)
            yield answers, limit, 0, pdf, asked
        except reading.Refused as refused:
            yield answers, limit, refused.number, 0, 0


def line(s, tree, rows, want):
    words = [s.hex() or '-', tree, len(rows)] + [x for row in rows for x in row] + list(want)
    if want[0] == 0:
        for answers, limit, number, pdf, asked in walks(s, tree, random.Random(len(s) + tree)):
            words += [''.join(map(str, answers)) or '-', limit, number, pdf, asked]
    return ' '.join(map(str, words))


def made():
    return ''.join(line(*case) + '\n' for case in cases())


def main(argv):
    if argv == ['--check']:
        with open(STORED) as f:
            sys.exit(0 if f.read() == made() else 'accepting.py: stored/accepts-1.txt is not as made')
    with open(STORED, 'w') as f:
        f.write(made())


if __name__ == '__main__':
    main(sys.argv[1:])
