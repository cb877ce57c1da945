#!/usr/bin/env python3
"""A second reading of 02's Wish 6, for judging the writer: tree text out of the rows of tables, written from its words. Whether a text reads back to rows is
tried, not reasoned about: what the rows seem to say is written down, read by the second reading of 01, linked, and compared.

  writing.py               makes the stored cases, stored/writes-1.txt
  writing.py --check       says whether they are as made

Tables are lists of rows: questions (start, length, first pattern, patterns), patterns (start, length), trees (state, first record, records, lines), records
(0, question, yes, no) or (1, PDF number, 0, 0)."""
import itertools
import os
import random
import re
import sys

sys.path.insert(0, os.path.join(os.path.dirname(os.path.abspath(__file__)), '..'))
import folders  # noqa: E402
import reading  # noqa: E402
import voices  # noqa: E402

STORED = os.path.join(folders.STORED, 'writes-1.txt')
LARGE = 2 ** 64 - 1
CASES = 2600


# ---- the rule

def stand_inside(first, count, rows):
    """Each of `count` things from `first` on is one of so many."""
    return count == 0 or first + count <= rows


def points_outside(data, questions, patterns, trees, records):
    """24."""
    if not all(stand_inside(start, length, len(data)) and stand_inside(first, count, len(patterns)) for start, length, first, count in questions):
        return True
    if not all(stand_inside(start, length, len(data)) for start, length in patterns):
        return True
    if any(kind == 0 and question >= len(questions) for kind, question, _, _ in records):
        return True
    for _, first, count, _ in trees:
        if not stand_inside(first, count, len(records)):
            return True
        if any(kind == 0 and max(first + yes, first + no) >= len(records) for kind, _, yes, no in records[first:first + count]):
            return True
    return False


def has_odd_byte(data, questions, patterns):
    """22."""
    names, strings = [data[a:a + n] for a, n, _, _ in questions], [data[a:a + n] for a, n in patterns]
    return any(b > 127 or b in b' \n' for name in names for b in name) or any(not re.fullmatch(rb'[A-Za-z0-9*?!#%&+\-/:=@^_|]*', s) for s in strings)


def question_text(data, patterns, row):
    start, length, first, count = row
    return b'QS %s { %s }\n' % (data[start:start + length], b', '.join(b'"%s"' % data[a:a + n] for a, n in patterns[first:first + count]))


def tree_text(data, questions, records, row):
    state, first, count, lines = row
    own = records[first:first + count]

    def reference(k):
        return b'%d' % -k if k < lines else b'"p_%d"' % own[k][1]
    if lines == 0 and count > 0:
        return b'{*} [%d] %s\n' % (state, reference(0))
    text = b'{*} [%d] {\n' % state
    for k in range(lines):
        _, q, yes, no = own[k]
        start, length, _, _ = questions[q]
        text += b'%d %s %s %s\n' % (-k, data[start:start + length], reference(no), reference(yes))
    return text + b'}\n'


def said(data, questions, patterns, trees, records):
    """The rows with strings for their starts and lengths."""
    strings = [data[a:a + n] for a, n in patterns]
    return [(data[a:a + n], f, m) for a, n, f, m in questions], strings, [tuple(t) for t in trees], [tuple(r) for r in records]


def read_back(text):
    """The same of a text; Refused where it isn't one, or doesn't link."""
    qs, trees = reading.tree_text(text, 0)
    questions, patterns, tree_rows, records = [], [], [], []
    for (a, b), ps in qs:
        questions.append((a, b - a, len(patterns), len(ps)))
        patterns += [(x, y - x) for x, y in ps]
    by_name = {text[a:b]: i for i, ((a, b), _) in enumerate(qs)}
    for t, tree in enumerate(trees):
        numbers = reading.link(tree, t, by_name, text)
        own = [numbers[i:i + 4] for i in range(0, len(numbers), 4)]
        tree_rows.append((tree[1], len(records), len(own), 0 if reading.single(tree) else len(tree[3])))
        records += own
    return said(text, questions, patterns, tree_rows, records)


def written(data, questions, patterns, trees, records):
    """Number and text."""
    if points_outside(data, questions, patterns, trees, records):
        return 24, b''
    if has_odd_byte(data, questions, patterns):
        return 22, b''
    try:
        text = b''.join([question_text(data, patterns, q) for q in questions] + [tree_text(data, questions, records, t) for t in trees])
        if read_back(text) == said(data, questions, patterns, trees, records):
            return 0, text
    except (reading.Refused, IndexError):
        pass
    return 17, b''


# ---- tables

def rows(numbers, width, count=None):
    step = len(numbers) // count if count else width
    return [tuple(numbers[i:i + width]) for i in range(0, len(numbers) - step + 1, step)]


def tables_of(model):
    """The rows of a loaded model; of a tree's row what the text says, the first four numbers."""
    return rows(model.questions, 4), rows(model.patterns, 2), rows(model.trees, 4, len(model.text[1])), rows(model.records, 4)


DATA = b'ABx*yz \xff\n"'
QUESTIONS, PATTERNS = [(0, 1, 0, 2), (1, 1, 2, 1)], [(2, 2), (4, 1), (5, 1)]
TREES = [(2, 0, 5, 2), (3, 5, 1, 0), (4, 6, 0, 0)]
RECORDS = [(0, 0, 3, 1), (0, 1, 3, 2), (1, 1, 0, 0), (1, 3, 0, 0), (1, 3, 0, 0), (1, 7, 0, 0)]
WHOLE = b'QS A { "x*", "y" }\nQS B { "z" }\n{*} [2] {\n0 A -1 "p_3"\n-1 B "p_1" "p_3"\n}\n{*} [3] "p_7"\n{*} [4] {\n}\n'


def with_row(table, i, row):
    return table[:i] + [row] + table[i + 1:]


def by_hand():
    """Worked cases: tables, and the number that they must be answered with."""
    q, p, t, r = QUESTIONS, PATTERNS, TREES, RECORDS
    yield (DATA, q, p, t, r), 0
    yield (DATA, [], [], [], []), 17
    yield (DATA, [], [], [(0, 0, 0, 0)], []), 0
    yield (b'', [], [], [(0, 0, 0, 0)], []), 0
    yield (DATA, [], [], [(0, 9, 0, 0)], []), 17
    for state, record, number in ((2, (1, 0, 0, 0), 0), (2 ** 63 - 1, (1, 0, 0, 0), 0), (2 ** 63, (1, 0, 0, 0), 17), (LARGE, (1, 0, 0, 0), 17), (2, (1, 2 ** 63 - 1, 0, 0), 0), (2, (1, 2 ** 63, 0, 0), 17),
                                  (2, (1, 1, 1, 0), 17), (2, (1, 1, 0, 1), 17), (2, (2, 0, 0, 0), 17), (2, (LARGE, 0, 0, 0), 17)):
        yield (DATA, [], [], [(state, 0, 1, 0)], [record]), number
    for row, number in (((0, 0, 0, 2), 17), ((2 ** 63, 0, 0, 2), 17), ((10, 1, 0, 2), 24), ((LARGE, 2, 0, 2), 24), ((LARGE, 0, 0, 2), 17), ((9, 1, 0, 2), 0), ((5, 2, 0, 2), 22), ((7, 1, 0, 2), 22), ((8, 1, 0, 2), 22),
                        ((0, 1, 0, LARGE), 24), ((0, 1, LARGE, 2), 24), ((0, 1, 0, 1), 17), ((0, 1, 1, 2), 17)):
        yield (DATA, with_row(q, 0, row), p, t, r), number
    for row, number in (((1, 1, 2, 0), 17), ((1, 1, 2, 2), 24), ((1, 1, 1, 2), 17), ((1, 1, 9, 0), 17), ((0, 1, 2, 1), 17)):
        yield (DATA, with_row(q, 1, row), p, t, r), number
    for row, number in (((9, 1), 22), ((2, 0), 17), ((99, 0), 17), ((10, 1), 24), ((LARGE, 2), 24), ((0, 2), 0)):
        yield (DATA, q, with_row(p, 0, row), t, r), number
    for row, number in (((5, 1), 17), ((5, 99), 24), ((6, 1), 22)):
        yield (DATA, q, p + [row], t, r), number
    for i, row, number in ((2, (4, 6, 1, 0), 24), (1, (3, 4, 1, 0), 17), (0, (2, 0, 5, 3), 17), (0, (2, 0, 5, 1), 17), (0, (2, 0, 5, 0), 17), (0, (2, 0, 5, LARGE), 17), (0, (2, 0, LARGE, 2), 24), (0, (2, LARGE, 5, 2), 24),
                           (2, (4, LARGE, 0, 0), 17), (2, (4, 6, 0, 1), 17), (0, (2, 0, 0, 0), 17)):
        yield (DATA, q, p, with_row(t, i, row), r), number
    for row, number in (((1, 1, 0, 0), 17), ((0, 2, 0, 0), 24), ((0, 1, 99, 0), 17), ((5, 99, 99, 99), 17)):
        yield (DATA, q, p, t, r + [row]), number
    for i, row, number in ((0, (0, 2, 3, 1), 24), (0, (0, 0, 6, 1), 24), (0, (0, 0, 3, 6), 24), (0, (0, 0, LARGE, 1), 24), (0, (0, 0, 5, 1), 17), (0, (0, 0, 4, 1), 17), (0, (0, 0, 3, 0), 0), (0, (1, 0, 3, 1), 17),
                           (2, (1, 3, 0, 0), 17), (2, (1, 4, 0, 0), 17), (3, (1, 2, 0, 0), 17), (4, (1, 4, 0, 0), 17), (2, (0, 0, 0, 0), 17)):
        yield (DATA, q, p, t, with_row(r, i, row)), number
    yield (DATA, q, p, [(2, 0, 5, 2), (3, 5, 1, 0)], r), 0
    yield (DATA, q, p, [(2, 0, 4, 2), (3, 4, 1, 0)], r[:4] + r[5:]), 17
    yield (DATA, with_row(q, 0, (5, 2, 0, 2)), p, t, with_row(r, 0, (0, 9, 3, 1))), 24
    yield (DATA, with_row(q, 0, (5, 2, 0, 2)), p, with_row(t, 0, (2 ** 63, 0, 5, 2)), r), 22
    one, string = [(0, 1, 0, 1)], [(2, 1)]
    for tree, records, number in (((2, 0, 3, 1), [(0, 0, 1, 1), (1, 3, 0, 0), (1, 3, 0, 0)], 17), ((2, 0, 1, 1), [(0, 0, 0, 0)], 17), ((2, 0, 2, 1), [(0, 0, 0, 1), (1, 3, 0, 0)], 0),
                                  ((2, 0, 3, 1), [(0, 0, 1, 2), (1, 3, 0, 0), (1, 1, 0, 0)], 17), ((2, 0, 3, 1), [(0, 0, 1, 2), (1, 1, 0, 0), (1, 3, 0, 0)], 0),
                                  ((2, 0, 2, 2), [(0, 0, 0, 0), (0, 0, 1, 1)], 0), ((2, 0, 2, 2), [(0, 0, 0, 0), (1, 1, 0, 0)], 17), ((2, 0, 2, 1), [(0, 0, 0, 0), (1, 1, 0, 0)], 17),
                                  ((2, 0, 4, 2), [(0, 0, 2, 1), (0, 0, 2, 2), (1, 5, 0, 0), (1, 5, 0, 0)], 17), ((2, 0, 5, 2), [(0, 0, 2, 1), (0, 0, 2, 2)] + 3 * [(1, 5, 0, 0)], 0),
                                  ((2, 0, 6, 2), [(0, 0, 2, 1), (0, 0, 2, 2)] + 4 * [(1, 5, 0, 0)], 17)):
        yield (DATA, one, string, [tree], records), number
    for name in 0, 1:
        for asked, number in ((0, 17 if name == 0 else 0), (1, 0)):
            two = [(0, 1, 0, 1), (name, 1, 1, 1)]
            yield (DATA, two, string * 2, [(2, 0, 3, 1)], [(0, asked, 1, 2), (1, 1, 0, 0), (1, 2, 0, 0)]), number
    yield (DATA, [(0, 1, 0, 1), (0, 1, 1, 1)], string * 2, [(2, 0, 1, 0)], [(1, 1, 0, 0)]), 0
    # more leaves than are counted for at once, each as often as it has to be; then one of them once too few, or out of order
    for spoil, number in ((None, 0), (0, 17), (255, 17), (256, 17), (400, 17)):
        table = many_leaves(300)
        if spoil is not None:
            kind, n, yes, no = table[300 + spoil]
            table[300 + spoil] = kind, n + (1 if spoil < 400 else 1000000), yes, no
        yield (DATA, one, string, [(2, 0, len(table), 300)], table), number


def many_leaves(lines):
    """Records of lines that go to leaves alone: yes to a leaf of few others, no to one of many."""
    numbers = sorted(n for k in range(lines) for n in (3 * k // 2, 7))
    first = {}
    for k, n in enumerate(numbers):
        first.setdefault(n, lines + k)
    return [(0, 0, first[3 * k // 2], first[7]) for k in range(lines)] + [(1, n, 0, 0) for n in numbers]


def loaded(seed):
    """Tables of loaded models, with the data that their strings stand in."""
    n = seed
    while True:
        b = voices.walking(n) if n % 2 else voices.voice(n)
        n += 1
        try:
            h = reading.Header(b)
        except reading.Refused:
            continue
        for which in range(2 * len(h.g[b'STREAM_TYPE']) + 1):
            try:
                m = reading.Model(b, h, which)
            except reading.Refused:
                continue
            if len(m.records) <= 400 and len(m.data) <= 800:
                yield (m.data, *tables_of(m))


def damaged(r, case):
    """With one number changed, a row gone, a row twice, or two swapped."""
    data, *tables = case
    tables = [list(t) for t in tables]
    for _ in range(r.choice((1, 1, 1, 2))):
        t = r.choice([t for t in tables if t] or [[(0, 0)]])
        i, kind = r.randrange(len(t)), r.random()
        if kind < .7:
            k = r.randrange(len(t[i]))
            small = [0, 1, 2, 3, len(tables[3]), t[i][k] + 1, max(0, t[i][k] - 1), LARGE, 2 ** 63, 2 ** 63 - 1, r.randrange(len(data) + 2)]
            t[i] = t[i][:k] + (r.choice(small),) + t[i][k + 1:]
        elif kind < .8:
            del t[i]
        elif kind < .9:
            t.insert(i, t[i])
        else:
            j = r.randrange(len(t))
            t[i], t[j] = t[j], t[i]
    return (data, *tables)


def small(r):
    """Small tables at random, most of them nearly right."""
    names = r.randrange(1, 4)
    data = bytes(r.choice(b'ABAB "\n\xffxy*') if r.random() < .06 else 65 + r.randrange(2) for _ in range(8))
    questions = [(r.randrange(8), 1, k, 1) for k in range(names)]
    patterns = [(r.randrange(8), 1) for _ in range(names)]
    trees, records = [], []
    for _ in range(r.randrange(1, 3)):
        lines = r.choice((0, 1, 1, 2, 3))
        numbers = sorted(r.randrange(3) for _ in range(r.choice((lines, lines + 1, 2 * lines))))
        count = lines + len(numbers) if lines else r.randrange(2)
        trees.append((r.randrange(4), len(records), count, lines))
        if lines == 0:
            records += [(1, r.randrange(4), 0, 0)] * count
            continue
        where = [lines + numbers.index(n) for n in numbers]
        goes = (where + [r.randrange(lines) for _ in range(2 * lines)])[:2 * lines]
        r.shuffle(goes)
        records += [(0, r.randrange(names), goes[2 * k], goes[2 * k + 1]) for k in range(lines)] + [(1, n, 0, 0) for n in numbers]
    return data, questions, patterns, trees, records


def cases(seed):
    """Tables, one after the other."""
    for case, _ in by_hand():
        yield case
    r = random.Random(seed)
    models = loaded(r.randrange(100000) if seed != 'writes' else 0)
    while True:
        kind = r.random()
        case = small(r) if kind < .4 else next(models)
        yield case if kind < .15 or .4 <= kind < .6 else damaged(r, case)


def line(case):
    """A stored case: the data, then of each table its rows and numbers, then the number, and the text as hex (- for none)."""
    data, *tables = case
    number, text = written(*case)
    counted = [n for t in tables for n in [len(t)] + [x for row in t for x in row]]
    return '%s %s %d %s' % (data.hex() or '-', ' '.join(map(str, counted)), number, text.hex() or '-')


def stored_case(line):
    """The tables of a stored line."""
    data, *words = line.split()
    numbers, tables = iter(map(int, words[:-1])), []
    for width in 4, 2, 4, 4:
        tables.append([tuple(next(numbers) for _ in range(width)) for _ in range(next(numbers))])
    return (bytes.fromhex(data.strip('-')), *tables)


def made():
    return ''.join(line(case) + '\n' for case in itertools.islice(cases('writes'), CASES))


if __name__ == '__main__':
    if sys.argv[1:] == ['--check']:
        if open(STORED).read() != made():
            sys.exit('writing.py: %s is not as made' % STORED)
    else:
        with open(STORED, 'w') as f:
            f.write(made())
