#!/usr/bin/env python3
"""Makes the stored walks and leaf checks over tables, crates/replay_tables/stdin: tables.py [--check | SEED]   (--check: only says whether it is as made; SEED: prints others)

The tables are some by hand, those of loaded models, whole and with one number changed, and small ones at random; among them trees that go round, rows that claim
2^64 - 1 records, tables that end in the middle of a row. The answers are the second reading's."""
import os
import random
import sys

sys.path.insert(0, os.path.join(os.path.dirname(os.path.abspath(__file__)), '..'))
import folders  # noqa: E402
import reading  # noqa: E402
import voices  # noqa: E402

PROGRAM = os.path.join(folders.JUDGE, '..', 'crates', 'replay_tables')
MOST = 256    # numbers of a table, as the program has room for
ROOM = 65536  # bytes of input
LARGE = 2 ** 64 - 1
STORED = 'tables'


def models(n):
    """Small models of voices, one after the other."""
    while True:
        b = voices.walking(n) if n % 2 else voices.voice(n)
        n += 1
        try:
            h = reading.Header(b)
        except reading.Refused:
            continue
        for which in range(2 * len(h.g[b'STREAM_TYPE']) + 1):
            try:
                m = reading.Model(b, h, which)
            except reading.Refused:
                continue
            if max(map(len, (m.questions, m.trees, m.records, m.values))) <= MOST:
                yield m


def changed(r, t, numbers):
    """A table with one number changed, or cut."""
    t = list(t)
    if t and r.random() < .7:
        t[r.randrange(len(t))] = r.choice(numbers)
    elif t:
        del t[r.randrange(len(t)):]
    return t


def walk_tables(r, ms):
    """Trees and records."""
    kind = r.randrange(5)
    if kind < 2:
        m = next(m for m in ms if len(m.records) > 8)
        trees, records = list(m.trees), list(m.records)
        if kind:
            small = list(range(6)) + [len(records) // 4, LARGE]
            trees, records = changed(r, trees, small), changed(r, records, small)
        return trees, records
    rows = r.randrange(1, 8)
    some = lambda: r.randrange(rows) if r.random() < .95 else r.choice((rows, LARGE))
    records = [n for _ in range(rows) for n in (r.choice((0,) * 12 + (1,) * 5 + (2,)), some(), some(), some())] + [0] * r.choice((0, 0, 0, 3))
    trees = [n for _ in range(r.randrange(1, 3)) for n in (2, r.choice((0,) * 8 + (1, rows, LARGE)), r.choice((rows,) * 6 + (rows - 1, rows + 1, LARGE, LARGE)), 0, 0, 1)] + [0] * r.choice((0, 0, 0, 5))
    return trees, records


def a_walk(r, trees):
    """Tree, answers, limit."""
    n = len(trees) // 6
    tree = r.randrange(n) if n and r.random() < .95 else n
    return tree, [r.choice((0, 0, 1, 255)) for _ in range(r.choice((8, 8, 8, 8, 8, 0, 2, 4)))], r.choice((0, 1, 2, 3, 4, 5, 1000, LARGE, LARGE, LARGE))


def leaf_tables(r, ms):
    m = next(m for m in ms if len(m.values) <= 40)
    tables = [m.questions, m.trees, m.records, m.values]
    width = m.width
    if r.random() < .7:
        k = r.randrange(4)
        tables[k] = changed(r, tables[k], [0, 1, 2, 3, len(m.records) // 4, len(m.values), LARGE])
    if r.random() < .2:
        width = r.choice((0, 1, width + 1, LARGE))
    return tables, width


def counted(t):
    return [len(t)] + list(t)


def answered(trees, records, tree, answers, limit):
    try:
        return [0, *reading.walk(trees, records, tree, answers, limit)]
    except reading.Refused as refused:
        return [refused.number, 0, 0]


def walk_case(trees, records, walks):
    return [0] + counted(trees) + counted(records) + [len(walks)] + [n for t, a, l in walks for n in [t] + counted(a) + [l] + answered(trees, records, t, a, l)]


def leaf_case(tables, width):
    return [1] + [n for t in tables for n in counted(t)] + [width, int(reading.leaves_fit(*tables, width))]


def by_hand():
    # a line that leads to itself, in trees that claim one record, more than the table has, and as many as can be said
    for count in 1, 2, LARGE:
        yield walk_case([2, 0, count, 1, 0, 0], [0, 0, 0, 0], [(0, [1], limit) for limit in (0, 1, 2, LARGE)] + [(0, [], LARGE), (1, [1], 1)])
    # every record is met: a leaf at the end, the first again, one past the last
    for end in (1, 7, 0, 0), (0, 0, 0, 0), (0, 0, 4, 4):
        yield walk_case([2, 0, 4, 3, 0, 7], [0, 0, 1, 1, 0, 0, 2, 2, 0, 0, 3, 3] + list(end), [(0, [0], limit) for limit in (2, 3, 4, 5, LARGE)])
    # first and count whose sum passes 2^64
    yield walk_case([2, LARGE, LARGE, 0, 0, 0, 2, 1, LARGE, 0, 0, 0], [1, 5, 0, 0, 1, 6, 0, 0], [(0, [], 9), (1, [], 9)])
    # 24 of the question that would pass the limit
    yield walk_case([2, 0, 5, 2, 0, 3], [0, 0, 3, 1, 0, 1, 3, 2, 1, 1, 0, 0, 1, 3, 0, 0, 1, 3, 0, 0], [(0, a, limit) for a in ([1, 0], [0, 255], [0, 0], [0]) for limit in (0, 1, 2)])
    # one whole row, and all of another but its last number; first value and entries are no matter of the walk
    yield walk_case([2, 0, 1, 0, LARGE, LARGE, 2, 0, 1, 0, 0], [1, 7, 0, 0], [(0, [], 0), (1, [], 0)])
    whole, width = [[0, 1, 0, 0], [2, 0, 3, 1, 0, 2], [0, 0, 1, 2, 1, 1, 0, 0, 1, 2, 0, 0], [0] * 4], 2
    for w in 0, 1, 2, 3, LARGE:
        yield leaf_case(whole, w)
    for table, place, number in ((1, 0, LARGE), (1, 1, 1), (1, 2, 4), (1, 2, 0), (1, 3, LARGE), (1, 4, 1), (1, 4, LARGE), (1, 5, 1), (1, 5, 3), (1, 5, 2 ** 63), (1, 5, LARGE),
                                 (2, 0, 2), (2, 1, 1), (2, 2, 3), (2, 3, 3), (2, 5, 0), (2, 5, 2), (2, 5, 3), (2, 6, 9), (2, 9, 3)):
        yield leaf_case([t[:place] + [number] + t[place + 1:] if k == table else t for k, t in enumerate(whole)], width)
    # a leaf 0 in each place, with entries and without, at width 0, in the second tree, in a record of no tree, shared by two trees; a line that asks question 0 is no leaf
    for place in 5, 9:
        for entries in 0, 1, 2:
            for w in 0, width:
                yield leaf_case([whole[0], whole[1][:5] + [entries], whole[2][:place] + [0] + whole[2][place + 1:], whole[3]], w)
    for second in (2, 3, 1, 0, 0, 2), (2, 1, 1, 0, 0, 2), (2, 3, 0, 0, 0, 2):
        yield leaf_case([whole[0], whole[1] + list(second), whole[2] + [1, 0, 0, 0], whole[3]], width)
    yield leaf_case([[], [2, 0, 1, 0, 0, 1, 2, 0, 1, 0, 1, 1], [1, 0, 0, 0], [0] * 2], 1)
    yield leaf_case([[], [2, 0, 1, 0, 0, 1], [1, 1, 9, 9], [0]], 1)
    # a leaf by its own tree's entries, not by its neighbour's, before it and behind it
    for few, many in (1, 2), (2, 1):
        yield leaf_case([[], [2, 0, 1, 0, 0, few, 2, 1, 1, 0, few, many], [1, 2, 0, 0, 1, 1, 0, 0], [0] * 3], 1)
    # values that end with the table and one past it; no records and no entries, wherever they start; a rest is no tree
    for n in 11, 10:
        yield leaf_case([[], [2, 0, 0, 0, 5, 2], [], [0] * n], 3)
    yield leaf_case([[], [2, LARGE, 0, 0, LARGE, 0], [], []], width)
    yield leaf_case(whole[:1] + [whole[1] + [2, LARGE, 9, 9, LARGE]] + whole[2:], width)


def cases(seed):
    """Of each case its numbers."""
    yield from by_hand()
    r = random.Random(seed)
    ms = models(r.randrange(100000) if seed != STORED else 0)
    while True:
        if r.random() < .2:
            yield leaf_case(*leaf_tables(r, ms))
        else:
            trees, records = walk_tables(r, ms)
            yield walk_case(trees, records, [a_walk(r, trees) for _ in range(6)])


def stored(seed):
    lines, size = [], 16
    for numbers in cases(seed):
        line = ' '.join(map(str, numbers))
        size += len(line) + 1
        if size > ROOM:
            return '%d\n%s\n' % (len(lines), '\n'.join(lines))
        lines.append(line)


if __name__ == '__main__':
    path = os.path.join(PROGRAM, 'stdin')
    if sys.argv[1:] == ['--check']:
        if open(path).read() != stored(STORED):
            sys.exit('tables.py: %s is not as made' % path)
    elif sys.argv[1:]:
        print(stored(sys.argv[1]), end='')
    else:
        with open(path, 'w') as f:
            f.write(stored(STORED))
