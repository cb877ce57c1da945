#!/usr/bin/env python3
"""The files that bench/time measures: always the same. Ordinary voices of some sizes, as training tools write them, and worst cases; each worst case also at an eighth
and a sixty-fourth of its size, so that the growth is seen. As a command:  inputs.py FOLDER   writes those that are missing there."""
import os
import random
import struct
import sys

HERE = os.path.dirname(os.path.abspath(__file__))
sys.path.insert(0, os.path.join(HERE, '..', 'judge'))
import folders  # noqa: E402,F401
import voices  # noqa: E402

ORDINARY = {'0.1': (12, 60), '0.3': (41, 150), '1': (142, 400), '3.5': (524, 400), '7': (1060, 400), '14': (2130, 400)}  # megabytes: lines a tree, questions a model


def zeros(counts, width=2):
    """A PDF block of so many entries for each tree, all values 1."""
    return struct.pack('<%dI' % len(counts), *counts) + struct.pack('<f', 1) * (sum(counts) * width)


def questions(n, r=None):
    rows = list(range(n))
    if r:
        r.shuffle(rows)
    return ''.join('QS Q%d {"*-a%d+*"}\n' % (i, i) for i in rows)


def voice(text, counts):
    return voices.simple(text.encode(), zeros(counts))


def grown(r, ids, names, shape):
    """The lines of one tree with these ids, the first the root's; each other is referred to once. shape: the slot that the next line takes, among so many."""
    refs, slots, n = [[None, None] for _ in ids], [(0, 0), (0, 1)], len(ids)
    for k in range(1, n):
        i = shape(len(slots))
        slots[i], slots[-1] = slots[-1], slots[i]
        a, b = slots.pop()
        refs[a][b] = str(ids[k])
        slots += [(k, 0), (k, 1)]
    for pdf, (a, b) in enumerate(slots):
        refs[a][b] = '"x_%d"' % (pdf + 1)
    return ['%d %s %s %s' % (i, r.choice(names), a, b) for i, (a, b) in zip(ids, refs)]


def random_ids(n):
    """One tree of n lines whose ids are in random order, and so are the lines below the root."""
    r = random.Random('ids %d' % n)
    ids = [-i for i in range(1, n)]
    r.shuffle(ids)
    lines = grown(r, [0] + ids, ['Q%d' % i for i in range(400)], r.randrange)
    rest = lines[1:]
    r.shuffle(rest)
    return voice(questions(400) + '{*}[2]\n{\n' + '\n'.join(lines[:1] + rest) + '\n}\n', [n + 1])


def many_questions(n):
    """n questions in random order, and a tree of a line."""
    return voice(questions(n, random.Random('questions %d' % n)) + '{*}[2]{0 Q1 x_1 x_2}\n', [2])


def many_trees(n):
    """n trees of two lines each, and n questions in random order; the lines ask any of them."""
    r = random.Random('trees %d' % n)
    trees = ['{*}[%d]\n{\n0 Q%d -1 x_1\n-1 Q%d x_2 x_3\n}\n' % (i % 5 + 2, r.randrange(n), r.randrange(n)) for i in range(n)]
    return voice(questions(n, r) + ''.join(trees), [0] * n)


def equal_leaves(n):
    """One tree with n leaves of one PDF number."""
    return voice(questions(400) + '{*}[2]\n{\n' + '\n'.join('%d Q%d x_1 x_1' % (-i, i % 400) for i in range(n // 2)) + '\n}\n', [1])


def long_names(n):
    """n questions whose names agree in their first 2,000 bytes, and a line for each."""
    name = lambda i: 'Q' * 2000 + '%05d' % i
    return voice(''.join('QS %s {a}\n' % name(i) for i in range(n)) + '{*}[2]\n{\n' + '\n'.join('%d %s x_1 x_2' % (-i, name(i)) for i in range(n)) + '\n}\n', [2])


def all_pdf(n):
    """n values in blocks of a width of 2, and a tree of one reference."""
    return voices.simple(b'{*}[2]x_1', zeros([n // 2]))


def going_round(n):
    """n lines in one ring: no leaf is ever met."""
    return voice(questions(400) + '{*}[2]\n{\n' + '\n'.join('%d Q%d %d %d' % (-i, i % 400, -(i + 1) % -n, -(i + 1) % -n) for i in range(n)) + '\n}\n', [0])


def many_groups(n):
    """n groups in [STREAM] and as many in [POSITION], past the limit of eight."""
    b = voices.simple()
    rows = b''.join(b'VECTOR_LENGTH[G%d]:1\nNUM_WINDOWS[G%d]:1\nIS_MSD[G%d]:0\n' % (i, i, i) for i in range(n))
    ranges = b''.join(b'STREAM_WIN[G%d]:0-0\nSTREAM_PDF[G%d]:0-0\nSTREAM_TREE[G%d]:0-0\n' % (i, i, i) for i in range(n))
    return b.replace(b'[STREAM]\n', b'[STREAM]\n' + rows).replace(b'[POSITION]\n', b'[POSITION]\n' + ranges)


ROUND = 'a tree that goes round'
# name, how it is made, its largest size
WORST = [('a tree, ids at random', random_ids, 200000), ('questions', many_questions, 200000), ('trees of 2 lines, as many questions', many_trees, 100000),
         ('equal leaves', equal_leaves, 200000), ('all PDF', all_pdf, 3500000), ('names of 2,005 bytes', long_names, 3600), (ROUND, going_round, 200000),
         ('groups in the header', many_groups, 1000)]


def files(folder, small=False):
    """Name, size of a worst case (0 for an ordinary one) and path of each file, made where it is missing."""
    def kept(name, made):
        path = os.path.join(folder, name.replace(' ', '-').replace(',', '') + '.htsvoice')
        if not os.path.exists(path):
            with open(path + '.new', 'wb') as f:
                f.write(made())
            os.rename(path + '.new', path)
        return path
    os.makedirs(folder, exist_ok=True)
    for size, (lines, rows) in list(ORDINARY.items())[:1 if small else None]:
        yield 'ordinary, %s MB' % size, 0, kept('ordinary ' + size, lambda: voices.large(1, lines, rows))
    for name, made, n in [] if small else WORST:
        for k in n // 64, n // 8, n:
            yield name, k, kept('%s %d' % (name, k), lambda: made(k))


if __name__ == '__main__':
    for name, n, path in files(sys.argv[1]):
        print('%-40s %10d %12d bytes' % (name, n, os.path.getsize(path)))
