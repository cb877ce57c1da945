#!/usr/bin/env python3
"""A second reading of 02's Wish 9, from its text alone: two tasks in one set of tables, against two tasks with tables of their own.

`Shared` answers the lines of `larsavim share` (see there) as 02 says it. Beside the shared tables it keeps for each task tables of its own, into which the same models are loaded
alone, and sees after every call that a task's rows of the shared tables are those of its own. `script(n)` is some hundred calls, always the same for the same n.
As a command:  sharing.py FIRST COUNT   prints scripts and answers, for reading."""
import os
import random
import struct
import sys

sys.path.insert(0, os.path.join(os.path.dirname(os.path.abspath(__file__)), '..'))
import folders  # noqa: E402
import reading  # noqa: E402
import voices  # noqa: E402

WIDTHS = 4, 2, 6, 4, 1
NAMES = 'questions', 'patterns', 'trees', 'records', 'values'
SIDES = 'bottom', 'top'
PAINT = 0x5a5a5a5a5a5a5a5a
NOBODY = [0] * 5


def needs(file, which):
    """Rows needed of each table, and lines of the longest tree, of a model whose text and block are good, whether or not it links: 01's survey. A tree that is one
    reference counts one record, PDF or not."""
    h = reading.Header(file)
    tree_range, pdf_range, width = reading.which_model(file, h, which)
    if width > reading.WIDTH_LIMIT:
        raise reading.Refused(12)
    data = file[h.data[0]:h.data[1]]
    start, end = reading.inside(tree_range, len(data))
    questions, trees = reading.tree_text(data[:end], start)
    start, end = reading.inside(pdf_range, len(data))
    _, values = reading.block(data, start, end, len(trees), width)
    rows = [len(questions), sum(len(p) for _, p in questions), len(trees), sum(map(reading.records_of, trees)), len(values)]
    return rows, max(len(t[3]) for t in trees), width


class Shared:
    def __init__(self):
        self.tables, self.work = [[] for _ in WIDTHS], []
        self.held = [list(NOBODY), list(NOBODY)]
        self.own = [None, None]  # what each task has loaded, in tables of its own; None: nothing, or bounds that no call handed back
        self.width = [0, 0]

    # ---- where rows stand

    def first(self, side, table, rows):
        """The first number of a task's rows: the bottom's are the first of the table, the top's end at the last whole row."""
        whole = len(self.tables[table]) // WIDTHS[table]
        return WIDTHS[table] * (whole - rows) if side else 0

    def put(self, side, table, rows, numbers):
        at = self.first(side, table, rows)
        self.tables[table][at:at + WIDTHS[table] * rows] = numbers

    def cut(self, side, table):
        at, rows = self.first(side, table, self.held[side][table]), self.held[side][table]
        return self.tables[table][at:at + WIDTHS[table] * rows]

    def stand(self, side):
        """No row is both tasks', none passes its table."""
        return all(a + b <= len(t) // w for a, b, t, w in zip(self.held[side], self.held[1 - side], self.tables, WIDTHS))

    # ---- the calls

    def load(self, side, which, file):
        """Number, place, line, rows."""
        refused = [0] * 5
        try:
            reading.Header(file)
        except reading.Refused as r:
            return [r.number, r.place, 0] + refused
        if any(self.held[side]):
            return [29, 0, 0] + refused
        if not self.stand(side):
            return [24, 0, 0] + refused
        try:
            rows, lines, width = needs(file, which)
        except reading.Refused as r:
            return [r.number, r.place, r.line] + refused
        if any(n > len(t) // w - o for n, t, w, o in zip(rows, self.tables, WIDTHS, self.held[1 - side])) or len(self.work) // 6 < lines:
            return [20, 0, 0] + refused
        self.work = [0] * len(self.work)
        try:
            m = reading.Model(file, reading.Header(file), which)
        except reading.Refused as r:
            for table, n in enumerate(rows):
                self.put(side, table, n, [0] * (WIDTHS[table] * n))
            return [r.number, r.place, r.line] + refused
        alone = m.questions, m.patterns, m.trees, m.records, m.values
        for table, n in enumerate(rows):
            self.put(side, table, n, alone[table])
        self.held[side], self.own[side], self.width[side] = rows, alone, width
        return [0, 0, 0] + rows

    def unload(self, side):
        if not self.stand(side):
            return 24
        for table, n in enumerate(self.held[side]):
            self.put(side, table, n, [0] * (WIDTHS[table] * n))
        self.held[side], self.own[side] = list(NOBODY), None
        return 0

    def apart(self):
        """Each task's rows are those of its own tables."""
        return all(own is None or [list(t) for t in own] == [self.cut(side, table) for table in range(5)] for side, own in enumerate(self.own))

    # ---- a line of the script

    def answer(self, line):
        verb, *words = line.split(' ')
        if verb == 'tables':
            *lengths, work = map(int, words)
            self.__init__()
            self.tables, self.work = [[PAINT] * n for n in lengths], [PAINT] * work
            return []
        if verb == 'show':
            return ['HELD %s %s' % (name, ' '.join(map(str, held))) for name, held in zip(SIDES, self.held)] + [
                ' '.join([name.upper(), *map(str, numbers)]) for name, numbers in zip(NAMES + ('work',), [*self.tables, self.work])]
        side = SIDES.index(words[0])
        if verb == 'held':
            self.held[side], self.own[side] = [int(w) for w in words[1:]], None
            return []
        if verb == 'load':
            return ['LOAD ' + ' '.join(map(str, self.load(side, int(words[1]), bytes.fromhex(words[2]))))]
        if verb == 'unload':
            return ['UNLOAD %d' % self.unload(side)]
        inside = all(n <= len(t) // w for n, t, w in zip(self.held[side], self.tables, WIDTHS))
        if verb == 'walk':
            answers = [] if words[2] == '-' else [int(c) for c in words[2]]
            try:
                if not inside:
                    raise reading.Refused(24)
                return ['WALK 0 %d %d' % reading.walk(self.cut(side, 2), self.cut(side, 3), int(words[1]), answers, int(words[3]))]
            except reading.Refused as r:
                return ['WALK %d 0 0' % r.number]
        assert verb == 'leaves', line
        return ['LEAVES ' + ('yes' if inside and reading.leaves_fit(*[self.cut(side, t) for t in (0, 2, 3, 4)], int(words[1])) else 'no')]


# ---- scripts

def block(counts):
    return struct.pack('<%dI' % len(counts), *counts) + b''.join(struct.pack('<f', k + .5) for k in range(2 * sum(counts)))


def text(r):
    """A tree text of some questions and trees, now and then one that doesn't link."""
    names = ['Q%d' % i for i in range(r.choice((0, 1, 1, 2, 3)))]
    said = ''.join('QS %s {%s}\n' % (n, ','.join('"%s*"' % ('x' * k) for k in range(r.choice((1, 1, 2))))) for n in names)
    trees = r.choice((1, 1, 2, 3))
    for _ in range(trees):
        if not names or r.random() < .3:
            said += '{*}[2]%s\n' % ('-1' if r.random() < .1 else 'p_%d' % r.randrange(1, 3))
            continue
        lines = r.randrange(1, 4)
        body = ''
        for k in range(lines):
            ask = 'Q9' if r.random() < .1 else r.choice(names)
            no, yes = (str(-(k + 1)) if k + 1 < lines and r.random() < .8 else '-9' if r.random() < .1 else 'p_%d' % r.randrange(1, 4) for _ in range(2))
            body += '%d %s %s %s\n' % (-k, ask, no, yes)
        said += '{*}[%d]{\n%s}\n' % (r.randrange(2, 4), body)
    if r.random() < .05:
        said += 'x'
    return said.encode(), trees


def some_voice(r):
    said, trees = text(r)
    b = block([r.randrange(0, 3) for _ in range(trees)])
    if r.random() < .05:
        b += b'\0'
    return voices.simple(said, b)


def script(n, calls=60):
    """Lines for `larsavim share`, and after every call `show`."""
    r = random.Random(n)
    pool = [some_voice(r) for _ in range(5)]
    lines = ['tables ' + ' '.join(str(r.randrange(*span)) for span in ((4, 40), (2, 20), (6, 70), (8, 130), (2, 40), (0, 60)))]
    odd = (0, 0, 0, 1, 2, 3, 7, 12, 2**63, 2**64 - 1, 2**64 - 2, 2**62, 4611686018427387905)
    for _ in range(calls):
        side, kind = r.choice(SIDES), r.random()
        if kind < .55:
            lines.append('load %s %d %s' % (side, r.choice((1, 1, 1, 1, 0, 7)), r.choice(pool).hex()))
        elif kind < .8:
            lines.append('unload ' + side)
        elif kind < .9:
            lines.append('walk %s %d %s %d' % (side, r.randrange(3), ''.join(r.choice('01') for _ in range(r.randrange(4))) or '-', r.randrange(5)))
        elif kind < .96 or n % 3:
            lines.append('leaves %s 2' % side)
        else:
            lines.append('held %s %s' % (side, ' '.join(str(r.choice(odd)) for _ in range(5))))
        lines.append('show')
    return lines


def answers(lines):
    s, said = Shared(), []
    for line in lines:
        said += s.answer(line)
        if not s.apart():
            raise AssertionError('a task sees other rows than in tables of its own, after ' + line[:60])
    return said


# The worked example: tables of 2, 2, 4, 12 and 14 rows, and what is left over
V = voices.simple(b'QS A {*}\n{*}[2]{\n0 A -1 p_1\n-1 A p_2 p_1\n}\n{*}[3]p_1\n', block([2, 1]))
BROKEN = voices.simple(b'QS A {*}\n{*}[2]{\n0 A -1 p_1\n-1 B p_2 p_1\n}\n{*}[3]p_1\n', block([2, 1]))

if __name__ == '__main__':
    for n in range(int(sys.argv[1]), int(sys.argv[1]) + int(sys.argv[2])):
        lines = script(n)
        print('\n'.join(line[:100] for line in lines))
        print('\n'.join(answers(lines)))
