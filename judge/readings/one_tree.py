#!/usr/bin/env python3
"""A second reading of 02's Wish 7, its load of one tree, from its text alone: a file's trailer, and one tree of a model reached through the rows of one.

`trailer(file)` is what is to be appended. `load(file, which, tree)` is what the load needs and leaves, or the refusal. `Trees` answers the line `tree SIDE MODEL TREE HEX` of
`larsavim share` beside its others (sharing.py). `script(n)` is some calls over voices with good and damaged trailers, always the same for the same n."""
import os
import random
import struct
import sys

sys.path.insert(0, os.path.join(os.path.dirname(os.path.abspath(__file__)), '..'))
import folders  # noqa: E402
import reading  # noqa: E402
import sharing  # noqa: E402
import voices  # noqa: E402


def models(file, h):
    """The models of a voice: duration, then each stream and, unless USE_GV is 0, its GV."""
    yield 0
    for i, (a, b) in enumerate(h.g[b'STREAM_TYPE']):
        yield 2 * i + 1
        if reading.group_named(file, h.streams, file[a:b], 14).get(b'USE_GV'):
            yield 2 * i + 2


def trailer(file):
    h = reading.Header(file)
    data = file[h.data[0]:h.data[1]]
    numbers = []
    for which in models(file, h):
        tree_range, _, _ = reading.which_model(file, h, which)
        start, end = reading.inside(tree_range, len(data))
        for tree in reading.tree_text(data[:end], start)[1]:
            numbers += which, tree[0], 0 if reading.single(tree) else len(tree[3])
    numbers += len(numbers) // 3, len(file)
    body = struct.pack('<%dI' % len(numbers), *numbers)
    return body + struct.pack('<I', sum(file + body) % 2 ** 32)


def questions_of(s, start):
    c = reading.Cursor(s, start)
    found = []
    if reading.QUESTION_BEGINS.match(s, c.i):
        found.append(reading.item(c, c.question))
        while c.parted(reading.PARTING, reading.QUESTION_BEGINS):
            found.append(reading.item(c, c.question))
    return found


def load(file, which, k):
    """What is needed (rows of each table, lines), and a function that links: the five tables."""
    h = reading.Header(file)
    data = file[h.data[0]:h.data[1]]
    if len(data) < 12:
        raise reading.Refused(26)
    count, begin = struct.unpack_from('<2I', file, len(file) - 12)
    if begin + 12 * count != len(file) - 12:
        raise reading.Refused(28)
    tree_range, pdf_range, width = reading.which_model(file, h, which)
    if width > reading.WIDTH_LIMIT:
        raise reading.Refused(12)
    start, end = reading.inside(tree_range, len(data))
    stars = [star for model, star, _ in struct.iter_unpack('<3I', file[begin:len(file) - 12]) if model == which]
    if k >= len(stars):
        raise reading.Refused(24)
    s = data[:end]
    questions = questions_of(s, start)
    c = reading.Cursor(s, stars[k])
    tree = reading.item(c, c.tree)
    reading.next_tree(c)
    if tree[1] < 0:
        raise reading.Refused(18)
    start, end = reading.inside(pdf_range, len(data))
    blocks, values = reading.block(data, start, end, len(stars), width)
    first, entries = blocks[k]
    rows = [len(questions), sum(len(p) for _, p in questions), 1, reading.records_of(tree), entries * width]

    def linked():
        by_name = {s[a:b]: i for i, ((a, b), _) in enumerate(questions)}
        records = reading.link(tree, k, by_name, s)
        question_rows, patterns = [], []
        for (a, b), ps in questions:
            question_rows += a, b - a, len(patterns) // 2, len(ps)
            for x, y in ps:
                patterns += x, y - x
        lines = 0 if reading.single(tree) else len(tree[3])
        return question_rows, patterns, [tree[1], 0, len(records) // 4, lines, 0, entries], records, values[first:first + entries * width]
    return rows, len(tree[3]), width, linked


class Trees(sharing.Shared):
    def load_tree(self, side, which, k, file):
        refused = [0] * 5
        try:
            reading.Header(file)
        except reading.Refused as r:
            return [r.number, r.place, 0] + refused
        if any(self.held[side]):
            return [29, 0, 0] + refused
        if not self.stand(side):
            return [24, 0, 0] + refused
        try:
            rows, lines, width, linked = load(file, which, k)
        except reading.Refused as r:
            return [r.number, r.place, r.line] + refused
        if any(n > len(t) // w - o for n, t, w, o in zip(rows, self.tables, sharing.WIDTHS, self.held[1 - side])) or len(self.work) // 6 < lines:
            return [20, 0, 0] + refused
        self.work = [0] * len(self.work)
        try:
            alone = linked()
        except reading.Refused as r:
            for table, n in enumerate(rows):
                self.put(side, table, n, [0] * (sharing.WIDTHS[table] * n))
            return [r.number, r.place, r.line] + refused
        for table, n in enumerate(rows):
            self.put(side, table, n, alone[table])
        self.held[side], self.own[side], self.width[side] = rows, alone, width
        return [0, 0, 0] + rows

    def answer(self, line):
        verb, *words = line.split(' ')
        if verb != 'tree':
            return super().answer(line)
        return ['LOAD ' + ' '.join(map(str, self.load_tree(sharing.SIDES.index(words[0]), int(words[1]), int(words[2]), bytes.fromhex(words[3]))))]


# ---- scripts

def trailed(r):
    """A voice with its trailer, mostly a good one."""
    while True:
        file = r.choice([lambda: sharing.some_voice(r), lambda: voices.voice(r.randrange(10 ** 6))])()
        try:
            file += trailer(file)
        except (reading.Refused, struct.error):
            continue
        if len(file) < 60000:
            break
    how = r.randrange(8)
    if how == 0:  # a number of the trailer is another
        at = len(file) - 4 * r.randrange(1, 3 + (len(file) - struct.unpack_from('<I', file, len(file) - 8)[0] - 12) // 4 + 1)
        file = file[:at] + struct.pack('<I', max(0, struct.unpack_from('<I', file, at)[0] + r.choice((-1, 1, 2, 3, 1000)))) + file[at + 4:]
    elif how == 1:
        file = file[:-r.randrange(1, 16)]
    return file


def asked(r, file):
    """Mostly a model and a tree that the rows have."""
    try:
        count, begin = struct.unpack_from('<2I', file, len(file) - 12)
        rows = [model for model, _, _ in struct.iter_unpack('<3I', file[begin:begin + 12 * count])]
        at = r.randrange(len(rows))
    except (struct.error, ValueError):
        rows = []
    if not rows or r.randrange(8) == 0:
        return r.randrange(5), r.choice((0, 0, 1, 2, 9))
    return rows[at], rows[:at].count(rows[at])


def script(n, calls=12):
    r = random.Random('one tree %d' % n)
    lines = []
    for _ in range(calls):
        file = trailed(r)
        which, k = asked(r, file)
        try:
            rows, work, _, _ = load(file, which, k)
        except reading.Refused:
            rows, work = [9, 20, 3, 40, 200], 12
        room = [w * (n + r.randrange(4)) + r.randrange(w) for n, w in zip(rows, sharing.WIDTHS)] + [6 * work + r.randrange(9)]
        if r.randrange(4) == 0:  # too small by a row, or by one of its numbers
            t = r.randrange(6)
            room[t] = max(0, (sharing.WIDTHS + (6,))[t] * (rows + [work])[t] - 1)
        side = r.choice(sharing.SIDES)
        lines.append('tables ' + ' '.join(map(str, room)))
        if r.randrange(6) == 0:
            lines.append('held %s %s' % (r.choice(sharing.SIDES), ' '.join(str(r.randrange(3)) for _ in range(5))))
        lines += ['tree %s %d %d %s' % (side, which, k, file.hex()), 'show', 'walk %s 0 %s %d' % (side, '01' * 12, r.randrange(40)), 'unload ' + side, 'show']
    return lines


def answers(lines):
    shared = Trees()
    for line in lines:
        yield from shared.answer(line)
