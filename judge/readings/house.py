#!/usr/bin/env python3
"""A second reading of 02's Wish 11, for judging the judge of house voices: written from its words, over the second readings of 01 and of Wish 9.

  house.py               makes the stored cases, stored/house-1.txt
  house.py --check       says whether they are as made
  house.py FILE..        number, place, line and model of each voice, in tables of just the rows that its largest model needs

A case is a file as hex, the side, the lengths of the five tables and of the work, the task's own bounds, the other's, then number, place, line and model of the answer, the task's bounds
afterwards, and each table and the work afterwards, mixed to one number each. Before the call every number of them is 5a5a5a5a5a5a5a5a."""
import math
import os
import random
import struct
import sys

sys.path.insert(0, os.path.join(os.path.dirname(os.path.abspath(__file__)), '..'))
import folders  # noqa: E402
import reading  # noqa: E402
import sharing  # noqa: E402
import trailing  # noqa: E402
import voices  # noqa: E402

STORED = os.path.join(folders.STORED, 'house-1.txt')
CASES = 560
WIDTHS = sharing.WIDTHS
LARGE = 2 ** 64 - 1


# ---- the rules

def ids_run(tree):
    """Ids 0, -1, -2 in line order; a lone reference has none."""
    _, _, lone, lines = tree
    return lone is not None or all(line[0] == -k for k, line in enumerate(lines))


def leaves_of(tree):
    """The PDF numbers that a tree refers to."""
    _, _, lone, lines = tree
    references = [lone] if lone is not None else [reference for line in lines for reference in line[2:]]
    return [n for kind, n in references if kind == 'P']


def number_of(bits):
    return struct.unpack('<d', struct.pack('<Q', bits))[0]


def pairs(m):
    """Mean and variance of every parameter of every entry, whether or not a leaf names it; what an odd width leaves is msd."""
    for entry in range(0, len(m.values), m.width or 1):
        for k in range(m.width // 2):
            yield number_of(m.values[entry + 2 * k]), number_of(m.values[entry + 2 * k + 1])


def rule_of(m):
    """The first rule that a loaded model breaks, or 0."""
    questions, trees = m.text
    names = [m.data[a:b] for (a, b), _ in questions]
    entries = m.trees[5::6]
    if not all(ids_run(tree) for tree in trees):
        return 32
    if len(set(names)) < len(names):
        return 33
    if not all(1 <= n <= count for tree, count in zip(trees, entries) for n in leaves_of(tree)):
        return 34
    if not all(math.isfinite(mean) for mean, _ in pairs(m)):
        return 35
    if not all(math.isfinite(variance) and variance > 0 for _, variance in pairs(m)):
        return 36
    return 0


def rule_of_streams(file, h):
    """The two that are judged once."""
    names = [file[a:b] for a, b in h.g[b'STREAM_TYPE']]
    if h.g[b'NUM_STREAMS'] != len(names):
        return 30
    return 31 if len(set(names)) < len(names) else 0


class House(sharing.Shared):
    def house(self, side, file):
        """Number, place, line, model."""
        if any(self.held[side]):
            return [29, 0, 0, 0]
        if not self.stand(side):
            return [24, 0, 0, 0]
        try:
            h = reading.Header(file)
        except reading.Refused as r:
            return [r.number, r.place, 0, 0]
        broken = []
        for which in trailing.models(file, h):
            self.unload(side)
            number, place, line, *_ = self.load(side, which, file)
            if number:
                return [number, place, line, which]
            broken.append((rule_of(reading.Model(file, h, which)), which))
        told = [(rule_of_streams(file, h), 0)] + broken
        return next(([rule, 0, 0, which] for rule, which in told if rule), [0] * 4)

    def answer(self, line):
        verb, *words = line.split(' ')
        if verb != 'house':
            return super().answer(line)
        return ['HOUSE ' + ' '.join(map(str, self.house(sharing.SIDES.index(words[0]), bytes.fromhex(words[1]))))]


# ---- a call in tables of some lengths

def mixed(numbers):
    """Many numbers as one."""
    sum_so_far = 0xcbf29ce484222325
    for n in numbers:
        sum_so_far = ((sum_so_far ^ n) * 0x100000001b3) % 2 ** 64
    return sum_so_far


class Call:
    """What is lent, and what the call answers and leaves."""
    def __init__(self, file, side, lengths, held=sharing.NOBODY, other=sharing.NOBODY):
        self.file, self.side, self.lengths, self.held, self.other = file, side, list(lengths), list(held), list(other)
        s = House()
        s.answer('tables ' + ' '.join(map(str, lengths)))
        own = side if side < 2 else 0
        s.held[own], s.held[1 - own] = list(held), list(other)
        if side < 2 or any(held):
            self.told = s.house(own, file)
        else:  # no such side
            self.told = [24, 0, 0, 0]
        assert s.held[1 - own] == list(other)
        self.after, self.tables = s.held[own], [*s.tables, s.work]

    def line(self):
        numbers = [self.side, *self.lengths, *self.held, *self.other, *self.told, *self.after, *map(mixed, self.tables)]
        return ' '.join([self.file.hex() or '-', *map(str, numbers)]) + '\n'


def read(line):
    """A stored line as a call."""
    words = line.split()
    n = [int(w) for w in words[1:]]
    return Call(bytes.fromhex(words[0].strip('-')), n[0], n[1:7], n[7:12], n[12:17])


def room_for(file):
    """Numbers of each table and of the work that the models of a voice need, each by itself; of what is refused some."""
    rows, lines = [1] * 5, 1
    try:
        for which in trailing.models(file, reading.Header(file)):
            need, longest, _ = sharing.needs(file, which)
            rows, lines = [max(*x) for x in zip(rows, need)], max(lines, longest)
    except reading.Refused:
        pass
    return [n * w for n, w in zip(rows, WIDTHS)] + [6 * lines]


def judged(file):
    """By itself, in tables of just the rows that the largest model needs."""
    return Call(file, 0, room_for(file)).told


# ---- the worked cases of docs/READINGS.md

GOOD = b'{*}[2]p_1'
ONE = 0x3f800000
PLAIN = [ONE, ONE]  # an entry of width 2: its mean, its variance
NAN, INFINITE = 0x7fc00000, 0x7f800000


def voice(text=GOOD, entries=(PLAIN,), counts=None, duration=(b'{*}[2]d_1', (PLAIN,)), states=1, length=1, msd=0, gv=None, swap=()):
    """A voice of a duration model and of one stream M; an entry is all its means, all its variances and perhaps msd, as the file has them. gv: its text, entries; `swap` replaces parts of the header."""
    def block(some, n=None):
        return voices.pdf(n or [len(some)], [x for entry in some for x in entry])
    data, where = b'', {}
    for name, part in ('DT', duration[0]), ('DP', block(duration[1])), ('T', text), ('P', block(entries, counts)), ('GT', gv and gv[0]), ('GP', gv and block(gv[1])):
        if part is not None:
            where[name] = b'%d-%d' % (len(data), len(data) + len(part) - 1)
            data += part
    head = b'[GLOBAL]\nHTS_VOICE_VERSION:1\nSAMPLING_FREQUENCY:1\nFRAME_PERIOD:1\nNUM_STATES:%d\nNUM_STREAMS:1\nSTREAM_TYPE:M\nFULLCONTEXT_FORMAT:x\nFULLCONTEXT_VERSION:1\n' % states
    head += b'[STREAM]\nVECTOR_LENGTH[M]:%d\nNUM_WINDOWS[M]:1\nIS_MSD[M]:%d\nUSE_GV[M]:%d\n' % (length, msd, gv is not None)
    head += b'[POSITION]\nDURATION_PDF:%s\nDURATION_TREE:%s\nSTREAM_WIN[M]:0-0\nSTREAM_PDF[M]:%s\nSTREAM_TREE[M]:%s\n' % (where['DP'], where['DT'], where['P'], where['T'])
    if gv:
        head += b'GV_PDF[M]:%s\nGV_TREE[M]:%s\n' % (where['GP'], where['GT'])
    for old, new in swap:
        assert old in head
        head = head.replace(old, new)
    return head + b'[DATA]\n' + data


def sample():
    with open(os.path.join(folders.JUDGE, '..', 'host', 'sample', 'shichi.htsvoice'), 'rb') as f:
        return f.read()


def by_hand():
    """A file, and number and model of the answer; 17 to 23 with place and line."""
    asks = lambda lines: b'QS A {a}\nQS B {b}\n{*}[2]{' + lines + b'}'
    two_names = (b'STREAM_TYPE:M', b'STREAM_TYPE:M,M')
    two_streams = (b'NUM_STREAMS:1', b'NUM_STREAMS:2')
    yield voice(), (0, 0)
    # ids: in line order, also of a bare leaf in braces and of lines that no path reaches
    for lines, rule in ((b'5 A p_1 p_1', 32), (b'0 A p_1 p_1', 0), (b'-0 A -1 p_1\n-1 A p_1 p_1', 0), (b'0 A -1 p_1\n-1 A p_1 p_1\n-1 B p_1 p_1', 32), (b'0 A -2 p_1\n-2 A p_1 p_1\n-1 B p_1 p_1', 32),
                        (b'0 A p_1 p_1\n1 A p_1 p_1', 32), (b'0 A p_1 p_1\n-1 B p_1 p_1', 0), (b'0 A 0 p_1', 0), (b'-1 A p_1 p_1\n0 B p_1 p_1', 32), (b'', 0)):
        yield voice(asks(lines)), (rule, 1 if rule else 0)
    yield voice(GOOD + b'\n{*}[3]{0 A p_1 p_1\n}\n{*}[4]{-1 A p_1 p_1}', [PLAIN] * 3, [1, 1, 1]), (32, 1)
    # names, whether or not they are asked; the same name in two models
    yield voice(b'QS A {x}\nQS A {y}\n' + GOOD), (33, 1)
    yield voice(b'QS A {x}\nQS B {y}\nQS A {x}\n{*}[2]{0 B p_1 p_1\n-1 A p_1 p_1}'), (33, 1)
    yield voice(b'QS A {x}\n' + GOOD, duration=(b'QS A {x}\n{*}[2]d_1', (PLAIN,))), (0, 0)
    yield voice(b'QS A {x}\nQS AA {x}\nQS a {x}\n' + GOOD), (0, 0)
    # leaves, each by the entries of its own tree
    for text, entries, counts, rule in ((b'{*}[2]p_0', [PLAIN], None, 34), (b'{*}[2]p_2', [PLAIN], None, 34), (b'{*}[2]p_2', [PLAIN] * 2, None, 0), (GOOD, [], [0], 34), (b'{*}[2]{}', [], [0], 0),
                                        (GOOD + b'\n{*}[3]p_2', [PLAIN] * 3, [2, 1], 34), (GOOD + b'\n{*}[3]p_2', [PLAIN] * 3, [1, 2], 0), (asks(b'0 A p_1 p_2'), [PLAIN], None, 34),
                                        (asks(b'0 A p_0 p_1'), [PLAIN], None, 34), (asks(b'0 A p_9223372036854775807 p_1'), [PLAIN], None, 34)):
        yield voice(text, entries, counts), (rule, 1 if rule else 0)
    # means and variances of all entries, in pairs by their number, msd free
    for mean in 0, 0x80000000, 1, 0xff7fffff, 0xbf800000:
        yield voice(entries=[[mean, ONE]]), (0, 0)
    for mean in INFINITE, 0xff800000, NAN, 0x7f800001, 0xffc00000:
        yield voice(entries=[[mean, ONE]]), (35, 1)
    for variance in 0, 0x80000000, NAN, 0x7f800001, INFINITE, 0xff800000, 0xbf800000, 0x80000001, 0xffc00001:
        yield voice(entries=[[ONE, variance]]), (36, 1)
    for variance in 1, 0x7fffff, 0x800000, 0x7f7fffff:
        yield voice(entries=[[ONE, variance]]), (0, 0)
    yield voice(entries=[[ONE, 0], [NAN, ONE]]), (35, 1)
    yield voice(entries=[PLAIN, [ONE, 0]]), (36, 1)  # no leaf names entry 2
    yield voice(entries=[[ONE, 0xbf800000, ONE, ONE]], length=2), (0, 0)  # the second mean is negative
    yield voice(entries=[[ONE, ONE, 0, ONE]], length=2), (36, 1)
    yield voice(entries=[[ONE, ONE, ONE, 0]], length=2), (36, 1)
    yield voice(entries=[[0, NAN, ONE, ONE]], length=2), (35, 1)
    for free in NAN, 0, INFINITE, 0xbf800000:
        yield voice(entries=[[ONE, ONE, free]], msd=1), (0, 0)
    yield voice(entries=[[ONE, 0, ONE]], msd=1), (36, 1)
    yield voice(entries=[[NAN]], length=0, msd=1), (0, 0)  # width 1 has no pair
    # one rule after the other, each over the whole model
    yield voice(b'QS A {x}\nQS A {y}\n{*}[2]{5 A p_0 p_0}', [[NAN, 0]]), (32, 1)
    yield voice(b'QS A {x}\nQS A {y}\n{*}[2]p_0', [[NAN, 0]]), (33, 1)
    yield voice(b'{*}[2]p_0', [[NAN, 0]]), (34, 1)
    yield voice(entries=[[NAN, 0]]), (35, 1)
    # NUM_STREAMS and STREAM_TYPE, before every model's rules
    yield voice(swap=((b'STREAM_TYPE:M', b'STREAM_TYPE:'),)), (30, 0)
    yield voice(swap=((b'STREAM_TYPE:M', b'STREAM_TYPE:'), (b'NUM_STREAMS:1', b'NUM_STREAMS:0'))), (0, 0)
    yield voice(swap=(two_names, two_streams)), (31, 0)
    yield voice(swap=(two_names,)), (30, 0)
    yield voice(swap=(two_streams,)), (30, 0)
    yield voice(swap=((b'NUM_STREAMS:1', b'NUM_STREAMS:18446744073709551615'),)), (30, 0)
    yield voice(swap=((b'STREAM_TYPE:M', b'STREAM_TYPE:,'), (b'[M]', b'[]'))), (0, 0)  # one empty name, which counts
    yield voice(swap=((b'STREAM_TYPE:M', b'STREAM_TYPE:,,'), (b'[M]', b'[]'), two_streams)), (31, 0)
    yield voice(swap=((b'STREAM_TYPE:M', b'STREAM_TYPE:M,"M"'), two_streams)), (31, 0)  # without quotes
    yield voice(b'{*}[2]p_0', swap=(two_streams,)), (30, 0)
    yield voice(b'{*}[2]p_0', swap=(two_names, two_streams)), (31, 0)
    # a load that is refused comes before every rule; an earlier model before a later one
    no_leaf = b'{*}[2]d_0', (PLAIN,)
    at_text = len(no_leaf[0]) + 12
    yield voice(b'nonsense', duration=no_leaf), (17, 1, at_text, 0)
    yield voice(b'nonsense', swap=(two_streams,)), (17, 1, at_text, 0)
    yield voice(b'{*}[2]p_0', duration=(b'{*}[2]d_1', ([ONE, 0],))), (36, 0)
    yield voice(b'{*}[2]{5 A p_1 p_1}', duration=(b'{*}[2]d_1', ([ONE, 0],))), (36, 0)
    yield voice(b'{*}[2]p_0', gv=(b'{*}[2]{7 A p_1 p_1}', (PLAIN,))), (34, 1)
    yield voice(gv=(b'{*}[2]{7 A p_1 p_1}', (PLAIN,))), (32, 2)
    yield voice(gv=(b'{*}[2]g_1', (PLAIN,))), (0, 0)
    yield voice(b'{*}[2]p_0', gv=(b'{*}[-2]g_1', (PLAIN,))), (18, 2)
    yield voice(b'{*}[2]p_0', gv=(b'{*}[2]g_1', (PLAIN + [ONE],))), (19, 2)
    yield voice(swap=((b'USE_GV[M]:0', b'USE_GV[M]:1'),)), (15, 2)
    yield voice(gv=(b'nonsense', (PLAIN,)), swap=((b'USE_GV[M]:1', b'USE_GV[M]:0'),)), (0, 0)  # no GV, whatever its ranges are
    yield voice(gv=(b'nonsense', (PLAIN,)), swap=((b'USE_GV[M]:1\n', b''),)), (0, 0)
    yield voice(swap=((b'STREAM_TYPE:M', b'STREAM_TYPE:Z'),)), (13, 1)
    yield voice(swap=((b'STREAM_TYPE:M', b'STREAM_TYPE:M,Z'),)), (13, 3)
    yield voice(swap=((b'VECTOR_LENGTH[M]', b'VECTOR_LENGTH[N]'), (b'NUM_WINDOWS[M]', b'NUM_WINDOWS[N]'), (b'IS_MSD[M]', b'IS_MSD[N]'), (b'USE_GV[M]', b'USE_GV[N]'))), (14, 1)
    yield voice(states=2049), (12, 0)
    yield voice(swap=((b'STREAM_TREE[M]:', b'STREAM_TREE[M]:9'),)), (16, 1)
    # the duration model by itself: no width, a lone node
    yield voice(states=0, duration=(GOOD, ())), (34, 0)
    yield voice(states=0, duration=(b'{*}[2]{}', ())), (0, 0)
    yield voice(duration=(b'{*}[2]-1', (PLAIN,))), (23, 0, 0, 0)
    yield voice(b'{*}[2]p_1\n{*}[3]{0 A 7 p_1}', [PLAIN] * 2, [1, 1]), (21, 1, 1, 0)
    yield voice(b'QS A {a}\n{*}[2]{0 A p_1 p_1\n-1 B p_1 p_1}'), (22, 1, 0, 1)
    yield sample(), (32, 1)
    # what doesn't open
    yield b'', (1, 0)
    yield voice(swap=((b'NUM_STATES:1\n', b''),)), (9, 0)


def hands():
    """The worked cases as calls: in tables of just the rows that the largest model needs, on either side; and what the numbers should be."""
    for n, (file, want) in enumerate(by_hand()):
        yield Call(file, n % 2, room_for(file)), want[:1] + (want[2:] or (0, 0)) + want[1:2]


def other_hands():
    """Bounds and sides that are refused before anything is read; no room for a later model, beside another's rows and alone."""
    good, asked = voice(), voice(b'QS A {a}\nQS B {b}\n{*}[2]{0 A -1 p_1\n-1 B p_1 p_1}', duration=(b'QS A {a}\n{*}[2]{0 A d_1 d_1}', (PLAIN,)))
    room = room_for(asked)
    for k in range(5):
        own = [1 if j == k else 0 for j in range(5)]
        yield Call(good, k % 2, room, own), (29, 0, 0, 0)
        yield Call(b'no voice', k % 2, room, [LARGE * x for x in own], own), (29, 0, 0, 0)
        yield Call(good, k % 2, room, sharing.NOBODY, [LARGE * x for x in own]), (24, 0, 0, 0)
        yield Call(b'no voice', k % 2, room, sharing.NOBODY, [(room[j] // WIDTHS[j] + 1) * x for j, x in enumerate(own)]), (24, 0, 0, 0)
        short = [n - WIDTHS[k] * x for n, x in zip(room, own)] + room[5:]
        yield Call(asked, k % 2, short), (0, 0, 0, 0) if sharing.needs(asked, 1)[0][k] * WIDTHS[k] <= short[k] else (20, 0, 0, 1 if k not in (2, 4) else 0)
        yield Call(asked, k % 2, room, sharing.NOBODY, own), (20, 0, 0, 1 if k not in (2, 4) else 0)
        yield Call(asked, k % 2, [n + WIDTHS[k] * x for n, x in zip(room, own)] + room[5:], sharing.NOBODY, own), (0, 0, 0, 0)
    for side in 2, 3, 2 ** 32, LARGE:
        yield Call(good, side, room), (24, 0, 0, 0)
        yield Call(b'no voice', side, room), (24, 0, 0, 0)
        yield Call(good, side, room, [0, 0, 1, 0, 0]), (29, 0, 0, 0)
    yield Call(asked, 0, room[:5] + [6]), (20, 0, 0, 1)
    yield Call(asked, 0, [0] * 6), (20, 0, 0, 0)
    yield Call(b'no voice', 0, [0] * 6), (1, 0, 0, 0)


# ---- drawn voices: of the house, then broken in up to three ways

class Part:
    """A model: questions, trees of (state, lone or lines), and the entries of each tree."""
    def __init__(self, r, width, prefix):
        self.names = ['%s%d' % (r.choice('QR'), i) for i in range(r.choice((0, 1, 2, 3)))]
        self.width, self.prefix, self.trees, self.entries, self.rest = width, prefix, [], [], b''
        for t in range(r.choice((1, 1, 1, 2))):
            count = 0 if width == 0 else r.choice((1, 1, 2, 3))
            self.entries.append([self.entry(r) for _ in range(count)])
            self.trees.append([2 + t, self.body(r, count)])

    def entry(self, r):
        bits = lambda x: struct.unpack('<I', struct.pack('<f', x))[0]
        half = self.width // 2
        means, variances = [bits(r.gauss(0, 3)) for _ in range(half)], [bits(r.random() + .01) for _ in range(half)]
        if r.random() < .1 and half:
            variances[0] = r.choice((1, 0x7fffff, 0x7f7fffff))
        return means + variances + ([r.choice(voices.SPECIAL)] if self.width % 2 else [])

    def leaf(self, r, count):
        return '%s_%d' % (self.prefix, r.randint(1, count))

    def body(self, r, count):
        """One reference as a word, or lines of id, name, no, yes."""
        if count == 0:
            return []
        if not self.names or r.random() < .25:
            return self.leaf(r, count)
        n = r.choice((1, 1, 2, 3, 4))
        lines = []
        for k in range(n):
            to = lambda: str(-r.randint(k + 1, n - 1)) if k + 1 < n and r.random() < .6 else self.leaf(r, count)
            lines.append(['-0' if k == 0 and r.random() < .1 else str(-k), r.choice(self.names), to(), to()])
        return lines

    def text(self):
        said = ''.join('QS %s {"%s*"}\n' % (name, name[:1]) for name in self.names)
        trees = []
        for state, body in self.trees:
            trees.append('{*}[%d]%s' % (state, body if isinstance(body, str) else '{' + '\n'.join(' '.join(line) for line in body) + '}'))
        return (said + '\n'.join(trees)).encode() + self.rest

    def block(self):
        return voices.pdf([len(e) for e in self.entries], [x for e in self.entries for entry in e for x in entry])


class Voice:
    def __init__(self, r):
        self.states = r.choice((1, 1, 1, 2, 0))
        names = r.sample(('M', 'LF0', 'x y', 'a"b', 'N'), r.choice((0, 1, 1, 1, 2, 2, 3)))
        self.streams = [voices.Stream(name, r.choice((1, 1, 2, 0)), r.choice((1, 1, 2)), r.choice((0, 0, 1)), r.choice((0, 1))) for name in names]
        self.types, self.number = list(names), len(names)
        self.parts = {0: Part(r, 2 * self.states, 'd')}
        for i, s in enumerate(self.streams):
            self.parts[2 * i + 1] = Part(r, s.width, 'p')
            if s.gv:
                self.parts[2 * i + 2] = Part(r, 2 * s.length, 'g')
        self.swap = []

    def file(self):
        data, where = b'', {}
        for which, part in self.parts.items():
            for kind, b in ('TREE', part.text()), ('PDF', part.block()):
                where[kind, which] = b'%d-%d' % (len(data), len(data) + len(b) - 1)
                data += b
        rows = ['[GLOBAL]', 'HTS_VOICE_VERSION:1', 'SAMPLING_FREQUENCY:1', 'FRAME_PERIOD:1', 'NUM_STATES:%d' % self.states, 'NUM_STREAMS:%d' % self.number, 'STREAM_TYPE:' + ','.join(self.types), 'FULLCONTEXT_FORMAT:x', 'FULLCONTEXT_VERSION:1', '[STREAM]']
        for s in self.streams:
            rows += ['%s[%s]:%d' % (key, s.name, n) for key, n in (('VECTOR_LENGTH', s.length), ('NUM_WINDOWS', s.windows), ('IS_MSD', s.msd), ('USE_GV', s.gv))]
        rows += [''] * (not self.streams) + ['[POSITION]', 'DURATION_TREE:' + where['TREE', 0].decode(), 'DURATION_PDF:' + where['PDF', 0].decode()]
        for i, s in enumerate(self.streams):
            rows.append('STREAM_WIN[%s]:0-0' % s.name)
            for front, which in ('STREAM', 2 * i + 1), ('GV', 2 * i + 2):
                rows += ['%s_%s[%s]:%s' % (front, kind, s.name, where[kind, which].decode()) for kind in ('TREE', 'PDF') if which in self.parts]
        b = '\n'.join(rows + ['[DATA]', '']).encode() + data
        for old, new in self.swap:
            b = b.replace(old, new, 1)
        return b


def braced(v):
    return [(part, t, body) for part in v.parts.values() for t, (_, body) in enumerate(part.trees) if not isinstance(body, str) and body]


def break_number(r, v):
    v.number = r.choice((v.number + 1, max(0, v.number - 1), 2 ** 64 - 1))


def break_types(r, v):
    if v.types:
        v.types.insert(r.randrange(len(v.types) + 1), r.choice(v.types))
        v.number += r.choice((1, 1, 1, 0))


def break_ids(r, v):
    """References follow, where there is one to follow."""
    some = braced(v)
    if not some:
        return
    part, t, body = r.choice(some)
    old = [line[0] for line in body]
    new = r.choice((r.sample(old, len(old)), old[:-1] + [r.choice(old)], old[:-1] + [r.choice(('5', '-9', '1', '-1'))], [str(k) for k in range(len(old))]))
    to = dict(zip(old, new), **{str(int(a)): b for a, b in zip(old, new)})
    part.trees[t][1] = [[i, name, to.get(no, no), to.get(yes, yes)] for i, (_, name, no, yes) in zip(new, body)]


def break_names(r, v):
    part = r.choice(list(v.parts.values()))
    if len(part.names) > 1 and r.random() < .8:
        i, j = r.sample(range(len(part.names)), 2)
        for _, body in part.trees:
            for line in body if not isinstance(body, str) else []:
                line[1] = part.names[j] if line[1] == part.names[i] else line[1]
        part.names[i] = part.names[j]
    else:
        part.names += ['same', 'same']


def break_leaf(r, v):
    part = r.choice(list(v.parts.values()))
    t = r.randrange(len(part.trees))
    body, wrong = part.trees[t][1], '%s_%d' % (part.prefix, r.choice((0, 0, len(part.entries[t]) + 1, 2 ** 63 - 1)))
    if isinstance(body, str) or not body:
        part.trees[t][1] = wrong
    else:
        r.choice(body)[r.choice((2, 3))] = wrong


def break_value(r, v, variance):
    some = [(part, entry) for part in v.parts.values() for e in part.entries for entry in e if part.width > 1]
    if some:
        part, entry = r.choice(some)
        half = part.width // 2
        bad = (0, 0x80000000, NAN, INFINITE, 0xbf800000, 0x7f800001, 0x80000001) if variance else (NAN, INFINITE, 0xff800000, 0x7f800001)
        entry[r.randrange(half) + (half if variance else 0)] = r.choice(bad)


def break_load(r, v):
    """Something that a load refuses, in any model."""
    part = r.choice(list(v.parts.values()))
    how = r.randrange(9)
    if how == 0:
        part.rest = b' x'
    elif how == 1:
        part.trees[-1][0] = -2
    elif how == 2:
        part.entries[0].append([ONE] * (part.width + 1))
    elif how == 3:
        part.trees[-1][1] = '-1'
    elif how == 4:
        part.trees[-1][1] = [['0', 'nowhere', '%s_1' % part.prefix, '0']]
    elif how == 5:
        part.trees[-1][1] = [['0', (part.names or ['nowhere'])[0], '%s_1' % part.prefix, '7']]
    elif how == 6:
        v.types.append('Z')
        v.number += 1
    elif how == 7:
        v.swap.append((b'_TREE[', b'_TREX[') if v.streams and r.random() < .5 else (b'DURATION_PDF:', b'DURATION_PDF:99'))
    else:
        v.states = r.choice((v.states + 1, 2049))


def break_open(r, v):
    v.swap.append(r.choice(((b'FRAME_PERIOD:1', b'FRAME_PERIOD:1x'), (b'NUM_STATES:', b'NUM_STATES;'), (b'[POSITION]', b'[POSITON]'), (b'FRAME_PERIOD:1\n', b''), (b'VERSION:1', b'VERSION:\xff'),
                           (b'STREAM_TYPE:', b'STREAM_TYPE:1,2,3,4,5,6,7,8,'))))


RULES = [break_number, break_types, break_ids, break_ids, break_names, break_leaf, lambda r, v: break_value(r, v, False), lambda r, v: break_value(r, v, True)]


def drawn(n):
    """Always the same for the same n."""
    r = random.Random('house %d' % n)
    v = Voice(r)
    for how in r.sample(RULES, r.choice((0, 0, 1, 1, 1, 1, 2, 2, 3))):
        how(r, v)
    if r.random() < .2:
        break_load(r, v)
    if r.random() < .04:
        break_open(r, v)
    return v.file()


def drawn_call(n):
    r = random.Random('house call %d' % n)
    file = drawn(n)
    other = [0] * 5 if r.random() < .5 else [r.randrange(4) for _ in range(5)]
    lengths = [n + w * (o + r.choice((0, 0, 1, 3))) + r.randrange(w) for n, w, o in zip(room_for(file), WIDTHS, other)] + [room_for(file)[5] + r.choice((0, 0, 1, 7))]
    if r.random() < .25:  # a row short, or a number of its last one
        t = r.randrange(6)
        lengths[t] = max(0, lengths[t] - r.choice(((WIDTHS + (6,))[t], 1)))
    held = [0] * 5
    if r.random() < .04:
        held[r.randrange(5)] = r.choice((1, 2, LARGE))
    if r.random() < .04:
        other[r.randrange(5)] = r.choice((99, 2 ** 62, 2 ** 63, LARGE))
    return Call(file, r.choice((0, 0, 0, 0, 1, 1, 1, 1, 2)) if r.random() < .1 else r.randrange(2), lengths, held, other)


def calls():
    for call, _ in [*hands(), *other_hands()]:
        yield call
    for n in range(CASES):
        yield drawn_call(n)


def stored():
    for call, want in [*hands(), *other_hands()]:
        assert tuple(call.told) == want, (call.file, call.lengths, call.told, want)
    return ''.join(call.line() for call in calls())


# ---- scripts for `larsavim share`

def script(n, calls_of_it=14):
    """Both tasks in the same tables: whole voices judged beside a model, a row too few, and again; after every call all numbers."""
    r = random.Random('house script %d' % n)
    pool = [drawn(r.randrange(10 ** 6)) for _ in range(4)]
    rooms = [room_for(file) for file in pool]
    lengths = [max(x) * 2 + r.randrange(-2, 7) for x in zip(*rooms)]
    lines = ['tables ' + ' '.join(str(max(0, x)) for x in lengths)]
    for _ in range(calls_of_it):
        side, kind = r.choice(sharing.SIDES), r.random()
        if kind < .55:
            lines += ['unload ' + side] * (r.random() < .7) + ['house %s %s' % (side, r.choice(pool).hex())]
        elif kind < .65:
            lines.append('load %s %d %s' % (side, r.choice((0, 1, 1)), r.choice(pool).hex()))
        elif kind < .92 or n % 4:
            lines.append('unload ' + side)
        else:
            lines.append('held %s %s' % (side, ' '.join(str(r.choice((0, 0, 1, 3, LARGE))) for _ in range(5))))
        lines.append('show')
    return lines


def answers(lines):
    s, said = House(), []
    for line in lines:
        said += s.answer(line)
        if not s.apart():
            raise AssertionError('a task sees other rows than in tables of its own, after ' + line[:60])
    return said


def main():
    if sys.argv[1:] == ['--check']:
        with open(STORED) as f:
            return None if f.read() == stored() else 'house.py: stored/house-1.txt is not as made'
    if sys.argv[1:]:
        for path in sys.argv[1:]:
            with open(path, 'rb') as f:
                print(path, *judged(f.read()))
        return None
    with open(STORED, 'w') as f:
        f.write(stored())
    return None


if __name__ == '__main__':
    sys.exit(main())
