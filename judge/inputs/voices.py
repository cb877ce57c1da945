#!/usr/bin/env python3
"""Whole voices. `voice(n)` is always the same for the same n: small ordinary and odd ones, whole or damaged. `large(seed, lines)` is an ordinary one of
about any size, as training tools write them. As a command:  voices.py SEED LINES FILE   writes a large one (2,100 lines a tree make 14 MB)."""
import random
import struct
import sys

from damage import damaged
from treetexts import Writer

# 0, -0, the least and greatest subnormals, the least and greatest normals, 1, infinities, NaNs quiet and not, with either sign
SPECIAL = [0, 0x80000000, 1, 0x80000001, 0x7fffff, 0x807fffff, 0x400000, 0x800000, 0x7f7fffff, 0xff7fffff, 0x3f800000, 0x7f800000, 0xff800000, 0x7f800001, 0xff800001, 0x7fc00000,
           0xffc00001, 0x7fffffff, 0xffffffff, 0x7fa00000]
WINDOWS = [b'1 1.0\n', b'3 -0.5 0.0 0.5\n', b'3 1.0 -2.0 1.0\n']


class Stream:
    def __init__(self, name, length, windows, msd, gv):
        self.name, self.length, self.windows, self.msd, self.gv = name, length, windows, msd, gv
        self.width = 2 * length * windows + msd


class Voice:
    """odd: how often freedom is used; faulty: how often something small is wrong."""
    def __init__(self, r, odd, faulty, lines, questions, states, streams, special=.04, plain=False):
        self.r, self.odd, self.faulty, self.lines, self.questions, self.states, self.streams, self.special = r, odd, faulty, lines, questions, states, streams, special
        self.writer = Writer(r, odd, faulty * .02)
        self.data = bytearray()
        self.plain = plain

    def chance(self, p):
        return self.r.random() < p

    def put(self, b):
        """Puts a part into the data; its range, now and then off by one."""
        if self.odd and self.chance(.2):
            self.data += self.r.choice((b'\x00', b'xx', b'\n'))
        start = len(self.data)
        self.data += b
        end = len(self.data) - 1
        if self.chance(self.faulty * .1):
            start, end = max(0, start + self.r.choice((-1, 0, 1))), max(0, end + self.r.choice((-1, 1, 1, 1000)))
        return b'%d-%d' % (start, end)

    def names(self, n):
        names = ['Q%d' % i for i in range(n)]
        if self.odd and n > 1 and self.chance(.3):
            names[self.r.randrange(n)] = names[self.r.randrange(n)]
        return names

    def grown(self, lines, names, prefix, state):
        """An ordinary tree: ids 0, -1, -2, .., each but the first referred to once; a PDF of its own for every leaf."""
        r, w = self.r, self.writer
        refs, slots = [[None, None] for _ in range(lines)], [(0, 0), (0, 1)]
        for k in range(1, lines):
            i = r.randrange(len(slots))
            slots[i], slots[-1] = slots[-1], slots[i]
            a, b = slots.pop()
            refs[a][b] = str(-k)
            slots += [(k, 0), (k, 1)]
        for n, (a, b) in enumerate(slots):
            refs[a][b] = w.quotes('%s_s%d_%d' % (prefix, state, n + 1))
        rows = [w.line(str(-k), r.choice(names), *refs[k]) if self.odd else ' %-8s %-20s %-16s %s' % (-k, r.choice(names), refs[k][0], refs[k][1]) for k in range(lines)]
        return w.tree(state, w.braces(rows)), len(slots)

    def wild(self, lines, names, prefix, state):
        """Any references: repeated ids, trees that go round, lines that nothing refers to, PDF numbers repeated."""
        r, w = self.r, self.writer
        ids = [str(r.choice((-k, -k, r.randint(-lines, lines)))) for k in range(lines)]
        entries = r.randint(1, lines + 2)
        def ref():
            if self.chance(.5):
                n = r.choice(ids) if not self.chance(self.faulty * .05) else '99'
                return w.quotes(n) if self.chance(.3) else n
            n = r.randint(0 if self.chance(.1) else 1, entries + (1 if self.chance(.1) else 0))
            return w.quotes(r.choice(('%s_%d' % (prefix, n), 'x%d' % n)))
        rows = []
        for i in ids:
            no, yes = ref(), ref()
            if lines == 1 and no.strip('"') == yes.strip('"') and no.strip('"').lstrip('-').isdigit() and not self.chance(self.faulty):
                yes = 'x1'
            rows.append(w.line(i, r.choice(names) if not self.chance(self.faulty * .05) else 'nowhere', no, yes))
        return w.tree(state, w.braces(rows)), entries

    def tree(self, prefix, state, names):
        r, w = self.r, self.writer
        kind = r.random()
        if not names or self.odd and kind < .1 or self.lines == 0:
            n = r.randint(1, 3)
            if self.chance(self.faulty * .05):
                return w.tree(state, '-1'), n
            if self.chance(self.faulty * .05):
                state = -state
            return w.tree(state, w.quotes('%s_%d' % (prefix, r.randint(1, n)))), n
        if self.odd and kind < .15:
            return w.tree(state, w.braces([])), r.randint(0, 2)
        if self.odd and kind < .22:
            return w.tree(state, w.braces([w.line('5', 'nowhere', 'a1', 'b1')])), r.randint(1, 2)
        lines = r.randint(1, self.lines) if self.odd else self.lines
        return (self.wild if self.odd and kind < .6 else self.grown)(lines, names, prefix, state)

    def value(self):
        if self.chance(self.special):
            return struct.pack('<I', self.r.choice(SPECIAL))
        return struct.pack('<f', self.r.gauss(0, 3))

    def model(self, prefix, width, trees):
        r, w = self.r, self.writer
        n = r.randint(0, self.questions) if self.odd else self.questions
        names = self.names(n)
        made = [self.tree(prefix, 2 + t if not self.odd or self.chance(.8) else r.choice((0, 1, 2, 2 ** 63 - 1)), names) for t in range(trees)]
        text = w.whole([w.question(x) for x in names], [t for t, _ in made]).encode('latin-1')
        counts = [c for _, c in made]
        total = sum(counts) if width else 0
        if not width:
            counts = [0] * len(counts)
        if self.plain:
            values = struct.pack('<%df' % (total * width), *(r.random() for _ in range(total * width)))
        else:
            values = b''.join(self.value() for _ in range(total * width))
        if self.chance(self.faulty * .1):
            counts[r.randrange(len(counts))] += r.choice((-1, 1)) if counts[0] else 1
            counts = [max(0, c) for c in counts]
        pdf = struct.pack('<%dI' % len(counts), *counts) + values
        if self.chance(self.faulty * .05):
            pdf = r.choice((pdf[:-1], pdf + b'\0', pdf[:-4], pdf + b'\0\0\0\0', b'', pdf[:3]))
        return self.put(text), self.put(pdf)

    def file(self):
        r = self.r
        pos = []
        tree, pdf = self.model('dur', 2 * self.states, r.choice((1, 1, 2)) if self.odd else 1)
        pos += [('DURATION_PDF', pdf), ('DURATION_TREE', tree)]
        for s in self.streams:
            pos.append(('STREAM_WIN[%s]' % s.name, b','.join(self.put(WINDOWS[k % 3]) for k in range(s.windows))))
        for s in self.streams:
            tree, pdf = self.model(s.name.lower(), s.width, r.randint(1, 2) if self.odd else self.states)
            pos += [('STREAM_PDF[%s]' % s.name, pdf), ('STREAM_TREE[%s]' % s.name, tree)]
        for s in self.streams:
            if s.gv and not self.chance(self.faulty * .1):
                keep, self.lines = self.lines, min(self.lines, 3)
                tree, pdf = self.model('gv', 2 * s.length, 1)
                self.lines = keep
                pos += [('GV_PDF[%s]' % s.name, pdf), ('GV_TREE[%s]' % s.name, tree)]
        types = [s.name for s in self.streams]
        if self.chance(self.faulty * .1):
            types.append(r.choice(('NONE', types[0] if types else 'X')))
        g = [('HTS_VOICE_VERSION', '1.0'), ('SAMPLING_FREQUENCY', '48000'), ('FRAME_PERIOD', '240'), ('NUM_STATES', str(self.states)), ('NUM_STREAMS', str(len(self.streams))),
             ('STREAM_TYPE', ','.join(types)), ('FULLCONTEXT_FORMAT', 'HTS_TTS_JPN'), ('FULLCONTEXT_VERSION', '1.0'), ('GV_OFF_CONTEXT', '"*-sil+*","*-pau+*"')]
        if self.chance(.7):
            g.append(('COMMENT', r.choice(('', 'made for judging', '"quoted, text"', '\u65e5\u672c'))))
        st = []
        for s in self.streams:
            off = r.choice((-1, 1)) if self.chance(self.faulty * .05) else 0
            rows = [('VECTOR_LENGTH', max(0, s.length + off)), ('NUM_WINDOWS', s.windows), ('IS_MSD', s.msd), ('USE_GV', s.gv), ('OPTION', r.choice(('', 'ALPHA=0.55', 'A,B')))]
            st += [('%s[%s]' % (k, s.name), str(v)) for k, v in rows if k not in ('USE_GV', 'OPTION') or v or self.chance(.7)]
        if self.streams and self.chance(self.faulty * .05):
            st = [row for row in st if not row[0].endswith('[%s]' % self.streams[0].name)]
        if self.odd:
            for rows in g, st, pos:
                r.shuffle(rows)
        def section(rows):
            return b''.join(k.encode() + b':' + (v if isinstance(v, bytes) else v.encode()) + b'\n' for k, v in rows) or b'\n'
        return b'[GLOBAL]\n' + section(g) + b'[STREAM]\n' + section(st) + b'[POSITION]\n' + section(pos) + b'[DATA]\n' + bytes(self.data)


def streams_of(r, odd):
    usual = [Stream('MCP', r.choice((1, 2, 3)), r.choice((1, 2, 3)), 0, 1), Stream('LF0', 1, r.choice((1, 3)), 1, 1), Stream('LPF', r.choice((1, 2)), 1, 0, 0)]
    if not odd:
        return usual[:r.randint(1, 3)]
    names = ['A', 'B', 'LF0', 'x y', 'D', 'E', 'F', 'G']
    return [Stream(names[i], r.choice((0, 1, 1, 2)), r.choice((0, 1, 1, 2)), r.randint(0, 1), r.randint(0, 1)) for i in range(r.choice((0, 1, 1, 2, 2, 3, 8) if r.random() < .3 else (0, 1, 2)))]


def voice(n):
    r = random.Random('voice %d' % n)
    kind = n % 6
    odd = 0 if kind in (0, 4) else .5
    faulty = {2: .5, 3: 1}.get(kind, 0)
    v = Voice(r, odd, faulty, r.randint(0, 4), r.randint(1, 4), r.randint(1, 2), streams_of(r, odd), special=r.choice((0, .1, .5)))
    b = v.file()
    return damaged(r, b) if kind in (4, 5) else b


def walking(n):
    """A voice with a duration model alone, for walks: longer trees, many of which go round."""
    r = random.Random('walking %d' % n)
    return Voice(r, .4, 0, r.randint(2, 14), r.randint(2, 5), 1, []).file()


def large(seed, lines, questions=400):
    """An ordinary voice: three streams of five states, `lines` lines a tree (the duration's, and each state's of two streams)."""
    r = random.Random('large %d' % seed)
    streams = [Stream('MCP', 35, 3, 0, 1), Stream('LF0', 1, 3, 1, 1), Stream('LPF', 31, 1, 0, 0)]
    return Voice(r, 0, 0, lines, questions, 5, streams, plain=True).file()


def padded(size):
    """An ordinary voice, its data lengthened to a file of this size."""
    b = simple()
    return b + bytes(size - len(b))


def wide(width):
    """A voice whose one stream has this PDF width (one entry)."""
    r = random.Random('wide %d' % width)
    return Voice(r, 0, 0, 0, 1, 1, [Stream('A', width // 2, 1, width % 2, 0)], plain=True).file()


# ---- by hand

def pdf(counts, values):
    return struct.pack('<%dI' % len(counts), *counts) + struct.pack('<%dI' % len(values), *values)


ONE = pdf([1], [0x3f800000, 0x40000000])  # one entry of width 2
QS = b'QS A {a}\nQS B {b}\nQS C {c}\n'


def simple(text=b'{*}[2]p_1', block=ONE, gv=None, swap=()):
    """A voice of one stream M of width 2, whose model has this text and block; the duration model is a bare leaf; `swap` replaces parts of the header."""
    data, where = b'', {}
    for name, part in ('DT', b'{*}[2]d_1'), ('DP', ONE), ('T', text), ('P', block), ('GT', gv and gv[0]), ('GP', gv and gv[1]):
        if part is not None:
            where[name] = b'%d-%d' % (len(data), len(data) + len(part) - 1)
            data += part
    head = b'[GLOBAL]\nHTS_VOICE_VERSION:1\nSAMPLING_FREQUENCY:1\nFRAME_PERIOD:1\nNUM_STATES:1\nNUM_STREAMS:1\nSTREAM_TYPE:M\nFULLCONTEXT_FORMAT:x\nFULLCONTEXT_VERSION:1\n'
    head += b'[STREAM]\nVECTOR_LENGTH[M]:1\nNUM_WINDOWS[M]:1\nIS_MSD[M]:0\nUSE_GV[M]:%d\n' % (gv is not None)
    head += b'[POSITION]\nDURATION_PDF:%s\nDURATION_TREE:%s\nSTREAM_WIN[M]:0-0\nSTREAM_PDF[M]:%s\nSTREAM_TREE[M]:%s\n' % (where['DP'], where['DT'], where['P'], where['T'])
    if gv:
        head += b'GV_PDF[M]:%s\nGV_TREE[M]:%s\n' % (where['GP'], where['GT'])
    head += b'[DATA]\n'
    for old, new in swap:
        head = head.replace(old, new)
    return head + data


def around(text):
    """A voice whose stream has this tree text, and a block with no entry for as many trees as it seems to have."""
    return simple(text, bytes(4 * text.count(b'{*}')))


def by_hand():
    two = pdf([2], [0x3f800000, 0x40000000, 0x40400000, 0x40800000])
    tree = lambda body: QS + b'{*}[2]' + body
    out = [simple(tree(b), pdf([3] + [0] * b.count(b'{*}'), SPECIAL[:6])) for b in (
        b'{ 0 A -1 p_3\n-1 B p_1 p_3 }', b'{0 A p_1 p_2}', b'{0 A p_1 p_1}', b'{0 A p_1 q_1}', b'{0 nowhere p_1 "x1"}', b'{}', b'p_3', b'"p_3"', b'p_4', b'p_0',
        b'{0 A 0 0}', b'{0 A 0 p_1}', b'{0 A p_1 0}', b'{0 A -1 -1\n-1 B 0 0}', b'{0 A -1 p_1\n-1 B -2 p_2\n-2 C 0 p_3}',           # trees that go round
        b'{0 A -1 p_1\n-1 B p_2 p_2\n-1 C p_3 p_3}', b'{5 A 7 p_1\n7 B p_2 5\n7 C p_3 7}', b'{0 A p_1 p_1\n0 A p_1 p_1}', b'{-0 A 00 p_1\n0 B p_1 p_2}',  # repeated ids, repeated leaves
        b'{0 A 1 p_1}', b'{0 A p_1 1}', b'{0 A 1 2}', b'{0 X p_1 p_2}', b'{0 X 1 p_2}', b'{0 X p_1 1}', b'{0 A p_1 p_2\n1 X p_1 p_2}', b'{0 A p_1 p_2\n1 X p_1 9}', b'{0 X p_1 p_2\n1 A 9 9}',  # 21 and 22, in their order
        b'-1', b'"7"', b'{0 A 7 7}', b'{0 X 7 7}', b'p_1\n{*}[3]{0 A 9 p_1}', b'{0 A 9 p_1}\n{*}[3]-1', b'-1\n{*}[3]{0 A 9 p_1}', b'{0 A p_9223372036854775807 p_1}')]
    # two questions of one name; no question
    out += [simple(b'QS A {a}\nQS A {b}\n{*}[2]{0 A p_1 p_2}', two), simple(b'QS A {a}\nQS B {b}\nQS A {c}\n{*}[2]{0 A p_1 p_2\n1 B p_1 p_2}', two), simple(b'{*}[2]{0 A p_1 p_2}', two), simple(b'{*}[2]{0 A p_1 p_1}', two)]
    # several trees, entries of each
    out += [simple(b'{*}[2]p_1\n{*}[3]p_2', pdf([1, 2], SPECIAL[:6])), simple(b'{*}[2]p_1\n{*}[2]{}\n{*}[4]p_2', pdf([0, 0, 1], SPECIAL[8:10])), simple(b'{*}[2]p_1\n{*}[3]p_1', pdf([1], SPECIAL[:2]))]
    # blocks: width 0 to 5, counts and lengths one off, every special value
    for length, windows, msd in (0, 1, 0), (1, 0, 0), (0, 1, 1), (1, 1, 1), (2, 1, 0), (1, 2, 1):
        width = 2 * length * windows + msd
        sizes = (b'VECTOR_LENGTH[M]:1', b'VECTOR_LENGTH[M]:%d' % length), (b'NUM_WINDOWS[M]:1', b'NUM_WINDOWS[M]:%d' % windows), (b'IS_MSD[M]:0', b'IS_MSD[M]:%d' % msd)
        out += [simple(block=pdf([n], (SPECIAL * 2)[k:k + n * width + more]), swap=sizes) for n, k, more in ((0, 0, 0), (1, 3, 0), (2, 9, 0), (1, 0, 1), (2, 0, -1 if width else 0), (0, 0, 1))]
    out += [simple(block=b) for b in (b'', b'\x01', b'\x01\0\0', b'\0\0\0\0', ONE[:-1], ONE + b'\0', ONE[:4], b'\xff\xff\xff\xff', b'\xff\xff\xff\xff' + ONE[4:], ONE + ONE, pdf([len(SPECIAL) // 2], SPECIAL))]
    # which model: 13, 14, 15, 12, and what comes first
    good = (b'{*}[2]g_1', ONE)
    big = (b'VECTOR_LENGTH[M]:1', b'VECTOR_LENGTH[M]:2049')
    for swap in ([], [(b'STREAM_TYPE:M', b'STREAM_TYPE:M,N')], [(b'STREAM_TYPE:M', b'STREAM_TYPE:M,M')], [(b'STREAM_TYPE:M', b'STREAM_TYPE:')], [(b'LENGTH[M]', b'LENGTH[N]'), (b'WINDOWS[M]', b'WINDOWS[N]'), (b'MSD[M]', b'MSD[N]'), (b'GV[M]', b'GV[N]')],
                 [(b'_PDF[M]', b'_PDF[N]'), (b'_TREE[M]', b'_TREE[N]'), (b'WIN[M]', b'WIN[N]')], [(b'[M]', b'[N]')], [(b'USE_GV[M]:1', b'USE_GV[M]:0')], [(b'USE_GV[M]:1\n', b'')], [(b'GV_PDF[M]', b'GV_PDX[M]')], [(b'GV_TREE[M]', b'GV_TREX[M]')],
                 [big], [(b'VECTOR_LENGTH[M]:1', b'VECTOR_LENGTH[M]:2048'), (b'IS_MSD[M]:0', b'IS_MSD[M]:1')], [(b'VECTOR_LENGTH[M]:1', b'VECTOR_LENGTH[M]:2048')], [(b'VECTOR_LENGTH[M]:1', b'VECTOR_LENGTH[M]:9223372036854775809')],
                 [(b'NUM_WINDOWS[M]:1', b'NUM_WINDOWS[M]:18446744073709551615')], [(b'NUM_STATES:1', b'NUM_STATES:2048')], [(b'NUM_STATES:1', b'NUM_STATES:2049')], [(b'NUM_STATES:1', b'NUM_STATES:0')],
                 [big, (b'STREAM_TREE[M]:', b'STREAM_TREE[M]:9')], [big, (b'USE_GV[M]:1', b'USE_GV[M]:0')]):
        out.append(simple(gv=good, swap=swap))
    # ranges: empty, one off, past the data, start past end; with a faulty text or block beside them
    base = simple(b'{*}[2]p_1 ', ONE + b'\0')
    tree, block = (base[base.index(k) + len(k):].split(b'\n')[0] for k in (b'STREAM_TREE[M]:', b'STREAM_PDF[M]:'))
    a, z = map(int, tree.split(b'-'))
    c, y = map(int, block.split(b'-'))
    for r in ((a, z - 1), (a, z), (a, z - 2), (a + 1, z), (a - 1, z), (a, a - 1), (a, a - 2), (0, 0), (a, y), (a, y + 1), (a, 2 ** 64 - 1), (0, 2 ** 64 - 1), (2 ** 64 - 1, 2 ** 64 - 1), (y + 1, y), (y + 2, y + 1), (2 ** 64 - 1, 2 ** 64 - 2), (2 ** 63, 5)):
        for t in (b'%d-%d' % r, b'%d-%d' % (a, z)):
            for p in (b'%d-%d' % (c, y - 1), b'%d-%d' % (c, y), b'%d-%d' % r):
                out.append(base.replace(b'STREAM_TREE[M]:' + tree, b'STREAM_TREE[M]:' + t).replace(b'STREAM_PDF[M]:' + block, b'STREAM_PDF[M]:' + p))
    # 17 before 18, 18 before what is wrong with the block, 19 before linking
    out += [simple(t, b) for t in (b'{*}[-2]p_1', b'{*}[-2]p_1x', b'{*}[-2]-1', b'{*}[2]-1', b'{*}[2]p_1\n\xff') for b in (ONE, ONE[:-1])]
    return list(dict.fromkeys(out))


if __name__ == '__main__':
    seed, lines, path = sys.argv[1:]
    with open(path, 'wb') as f:
        print(f.write(large(int(seed), int(lines))), 'bytes')
