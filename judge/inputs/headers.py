"""Headers: whole files whose header is of interest, with little or no data. `header(n)` is always the same for the same n.

Ordinary ones as training tools write them; odd ones, with all that the rules allow; faulty ones, with values that they refuse, fields missing or
twice, counts about their limits; damaged ones."""
import itertools
import random

from damage import damaged

WORDS = [b'1.0', b'HTS_TTS_JPN', b'A', b'MCP', b'LF0', b'*-sil+*', b'ALPHA=0.55', b'LN_GAIN=1', b'x', b'a:b', b'a"b', b'a b', b'\xe3\x81\x82', b'\xc3\xa9', b'[x]', b'-', b'x]', b'', b'0', b'a\tb']
INSIDE = WORDS + [b'a,b', b'a\nb', b'\n', b',', b'\n\n', b'\n x', b'a\n"b', b':', b'a\n[b']
UNKNOWN = [b'NOTE', b'KEY', b'hts_voice_version', b'COMMENT ', b' COMMENT', b'X[A', b'X]', b']', b'[', b'X\xc2\xa0', b'VECTOR_LENGTH', b'DURATION_PDF ', b'', b'GV_PDF']
GLOBAL = ('HTS_VOICE_VERSION', 'SAMPLING_FREQUENCY', 'FRAME_PERIOD', 'NUM_STATES', 'NUM_STREAMS', 'STREAM_TYPE', 'FULLCONTEXT_FORMAT', 'FULLCONTEXT_VERSION',
          'GV_OFF_CONTEXT', 'COMMENT')
STREAM = ('VECTOR_LENGTH', 'NUM_WINDOWS', 'IS_MSD', 'USE_GV', 'OPTION')
DURATION = ('DURATION_PDF', 'DURATION_TREE')
POSITION = ('STREAM_WIN', 'STREAM_PDF', 'STREAM_TREE', 'GV_PDF', 'GV_TREE')
KIND = {'HTS_VOICE_VERSION': 'text', 'FULLCONTEXT_FORMAT': 'text', 'FULLCONTEXT_VERSION': 'text', 'COMMENT': 'text', 'STREAM_TYPE': 'texts', 'GV_OFF_CONTEXT': 'texts',
        'OPTION': 'texts', 'IS_MSD': 'flag', 'USE_GV': 'flag', 'STREAM_WIN': 'pairs', 'GV_PDF': 'perhaps', 'GV_TREE': 'perhaps', 'STREAM_PDF': 'pair', 'STREAM_TREE': 'pair',
        'DURATION_PDF': 'pair', 'DURATION_TREE': 'pair'}
LIMITS = {'STREAM_TYPE': 8, 'GV_OFF_CONTEXT': 32, 'OPTION': 16, 'STREAM_WIN': 8}


class Maker:
    """odd: how often the rules' freedom is used; faulty: how often a value is one that is refused."""
    def __init__(self, r, odd, faulty):
        self.r, self.odd, self.faulty = r, odd, faulty

    def chance(self, p):
        return self.r.random() < p

    def text(self, item=False):
        r = self.r
        if self.chance(self.faulty):
            return r.choice((b'"', b'"abc', b'"abc"x', b'"abc" ', b'""x', b'"a"b"', b'"a""b"'))
        if self.chance(self.odd * .5):
            return b'"%s"' % r.choice(INSIDE).replace(b'"', b"'")
        w = r.choice(WORDS)
        return w if self.odd or w else b'x'

    def number(self):
        r = self.r
        if self.chance(self.faulty):
            return r.choice((b'', b'x', b' 1', b'1 ', b'1.0', b'-1', b'+1', b'"1"', b'1x', b'18446744073709551616', b'18446744073709551615x', b'99999999999999999999999', b'1,2', b'\xc3\xa9', b'1\xc3\xa9', b'-'))
        if self.chance(self.odd):
            return r.choice((b'0', b'007', b'18446744073709551615', b'9223372036854775808', b'000000000000000000000000000000001', b'1', b'4294967296', b'0' * 70 + b'5'))
        return str(r.choice((1, 2, 3, 5, 35, 240, 48000))).encode()

    def flag(self):
        if self.chance(self.faulty):
            return self.r.choice((b'', b'2', b'x', b' 1', b'"1"', b'true', b'\xe3\x81\x82'))
        if self.chance(self.odd * .4):
            return self.r.choice((b'0x', b'10', b'1 ', b'00'))
        return self.r.choice((b'0', b'1'))

    def pair(self, rest=True):
        r = self.r
        if self.chance(self.faulty):
            return r.choice((b'', b'5', b'5-', b'-', b'--1-2', b'-5', b'-5-', b'5x', b'5x-6', b'a-b', b'5-x', b'5--6', b' 1-2', b'1 -2', b'18446744073709551616-1', b'1-18446744073709551616', b'1_2', b'"1-2"', b'1-2 ')
                            + (() if rest else (b'1-2-3', b'1-2x')))
        if self.chance(self.odd * .4):
            return r.choice((b'-1-2', b'007-08', b'18446744073709551614-18446744073709551614', b'5-4', b'0-0', b'9-3') + ((b'0-10-20', b'1-2x', b'1-2,3') if rest else ()))
        a = r.randrange(1000)
        return b'%d-%d' % (a, a + r.randrange(500))

    def count(self, key):
        """How many items: few, or about the limit."""
        limit = LIMITS[key]
        if self.chance(self.odd * .08):
            return self.r.choice((limit - 1, limit, limit + 1 if self.chance(.5) else limit))
        return self.r.choice((0, 1, 1, 2, 3))

    def listed(self, key, item):
        items = [item() for _ in range(self.count(key))]
        b = b','.join(items)
        if self.chance(self.odd * .15):
            b = self.r.choice((b',' + b, b + b',', b',', b',,', b',,' + b))
        return b

    def value(self, key, names=None):
        kind = KIND.get(key, 'number')
        if key == 'STREAM_TYPE' and names is not None and not self.chance(self.odd * .3):
            return b','.join(names)
        if kind == 'texts':
            return self.listed(key, lambda: self.text().replace(b',', b';') if not self.chance(self.odd * .2) else self.text())
        if kind == 'pairs':
            return self.listed(key, lambda: self.pair(False))
        if kind == 'perhaps':
            return b'' if self.chance(.2) else self.pair()
        if kind == 'pair':
            return self.pair(key not in DURATION)
        return getattr(self, kind)()

    def key(self, k):
        if self.chance(self.odd * .1) and b'"' not in k:
            return b'"%s"' % k
        return k

    def section(self, entries):
        """Lines out of (key, value), with blank lines, unknown keys and another order where odd."""
        r = self.r
        rows = [self.key(k) + b':' + v for k, v in entries]
        if self.chance(self.odd * .6):
            r.shuffle(rows)
        for _ in range(3 if self.chance(self.odd * .3) else 0):
            value = r.choice(WORDS + [b'"', b'"a', b'a"b"', b'"a"b', b'1-2'])
            rows.insert(r.randint(0, len(rows)), r.choice(UNKNOWN) + b':' + value)
        if self.chance(self.faulty * .5):
            rows.insert(r.randint(0, len(rows)), r.choice((b'NOTE', b'"NOTE', b'"NOTE"', b'"NOTE" :x', b'NOTE ', b'"NOTE"x:1', b'COMMENT', b'DURATION_PDF', b'VECTOR_LENGTH[A]')))
        if rows and self.chance(self.faulty):
            k = r.randrange(len(rows))
            rows.insert(r.randint(0, len(rows)), rows[k])
        if rows and self.chance(self.faulty):
            del rows[r.randrange(len(rows))]
        b = b''
        for row in rows:
            b += row + b'\n' * (r.randint(2, 3) if self.chance(self.odd * .1) else 1)
        return b'\n' * (self.chance(self.odd * .1) or (not b and self.chance(.8))) + b

    def names(self):
        r = self.r
        if not self.odd:
            return [b'MCP', b'LF0', b'LPF'][:r.randint(1, 3)]
        n = r.choice((0, 1, 1, 2, 3)) if not self.chance(.06) else r.choice((7, 8, 8, 9))
        pool = [b'A', b'B', b'MCP', b'LF0', b'', b'a[b', b'a]', b'[', b']', b'x y', b'\xe3\x81\x82', b'C', b'D', b'E', b'F', b'G']
        r.shuffle(pool)
        return pool[:n]

    def grouped(self, fields, optional, names):
        entries = []
        for name in names:
            for f in fields:
                if f in optional and self.chance(.4):
                    continue
                entries.append((f.encode() + b'[' + name + b']', self.value(f)))
            if self.chance(self.odd * .1):
                entries.append((self.r.choice((b'', b'OTHER', b'vector_length', b'a]b')) + b'[' + name + b']', self.text()))
        return entries

    def header(self, leave=None, extra=()):
        """A whole file; `leave` names one field that is left out everywhere."""
        names = self.names()
        g = [(k.encode(), self.value(k, names)) for k in GLOBAL if k not in ('GV_OFF_CONTEXT', 'COMMENT') or not self.chance(.3)]
        s = self.grouped(STREAM, ('USE_GV', 'OPTION'), names if not self.chance(self.odd * .2) else self.names())
        p = [(k.encode(), self.value(k)) for k in DURATION] + self.grouped(POSITION, ('GV_PDF', 'GV_TREE'), names if not self.chance(self.odd * .2) else self.names())
        g, s, p = ([(k, v) for k, v in part if leave is None or k.split(b'[')[0] != leave] for part in (g, s, p))
        b = b'[GLOBAL]\n' + self.section(g) + b'[STREAM]\n' + self.section(s) + b'[POSITION]\n' + self.section(p) + b'[DATA]\n' + self.r.choice((b'', b'x', b'\n[DATA]\n', b'\x00\xff'))
        if self.chance(self.odd * .1):
            b = b'\n' * self.r.randint(1, 3) + b
        if self.chance(self.odd * .05):
            b = b.replace(b'\n[', b'\n\n[', 1)
        return b


def header(n):
    r = random.Random('header %d' % n)
    kind = n % 8
    if kind == 0:
        return Maker(r, 0, 0).header()
    if kind == 1:
        return Maker(r, .7, 0).header()
    if kind == 2:
        return Maker(r, .3, .04).header()
    if kind == 3:
        return Maker(r, .7, .02).header()
    if kind == 4:
        leave = r.choice(GLOBAL + STREAM + DURATION + POSITION).encode()
        return Maker(r, r.choice((0, .4)), 0).header(leave)
    if kind == 5:
        return damaged(r, Maker(r, 0, 0).header())
    if kind == 6:
        return damaged(r, Maker(r, .5, 0).header())
    return short(r)


def short(r):
    """One section is of interest: few lines; the others are the shortest that are whole."""
    m = Maker(r, .8, r.choice((0, .1, .3)))
    g = b'HTS_VOICE_VERSION:1\nSAMPLING_FREQUENCY:1\nFRAME_PERIOD:1\nNUM_STATES:1\nNUM_STREAMS:1\nSTREAM_TYPE:A\nFULLCONTEXT_FORMAT:x\nFULLCONTEXT_VERSION:1\n'
    s = b'VECTOR_LENGTH[A]:1\nNUM_WINDOWS[A]:1\nIS_MSD[A]:0\n'
    p = b'DURATION_PDF:0-1\nDURATION_TREE:0-1\nSTREAM_WIN[A]:0-1\nSTREAM_PDF[A]:0-1\nSTREAM_TREE[A]:0-1\n'
    which = r.randrange(3)
    if which == 0:
        k = r.choice(GLOBAL)
        g = g if k in ('GV_OFF_CONTEXT', 'COMMENT') else b''.join(x for x in g.splitlines(True) if not x.startswith(k.encode() + b':'))
        g = m.section([(k.encode(), m.value(k))] if m.chance(.7) else []) + (b'\n' + g if m.chance(.2) else g)
    elif which == 1:
        k = r.choice(STREAM)
        s = b''.join(x for x in s.splitlines(True) if not x.startswith(k.encode() + b'['))
        s += m.section([(k.encode() + b'[A]', m.value(k))] + m.grouped(STREAM, ('USE_GV', 'OPTION'), [b'B'] * m.chance(.3)))
    else:
        k = r.choice(DURATION + POSITION)
        p = b''.join(x for x in p.splitlines(True) if not x.startswith(k.encode()))
        p += m.section([(k.encode() + (b'' if k in DURATION else b'[A]'), m.value(k))] + m.grouped(POSITION, ('GV_PDF', 'GV_TREE'), [b'B'] * m.chance(.3)))
    cut = m.chance(.3)
    parts = [g, s, p]
    if cut:
        parts[which] = parts[which].rstrip(b'\n') + b'\n'
    return b'[GLOBAL]\n' + parts[0] + b'[STREAM]\n' + parts[1] + b'[POSITION]\n' + parts[2] + b'[DATA]\n'


def without(leave, grouped):
    """An ordinary header without one field: in every group, or (grouped) in the second of two groups alone."""
    r = random.Random('without %s' % leave)
    b = Maker(r, 0, 0)
    b.names = lambda: [b'MCP', b'LF0']
    whole = b.header()
    rows = whole.split(b'\n')
    if grouped:
        return b'\n'.join(x for x in rows if not x.startswith(leave.encode() + b'[LF0]'))
    return b'\n'.join(x for x in rows if not (x.startswith(leave.encode() + b':') or x.startswith(leave.encode() + b'[')))


def at_limits():
    """For each limit on counts: one short of it, at it, one past it."""
    out = []
    names = lambda n: [b'N%d' % i for i in range(n)]
    for n in 7, 8, 9:
        for part in 'type', 'stream', 'position', 'windows':
            out.append(minimal(types=names(n) if part == 'type' else [b'A'], streams=names(n) if part == 'stream' else [b'A'], positions=names(n) if part == 'position' else [b'A'],
                               windows=n if part == 'windows' else 1))
    for n in 31, 32, 33:
        out.append(minimal(contexts=n))
    for n in 15, 16, 17:
        out.append(minimal(options=n))
    return out


def minimal(types=(b'A',), streams=(b'A',), positions=(b'A',), windows=1, contexts=0, options=0):
    g = b'HTS_VOICE_VERSION:1\nSAMPLING_FREQUENCY:1\nFRAME_PERIOD:1\nNUM_STATES:1\nNUM_STREAMS:1\nSTREAM_TYPE:%s\nFULLCONTEXT_FORMAT:x\nFULLCONTEXT_VERSION:1\nGV_OFF_CONTEXT:%s\n' % (
        b','.join(types), b','.join([b'c'] * contexts))
    s = b''.join(b'VECTOR_LENGTH[%s]:1\nNUM_WINDOWS[%s]:1\nIS_MSD[%s]:0\nOPTION[%s]:%s\n' % (n, n, n, n, b','.join([b'o'] * options)) for n in streams)
    p = b'DURATION_PDF:0-1\nDURATION_TREE:0-1\n' + b''.join(b'STREAM_WIN[%s]:%s\nSTREAM_PDF[%s]:0-1\nSTREAM_TREE[%s]:0-1\n' % (n, b','.join([b'0-1'] * windows), n, n) for n in positions)
    return b'[GLOBAL]\n' + g + b'[STREAM]\n' + s + b'[POSITION]\n' + p + b'[DATA]\n'


# ---- by hand: 01's examples and each rule at its edge

TEXTS = [b'', b'a', b'"a"', b'"a', b'"', b'""', b'"a"x', b'"a" ', b' a', b'a ', b'a"b', b'a:b', b'"a\nb"', b'"a\n\nb:c"', b'a,b', b'\t', b'\xe3\x81\x82', b'"\xe3\x81\x82"']
LISTS = [b'', b',', b',,', b'A', b',A', b'A,', b',A,', b'A,B', b'A,,B', b',,A', b'"A"', b'"A","B"', b'"A,B",C', b'"A"x', b'"A"x,B', b'"A\nB",C', b'"A', b'A,"B', b'A,"B"C', b'A"B",C', b' A, B ']
NUMBERS = [b'', b'0', b'5', b'007', b'5x', b'x', b' 5', b'5 ', b'-5', b'+5', b'"5"', b'5,6', b'18446744073709551615', b'18446744073709551616', b'018446744073709551615', b'018446744073709551616',
           b'184467440737095516150', b'18446744073709551616x', b'18446744073709551615x', b'99999999999999999999999999999999999999', b'5\xe3\x81\x82', b'\xe3\x81\x82', b'9' * 400]
FLAGS = [b'', b'0', b'1', b'2', b'01', b'1x', b'x', b' 1', b'-1', b'"1"', b'\xe3\x81\x82']
PAIRS = [b'', b'5', b'5-', b'5-6', b'-5-6', b'--5-6', b'-', b'--', b'-5', b'-5-', b'5--6', b'5-6-7', b'0-10-20', b'5-6x', b'5x-6', b'x-6', b'5-x', b'5 -6', b'5- 6', b' 5-6', b'5,6', b'5-6,7-8', b'"5-6"',
         b'18446744073709551615-18446744073709551615', b'18446744073709551616-0', b'0-18446744073709551616', b'0-18446744073709551616x', b'5\xe3\x81\x82', b'5-\xe3\x81\x82', b'00005-0006']
WINDOWS = PAIRS + [b',', b',5-6', b'5-6,', b',,5-6', b'5-6,,7-8', b'5-6,7', b'5-6,7-', b'5,6-7', b'5-6,x', b'5-6,-7-8', b'-5-6,-7-8', b'5-6 ,7-8']
VALUES = {'COMMENT': TEXTS, 'HTS_VOICE_VERSION': TEXTS, 'STREAM_TYPE': LISTS, 'GV_OFF_CONTEXT': LISTS, 'OPTION': LISTS, 'NUM_STATES': NUMBERS, 'VECTOR_LENGTH': NUMBERS, 'IS_MSD': FLAGS, 'USE_GV': FLAGS,
          'DURATION_PDF': PAIRS, 'STREAM_PDF': PAIRS, 'GV_PDF': PAIRS, 'STREAM_WIN': WINDOWS}


def with_value(key, value, last=False):
    """The minimal header with this value: alone in its section's first lines, or (last) at the section's very end."""
    return with_line(key, (key if key in GLOBAL + DURATION else key + '[A]').encode() + b':' + value, last)


def section_of(key):
    return b'[GLOBAL]\n' if key in GLOBAL else b'[STREAM]\n' if key in STREAM else b'[POSITION]\n'


def with_line(key, line, last=False):
    name = section_of(key)
    sections = minimal().split(b'[STREAM]\n')
    g, (s, p) = sections[0][len(b'[GLOBAL]\n'):], sections[1].split(b'[POSITION]\n')
    parts = {b'[GLOBAL]\n': g, b'[STREAM]\n': s, b'[POSITION]\n': p[:-len(b'[DATA]\n')]}
    rows = [x for x in parts[name].splitlines(True) if not x.startswith((key.encode() + b':', key.encode() + b'['))]
    parts[name] = b''.join(rows + [line + b'\n'] if last else [line + b'\n'] + rows)
    return b''.join(k + v for k, v in parts.items()) + b'[DATA]\n'


UTF8_EDGES = [0x00, 0x7f, 0x80, 0x8f, 0x90, 0x9f, 0xa0, 0xbf, 0xc0, 0xc1, 0xc2, 0xdf, 0xe0, 0xe1, 0xec, 0xed, 0xee, 0xef, 0xf0, 0xf1, 0xf3, 0xf4, 0xf5, 0xff]


def utf8(length):
    """A COMMENT of every sequence of so many bytes at the edges of RFC 3629's rows."""
    for c in itertools.product(UTF8_EDGES, repeat=length):
        yield with_value('COMMENT', bytes(c), last=True)


def by_hand():
    out = [with_value(key, v, last) for key, values in VALUES.items() for v in values for last in (False, True)]
    head = minimal()
    swap = head.replace
    # sections
    out += [b'', b'\n', b'[GLOBAL]\n', b'\n\n\n' + head, b' ' + head, head[:-1], head[:-7], head + b'\n[', swap(b'[DATA]\n', b'\n\n[DATA]\n'), swap(b'\n[DATA]', b' \n[DATA]'), swap(b'\n', b'\r\n'),
            b'[GLOBAL]\n[STREAM]\n\n[POSITION]\n\n[DATA]\n', b'[GLOBAL]\n[STREAM]\n[STREAM]\n[STREAM]\n[POSITION]\n[POSITION]\n[DATA]\n', b'[GLOBAL]\n\n[STREAM]\n\n[POSITION]\n\n[DATA]\n',
            swap(b'[GLOBAL]\n', b'[GLOBAL]\n\n\n'), swap(b'[STREAM]\n', b'\n\n[STREAM]\n\n\n'), swap(b'[STREAM]', b'[Stream]'), swap(b'[STREAM]', b'[POSITION]'), swap(b'NUM_STATES', b'[X]:y\nNUM_STATES'),
            swap(b'GV_OFF_CONTEXT:', b'GV_OFF_CONTEXT:"a\n[b"'), swap(b'[DATA]\n', b'[DATA]\n[GLOBAL]\n\n[DATA]\n')]
    # keys
    for line in (b'"COMMENT":x', b'"COMMENT"', b'"COMMENT', b'"COMMENT"x:y', b'"COMMENT" :y', b'COMMENT', b'COMMENT :x', b' COMMENT:x', b':x', b'"":x', b'"A:B":x', b'"A\nB":x', b'NOTE:"x', b'NOTE:"x"y"', b'comment:x',
                 b'COMMENT:a\nCOMMENT:b', b'COMMENT:a\n"COMMENT":b', b'COMMENT:a\nCOMMENT', b'COMMENT:a\nCOMMENTx', b'NOTE:a\nNOTE:b', b'\nCOMMENT:a\n\n', b'NUM_STATES:x\nNUM_STATES:1', b'\xff:x', b'\xe3\x81\x82:x', b'COMMENT[A]:x'):
        out += [with_line('COMMENT', line), with_line('COMMENT', line, True), with_line('USE_GV', line), with_line('GV_TREE', line, True)]
    # groups
    for line in (b'USE_GV[A]:1\nUSE_GV[A]:1', b'USE_GV[A]:x\nUSE_GV[A]:1', b'USE_GV[A]:1\nUSE_GV[A]:x', b'USE_GV[A:1', b'USE_GV]:1', b'USE_GV[A]x:1', b'"USE_GV[A]":1', b'"USE_GV"[A]:1', b'[A]:x', b'x[A]:"', b'USE_GV[A][A]:1',
                 b'USE_GV[B]:1', b'USE_GV[]:1', b'use_gv[A]:x', b'USE_GV[[A]]:1', b'USE_GV[A]]:1', b'"USE_GV[A\nB]":1', b'OPTION[A]:"a', b'OPTION[A]:"a\nb"', b'USE_GV[B]:x\nVECTOR_LENGTH[C]:y', b'USE_GV[A]:x\nNOTE'):
        out += [with_line('USE_GV', line), with_line('USE_GV', line, True)]
    for line in (b'GV_PDF[A]:\nGV_PDF[A]:', b'GV_PDF[A]:\nGV_PDF[A]:1-2', b'GV_TREE[A]:1-2', b'GV_TREE[A]:', b'STREAM_WIN[B]:\nSTREAM_PDF[B]:0-0\nSTREAM_TREE[B]:0-0', b'DURATION_PDF[A]:x', b'DURATION_PDF:5-6', b'"DURATION_PDF":5-6\nDURATION_PDF:x'):
        out += [with_line('GV_TREE', line), with_line('GV_TREE', line, True)]
    # more than eight groups: a fault in the ninth, the tenth, both; too many alone
    good = lambda n: b'VECTOR_LENGTH[%s]:1\nNUM_WINDOWS[%s]:1\nIS_MSD[%s]:0' % (n, n, n)
    nine = [good(b'N%d' % k) for k in range(10)]
    out.append(with_line('USE_GV', b'\n'.join(nine)))
    for k in (7, 8, 9):
        for bad in (b'USE_GV[N%d]:x', b'IS_MSD[N%d]:1', b'USE_GV[N%d]:'):
            out.append(with_line('USE_GV', b'\n'.join(nine + [bad % k])))
    out.append(with_line('USE_GV', b'\n'.join(nine + [b'USE_GV[N9]:x', b'USE_GV[N8]:'])))
    out.append(with_line('USE_GV', b'\n'.join([b'USE_GV[N9]:x'] + nine + [b'USE_GV[N8]:'])))
    # 12 of a section before anything of the next
    out.append(minimal(types=[b'N'] * 9).replace(b'[STREAM]\n', b'[STREAM]\n\xff'))
    out.append(minimal(options=17).replace(b'[POSITION]\n', b'[POSITION]\n\xff'))
    out.append(minimal(types=[b'N'] * 9).replace(b'NUM_STATES:1', b'NUM_STATES:'))
    # 2 before reading order, reading order before missing fields, missing fields before groups
    out += [head.replace(b'NUM_STATES:1', b'NUM_STATES:x').replace(b'GV_OFF_CONTEXT:', b'GV_OFF_CONTEXT:\xff'), head.replace(b'NUM_STATES:1', b'NUM_STATES:x').replace(b'[STREAM]\n', b'[STREAM]\n\xff'),
            head.replace(b'FRAME_PERIOD:1\n', b'').replace(b'NUM_STATES:1', b'NUM_STATES:x'), head.replace(b'DURATION_PDF:0-1\n', b'').replace(b'STREAM_PDF[A]:0-1', b'STREAM_PDF[A]:x'),
            head.replace(b'DURATION_PDF:0-1\n', b'DURATION_PDF:0-x\n').replace(b'STREAM_PDF[A]:0-1', b'STREAM_PDF[A]:x'), head.replace(b'IS_MSD[A]:0\n', b'').replace(b'NUM_WINDOWS[A]:1', b'NUM_WINDOWS[A]:x')]
    # UTF-8
    for c in (b'\x80', b'\xc2', b'\xc2\x80', b'\xc1\xbf', b'\xe0\x9f\xbf', b'\xe0\xa0\x80', b'\xed\x9f\xbf', b'\xed\xa0\x80', b'\xee\x80\x80', b'\xf0\x8f\xbf\xbf', b'\xf0\x90\x80\x80', b'\xf4\x8f\xbf\xbf', b'\xf4\x90\x80\x80', b'\xf5\x80\x80\x80',
              b'\xe3\x81', b'\xf0\x90\x80', b'\xe3\x81\x82\xff', b'a\xffb\xfe'):
        out += [with_value('COMMENT', c), with_value('COMMENT', c, True), with_value('USE_GV', c, True), with_value('DURATION_PDF', c, True)]
    return out


def short_values(length):
    """The minimal header in which the value of one key of each kind, or a whole line, is every short text; at the section's end, so that it can meet the end."""
    from treetexts import short_texts
    alphabet = [b'0', b'5', b'-', b',', b'"', b'\n', b'x', b':', b'[', b']']
    for t in short_texts(alphabet, length):
        for key in ('COMMENT', 'NUM_STATES', 'STREAM_TYPE', 'IS_MSD', 'OPTION', 'DURATION_PDF', 'STREAM_WIN', 'STREAM_TREE', 'GV_PDF'):
            yield with_value(key, t, last=True)
        yield with_line('COMMENT', t)
        yield with_line('USE_GV', b'USE_GV' + t)
