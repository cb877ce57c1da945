#!/usr/bin/env python3
"""A second reading of docs/01-scope.md, for judging the loader: written from its words (and RFC 3629, IEEE 754), not after the Rust.

  reading.py dump FILE                          the lines of `larsavim dump`
  reading.py open|dump|tree|walk  <hex lines    an input a line, as hex; each answer ends with a line END
                                                (tree: the input is tree text; walk: after the input stand model, tree, answers as hex or -, limit)
Places are offsets from the file's first byte in the header, from the first data byte in tree text. A part of a text is (start, end)."""
import re
import struct
import sys


class Refused(Exception):
    def __init__(self, number, place=0, line=0):
        Exception.__init__(self, number, place, line)
        self.number, self.place, self.line = number, place, line


FILE_LIMIT, NAMES, WINDOWS, OPTIONS, CONTEXTS, WIDTH_LIMIT = 16777216, 8, 8, 16, 32, 4096

# ---- UTF-8: RFC 3629, section 4

TAIL = (0x80, 0xBF)
UTF8_ROWS = (((0x00, 0x7F),), ((0xC2, 0xDF), TAIL), ((0xE0, 0xE0), (0xA0, 0xBF), TAIL), ((0xE1, 0xEC), TAIL, TAIL), ((0xED, 0xED), (0x80, 0x9F), TAIL),
             ((0xEE, 0xEF), TAIL, TAIL), ((0xF0, 0xF0), (0x90, 0xBF), TAIL, TAIL), ((0xF1, 0xF3), TAIL, TAIL, TAIL), ((0xF4, 0xF4), (0x80, 0x8F), TAIL, TAIL))


def check_utf8(s, i, end):
    while i < end:
        if s[i] < 0x80:
            i += 1
            continue
        for row in UTF8_ROWS:
            if i + len(row) <= end and all(lo <= s[i + k] <= hi for k, (lo, hi) in enumerate(row)):
                i += len(row)
                break
        else:
            raise Refused(2, i)


# ---- sections

def sections(file):
    """The parts [GLOBAL], [STREAM], [POSITION] and the data."""
    parts, i = [], 0
    while file[i:i + 1] == b'\n':
        i += 1
    for heading in b'[GLOBAL]\n', b'[STREAM]\n', b'[POSITION]\n':
        if not file.startswith(heading, i):
            raise Refused(1)
        start = i + len(heading)
        end = file.find(b'\n[', start)
        if end < 0:
            raise Refused(1)
        parts.append((start, end))
        i = end
        while file[i:i + 1] == b'\n':
            i += 1
    if not file.startswith(b'[DATA]\n', i):
        raise Refused(1)
    return parts + [(i + len(b'[DATA]\n'), len(file))]


# ---- header text: a value stands at i of s, which ends where the section or the group value ends; D are the delimiters now open

UNTIL = {D: re.compile(b'[^' + D + b']*') for D in (b'\n', b'\n:', b'\n,', b',')}
DIGITS = re.compile(b'[0-9]*')


def ends(s, i, D):
    return i == len(s) or s[i] in D


def run_to(s, i, D):
    return UNTIL[D].match(s, i).end() if D else len(s)


def text(s, i, D):
    if s[i:i + 1] == b'"':
        j = s.find(b'"', i + 1)
        if j < 0:
            raise Refused(3, len(s))
        return (i + 1, j), j + 1
    j = run_to(s, i, D)
    return (i, j), j


def number(s, i, D=None):
    if i == len(s):
        raise Refused(3, len(s))
    j = DIGITS.match(s, i).end()
    if j == i:
        raise Refused(5, i)
    digits = s[i:j].lstrip(b'0') or b'0'
    if len(digits) > 20 or int(digits) >= 2 ** 64:
        raise Refused(10, i)
    return int(digits), j


def flag(s, i, D):
    if i == len(s):
        raise Refused(3, len(s))
    if s[i] not in b'01':
        raise Refused(4, i)
    return s[i] - 48, i + 1


def pair(s, i, D):
    if ends(s, i, D):
        raise Refused(9)
    if s[i] == 45:
        i += 1
    a, i = number(s, i)
    if ends(s, i, D):
        raise Refused(9)
    if s[i] != 45:
        raise Refused(6, i)
    b, i = number(s, i + 1)
    return (a, b), i


def perhaps_pair(s, i, D):
    return (None, i) if ends(s, i, b'\n') else pair(s, i, D)


def listed(item):
    def read(s, i, D):
        items = []
        if ends(s, i, D):
            return items, i
        if s[i] == 44:
            i += 1
        while True:
            x, i = item(s, i, D + b',')
            items.append(x)
            if ends(s, i, D):
                return items, i
            if s[i] != 44:
                raise Refused(6, i)
            i += 1
    return read


texts, pairs = listed(text), listed(pair)

# key, kind, required
GLOBAL = {b'HTS_VOICE_VERSION': (text, True), b'SAMPLING_FREQUENCY': (number, True), b'FRAME_PERIOD': (number, True), b'NUM_STATES': (number, True),
          b'NUM_STREAMS': (number, True), b'STREAM_TYPE': (texts, True), b'FULLCONTEXT_FORMAT': (text, True), b'FULLCONTEXT_VERSION': (text, True),
          b'GV_OFF_CONTEXT': (texts, False), b'COMMENT': (text, False)}
STREAM_GROUP = {b'VECTOR_LENGTH': (number, True), b'NUM_WINDOWS': (number, True), b'IS_MSD': (flag, True), b'USE_GV': (flag, False), b'OPTION': (texts, False)}
POSITION = {b'DURATION_PDF': (pair, True), b'DURATION_TREE': (pair, True)}
POSITION_GROUP = {b'STREAM_WIN': (pairs, True), b'STREAM_PDF': (pair, True), b'STREAM_TREE': (pair, True), b'GV_PDF': (perhaps_pair, False), b'GV_TREE': (perhaps_pair, False)}


def required(fields, said):
    for key, (kind, must) in fields.items():
        if must and key not in said:
            raise Refused(9)


def lines(s, i, fields):
    """A section's lines: what its own fields say; and of every other key its bytes, start, and where its value stands."""
    said, others = {}, []
    while True:
        while s[i:i + 1] == b'\n':
            i += 1
        if i == len(s):
            required(fields, said)
            return said, others
        (a, b), i = text(s, i, b'\n:')
        key = s[a:b]
        if key in said:
            raise Refused(9)
        if i == len(s):
            raise Refused(3, len(s))
        if s[i] != 58:
            raise Refused(7, i)
        if key in fields:
            said[key], i = fields[key][0](s, i + 1, b'\n')
        else:
            start, i = i + 1, run_to(s, i + 1, b'\n')
            others.append((key, a, (start, i)))
        if not ends(s, i, b'\n'):
            raise Refused(8, i)


def grouped(s, others, fields):
    """The bracketed groups by first appearance: where the name stands, and what the group's fields say."""
    groups = {}
    for key, start, value in others:
        first = key.find(b'[')
        if first >= 0 and key.endswith(b']'):
            name = key[first + 1:-1]
            groups.setdefault(name, ((start + first + 1, start + len(key) - 1), []))[1].append((key[:first], value))
    all_said = []
    for span, rows in groups.values():
        said = {}
        for field, (a, b) in rows:
            if field in said:
                raise Refused(9)
            if field in fields:
                said[field], _ = fields[field][0](s[:b], a, b'')
        required(fields, said)
        all_said.append((span, said))
    return all_said


class Header:
    """The header record. Strings and names are parts of the file."""
    def __init__(self, file):
        if len(file) > FILE_LIMIT:
            raise Refused(12)
        g, s, p, self.data = sections(file)
        check_utf8(file, *g)
        self.g, _ = lines(file[:g[1]], g[0], GLOBAL)
        if len(self.g[b'STREAM_TYPE']) > NAMES or len(self.g.get(b'GV_OFF_CONTEXT', [])) > CONTEXTS:
            raise Refused(12)
        check_utf8(file, *s)
        _, others = lines(file[:s[1]], s[0], {})
        self.streams = grouped(file[:s[1]], others, STREAM_GROUP)
        if len(self.streams) > NAMES or any(len(d.get(b'OPTION', [])) > OPTIONS for _, d in self.streams):
            raise Refused(12)
        check_utf8(file, *p)
        self.durations, others = lines(file[:p[1]], p[0], POSITION)
        self.positions = grouped(file[:p[1]], others, POSITION_GROUP)
        if len(self.positions) > NAMES or any(len(d[b'STREAM_WIN']) > WINDOWS for _, d in self.positions):
            raise Refused(12)


# ---- tree text: s is the data up to the text's end

BLANKS = re.compile(rb'[ \n]*')
NAME = re.compile(rb'[\x00-\x09\x0b-\x1f\x21-\x7f]*')
PATTERN = re.compile(rb'[A-Za-z0-9*?!#%&+\-/:=@^_|]*')
WORD = re.compile(rb'[A-Za-z0-9_]*')
SIGNED = re.compile(rb'-?[0-9]+')
PARTING = re.compile(rb'[ \t]*\n[ \n]*')
LINE_PARTING = re.compile(rb'[ \t]*\n[ \t]*[ \n]*')
LAST_DIGITS = re.compile(rb'[0-9]*\Z')


class Cursor:
    """A place i in s, which steps move on or refuse with 17."""
    def __init__(self, s, i):
        self.s, self.i = s, i

    def word(self, w):
        if not self.s.startswith(w, self.i):
            raise Refused(17)
        self.i += len(w)

    def some(self, run):
        """One byte or more of a run, as far as it goes."""
        a, self.i = self.i, run.match(self.s, self.i).end()
        if a == self.i:
            raise Refused(17)
        return a, self.i

    def blanks(self):
        self.i = BLANKS.match(self.s, self.i).end()

    def at(self, w):
        return self.s.startswith(w, self.i)

    def fitting(self):
        """Decimal digits, perhaps after -, that fit signed 64 bits; else None, and nothing is taken."""
        m = SIGNED.match(self.s, self.i)
        if not m:
            return None
        n = signed64(m.group())
        if n is not None:
            self.i = m.end()
        return n

    def whole_number(self):
        n = self.fitting()
        if n is None:
            raise Refused(17)
        return n

    def bare_reference(self):
        n = self.fitting()
        if n is not None:
            return 'N', n
        a, b = self.some(WORD)
        n = signed64(LAST_DIGITS.search(self.s[a:b]).group())
        if n is None:
            raise Refused(17)
        return 'P', n

    def reference(self):
        if not self.at(b'"'):
            return self.bare_reference()
        self.i += 1
        r = self.bare_reference()
        self.word(b'"')
        return r

    def pattern(self):
        if not self.at(b'"'):
            return self.some(PATTERN)
        self.i += 1
        p = self.some(PATTERN)
        self.word(b'"')
        return p

    def question(self):
        self.word(b'QS')
        self.some(BLANKS)
        name = self.some(NAME)
        self.some(BLANKS)
        self.word(b'{')
        self.blanks()
        patterns = [self.pattern()]
        while self.at(b','):
            self.i += 1
            self.blanks()
            patterns.append(self.pattern())
        self.blanks()
        self.word(b'}')
        return name, patterns

    def line(self):
        ident = self.whole_number()
        self.some(BLANKS)
        name = self.some(NAME)
        self.some(BLANKS)
        no = self.reference()
        self.some(BLANKS)
        return ident, name, no, self.reference()

    def parted(self, parting, begins):
        """Past a parting if the next item begins behind it."""
        m = parting.match(self.s, self.i)
        if m and begins.match(self.s, m.end()):
            self.i = m.end()
            return True
        return False

    def tree(self):
        star = self.i
        self.word(b'{*}')
        self.blanks()
        self.word(b'[')
        state = self.whole_number()
        self.word(b']')
        self.blanks()
        if not self.at(b'{'):
            return star, state, self.reference(), []
        self.i += 1
        self.blanks()
        ls = []
        if not self.at(b'}'):
            ls.append(self.line())
            while self.parted(LINE_PARTING, LINE_BEGINS):
                ls.append(self.line())
            self.blanks()
        self.word(b'}')
        return star, state, None, ls


LINE_BEGINS, QUESTION_BEGINS = re.compile(rb'[-0-9]'), re.compile(rb'QS[ \n]')


def signed64(digits):
    """The number of decimal digits, perhaps after -, if there are any and it fits signed 64 bits."""
    bare = digits.lstrip(b'-')
    short = bare.lstrip(b'0') or bare[:1]
    if not short or len(short) > 19:
        return None
    n = -int(short) if digits[:1] == b'-' else int(short)
    return n if -2 ** 63 <= n < 2 ** 63 else None


def item(c, read):
    """What stands here; where it doesn't fit, 17 with its first byte (02, Wish 2)."""
    at = c.i
    try:
        return read()
    except Refused:
        raise Refused(17, at)


def next_tree(c):
    """Whether a tree stands behind a parting; other text after a tree is 17 at its first byte that is no blank."""
    parting = PARTING.match(c.s, c.i)
    c.blanks()
    if c.i == len(c.s):
        return False
    if not parting or parting.end() == len(c.s):
        raise Refused(17, c.i)
    c.i = parting.end()
    return True


def tree_text(s, i):
    """Questions (name, patterns) and trees (place of {*}, state, lone reference or None, lines (id, name, no, yes))."""
    c = Cursor(s, i)
    questions = []
    if QUESTION_BEGINS.match(s, c.i):
        questions.append(item(c, c.question))
        while c.parted(PARTING, QUESTION_BEGINS):
            questions.append(item(c, c.question))
    c.blanks()
    trees = [item(c, c.tree)]
    while next_tree(c):
        trees.append(item(c, c.tree))
    if any(state < 0 for _, state, _, _ in trees):
        raise Refused(18)
    return questions, trees


def single(tree):
    """The one reference of a tree that is one: a lone reference, or one braced line with equal references."""
    _, _, lone, ls = tree
    if lone is not None:
        return lone
    return ls[0][2] if len(ls) == 1 and ls[0][2] == ls[0][3] else None


def records_of(tree):
    """How many records a tree needs."""
    return 1 if single(tree) else sum(1 + (no[0] == 'P') + (yes[0] == 'P') for _, _, no, yes in tree[3])


# ---- PDF blocks

def widen(b):
    """Binary32 to binary64, by IEEE 754's fields: sign, exponent, fraction."""
    sign, exponent, fraction = b >> 31, b >> 23 & 255, b & 0x7fffff
    if exponent == 255:
        wide = 2047 << 52 | fraction << 29 | (1 << 51 if fraction else 0)
    elif exponent:
        wide = exponent + 1023 - 127 << 52 | fraction << 29
    elif fraction:
        up = 24 - fraction.bit_length()  # so far up stands the leading digit where the hidden one would
        wide = 1 + 1023 - 127 - up << 52 | (fraction << up & 0x7fffff) << 29
    else:
        wide = 0
    return sign << 63 | wide


def block(data, start, end, trees, width):
    """Of each tree its first value and entries; and the values."""
    size = end - start
    if size < 4 * trees:
        raise Refused(19)
    counts = struct.unpack_from('<%dI' % trees, data, start)
    entries = sum(counts)
    if size != 4 * (trees + entries * width) or width == 0 and entries > 0:
        raise Refused(19)
    rows, first = [], 0
    for c in counts:
        rows.append((first, c))
        first += c * width
    numbers = struct.unpack_from('<%dI' % (entries * width), data, start + 4 * trees)
    half, values = width // 2, []
    for e in range(0, entries * width, width or 1):
        for i in range(e, e + half):
            values.append(widen(numbers[i]))
            values.append(widen(numbers[i + half]))
        if width % 2:
            values.append(widen(numbers[e + width - 1]))
    return rows, values


# ---- linking

def link(tree, t, rows_by_name, s):
    """The records of tree number t."""
    one = single(tree)
    if one:
        if one[0] == 'N':
            raise Refused(23, t, 0)
        return [1, one[1], 0, 0]
    ls = tree[3]
    last = {ident: k for k, (ident, _, _, _) in enumerate(ls)}
    leaves = sorted(n for _, _, no, yes in ls for kind, n in (no, yes) if kind == 'P')
    first = {}
    for k, n in enumerate(leaves):
        first.setdefault(n, len(ls) + k)
    records = []
    for k, (_, (a, b), no, yes) in enumerate(ls):
        goes = []
        for kind, n in (yes, no):
            to = (last if kind == 'N' else first).get(n)
            if to is None:
                raise Refused(21, t, k)
            goes.append(to)
        q = rows_by_name.get(s[a:b])
        if q is None:
            raise Refused(22, t, k)
        records += [0, q] + goes
    for n in leaves:
        records += 1, n, 0, 0
    return records


class Model:
    """A model's tables, each a list of numbers."""
    def __init__(self, file, h, which):
        tree_range, pdf_range, self.width = which_model(file, h, which)
        if self.width > WIDTH_LIMIT:
            raise Refused(12)
        data = file[h.data[0]:h.data[1]]
        start, end = inside(tree_range, len(data))
        self.data = s = data[:end]
        self.text = qs, trees = tree_text(s, start)
        start, end = inside(pdf_range, len(data))
        blocks, self.values = block(data, start, end, len(trees), self.width)
        self.questions, self.patterns, self.trees, self.records = [], [], [], []
        rows_by_name = {}
        for i, ((a, b), patterns) in enumerate(qs):
            self.questions += a, b - a, len(self.patterns) // 2, len(patterns)
            for x, y in patterns:
                self.patterns += x, y - x
            rows_by_name[s[a:b]] = i
        for t, tree in enumerate(trees):
            records = link(tree, t, rows_by_name, s)
            self.trees += tree[1], len(self.records) // 4, len(records) // 4, 0 if single(tree) else len(tree[3]), *blocks[t]
            self.records += records

    def needed(self):
        return [len(self.questions) // 4, len(self.patterns) // 2, len(self.trees) // 6, len(self.records) // 4, len(self.values)]


def inside(r, length):
    if r[0] > r[1] + 1 or r[1] + 1 > length:
        raise Refused(16)
    return r[0], r[1] + 1


def which_model(file, h, which):
    """Tree range, PDF range and width of model 0 (duration), 2i + 1 (stream i), 2i + 2 (its GV)."""
    if which == 0:
        return h.durations[b'DURATION_TREE'], h.durations[b'DURATION_PDF'], 2 * h.g[b'NUM_STATES']
    names = h.g[b'STREAM_TYPE']
    if (which - 1) // 2 >= len(names):
        raise Refused(13)
    a, b = names[(which - 1) // 2]
    p = group_named(file, h.positions, file[a:b], 13)
    s = group_named(file, h.streams, file[a:b], 14)
    if which % 2:
        return p[b'STREAM_TREE'], p[b'STREAM_PDF'], 2 * s[b'VECTOR_LENGTH'] * s[b'NUM_WINDOWS'] + s[b'IS_MSD']
    if not s.get(b'USE_GV') or p.get(b'GV_TREE') is None or p.get(b'GV_PDF') is None:
        raise Refused(15)
    return p[b'GV_TREE'], p[b'GV_PDF'], 2 * s[b'VECTOR_LENGTH']


def group_named(file, groups, name, otherwise):
    for (a, b), said in reversed(groups):
        if file[a:b] == name:
            return said
    raise Refused(otherwise)


# ---- the walk, the leaf check

def walk(trees, records, tree, answers, limit):
    """PDF number and questions asked."""
    if tree >= len(trees) // 6:
        raise Refused(24)
    _, first, count, _, _, _ = trees[6 * tree:6 * tree + 6]
    k, asked = 0, 0
    seen = {}
    while True:
        if k >= count or first + k >= len(records) // 4:
            raise Refused(24)
        kind, number, yes, no = records[4 * (first + k):4 * (first + k) + 4]
        if kind == 1:
            return number, asked
        if kind != 0 or number >= len(answers):
            raise Refused(24)
        if asked == limit or k in seen:  # met before, so it goes round and meets any limit
            raise Refused(25)
        seen[k] = True
        asked += 1
        k = yes if answers[number] else no


class WrittenTree:
    """A tree as it is written, to be walked without tables: the last question of each name, the last line of each id."""
    def __init__(self, s, questions, tree):
        self.one, self.lines = single(tree), [(s[a:b], no, yes) for _, (a, b), no, yes in tree[3]]
        self.question = {s[a:b]: i for i, ((a, b), _) in enumerate(questions)}
        self.line = {ident: k for k, (ident, _, _, _) in enumerate(tree[3])}
        self.met = set()  # lines on walks that came to a PDF

    def walk(self, answers, limit):
        if self.one:
            return self.one[1], 0
        if not self.lines:
            raise Refused(24)
        k, asked, seen = 0, 0, set()
        while True:
            name, no, yes = self.lines[k]
            q = self.question[name]
            if q >= len(answers):
                raise Refused(24)
            if asked == limit or k in seen:
                raise Refused(25)
            seen.add(k)
            asked += 1
            kind, n = yes if answers[q] else no
            if kind == 'P':
                self.met |= seen
                return n, asked
            k = self.line[n]


def leaves_fit(questions, trees, records, values, width):
    def within(first, count, rows):
        return count == 0 or first + count <= rows
    for t in range(len(trees) // 6):
        _, first, count, _, first_value, entries = trees[6 * t:6 * t + 6]
        if not within(first, count, len(records) // 4) or not within(first_value, entries * width, len(values)):
            return False
        for r in range(first, first + count):
            kind, number, yes, no = records[4 * r:4 * r + 4]
            if kind > 1 or kind == 1 and not 1 <= number <= entries:
                return False
            if kind == 0 and not (number < len(questions) // 4 and yes < count and no < count):
                return False
    return True


# ---- printing

NAMED = {10: '\\n', 9: '\\t', 13: '\\r', 34: '\\"', 92: '\\\\'}
SHOWN = [NAMED.get(b) or (chr(b) if 0x20 <= b <= 0x7e else '\\x%02x' % b) for b in range(256)]


def quoted(file, span):
    return '"%s"' % ''.join(map(SHOWN.__getitem__, file[span[0]:span[1]]))


def quoted_list(file, spans):
    return '[%s]' % ','.join(quoted(file, x) for x in spans)


def ranged(r):
    return 'absent' if r is None else '%d-%d' % r


def header_lines(file, h):
    g = h.g
    for key, (kind, _) in GLOBAL.items():
        name, v = key.decode(), g.get(key)
        if kind is number:
            yield '%s %d' % (name, v)
        elif kind is texts:
            yield '%s %s' % (name, quoted_list(file, v or []))
        else:
            yield '%s %s' % (name, 'absent' if v is None else quoted(file, v))
    for key in POSITION:
        yield '%s %s' % (key.decode(), ranged(h.durations[key]))
    for name, d in h.streams:
        yield 'STREAM %s VECTOR_LENGTH=%d NUM_WINDOWS=%d IS_MSD=%d USE_GV=%d OPTION=%s' % (
            quoted(file, name), d[b'VECTOR_LENGTH'], d[b'NUM_WINDOWS'], d[b'IS_MSD'], d.get(b'USE_GV', 0), quoted_list(file, d.get(b'OPTION', [])))
    for name, d in h.positions:
        yield 'POSITION %s STREAM_WIN=[%s] STREAM_PDF=%s STREAM_TREE=%s GV_PDF=%s GV_TREE=%s' % (
            quoted(file, name), ','.join(map(ranged, d[b'STREAM_WIN'])), ranged(d[b'STREAM_PDF']), ranged(d[b'STREAM_TREE']),
            ranged(d.get(b'GV_PDF')), ranged(d.get(b'GV_TREE')))
    yield 'DATA %d %d' % (h.data[0], h.data[1] - h.data[0])


def model_lines(m):
    yield 'LOAD 0 0 0 ' + ' '.join(map(str, m.needed()))
    yield 'AFTER filled'
    qs, _ = m.text
    for i, (name, patterns) in enumerate(qs):
        yield 'Q %d %s %s' % (i, quoted(m.data, name), quoted_list(m.data, patterns))
    for letter, width, table in ('T', 6, m.trees), ('R', 4, m.records):
        for i in range(len(table) // width):
            yield '%s %d %s' % (letter, i, ' '.join(map(str, table[width * i:width * i + width])))
    for i in range(len(m.values) // (m.width or 1)):
        yield 'V %d %s' % (i, ' '.join('%016x' % v for v in m.values[m.width * i:m.width * i + m.width]))
    yield 'LEAVES ' + ('yes' if leaves_fit(m.questions, m.trees, m.records, m.values, m.width) else 'no')


def dump(file, models=True):
    try:
        h = Header(file)
    except Refused as r:
        yield 'OPEN %d %d' % (r.number, r.place)
        return
    yield 'OPEN 0 0'
    yield from header_lines(file, h)
    for which in range(2 * len(h.g[b'STREAM_TYPE']) + 1 if models else 0):
        yield 'MODEL %d' % which
        try:
            m = Model(file, h, which)
        except Refused as r:
            yield 'LOAD %d %d %d 0 0 0 0 0' % (r.number, r.place, r.line)
            yield 'AFTER ' + ('zero' if r.number > 20 else 'kept')
            continue
        yield from model_lines(m)


def tree_lines(s):
    """A tree text as it is written: counts (questions, patterns, trees, records, longest tree's lines), then the things themselves."""
    try:
        qs, trees = tree_text(s, 0)
    except Refused as r:
        yield 'TEXT %d 0 0 0 0 0' % r.number
        return
    yield 'TEXT 0 %d %d %d %d %d' % (len(qs), sum(len(p) for _, p in qs), len(trees), sum(map(records_of, trees)), max(len(t[3]) for t in trees))
    for i, (name, patterns) in enumerate(qs):
        yield 'Q %d %s %s' % (i, quoted(s, name), quoted_list(s, patterns))
    for i, (_, state, lone, ls) in enumerate(trees):
        if lone:
            yield 'T %d %d lone %s%d' % ((i, state) + lone)
            continue
        yield 'T %d %d lines %d' % (i, state, len(ls))
        for ident, name, no, yes in ls:
            yield 'L %d %s %s%d %s%d' % ((ident, quoted(s, name)) + no + yes)


def outcome(walking, *args):
    try:
        return 'PDF %d ASKED %d' % walking(*args)
    except Refused as r:
        return 'REFUSED %d' % r.number


def walk_line(file, which, tree, answers, limit):
    try:
        m = Model(file, Header(file), which)
    except Refused as r:
        return 'REFUSED %d' % r.number
    return outcome(walk, m.trees, m.records, tree, answers, limit)


def answer(mode, line):
    """The lines of the answer to one line of input."""
    words = line.split(' ')
    b = bytes.fromhex(words[0])
    if mode == 'tree':
        return tree_lines(b)
    if mode == 'walk':
        which, tree, answers, limit = words[1:5]
        return [walk_line(b, int(which), int(tree), bytes.fromhex(answers.strip('-')), int(limit))]
    return dump(b, models=mode == 'dump')


def main(argv):
    if len(argv) == 3 and argv[1] == 'dump':
        with open(argv[2], 'rb') as f:
            for line in dump(f.read()):
                print(line)
    elif len(argv) == 2 and argv[1] in ('open', 'dump', 'tree', 'walk'):
        for line in sys.stdin:
            print('\n'.join(answer(argv[1], line.rstrip('\n'))), 'END', sep='\n')
    else:
        sys.exit(__doc__)


if __name__ == '__main__':
    main(sys.argv)
