#!/usr/bin/env python3
"""The clauses of crates/written/specs, transcribed rule by rule, and held against the oracle.

  transcribed.py headers|trees|voices FROM TO     the generated inputs of these numbers
  transcribed.py tables FROM TO                   walks over any tables
  transcribed.py short [LENGTH]                   all short texts over small alphabets: tree text, and header text of each kind of value
  transcribed.py byhand                           the inputs by hand

A relation `R a b` of the crate is here a generator that yields every b for which a rule gives R a b; a rule that asks for a place tries all places. So a text has
as many answers here as the rules allow. Counted: texts with no answer, with more than one, with one that is derived twice, and with one that isn't the
oracle's (through reading.py, which is compared with the oracle in the same run)."""
import argparse
import collections
import itertools
import os
import random
import sys

sys.path.insert(0, os.path.join(os.path.dirname(os.path.abspath(__file__)), '..'))
import folders  # noqa: E402
import compare  # noqa: E402
import headers  # noqa: E402
import reading  # noqa: E402
import store  # noqa: E402
import treetexts  # noqa: E402
import voices  # noqa: E402

NEWLINE, QUOTE, COMMA, DASH, COLON, BRACKET, UNBRACKET, BRACE, UNBRACE = b'\n",-:[]{}'

# ---- Bytes


def byte_at(s, i):
    return s[i] if i < len(s) else 256


def one_of(D):
    return lambda b: b in D


def none_of(D):
    return lambda b: b not in D


is_newline = one_of((NEWLINE,))
letter = lambda b: 65 <= b <= 90 or 97 <= b <= 122
digit = lambda b: 48 <= b <= 57
wildcard = one_of((42, 63))
mark = one_of((33, 35, 37, 38, 43, 45, 47, 58, 61, 64, 94, 95, 124))
in_pattern = lambda b: letter(b) or digit(b) or wildcard(b) or mark(b)
in_word = lambda b: letter(b) or digit(b) or b == 95
blank = one_of((32, 10))
space_or_tab = one_of((32, 9))
in_name = lambda b: b <= 127 and not blank(b)


def At(s, i, b):
    return i < len(s) and s[i] == b


def Each(p, s, i):
    """Every j with Each p s i j."""
    if i <= len(s):
        yield i
        while i < len(s) and p(s[i]):
            i += 1
            yield i


def each(p, s, i, j):
    return i <= j <= len(s) and all(p(s[k]) for k in range(i, j))


def Ends(p, s, i):
    return i == len(s) or i < len(s) and p(s[i])


def decimal(s):
    n = 0
    for b in s:
        n = n * 10 + (b - 48)
    return n


# ---- Rfc3629

TAIL = (0x80, 0xBF)
TABLE = [[(0x00, 0x7F)], [(0xC2, 0xDF), TAIL], [(0xE0, 0xE0), (0xA0, 0xBF), TAIL], [(0xE1, 0xEC), TAIL, TAIL], [(0xED, 0xED), (0x80, 0x9F), TAIL], [(0xEE, 0xEF), TAIL, TAIL],
         [(0xF0, 0xF0), (0x90, 0xBF), TAIL, TAIL], [(0xF1, 0xF3), TAIL, TAIL, TAIL], [(0xF4, 0xF4), (0x80, 0x8F), TAIL, TAIL]]


def Char(u, q):
    """Every end of a character that starts at q."""
    for row in TABLE:
        if q + len(row) <= len(u) and all(lo <= u[q + k] <= hi for k, (lo, hi) in enumerate(row)):
            yield q + len(row)


def octets_ends(u):
    """Every q with Octets (take q u)."""
    seen, todo = {0}, [0]
    while todo:
        for e in Char(u, todo.pop()):
            if e not in seen:
                seen.add(e)
                todo.append(e)
    return seen


# ---- Sections

def Part(least, heading, file, before):
    """`file` from `before` on is newlines, the heading, a text up to the next "\\n[", and what follows: every (text, place of what follows)."""
    for n in Each(is_newline, file, before):
        if n - before < least or file[n:n + len(heading)] != heading:
            continue
        start = n + len(heading)
        for end in range(start, len(file) + 1):
            if file[end:end + 2] == b'\n[' and all(file[a:a + 2] != b'\n[' for a in range(start, end)):
                yield (start, end), end


def Sections(file):
    for g, after_g in Part(0, b'[GLOBAL]\n', file, 0):
        for s, after_s in Part(1, b'[STREAM]\n', file, after_g):
            for p, after_p in Part(1, b'[POSITION]\n', file, after_s):
                for n in Each(is_newline, file, after_p):
                    if n > after_p and file[n:n + 7] == b'[DATA]\n':
                        yield g, s, p, (n + 7, len(file))


# ---- HeaderText: each yields (what is said, place behind it)

def Text(D, s, i):
    if At(s, i, QUOTE):
        for j in Each(none_of((QUOTE,)), s, i + 1):
            if At(s, j, QUOTE):
                yield (i + 1, j), j + 1
    else:
        for j in Each(none_of(D), s, i):
            if Ends(one_of(D), s, j):
                yield (i, j), j


def Digits(s, i):
    for j in Each(digit, s, i):
        if i < j and Ends(lambda b: not digit(b), s, j):
            yield j


def Number(s, i):
    for j in Digits(s, i):
        n = decimal(s[i:j])
        if n < 2 ** 64:
            yield n, j


def Flag(s, i):
    if At(s, i, 48):
        yield 0, i + 1
    if At(s, i, 49):
        yield 1, i + 1


def Unknown(D, s, i):
    for j in Each(none_of(D), s, i):
        if Ends(one_of(D), s, j):
            yield (i, j), j


def Led(d, s, i):
    if At(s, i, d):
        yield i + 1
    if not At(s, i, d):
        yield i


def Pair(s, i):
    for k in Led(DASH, s, i):
        for a, m in Number(s, k):
            if At(s, m, DASH):
                for b, j in Number(s, m + 1):
                    yield (a, b), j


def Many(step, i):
    """Every (things, k) with Many Step i things k."""
    todo = [((), i)]
    while todo:
        l, k = todo.pop()
        yield l, k
        for a, j in step(k):
            todo.append((l + (a,), j))


def Passed(item, s):
    def step(i):
        for a, k in item(i):
            if At(s, k, COMMA):
                yield a, k + 1
    return step


def Listed(item, D, s, i):
    if Ends(one_of(D), s, i):
        yield (), i
    else:
        for k in Led(COMMA, s, i):
            for before, m in Many(Passed(item, s), k):
                for a, j in item(m):
                    if Ends(one_of(D), s, j):
                        yield before + (a,), j


def Reads(D, s, i, kind):
    if kind == 'a-string':
        yield from Text(D, s, i)
    elif kind == 'a-number':
        yield from Number(s, i)
    elif kind == 'a-bool':
        yield from Flag(s, i)
    elif kind == 'strings':
        yield from Listed(lambda k: Text((COMMA,) + D, s, k), D, s, i)
    elif kind == 'a-pair':
        yield from Pair(s, i)
    elif kind == 'pairs':
        yield from Listed(lambda k: Pair(s, k), D, s, i)
    elif kind == 'perhaps-a-pair':
        if Ends(is_newline, s, i):
            yield None, i
        else:
            yield from Pair(s, i)
    else:
        yield from Unknown(D, s, i)


def kind_of(T, w):
    for name, kind, _ in T:
        if name == w:
            return kind
    return 'anything'


Entry = collections.namedtuple('Entry', 'at name value')


def values_of(w, xs):
    return [x.value for x in xs if x.name == w]


def distinct(T, xs):
    return all(len(values_of(name, xs)) <= 1 for name, _, _ in T)


def Key(s, i):
    for (a, b), j in Text((NEWLINE, COLON), s, i):
        yield a, s[a:b], j


def NextLine(T, s):
    def step(i):
        for k in Each(is_newline, s, i):
            for at, name, m in Key(s, k):
                if At(s, m, COLON):
                    for value, j in Reads((NEWLINE,), s, m + 1, kind_of(T, name)):
                        if Ends(is_newline, s, j):
                            yield Entry(at, name, value), j
    return step


# ---- Groups

Row = collections.namedtuple('Row', 'at field group value')


def Bracketed(key):
    """Every (field, name) with key = field [ name ]."""
    for k in range(len(key)):
        field, rest = key[:k], key[k:]
        if BRACKET not in field and len(rest) >= 2 and rest[0] == BRACKET and rest[-1] == UNBRACKET:
            yield field, rest[1:-1]


def Rows(T, xs):
    """The rows of entries; T tells which values are unread ones."""
    if not xs:
        yield ()
        return
    x, ways = xs[0], list(Bracketed(xs[0].name))
    for rest in Rows(T, xs[1:]):
        for field, name in ways:
            if kind_of(T, x.name) == 'anything':
                yield (Row(x.at, field, name, x.value),) + rest
        if not ways:
            yield rest


def Grouped(rs):
    """Groups as (name where it first stands, rows)."""
    if not rs:
        return ()
    r = rs[0]
    at = r.at + len(r.field) + 1
    return (((at, at + len(r.group)), (r,) + tuple(x for x in rs[1:] if x.group == r.group)),) + Grouped(tuple(x for x in rs[1:] if x.group != r.group))


def Alone(T, s, r):
    """Every entry that a row says."""
    for value, _ in Reads((), s[:r.value[1]], r.value[0], kind_of(T, r.field)):
        yield Entry(r.at, r.field, value)


def Entries(T, s, rs):
    for xs in itertools.product(*(list(Alone(T, s, r)) for r in rs)):
        if distinct(T, xs):
            yield xs


# ---- Record

def must(w, k):
    return w.encode(), k, True


def may(w, k):
    return w.encode(), k, False


GLOBAL_FIELDS = [must('HTS_VOICE_VERSION', 'a-string'), must('SAMPLING_FREQUENCY', 'a-number'), must('FRAME_PERIOD', 'a-number'), must('NUM_STATES', 'a-number'),
                 must('NUM_STREAMS', 'a-number'), must('STREAM_TYPE', 'strings'), must('FULLCONTEXT_FORMAT', 'a-string'), must('FULLCONTEXT_VERSION', 'a-string'),
                 may('GV_OFF_CONTEXT', 'strings'), may('COMMENT', 'a-string')]
STREAM_FIELDS = []
STREAM_GROUP = [must('VECTOR_LENGTH', 'a-number'), must('NUM_WINDOWS', 'a-number'), must('IS_MSD', 'a-bool'), may('USE_GV', 'a-bool'), may('OPTION', 'strings')]
POSITION_FIELDS = [must('DURATION_PDF', 'a-pair'), must('DURATION_TREE', 'a-pair')]
POSITION_GROUP = [must('STREAM_WIN', 'pairs'), must('STREAM_PDF', 'a-pair'), must('STREAM_TREE', 'a-pair'), may('GV_PDF', 'perhaps-a-pair'), may('GV_TREE', 'perhaps-a-pair')]
IF_MISSING = {b'GV_OFF_CONTEXT': (), b'COMMENT': None, b'USE_GV': 0, b'OPTION': (), b'GV_PDF': None, b'GV_TREE': None}


def says(T, xs):
    """Once for each required field, AtMostOnce for the others: the values in T's order, or nothing."""
    out = []
    for name, _, required in T:
        v = values_of(name, xs)
        if len(v) == 1:
            out.append(v[0])
        elif not v and not required:
            out.append(IF_MISSING[name])
        else:
            return
    yield tuple(out)


def group_says(T, s, g):
    for xs in Entries(T, s, g[1]):
        for d in says(T, xs):
            yield (g[0],) + d


class SectionOf:
    """One section of a file: its lines and groups, and what is asked of them more than once."""
    def __init__(self, file, x, T, G):
        self.T, self.G = T, G
        self.s = file[:x[1]]
        self.x = x
        self.u = file[x[0]:x[1]]
        self.ends = octets_ends(self.u)
        self.octets = len(self.u) in self.ends
        self.beginnings = list(Many(NextLine(T, self.s), x[0])) if self.octets else []
        # Section: good lines, then perhaps blank ones; no field twice
        self.sections = [xs for xs, k in self.beginnings if each(is_newline, self.s, k, len(self.s)) and distinct(T, xs)]

    def said(self):
        """GlobalText, StreamText, PositionText: every (own fields, groups)."""
        for xs in self.sections:
            for own in says(self.T, xs):
                if not self.G:
                    yield own, ()
                    continue
                for rows in Rows(self.T, xs):
                    for ds in itertools.product(*(list(group_says(self.G, self.s, g)) for g in Grouped(rows))):
                        yield own, ds


def global_fits(own):
    return len(own[5]) <= 8 and len(own[8]) <= 32


def streams_fit(ds):
    return len(ds) <= 8 and all(len(d[5]) <= 16 for d in ds)


def positions_fit(ds):
    return len(ds) <= 8 and all(len(d[1]) <= 8 for d in ds)


# ---- Faults: each yields (number, place)

def NoText(s, i):
    if At(s, i, QUOTE) and each(none_of((QUOTE,)), s, i + 1, len(s)):
        yield 3, len(s)


def NoNumber(s, i):
    if i == len(s):
        yield 3, len(s)
    if i < len(s) and not digit(s[i]):
        yield 5, i
    for j in Digits(s, i):
        if 2 ** 64 <= decimal(s[i:j]):
            yield 10, i


def NoFlag(s, i):
    if i == len(s):
        yield 3, len(s)
    if i < len(s) and s[i] not in (48, 49):
        yield 4, i


def NoSecond(D, s, i):
    if Ends(one_of(D), s, i):
        yield 9, 0
    if not At(s, i, DASH) and not Ends(one_of(D), s, i):
        yield 6, i
    if At(s, i, DASH):
        yield from NoNumber(s, i + 1)


def NoPair(D, s, i):
    if Ends(one_of(D), s, i):
        yield 9, 0
    for k in Led(DASH, s, i):
        if not Ends(one_of(D), s, i):
            yield from NoNumber(s, k)
        for _, m in Number(s, k):
            yield from NoSecond(D, s, m)


def NoList(item, no_item, D, s, i):
    if Ends(one_of(D), s, i):
        return
    for k in Led(COMMA, s, i):
        for _, m in Many(Passed(item, s), k):
            yield from no_item(m)
            for _, j in item(m):
                if not At(s, j, COMMA) and not Ends(one_of(D), s, j):
                    yield 6, j


def Unreadable(D, s, i, kind):
    if kind == 'a-string':
        yield from NoText(s, i)
    elif kind == 'a-number':
        yield from NoNumber(s, i)
    elif kind == 'a-bool':
        yield from NoFlag(s, i)
    elif kind == 'strings':
        yield from NoList(lambda k: Text((COMMA,) + D, s, k), lambda k: NoText(s, k), D, s, i)
    elif kind == 'a-pair':
        yield from NoPair(D, s, i)
    elif kind == 'pairs':
        yield from NoList(lambda k: Pair(s, k), lambda k: NoPair((COMMA,) + D, s, k), D, s, i)
    elif kind == 'perhaps-a-pair' and not Ends(is_newline, s, i):
        yield from NoPair(D, s, i)


def repeats(T, xs, w):
    return any(name == w and values_of(w, xs) for name, _, _ in T)


def NoValue(T, s, w, k):
    if k == len(s):
        yield 3, len(s)
    if k < len(s) and not At(s, k, COLON):
        yield 7, k
    if At(s, k, COLON):
        yield from Unreadable((NEWLINE,), s, k + 1, kind_of(T, w))
        for _, j in Reads((NEWLINE,), s, k + 1, kind_of(T, w)):
            if not Ends(is_newline, s, j):
                yield 8, j


def NoLine(T, xs, s, i):
    yield from NoText(s, i)
    for _, w, k in Key(s, i):
        if repeats(T, xs, w):
            yield 9, 0
        else:
            yield from NoValue(T, s, w, k)


def NoSection(o):
    for xs, k in o.beginnings:
        if distinct(o.T, xs):
            for m in Each(is_newline, o.s, k):
                if not Ends(is_newline, o.s, m):
                    yield from NoLine(o.T, xs, o.s, m)


def missing(T, xs):
    return any(required and not values_of(name, xs) for name, _, required in T)


def NoGroup(T, s, rows):
    for k, r in enumerate(rows):
        for xs in Entries(T, s, rows[:k]):
            if repeats(T, xs, r.field):
                yield 9, 0
            else:
                yield from Unreadable((), s[:r.value[1]], r.value[0], kind_of(T, r.field))
    for xs in Entries(T, s, rows):
        if missing(T, xs):
            yield 9, 0


def NoGroups(T, s, gs):
    if gs:
        yield from NoGroup(T, s, gs[0][1])
        if any(not missing(T, xs) for xs in Entries(T, s, gs[0][1])):
            yield from NoGroups(T, s, gs[1:])


def Wrong(o):
    for q in o.ends:
        if q < len(o.u) and not list(Char(o.u, q)):
            yield 2, o.x[0] + q
    if o.octets:
        yield from NoSection(o)
    for xs in o.sections:
        if missing(o.T, xs):
            yield 9, 0
        else:
            for rows in Rows(o.T, xs):
                yield from NoGroups(o.G, o.s, Grouped(rows))


def Answers(file):
    """Every answer to a file: (0, header) by Says, (number, place) by Refused."""
    if len(file) > 16777216:
        yield 12, 0
        return
    parts = list(Sections(file))
    if not parts:
        yield 1, 0
    for g, s, p, data in parts:
        og = SectionOf(file, g, GLOBAL_FIELDS, [])
        yield from Wrong(og)
        for own, _ in og.said():
            if not global_fits(own):
                yield 12, 0
                continue
            os_ = SectionOf(file, s, STREAM_FIELDS, STREAM_GROUP)
            yield from Wrong(os_)
            for _, streams in os_.said():
                if not streams_fit(streams):
                    yield 12, 0
                    continue
                op = SectionOf(file, p, POSITION_FIELDS, POSITION_GROUP)
                yield from Wrong(op)
                for durations, positions in op.said():
                    if not positions_fit(positions):
                        yield 12, 0
                    else:
                        yield 0, (own, streams, durations, positions, data)


def header_numbers(answer):
    """An answer in the numbers of the stored headers."""
    number, h = answer
    if number:
        return [number, h]
    own, streams, durations, positions, data = h
    span, spans, perhaps = store.span, store.spans, store.perhaps
    out = [0, 0] + span(own[0]) + list(own[1:5]) + spans(own[5]) + span(own[6]) + span(own[7]) + spans(own[8]) + perhaps(None if own[9] is None else span(own[9]))
    out += [n for r in durations for n in r] + [len(streams)]
    for d in streams:
        out += span(d[0]) + list(d[1:5]) + spans(d[5])
    out.append(len(positions))
    for d in positions:
        out += span(d[0]) + [len(d[1])] + [n for w in d[1] for n in w] + list(d[2] + d[3]) + perhaps(d[4]) + perhaps(d[5])
    return out + span(data)


# ---- TreeText: each yields (place behind it, what is said ..)

def Word(s, w, i):
    if all(byte_at(s, i + k) == b for k, b in enumerate(w)):
        yield i + len(w)


def Run(s, p, i):
    while p(byte_at(s, i)):
        i += 1
    yield i


def Run1(s, p, i):
    if p(byte_at(s, i)):
        yield from Run(s, p, i + 1)


def Parting(s, i):
    for a in Run(s, space_or_tab, i):
        for b in Word(s, b'\n', a):
            yield from Run(s, blank, b)


def LineParting(s, i):
    for a in Run(s, space_or_tab, i):
        for b in Word(s, b'\n', a):
            for c in Run(s, space_or_tab, b):
                yield from Run(s, blank, c)


def Comma(s, i):
    for a in Word(s, b',', i):
        yield from Run(s, blank, a)


def Parted(s, parting, item, i):
    """Every (j, items) with Parted Parting Item i j items."""
    todo = [(i, ())]
    while todo:
        i, l = todo.pop()
        for j, x in item(s, i):
            yield j, l + (x,)
            for b in parting(s, j):
                todo.append((b, l + (x,)))


def TDigits(s, i):
    for j in Run1(s, digit, i):
        yield j, decimal(s[i:j])


def TNumber(s, i):
    for j, n in TDigits(s, i):
        if n < 2 ** 63:
            yield j, n
    for a in Word(s, b'-', i):
        for j, n in TDigits(s, a):
            if n <= 2 ** 63:
                yield j, -n


def Bare(s, i):
    for j, x in TNumber(s, i):
        yield j, (0, x)
    if not list(TNumber(s, i)):
        for j in Run1(s, in_word, i):
            for k in range(i, j):
                if not digit(byte_at(s, k)):
                    for e, n in TDigits(s, k + 1):
                        if e == j and n < 2 ** 63:
                            yield j, (1, n)


def Reference(s, i):
    yield from Bare(s, i)
    for a in Word(s, b'"', i):
        for b, r in Bare(s, a):
            for j in Word(s, b'"', b):
                yield j, r


def PatternAt(s, i):
    for j in Run1(s, in_pattern, i):
        yield j, (i, j)
    for a in Word(s, b'"', i):
        for b in Run1(s, in_pattern, a):
            for j in Word(s, b'"', b):
                yield j, (a, b)


def QuestionAt(s, i):
    for a in Word(s, b'QS', i):
        for b in Run1(s, blank, a):
            for c in Run1(s, in_name, b):
                for d in Run1(s, blank, c):
                    for e in Word(s, b'{', d):
                        for f in Run(s, blank, e):
                            for g, ps in Parted(s, Comma, PatternAt, f):
                                for h in Run(s, blank, g):
                                    for j in Word(s, b'}', h):
                                        yield j, ((b, c), ps)


def LineAt(s, i):
    for a, x in TNumber(s, i):
        for b in Run1(s, blank, a):
            for c in Run1(s, in_name, b):
                for d in Run1(s, blank, c):
                    for e, n in Reference(s, d):
                        for f in Run1(s, blank, e):
                            for j, y in Reference(s, f):
                                yield j, (x, (b, c), n, y)


def BodyAt(s, i):
    """A body: (0, reference) or (1, lines)."""
    for j, r in Reference(s, i):
        yield j, (0, r)
    for a in Word(s, b'{', i):
        for b in Run(s, blank, a):
            for j in Word(s, b'}', b):
                yield j, (1, ())
            for c, ls in Parted(s, LineParting, LineAt, b):
                for d in Run(s, blank, c):
                    for j in Word(s, b'}', d):
                        yield j, (1, ls)


def TreeAt(s, i):
    for a in Word(s, b'{*}', i):
        for b in Run(s, blank, a):
            for c in Word(s, b'[', b):
                for d, x in TNumber(s, c):
                    for e in Word(s, b']', d):
                        for f in Run(s, blank, e):
                            for j, t in BodyAt(s, f):
                                yield j, (i, x, t)


def TreesAt(s, i):
    for a in Run(s, blank, i):
        for b, ts in Parted(s, Parting, TreeAt, a):
            for j in Run(s, blank, b):
                if j == len(s):
                    yield ts


def Says(s, i):
    for ts in TreesAt(s, i):
        yield (), ts
    for a, qs in Parted(s, Parting, QuestionAt, i):
        for ts in TreesAt(s, a):
            yield qs, ts


# ---- Breaks: where a tree text breaks

def Asks(s, i):
    return any(blank(byte_at(s, past)) for past in Word(s, b'QS', i))


def TreesBreak(s, i):
    if not any(True for _ in TreeAt(s, i)):
        yield i  # here
    for e, _ in TreeAt(s, i):
        for j in Parting(s, e):
            if j < len(s):
                yield from TreesBreak(s, j)  # later
        if len(s) not in Run(s, blank, e) and not any(j < len(s) for j in Parting(s, e)):
            yield from Run(s, blank, e)  # other


def QuestionsBreak(s, i):
    if not any(True for _ in QuestionAt(s, i)):
        yield i  # here
    for e, _ in QuestionAt(s, i):
        for j in Parting(s, e):
            if Asks(s, j):
                yield from QuestionsBreak(s, j)  # later
        if not any(Asks(s, k) for k in Parting(s, e)):
            for j in Run(s, blank, e):
                yield from TreesBreak(s, j)  # trees


def Breaks(s, b):
    if Asks(s, b):
        yield from QuestionsBreak(s, b)
    else:
        for i in Run(s, blank, b):
            yield from TreesBreak(s, i)


def tree_numbers(text):
    qs, ts = text
    if any(x < 0 for _, x, _ in ts):  # Tables, Negative
        return [18, 0]
    ls = [t[2][1] if t[2][0] else () for t in ts]
    need = [1 if list(Single(t[2])) else sum(1 + l[2][0] + l[3][0] for l in t[2][1]) for t in ts]
    out = [0, len(qs), sum(len(p) for _, p in qs), len(ts), sum(need), max(map(len, ls))]
    for name, patterns in qs:
        out += store.span(name) + store.spans(patterns)
    for star, x, (kind, body) in ts:
        out += [star, x, kind]
        if kind == 0:
            out += body
        else:
            out.append(len(body))
            for ident, name, no, yes in body:
                out += [ident] + store.span(name) + list(no) + list(yes)
    return out


# ---- Linking, Tables; a question's or line's name is bytes here

def Last(p, xs):
    return [k for k, x in enumerate(xs) if p(x) and not any(p(y) for y in xs[k + 1:])]


def First(p, xs):
    return [k for k, x in enumerate(xs) if p(x) and not any(p(y) for y in xs[:k])]


def Single(body):
    kind, b = body
    if kind == 0:
        yield b
    if kind == 1 and len(b) == 1 and b[0][2] == b[0][3]:
        yield b[0][2]


def Records(qs, body):
    """Every list of records; qs are the names of the questions."""
    for kind, n in Single(body):
        if kind == 1:
            yield ((1, n, 0, 0),)
    if body[0] == 1 and not list(Single(body)):
        ls = body[1]
        leaves = sorted(n for l in ls for kind, n in (l[3], l[2]) if kind == 1)  # the one ascending list in which each stands as often
        goes = lambda r: Last(lambda l: l[0] == r[1], ls) if r[0] == 0 else [len(ls) + k for k in First(lambda m: m == r[1], leaves)]
        rows = [[(0, q, y, n) for q in Last(lambda name: name == l[1], qs) for y in goes(l[3]) for n in goes(l[2])] for l in ls]
        for front in itertools.product(*rows):
            yield front + tuple((1, n, 0, 0) for n in leaves)


def Refused(qs, body):
    """Every (number, line)."""
    for kind, _ in Single(body):
        if kind == 0:
            yield 23, 0
    if body[0] == 1 and not list(Single(body)):
        ls = body[1]
        declared = lambda r: r[0] == 1 or any(l[0] == r[1] for l in ls)
        def Fault(l):
            if not declared(l[3]):
                yield 21
            if declared(l[3]) and not declared(l[2]):
                yield 21
            if declared(l[3]) and declared(l[2]) and l[1] not in qs:
                yield 22
        for k, l in enumerate(ls):
            if not any(list(Fault(e)) for e in ls[:k]):
                for c in Fault(l):
                    yield c, k


def linked(qs, body, rows):
    """Linked: what the walk needs of a tree's records."""
    leaf = lambda row: row[0] == 1 and row[2:] == (0, 0)
    for kind, n in Single(body):
        if kind == 1 and rows == ((1, n, 0, 0),):
            return True
    if body == (1, ()):
        return rows == ()
    if body[0] == 0 or list(Single(body)):
        return False
    ls = body[1]
    front, leaves = rows[:len(ls)], rows[len(ls):]
    to = lambda r, k: k in Last(lambda l: l[0] == r[1], ls) if r[0] == 0 else k < len(rows) and rows[k] == (1, r[1], 0, 0)
    return len(front) == len(ls) and all(map(leaf, leaves)) and all(
        row[0] == 0 and row[1] in Last(lambda name: name == l[1], qs) and to(l[3], row[2]) and to(l[2], row[3]) for l, row in zip(ls, front))


def broken(qs, body):
    """Broken: demand 3's own words."""
    if any(kind == 0 for kind, _ in Single(body)):
        return True
    if body[0] == 0 or list(Single(body)):
        return False
    ls = body[1]
    return any(r[0] == 0 and not any(e[0] == r[1] for e in ls) for l in ls for r in (l[3], l[2])) or any(l[1] not in qs for l in ls)


def other_leaves(r, rows):
    """The same rows, but for the choice among equal leaves."""
    alike = lambda k: r.choice([j for j, row in enumerate(rows) if row == rows[k]]) if rows[k][0] == 1 else k
    return tuple(row if row[0] == 1 else row[:2] + (alike(row[2]), alike(row[3])) for row in rows)


def Linkings(qs, ts):
    """TreeRows: every (0, tree rows, records); ModelRefused: every (number, tree, line)."""
    done = [((), ())]
    for t, (_, state, body) in enumerate(ts):
        for _ in done:
            for c, k in Refused(qs, body):
                yield c, t, k
        lines = 0 if list(Single(body)) else len(body[1])
        done = [(rows + ((state, len(records), len(own), lines),), records + own) for rows, records in done for own in Records(qs, body)]
    for rows, records in done:
        yield 0, rows, records


def folded(trees, blocks):
    """A tree's row: what its text says, and what its block says."""
    return [tuple(r) + tuple(b) for r, b in zip(trees, blocks)]


# ---- Walks: the written walk, and the loaded one

def Written(qs, body, answer, m):
    for kind, n in Single(body):
        if kind == 1:
            yield 'at', n, 0
    if body == (1, ()):
        yield ('nothing',)
    if body[0] == 1 and body[1] and not list(Single(body)):
        yield from From(qs, body[1], answer, 0, m, 0)


def From(qs, ls, answer, k, m, asked):
    while True:
        if m == 0:
            yield ('limit',)
            return
        ways = [l[3] if answer(q) else l[2] for l in [ls[k]] for q in Last(lambda name: name == l[1], qs)]
        if len(ways) != 1:
            yield 'ways', len(ways)
            return
        kind, x = ways[0]
        if kind == 1:
            yield 'at', x, asked + 1
            return
        after = Last(lambda l: l[0] == x, ls)
        if len(after) != 1:
            yield 'lines', len(after)
            return
        k, m, asked = after[0], m - 1, asked + 1


def Loaded(answers, rows, k, m):
    """Every outcome from record k on; m questions are still allowed."""
    asked = 0
    while True:
        if not k < len(rows):
            yield (24,)
            return
        kind, a, y, n = rows[k]
        if kind >= 2:
            yield (24,)
        elif kind == 1:
            yield a, asked
        elif not a < len(answers):
            yield (24,)
        elif asked == m:
            yield (25,)
        else:
            k, asked = (y if answers[a] else n), asked + 1
            continue
        return


def LoadedTree(answers, trees, records, t, m):
    if not t < len(trees):
        yield (24,)
    else:
        _, first, count, _, _, _ = trees[t]
        yield from Loaded(answers, records[first:first + count], 0, m)


# ---- Blocks

def Block(t, w, block):
    """Every (rows, values as written, in the order of the values)."""
    if len(block) % 4:
        return
    numbers = [block[i] + block[i + 1] * 0x100 + block[i + 2] * 0x10000 + block[i + 3] * 0x1000000 for i in range(0, len(block), 4)]
    counts, written = numbers[:t], numbers[t:]
    if len(counts) != t or w == 0 and sum(counts) != 0 or len(written) != sum(counts) * w:
        return
    rows, first = [], 0
    for c in counts:
        rows.append((first, c))
        first += c * w
    values = []
    for e in range(sum(counts)):
        entry = written[e * w:(e + 1) * w]
        means, variances, msd = entry[:w // 2], entry[w // 2:w // 2 * 2], entry[w // 2 * 2:]
        for m, v in zip(means, variances):
            values += [m, v]
        values += msd
    yield rows, values


# ---- Interchange: the value of a pattern

def decode(e, f, b):
    s, x, t = b >> e + f, b >> f & (1 << e) - 1, b & (1 << f) - 1
    bias = (1 << e - 1) - 1
    if x == (1 << e) - 1:
        return ('nan', s, t) if t else ('infinite', s)
    return ('finite', s, t, 1, bias + f) if x == 0 else ('finite', s, (1 << f) + t, x, bias + f)


def kept(narrow, wide):
    """Kept 23 52, over binary32 and binary64."""
    a, b = decode(8, 23, narrow), decode(11, 52, wide)
    if a[0] != b[0] or a[1] != b[1]:
        return False
    if a[0] == 'nan':
        return b[2] == (1 << 51) + (a[2] << 29) % (1 << 51)
    return a[0] == 'infinite' or a[2] * 2 ** a[3] * 2 ** b[4] == b[2] * 2 ** b[3] * 2 ** a[4]


# ---- holding the rules against the reading and the oracle

class Held:
    def __init__(self):
        self.judge, self.counts, self.shown = compare.Judge(), collections.Counter(), []

    def one(self, what, b, answers, want):
        """The answers that the rules allow against the one that is wanted."""
        self.counts[what] += 1
        different = set(map(str, answers))
        for wrong, name in ((not answers, 'no answer'), (len(different) > 1, 'more than one answer'), (len(answers) > len(different) and what != 'models: linked rows', 'one answer derived twice'),
                            (len(different) == 1 and answers[0] != want, 'another answer')):
            self.counts['%s: %s' % (what, name)] += wrong
            if wrong and len(self.shown) < 10 and name != 'one answer derived twice':
                self.shown.append('%s: %s\n  %r\n  rules  %s\n  wanted %s' % (what, name, b, ' | '.join(sorted(different))[:300], str(want)[:300]))

    def headers(self, inputs):
        inputs = list(inputs)
        for b in inputs:
            self.one('headers', b, [header_numbers(a) for a in Answers(b)], store.header_numbers(b))
        self.judge.all('open', (b.hex() for b in inputs))

    def trees(self, inputs):
        inputs = list(inputs)
        for b in inputs:
            answers = [tree_numbers(t) for t in Says(b, 0)] + [[17, p] for p in Breaks(b, 0)]
            self.one('tree texts', b, answers, store.tree_numbers(b))
        self.judge.all('tree', (b.hex() for b in inputs))

    def voices(self, inputs):
        inputs = list(inputs)
        for n, b in enumerate(inputs):
            try:
                h = reading.Header(b)
            except reading.Refused:
                continue
            for which in range(2 * len(h.g[b'STREAM_TYPE']) + 1):
                self.model(n, b, h, which)
        self.judge.all('dump', (b.hex() for b in inputs))

    def model(self, n, b, h, which):
        """Text, block, linking and walks of one model, up to where the reading stops."""
        try:
            m, stopped = reading.Model(b, h, which), (0, 0, 0)
        except reading.Refused as r:
            m, stopped = None, (r.number, r.place, r.line)
        if stopped[0] in (12, 13, 14, 15, 16, 17, 18):
            return
        data = b[h.data[0]:h.data[1]]
        tree_range, pdf_range, width = reading.which_model(b, h, which)
        s = data[:tree_range[1] + 1]
        texts = list(Says(s, tree_range[0]))
        self.one('models: text', b, [t[1] and 'said' for t in texts], 'said')
        blocks = list(Block(len(texts[0][1]), width, data[pdf_range[0]:pdf_range[1] + 1]))
        if stopped[0] == 19:
            self.one('models: block', b, blocks or ['none'], 'none')
            return
        self.one('models: block', b, [len(blocks)], 1)
        names = [s[x:y] for (x, y), _ in texts[0][0]]
        ts = [(star, x, (kind, tuple((i, s[p:q], no, yes) for i, (p, q), no, yes in body) if kind else body)) for star, x, (kind, body) in texts[0][1]]
        flat = lambda rows: [v for row in rows for v in row]
        rows, values = blocks[0]
        linkings = [(a[0], flat(folded(a[1], rows)), flat(a[2])) if a[0] == 0 else a for a in Linkings(names, ts)]
        self.one('models: linking', b, linkings, (0, m.trees, m.records) if m else stopped)
        self.one('models: broken', b, [any(broken(names, t[2]) for t in ts)], m is None)
        if m is None:
            return
        self.one('models: values', b, [(all(kept(v, w) for v, w in zip(values, m.values)), len(values))], (True, len(m.values)))
        source = random.Random(n)
        for t, (_, _, body) in enumerate(ts):
            records = list(Records(names, body))[0]
            others = other_leaves(source, records)
            self.one('models: linked rows', b, [linked(names, body, records), linked(names, body, others)][:1 + (others != records)], True)
            for k in range(4):
                answers = bytes((n * 7 + k * 3 + q * q + k * q) % 3 % 2 for q in range(len(names)))
                limit = (n + k) % 7
                said = {'limit': (25,), 'nothing': (24,)}
                walked = [said.get(w[0]) or w[1:] for w in Written(names, body, answers.__getitem__, limit)]
                try:
                    want = reading.walk(m.trees, m.records, t, answers, limit)
                except reading.Refused as r:
                    want = (r.number,)
                self.one('walks', b, walked, want)
                self.one('walks over linked rows', b, list(Loaded(answers, others, 0, limit)), want)

    def tables(self, first, last):
        """Walks over any tables: what the loaded walk's rules give against the reading."""
        for n in range(first, last):
            r = random.Random('tables %d' % n)
            number = lambda: r.choice((0, 0, 1, 1, 2, 3, 4, 5, 2 ** 32, 2 ** 64 - 1)) if r.random() < .2 else r.randrange(4)
            trees = [[number() for _ in range(6)] for _ in range(r.randrange(3))]
            if trees and r.random() < .8:
                trees[0][1], trees[0][2] = r.randrange(2), r.choice((3, 5, 6, 8, 2 ** 64 - 1))
            records = [[r.choice((0, 0, 0, 1, 1, 2 if r.random() < .2 else 0)), number(), number(), number()] for _ in range(r.randrange(9))]
            answers, limit = bytes(r.choice((0, 1, 255)) for _ in range(r.randrange(6))), r.choice((0, 1, 2, 3, 5, 50))
            flat = lambda rows: [v for row in rows for v in row]
            t = r.choice((0, 0, 0, 1, 2))
            try:
                want = reading.walk(flat(trees) + [7] * r.randrange(6), flat(records) + [7] * r.randrange(4), t, answers, limit)
            except reading.Refused as refused:
                want = (refused.number,)
            self.one('walks over any tables', (trees, records, t, answers, limit), list(LoadedTree(answers, trees, records, t, limit)), want)

    def report(self):
        for key, n in sorted(self.counts.items()):
            print('%9d  %s' % (n, key))
        for s in self.shown:
            print(s)
        print('the reading against the oracle:')
        return self.judge.report() or any(n for key, n in self.counts.items() if ':' in key and key.split(': ')[1].startswith(('no ', 'more', 'another')))


def main():
    parser = argparse.ArgumentParser(description=__doc__, formatter_class=argparse.RawDescriptionHelpFormatter)
    parser.add_argument('what', choices=['headers', 'trees', 'voices', 'short', 'tables', 'byhand'])
    parser.add_argument('rest', nargs='*', type=int)
    asked = parser.parse_args()
    held, what, rest = Held(), asked.what, asked.rest
    if what in ('headers', 'trees', 'voices'):
        make = {'headers': headers.header, 'trees': treetexts.tree_text, 'voices': voices.voice}[what]
        getattr(held, what)(make(n) for n in range(*rest))
    elif what == 'short':
        length = rest[0] if rest else 3
        held.headers(headers.short_values(length))
        for before, alphabet, after in treetexts.SEAMS:
            held.trees(before + t + after for t in treetexts.short_texts(alphabet, length + 2))
    elif what == 'tables':
        held.tables(*rest)
    elif what == 'byhand':
        held.headers(headers.at_limits() + headers.by_hand())
        held.trees(store.tree_inputs()[:400])
    sys.exit(held.report())


if __name__ == '__main__':
    main()
