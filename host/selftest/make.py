#!/usr/bin/env python3
"""Makes larsavim_selftest.c: the self-test for a board, one C file without a C library: a small voice, and what every call must answer about it, as arrays.

    make.py             writes larsavim_selftest.c beside it
    make.py --check     status 0 if the file is what would be written

The answers come from the second reading (judge/), never from the library. What is chosen is what a wrong back end would show: every float kind, UTF-8 of every length, long numbers, two lines with one id, sorting,
searching, matching, and a change of one byte of the voice for each refusal that one byte can bring."""
import os
import random
import re
import struct
import sys

HERE = os.path.dirname(os.path.abspath(__file__))
sys.path.insert(0, os.path.join(HERE, '..', '..', 'judge'))
import folders  # noqa: E402,F401
import house  # noqa: E402
import labels  # noqa: E402
import one_tree  # noqa: E402
import reading  # noqa: E402
import writing  # noqa: E402

FLOATS = [0x00000000, 0x80000000, 0x3f800000, 0xbf000000, 0x00000001, 0x007fffff, 0x80000001, 0x00800000, 0x7f7fffff, 0x7f800000, 0xff800000, 0x7fc00000, 0x3eaaaaab, 0x00012345, 0x42f6e979]
LABELS = [b'', b'sil^sh-i+ch=i', b'x^i-ch+i=sil/A:3+2', b'xx^sil-pau+a=b', b'*-i+*', 'あ^い-う'.encode()]
QUESTIONS = 'QS Sil { "*-sil+*","*-pau+*" }\nQS I { "*-i+*" }\nQS LSh { "*^sh-*" }\nQS RCh { "*+ch=*","?^?-*" }\nQS A3 { "*/A:3+*" }\n'
# ids out of order, two lines with the id -2, equal leaves: linking sorts, searches by halves and takes the last
TREE = '{*}[2]\n{\n 0 Sil -5 "m_1"\n -5 I -2 -3\n -2 RCh "m_2" "m_3"\n -3 A3 -4 "m_3"\n -4 RCh "m_5" -2\n -2 LSh "m_4" -1\n -1 Sil "m_2" "m_6"\n}\n'
TEXTS = {'D': QUESTIONS.split('QS LSh')[0] + '{*}[2]\n{\n 0 Sil -1 d_1\n -1 I d_2 d_3\n}\n', 'M': QUESTIONS + TREE + '{*}[3]\n"m_1"\n', 'MG': '{*}[2] "gv_1"', 'L': 'QS Sil { "*-sil+*" }\n{*}[2]\n{ 0 Sil "l_2" "l_1" }'}
COUNTS = {'D': [3], 'M': [6, 1], 'MG': [1], 'L': [2]}
WIDTHS = {'D': 4, 'M': 2, 'MG': 2, 'L': 3}


def block(counts, width, turn):
    values = [FLOATS[(turn + 7 * k) % len(FLOATS)] for k in range(sum(counts) * width)]
    return struct.pack('<%dI' % len(counts), *counts) + struct.pack('<%dI' % len(values), *values)


def voice():
    data, at = b'1 1.0\n', {}
    for turn, k in enumerate(TEXTS):
        for kind, piece in (k + 'P', block(COUNTS[k], WIDTHS[k], turn)), (k + 'T', TEXTS[k].encode()):
            at[kind] = '%d-%d' % (len(data), len(data) + len(piece) - 1)
            data += piece
    head = ['[GLOBAL]', 'HTS_VOICE_VERSION:1.0', 'SAMPLING_FREQUENCY:48000', 'FRAME_PERIOD:18446744073709551615', 'NUM_STATES:2', 'NUM_STREAMS:2', 'STREAM_TYPE:M,"L"', 'FULLCONTEXT_FORMAT:"HTS_TTS_JPN"',
            'FULLCONTEXT_VERSION:1.0', 'GV_OFF_CONTEXT:"*-sil+*","*-pau+*"', 'COMMENT:é あ \U0001f50a', '[STREAM]', 'VECTOR_LENGTH[M]:1', 'VECTOR_LENGTH[L]:1', 'NUM_WINDOWS[M]:1', 'NUM_WINDOWS[L]:1', 'IS_MSD[M]:0', 'IS_MSD[L]:1', 'USE_GV[M]:1',
            'USE_GV[L]:0', 'OPTION[M]:ALPHA=0.5,GAMMA=0', '[POSITION]', 'DURATION_PDF:' + at['DP'], 'DURATION_TREE:' + at['DT'], 'STREAM_WIN[M]:0-5', 'STREAM_WIN[L]:0-5', 'STREAM_PDF[M]:' + at['MP'],
            'STREAM_PDF[L]:' + at['LP'], 'STREAM_TREE[M]:' + at['MT'], 'STREAM_TREE[L]:' + at['LT'], 'GV_PDF[M]:' + at['MGP'], 'GV_TREE[M]:' + at['MGT'], '[DATA]', '']
    whole = '\n'.join(head).encode() + data
    return whole + one_tree.trailer(whole)


# ---- what must be answered, by the second reading

def mixed(numbers, start=0xcbf29ce484222325):
    """One number of 64 bits out of many: what the C file computes of a table."""
    for n in numbers:
        start = ((start ^ n) * 0x100000001b3) & (1 << 64) - 1
    return start


def fields():
    """The places of larsavim.h."""
    with open(os.path.join(HERE, '..', 'larsavim.h')) as f:
        return {name: int(n) for name, n in re.findall(r'^#define LARSAVIM_(\w+) (\d+)', f.read(), re.M)}


def words_of(h):
    """The record as larsavim.h lays it out."""
    at = fields()
    words = [0] * at['WORDS']

    def put(field, *numbers):
        words[field:field + len(numbers)] = numbers

    def string(field, span):
        put(field, span[0], span[1] - span[0])

    def strings(field, count, spans):
        for k, span in enumerate(spans):
            string(field + 2 * k, span)
        put(count, len(spans))
    g = h.g
    for key in 'HTS_VOICE_VERSION', 'FULLCONTEXT_FORMAT', 'FULLCONTEXT_VERSION', 'COMMENT':
        string(at[key], g[key.encode()])
    for key in 'SAMPLING_FREQUENCY', 'FRAME_PERIOD', 'NUM_STATES', 'NUM_STREAMS':
        put(at[key], g[key.encode()])
    for key in 'STREAM_TYPE', 'GV_OFF_CONTEXT':
        strings(at[key], at[key + '_COUNT'], g[key.encode()])
    put(at['HAS_COMMENT'], 1)
    for i, (name, d) in enumerate(h.streams):
        base = at['STREAMS'] + at['STREAM_WORDS'] * i
        string(base + at['STREAM_NAME'], name)
        for key in 'VECTOR_LENGTH', 'NUM_WINDOWS', 'IS_MSD', 'USE_GV':
            put(base + at[key], d.get(key.encode(), 0))
        strings(base + at['OPTION'], base + at['OPTION_COUNT'], d.get(b'OPTION', []))
    put(at['STREAM_COUNT'], len(h.streams))
    for key in 'DURATION_PDF', 'DURATION_TREE':
        put(at[key], *h.durations[key.encode()])
    for i, (name, d) in enumerate(h.positions):
        base = at['POSITIONS'] + at['POSITION_WORDS'] * i
        string(base + at['POSITION_NAME'], name)
        for k, r in enumerate(d[b'STREAM_WIN']):
            put(base + at['STREAM_WIN'] + 2 * k, *r)
        put(base + at['STREAM_WIN_COUNT'], len(d[b'STREAM_WIN']))
        for key in 'STREAM_PDF', 'STREAM_TREE':
            put(base + at[key], *d[key.encode()])
        for key in 'GV_PDF', 'GV_TREE':
            if d.get(key.encode()):
                put(base + at[key], *d[key.encode()])
                put(base + at['HAS_' + key], 1)
    put(at['POSITION_COUNT'], len(h.positions))
    put(at['DATA_START'], h.data[0], h.data[1] - h.data[0])
    return words


def depth_of(m, t):
    """The most questions on a path, level by level; every path of this voice ends."""
    _, first, count, *_ = m.trees[6 * t:6 * t + 6]
    met, asked = {0}, 0
    while True:
        on = {k for j in met for kind, _, *to in [m.records[4 * (first + j):4 * (first + j) + 4]] if kind == 0 for k in to}
        if not on:
            return asked
        assert asked <= count
        met, asked = on, asked + 1


def opened(b):
    """The header, or the refusal as number, place, line."""
    try:
        return reading.Header(b), None
    except reading.Refused as r:
        return None, (r.number, r.place, r.line)


def loaded(b, h, which):
    try:
        reading.Model(b, h, which)
        return 0, 0, 0
    except reading.Refused as r:
        return r.number, r.place, r.line


def changes(b):
    """Changes of one byte, a few for each number that one can bring to an opening or to a load: place, byte, model, number, place, line."""
    r, found = random.Random(1), {}
    for _ in range(2500):
        at, byte = r.randrange(len(b)), r.choice(b'\n "-,:019A[]{}*\x80\xff\xe0\xf5')
        changed = b[:at] + bytes([byte]) + b[at + 1:]
        h, refused = opened(changed)
        for which, told in [(-1, refused)] if refused else [(which, loaded(changed, h, which)) for which in range(4)]:
            kept = found.setdefault((which, told[0]), [])
            if told[0] and len(kept) < (3 if which < 2 else 1):
                kept.append((at, byte, which, *told))
    return [c for kept in found.values() for c in kept]


def walks(m, labels_of):
    """Tree, label, limit, number, PDF, asked: each tree with each label; and the limit that is one too low."""
    for t in range(m.needed()[2]):
        for k, given in enumerate(labels_of):
            pdf, asked = reading.walk(m.trees, m.records, t, given, 99)
            yield t, k, 99, 0, pdf, asked
            if asked:
                yield t, k, asked - 1, 25, 0, 0


def rows_of(b):
    """For each model that loads: its row of the C file's table; and the walks of all of them."""
    h = reading.Header(b)
    rows, walked = [], []
    for which in range(4):
        m = reading.Model(b, h, which)
        given = [labels.answers(label, m.questions, m.patterns, m.data, bytes(m.needed()[0]))[1] for label in LABELS]
        number, text = writing.written(m.data, *writing.tables_of(m))
        assert number == 0
        mine = list(walks(m, given))
        depths = [depth_of(m, t) for t in range(m.needed()[2])]
        tables = [mixed(t) for t in (m.questions, m.patterns, m.trees, m.records, m.values)]
        answers = mixed(x for g in given for x in g)
        work = 6 * max(len(t[3]) for t in m.text[1])
        rows.append((m.needed() + [work, m.width], tables, answers, len(text), mixed(text), mixed(depths), len(walked), len(mine)))
        walked += mine
    return rows, walked


def one_trees(b):
    """Each tree of each model, loaded through the trailer: model, tree, rows, and each table."""
    h = reading.Header(b)
    for which in range(4):
        for t in range(reading.Model(b, h, which).needed()[2]):
            rows, _, _, linked = one_tree.load(b, which, t)
            yield which, t, rows, [mixed(x) for x in linked()]


HOUSES = [(b'', b''), (b'NUM_STREAMS:2', b'NUM_STREAMS:3'), (b'STREAM_TYPE:M,"L"', b'STREAM_TYPE:M,"M"'), (b'\n 0 Sil -1 d_1', b'\n 1 Sil -1 d_1'), (b'd_3', b'd_4'),
          (b'd_2', b'd_0'), (b'USE_GV[L]:0', b'USE_GV[L]:1'), (b'{ 0 Sil "l_2"', b'{ 0 Sxl "l_2"'), (b'"l_2"', b'"l_;"'), (b'NUM_STATES:2', b'NUM_STATES:x')]


def houses(b):
    """One byte changed: where; number, place, line and model by the house's rules; to what; and which model's rows are held afterwards, as 0 to 3, or -1."""
    h = reading.Header(b)
    tables = lambda m: [m.questions, m.patterns, m.trees, m.records, m.values]
    ours = [tables(reading.Model(b, h, which)) for which in range(4)]
    for old, new in HOUSES:
        assert len(old) == len(new) and (old == b'' or b.count(old) == 1)
        changed = b.replace(old, new) if old else b
        at = next((i for i in range(len(b)) if b[i] != changed[i]), 0)
        assert changed[:at] + b[at:at + 1] + changed[at + 1:] == b
        call = house.Call(changed, 0, house.room_for(changed))
        last = -1
        if any(call.after):
            changed_header = reading.Header(changed)
            last = ours.index(tables(reading.Model(changed, changed_header, list(house.trailing.models(changed, changed_header))[-1])))
        number, place, line, model = call.told
        yield at, number, place, line, model, changed[at], last


# ---- the C file

def c_bytes(b):
    lines = []
    for i in range(0, len(b), 24):
        lines.append('    ' + ', '.join('%d' % x for x in b[i:i + 24]))
    return ',\n'.join(lines)


def made():
    b = voice()
    h = reading.Header(b)
    rows, walked = rows_of(b)
    needs = [r[0] for r in rows]
    most = [max(n[t] for n in needs) for t in range(6)]
    records = max(reading.Model(b, h, w).trees[6 * t + 2] for w in range(4) for t in range(needs[w][2]))
    assert loaded(b, h, 4)[0] == 15
    with open(os.path.join(HERE, 'selftest.c.in')) as f:
        text = f.read()
    put = {
        'VOICE': c_bytes(b), 'VOICE_LEN': len(b), 'WORDS_MIX': '0x%016x' % mixed(words_of(h)),
        'LABELS': ',\n'.join('    {%d, {%s}}' % (len(x), ', '.join(map(str, x or b'\0'))) for x in LABELS), 'LABEL_MOST': max(map(len, LABELS)),
        'QUESTIONS': most[0], 'PATTERNS': most[1], 'TREES': most[2], 'RECORDS': most[3], 'VALUES': most[4], 'WORK': max(most[5], 4 * records), 'TEXT': max(r[3] for r in rows),
        'MODELS': ',\n'.join('    {{%s}, {%s}, UINT64_C(0x%016x), %d, UINT64_C(0x%016x), UINT64_C(0x%016x), %d, %d}' % (
            ', '.join(map(str, n)), ', '.join('UINT64_C(0x%016x)' % t for t in tables), answers, length, text_mix, depth_mix, first, count)
            for n, tables, answers, length, text_mix, depth_mix, first, count in rows),
        'WALKS': ',\n'.join('    {%d, %d, %d, %d, %d, %d}' % w for w in walked),
        'ONE_TREES': ',\n'.join('    {%d, %d, {%s}, {%s}}' % (which, t, ', '.join(map(str, n)), ', '.join('UINT64_C(0x%016x)' % x for x in tables)) for which, t, n, tables in one_trees(b)),
        'HOUSES': ',\n'.join('    {%d, {%d, %d, %d, %d}, %d, %d}' % x for x in houses(b)),
        'CHANGES': ',\n'.join('    {%d, %d, %d, %d, %d, %d}' % c for c in changes(b)),
    }
    for name, value in put.items():
        text = text.replace('@%s@' % name, str(value))
    assert '@' not in re.sub(r'"[^"]*"', '', text)
    return text


def main():
    path = os.path.join(HERE, 'larsavim_selftest.c')
    text = made()
    if sys.argv[1:] == ['--check']:
        with open(path) as f:
            sys.exit(0 if f.read() == text else 'larsavim_selftest.c is not what host/selftest/make.py makes')
    with open(path, 'w') as f:
        f.write(text)


if __name__ == '__main__':
    main()
