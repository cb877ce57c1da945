#!/usr/bin/env python3
"""Makes the stored answers under judge/stored: store.py [headers|trees|voices|walks|dumps ..]   (all, if none is named)

A case is a line: the input as hex, a space, then the expected numbers in decimal, parted by spaces; judge/README.md has their order. Each is written only
after the oracle and the second reading agree on it wherever both speak; no line if they don't, and the command stops."""
import os
import random
import sys

sys.path.insert(0, os.path.join(os.path.dirname(os.path.abspath(__file__)), '..'))
import folders  # noqa: E402
import compare  # noqa: E402
import headers  # noqa: E402
import reading  # noqa: E402
import treetexts  # noqa: E402
import voices  # noqa: E402

STORED = folders.STORED
FILE_SIZE = 1400000


# ---- answers as numbers

def span(x):
    return [x[0], x[1] - x[0]]


def spans(xs):
    return [len(xs)] + [n for x in xs for n in span(x)]


def perhaps(x):
    return [0, 0, 0] if x is None else [1] + list(x)


def header_numbers(b):
    try:
        h = reading.Header(b)
    except reading.Refused as r:
        return [r.number, r.place]
    g = h.g
    out = [0, 0] + span(g[b'HTS_VOICE_VERSION']) + [g[k] for k in (b'SAMPLING_FREQUENCY', b'FRAME_PERIOD', b'NUM_STATES', b'NUM_STREAMS')] + spans(g[b'STREAM_TYPE'])
    out += span(g[b'FULLCONTEXT_FORMAT']) + span(g[b'FULLCONTEXT_VERSION']) + spans(g.get(b'GV_OFF_CONTEXT', []))
    comment = g.get(b'COMMENT')
    out += perhaps(None if comment is None else span(comment))
    out += h.durations[b'DURATION_PDF'] + h.durations[b'DURATION_TREE']
    out.append(len(h.streams))
    for name, d in h.streams:
        out += span(name) + [d[b'VECTOR_LENGTH'], d[b'NUM_WINDOWS'], d[b'IS_MSD'], d.get(b'USE_GV', 0)] + spans(d.get(b'OPTION', []))
    out.append(len(h.positions))
    for name, d in h.positions:
        windows = d[b'STREAM_WIN']
        out += span(name) + [len(windows)] + [n for w in windows for n in w] + list(d[b'STREAM_PDF'] + d[b'STREAM_TREE']) + perhaps(d.get(b'GV_PDF')) + perhaps(d.get(b'GV_TREE'))
    return out + span(h.data)


def tree_numbers(b):
    try:
        qs, trees = reading.tree_text(b, 0)
    except reading.Refused as r:
        return [r.number, r.place]
    out = [0] + [int(w) for w in next(iter(reading.tree_lines(b))).split(' ')[2:]]
    ref = lambda r: [1 if r[0] == 'P' else 0, r[1]]
    for name, patterns in qs:
        out += span(name) + spans(patterns)
    for star, state, lone, ls in trees:
        out += [star, state]
        if lone:
            out += [0] + ref(lone)
            continue
        out += [1, len(ls)]
        for ident, name, no, yes in ls:
            out += [ident] + span(name) + ref(no) + ref(yes)
    return out


def voice_numbers(b):
    try:
        h = reading.Header(b)
    except reading.Refused as r:
        return [r.number, r.place]
    count = 2 * len(h.g[b'STREAM_TYPE']) + 1
    out = [0, 0, count]
    for k in range(count):
        try:
            m = reading.Model(b, h, k)
        except reading.Refused as r:
            out += [r.number, r.place, r.line] + [0] * 5
            continue
        fits = reading.leaves_fit(m.questions, m.trees, m.records, m.values, m.width)
        longest = max(len(t[3]) for t in m.text[1])
        out += [0, 0, 0] + m.needed() + m.questions + m.patterns + m.trees + m.records + m.values + [6 * longest, m.width, int(fits)]
    return out


def walk_numbers(line):
    """number, PDF number, questions asked"""
    said = next(iter(reading.answer('walk', line))).split(' ')
    return [int(said[1]), 0, 0] if said[0] == 'REFUSED' else [0, int(said[1]), int(said[3])]


# ---- inputs

def under_quota(make, number_of, quota, longest):
    """Inputs made one after the other, as many for each number as its quota has room for; `other` for those not named."""
    left, n = dict(quota), 0
    while any(left.values()) and n < 400000:
        b = make(n)
        n += 1
        if len(b) > longest:
            continue
        k = number_of(b)
        if left.get(k):
            left[k] -= 1
            yield b


def header_inputs():
    out = headers.at_limits() + headers.by_hand()
    for key in headers.GLOBAL + headers.STREAM + headers.DURATION + headers.POSITION:
        out += [headers.without(key, False), headers.without(key, True)]
    quota = {0: 800, 1: 120, 2: 150, 3: 150, 4: 100, 5: 180, 6: 150, 7: 150, 8: 150, 9: 250, 10: 80, 12: 40}
    return out + list(under_quota(headers.header, lambda b: header_numbers(b)[0], quota, 700))


EVERY_SEAM = b'QS A {"x", y}\nQS B { z }\n\n{*} [2] {0 A -1 p_3\n-1 B p_1 "p_3"}\n{*}[3]p_1\n'


def tree_inputs():
    out = list(treetexts.BY_HAND)
    for i in range(len(EVERY_SEAM) + 1):
        out += [EVERY_SEAM[:i] + w + EVERY_SEAM[i:] for w in (b'\t', b' ', b'\n')]
        out.append(EVERY_SEAM[:i] + EVERY_SEAM[i + 1:])
    return out + list(under_quota(treetexts.tree_text, lambda b: tree_numbers(b)[0], {0: 900, 17: 900, 18: 60}, 500))


def voice_inputs():
    """Every number that a load can give at least a few times; most of them load in full."""
    yield from voices.by_hand()
    left = {'all': 230, 'mixed': 200, 1: 10, 2: 10, 3: 3, 5: 5, 6: 5, 7: 5, 8: 5, 9: 15, 13: 20, 14: 20, 16: 25, 17: 25, 18: 20, 19: 25, 21: 25, 22: 25, 23: 25}
    n = 0
    while any(left.values()) and n < 60000:
        b = voices.voice(n)
        n += 1
        if len(b) > 1500:
            continue
        lines = list(reading.dump(b))
        opened = int(lines[0].split(' ')[1])
        loads = [int(l.split(' ')[1]) for l in lines if l.startswith('LOAD ')]
        kinds = [opened] if opened else [k for k in sorted(set(loads)) if k not in (0, 15)] or ['all']
        if opened == 0 and kinds != ['all']:
            kinds.append('mixed')
        for k in kinds:
            if left.get(k):
                left[k] -= 1
                yield b
                break


def walk_inputs():
    """Per voice and model: walks over each of its trees and one past the last, with answers too few, enough and too many, and limits about the walk's length."""
    n = done = 0
    while done < 400:
        b = voices.voice(n) if n % 3 == 0 else voices.walking(n)
        n += 1
        if len(b) > 1500:
            continue
        try:
            h = reading.Header(b)
        except reading.Refused:
            continue
        r = random.Random('stored walk %d' % n)
        for which in range(2 * len(h.g[b'STREAM_TYPE']) + 1):
            try:
                m = reading.Model(b, h, which)
            except reading.Refused:
                continue
            if len(m.records) <= 4 and r.random() < .9:
                continue
            trees, questions, walks = len(m.trees) // 6, len(m.questions) // 4, []
            for tree in list(range(trees)) * 6 + [trees]:
                count = questions + r.choice((0, 0, 0, 0, 0, 1, -1))
                answers = bytes(r.choice((0, 0, 1, 1, 255)) for _ in range(max(0, count)))
                walks.append((tree, r.choice((0, 1, 2, 3, 4, 5, 1000, 2 ** 64 - 1)), answers))
            done += 1
            yield b, which, walks


# ---- writing

def write(name, lines):
    """Files name-1.txt, name-2.txt, ..; each of at most FILE_SIZE bytes."""
    parts, size = [[]], 0
    for l in lines:
        if size + len(l) + 1 > FILE_SIZE:
            parts.append([])
            size = 0
        parts[-1].append(l)
        size += len(l) + 1
    for old in os.listdir(STORED):
        if old.startswith(name + '-'):
            os.remove(os.path.join(STORED, old))
    for k, part in enumerate(parts):
        with open(os.path.join(STORED, '%s-%d.txt' % (name, k + 1)), 'w') as f:
            f.write('\n'.join(part) + '\n')
    print('%s: %d cases in %d files' % (name, len(lines), len(parts)))


def case(b, numbers):
    return '%s %s' % (b.hex(), ' '.join(map(str, numbers)))


def agreed(mode, lines):
    """Stops unless the oracle and the reading agree on all these lines."""
    judge = compare.Judge()
    judge.all(mode, lines)
    if judge.report():
        sys.exit('store: the oracle and the reading differ')


def unique(inputs):
    return list(dict.fromkeys(inputs))


def make_headers():
    inputs = unique(header_inputs())
    agreed('open', [b.hex() for b in inputs])
    write('headers', [case(b, header_numbers(b)) for b in inputs])


def make_trees():
    inputs = unique(tree_inputs())
    agreed('tree', [b.hex() for b in inputs])
    write('trees', [case(b, tree_numbers(b)) for b in inputs])


def make_voices():
    inputs = unique(voice_inputs())
    agreed('dump', [b.hex() for b in inputs])
    write('voices', [case(b, voice_numbers(b)) for b in inputs])


def make_dumps():
    """Voices with their dump as text: a line of hex, the lines of the dump, END."""
    inputs = unique(voice_inputs())[::6]
    agreed('dump', [b.hex() for b in inputs])
    write('dumps', ['\n'.join([b.hex()] + list(reading.dump(b)) + ['END']) for b in inputs])


def make_walks():
    cases, lines = [], []
    for b, which, walks in walk_inputs():
        numbers = [which, len(walks)]
        for tree, limit, answers in walks:
            line = '%s %d %d %s %d' % (b.hex(), which, tree, answers.hex() or '-', limit)
            lines.append(line)
            numbers += [tree, limit, len(answers)] + list(answers) + walk_numbers(line)
        cases.append(case(b, numbers))
    # the Rust walks a tree that goes round until the limit: a great one is left to the reading
    agreed('walk', [l for l in lines if int(l.rsplit(' ', 1)[1]) <= 1000])
    write('walks', cases)


if __name__ == '__main__':
    os.makedirs(STORED, exist_ok=True)
    for name in sys.argv[1:] or ('headers', 'trees', 'voices', 'dumps', 'walks'):
        globals()['make_' + name]()
