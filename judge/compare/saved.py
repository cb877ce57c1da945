#!/usr/bin/env python3
"""saved.py VOICE COPY: whether a voice and the copy of it that `larsavim save` made say the same, by the second reading: in every model the questions, patterns, trees and
records, with strings for where they start, the PDF values, and the global values and windows of the header. Prints how much was compared.

saved.py --labels VOICE N: N labels made from the voice's own patterns, a line each; `*` becomes nothing or some bytes, `?` one byte."""
import os
import random
import sys

sys.path.insert(0, os.path.join(os.path.dirname(os.path.abspath(__file__)), '..'))
import folders  # noqa: E402
import reading  # noqa: E402
import writing  # noqa: E402


def said(b, h, which):
    m = reading.Model(b, h, which)
    return writing.said(m.data, *writing.tables_of(m)), list(m.values), list(m.trees)


def labels(b, n):
    r, h = random.Random(6), reading.Header(b)
    patterns = [p for which in range(len(h.g[b'STREAM_TYPE']) + 1) for p in said(b, h, which)[0][1]]
    for _ in range(n):
        parts = [r.choice(patterns) for _ in range(8)]
        line = b''.join(parts).replace(b'*', r.choice([b'', b'x', b'^a'])).replace(b'?', b'1')
        yield line.decode('ascii')


def main(voice, copy):
    a, b = open(voice, 'rb').read(), open(copy, 'rb').read()
    ha, hb = reading.Header(a), reading.Header(b)
    models = 2 * len(ha.g[b'STREAM_TYPE']) + 1
    rows = 0
    for which in range(models):
        try:
            one = said(a, ha, which)
        except reading.Refused as refused:
            print('model %d is refused with %d' % (which, refused.number))
            continue
        if one != said(b, hb, which):
            sys.exit('saved.py: model %d differs' % which)
        rows += sum(map(len, one[0]))
    print('%s: %d models, %d rows: the same' % (copy, models, rows))


if sys.argv[1] == '--labels':
    print('\n'.join(labels(open(sys.argv[2], 'rb').read(), int(sys.argv[3]))))
else:
    main(*sys.argv[1:])
