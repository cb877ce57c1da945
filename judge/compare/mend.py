#!/usr/bin/env python3
"""mend.py VOICE COPY: a copy in which each byte of a pattern that is outside 01's classes is replaced by `!`, and `16000.0` and `80.0` in the header by `16000` and `80`."""
import os
import re
import sys

sys.path.insert(0, os.path.join(os.path.dirname(os.path.abspath(__file__)), '..'))
import folders  # noqa: E402
import reading  # noqa: E402

OUTSIDE = re.compile(rb'[^A-Za-z0-9*?!#%&+\-/:=@^_|]')
QUESTION = re.compile(rb'(QS[ \n]+[^ \n]+[ \n]+\{)((?:[ \n]*"[^"\n]*"[ \n]*,?)*)')


def mended(b):
    """The copy, and how many bytes of patterns were replaced."""
    b = b.replace(b'SAMPLING_FREQUENCY:16000.0\n', b'SAMPLING_FREQUENCY:16000\n').replace(b'FRAME_PERIOD:80.0\n', b'FRAME_PERIOD:80\n')
    h = reading.Header(b)
    out, replaced = bytearray(b), 0

    def quoted(m):
        nonlocal replaced
        text, n = OUTSIDE.subn(b'!', m.group(1))
        replaced += n
        return b'"%s"' % text
    for which in range(2 * len(h.g[b'STREAM_TYPE']) + 1):
        try:
            (start, end), _, _ = reading.which_model(b, h, which)
        except reading.Refused:
            continue
        a, z = h.data[0] + start, h.data[0] + end + 1
        out[a:z] = QUESTION.sub(lambda m: m.group(1) + re.sub(rb'"([^"\n]*)"', quoted, m.group(2)), b[a:z])
    return bytes(out), replaced


if __name__ == '__main__':
    with open(sys.argv[1], 'rb') as f:
        copy, n = mended(f.read())
    with open(sys.argv[2], 'wb') as f:
        f.write(copy)
    print('%s: %d bytes of patterns replaced' % (sys.argv[2].rsplit('/', 1)[-1], n))
