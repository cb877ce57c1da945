"""Damage to bytes: changed, cut, doubled, put in, taken out. Deterministic by the random source given."""

ODD = [b'\n', b' ', b'\t', b'"', b',', b'-', b':', b'[', b']', b'{', b'}', b'*', b'_', b'0', b'1', b'9', b'A', b'QS', b'\n[', b'{*}', b'\x00', b'\x7f', b'\x80', b'\xc2\x80', b'\xed\xa0\x80',
       b'\xf4\x90\x80\x80', b'\xe3\x81\x82', b'\xff', b'\r', b'\\', b'\x0b']


def damaged(r, b, times=None):
    """b with one to three places damaged."""
    for _ in range(times or r.choice((1, 1, 1, 2, 3))):
        i = r.randint(0, len(b))
        kind = r.random()
        if kind < .3:
            b = b[:i] + r.choice(ODD) + b[i:]
        elif kind < .5:
            b = b[:i] + b[i + r.choice((1, 1, 1, 2, 5)):]
        elif kind < .75:
            b = b[:i] + r.choice(ODD) + b[i + 1:]
        elif kind < .8:
            b = b[:i] + bytes([r.randrange(256)]) + b[i + 1:]
        elif kind < .85:
            b = b[:i] if r.random() < .5 else b[i:]
        elif kind < .95:
            n = r.choice((1, 2, 3, 10, 30))
            b = b[:i] + b[i:i + n] * 2 + b[i + n:]
        else:
            j = r.randint(0, len(b))
            i, j = min(i, j), max(i, j)
            b = b[:i] + b[i:j][::-1] + b[j:] if j - i < 8 else b[:i] + b[j:]
    return b
