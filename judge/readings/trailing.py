#!/usr/bin/env python3
"""A second reading of 02's Wish 7, for judging what is written and read of a voice's trailer: written from its words, over the second reading of 01.

  trailing.py               makes the stored cases, stored/trails-1.txt
  trailing.py --check       says whether they are as made

A case is a file, the bytes of the buffer that is lent, number, place and bytes of what writing answers, the trailer that it writes (or -); then number, place, rows and begin of
what reading answers. Bytes are hex, - for none."""
import os
import random
import struct
import sys

sys.path.insert(0, os.path.join(os.path.dirname(os.path.abspath(__file__)), '..'))
import folders  # noqa: E402
import reading  # noqa: E402
import voices  # noqa: E402

STORED = os.path.join(folders.STORED, 'trails-1.txt')
CASES = 150
ROOM = 10 ** 6


# ---- the rule

def models(file, h):
    """Duration, then each stream and, unless its USE_GV is 0, its GV."""
    yield 0
    for i, (a, b) in enumerate(h.g[b'STREAM_TYPE']):
        yield 2 * i + 1
        used = [said.get(b'USE_GV') for (x, y), said in h.streams if file[x:y] == file[a:b]]
        if used and used[-1]:
            yield 2 * i + 2


def rows_of(file, h):
    """The numbers of all rows, in order; or Refused with 13 to 18."""
    data = file[h.data[0]:h.data[1]]
    rows = []
    for which in models(file, h):
        tree_range, _, _ = reading.which_model(file, h, which)
        start, end = reading.inside(tree_range, len(data))
        for tree in reading.tree_text(data[:end], start)[1]:
            rows += [which, tree[0], 0 if reading.single(tree) else len(tree[3])]
    return rows


def numbers(l):
    return struct.pack('<%dI' % len(l), *l)


def sum_of(b):
    return sum(b) % 2 ** 32


def trailer(file, rows):
    front = numbers(rows + [len(rows) // 3, len(file)])
    return front + numbers([sum_of(file + front)])


def writes(file, room):
    """Number, place, bytes, and what is written."""
    try:
        h = reading.Header(file)
        t = trailer(file, rows_of(file, h))
    except reading.Refused as r:
        return (r.number, r.place, 0), b''
    if len(t) > room or len(file) + len(t) > reading.FILE_LIMIT:
        return (26, 0, len(t)), b''
    return (0, 0, len(t)), t


def finds(file):
    """Number, place, rows, begin."""
    try:
        h = reading.Header(file)
        if h.data[1] - h.data[0] < 12:
            return 26, 0, 0, 0
        if file[-4:] != numbers([sum_of(file[:-4])]):
            return 27, 0, 0, 0
        rows = rows_of(file, h)
    except reading.Refused as r:
        return r.number, r.place, 0, 0
    count, begin = struct.unpack('<2I', file[-12:-4])
    if count != len(rows) // 3 or file[begin:-12] != numbers(rows) or begin + 12 * count != len(file) - 12:
        return 28, 0, 0, 0
    return 0, 0, count, begin


# ---- damage

def mended(file):
    return file[:-4] + numbers([sum_of(file[:-4])])


def with_word(file, back, change):
    """The number that stands so many bytes before the end, changed; the sum mended."""
    at = len(file) - back
    n = change(struct.unpack('<I', file[at:at + 4])[0]) % 2 ** 32
    return mended(file[:at] + numbers([n]) + file[at + 4:])


def spoiled(file, rows):
    """A file with its trailer, made wrong in each of a few ways."""
    yield file + b'\0'
    yield file[:-1]
    yield file[:len(file) // 2] + bytes([file[len(file) // 2] ^ 1]) + file[len(file) // 2 + 1:]
    for change in (lambda n: n + 1, lambda n: n - 1, lambda n: n + 12, lambda n: n - 12):
        yield with_word(file, 12, change)
        yield with_word(file, 8, change)
    for back in range(16, min(12 * rows, 72) + 13, 4):
        yield with_word(file, back, lambda n: n ^ 1)
    if rows > 1:
        at = len(file) - 12 - 24
        yield mended(file[:at] + file[at + 12:at + 24] + file[at:at + 12] + file[at + 24:])
    begin = len(file) - 12 - 12 * rows
    yield mended(with_word(file[:begin] + b'\0\0\0\0' + file[begin:], 8, lambda n: n + 4))
    yield mended(file[:begin] + b'x' + file[begin:])


# ---- cases

def by_hand():
    """The cases of docs/READINGS.md."""
    text = lambda body: voices.QS + b'{*}[2]' + body
    for body in (b'{5 A p_1 p_1}', b'{0 A 0 -1}', b'5', b'{}', b'{0 A p_1 p_2\n-1 B p_1 p_1}', b'p_3', b'p_1\n{*}[3]{0 A p_1 p_2}\n{*}[4]{}'):
        yield voices.around(text(body))
    yield voices.around(text(b'p_1').replace(b'[2]', b'[-2]'))  # 18
    yield voices.around(text(b'p_1') + b' x')  # 17
    yield voices.simple(block=bytes(3))  # a block one byte short: 19 of a load, and no matter here
    gv = (b'{*}[2]g_1', voices.ONE)
    for extra, swap in ((None, ((b'NUM_STATES:1', b'NUM_STATES:2049'),)), (None, ((b'USE_GV[M]:0', b'USE_GV[M]:1'),)), (gv, ()), ((b'nonsense', b'x'), ((b'USE_GV[M]:1', b'USE_GV[M]:0'),)),
                        (gv, ((b'STREAM_TYPE:M', b'STREAM_TYPE:M,M'),)), (None, ((b'STREAM_TYPE:M', b'STREAM_TYPE:Z'),)), (None, ((b'STREAM_TYPE:M', b'STREAM_TYPE:M,Z'),)),
                        (None, ((b'VECTOR_LENGTH[M]', b'VECTOR_LENGTH[N]'), (b'NUM_WINDOWS[M]', b'NUM_WINDOWS[N]'), (b'IS_MSD[M]', b'IS_MSD[N]'), (b'USE_GV[M]', b'USE_GV[N]')))):
        yield voices.simple(gv=extra, swap=swap)
    head = voices.simple().partition(b'[DATA]\n')
    for n in (0, 11, 12):  # 26, 26, 27
        yield head[0] + head[1] + bytes(n)
    plain = voices.simple()
    once = plain + writes(plain, ROOM)[1]
    yield once + writes(once, ROOM)[1]  # a second trailer: the last is read


def drawn(number):
    return voices.voice(number)


def trailed(number):
    """A drawn voice with its trailer, where it has one."""
    file = drawn(number)
    return file + writes(file, ROOM)[1]


def files():
    seen = list(by_hand()) + [drawn(n) for n in range(CASES)]
    for n, file in enumerate(seen):
        r = random.Random('trail %d' % n)
        answer, t = writes(file, ROOM)
        yield file, r.choice((ROOM, ROOM, answer[2], max(0, answer[2] - 1), 0))
        if answer[0] == 0:
            good = file + t
            yield good, ROOM
            wrong = list(spoiled(good, (len(t) - 12) // 12))
            for bad in r.sample(wrong, min(3, len(wrong))):
                yield bad, r.choice((0, ROOM))
        elif n % 3 == 0:
            yield mended(file + bytes(12)), ROOM


def cases():
    for file, room in files():
        answer, t = writes(file, room)
        yield file, room, answer, t, finds(file)


def line(file, room, answer, t, found):
    return ' '.join(str(x) for x in (file.hex() or '-', room) + answer + (t.hex() or '-',) + found) + '\n'


def stored():
    return ''.join(line(*case) for case in cases())


def main():
    if sys.argv[1:] == ['--check']:
        with open(STORED) as f:
            return None if f.read() == stored() else 'trailing.py: stored/trails-1.txt is not as made'
    with open(STORED, 'w') as f:
        f.write(stored())
    return None


if __name__ == '__main__':
    sys.exit(main())
