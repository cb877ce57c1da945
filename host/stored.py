"""The lines that `larsavim hex` must print, made out of the numbers stored under judge/stored (judge/README.md has their order), and so out of what the
Rust and the second reading agreed on. The program has no part in it. Strings are cut out of the input; where [DATA] starts, the second reading says."""
import glob
import os
import sys

HERE = os.path.dirname(os.path.abspath(__file__))
STORED = os.path.join(HERE, '..', 'judge', 'stored')
sys.path.insert(0, os.path.join(HERE, '..', 'judge'))
import folders  # noqa: E402,F401
import reading  # noqa: E402


class Numbers:
    """Stored numbers, taken one after the other."""
    def __init__(self, words):
        self.left = iter([int(w) for w in words])

    def one(self):
        return next(self.left)

    def some(self, n):
        return [next(self.left) for _ in range(n)]

    def at_end(self):
        return next(self.left, None) is None


def cases(kind):
    """Input bytes and stored numbers of each case."""
    for name in sorted(glob.glob(os.path.join(STORED, kind + '-*.txt'))):
        with open(name) as f:
            for line in f:
                hexed, *numbers = line.rstrip('\n').split(' ')
                yield bytes.fromhex(hexed), Numbers(numbers)


def dumps():
    """Input as hex and the stored lines of its dump."""
    for name in sorted(glob.glob(os.path.join(STORED, 'dumps-*.txt'))):
        with open(name) as f:
            for case in f.read().split('END\n')[:-1]:
                hexed, *lines = case.splitlines()
                yield hexed, lines


def quoted(b, start, length):
    return reading.quoted(b, (start, start + length))


# ---- headers

def string(b, n):
    return quoted(b, n.one(), n.one())


def strings(b, n):
    return '[%s]' % ','.join(string(b, n) for _ in range(n.one()))


def ranged(n):
    return '%d-%d' % (n.one(), n.one())


def perhaps_range(n):
    there, said = n.one(), ranged(n)
    return said if there else 'absent'


def comment(b, n):
    there, said = n.one(), string(b, n)
    return said if there else 'absent'


def header_lines(b, n):
    """The lines from OPEN to DATA."""
    number, place = n.some(2)
    lines = ['OPEN %d %d' % (number, place)]
    if number:
        return lines
    lines.append('HTS_VOICE_VERSION ' + string(b, n))
    lines += ['%s %d' % (key, n.one()) for key in ('SAMPLING_FREQUENCY', 'FRAME_PERIOD', 'NUM_STATES', 'NUM_STREAMS')]
    lines.append('STREAM_TYPE ' + strings(b, n))
    lines += ['%s %s' % (key, string(b, n)) for key in ('FULLCONTEXT_FORMAT', 'FULLCONTEXT_VERSION')]
    lines.append('GV_OFF_CONTEXT ' + strings(b, n))
    lines.append('COMMENT ' + comment(b, n))
    lines += ['%s %s' % (key, ranged(n)) for key in ('DURATION_PDF', 'DURATION_TREE')]
    for _ in range(n.one()):
        said = 'STREAM %s VECTOR_LENGTH=%d NUM_WINDOWS=%d IS_MSD=%d USE_GV=%d' % (string(b, n), *n.some(4))
        lines.append('%s OPTION=%s' % (said, strings(b, n)))
    for _ in range(n.one()):
        said = 'POSITION %s STREAM_WIN=[%s]' % (string(b, n), ','.join(ranged(n) for _ in range(n.one())))
        said += ' STREAM_PDF=%s STREAM_TREE=%s' % (ranged(n), ranged(n))
        lines.append('%s GV_PDF=%s GV_TREE=%s' % (said, perhaps_range(n), perhaps_range(n)))
    return lines + ['DATA %d %d' % tuple(n.some(2))]


# ---- models

ROW_WIDTH = 4, 2, 6, 4, 1


def model_lines(data, which, n):
    """The lines of one model."""
    outcome, rows = n.some(3), n.some(5)
    lines = ['MODEL %d' % which, 'LOAD ' + ' '.join(map(str, outcome + rows))]
    if outcome[0]:
        return lines + ['AFTER ' + ('zero' if outcome[0] > 20 else 'kept')]
    tables = [[n.some(width) for _ in range(count)] for width, count in zip(ROW_WIDTH, rows)]
    _work, width, fits = n.some(3)
    questions, patterns, trees, records, values = tables
    lines.append('AFTER filled')
    for i, (start, length, first, count) in enumerate(questions):
        lines.append('Q %d %s [%s]' % (i, quoted(data, start, length), ','.join(quoted(data, *p) for p in patterns[first:first + count])))
    for letter, table in ('T', trees), ('R', records):
        lines += ['%s %d %s' % (letter, i, ' '.join(map(str, row))) for i, row in enumerate(table)]
    for i in range(len(values) // (width or 1)):
        lines.append('V %d %s' % (i, ' '.join('%016x' % v for v, in values[width * i:width * i + width])))
    return lines + ['LEAVES ' + ('yes' if fits else 'no')]


def voice_lines(b, n):
    """The line OPEN and the lines of the models: the header's fields are not among a voice's stored numbers."""
    number, place = n.some(2)
    lines = ['OPEN %d %d' % (number, place)]
    if number == 0:
        data = b[reading.sections(b)[3][0]:]
        for which in range(n.one()):
            lines += model_lines(data, which, n)
    return lines


def needs(n):
    """Of each model: number, and where it is 0, work and width."""
    number, _ = n.some(2)
    for which in range(n.one() if number == 0 else 0):
        outcome, rows = n.some(3), n.some(5)
        for width, count in zip(ROW_WIDTH, rows):
            n.some(width * count)
        yield [which, outcome[0]] + (n.some(3)[:2] if outcome[0] == 0 else [])


# ---- walks

def walks():
    """Lines for `larsavim hex` and the line that each must be answered with."""
    for b, n in cases('walks'):
        which = n.one()
        for _ in range(n.one()):
            tree, limit = n.some(2)
            answers = bytes(n.some(n.one()))
            number, pdf, asked = n.some(3)
            yield '%s %d %d %s %d' % (b.hex(), which, tree, answers.hex() or '-', limit), 'REFUSED %d' % number if number else 'PDF %d ASKED %d' % (pdf, asked)
        assert n.at_end(), 'stored walks have numbers left over'
