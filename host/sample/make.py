#!/usr/bin/env python3
"""Makes the sample voice: a small one, laid out as the Japanese voices of HTS are, with made-up values. make.py FILE writes it.

It is for `larsavim demo`. In the first tree of the stream MCP two lines bear the id -2. Where the phone is the `i` of a number,
`shichi` (seven) and `ichi` (one) part there: the earlier line asks for a `ch` behind and treats both words alike, the later one
asks for a `sh` before, which only `shichi` has. A reader that goes to the earlier line says seven with a sound of one."""
import struct
import sys

WINDOWS = b'1 1.0\n', b'3 -0.5 0.0 0.5\n', b'3 1.0 -2.0 1.0\n'

QUESTIONS = (('C-Silence', '*-sil+*', '*-pau+*'), ('C-Vowel', '*-a+*', '*-i+*', '*-u+*', '*-e+*', '*-o+*'), ('C-Phone_i', '*-i+*'),
             ('C-Phone_sh', '*-sh+*'), ('C-Phone_ch', '*-ch+*'), ('L-Phone_sh', '*^sh-*'), ('R-Phone_ch', '*+ch=*'))

# id, question, no, yes; a number stands for a node, a name for a PDF
SHICHI = ((0, 'C-Silence', -1, 'mcp_s2_1'),
          (-1, 'C-Phone_i', -3, -2),
          (-2, 'R-Phone_ch', 'mcp_s2_2', 'mcp_s2_3'),
          (-3, 'C-Phone_sh', 'mcp_s2_6', 'mcp_s2_7'),
          (-2, 'L-Phone_sh', 'mcp_s2_4', 'mcp_s2_5'))


def two_lines(prefix, state):
    return (0, 'C-Silence', -1, '%s_s%d_1' % (prefix, state)), (-1, 'C-Vowel', '%s_s%d_2' % (prefix, state), '%s_s%d_3' % (prefix, state))


class Data:
    """The parts of [DATA], one behind the other."""
    def __init__(self):
        self.bytes = b''

    def put(self, part):
        start = len(self.bytes)
        self.bytes += part
        return '%d-%d' % (start, len(self.bytes) - 1)


def questions():
    return ''.join('QS %s { %s }\n' % (name, ','.join('"%s"' % p for p in patterns)) for name, *patterns in QUESTIONS) + '\n'


def reference(r):
    return str(r) if isinstance(r, int) else '"%s"' % r


def tree(state, lines):
    """A tree of lines, or of one PDF."""
    if isinstance(lines, str):
        return '{*}[%d]\n   "%s"\n' % (state, lines)
    rows = ''.join(' %4d %-12s %-12s %-12s\n' % (i, q, reference(no), reference(yes)) for i, q, no, yes in lines)
    return '{*}[%d]\n{\n%s}\n' % (state, rows)


def entries(lines):
    """How many PDFs the tree's lines name."""
    return 1 if isinstance(lines, str) else max(int(r.rsplit('_', 1)[1]) for _, _, no, yes in lines for r in (no, yes) if isinstance(r, str))


def block(counts, width):
    """Means go up and down in eighths, variances are all above 0; a last value that has no pair is the weight of the voiced space."""
    half, values, k = width // 2, [], 0
    for count in counts:
        for _ in range(count):
            k += 1
            values += [((7 * k + 5 * i) % 33 - 16) / 8 for i in range(half)] + [((3 * k + i) % 7 + 1) / 16 for i in range(half)]
            values += [(k % 8) / 8] * (width % 2)
    return struct.pack('<%dI' % len(counts), *counts) + struct.pack('<%df' % len(values), *values)


def voice():
    data = Data()
    streams = ('MCP', 5, 3, 0, 1, 'ALPHA=0.55'), ('LF0', 1, 3, 1, 1, ''), ('LPF', 3, 1, 0, 0, '')
    trees = {'MCP': [SHICHI] + [two_lines('mcp', s) for s in range(3, 7)], 'LF0': [two_lines('lf0', s) for s in range(2, 7)],
             'LPF': ['lpf_s%d_1' % s for s in range(2, 7)]}

    def model(texts, first, width):
        """Ranges of the PDF block and the tree text."""
        pdf = data.put(block([entries(t) for t in texts], width))
        return pdf, data.put((questions() + '\n'.join(tree(first + k, t) for k, t in enumerate(texts))).encode())

    windows = {name: ','.join(data.put(w) for w in WINDOWS[:count]) for name, _, count, _, _, _ in streams}
    duration = model([two_lines('dur', 2)], 2, 10)
    of_stream = {name: model(trees[name], 2, 2 * length * count + msd) for name, length, count, msd, _, _ in streams}
    of_gv = {name: model([[(0, 'C-Vowel', 'gv_%s_1' % name, 'gv_%s_2' % name)]], 2, 2 * length) for name, length, _, _, gv, _ in streams if gv}

    header = ['[GLOBAL]', 'HTS_VOICE_VERSION:1.0', 'SAMPLING_FREQUENCY:48000', 'FRAME_PERIOD:240', 'NUM_STATES:5', 'NUM_STREAMS:3', 'STREAM_TYPE:MCP,LF0,LPF',
              'FULLCONTEXT_FORMAT:HTS_TTS_JPN', 'FULLCONTEXT_VERSION:1.0', 'GV_OFF_CONTEXT:"*-sil+*","*-pau+*"', 'COMMENT:sample voice, made by host/sample/make.py',
              '[STREAM]']
    for field, at in ('VECTOR_LENGTH', 1), ('NUM_WINDOWS', 2), ('IS_MSD', 3), ('USE_GV', 4), ('OPTION', 5):
        header += ['%s[%s]:%s' % (field, s[0], s[at]) for s in streams]
    header += ['[POSITION]', 'DURATION_PDF:' + duration[0], 'DURATION_TREE:' + duration[1]]
    header += ['STREAM_WIN[%s]:%s' % item for item in windows.items()]
    for field, at, ranges in ('STREAM_PDF', 0, of_stream), ('STREAM_TREE', 1, of_stream), ('GV_PDF', 0, of_gv), ('GV_TREE', 1, of_gv):
        header += ['%s[%s]:%s' % (field, name, r[at]) for name, r in ranges.items()]
    return '\n'.join(header + ['[DATA]', '']).encode() + data.bytes


if __name__ == '__main__':
    if len(sys.argv) != 2:
        sys.exit(__doc__)
    with open(sys.argv[1], 'wb') as f:
        f.write(voice())
