#!/usr/bin/env python3
"""The known differences between 01 and the Rust, each with a smallest input:  differences.py   runs each through the reading and the oracle, and prints
them for docs/DIFFERENCES.md."""
import os
import struct
import sys

sys.path.insert(0, os.path.join(os.path.dirname(os.path.abspath(__file__)), '..'))
import folders  # noqa: E402
import compare  # noqa: E402
import headers  # noqa: E402
import reading  # noqa: E402
import voices  # noqa: E402

HEAD = headers.minimal()
LEAF = b'{*}[2]p1'
WRAPPED = HEAD.replace(b'DURATION_TREE:0-1', b'DURATION_TREE:0-18446744073709551615')
WIDE = voices.simple(swap=[(b'NUM_STATES:1', b'NUM_STATES:9223372036854775809')])
NANS = voices.simple(block=struct.pack('<III', 1, 0x7f800001, 0))
TWO = headers.with_line('USE_GV', b'USE_GV[B]:x\nVECTOR_LENGTH[C]:y')
EQUAL = voices.simple(b'QS A {a}\n{*}[2]{0 A p1 p1\n1 A p1 p1}')
LONE, NO_ID, NO_QUESTION = voices.simple(b'{*}[2]1'), voices.simple(b'{*}[2]{0 A 1 p1}'), voices.simple(b'{*}[2]{0 A p1 p2}')

# what it is; the smallest input in words, how it is run, the input; what the Rust does, and a line of the oracle that shows it; 01 and ours, and the line
KNOWN = [
    ('Tree text that ends in a newline, any blanks and one last byte of 128 or more', '`{*}[2]p1`, newline, `\\xff`', 'tree', LEAF + b'\n\xff',
     'panics inside nom 8: `none_of` takes two bytes for it', 'TEXT panic nom-8.0.0/src/traits.rs "range start index 2 out of range for slice of length 1"', 'outside the grammar: 17', 'TEXT 17 0 0 0 0 0'),
    ('A header number of 2^64 or more', '`NUM_STATES:18446744073709551616`', 'open', HEAD.replace(b'NUM_STATES:1', b'NUM_STATES:18446744073709551616'),
     'wraps: NUM_STATES is 0', 'NUM_STATES 0', '10 at its first digit', 'OPEN 10 76'),
    ('A count past its limit', 'nine windows in STREAM_WIN', 'open', headers.minimal(windows=9), 'has no limits', 'OPEN 0 0', '12', 'OPEN 12 0'),
    ('A width past its limit', '`NUM_STATES:9223372036854775809`', 'dump', WIDE, 'wraps: width 2, and the model loads', 'LOAD 0 0 0 0 0 1 1 1 2', 'no width wraps: 12', 'LOAD 12 0 0 0 0 0 0 0'),
    ('A range end of 2^64 - 1', '`DURATION_TREE:0-18446744073709551615`', 'dump', WRAPPED, 'end + 1 wraps: an empty text, outside the grammar', 'WHOLE nom', '16', 'LOAD 16 0 0 0 0 0 0 0'),
    ('A range outside the data', '`DURATION_TREE:0-1` and no data', 'dump', HEAD, 'panics', 'WHOLE panic', '16', 'LOAD 16 0 0 0 0 0 0 0'),
    ('A negative state', '`{*}[-1]p1`', 'dump', voices.simple(b'{*}[-1]p1'), 'takes it as 2^64 less, and loads', 'WHOLE 0', '18', 'LOAD 18 0 0 0 0 0 0 0'),
    ('An id that no line has', '`{*}[2]{0 A 1 p1}`', 'dump', NO_ID, 'panics', 'WHOLE panic', '21, tree 0, line 0', 'LOAD 21 0 0 0 0 0 0 0'),
    ('A question that is not there', '`{*}[2]{0 A p1 p2}`', 'dump', NO_QUESTION, 'panics', 'WHOLE panic', '22, tree 0, line 0', 'LOAD 22 0 0 0 0 0 0 0'),
    ('A node as a tree\'s one reference', '`{*}[2]1`', 'dump', LONE, 'panics', 'WHOLE panic', '23, tree 0', 'LOAD 23 0 0 0 0 0 0 0'),
    ('COMMENT missing', 'no COMMENT', 'open', HEAD, 'an empty one', 'COMMENT ""', 'marked absent', 'COMMENT absent'),
    ('Two faulty groups in one section', '`USE_GV[B]:x`, newline, `VECTOR_LENGTH[C]:y`', 'open', TWO, 'reports either (the order of a HashMap)', 'OPEN 4 184', 'the first to appear', 'OPEN 4 184'),
    ('A fault in a group', 'the same', 'open', TWO, 'a `Message` with the fault\'s words, and no place', 'OPEN 4 184', 'numbered as elsewhere, with its place', 'OPEN 4 184'),
    ('Equal leaves', '`{*}[2]{0 A p1 p1`, newline, `1 A p1 p1}`', 'dump', EQUAL, 'goes to any of them (a binary search)', 'R 0 0 0 2 2', 'the first', 'R 0 0 0 2 2'),
    ('A NaN that is not quiet', 'the value 7F800001', 'dump', NANS, 'leaves the bits to the machine', 'V 0 nan 0000000000000000', 'sign and fraction kept, quiet bit set', 'V 0 7ff8000020000000 0000000000000000'),
    ('GV asked for where USE_GV is 0', 'any voice without GV', 'dump', voices.simple(), 'has no such model, and loads the voice', 'WHOLE 0', '15', 'LOAD 15 0 0 0 0 0 0 0'),
]


def answers():
    """Of each: the title, the line wanted of the oracle and its lines, the line wanted of the reading and its lines."""
    oracle = compare.Judge().oracle
    for title, _, mode, b, _, theirs, _, ours in KNOWN:
        yield title, theirs, compare.run([oracle, mode], [b.hex()])[0], ours, list(reading.answer(mode, b.hex()))


def main():
    for title, theirs, other, ours, mine in answers():
        if theirs not in other or ours not in mine:
            sys.exit('%s: %s or %s not found' % (title, theirs, ours))
    for title, shown, _, _, rust, _, here, _ in KNOWN:
        print('- **%s** (%s). The Rust: %s. 01, and here: %s.' % (title, shown, rust, here))


if __name__ == '__main__':
    main()
