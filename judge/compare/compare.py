#!/usr/bin/env python3
"""Runs the oracle, the second reading and, once it is there, the product on the same inputs, and compares every line of their answers.

  compare.py headers|trees|voices|walks FROM TO     the generated inputs of these numbers
  compare.py trails FROM TO                         the generated voices, each with its trailer behind it (02, Wish 7), where it has one
  compare.py texts FROM TO                          the generated tree texts, each as a stream of a whole voice
  compare.py byhand                                 the inputs by hand, each limit, each field missing
  compare.py short [LENGTH [PART]]                  all short tree texts over small alphabets (LENGTH pieces), all short header values (LENGTH - 2 bytes);
                                                    PART 0 are the header values, 1 to 7 the tree texts at a seam each
  compare.py utf8                                   all sequences of up to four bytes at the edges of RFC 3629's rows
  compare.py large                                  ordinary voices of up to 14 MB; files about the limit
  compare.py files FILE..                           whole voices
  --product 'COMMAND'   also compare the product (`larsavim hex`): COMMAND reads hex lines and prints the dump of each and END; for walks, lines of hex, model,
                        tree, answers, limit, and prints `PDF n ASKED k` or `REFUSED n`, and END
  --walker 'COMMAND'    another command for walks
  --no-oracle           leave the oracle out (where there is no cargo)
Prints figures, and up to ten differences that no rule explains; the exit status is 1 if there is any.

What is compared with the oracle is left out, and counted, where 01's domain of equality ends: a header number of 2^64 or more, a limit exceeded, a range
end of 2^64 - 1. Known differences are recognised by rule and counted. NaNs are compared as NaNs; the oracle prints the first of equal leaves."""
import argparse
import collections
import itertools
import os
import random
import re
import subprocess
import sys

sys.path.insert(0, os.path.join(os.path.dirname(os.path.abspath(__file__)), '..'))
import folders  # noqa: E402
import headers  # noqa: E402
import reading  # noqa: E402
import trailing  # noqa: E402
import treetexts  # noqa: E402
import voices  # noqa: E402

sys.path.insert(0, os.path.join(folders.JUDGE, '..', 'tools'))
from far import far  # noqa: E402

NAN = re.compile(r'\b[7f]ff(?!0000000000000)[0-9a-f]{13}\b')
END_WRAPS = re.compile(r'-18446744073709551615\b')
NO_PLACE = re.compile(r'^LOAD 17 \d+ ')  # the Rust says of a tree text that it doesn't fit, and not where


def run(command, lines):
    """The answers of a program to lines of input."""
    done = subprocess.run(command, input='\n'.join(lines) + '\n', stdout=subprocess.PIPE, universal_newlines=True)
    answers = done.stdout.split('END\n')[:-1]
    if len(answers) != len(lines):
        sys.exit('%s: %d answers to %d lines (exit status %d), after input %s' % (command[0], len(answers), len(lines), done.returncode, lines[len(answers)][:200]))
    return [a.rstrip('\n').split('\n') for a in answers]


def as_oracle(lines):
    """The reading's lines as the oracle prints them."""
    out = []
    for l in lines:
        if l.startswith('V '):
            l = NAN.sub('nan', l)
        elif l == 'COMMENT absent':
            l = 'COMMENT ""'
        elif l.startswith('LOAD 17 '):
            l = NO_PLACE.sub('LOAD 17 0 ', l)
        elif l.startswith(('AFTER', 'LEAVES')):
            continue
        out.append(l)
    return out


def one_row_a_tree(lines):
    """The oracle's lines of a model, which has a row for a tree and one for its block, as one row a tree (02, Wish 10): first value and entries stand behind the tree's other
    numbers, and block rows are not counted. A block without its tree stays a line, and a count of blocks that is not that of the trees stays too."""
    rows = {l.split(' ')[1] for l in lines if l.startswith('T ')}
    blocks = dict(l[2:].split(' ', 1) for l in lines if l.startswith('B '))
    out = []
    for l in lines:
        letter, *words = l.split(' ')
        if letter == 'T':
            l += ' ' + blocks.get(words[0], 'no block')
        elif letter == 'LOAD' and words[0].isdigit() and words[5] == words[7]:
            l = ' '.join([letter] + words[:7] + words[8:])
        if letter != 'B' or words[0] not in rows:
            out.append(l)
    return out


def by_model(lines):
    """Opening, and then the lines of each model."""
    parts = [[]]
    for l in lines:
        if l.startswith('MODEL '):
            parts.append([])
        parts[-1].append(l)
    return parts


def text_ends_badly(text):
    """Known: a newline, any blanks and one last byte of 128 or more at the end of a tree text."""
    return re.search(rb'\n[ \n]*[\x80-\xff]\Z', text) is not None


class Judge:
    """Counts, and keeps the first differences."""
    def __init__(self, product=None, walker=None, oracle=True):
        self.counts, self.shown, self.bad = collections.Counter(), [], 0
        self.programs = {'dump': product, 'open': product, 'walk': walker or product}
        self.oracle = oracle and subprocess.run([os.path.join(folders.JUDGE, '..', 'oracle', 'build')], stdout=subprocess.PIPE, universal_newlines=True, check=True).stdout.strip()

    def differ(self, what, line, mine, other):
        self.bad += 1
        self.counts['DIFFERENCES'] += 1
        if len(self.shown) < 10:
            self.shown.append('%s\n  input   %s\n  reading %s\n  %s' % (what, line[:1000], mine, other))

    def lines_alike(self, what, line, mine, other):
        if mine == other:
            return True
        for a, b in itertools.zip_longest(mine, other):
            if a != b:
                self.differ(what, line, str(a)[:300], '%-7s %s' % (what, str(b)[:300]))
                return False

    def batch(self, mode, lines):
        mine = [list(reading.answer(mode, l)) for l in lines]
        for m in mine:
            self.counts['inputs'] += 1
            self.counts['%s %s' % tuple(m[0].split(' ')[:2])] += 1
        if self.oracle:
            for line, m, o in zip(lines, mine, run([self.oracle, mode], lines)):
                getattr(self, mode)(line, m, o)
        if self.programs.get(mode):
            for line, m, p in zip(lines, mine, run(self.programs[mode], lines)):
                self.lines_alike('product', line, m, by_model(p)[0] if mode == 'open' else p)

    # ---- one answer of each mode

    def open(self, line, m, o):
        number = m[0].split(' ')[1]
        if number in ('10', '12'):
            self.counts['outside the domain (%s)' % number] += 1
        else:
            self.lines_alike('oracle', line, as_oracle(m), o)

    def tree(self, line, m, o):
        if o[0].startswith('TEXT panic') and m[0].startswith('TEXT 17') and text_ends_badly(bytes.fromhex(line)):
            self.counts['known: last byte of 128 or more'] += 1
        else:
            self.lines_alike('oracle', line, m, o)

    def walk(self, line, m, o):
        self.lines_alike('oracle', line, m, o)

    def dump(self, line, m, o):
        whole = o.pop().split(' ')[1]
        mine, other = by_model(as_oracle(m)), [one_row_a_tree(part) for part in by_model(o)]
        number = m[0].split(' ')[1]
        if number in ('10', '12'):
            self.counts['outside the domain (%s)' % number] += 1
            return
        if not self.lines_alike('oracle', line, mine[0], other[0]):
            return
        clear = number
        wraps = any(END_WRAPS.search(l) for l in mine[0])
        for k, (a, b) in enumerate(zip(mine[1:], other[1:])):
            n = a[1].split(' ')[1]
            self.counts['LOAD ' + n] += 1
            if n == '12':
                self.counts['outside the domain (12 of a model)'] += 1
            elif wraps and n == '16':
                self.counts['outside the domain (a range end of 2^64 - 1)'] += 1
            elif b[1].startswith('LOAD panic nom-8.0.0/src/traits.rs "range start index 2') and n == '17':
                self.counts['known: last byte of 128 or more'] += 1
            else:
                self.lines_alike('oracle', line, a, b)
                continue
            clear = None
        if clear is not None:
            self.whole(line, m, mine, whole)

    def whole(self, line, m, mine, said):
        """The Rust's one call agrees with the first thing wrong, stage by stage."""
        first = m[0].split(' ')[1]
        for k, part in enumerate(mine[1:]):
            n = part[1].split(' ')[1]
            if first == '0' and n != '0' and not (k > 0 and k % 2 == 0 and n == '15' and not self.asks_for_gv(m, k)):
                first = n
        if first == '18':
            return  # a negative state is no fault to the Rust
        expected = {'1': 'nom', '17': 'nom', '19': 'nom', '16': 'panic', '21': 'panic', '22': 'panic', '23': 'panic'}.get(first, first)
        if expected != said and not (3 <= int(first) <= 9 and said in '3456789'):
            self.differ('oracle', line, 'whole ' + expected, 'whole   ' + said)

    def asks_for_gv(self, m, k):
        """Whether USE_GV is 1 for model k's stream, by the printed record."""
        names = re.findall(r'"((?:[^"\\]|\\.)*)"', next(l for l in m if l.startswith('STREAM_TYPE ')))
        return any(l.startswith('STREAM "%s" ' % names[(k - 1) // 2]) and ' USE_GV=1 ' in l for l in m)

    # ---- many

    def all(self, mode, inputs, size=2000, weight=4 << 20):
        """All inputs, in batches of so many inputs or bytes."""
        batch, heavy, done = [], 0, 0
        for i in inputs:
            batch.append(i)
            heavy += len(i)
            if len(batch) == size or heavy > weight:
                self.batch(mode, batch)
                done += len(batch)
                batch, heavy = [], 0
                far('compare: %s, %d inputs' % (mode, done))
        if batch:
            self.batch(mode, batch)
        far()

    def texts(self, texts):
        """Tree texts; with a product, each as a stream of a whole voice."""
        if self.programs['dump']:
            self.all('dump', (voices.around(t).hex() for t in texts), 20000)
        else:
            self.all('tree', (t.hex() for t in texts), 50000)

    def report(self):
        for key, n in sorted(self.counts.items(), key=lambda kv: [int(x) if x.isdigit() else x for x in re.split(r'(\d+)', kv[0])]):
            print('%9d  %s' % (n, key))
        for s in self.shown:
            print(s)
        return 1 if self.bad else 0


def by_hand(judge):
    inputs = headers.at_limits() + headers.by_hand()
    for key in headers.GLOBAL + headers.STREAM + headers.DURATION + headers.POSITION:
        inputs += [headers.without(key, False), headers.without(key, True)]
    judge.all('open', (b.hex() for b in inputs))
    judge.texts(treetexts.BY_HAND)
    judge.all('dump', (b.hex() for b in voices.by_hand() + [voices.wide(w) for w in (1, 2, 4095, 4096, 4097)]))


def short(judge, length, part):
    """Part 0 are the header values, part k the tree texts at seam k; None is all of them."""
    if part in (None, 0):
        judge.all('open', (b.hex() for b in headers.short_values(length - 2)), 20000)
    for k, (before, alphabet, after) in enumerate(treetexts.SEAMS, 1):
        if part in (None, k):
            judge.texts((before + t + after for t in treetexts.short_texts(alphabet, length)))


def walks(first, last):
    """Voices that open, and walks over any of their models and trees."""
    for n in range(first, last):
        r = random.Random('walk %d' % n)
        b, which = (voices.walking(n // 8), 0) if n % 4 else (voices.voice(6 * (n // 8) + n % 2), r.randint(0, 4))
        answers = bytes(r.choice((0, 0, 1, 255)) for _ in range(r.choice((0, 3, 4, 6, 6, 6))))
        yield '%s %d %d %s %d' % (b.hex(), which, r.choice((0, 0, 0, 1, 2)), answers.hex() or '-', r.choice((0, 1, 2, 3, 5, 100)))


def main():
    parser = argparse.ArgumentParser(description=__doc__, formatter_class=argparse.RawDescriptionHelpFormatter)
    parser.add_argument('what', choices=['headers', 'trees', 'texts', 'voices', 'trails', 'walks', 'byhand', 'large', 'short', 'utf8', 'files'])
    parser.add_argument('rest', nargs='*', help='FROM TO, a length, or files')
    parser.add_argument('--product', type=str.split)
    parser.add_argument('--walker', type=str.split)
    parser.add_argument('--no-oracle', action='store_true')
    asked = parser.parse_intermixed_args()
    judge, what, rest = Judge(asked.product, asked.walker, not asked.no_oracle), asked.what, asked.rest
    modes = {'headers': ('open', headers.header), 'trees': ('tree', treetexts.tree_text), 'voices': ('dump', voices.voice), 'trails': ('dump', trailing.trailed), 'texts': ('dump', lambda n: voices.around(treetexts.tree_text(n)))}
    if what in modes:
        mode, make = modes[what]
        judge.all(mode, (make(n).hex() for n in range(int(rest[0]), int(rest[1]))))
    elif what == 'walks':
        judge.all('walk', walks(int(rest[0]), int(rest[1])))
    elif what == 'byhand':
        by_hand(judge)
    elif what == 'large':
        for b in [voices.large(seed, lines) for seed, lines in ((1, 10), (2, 300), (3, 2100))] + [voices.padded(reading.FILE_LIMIT + k) for k in (-1, 0, 1)]:
            print(len(b), 'bytes')
            judge.batch('dump', [b.hex()])
    elif what == 'short':
        short(judge, int(rest[0]) if rest else 6, int(rest[1]) if rest[1:] else None)
    elif what == 'utf8':
        for n in range(1, 5):
            judge.all('open', (b.hex() for b in headers.utf8(n)), 20000)
    elif what == 'files':
        for path in rest:
            with open(path, 'rb') as f:
                judge.batch('dump', [f.read().hex()])
    sys.exit(judge.report())


if __name__ == '__main__':
    main()
