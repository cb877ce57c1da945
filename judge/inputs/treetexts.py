"""Tree texts. `tree_text(n)` is always the same for the same n: ordinary, odd (blanks, partings and tabs wherever they may stand), faulty, damaged.
`Writer` writes texts for whole voices too."""
import itertools
import random

from damage import damaged

PATTERN_BYTES = 'abcxyzAZ019*?!#%&+-/:=@^_|'
NAMES = ['A', 'B', 'C', 'Q1', 'C-Voiced', 'x"y', '{', '}', 'a\tb', 'QS', '-1', '"', 'a{b}', '\x00', '\x7f', '[2]', '{*}', ',', 'Utt_Len<=10']
IDS = ['0', '-1', '-2', '1', '2', '7', '-0', '00', '007', '9223372036854775807', '-9223372036854775808', '-7']
BAD_IDS = ['9223372036854775808', '-9223372036854775809', '--1', '-', '+1', 'x', '"0"', '1x', '0.5', '99999999999999999999']
PDFS = ['p_1', 'p_2', 'p_3', 'dur_s2_1', 'a1', 'b1', '99999999999999999999_1', '_0', '_9223372036854775807', 'x007', '9223372036854775808_2', 'A9']
BAD_REFS = ['abc', '12a', '12_1', '_', 'a_', '_9223372036854775808', '99999999999999999999', '-99999999999999999999', '"p_1', 'p_1"', '""', '"12a"', '" 1"', '"1 "', 'p-1', '', '-', '1-', 'p_1x', '\xc3\xa9', '"-', '12"', '""1""']


class Writer:
    """odd: how often freedom is used; faulty: how often a rule is broken."""
    def __init__(self, r, odd, faulty):
        self.r, self.odd, self.faulty = r, odd, faulty

    def chance(self, p):
        return self.r.random() < p

    def blanks(self, usual=''):
        """Any blanks, or none."""
        if self.chance(self.faulty * .3):
            return self.r.choice(('\t', ' \t', '\t\n', '\r', '\x0b', ','))
        return self.r.choice(('', '', ' ', '\n', '  ', ' \n ')) if self.chance(self.odd) else usual

    def blanks1(self):
        if self.chance(self.faulty * .3):
            return self.r.choice(('', '\t', ' \t', '\t '))
        return self.r.choice((' ', '\n', '  ', '\n ', ' \n\n')) if self.chance(self.odd) else ' '

    def parting(self, line=False):
        """What parts two questions, trees or lines."""
        if self.chance(self.faulty * .4):
            return self.r.choice(('', ' ', '\t', '\n\t' if not line else ' ', '\n \n\t', '\n\n\t', '\r\n', ','))
        if not self.chance(self.odd):
            return '\n'
        return self.r.choice(('', ' ', '\t', ' \t ')) + '\n' + (self.r.choice(('', '\t', ' \t')) if line else '') + self.r.choice(('', '', ' ', '\n', ' \n\n '))

    def pattern(self):
        r = self.r
        if self.chance(self.faulty):
            return r.choice(('', '""', '"a', 'a"', 'a b', 'a,', ',a', '"a b"', 'a\tb', '<', 'a.b', '"a.b"', '\xc3\xa9', '"a" ', '(', 'a;'))
        p = ''.join(r.choice(PATTERN_BYTES) for _ in range(r.randint(1, 7)))
        return p if self.chance(self.odd * .5) else '"%s"' % p

    def question(self, name):
        r = self.r
        n = 0 if self.chance(self.faulty * .3) else r.choice((1, 1, 2, 3, 5))
        patterns = ''
        for i in range(n):
            patterns += (',' + self.blanks() if i else '') + self.pattern()
        word = r.choice(('QS', 'qs', 'Q', 'QSQS', ' QS')) if self.chance(self.faulty * .3) else 'QS'
        return word + self.blanks1() + name + self.blanks1() + '{' + self.blanks(' ') + patterns + self.blanks(' ') + '}'

    def quotes(self, ref):
        return '"%s"' % ref if self.chance(.3 if self.odd else 1) else ref

    def reference(self, nodes=()):
        if self.chance(self.faulty):
            return self.r.choice(BAD_REFS)
        if nodes and self.chance(.5):
            ref = self.r.choice(nodes)
            return self.quotes(ref) if self.odd else ref
        return self.quotes(self.r.choice(PDFS))

    def line(self, ident, name, no, yes):
        return ident + self.blanks1() + name + self.blanks1() + no + self.blanks1() + yes

    def tree(self, state, body):
        return '{*}' + self.blanks() + '[%s]' % state + self.blanks(' ' if self.chance(.5) else '\n') + body

    def braces(self, lines):
        body = ''
        for i, line in enumerate(lines):
            body += (self.parting(line=True) if i else '') + line
        return '{' + self.blanks('\n') + body + self.blanks('\n') + '}'

    def whole(self, questions, trees):
        """The text: questions and trees, each already written."""
        b = ''
        for i, q in enumerate(questions):
            b += (self.parting() if i else '') + q
        b += self.blanks('\n\n') if questions else self.blanks()
        for i, t in enumerate(trees):
            b += (self.parting() if i else '') + t
        return b + self.blanks('\n')

    def name(self):
        if self.chance(self.faulty * .3):
            return self.r.choice(('', 'a b', '\xc3\xa9', 'a\nb', '\x80'))
        return self.r.choice(NAMES if self.chance(self.odd) else NAMES[:5])

    def random_text(self):
        r = self.r
        names = [self.name() for _ in range(r.choice((0, 0, 1, 2, 3)))]
        trees = []
        for _ in range(0 if self.chance(self.faulty * .2) else r.choice((1, 1, 1, 2, 3))):
            state = r.choice(BAD_IDS) if self.chance(self.faulty) else r.choice(IDS) if self.chance(self.odd * .3) else str(r.randint(0, 6))
            n = r.choice((0, 1, 1, 2, 3, 5))
            ids = [r.choice(BAD_IDS) if self.chance(self.faulty) else r.choice(IDS) if self.chance(self.odd) else str(-k) for k in range(n)]
            rows = [self.line(i, r.choice(names) if names and self.chance(.9) else self.name(), self.reference(ids if self.chance(.95) else IDS), self.reference(ids if self.chance(.95) else IDS)) for i in ids]
            trees.append(self.tree(state, self.braces(rows) if rows or self.chance(.2) else self.reference(IDS[:3] if self.chance(.1) else ())))
        return self.whole([self.question(n) for n in names], trees).encode('latin-1')


def tree_text(n):
    r = random.Random('tree %d' % n)
    kind = n % 6
    if kind == 0:
        return Writer(r, 0, 0).random_text()
    if kind == 1:
        return Writer(r, .7, 0).random_text()
    if kind == 2:
        return Writer(r, .3, .05).random_text()
    if kind == 3:
        return Writer(r, .7, .02).random_text()
    return damaged(r, Writer(r, .5 if kind == 5 else 0, 0).random_text())


# ---- texts by hand: each rule at its edge

BY_HAND = [b'', b' ', b'\n', b'{*}[2]12a', b'{*}[2]99999999999999999999_1', b'{*}[2]-7', b'{*}[2]abc', b'{*}[ 2 ]p_1', b'{*} [2] p_1', b'{*}[-1]p_1', b'{*}[-0]p_1', b'{*}[+1]p_1',
           b'QS A {"x",}\n{*}[2]p_1', b'QS A {"x"}\n{*}[2]p_1', b'QS A {"x"}{*}[2]p_1', b'QS A {}\n{*}[2]p_1', b'QS A { }\n{*}[2]p_1', b'QS A {"x","y"}\n{*}[2]p_1', b'QS A {"x" ,"y"}\n{*}[2]p_1',
           b'QS A {"x", "y" }\n{*}[2]p_1', b'QS A {x}\nQS B {y}\n{*}[2]p_1', b'QS A {x} QS B {y}\n{*}[2]p_1', b'QS A {x}\nQS B {y}', b' QS A {x}\n{*}[2]p_1', b'\nQS A {x}\n{*}[2]p_1', b'QS A{x}\n{*}[2]p_1',
           b'{*}[2]dur_s2_1', b'{*}[2]"dur_s2_1"', b'{*}[2]12_1', b'{*}[2]"12_1"', b'{*}[2]"-7"', b'{*}[2]{}', b'{*}[2]{ }', b'{*}[2]{\n}', b'{*}[2]{\t}', b'{*}[2]\n{\n}\n\n', b'{*}[2]{0 A p_1 p_1}',
           b'{*}[2]{0 A p_1 p_2}', b'{*}[2]{0 A p_1 p_2 }', b'{*}[2]{ 0 A p_1 p_2}', b'{*}[2]{0 A p_1 p_2 -1 A p_1 p_2}', b'{*}[2]{0 A -1 p_2\n-1 A p_1 p_2}', b'{*}[2]{ 0 A -1 p_3\n-1 B p_1 p_3 }',
           b'{*}[2]{0 A -1 p_2 \t\n \t\n -1 A p_1 p_2}', b'{*}[2]{0 A -1 p_2\n\n\t-1 A p_1 p_2}', b'{*}[2]{0 A -1 p_2\n\t\n-1 A p_1 p_2}', b'{*}[2]p_1\n{*}[3]p_1', b'{*}[2]p_1 {*}[3]p_1', b'{*}[2]p_1{*}[3]p_1',
           b'{*}[2]p_1\n\t{*}[3]p_1', b'{*}[2]p_1\t\n{*}[3]p_1', b'{*}[2]p_1\t', b'{*}[2]p_1\t\n', b'{*}[2]p_1 \n', b'{*}[2]p_1\n\xff', b'{*}[2]p_1\n \xff', b'{*}[2]p_1\xff', b'{*}[2]p_1\n\xffx', b'{*}[2]p_1\n\x80',
           b'{*}[9223372036854775807]p_1', b'{*}[9223372036854775808]p_1', b'{*}[-9223372036854775808]p_1', b'{*}[-9223372036854775809]p_1', b'{*}[00000000000000000000000000002]p_1',
           b'{*}[2]9223372036854775807', b'{*}[2]9223372036854775808', b'{*}[2]-9223372036854775808', b'{*}[2]-9223372036854775809', b'{*}[2]a9223372036854775807', b'{*}[2]a9223372036854775808',
           b'{*}[2]9223372036854775808a1', b'{*}[2]9223372036854775807a1', b'{*}[2]a1_', b'{*}[2]a', b'{*}[2]_1', b'{*}[2]a_01', b'{*}[2]"a_01', b'{*}[2]a_01"', b'{*}[2]""', b'{*}[2]', b'{*}', b'{*}[2',
           b'{*}[2]{0 A p_1 p_2\n}', b'{*}[2]{0 A p_1 p_2\t}', b'{*}[2]{0 A p_1 p_2\n\t}', b'{*}[2]{\t0 A p_1 p_2}', b'{*}[2]{0\tA p_1 p_2}', b'{*}[2]{0 A\tp_1 p_2}', b'{*}[2]{0 A p_1\tp_2}',
           b'\t{*}[2]p_1', b'{*}\t[2]p_1', b'{*}[2]\tp_1', b'QS\tA {x}\n{*}[2]p_1', b'QS A\t{x}\n{*}[2]p_1', b'QS A {\tx}\n{*}[2]p_1', b'QS A {x\t}\n{*}[2]p_1', b'QS A {x,\ty}\n{*}[2]p_1',
           b'QS A {x}\t\n{*}[2]p_1', b'QS A {x}\n\t{*}[2]p_1', b'QS A {x}\t\nQS B {y}\n{*}[2]p_1', b'QS A {x}\n\tQS B {y}\n{*}[2]p_1', b'QS A {x}\n{*}[2]{0 A p_1 p_2\n0 A p_3 0}', b'{*}[2]{0 A 0 0}',
           b'{*}[2]{0 A p_1 q_1}', b'{*}[2]{1 A p_1 p_1}', b'{*}[2]{0 A p_1}', b'{*}[2]{0 A}', b'{*}[2]{0}', b'{*}[2]{0 A p_1 p_2 x}', b'{*}[2]{"0" A p_1 p_2}', b'{*}[2]{-0 A p_1 p_2}', b'QS QS {QS}\n{*}[2]p_1',
           b'QS A { x , y }\n{*}[2]p_1', b'QS A {,x}\n{*}[2]p_1', b'QS A {x,,y}\n{*}[2]p_1', b'QS A {x', b'QS A {"x', b'QS A', b'QS ', b'QS', b'Q', b'{*}[2]p_1\nQS A {x}', b'{*}[2]p_1\n\n\n', b'{*}[2]p_1\n x']


def short_texts(alphabet, length):
    """All texts of up to `length` pieces of an alphabet."""
    for n in range(length + 1):
        for w in itertools.product(alphabet, repeat=n):
            yield b''.join(w)


# a beginning and an end around all short texts of pieces: what is read there is decided by the middle
SEAMS = [
    (b'', [b'QS', b' ', b'\n', b'\t', b'A', b'{x}', b'{*}[2]p1'], b''),
    (b'{*}[2]', [b'1', b'a', b'_', b'-', b'"', b' ', b'{', b'}'], b''),
    (b'{*}', [b' ', b'\n', b'\t', b'[', b'2', b'-', b']', b'p1'], b''),
    (b'{*}[2]{', [b'0', b' ', b'\n', b'\t', b'0 A 0 p1', b'}', b'A'], b''),
    (b'QS A {', [b'x', b'"', b',', b' ', b'\n', b'\t', b'}'], b'\n{*}[2]p1'),
    (b'{*}[2]p1', [b' ', b'\n', b'\t', b'{*}[2]p1', b'x', b'\xff'], b''),
    (b'QS A {x}', [b' ', b'\n', b'\t', b'QS B {y}', b'{*}[2]p1', b'x'], b'{*}[3]p2'),
]
