#!/usr/bin/env python3
"""Do the stored answers notice?  Each mutant is the second reading with one small thing wrong; some stored case must then come out otherwise.

  mutants.py     names of the mutants, and how many stored cases notice each; the exit status is 1 if one goes unnoticed"""
import os
import sys
import types

sys.path.insert(0, os.path.join(os.path.dirname(os.path.abspath(__file__)), '..'))
import folders  # noqa: E402
import house  # noqa: E402
import reading  # noqa: E402
import store  # noqa: E402
import writing  # noqa: E402

# list, what is wrong, the words of reading.py replaced, and by what
MUTANTS = [
    ('trees', 'tab is blank', r"BLANKS = re.compile(rb'[ \n]*')", r"BLANKS = re.compile(rb'[ \t\n]*')"),
    ('trees', 'yes before no', 'return ident, name, no, self.reference()', 'return ident, name, self.reference(), no'),
    ('trees', '12_1 is PDF 1', "            self.i = m.end()\n        return n", "            self.i = m.end()\n            if WORD.match(self.s, self.i).end() > self.i:\n                self.i = m.start()\n                return None\n        return n"),
    ('trees', 'a trailing comma is taken', '            patterns.append(self.pattern())', "            if self.at(b'}'):\n                break\n            patterns.append(self.pattern())"),
    ('trees', 'no newline needed between lines', r"LINE_PARTING = re.compile(rb'[ \t]*\n", r"LINE_PARTING = re.compile(rb'[ \t]*\n?"),
    ('trees', 'no newline needed between trees', r"PARTING = re.compile(rb'[ \t]*\n[ \n]*')", r"PARTING = re.compile(rb'[ \t]*\n?[ \n]*')"),
    ('trees', 'no tab in partings', r"PARTING = re.compile(rb'[ \t]*\n[ \n]*')", r"PARTING = re.compile(rb'[ ]*\n[ \n]*')"),
    ('trees', 'tab after the newline between trees', r"PARTING = re.compile(rb'[ \t]*\n[ \n]*')", r"PARTING = re.compile(rb'[ \t]*\n[ \t\n]*')"),
    ('trees', 'a name ends at {', r"NAME = re.compile(rb'[\x00-\x09\x0b-\x1f\x21-\x7f]*')", r"NAME = re.compile(rb'[\x00-\x09\x0b-\x1f\x21-\x7a\x7c-\x7f]*')"),
    ('trees', 'a name has bytes of 128 and more', r"NAME = re.compile(rb'[\x00-\x09\x0b-\x1f\x21-\x7f]*')", r"NAME = re.compile(rb'[\x00-\x09\x0b-\x1f\x21-\xff]*')"),
    ('trees', '2^63 fits', '-2 ** 63 <= n < 2 ** 63', '-2 ** 63 <= n <= 2 ** 63'),
    ('trees', '-2^63 doesn\'t', '-2 ** 63 <= n < 2 ** 63', '-2 ** 63 < n < 2 ** 63'),
    ('trees', 'a PDF of letters alone', "        if n is None:\n            raise Refused(17)\n        return 'P', n", "        return 'P', n or 0"),
    ('trees', 'a text breaks where its range begins', "        raise Refused(17, at)\n", "        raise Refused(17, 0)\n"),
    ('trees', 'a tab is skipped before other text', "    if not parting or parting.end() == len(c.s):\n", "    while c.i < len(c.s) and c.s[c.i] in b' \\t\\n':\n        c.i += 1\n    if not parting or parting.end() == len(c.s):\n"),
    ('trees', '18 before 17', "        state = self.whole_number()\n", "        state = self.whole_number()\n        if state < 0:\n            raise Refused(18)\n"),
    ('trees', '-0 is negative', "    if any(state < 0 for _, state, _, _ in trees):", "    if any(state < 0 or s[star + 3:].lstrip(b' \\n').startswith(b'[-') for star, state, _, _ in trees):"),
    ('trees', 'no quotes about references', "        if not self.at(b'\"'):\n            return self.bare_reference()", "        return self.bare_reference()"),
    ('trees', 'blanks before the first question', "    c = Cursor(s, i)\n", "    c = Cursor(s, i)\n    c.blanks()\n"),
    ('trees', 'braces need a line', "        if not self.at(b'}'):\n            ls", "        if True:\n            ls"),
    ('trees', '; in patterns', r"PATTERN = re.compile(rb'[A-Z", r"PATTERN = re.compile(rb'[;<.$A-Z"),
    ('headers', 'a leading comma is kept', '        if s[i] == 44:\n            i += 1\n        while True:', '        while True:'),
    ('headers', 'A, is refused', '            i += 1\n    return read', '            i += 1\n            if ends(s, i, D):\n                raise Refused(6, i)\n    return read'),
    ('headers', 'a leading - is not swallowed', '    if s[i] == 45:\n        i += 1\n    a, i', '    a, i'),
    ('headers', 'a repeat is taken', '        if key in said:\n            raise Refused(9)\n', ''),
    ('headers', 'a repeat in a group is taken', '            if field in said:\n                raise Refused(9)\n', ''),
    ('headers', 'a repeat is refused after its colon', "        if key in said:\n            raise Refused(9)\n        if i == len(s):\n            raise Refused(3, len(s))\n        if s[i] != 58:\n            raise Refused(7, i)\n",
     "        if i == len(s):\n            raise Refused(3, len(s))\n        if s[i] != 58:\n            raise Refused(7, i)\n        if key in said:\n            raise Refused(9)\n"),
    ('headers', 'the first ] ends a name', '            name = key[first + 1:-1]', "            name = key[first + 1:key.index(b']', first)]"),
    ('headers', 'the last [ begins a name', "        first = key.find(b'[')", "        first = key.rfind(b'[')"),
    ('headers', 'an empty GV_PDF is refused', "return (None, i) if ends(s, i, b'\\n') else pair(s, i, D)", "return pair(s, i, D)"),
    ('headers', 'a place one off', 'raise Refused(5, i)', 'raise Refused(5, i + 1)'),
    ('headers', '3 where the quote opens', "        if j < 0:\n            raise Refused(3, len(s))", "        if j < 0:\n            raise Refused(3, i)"),
    ('headers', '2^64 is taken', '>= 2 ** 64', '> 2 ** 64'),
    ('headers', '10 after the last digit', 'raise Refused(10, i)', 'raise Refused(10, j)'),
    ('headers', 'quotes in unknown values', "            start, i = i + 1, run_to(s, i + 1, b'\\n')", "            start, i = i + 1, text(s, i + 1, b'\\n')[1]"),
    ('headers', 'missing fields last', "            required(fields, said)\n            return said, others", "            return said, others"),
    ('headers', '2 after reading order', "        check_utf8(file, *g)\n        self.g, _ = lines(file[:g[1]], g[0], GLOBAL)\n", "        self.g, _ = lines(file[:g[1]], g[0], GLOBAL)\n        check_utf8(file, *g)\n"),
    ('headers', 'no blank lines', "        while s[i:i + 1] == b'\\n':\n            i += 1\n        if i == len(s):\n            required", "        if s[i:i + 1] == b'\\n':\n            i += 1\n        if i == len(s):\n            required"),
    ('headers', 'surrogates are UTF-8', '((0xED, 0xED), (0x80, 0x9F), TAIL)', '((0xED, 0xED), TAIL, TAIL)'),
    ('headers', 'overlong is UTF-8', '((0xE0, 0xE0), (0xA0, 0xBF), TAIL)', '((0xE0, 0xE0), TAIL, TAIL)'),
    ('headers', 'nine names', 'NAMES, WINDOWS, OPTIONS, CONTEXTS, WIDTH_LIMIT = 16777216, 8, 8,', 'NAMES, WINDOWS, OPTIONS, CONTEXTS, WIDTH_LIMIT = 16777216, 9, 8,'),
    ('headers', 'nine windows', 'NAMES, WINDOWS, OPTIONS, CONTEXTS, WIDTH_LIMIT = 16777216, 8, 8,', 'NAMES, WINDOWS, OPTIONS, CONTEXTS, WIDTH_LIMIT = 16777216, 8, 9,'),
    ('headers', 'seventeen options', '8, 8, 16, 32, 4096', '8, 8, 17, 32, 4096'),
    ('headers', '33 contexts', '8, 8, 16, 32, 4096', '8, 8, 16, 33, 4096'),
    ('headers', 'only eight groups are read', '    for span, rows in groups.values():', '    for span, rows in list(groups.values())[:9]:'),
    ('headers', 'a group value goes on past its newline', 'fields[field][0](s[:b], a, b\'\')', 'fields[field][0](s, a, b\'\\n\')'),
    ('headers', 'sections part at any [', "        end = file.find(b'\\n[', start)", "        end = file.find(b'\\n[', start - 1)"),
    ('voices', 'first of two ids', 'last = {ident: k for k, (ident, _, _, _) in enumerate(ls)}', 'last = {ident: k for k, (ident, _, _, _) in reversed(list(enumerate(ls)))}'),
    ('voices', 'first of two question names', '            rows_by_name[s[a:b]] = i', '            rows_by_name.setdefault(s[a:b], i)'),
    ('voices', 'leaves as they stand', 'leaves = sorted(n for', 'leaves = list(n for'),
    ('voices', 'repeats dropped', 'leaves = sorted(n for _, _, no, yes in ls for kind, n in (no, yes) if kind == \'P\')', 'leaves = sorted({n for _, _, no, yes in ls for kind, n in (no, yes) if kind == \'P\'})'),
    ('voices', 'the last of equal leaves', '        first.setdefault(n, len(ls) + k)', '        first[n] = len(ls) + k'),
    ('voices', 'i pairs with i + 1', 'values.append(widen(numbers[i + half]))', 'values.append(widen(numbers[i + 1]))'),
    ('voices', 'no before yes in a record', 'for kind, n in (yes, no):', 'for kind, n in (no, yes):'),
    ('voices', 'question before references', '        goes = []\n', '        if s[a:b] not in rows_by_name:\n            raise Refused(22, t, k)\n        goes = []\n'),
    ('voices', 'linking before blocks', '        blocks, self.values = block(data, start, end, len(trees), self.width)\n', '        for t, tree in enumerate(trees):\n            link(tree, t, {s[a:b]: i for i, ((a, b), _) in enumerate(qs)}, s)\n        blocks, self.values = block(data, start, end, len(trees), self.width)\n'),
    ('voices', 'width 0 with entries', ' or width == 0 and entries > 0', ''),
    ('voices', 'a rest in the block', 'if size != 4 *', 'if size < 4 *'),
    ('voices', 'an empty range is refused', 'if r[0] > r[1] + 1 or', 'if r[0] > r[1] or'),
    ('voices', 'a range one past the data', 'r[1] + 1 > length', 'r[1] > length'),
    ('voices', '14 before 13', "    p = group_named(file, h.positions, file[a:b], 13)\n    s = group_named(file, h.streams, file[a:b], 14)\n", "    s = group_named(file, h.streams, file[a:b], 14)\n    p = group_named(file, h.positions, file[a:b], 13)\n"),
    ('voices', 'GV without USE_GV', "if not s.get(b'USE_GV') or", 'if'),
    ('voices', 'width 4,097', '16, 32, 4096', '16, 32, 4097'),
    ('voices', 'the question of a bare leaf is looked up', "        return [1, one[1], 0, 0]\n", "        if tree[3] and s[tree[3][0][1][0]:tree[3][0][1][1]] not in rows_by_name:\n            raise Refused(22, t, 0)\n        return [1, one[1], 0, 0]\n"),
    ('voices', 'a bare leaf has its line', '0 if single(tree) else len(tree[3])', 'len(tree[3])'),
    ('voices', 'subnormals one off', 'up = 24 - fraction.bit_length()', 'up = 23 - fraction.bit_length()'),
    ('voices', 'NaNs not made quiet', '(1 << 51 if fraction else 0)', '0'),
    ('voices', 'a leaf one past its entries', 'not 1 <= number <= entries', 'not 1 <= number <= entries + 1'),
    ('voices', 'a leaf numbered zero', 'not 1 <= number <= entries', 'not 0 <= number <= entries'),
    ('voices', 'entries before the first value', 'len(tree[3]), *blocks[t]', 'len(tree[3]), *reversed(blocks[t])'),
    ('voices', 'the first block for every tree', 'len(tree[3]), *blocks[t]', 'len(tree[3]), *blocks[0]'),
    ('voices', 'values counted in entries', '        first += c * width', '        first += c'),
    ('walks', 'yes and no swapped', 'k = yes if answers[number] else no', 'k = no if answers[number] else yes'),
    ('walks', 'only 1 is yes', 'k = yes if answers[number] else no', 'k = yes if answers[number] == 1 else no'),
    ('walks', 'the limit one off', 'if asked == limit or k in seen:', 'if asked == limit + 1 or k in seen:'),
    ('walks', '25 before 24', "        if kind != 0 or number >= len(answers):\n            raise Refused(24)\n", "        if asked == limit:\n            raise Refused(25)\n        if kind != 0 or number >= len(answers):\n            raise Refused(24)\n"),
    ('walks', 'one question too many', '            return number, asked\n', '            return number, asked + 1\n'),
]


# the same of writing.py, the second reading of the writer
WRITING = [
    ('yes before no', 'reference(no), reference(yes))', 'reference(yes), reference(no))'),
    ('ids 0, 1, 2', "        text += b'%d %s %s %s\\n' % (-k,", "        text += b'%d %s %s %s\\n' % (k,"),
    ('-0', "return b'%d' % -k if k < lines", "return b'-%d' % k if k < lines"),
    ('a bare leaf in braces', '    if lines == 0 and count > 0:', '    if lines == 0 and count > 1:'),
    ('no newline behind the brace', "    text = b'{*} [%d] {\\n' % state", "    text = b'{*} [%d] { ' % state"),
    ('a comma with a space before it', "b', '.join(b'\"%s\"'", "b' , '.join(b'\"%s\"'"),
    ('every rows are read back to', '        if read_back(text) == said(data, questions, patterns, trees, records):', '        if read_back(text):'),
    ('nothing is read back', '        if read_back(text) == said(data, questions, patterns, trees, records):', '        if False:'),
    ('strings that stand elsewhere are others', "    return [(data[a:a + n], f, m) for a, n, f, m in questions], strings", "    return [(a, n, f, m) for a, n, f, m in questions], strings"),
    ('22 before 24', "    if points_outside(data, questions, patterns, trees, records):\n        return 24, b''\n    if has_odd_byte(data, questions, patterns):\n        return 22, b''\n",
     "    if has_odd_byte(data, questions, patterns):\n        return 22, b''\n    if points_outside(data, questions, patterns, trees, records):\n        return 24, b''\n"),
    ('no 22', "    if has_odd_byte(data, questions, patterns):\n        return 22, b''\n", ''),
    ('a quote in a name is odd', "b > 127 or b in b' \\n'", "b > 127 or b in b' \\n\"'"),
    ('an empty range stands nowhere', '    return count == 0 or first + count <= rows', '    return first + count <= rows'),
    ('an end that wraps', '    return count == 0 or first + count <= rows', '    return count == 0 or (first + count) % 2 ** 64 <= rows'),
    ('records of no tree are not judged', '    if any(kind == 0 and question >= len(questions) for kind, question, _, _ in records):\n        return True\n', ''),
    ('where no goes is not judged', 'max(first + yes, first + no)', 'first + yes'),
    ('yes and no count from the table', 'max(first + yes, first + no)', 'max(yes, no)'),
]


# the same of house.py, the second reading of the house's rules
HOUSE = [
    ('stops at the first broken rule', "            broken.append((rule_of(reading.Model(file, h, which)), which))\n", "            broken.append((rule_of(reading.Model(file, h, which)), which))\n            if broken[-1][0]:\n                break\n"),
    ('30 and 31 last', "        told = [(rule_of_streams(file, h), 0)] + broken\n", "        told = broken + [(rule_of_streams(file, h), 0)]\n"),
    ('30 and 31 before every load', "        broken = []\n", "        broken = []\n        if rule_of_streams(file, h):\n            return [rule_of_streams(file, h), 0, 0, 0]\n"),
    ('31 before 30', "    if h.g[b'NUM_STREAMS'] != len(names):\n        return 30\n    return 31 if len(set(names)) < len(names) else 0\n", "    if len(set(names)) < len(names):\n        return 31\n    return 30 if h.g[b'NUM_STREAMS'] != len(names) else 0\n"),
    ('the last model that breaks a rule', "        told = [(rule_of_streams(file, h), 0)] + broken\n", "        told = [(rule_of_streams(file, h), 0)] + broken[::-1]\n"),
    ('ids as a set', "all(line[0] == -k for k, line in enumerate(lines))", "{line[0] for line in lines} == {-k for k in range(len(lines))}"),
    ('ids of bare leaves pass', "    return lone is not None or all(", "    return reading.single(tree) is not None or all("),
    ('ids 0, 1, 2', "line[0] == -k for", "line[0] == k for"),
    ('names that are asked alone', "    if len(set(names)) < len(names):\n        return 33\n", "    asked = [names[q] for q in sorted(set(m.records[4 * k + 1] for k in range(len(m.records) // 4) if m.records[4 * k] == 0))]\n    if any(names.count(x) > 1 for x in asked):\n        return 33\n"),
    ('a leaf of 0 passes', "all(1 <= n <= count for", "all(0 <= n <= count for"),
    ('a leaf one past its entries', "all(1 <= n <= count for", "all(1 <= n <= count + 1 for"),
    ('the entries of all trees', "    entries = m.trees[5::6]\n", "    entries = [sum(m.trees[5::6])] * len(trees)\n"),
    ('a variance of 0 passes', "variance > 0 for", "variance >= 0 for"),
    ('a negative variance passes', "variance > 0 for", "variance != 0 for"),
    ('a variance that is infinite passes', "math.isfinite(variance) and variance > 0", "variance > 0"),
    ('a NaN passes', "math.isfinite(mean) for", "not math.isinf(mean) for"),
    ('the second half of an entry is the variances', "number_of(m.values[entry + 2 * k]), number_of(m.values[entry + 2 * k + 1])", "number_of(m.values[entry + k]), number_of(m.values[entry + m.width // 2 + k])"),
    ('msd is judged', "        for k in range(m.width // 2):\n            yield", "        if m.width % 2:\n            yield number_of(m.values[entry + m.width - 1]), 1.0\n        for k in range(m.width // 2):\n            yield"),
    ('the first entry alone', "range(0, len(m.values), m.width or 1)", "range(0, min(m.width, len(m.values)), m.width or 1)"),
    ('means and variances entry by entry', "    if not all(math.isfinite(mean) for mean, _ in pairs(m)):\n        return 35\n", "    for mean, variance in pairs(m):\n        if not math.isfinite(mean):\n            return 35\n        if not (math.isfinite(variance) and variance > 0):\n            return 36\n"),
    ('a GV whatever USE_GV says', "in trailing.models(file, h):\n            self.unload(side)", "in range(2 * len(h.g[b'STREAM_TYPE']) + 1):\n            self.unload(side)"),
    ('no GV', "in trailing.models(file, h):\n            self.unload(side)", "in [w for w in trailing.models(file, h) if w % 2 or w == 0]:\n            self.unload(side)"),
    ('the rows of the model before stay', "            self.unload(side)\n", "            self.held[side] = list(sharing.NOBODY)\n"),
    ('the last model is unloaded', "        told = [(rule_of_streams(file, h), 0)] + broken\n", "        self.unload(side)\n        told = [(rule_of_streams(file, h), 0)] + broken\n"),
    ('opening before 29', "        if any(self.held[side]):\n            return [29, 0, 0, 0]\n", "        try:\n            reading.Header(file)\n        except reading.Refused as r:\n            return [r.number, r.place, 0, 0]\n        if any(self.held[side]):\n            return [29, 0, 0, 0]\n"),
    ('24 before 29', "        if any(self.held[side]):\n            return [29, 0, 0, 0]\n        if not self.stand(side):\n            return [24, 0, 0, 0]\n", "        if not self.stand(side):\n            return [24, 0, 0, 0]\n        if any(self.held[side]):\n            return [29, 0, 0, 0]\n"),
    ('no model in the answer', "return next(([rule, 0, 0, which] for", "return next(([rule, 0, 0, 0] for"),
]


def mutant(old, new, of=reading):
    with open(of.__file__) as f:
        source = f.read()
    if old not in source:
        sys.exit('mutants: these words are not in %s: %s' % (os.path.basename(of.__file__), old))
    module = types.ModuleType('mutant')
    module.__file__ = of.__file__
    exec(compile(source.replace(old, new), 'mutant', 'exec'), module.__dict__)
    return module


def cases(kind):
    """The stored cases of a list: input, expected numbers."""
    for name in sorted(os.listdir(store.STORED)):
        if name.startswith(kind + '-'):
            with open(os.path.join(store.STORED, name)) as f:
                for line in f:
                    b, rest = line.rstrip('\n').split(' ', 1)
                    yield bytes.fromhex(b), [int(n) for n in rest.split(' ')]


def walked(b, numbers):
    """The numbers of a stored line of walks, each walk walked again."""
    it = iter(numbers)
    which, count = next(it), next(it)
    out = [which, count]
    m = store.reading.Model(b, store.reading.Header(b), which)
    for _ in range(count):
        tree, limit, n = next(it), next(it), next(it)
        answers = [next(it) for _ in range(n)]
        next(it), next(it), next(it)
        said = store.reading.outcome(store.reading.walk, m.trees, m.records, tree, answers, limit).split(' ')
        out += [tree, limit, n] + answers + ([int(said[1]), 0, 0] if said[0] == 'REFUSED' else [0, int(said[1]), int(said[3])])
    return out


def answer(kind, b, numbers):
    """What store.reading, the reading or a mutant, says."""
    if kind == 'walks':
        return walked(b, numbers)
    return {'headers': store.header_numbers, 'trees': store.tree_numbers, 'voices': store.voice_numbers}[kind](b)


def noticed(kind, old, new, most=None):
    """How many stored cases notice (at most `most` are looked for)."""
    store.reading, count = mutant(old, new), 0
    try:
        for b, numbers in cases(kind):
            try:
                count += answer(kind, b, numbers) != numbers
            except Exception:  # a mutant may fall over: that is noticed too
                count += 1
            if count == most:
                break
    finally:
        store.reading = reading
    return count


def noticed_writing(old, new, most=None):
    """The same for the stored cases of the writer, without the models that they were made of."""
    module, count = mutant(old, new, writing), 0
    with open(writing.STORED) as f:
        for line in f:
            try:
                count += module.line(writing.stored_case(line)) != line.rstrip('\n')
            except Exception:
                count += 1
            if count == most:
                break
    return count


def noticed_house(old, new, most=None):
    """The same for the stored cases of the house."""
    module, count = mutant(old, new, house), 0
    with open(house.STORED) as f:
        for line in f:
            try:
                count += module.read(line).line() != line
            except Exception:
                count += 1
            if count == most:
                break
    return count


def main():
    unnoticed = 0
    for name, old, new in HOUSE:
        n = noticed_house(old, new)
        unnoticed += n == 0
        print('%6d  house: %s' % (n, name))
    for name, old, new in WRITING:
        n = noticed_writing(old, new)
        unnoticed += n == 0
        print('%6d  writes: %s' % (n, name))
    for kind, name, old, new in MUTANTS:
        n = noticed(kind, old, new)
        unnoticed += n == 0
        print('%6d  %s: %s' % (n, kind, name))
    return unnoticed > 0


if __name__ == '__main__':
    sys.exit(main())
