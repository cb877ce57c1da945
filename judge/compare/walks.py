#!/usr/bin/env python3
"""walks.py FILE.. [--walks N] [--seed S] [--product 'COMMAND'] [--no-oracle]: N random walks (1,000) over the models of each voice.

Each is walked through the text as it is written (reading.WrittenTree: first line, last QS line of the name, last line that bears the id; no table and no
linking), through the second reading's tables, through the product's (COMMAND FILE, such as `./larsavim walks`, has every line of a file in one run, the models
in turn) and, where cargo is at hand, by the Rust. Every line of the answers is compared. Prints figures, and up to ten differences; the exit status is 1 if
there is any.

Half of the walks have answers at random, half are led to a line of the tree drawn at random. The limit is 0, small, one below, at or one above the number of
questions that the walk asks, or 2^64 - 1. Some have too few answers, some name a tree or a model that isn't there."""
import argparse
import collections
import itertools
import os
import random
import shutil
import subprocess
import sys

sys.path.insert(0, os.path.join(os.path.dirname(os.path.abspath(__file__)), '..'))
import folders  # noqa: E402
import reading  # noqa: E402

NO_LIMIT = 2 ** 64 - 1
ROUND = 1000  # the Rust has no end in a tree that goes round: above this limit it isn't asked


def opened(b):
    """The header, or the refusal of the opening."""
    try:
        return reading.Header(b)
    except reading.Refused as r:
        return r


class Written:
    """A model's trees as they are written, and the second reading's tables; or the refusal of its opening or load."""
    def __init__(self, b, h, which):
        self.refusal, self.trees = None, []
        try:
            if isinstance(h, reading.Refused):
                raise h
            self.tables = reading.Model(b, h, which)
            (start, end), _, _ = reading.which_model(b, h, which)
            text = b[h.data[0]:h.data[0] + end + 1]
            self.questions, trees = reading.tree_text(text, start)
            self.trees = [reading.WrittenTree(text, self.questions, t) for t in trees]
            self.ways = [ways(t) for t in self.trees]
            self.weights = [20 + len(t.lines) for t in self.trees]  # large trees are drawn more often
        except reading.Refused as r:
            self.refusal = 'REFUSED %d' % r.number

    def by_text(self, tree, answers, limit):
        if self.refusal:
            return self.refusal
        return reading.outcome(self.trees[tree].walk, answers, limit) if tree < len(self.trees) else 'REFUSED 24'

    def by_tables(self, tree, answers, limit):
        return self.refusal or reading.outcome(reading.walk, self.tables.trees, self.tables.records, tree, answers, limit)


def ways(tree):
    """For each line that a line refers to: a question and its answer that lead there, and the line that asks."""
    before = {}
    for k, (name, no, yes) in enumerate([] if tree.one else tree.lines):
        for answer, (kind, n) in enumerate((no, yes)):
            if kind == 'N':
                before.setdefault(tree.line[n], (tree.question[name], answer, k))
    return before


def lead_to(line, before, answers):
    """Changes answers so that a walk comes to a line, unless one question stands twice on the way."""
    for _ in range(len(before)):
        if line == 0 or line not in before:
            return
        question, answer, line = before[line]
        answers[question] = answer


def drawn_answers(r, model, tree):
    p = r.random()
    answers = bytearray(r.random() < p for _ in model.questions)
    if tree < len(model.trees) and model.ways[tree] and r.random() < .5:
        lead_to(r.choice(list(model.ways[tree])), model.ways[tree], answers)
    if r.random() < .03:
        return bytes(answers[:r.randint(0, len(answers))])
    return bytes(answers) + bytes(r.choice((0, 0, 0, 3)))


def drawn_limit(r, unlimited):
    """A limit, by how the walk without one ends."""
    near = [int(unlimited.split(' ')[3]) + k for k in (-1, 0, 1)] if unlimited.startswith('PDF') else []
    return r.choice([n for n in near if n >= 0] * 2 + [0, r.randint(1, 20), r.randint(1, ROUND), NO_LIMIT, NO_LIMIT])


def draw(r, models):
    """Model, tree, answers, limit, and whether the Rust can be asked."""
    good = [which for which, m in enumerate(models) if not m.refusal]
    which = r.choice(good) if good and r.random() < .98 else r.randrange(len(models))
    model = models[which]
    if model.refusal:
        return which, r.randint(0, 3), b'\1', r.choice((0, 9, NO_LIMIT)), True
    tree = r.choices(range(len(model.trees)), model.weights)[0] if r.random() < .98 else len(model.trees) + r.randint(0, 2)
    answers = drawn_answers(r, model, tree)
    unlimited = model.by_text(tree, answers, NO_LIMIT)
    limit = drawn_limit(r, unlimited)
    return which, tree, answers, limit, unlimited != 'REFUSED 25' or limit <= ROUND


class Walks:
    """The walks of one voice: as drawn, and as the text has them."""
    def __init__(self, path, count, seed):
        with open(path, 'rb') as f:
            b = f.read()
        self.path, h = path, opened(b)
        models = 1 if isinstance(h, reading.Refused) else 2 * len(h.g[b'STREAM_TYPE']) + 1
        self.models = [Written(b, h, which) for which in range(models + 2)]  # two more than there are
        r = random.Random('walks %s' % seed)
        self.drawn = [draw(r, self.models) for _ in range(count)]
        for t in (t for m in self.models for t in m.trees):
            t.met.clear()  # of walks that were only drawn
        self.expected = [self.models[which].by_text(tree, answers, limit) for which, tree, answers, limit, _ in self.drawn]

    def lines(self, shown):
        """The lines that ask for the walks; answers as a product or as the oracle takes them."""
        return ['%d %d %s %d' % (which, tree, shown(answers) or '-', limit) for which, tree, answers, limit, _ in self.drawn]

    def by_product(self, command):
        done = subprocess.run([*command, self.path], input='\n'.join(self.lines(lambda a: ''.join(map(str, a)))) + '\n', stdout=subprocess.PIPE, universal_newlines=True)
        refused = any(e.startswith('REFUSED') for e in self.expected)
        return done.stdout.splitlines() + ['exit status %d' % done.returncode], self.expected + ['exit status %d' % refused]

    def by_oracle(self, oracle):
        """The oracle loads a model anew for each line that names another than the one before: it is given one model after the other."""
        order = sorted((k for k, d in enumerate(self.drawn) if d[4]), key=lambda k: self.drawn[k][0])
        lines = self.lines(bytes.hex)
        done = subprocess.run([oracle, 'walks', self.path], input=''.join(lines[k] + '\n' for k in order), stdout=subprocess.PIPE, universal_newlines=True)
        return done.stdout.splitlines(), [self.expected[k] for k in order]

    def by_tables(self):
        return [self.models[which].by_tables(tree, answers, limit) for which, tree, answers, limit, _ in self.drawn], self.expected


def compare(name, said, expected, counts):
    """Counts what differs, and shows the first of it."""
    counts[name] += len(expected)
    for k, (got, want) in enumerate(itertools.zip_longest(said, expected)):
        if got != want:
            counts['DIFFERENCES'] += 1
            if counts['DIFFERENCES'] <= 10:
                print('answer %d: %s says %s, the text %s' % (k + 1, name, got, want))


def figures(w, counts):
    for e in w.expected:
        counts[e.split(' ')[0] if e.startswith('PDF') else e] += 1
    counts['questions asked by them'] += sum(int(e.split(' ')[3]) for e in w.expected if e.startswith('PDF'))
    trees = [t for m in w.models for t in m.trees if not t.one]
    counts['lines of trees'] += sum(len(t.lines) for t in trees)
    counts['of them on walks to a PDF'] += sum(len(t.met) for t in trees)


def arguments():
    a = argparse.ArgumentParser(description=__doc__, formatter_class=argparse.RawDescriptionHelpFormatter)
    a.add_argument('files', nargs='+', metavar='FILE')
    a.add_argument('--walks', type=int, default=1000, metavar='N')
    a.add_argument('--seed', default='0', metavar='S')
    a.add_argument('--product', type=str.split, metavar='COMMAND')
    a.add_argument('--no-oracle', action='store_true')
    return a.parse_args()


def main():
    args, counts = arguments(), collections.Counter()
    oracle = None
    if not args.no_oracle and shutil.which('cargo'):
        oracle = subprocess.run([os.path.join(folders.JUDGE, '..', 'oracle', 'build')], stdout=subprocess.PIPE, universal_newlines=True, check=True).stdout.strip()
    elif not args.no_oracle:
        print('judge/compare/walks.py: cargo is not at hand, so the Rust is left out')
    for path in args.files:
        w = Walks(path, args.walks, args.seed)
        compare("walks by the second reading's tables", *w.by_tables(), counts)
        if args.product:
            compare('answers of the product, its exit status among them', *w.by_product(args.product), counts)
        if oracle:
            compare('walks by the Rust', *w.by_oracle(oracle), counts)
        figures(w, counts)
    for what, n in counts.items():
        print('%9d  %s' % (n, what))
    sys.exit(1 if counts['DIFFERENCES'] else 0)


if __name__ == '__main__':
    main()
