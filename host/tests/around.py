"""What the firm and its voice builders hold in their hands around the library: version, warnings, pictures, sizes, the binding, the self-test, the release.
Each test takes host/test's own module `t`: t.check, t.run, t.file_of, .. What is expected comes from the second reading, as there."""
import hashlib
import json
import os
import pty
import random
import re
import shutil
import subprocess
import sys
import tarfile
import xml.etree.ElementTree

for folder in 'bench', 'tools':
    sys.path.insert(0, os.path.join(os.path.dirname(os.path.abspath(__file__)), '..', '..', folder))
import elf  # noqa: E402
import house  # noqa: E402
import kit  # noqa: E402
import reading  # noqa: E402
import voices  # noqa: E402


def version_of(t):
    return re.search(r'^#define LARSAVIM_VERSION "(.*)"$', t.text_of('host', 'larsavim.h'), re.M)[1]


def versions(t):
    """One version in the header and whatever goes with it."""
    number = version_of(t)
    for word in '--version', 'version':
        t.check(word, t.run(word), (0, 'larsavim %s\n' % number, ''))
    t.check('CHANGELOG.md begins with it', re.search(r'^## (.*)$', t.text_of('CHANGELOG.md'), re.M)[1], number)
    t.check('Cargo.toml has it', re.search(r'^version = "(.*)"$', t.text_of('bindings', 'rust', 'Cargo.toml'), re.M)[1], number)


def model_header(t):
    """tests/model.c: larsavim_model.h at work, as C and as C++."""
    source = os.path.join(t.HERE, 'tests', 'model.c')
    t.compiles('model.c as C++', t.compiler(('g++', 'c++'), 'g++'), '-std=c++11', *t.WARNINGS, '-I', t.HERE, '-fsyntax-only', '-x', 'c++', source)
    done = subprocess.run([*t.linked(source), t.SAMPLE], stdout=subprocess.PIPE)
    t.check('model.c', (done.returncode, done.stdout.decode()), (0, 'model: 63 passed, 0 failed\n'))


# ---- warnings

def named(h, b, which):
    """A model's name, as the program puts it."""
    if which == 0:
        return 'duration'
    name = h.g[b'STREAM_TYPE'][(which - 1) // 2]
    return ('stream ' if which % 2 else 'GV of ') + reading.quoted(b, name)


def reached(m, tree):
    """The records of a tree that some walk meets."""
    first, count = m.trees[6 * tree + 1:6 * tree + 3]
    met, todo = set(), [0] if count else []
    while todo:
        k = todo.pop()
        if k not in met:
            met.add(k)
            kind, _, yes, no = m.records[4 * (first + k):4 * (first + k) + 4]
            todo += [yes, no] if kind == 0 else []
    return met


def line_places(m, text):
    """Where each line of each tree begins in the data: before its question's name stands its id."""
    return [[re.search(rb'-?[0-9]+[ \n]*\Z', m.data[:name[0]]).start() for _, name, _, _ in lines] for _, _, _, lines in text[1]]


def asks_for_gv(h, b, which):
    """Whether the header's USE_GV of a GV model's stream is 1."""
    a, e = h.g[b'STREAM_TYPE'][which // 2 - 1]
    return reading.group_named(b, h.streams, b[a:e], 14).get(b'USE_GV', 0) == 1


def warned(b):
    """By the second reading, all warnings of a voice that opens: dictionaries as --json prints them, without file and sentence; and whether it is in order, and of the house."""
    h, found, good = reading.Header(b), [], True
    for which in range(2 * len(h.g[b'STREAM_TYPE']) + 1):
        try:
            m = reading.Model(b, h, which)
        except reading.Refused as r:
            if r.number != 15 or asks_for_gv(h, b, which):
                good = False
                found.append(dict(finding='refused', model=which, number=r.number, place=r.place, line=r.line))
            continue
        if not reading.leaves_fit(m.questions, m.trees, m.records, m.values, m.width):
            good = False
            found.append(dict(finding='leaf-check', model=which))
        start, names = h.data[0], [m.data[a:e] for (a, e), _ in m.text[0]]
        asked = {m.records[4 * k + 1] for k in range(len(m.records) // 4) if m.records[4 * k] == 0}
        for q, name in enumerate(names):
            own = dict(model=which, question=q, name=name.decode('utf-8', 'replace'), offset=start + m.text[0][q][0][0])
            before = [k for k in range(q) if names[k] == name]
            if before:
                found.append(dict(own, finding='doubled-question', other=before[-1], other_offset=start + m.text[0][before[-1]][0][0]))
            if q not in asked and name not in names[q + 1:]:
                found.append(dict(own, finding='unasked-question'))
        for tree, ((_, state, _, lines), places) in enumerate(zip(m.text[1], line_places(m, m.text))):
            if m.trees[6 * tree + 3] != len(lines):
                continue  # one line with equal references: a leaf
            met = reached(m, tree)
            for k, (ident, _, _, _) in enumerate(lines):
                own = dict(model=which, tree=tree, state=state, line=k, id=ident, offset=start + places[k])
                before = [j for j in range(k) if lines[j][0] == ident]
                if before:
                    found.append(dict(own, finding='doubled-id', other=before[-1], other_offset=start + places[before[-1]]))
                if k not in met:
                    found.append(dict(own, finding='unreached-line'))
    number, _, _, which = house.judged(b)
    if 30 <= number <= 36:
        found.append(dict(finding='house', number=number, **(dict(model=which) if number >= 32 else {})))
    return found, good, number == 0


CLEAN = b'QS A { "x" }\nQS B { "y" }\n{*}[2]{ 0 A -1 p_1\n-1 B p_1 p_1 }'


def clean_voice():
    return voices.simple(CLEAN)


def by_json(t, *words):
    status, out, err = t.run('check', '--json', *words)
    return status, [json.loads(line) for line in out.splitlines()], err


def warnings(t):
    """check: the sample has the accident in it, a clean voice nothing; --strict, --json; options that are none."""
    sample = t.make.voice()
    found, good, _ = warned(sample)
    kinds = [f['finding'] for f in found]
    t.check('warnings: second reading', (good, kinds.count('doubled-id'), kinds.count('unreached-line'), kinds.count('unasked-question') > 5, kinds[-1]), (True, 1, 1, True, 'house'))
    status, out, err = t.run('check', t.SAMPLE)
    t.check('check warns', (status, err, len(out.splitlines()), out.count(': warning: ')), (0, '', len(found), len(found)))
    doubled, lost = ([f for f in found if f['finding'] == kind][0] for kind in ('doubled-id', 'unreached-line'))
    t.has('check: the accident', out, 'warning: stream "MCP", tree 0 (state 2), line 4, byte %d of the file: it bears the id -2, as line 2 (byte %d) does' % (doubled['offset'], doubled['other_offset']),
          'warning: stream "MCP", tree 0 (state 2), line 2, byte %d of the file: no walk reaches it' % lost['offset'], 'question 6 "R-Phone_ch"', 'no line asks it')
    for place in doubled['offset'], doubled['other_offset']:
        t.check('the place is that of a line', sample[place:place + 3], b'-2 ')
    clean = t.file_of(clean_voice(), 'clean.htsvoice')
    t.check('no warning: second reading', warned(clean_voice()), ([], True, True))
    for words in [], ['--strict']:
        t.check('no warning %s' % words, t.run('check', *words, clean), (0, '', ''))
    t.check('--strict', t.run('check', '--strict', t.SAMPLE)[0], 1)
    t.check('--strict, one of two', t.run('check', '--strict', clean, t.SAMPLE)[0], 1)
    status, told, err = by_json(t, t.SAMPLE, clean)
    t.check('--json: verdicts', (status, err, [x for x in told if x['finding'] == 'verdict']),
            (0, '', [dict(file=t.SAMPLE, finding='verdict', in_order=True, house=False, warnings=len(found)), dict(file=clean, finding='verdict', in_order=True, house=True, warnings=0)]))
    t.check('--json --strict', t.run('check', '--json', '--strict', t.SAMPLE)[0], 1)
    odd = t.file_of(clean_voice(), 'odd "name\xff\t.htsvoice')
    status, told, err = by_json(t, odd)
    t.check('--json: an odd name', (status, told[0]['file'].encode('latin-1').decode().endswith('odd "name\xff\t.htsvoice')), (0, True))
    status, told, err = by_json(t, os.path.join(t.room, 'nowhere'), clean)
    t.check('--json: a file that is none', (status, [x['finding'] for x in told], 'No such file' in err), (2, ['unreadable', 'verdict'], True))
    for words in ['--strickt', t.SAMPLE], ['--json'], ['--strict', '--']:
        t.refuses_to_run('check %s' % words, 'check', *words, says='usage:')
    dashed = t.file_of(clean_voice(), '--strict')
    t.check('check -- --strict', t.run('check', '--', '--strict', cwd=os.path.dirname(dashed)), (0, '', ''))


TWICE = b'QS A { "x" }\nQS B { "y" }\nQS A { "z" }\nQS C { "w" }\n'
ODD = (TWICE + b'{*}[2]{ 0 A -1 p_1\n-1 B p_1 p_1\n-7 C -7 p_1 }', TWICE + b'{*}[2]{ 5 A -1 p_1\n-1 B p_1 p_1\n5 B p_1 p_1\n5 C p_1 -1 }\n{*}[3]{ 0 B p_1 p_1 }\n{*}[4]p_1', b'{*}[2]{}', b'{*}[2]{ 0 A p_1 p_1 }')


def stored_warnings(t):
    """check --json over stored voices and odd ones: every finding, field by field, as the second reading has it."""
    inputs = [voices.simple(text) if text.count(b'{*}') == 1 else voices.around(text) for text in ODD] + [b for b, _ in list(t.stored.cases('voices'))[::3]]
    paths = [t.file_of(b, 'voice-%d' % i) for i, b in enumerate(inputs)]
    status, told, err = by_json(t, *paths)
    by_file, found_all = {}, []
    for x in told:
        by_file.setdefault(x.pop('file'), []).append(x)
    for b, path in zip(inputs, paths):
        got = by_file.get(path, [])
        try:
            found, good, ours = warned(b)
        except reading.Refused as r:
            found, good, ours = [dict(finding='refused', number=r.number, place=r.place)], False, False
        count = sum(f['finding'] not in ('refused', 'leaf-check') for f in found)
        t.check('findings: a sentence for each', all(x.get('says') for x in got[:-1]), True)
        t.check('findings', [{k: v for k, v in x.items() if k != 'says'} for x in got], found + [dict(finding='verdict', in_order=good, house=ours, warnings=count)])
        found_all += [f['finding'] for f in found]
    t.check('findings of every kind', [found_all.count(kind) > 2 for kind in ('doubled-id', 'doubled-question', 'unasked-question', 'unreached-line', 'refused', 'leaf-check', 'house')], [True] * 7)


# ---- pictures and sizes

def edges(m, tree):
    """The edges of a picture, by the second reading's rows: line, side, and where it goes."""
    first, count, lines = m.trees[6 * tree + 1:6 * tree + 4]
    row = lambda k: m.records[4 * (first + k):4 * (first + k) + 4]
    goes = lambda k: ('line', k) if row(k)[0] == 0 else ('leaf', row(k)[1])
    return sorted((k, side, *goes(row(k)[i])) for k in range(lines) for side, i in (('yes', 2), ('no', 3)))


def drawn(dot):
    """The edges of a picture in Graphviz's language."""
    leaves = {name: int(n) for name, n in re.findall(r'^  (leaf\d+(?:yes|no)) \[shape=ellipse, label="(\d+)"', dot, re.M)}
    found = []
    for k, to, side in re.findall(r'^  line(\d+) -> (\w+) \[label="(yes|no)"', dot, re.M):
        found.append((int(k), side, 'leaf', leaves[to]) if to in leaves else (int(k), side, 'line', int(to[4:])))
    return sorted(found)


def pictures(t):
    """draw: every tree of the sample by its rows, the accident and the unreachable line marked, the way of a walk; SVG where dot is at hand; wrong words."""
    b = t.make.voice()
    h = reading.Header(b)
    for which in range(6):
        m = reading.Model(b, h, which)
        for tree in range(m.needed()[2]):
            status, dot, err = t.run('draw', t.SAMPLE, str(which), str(tree))
            t.check('draw %d %d' % (which, tree), (status, err, drawn(dot)), (0, '', edges(m, tree)))
            lone = re.findall(r'^  leaf \[shape=ellipse, label="(\d+)"', dot, re.M)
            t.check('draw %d %d: a lone leaf' % (which, tree), lone, [] if edges(m, tree) else [str(m.records[4 * m.trees[6 * tree + 1] + 1])])
    dot = t.run('draw', t.SAMPLE, '1', '0')[1]
    nodes = dict(re.findall(r'^  line(\d+) (\[label=.*\]);$', dot, re.M))
    t.check('draw: marked', [(k, 'stands twice' in nodes[k], 'no walk comes here' in nodes[k]) for k in sorted(nodes)],
            [('0', False, False), ('1', False, False), ('2', True, True), ('3', False, False), ('4', True, False)])
    t.has('draw: questions and patterns', dot, 'label="C-Phone_i?\\nline 1, id -1"', 'tooltip="*-sil+*, *-pau+*"', 'tree 0 (state 2): 5 lines, 7 entries, at most 3 questions')
    for words in ['--answers', '0010011'], ['--label', 'sil^sh-i+ch=i']:
        status, dot, err = t.run('draw', t.SAMPLE, '1', '0', *words)
        way = re.findall(r'^  line(\d+) -> (\w+) \[.*penwidth=3', dot, re.M)
        t.check('draw %s: the way' % words[0], (status, way, 'a walk to PDF 5 after 3 questions' in dot), (0, [('0', 'line1'), ('1', 'line4'), ('4', 'leaf4yes')], True))
    status, dot, err = t.run('draw', t.SAMPLE, '1', '0', '--answers', '00')
    t.check('draw: a walk that is refused', (status, 'refused (24)' in dot, dot.count('penwidth=3') > 0), (1, True, True))
    t.check('draw: a lone leaf on the way', t.run('draw', t.SAMPLE, '5', '0', '--answers', '-')[1].count('penwidth=3'), 1)
    status, out, err = t.run('draw', t.file_of(voices.around(b'QS A"\\{ { "x" }\n{*}[2]{0 A"\\{ 0 p1}')), '1', '0', '--answers', '0')
    t.check('draw: a tree that goes round, a name with quotes', (status, 'a path goes round' in out, 'refused (25)' in out, 'label="A\\"\\\\{?' in out), (1, True, True, True))
    t.check('draw: empty braces', (t.run('draw', t.file_of(voices.around(b'{*}[2]{}')), '1', '0')[0], 'nothing to walk' in t.run('draw', t.file_of(voices.around(b'{*}[2]{}')), '1', '0')[1]), (0, True))
    for words, says in (['7', '0'], 'refused (13)'), (['1', '5'], 'has 5 trees'):
        status, out, err = t.run('draw', t.SAMPLE, *words)
        t.check('draw %s' % words, (status, out, says in err), (1, '', True))
    t.check('draw of what is no voice', t.run('draw', t.file_of(b'x'), '0', '0')[:2], (1, ''))
    for words, says in ([], 'usage:'), (['1'], 'usage:'), (['1', '0', '0'], 'usage:'), (['x', '0'], "MODEL is 'x'"), (['1', '-1'], "TREE is '-1'"), (['1', '0', '--answers', '012'], "ANSWERS is '012'"), (['1', '0', '--answers'], 'usage:'), \
            (['1', '0', '--answers', '1', '--label', 'x'], 'usage:'), (['1', '0', '--png'], 'usage:'):
        t.refuses_to_run('draw %s' % words, 'draw', t.SAMPLE, *words, says=says)
    without = dict(PATH=os.path.join(t.room, 'no programs'))
    status, out, err = t.run('draw', '--svg', t.SAMPLE, '1', '0', environment=without)
    t.check('draw --svg without dot', (status, out, 'dot' in err), (2, '', True))
    if shutil.which('dot'):
        status, out, err = t.run('draw', '--svg', t.SAMPLE, '1', '0')
        svg = xml.etree.ElementTree.fromstring(out)
        texts = [''.join(x.itertext()) for x in svg.iter('{http://www.w3.org/2000/svg}text')]
        t.check('draw --svg', (status, svg.tag, 'R-Phone_ch?' in texts, texts.count('this id stands twice')), (0, '{http://www.w3.org/2000/svg}svg', True, 2))


def sizes(t):
    """tables: a C header that compiles, with the sizes that the second reading counts; the greatest of several voices; none where a voice is refused."""
    b, other = t.make.voice(), voices.large(1, 300)
    paths = [t.SAMPLE, t.file_of(other, 'another * voice')]
    for files, inputs in ([paths[0]], [b]), (paths, [b, other]):
        status, out, err = t.run('tables', *files)
        got = {name: int(n) for name, n in re.findall(r'^#define VOICE_(\w+) (\d+)', out, re.M)}
        want, names = {}, ('QUESTIONS', 'PATTERNS', 'TREES', 'RECORDS', 'VALUES', 'WORK', 'WIDTH', 'DEPTH_WORK')
        for voice in inputs:
            h = reading.Header(voice)
            for which in range(2 * len(h.g[b'STREAM_TYPE']) + 1):
                try:
                    m = reading.Model(voice, h, which)
                except reading.Refused as r:
                    t.check('tables: second reading', r.number, 15)
                    continue
                records = [m.trees[6 * k + 2] for k in range(m.needed()[2])]
                for name, n in zip(names, m.needed() + [6 * max(len(x[3]) for x in m.text[1]), m.width, 4 * max(records)]):
                    for key in 'MODEL_%d_%s' % (which, name), 'MOST_' + name:
                        want[key] = max(want.get(key, 0), n)
        t.check('tables of %d' % len(files), (status, err, {k: n for k, n in got.items() if not k.endswith('_DEPTH') and k != 'MOST_DEPTH'}), (0, '', want))
        t.check('tables: depths', (got['MODEL_1_DEPTH'] >= 3, got['MOST_DEPTH'] >= got['MODEL_1_DEPTH']), (True, True))
        use = t.file_of(b'#include "tables.h"\nint main(void) { return VOICE_MOST_RECORDS - VOICE_MODEL_1_RECORDS < 0; }\n', 'use_tables.c')
        t.file_of(out.encode('latin-1'), 'tables.h')
        t.compiles('tables.h', 'gcc', '-std=c99', *t.WARNINGS, '-fsyntax-only', use)
    bad = t.file_of(t.damaged(b'C-Silence    -1           "mcp_s3_1"', b'C-Silence    -9           "mcp_s3_1"'), 'bad')
    status, out, err = t.run('tables', t.SAMPLE, bad)
    t.check('tables of a voice that is refused', (status, out, 'refused (21)' in err), (1, '', True))
    t.refuses_to_run('tables of nothing', 'tables', says='usage:')


# ---- the man page

def man_page(t):
    """From the help's own text: every verb stands in it; groff reads it without complaint."""
    help_text = t.run('help')[1]
    done = subprocess.run([os.path.join(t.HERE, 'manpage'), version_of(t)], input=help_text.encode(), stdout=subprocess.PIPE, check=True)
    page = done.stdout.decode()
    for verb in re.findall(r'^(?:usage:| +) *larsavim (\w+)', help_text, re.M):
        t.check('man page: ' + verb, ('.B larsavim %s\n' % verb in page, len(re.findall(r'^\.TP\n\.B %s\b' % verb, page, re.M))), (True, 1))
    if shutil.which('groff'):
        shown = subprocess.run(['groff', '-man', '-Tascii', '-ww', '-z'], input=done.stdout, stdout=subprocess.PIPE, stderr=subprocess.PIPE)
        t.check('man page: groff', (shown.returncode, shown.stderr), (0, b''))


# ---- the binding for Rust

# calls that landed beside the binding, and are to be bound
LATER = set()
RUST_TYPES = {'const uint8_t *': '*const u8', 'uint8_t *': '*mut u8', 'const uint64_t *': '*const u64', 'uint64_t *': '*mut u64', 'int64_t *': '*mut i64', 'struct larsavim_job *': '*mut Job', 'uint64_t ': 'u64'}


def rust_parameters(parameters):
    """A prototype's parameters as Rust writes them."""
    out = []
    for parameter in parameters.split(','):
        kind, name = re.match(r'(.*?[ *])(\w+)$', ' '.join(parameter.split())).groups()
        out.append('%s: %s' % (name, RUST_TYPES[kind]))
    return ', '.join(out)


def rust_names(t):
    """Every call and constant of the binding is the header's, and every refusal has a case."""
    header, calls, refusal = t.text_of('host', 'larsavim.h'), t.text_of('bindings', 'rust', 'src', 'calls.rs'), t.text_of('bindings', 'rust', 'src', 'refusal.rs')
    declared = {name: rust_parameters(parameters) for _, name, parameters in re.findall(r'^(uint64_t|void) (larsavim_\w+)\((.*?)\);', header, re.S | re.M)}
    bound = dict(re.findall(r'pub fn (larsavim_\w+)\((.*?)\)(?: -> u64)?;', calls))
    t.check('rust: calls without a binding', sorted(set(declared) - set(bound) - LATER), [])
    t.check('rust: calls', bound, {name: declared.get(name) for name in bound})
    constants = {name: int(n) for name, n in re.findall(r'^#define LARSAVIM_(\w+) (\d+)', header, re.M)}
    own = {name: int(n) for name, n in re.findall(r'^pub const (\w+): (?:u64|usize) = (\d+);', calls, re.M)}
    t.check('rust: constants', (own, len(own) > 40), ({name: constants.get(name) for name in own}, True))
    numbers = header[header.index('---- Numbers the loader gives'):header.index('---- Limits')]
    cases = [int(n) for n in re.findall(r'^    \w+(?: \{ [a-z, ]+ \})? = (\d+), "', refusal, re.M)]
    t.check('rust: refusals', cases, [int(n) for n in re.findall(r'^#define LARSAVIM_\w+ (\d+)', numbers, re.M)][1:])
    job = re.search(r'struct larsavim_job \{(.*?)\};', header, re.S)[1]
    t.check('rust: a job', re.findall(r'pub (\w+): u64,', calls[calls.index('pub struct Job'):calls.index('mod raw')]), re.findall(r'uint64_t (\w+);', job))


def cargo(t, *words, cwd, **environment):
    done = subprocess.run(['cargo', *words, '--offline', '--quiet'], cwd=cwd, stdout=subprocess.PIPE, stderr=subprocess.STDOUT, env={**os.environ, 'CARGO_TARGET_DIR': os.path.join(t.ROOT, 'target', 'rust'), **environment})
    return done.returncode, done.stdout.decode('utf-8', 'replace')


def own_library(t):
    """Where cargo finds the library for this machine: in the repository for x86-64, else an archive of host/native's object."""
    if os.uname().machine == 'x86_64':
        return {}
    folder = os.path.join(t.room, 'own library')
    os.mkdir(folder)
    made = os.path.join(folder, 'larsavim.o')
    t.check('host/native for this machine', subprocess.run([os.path.join(t.HERE, 'native'), made]).returncode, 0)
    t.check('its archive', subprocess.run([kit.tool('llvm-ar'), 'rcsD', os.path.join(folder, 'liblarsavim.a'), made]).returncode, 0)
    return dict(LARSAVIM_LIB_DIR=folder)


def rust(t):
    """cargo's own tests, offline: the sample, and all stored headers, voices and walks; the example in the documentation; then the oracle's own structs beside the binding's views."""
    if not shutil.which('cargo'):
        print('host/test: cargo is not at hand: the Rust binding was not tested')
        return
    crate, library = os.path.join(t.ROOT, 'bindings', 'rust'), own_library(t)
    status, said = cargo(t, 'test', cwd=crate, **library)
    t.check('cargo test: %s' % said[-2000:] if status else 'cargo test', status, 0)
    t.check('cargo test: how many', [int(n) for n in re.findall(r'test result: ok\. (\d+) passed', said) if n != '0'], [9, 3, 3, 4])
    status, said = cargo(t, 'build', '--examples', cwd=crate, **library)
    t.check('cargo build --examples: ' + said, status, 0)
    for path, want in (t.SAMPLE, (0, b'PDF 5\n')), (t.file_of(t.damaged(b'[STREAM]\n', b'[STRAEM]\n'), 'unsplit'), (1, b'silence (1)\n')):
        done = subprocess.run([os.path.join(t.ROOT, 'target', 'rust', 'debug', 'examples', 'speak'), path], stdout=subprocess.PIPE)
        t.check('the example in Rust', (done.returncode, done.stdout), want)
    built = subprocess.run([os.path.join(t.ROOT, 'oracle', 'build'), '--beside'], stdout=subprocess.PIPE, stderr=subprocess.PIPE, env={**os.environ, **library})
    t.check('oracle/build --beside', (built.returncode, built.stderr.decode()), (0, ''))
    inputs = [t.make.voice(), clean_voice()] + [b for kind in ('voices', 'walks') for b, _ in t.stored.cases(kind)]
    done = subprocess.run([built.stdout.decode().strip()], input=''.join(b.hex() + '\n' for b in inputs).encode(), stdout=subprocess.PIPE)
    said = done.stdout.decode().splitlines()
    t.check('beside the oracle', (done.returncode, said[:-1]), (0, []))
    counted = [int(n) for n in re.findall(r'\d+', said[-1] if said else '')]
    t.check('beside the oracle: %s' % said[-1:], [n > least for n, least in zip(counted, (1200, 1500, 50000, 1000))] + [n < most for n, most in zip(counted[4:], (40, 1))], [True] * 6)


# ---- the self-test

# core: what it is compiled for; and the release's folders: their core
CORES = {'x86_64': ['--target=x86_64-unknown-linux-gnu'], 'aarch64': ['--target=aarch64-unknown-linux-gnu'], 'riscv64': ['--target=riscv64-unknown-elf', '-march=rv64imac', '-mabi=lp64'],
         'riscv64gc': ['--target=riscv64-unknown-linux-gnu', '-march=rv64gc', '-mabi=lp64d']}
RELEASED = {'x86_64': 'x86_64', 'aarch64': 'aarch64', 'aarch64-O3': 'aarch64', 'riscv64': 'riscv64gc', 'riscv64-O3': 'riscv64gc', 'riscv64-lp64': 'riscv64', 'riscv64-lp64-O3': 'riscv64'}


def emulator(core):
    """How a program for a core is run here, or None."""
    core = core.replace('gc', '')
    if core == os.uname().machine:
        return []
    for name in 'qemu-%s-static' % core, 'qemu-' + core:
        if shutil.which(name):
            return [name]
    subprocess.run([os.path.join(os.path.dirname(os.path.abspath(__file__)), '..', '..', 'tools', 'need'), 'qemu-%s-static' % core, 'qemu-user-static'], stderr=subprocess.DEVNULL)
    return ['qemu-%s-static' % core] if shutil.which('qemu-%s-static' % core) else None


def bare(t, core, source, library, name):
    """The self-test as a program without a C library; and its own object."""
    include = subprocess.run(['gcc', '-print-file-name=include'], stdout=subprocess.PIPE, check=True).stdout.decode().strip()
    compile_with = [kit.tool('clang'), *CORES[core], '-std=c99', '-ffreestanding', '-fno-builtin', '-fno-pic', '-nostdlibinc', '-isystem', include, '-I', t.HERE, '-Os', '-Wall', '-Wextra', '-Werror', '-c']
    objects = [os.path.join(t.room, n + '.o') for n in (name, 'run-' + core)]
    t.compiles('self-test, ' + core, *compile_with, source, '-o', objects[0])
    if not os.path.exists(objects[1]):
        t.compiles('self-test, its entry, ' + core, *compile_with, os.path.join(t.HERE, 'selftest', 'run.c'), '-o', objects[1])
    program = os.path.join(t.room, name)
    t.compiles('self-test, linked, ' + core, kit.tool('ld.lld'), '-static', '--gc-sections', '-o', program, *objects, library)
    return program, objects[0]


def loaded_bytes(path):
    """Code, constants, variables and what is zero at the start, of an object."""
    o = elf.Object(elf.objects(path)[0])
    return o.loaded()


def passes_on(t, core, source, library, name):
    """The self-test is below 16 KiB on a core, and passes where that can be run."""
    program, own = bare(t, core, source, library, name)
    t.check('self-test: below 16 KiB, ' + name, loaded_bytes(own) < 16384, True)
    run_with = emulator(core)
    if run_with is None:
        print('host/test: no emulator for %s: the self-test was built and not run there' % core)
    else:
        t.check('self-test passes, ' + name, subprocess.run([*run_with, program]).returncode, 0)


def self_test(t):
    """The self-test is what its maker makes, and passes over the proved archive; and every stored number in it is looked at. `release` has the other cores."""
    maker = os.path.join(t.HERE, 'selftest', 'make.py')
    t.check('self-test: as made', subprocess.run([sys.executable, maker, '--check']).returncode, 0)
    source = os.path.join(t.HERE, 'selftest', 'larsavim_selftest.c')
    t.compiles('self-test as C99', 'gcc', '-std=c99', *t.WARNINGS, '-I', t.HERE, '-O2', '-c', source, '-o', os.path.join(t.room, 'selftest.o'))
    archive = os.path.join(t.ROOT, 'target', 'staticlib', 'liblarsavim.a')
    passes_on(t, 'x86_64', source, archive, 'self-test')
    text, r = t.text_of('host', 'selftest', 'larsavim_selftest.c'), random.Random(3)
    # the numbers that are answers: sums, needs, and the last three of each walk and each change
    answers = [m.span() for m in re.finditer(r'0x[0-9a-f]{16}', text)] + [m.span() for row in re.finditer(r'(?<=\{\{)[0-9, ]+', text) for m in re.finditer(r'\d+', text[:row.end()]) if m.start() >= row.start()]
    answers += [(row.start(k), row.end(k)) for row in re.finditer(r'^    \{\d+, \d+, -?\d+, (\d+), (\d+), (\d+)\}', text, re.M) for k in (1, 2, 3)]
    answers += [(row.start(k), row.end(k)) for row in re.finditer(r'^    \{\d+, \{(\d+), (\d+), (\d+), (\d+)\}, ', text, re.M) for k in (1, 2, 3, 4)]
    own = re.search(r'UINT64_C\(0xcbf29ce484222325\)', text).start()
    answers = [a for a in answers if text[a[0]:a[1]] != text[own + 9:own + 27]]
    for a, e in r.sample(answers, 16):
        old = text[a:e]
        new = old[:-1] + ('0' if old[-1] != '0' else '1') if old.startswith('0x') else str((int(old) + 1) % 200)
        program, _ = bare(t, 'x86_64', t.file_of((text[:a] + new + text[e:]).encode(), 'wrong.c'), archive, 'wrong')
        t.check('self-test with %s for %s at %d' % (new, old, a), subprocess.run([*t.cross()[1], program]).returncode != 0, True)


# ---- the release

MAIN_RS = '''fn main() {
    let file = std::fs::read(std::env::args().nth(1).unwrap()).unwrap();
    let voice = larsavim::Voice::open(&file).unwrap();
    let needs = voice.needs(larsavim::Which::Stream(0)).unwrap();
    let (mut memory, mut work) = (vec![0; needs.length() as usize], vec![0; needs.work() as usize]);
    let model = larsavim::Model::load(&needs, needs.tables(&mut memory).unwrap(), &mut work).unwrap();
    println!("PDF {}", model.walk(0, &[0, 0, 1, 0, 0, 1, 1], 9).unwrap().pdf);
}
'''


def release(t):
    """tools/release. Out of the archive alone, in an empty folder: the sums are right, and a C, a C++ and a Rust program are built and run, and the self-test for every core.
    LARSAVIM_TWICE in the environment: it is made twice, and both are the same, byte for byte."""
    made = []
    for turn in ['once', 'twice'] if os.environ.get('LARSAVIM_TWICE') else ['once']:
        done = subprocess.run([os.path.join(t.ROOT, 'tools', 'release'), os.path.join(t.room, turn)], stdout=subprocess.PIPE, stderr=subprocess.PIPE)
        t.check('release, %s: %s' % (turn, done.stderr.decode()[-500:]), done.returncode, 0)
        made.append(open(done.stdout.decode().strip(), 'rb').read())
    t.check('release: the same bytes', len({hashlib.sha256(m).hexdigest() for m in made}), 1)
    empty = os.path.join(t.room, 'nothing-else')
    os.mkdir(empty)
    name = 'larsavim-' + version_of(t)
    with tarfile.open(os.path.join(t.room, 'once', name + '.tar.gz')) as tar:
        tar.extractall(empty)
    top = os.path.join(empty, name)
    there = {os.path.relpath(os.path.join(f, n), top) for f, _, names in os.walk(top) for n in names}
    sums = dict(reversed(line.split('  ')) for line in open(os.path.join(top, 'SHA256SUMS')).read().splitlines())
    t.check('release: every file has its sum', set(sums) | {'SHA256SUMS'}, there)
    t.check('release: sums', [n for n, s in sums.items() if hashlib.sha256(open(os.path.join(top, n), 'rb').read()).hexdigest() != s], [])
    t.check('release: nothing of this machine', [n for n in sums if t.ROOT.encode() in open(os.path.join(top, n), 'rb').read() or t.room.encode() in open(os.path.join(top, n), 'rb').read()], [])
    t.has('release: sizes', open(os.path.join(top, 'SIZES.md')).read(), 'lib/x86_64 |', 'lib/aarch64-O3 |', 'lib/riscv64-lp64 |', 'memcpy, memset')
    compile_with, run_with = t.cross()
    sample, library = os.path.join(top, 'example', 'shichi.htsvoice'), os.path.join(top, 'lib', 'x86_64', 'liblarsavim.a')
    flags = ['-I', os.path.join(top, 'include')]
    c = [*compile_with, '-std=c99', '-D_POSIX_C_SOURCE=200809L', *t.WARNINGS, *flags, os.path.join(top, 'example', 'speak.c'), library]
    # without exceptions, so that the C library alone is linked: a static libm of another processor isn't always where its package says
    cpp = [*compile_with, '-std=c++11', '-fno-exceptions', '-fno-rtti', '-Wall', '-Wextra', '-Wpedantic', '-Wno-missing-field-initializers', '-Werror', *flags, '-x', 'c++', os.path.join(top, 'example', 'speak.c'), '-x', 'none', library]
    subprocess.run([os.path.join(t.ROOT, 'tools', 'need'), compile_with[0].replace('gcc', 'g++'), 'g++' if os.uname().machine == 'x86_64' else 'g++-x86-64-linux-gnu'])
    for language, command in ('C', c), ('C++', cpp):
        if language == 'C++':  # void * to a typed pointer is C's alone
            text = open(os.path.join(top, 'example', 'speak.c')).read()
            t.file_of(text.replace('load(file, (uint64_t)', 'load((const uint8_t *)file, (uint64_t)').replace('answer(file, label)', 'answer((const uint8_t *)file, label)').encode(), 'nothing-else/speak.cpp')
            command = [w.replace(os.path.join(top, 'example', 'speak.c'), os.path.join(empty, 'speak.cpp')) for w in command]
        program = os.path.join(empty, 'speak' + language[1:])
        t.compiles('release: a program in ' + language, *command, '-o', program)
        t.check('release: a program in %s, run' % language, subprocess.run([*run_with, program, sample], stdout=subprocess.PIPE).stdout, b'PDF 5\n')
    if shutil.which('pkg-config'):
        def asked(*words):
            done = subprocess.run(['pkg-config', *words, 'larsavim'], env={**os.environ, 'PKG_CONFIG_PATH': os.path.join(top, 'lib', 'pkgconfig')}, stdout=subprocess.PIPE, stderr=subprocess.STDOUT)
            return done.stdout.decode().split()
        t.check('release: pkg-config, the version', asked('--modversion'), [version_of(t)])
        flags = asked('--cflags', '--libs')
        t.compiles('release: by pkg-config', *compile_with, '-std=c99', '-D_POSIX_C_SOURCE=200809L', os.path.join(top, 'example', 'speak.c'), *flags, '-o', os.path.join(empty, 'by-pkg-config'))
    for folder, core in RELEASED.items():
        passes_on(t, core, os.path.join(top, 'selftest', 'larsavim_selftest.c'), os.path.join(top, 'lib', folder, 'liblarsavim.a'), 'released-' + folder)
    if os.uname().machine == 'x86_64':
        t.check('release: the program', subprocess.run([os.path.join(top, 'bin', 'larsavim'), 'check', sample], stdout=subprocess.PIPE).returncode, 0)
    if shutil.which('cargo'):
        own = os.path.join(empty, 'own')
        os.makedirs(os.path.join(own, 'src'))
        with open(os.path.join(own, 'src', 'main.rs'), 'w') as f:
            f.write(MAIN_RS)
        with open(os.path.join(own, 'Cargo.toml'), 'w') as f:
            f.write('[package]\nname = "own"\nversion = "0.1.0"\nedition = "2021"\n[dependencies]\nlarsavim = { path = "../%s/rust" }\n' % name)
        status, said = cargo(t, 'build', cwd=own, CARGO_TARGET_DIR=os.path.join(own, 'target'))
        t.check('release: a program in Rust: ' + said, status, 0)
        t.check('release: a program in Rust, run', subprocess.run([os.path.join(own, 'target', 'debug', 'own'), sample], stdout=subprocess.PIPE).stdout, b'PDF 5\n')


def installed(t):
    """make install under a prefix: everything is there, and the example is built by what is installed alone."""
    if not shutil.which('make'):
        print('host/test: make is not at hand: its install was not tested')
        return
    prefix = os.path.join(t.room, 'prefix')
    done = subprocess.run(['make', '-s', 'install', 'PREFIX=' + prefix], cwd=t.ROOT, stdout=subprocess.PIPE, stderr=subprocess.STDOUT)
    t.check('make install: ' + done.stdout.decode()[-300:], done.returncode, 0)
    there = sorted(os.path.relpath(os.path.join(f, n), prefix) for f, _, names in os.walk(prefix) for n in names)
    t.check('make install', there, ['bin/larsavim', 'include/larsavim.h', 'include/larsavim_model.h', 'lib/liblarsavim.a', 'lib/pkgconfig/larsavim.pc', 'share/man/man1/larsavim.1'])
    compile_with, run_with = t.cross()
    source = t.file_of(re.findall(r'^```c\n(.*?)^```$', t.text_of('docs', 'INTEGRATION.md'), re.S | re.M)[0].encode(), 'speak.c')
    program = os.path.join(t.room, 'speak-installed')
    t.compiles('make install: the example', *compile_with, '-std=c99', '-D_POSIX_C_SOURCE=200809L', '-I', os.path.join(prefix, 'include'), source, '-L', os.path.join(prefix, 'lib'), '-llarsavim', '-o', program)
    t.check('make install: the example, run', subprocess.run([*run_with, program, t.SAMPLE], stdout=subprocess.PIPE).stdout, b'PDF 5\n')


# ---- how far long work is

def on_terminal(command):
    """What a command says on standard error where that is a terminal, and where it is a pipe."""
    said = []
    for make in pty.openpty, os.pipe:
        near, far = make()
        subprocess.run(command, stdout=subprocess.DEVNULL, stderr=far, cwd=os.path.join(os.path.dirname(os.path.abspath(__file__)), '..', '..', 'tools'))
        os.close(far)
        parts = []
        try:
            while parts[-1:] != [b'']:
                parts.append(os.read(near, 65536))
        except OSError:  # a terminal whose other end is gone
            pass
        os.close(near)
        said.append(b''.join(parts).decode())
    return said


def progress(t):
    """check of many voices, and the tools in Python: a line that is taken away again on a terminal, nothing in a pipe."""
    if not os.path.exists('/dev/ptmx'):
        print('host/test: there are no terminals here: how far work is was not tested')
        return
    shown, piped = on_terminal([*t.command, 'check', t.SAMPLE, t.SAMPLE, t.SAMPLE])
    t.check('check of three voices', ([('file %d of 3' % k) in shown for k in (1, 2, 3)], shown.endswith('\r\033[K'), piped), ([True] * 3, True, ''))
    t.check('check of one voice', on_terminal([*t.command, 'check', t.SAMPLE]), ['', ''])
    t.check('tools/far.py', on_terminal([sys.executable, '-c', 'from far import far; far("half"); far()']), ['\r\033[Khalf\r\033[K', ''])


TESTS = [versions, progress, model_header, warnings, stored_warnings, pictures, sizes, man_page, rust_names, rust, self_test, release, installed]
