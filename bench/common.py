"""What the programs of bench/ share: building, the machine in words, tables, and where they are recorded."""
import os
import re
import subprocess
import sys

import elf

HERE = os.path.dirname(os.path.abspath(__file__))
ROOT = os.path.dirname(HERE)
sys.path.insert(0, os.path.join(ROOT, 'tools'))  # far.py, kit.py
import kit  # noqa: E402
ROOM = os.path.join(ROOT, 'target', 'bench')
WARNINGS = ['-Wall', '-Wextra', '-Wpedantic']
NATIVE = os.uname().machine + '-unknown-linux-gnu'


def output(*command):
    return subprocess.run(command, stdout=subprocess.PIPE, check=True).stdout.decode()


def need(command, *packages):
    """A command, or a file by its whole path, of Debian's packages where it is missing."""
    if subprocess.run([os.path.join(ROOT, 'tools', 'need'), command, *packages]).returncode:
        sys.exit('bench: %s can\'t be had' % command)


def newer(path, *sources):
    """Whether a file stands that is younger than all files of these folders; what checks keep in out/ doesn't count."""
    if not os.path.exists(path):
        return False
    made = os.path.getmtime(path)
    return all(os.path.getmtime(os.path.join(f, n)) <= made for s in sources for f, folders, names in walked(s) for n in names)


def walked(top):
    for f, folders, names in os.walk(top):
        folders[:] = [it for it in folders if it != 'out']
        yield f, folders, names


def built(level, triple=NATIVE, *flags, crate='larsavim_c'):
    """A library's object for a target at a level, by host/native."""
    path = os.path.join(ROOM, '-'.join([crate + level, triple.split('-')[0], *(f.strip('-') for f in flags)]) + '.o')
    if not newer(path, os.path.join(ROOT, 'crates')):
        os.makedirs(ROOM, exist_ok=True)
        subprocess.run([os.path.join(ROOT, 'host', 'native'), path, triple, level, '-fstack-size-section', *flags], check=True, env=dict(os.environ, CRATE=crate))
    return path


def compiled(name, source, *more, compiler='gcc'):
    path = os.path.join(ROOM, name)
    subprocess.run([compiler, '-std=c99', '-D_POSIX_C_SOURCE=200809L', *WARNINGS, '-O2', '-g', '-I', os.path.join(ROOT, 'host'), os.path.join(HERE, source), *more, '-o', path], check=True)
    return path


def first_line(*command):
    try:
        return output(*command).splitlines()[0].strip()
    except (OSError, subprocess.CalledProcessError, IndexError):
        return '?'


def package(name):
    return '%s %s' % (name, first_line('dpkg-query', '-W', '-f=${Version}\n', name))


def machine():
    """Machine and versions, as a paragraph."""
    cpu = dict(line.split(':', 1) for line in output('lscpu').splitlines() if ':' in line)
    caches = ', '.join('%s %s' % (k[:-6], cpu[k].split('(')[0].strip()) for k in cpu if k.endswith(' cache'))
    clang = re.search(r'version (\S+)', first_line(kit.tool('clang'), '--version'))
    parts = ['%s, %s, %s cores; caches %s' % (cpu['Model name'].strip(), os.uname().machine, cpu['CPU(s)'].strip(), caches), 'Linux ' + os.uname().release.split('-')[0],
             'Debian ' + open('/etc/debian_version').read().strip(), first_line('rt', 'version'), "the kit's clang " + (clang.group(1) if clang else '?'), 'gcc ' + first_line('gcc', '-dumpfullversion'),
             first_line('rustc', '--version').split(' (')[0], package('libhtsengine-dev'), first_line('valgrind', '--version')]
    return '; '.join(parts) + '.\n'


def table(head, rows):
    """A table of Markdown, numbers to the right."""
    out = ['| %s |' % ' | '.join(head), '|---|%s' % ('---:|' * (len(head) - 1))]
    return '\n'.join(out + ['| %s |' % ' | '.join(map(str, r)) for r in rows]) + '\n'


def said(program, *words):
    """What a program printed: lines of a name and numbers."""
    return {w[0]: list(map(int, w[1:])) for w in (line.split() for line in output(program, *map(str, words)).splitlines())}


TARGETS = [('x86-64', 'x86_64-unknown-linux-gnu'), ('aarch64', 'aarch64-unknown-linux-gnu'), ('riscv64', 'riscv64-unknown-elf')]


def reached(o, call):
    """What a call calls, and these, and so on."""
    calls, seen, todo = o.calls(), set(), [call]
    while todo:
        n = todo.pop()
        if n in o.functions and n not in seen:
            seen.add(n)
            todo += calls.get(n, [])
    return seen


def alone(call):
    """Code and stack of one call, in every build."""
    rows = []
    for name, triple in TARGETS:
        for level in '-Os', '-O3':
            o = elf.Object(elf.objects(built(level, triple))[0])
            rows.append(['%s, %s' % (name, level), format(sum(o.functions[n]['size'] for n in reached(o, call)), ','), format(o.deepest(call)[0], ',')])
    return '**The call alone**: bytes of code of all that it reaches, and of stack by frames.\n\n' + table(['build', 'code', 'stack'], rows)


def goals(said):
    """A table of goals: what is wanted, what was measured, whether it is met."""
    return table(['goal', 'measured', 'met'], [[goal, figure, 'yes' if met else '**no**'] for goal, figure, met in said])


def record(name, text):
    """Puts a text between its marks in docs/COST.md."""
    path = os.path.join(ROOT, 'docs', 'COST.md')
    begin, end = '<!-- bench/%s -->\n' % name, '<!-- end of bench/%s -->\n' % name
    with open(path) as f:
        page = f.read()
    if begin not in page or end not in page:
        sys.exit('bench: docs/COST.md has no place for the tables of bench/' + name)
    with open(path, 'w') as f:
        f.write(page[:page.index(begin) + len(begin)] + text + page[page.index(end):])
