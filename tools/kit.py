"""The toolchain's kit, and the crates of crates.txt: what the scripts here know of either. Alone it prints a place in the kit:  python3 tools/kit.py toolchain/bin/clang"""
import functools
import os
import re
import subprocess
import sys

ROOT = os.path.dirname(os.path.dirname(os.path.abspath(__file__)))


@functools.lru_cache(None)
def folder():
    """Where the kit stands."""
    return os.path.dirname(subprocess.run(['rt', 'doc'], stdout=subprocess.PIPE, check=True).stdout.decode().strip())


def place(*parts):
    return os.path.join(folder(), *parts)


def tool(name):
    """A tool of the kit's own LLVM."""
    return place('toolchain', 'bin', name)


def libraries():
    """The kit's own libraries, which a line of crates.txt may name: their names."""
    return {name[:-5] for name in os.listdir(place('rlibs')) if name.endswith('.rlib')}


def lines(path=os.path.join(ROOT, 'crates.txt')):
    """Of each line of crates.txt: its number, the crate, the words before the colon behind the name, and the names behind it. Of a heading '# NAME: ..' its number, its name and what it says."""
    with open(path, encoding='utf-8') as f:
        for number, line in enumerate(f, 1):
            heading = re.match(r'# ([a-z]+): (.*)', line)
            if heading:
                yield number, None, heading[1], heading[2]
            elif line.strip() and not line.startswith('#'):
                head, _, names = line.partition('#')[0].partition(':')
                crate, *words = head.split()
                yield number, crate, words, names.split()


@functools.lru_cache(None)
def crates():
    """Every crate, with the names on its line."""
    return {crate: names for _, crate, _, names in lines() if crate}


@functools.lru_cache(None)
def below(crate):
    """The repository's crates below a crate, each after those that it names."""
    found = []
    for name in crates()[crate]:
        if name in crates():
            found += [it for it in [*below(name), name] if it not in found]
    return found


def rlib(crate, folder='rlib'):
    """Where a proved library stands: as `rt` leaves it, or in another folder of out/."""
    return os.path.join(ROOT, 'crates', crate, 'out', folder, crate + '.rlib')


def words(crate, folder='rlib'):
    """What `rt` has the kit's `rattle check` and `rattle build` read of a library: to be called in the crate's folder, over the libraries that stand built in that folder of out/."""
    found = ['--crate-name', crate, 'src/lib.rt', '-L', 'dependency=' + place('rlibs')]
    for name in ['std', *crates()[crate]]:
        found += ['--extern', '%s=%s' % (name, rlib(name, folder) if name in crates() else place('rlibs', name + '.rlib'))]
    for name in below(crate):
        found += ['-L', 'dependency=' + os.path.dirname(rlib(name, folder))]
    return [*found, '--antt-project', place('rattle', 'logic', 'antt-project.json'), '--logic-built', place('logic_built')]


if __name__ == '__main__':
    print(place(*sys.argv[1:]))
