"""What bench/size reads of an object file (ELF, 64 bits, any processor) by Debian's pyelftools: sections, functions, what each one calls, and the stack that the compiler says it takes."""
import io
import os
import subprocess
import sys

DEBIAN = '/usr/lib/python3/dist-packages'  # where Debian's packages stand, whichever python3 runs this
subprocess.run([os.path.join(os.path.dirname(os.path.abspath(__file__)), '..', 'tools', 'need'), os.path.join(DEBIAN, 'elftools'), 'python3-pyelftools'], check=True)
sys.path.append(DEBIAN)
from elftools.elf.constants import SH_FLAGS  # noqa: E402
from elftools.elf.elffile import ELFFile  # noqa: E402

TEXT, CONSTANTS, OTHER = 'code', 'constants', 'other'
FUNC, SECTION, UNDEFINED = 'STT_FUNC', 'STT_SECTION', 'SHN_UNDEF'


def objects(path):
    """The object files of an archive, or the one object."""
    with open(path, 'rb') as f:
        b = f.read()
    if not b.startswith(b'!<arch>\n'):
        return [b]
    found, at = [], 8
    while at < len(b):
        size = int(b[at + 48:at + 58])
        if b[at + 60:at + 64] == b'\x7fELF':
            found.append(b[at + 60:at + 60 + size])
        at += 60 + size + size % 2
    return found


class Object:
    def __init__(self, b):
        elf = ELFFile(io.BytesIO(b))
        self.early = 4 if elf.get_machine_arch() == 'x64' else 0  # x86-64 counts a call's goal from the call's end
        self.sections = list(elf.iter_sections())
        self.symbols = [{'name': y.name, 'type': y['st_info']['type'], 'local': y['st_info']['bind'] == 'STB_LOCAL', 'section': y['st_shndx'], 'at': y['st_value'], 'size': y['st_size']}
                        for s in self.sections if s['sh_type'] == 'SHT_SYMTAB' for y in s.iter_symbols()]
        self.functions = {y['name']: y for y in self.symbols if y['type'] == FUNC}

    def kind(self, s):
        """Code and constants go into the display's flash; the rest of what is loaded would be variables."""
        flags = s['sh_flags']
        if not flags & SH_FLAGS.SHF_ALLOC or s['sh_size'] == 0 or s.name.startswith('.eh_frame'):
            return None
        return TEXT if flags & SH_FLAGS.SHF_EXECINSTR else OTHER if flags & SH_FLAGS.SHF_WRITE else CONSTANTS

    def sizes(self):
        """Bytes of code, of constants, of variables."""
        out = {TEXT: 0, CONSTANTS: 0, OTHER: 0}
        for s in self.sections:
            if self.kind(s):
                out[self.kind(s)] += s['sh_size']
        return out

    def loaded(self):
        """Bytes of all that is loaded, variables and frames for unwinding too."""
        return sum(s['sh_size'] for s in self.sections if s['sh_flags'] & SH_FLAGS.SHF_ALLOC)

    def exported(self):
        return sorted(n for n, y in self.functions.items() if not y['local'] and y['section'] != UNDEFINED)

    def undefined(self):
        return sorted(y['name'] for y in self.symbols if y['section'] == UNDEFINED and y['name'])

    def holder(self, section, at):
        """The function that a place of a section lies in."""
        for n, y in self.functions.items():
            if y['section'] == section and y['at'] <= at < y['at'] + max(1, y['size']):
                return n
        return None

    def references(self):
        """Of each place that code refers to: the function it stands in, the symbol, and what is added to it."""
        for s in self.sections:
            if s['sh_type'] == 'SHT_RELA' and self.kind(self.sections[s['sh_info']]) == TEXT:
                for r in s.iter_relocations():
                    yield self.holder(s['sh_info'], r['r_offset']), self.symbols[r['r_info_sym']], r['r_addend']

    def calls(self):
        """Function: names of the functions and outer symbols that its code refers to."""
        out = {n: set() for n in self.functions}
        for user, y, add in self.references():
            name = self.holder(y['section'], y['at'] + add + self.early) if y['type'] == SECTION else y['name']
            if user and name and (name in self.functions or y['section'] == UNDEFINED):
                out[user].add(name)
        return out

    def tabled(self):
        """The functions whose code refers to constants. A jump through a table needs one, and so does a look into a table. A single number that riscv64 keeps in memory
        (.LCPI, of the compiler's pool) is none."""
        inside = lambda y: isinstance(y['section'], int) and self.kind(self.sections[y['section']]) == CONSTANTS and not y['name'].startswith('.LCPI')
        return {user for user, y, _ in self.references() if user and inside(y)}

    def frames(self):
        """Function: bytes of its frame, from .stack_sizes (a function's place, by relocation, and a number in groups of 7 bits)."""
        out = {}
        for i, s in enumerate(self.sections):
            if s.name != '.stack_sizes':
                continue
            b, at, place = s.data(), 8, self.places(i)
            while at < len(b):
                size = shift = 0
                more, start = True, at - 8
                while more:
                    size |= (b[at] & 127) << shift
                    shift, more, at = shift + 7, b[at] > 127, at + 1
                at += 8
                out[place[start]] = size + 2 * self.early  # and the return address, which x86-64 puts on the stack
        return out

    def places(self, i):
        """The functions that the relocations of a section name."""
        out = {}
        for s in self.sections:
            if s['sh_type'] == 'SHT_RELA' and s['sh_info'] == i:
                for r in s.iter_relocations():
                    y = self.symbols[r['r_info_sym']]
                    out[r['r_offset']] = y['name'] if y['type'] == FUNC else self.holder(y['section'], y['at'] + r['r_addend'])
        return out

    def deepest(self, name):
        """Bytes of the deepest chain of calls from a function on, and the chain; what the C library takes is not in it. None if a call leads back."""
        calls, frames, done = self.calls(), self.frames(), {}

        def depth(n, above):
            if n in above:
                raise ValueError(n)
            if n not in done:
                below = max((depth(c, above + [n]) for c in calls.get(n, ()) if c in frames), default=(0, []))
                done[n] = (frames.get(n, 0) + below[0], [n] + below[1])
            return done[n]
        try:
            return depth(name, [])
        except ValueError:
            return None
