#!/usr/bin/env python3
"""Tells LLVM how the values that a module copies are aligned:  host/aligned.py [--check] <MODULE.ll >OUT.ll
The kit's module copies a struct, an array or an enum whole, from or to a variable of its own type, and says the variable's alignment, which is the type's. Of the
other place, behind an address that a function was given, it says nothing, so a core that reads aligned words alone would copy it byte by byte.
Each copy whose one side is a whole variable is told that variable's alignment for both sides; nothing else is changed. That values stand aligned is the kit's own
rule: it says so of each number that it reads or writes. With --check nothing is told, and each copy first stops the program if one of its sides isn't aligned."""
import re
import sys

SIZES = {'i64': 8, 'ptr': 8, 'double': 8, 'i32': 4, 'float': 4, 'i16': 2, 'i8': 1}
VARIABLE = re.compile(r'\s*(%\w+) = alloca (?:\[(\d+) x i8\]|(\w+)), align (\d+)$')
COPY = re.compile(r'(\s*)(call void @llvm\.memmove\.p0\.p0\.i64\()ptr (%\w+), ptr (%\w+), i64 (\d+), (i1 false\))$')
CHECK = '''
define internal void @aligned(i64 %place, i64 %mask) noinline {
  %low = and i64 %place, %mask
  %good = icmp eq i64 %low, 0
  br i1 %good, label %on, label %stop
stop:
  call void @abort()
  unreachable
on:
  ret void
}
declare void @abort()
'''


def lines(module, check):
    """The module's lines, each copy told its alignment or checked for it."""
    variables, checks = {}, 0
    for line in module:
        line = line.rstrip('\n')
        if line.startswith('define'):
            variables = {}
        v, c = VARIABLE.match(line), COPY.match(line)
        if v:
            variables[v[1]] = (int(v[2]) if v[2] else SIZES[v[3]], int(v[4]))
        if c:
            told = max([a for size, a in (variables.get(c[k], (0, 1)) for k in (3, 4)) if size == int(c[5])], default=1)
            if check and told > 1:
                for place in c[3], c[4]:
                    checks += 1
                    yield '%s%%aligned%d = ptrtoint ptr %s to i64' % (c[1], checks, place)
                    yield '%scall void @aligned(i64 %%aligned%d, i64 %d)' % (c[1], checks, told - 1)
            elif told > 1:
                line = '%s%sptr align %d %s, ptr align %d %s, i64 %s, %s' % (c[1], c[2], told, c[3], told, c[4], c[5], c[6])
        yield line
    if check:
        yield CHECK


if __name__ == '__main__':
    for line in lines(sys.stdin, '--check' in sys.argv[1:]):
        print(line)
