#!/usr/bin/env python3
"""Runs out of memory at each allocation in turn, in two sessions and in `fix`, and looks how each run ends.

    tools/try_memory.py [--onwards] [--each N] [--only NAME]

A shared object, whose source stands below and which `cc` builds, is loaded before the C library (LD_PRELOAD) and lets the n-th allocation of the
program fail, for n = 1, 2, 3 and so on until a run meets no failure; with `--onwards` also all after it, and with `--each` for each N-th n alone.
Each run must end as docs/SESSIONS.md says: with status 3, its line on standard error and a front of the lines of a run with memory enough; or as that
run ends, where the program did without the allocation. After `fix` each file must be as it was or have all its fixes, the changed ones being
those that come first by path, and nothing else may be in the folder.

The program must be linked to the C library at run time, else nothing fails, which the tool says. SEMSCAN names the program, as everywhere in integrations/.
"""
import argparse
import collections
import os
import subprocess
import sys
import tempfile

from session_lines import command, needed_program

SOURCE = r'''
#include <errno.h>
#include <stddef.h>
#include <stdio.h>
#include <stdlib.h>
#include <unistd.h>

extern void *__libc_malloc(size_t), *__libc_calloc(size_t, size_t), *__libc_realloc(void *, size_t), *__libc_memalign(size_t, size_t);

static unsigned long count, first, last;
static int told;

static unsigned long number(const char *name)
{
    const char *text = getenv(name);
    return text ? strtoul(text, NULL, 10) : 0;
}

__attribute__((constructor)) static void begin(void)
{
    first = number("FAILS_FROM");
    last = number("FAILS_TO");
    told = (int)number("FAILS_TOLD");
    count = 0;
}

__attribute__((destructor)) static void end(void)
{
    char line[32];
    int length = snprintf(line, sizeof line, "count %lu\n", count);
    if (told && write(told, line, (size_t)length) < 0)
        _exit(99);
}

static int fails(void)
{
    count++;
    if (count < first || count > last)
        return 0;
    if (count == first && write(told, "failed\n", 7) < 0)
        _exit(99);
    errno = ENOMEM;
    return 1;
}

void *malloc(size_t size) { return fails() ? NULL : __libc_malloc(size); }
void *calloc(size_t each, size_t size) { return fails() ? NULL : __libc_calloc(each, size); }
void *realloc(void *old, size_t size) { return fails() ? NULL : __libc_realloc(old, size); }
void *aligned_alloc(size_t align, size_t size) { return fails() ? NULL : __libc_memalign(align, size); }
int posix_memalign(void **place, size_t align, size_t size)
{
    void *got = fails() ? NULL : __libc_memalign(align, size);
    if (!got)
        return ENOMEM;
    *place = got;
    return 0;
}
'''

RULE = b'rules:\n- id: p\n  languages: [python]\n  severity: INFO\n  message: m\n  pattern: %s\n'
CALLS = RULE % b'f($X)'
FIXED = CALLS + b'  fix: g($X)\n'
CODE = b'f(f(1))\nf(2)\n'
MANY = FIXED + b'''- id: q
  languages: [python, regex]
  severity: ERROR
  message: $Y
  patterns:
  - pattern-regex: g\\(.\\)
  paths:
    include: [src]
- id: t
  mode: taint
  languages: [python]
  severity: LOW
  message: from one to the other
  pattern-sources:
  - pattern: source()
  pattern-sinks:
  - pattern: os.system($X)
- id: run
  languages: [python]
  severity: HIGH
  message: m
  pattern: |
    $A = "a"
    ...
    f($A)
- id: calls
  languages: [c, json]
  severity: LOW
  message: m
  pattern-regex: '1'
- id: kept
  languages: [c]
  severity: LOW
  message: m
  pattern: f(..., $X)
- id: key
  languages: [json]
  severity: LOW
  message: m
  pattern: '{"k": $V, ...}'
'''
OTHERS = {'src/c.c': b'int f(char *a) {\n    return f(a, "b");  // c\n}\n', 'src/d.json': b'{"k": [1, {"k": 2}]}\n'}
LONGER = b'import os\nA = "a"\nx = source()\nos.system(x)  # nosemgrep: p\nf(A)\n' + CODE


def stream(*commands):
    return b''.join(command(*each) for each in commands) + b'end\n'


Case = collections.namedtuple('Case', 'words input files')
CASES = {
    'reports': Case(['session'], stream(
        ('put', 'a.py', b'f(1)\n'), ('rule', 'r', CALLS), ('scan',), ('put', 'a.py', b'f(1)\n'), ('scan',), ('rule', 'r', RULE % b'f(2)'), ('scan',),
        ('del', 'a.py'), ('scan',)), {}),
    'fixes': Case(['session'], stream(('put', 'a.py', CODE), ('rule', 'r', FIXED), ('fix',), ('scan',), ('fix',)), {}),
    'folder': Case(['session'], stream(
        ('rule', 'r', MANY), ('sync', 'src'), ('scan',), ('put', 'src/b.py', LONGER + b'f(3)\n'), ('scan',), ('sync', 'src'), ('scan',)),
        {'src/a.py': CODE, 'src/b.py': LONGER, **OTHERS}),
    'fix': Case(['fix', '--config', 'r.yaml', 'src'], b'', {'r.yaml': FIXED, 'src/a.py': CODE, 'src/b/c.py': LONGER, 'src/d.py': b'f(f(f(1)))\n'}),
    'scan': Case(['scan', '--config', 'r.yaml', 'src'], b'', {'r.yaml': MANY, 'src/a.py': CODE, 'src/b/c.py': LONGER, **OTHERS}),
}
PATIENCE = 60
Ended = collections.namedtuple('Ended', 'status out said files failed count')


def fill(folder, files):
    for path, content in files.items():
        os.makedirs(os.path.dirname(os.path.join(folder, path)), exist_ok=True)
        with open(os.path.join(folder, path), 'wb') as file:
            file.write(content)


def taken(folder):
    """The files of a folder, by path."""
    found = {}
    for place, _, names in os.walk(folder):
        for name in names:
            with open(os.path.join(place, name), 'rb') as file:
                found[os.path.relpath(os.path.join(place, name), folder)] = file.read()
    return found


def run(words, case, first, last):
    """How the program ends where its allocations from one to another fail."""
    with tempfile.TemporaryDirectory(prefix='semscan-memory-') as folder:
        fill(folder, case.files)
        reader, writer = os.pipe()
        set_up = {'LD_PRELOAD': words[0], 'FAILS_FROM': str(first), 'FAILS_TO': str(last), 'FAILS_TOLD': str(writer)}
        ended = subprocess.run([*words[1:], *case.words], input=case.input, cwd=folder, env=set_up, pass_fds=[writer], capture_output=True, check=False,
                               timeout=PATIENCE)
        os.close(writer)
        with open(reader, 'rb') as told:
            lines = told.read().split(b'\n')
        counts = [int(line.split()[1]) for line in lines if line.startswith(b'count')]
        return Ended(ended.returncode, ended.stdout, ended.stderr, taken(folder), b'failed' in lines, counts[0] if counts else 0)


def faults(case, whole, ended):
    """What is wrong with the end of a run in which an allocation failed, beside a run with memory enough."""
    old, new = case.files, whole.files
    if set(ended.files) != set(old):
        yield 'the folder has %s' % sorted(set(ended.files) ^ set(old))
    paths = sorted(path for path in old if path in ended.files and old[path] != new[path])
    parts = [path for path in old if ended.files.get(path, old[path]) not in (old[path], new[path])]
    if parts:
        yield 'neither old nor new: %s' % parts
    changed = [ended.files[path] == new[path] for path in paths]
    if changed != sorted(changed, reverse=True):
        yield 'changed before a file that comes first: %s' % dict(zip(paths, changed))
    if ended.status == whole.status:
        if ended[:4] != whole[:4]:
            yield 'status %d, and another output: %r, %r' % (ended.status, ended.out, ended.said)
    elif (ended.status, ended.said) != (3, b'semscan: out of memory\n'):
        yield 'status %d, %r' % (ended.status, ended.said)
    elif not whole.out.startswith(ended.out) or ended.out[-1:] not in (b'', b'\n'):
        yield 'the output is no front of the lines: %r' % ended.out


def try_case(words, name, case, onwards, each):
    """Lets each allocation of a case fail; the count of runs that went wrong."""
    whole = run(words, case, 0, 0)
    if not whole.count or whole.status:
        sys.exit('%s: the run without failures ended with %d (%r) and %d allocations were seen' % (name, whole.status, whole.said, whole.count))
    ways, wrong, first = collections.Counter(), 0, 1
    while True:
        ended = run(words, case, first, sys.maxsize if onwards else first)
        if not ended.failed and ended.status == whole.status:
            break
        for fault in faults(case, whole, ended):
            wrong += 1
            print('%s, allocation %d: %s' % (name, first, fault))
        new = sum(ended.files[path] != case.files[path] for path in case.files if path in ended.files)
        ways[ended.status, ended.out.count(b'\n'), new] += 1
        first += each
    print('%s: %d allocations, %d runs, %d of them wrong' % (name, whole.count, sum(ways.values()), wrong))
    for (status, lines, new), count in sorted(ways.items()):
        print('    status %d after %d lines and %d changed files: %d' % (status, lines, new, count))
    return wrong


def main():
    parser = argparse.ArgumentParser(description=__doc__, formatter_class=argparse.RawDescriptionHelpFormatter)
    parser.add_argument('--onwards', action='store_true')
    parser.add_argument('--each', type=int, default=1)
    parser.add_argument('--only', choices=CASES)
    chosen = parser.parse_args()
    program = needed_program()
    with tempfile.TemporaryDirectory(prefix='semscan-memory-') as folder:
        built = os.path.join(folder, 'fails.so')
        subprocess.run(['cc', '-O1', '-fno-builtin', '-shared', '-fPIC', '-x', 'c', '-o', built, '-'], input=SOURCE.encode(), check=True)
        wrong = sum(try_case([built, program], name, case, chosen.onwards, chosen.each)
                    for name, case in CASES.items() if chosen.only in (None, name))
    sys.exit(1 if wrong else 0)


main()
