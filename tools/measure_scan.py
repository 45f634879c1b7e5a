#!/usr/bin/env python3
"""Measures `semscan scan` by the program that `./semscan` built: regular expressions beside ripgrep (`rg`), and formulas of growing size.

    tools/measure_scan.py [PROGRAM]

All times are processor times of whole runs, each the least of some. For a regular expression: for a text of 1,000,000 bytes, of which twenty are
scanned, net of texts of ten bytes. What its rule adds is the time less that of a rule that looks at no file. For formulas: one file in Python with N
functions, or with one class of N assignments and calls, each under a pattern alone and under the pattern with a `pattern-inside`.
"""
import glob
import json
import os
import resource
import subprocess
import sys
import tempfile

from measure_json import PROGRAM, SIZE

TEXTS = 20
EXPRESSIONS = ['import', 'zzzqqq', r'[A-Za-z_]+Error\b', r'\b(AKIA|ASIA)[0-9A-Z]{16}\b', r'def \w+\(self', '(?i)todo|fixme|xxx', r'\b[0-9a-f]{8}\b',
               r'[a-z]+_[a-z]+_[a-z]+\(']
HEAD = 'rules:\n  - id: one\n    languages: [%s]\n    severity: INFO\n    message: Found it here.\n'
INSIDE = HEAD % 'python' + '    patterns:\n      - pattern: f($X)\n      - pattern-inside: |\n%s'
FORMULAS = {
    'functions': ('', 'def g%d():\n    f(%d)\n', '          def $F(...):\n            ...\n'),
    'functions in one': ('def h():\n', '    def g%d():\n        f(%d)\n', '          def $F(...):\n            ...\n'),
    'a class': ('class A:\n', '    x%d = 1\n    f(x%d)\n', '          class A:\n            ...\n            $X = 1\n            ...\n'),
}


def seconds(words, folder, runs):
    """The processor time of the least of some runs."""
    times = []
    for _ in range(runs):
        before = resource.getrusage(resource.RUSAGE_CHILDREN)
        subprocess.run(words, cwd=folder, stdout=subprocess.DEVNULL, stderr=subprocess.DEVNULL)
        after = resource.getrusage(resource.RUSAGE_CHILDREN)
        times.append(after.ru_utime + after.ru_stime - before.ru_utime - before.ru_stime)
    return min(times)


def put(folder, name, text):
    path = os.path.join(folder, name)
    os.makedirs(os.path.dirname(path), exist_ok=True)
    with open(path, 'w') as f:
        f.write(text)


def library():
    """Printable ASCII of the modules of Python's library."""
    text, size = [], 0
    for path in sorted(glob.glob(os.path.join(os.path.dirname(os.__file__), '*.py'))):
        with open(path, encoding='latin-1') as f:
            text.append(''.join(c for c in f.read() if c in '\t\n' or ' ' <= c <= '~'))
        size += len(text[-1])
        if size >= SIZE:
            break
    return ''.join(text)[:SIZE]


def for_a_text(words, large, small):
    return 1e3 * (seconds(words, large, 10) - seconds(words, small, 10)) / TEXTS


def expressions(program, room):
    large, small = os.path.join(room, 'large'), os.path.join(room, 'small')
    for folder, text in ((large, library()), (small, 'x = 12345\n')):
        for k in range(TEXTS):
            put(folder, 'src/%02d.txt' % k, text)
        for k, expression in enumerate(EXPRESSIONS):
            put(folder, '%d.yaml' % k, HEAD % 'regex' + "    pattern-regex: '%s'\n" % expression)
        put(folder, 'none.yaml', HEAD % 'regex' + '    pattern-regex: x\n    paths:\n      include: [nothing]\n')
    reading = for_a_text([program, 'scan', '--config', 'none.yaml', 'src'], large, small)
    print('a rule that looks at no file: %.2f ms a text' % reading)
    for k, expression in enumerate(EXPRESSIONS):
        ours = for_a_text([program, 'scan', '--config', '%d.yaml' % k, 'src'], large, small)
        theirs = for_a_text(['rg', '--no-config', '-j1', '-o', '-b', '-N', '-e', expression, 'src'], large, small)
        print('%-30s the rule adds %.2f ms, whole scan %.2f ms, ripgrep %.2f ms, ratio %.1f' % (expression, ours - reading, ours, theirs, ours / theirs))


def formulas(program, room):
    for name, (head, each, inside) in FORMULAS.items():
        for n in (1_250, 2_500, 5_000, 10_000):
            folder = os.path.join(room, 'formulas')
            put(folder, 'src/a.py', head + ''.join(each % (k, k) for k in range(n)))
            put(folder, 'alone.yaml', HEAD % 'python' + '    pattern: f($X)\n')
            put(folder, 'inside.yaml', INSIDE % inside)
            times = [1e3 * seconds([program, 'scan', '--config', config, 'src'], folder, 4) for config in ('alone.yaml', 'inside.yaml')]
            found = subprocess.run([program, 'scan', '--config', 'inside.yaml', 'src'], cwd=folder, capture_output=True).stdout
            print('%-17s %6d: the pattern alone %.0f ms, with pattern-inside %.0f ms, %d results' % (name, n, *times, len(json.loads(found)['results'])))


def main():
    program = os.path.abspath(sys.argv[1] if sys.argv[1:] else PROGRAM)
    with tempfile.TemporaryDirectory() as room:
        expressions(program, room)
        formulas(program, room)


main()
