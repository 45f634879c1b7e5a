#!/usr/bin/env python3
"""Tries patterns with dots and names in each place where a list stands, on texts of 1,000,000 bytes.

    tools/try_lists.py [--program PROGRAM] [--seconds N] [--all] [WORD ..]

PROGRAM is the program as `./semscan` built it, if none is given. Each place is tried with equal items and with different ones. A run that takes more than
four seconds, or more than N (15, if none are given) and is ended then, is printed; with --all each is. With WORDs only the places whose names have one of
them are tried. The status is 1 if a run was ended.
"""
import argparse
import os
import subprocess
import sys
import time

from measure_json import PROGRAM

SIZE = 1_000_000
SLOW = 4
# a place, its language, the pattern around the items, and the text before and after them
PLACES = [
    ('arguments', 'python', 'f(%s)', 'f(', ')\n'),
    ('arguments beside one with a name', 'python', 'f(%s, k=1)', 'f(', ', k=1)\n'),
    ('parameters', 'python', 'def f(%s): ...', 'def f(', '): pass\n'),
    ('items of a list', 'python', '[%s]', '[', ']\n'),
    ('items of a tuple', 'python', '(%s)', '(', ')\n'),
    ('items of with', 'python', 'with %s: ...', 'with ', ': pass\n'),
    ('names of an import', 'python', 'from m import %s', 'from m import ', '\n'),
    ('items of an array', 'json', '[%s]', '[', ']'),
    ('initialisers in C', 'c', 'int x[] = {%s};', 'int x[] = {', '};'),
    ('arguments in C', 'c', 'f(%s)', 'int g(void) { f(', '); }'),
]
PATTERNS = [
    '..., $X, ...',
    '..., $X, ..., $Y, ...',
    '..., $X, ..., $X, ...',
    '..., $X, ..., $Y, ..., $Z, ...',
    '..., $X, ..., $Y, ..., $X, ...',
    '..., $X, ..., $X, ..., $X, ...',
    '..., $X, ..., $X',
    '$X, ..., $Y, ..., $X',
    '$X, ..., $X, ..., $X',
    '..., $X, $X, ...',
]


def text_of(before, after, item):
    """Items between two texts, as many as there is room for."""
    parts = []
    left = SIZE - len(before) - len(after)
    while True:
        part = (',' if parts else '') + item(len(parts))
        if left < len(part):
            return before + ''.join(parts) + after
        parts.append(part)
        left -= len(part)


def items(name, language):
    """What equal and different items are called, and how they are written. No two parameters may be equal."""
    letter = '' if language == 'json' else 'a'
    different = ('different', lambda at: letter + str(at))
    return [different] if name == 'parameters' else [('equal', lambda at: letter or '0'), different]


def run(program, language, pattern, text, most):
    """The seconds of a run and its status, or None where it took too long."""
    begun = time.monotonic()
    try:
        done = subprocess.run([program, 'match', language, pattern], input=text.encode(), capture_output=True, timeout=most)
    except subprocess.TimeoutExpired:
        return None
    return time.monotonic() - begun, done.returncode


def main():
    parser = argparse.ArgumentParser(description=__doc__.split('\n')[0])
    parser.add_argument('--program', default=PROGRAM)
    parser.add_argument('--seconds', type=float, default=15)
    parser.add_argument('--all', action='store_true')
    parser.add_argument('words', nargs='*')
    given = parser.parse_args()
    program = os.path.abspath(given.program)
    tried = ended = 0
    for name, language, around, before, after in PLACES:
        if given.words and not any(word in name for word in given.words):
            continue
        for kind, item in items(name, language):
            text = text_of(before, after, item)
            for inner in PATTERNS:
                took = run(program, language, around % inner, text, given.seconds)
                tried += 1
                ended += took is None
                if took is None or given.all or SLOW < took[0]:
                    what = 'more than %g s' % given.seconds if took is None else '%.2f s, status %d' % took
                    print('%s, %s: %r: %s' % (name, kind, around % inner, what), flush=True)
    print('%d runs, %d of them ended' % (tried, ended))
    return 1 if ended else 0


if __name__ == '__main__':
    sys.exit(main())
