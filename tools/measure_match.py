#!/usr/bin/env python3
"""Measures what matching costs, by the program that `./semscan` built.

First, on generated texts of 1,000,000 bytes: how many instructions the reading of the text takes (from bytes to its tree), how
many the matching, and the two together against the reading alone, by valgrind's callgrind. Instructions don't depend on what
else the machine does. Then, on wide texts, of many items, members, arguments or statements: the
processor time of a whole run without its start-up (the least of several) and its peak memory.
"""
import os
import re
import subprocess
import sys
import tempfile

from measure_json import PROGRAM, fill, least, peak, texts

BESIDE_READING = [
    ('records', ['7', '{"id": $I}', '{"id": $I, ...}', '{..., "tags": $T, ...}', '$X', '"..."', '[$X, $X]', '<... 7 ...>',
                 '{"id": $I, ..., "tags": $T}']),
    ('small records', ['{"id": $I}', '{"b": {"c": $X}}']),
]
# a language, a pattern, what its text holds, and how many of that
WIDE = [
    ('json', '[..., $X, ...]', 'numbers', 5_000),
    ('json', '[..., $X, ...]', 'numbers', 9_000),
    ('json', '[..., $X, ..., $Y, ...]', 'numbers', 5_000),
    ('json', '[..., 0, ..., 0, ..., 0, ...]', 'zeros', 100_000),
    ('json', '[..., $X, ..., $X, ...]', 'zeros', 2_000),
    ('json', '[..., $...X, ...]', 'numbers', 2_000),
    ('json', '[..., $...X, ...]', 'numbers', 10_000),
    ('json', '{"a": 0, ...}', 'equal members', 2_000),
    ('json', '{"a": 0, "a": 0, ...}', 'equal members', 2_000),
    ('json', '{$K: $V, ...}', 'members', 60_000),
    ('python', 'f(..., $X, ..., $Y, ...)', 'arguments', 3_000),
    ('python', 'f([..., $X, ..., $Y, ...])', 'items', 3_000),
    ('python', 'f(..., k2999=1)', 'named arguments', 3_000),
    ('python', 'f($K=1, ...)', 'named arguments', 3_000),
    ('python', 'f(k=1, k=1, ...)', 'equal names', 3_000),
    ('python', 'a()\n...\nb()', 'statements', 5_000),
]
# how often each is run
RUNS = 3


def text_of(name, count=0):
    if name == 'records':
        return dict(texts())['records']
    if name == 'small records':
        return fill('[', lambda k: '{"b":%d}' % (k % 10), ']')
    return WIDE_TEXTS[name](count)


def row(start, item, end):
    """A function that gives a text of so many items of a number, parted by commas."""
    return lambda count: start + ','.join(item(k) for k in range(count)) + end


WIDE_TEXTS = {
    'numbers': row('[', str, ']'),
    'zeros': row('[', lambda k: '0', ']'),
    'members': row('{', lambda k: '"k%d":0' % k, '}'),
    'equal members': row('{', lambda k: '"a":0', '}'),
    'arguments': row('f(', lambda k: 'a%d' % k, ')\n'),
    'items': row('f([', lambda k: 'a%d' % k, '])\n'),
    'named arguments': row('f(', lambda k: 'k%d=1' % k, ')\n'),
    'equal names': row('f(', lambda k: 'k=1', ')\n'),
    'statements': lambda count: 'a()\n' * count,
}


def instructions(pattern, path, folder):
    """The instructions of a run for the reading of the text, and for the matching."""
    out = os.path.join(folder, 'out')
    with open(path, 'rb') as source:
        subprocess.run(['valgrind', '--tool=callgrind', '--callgrind-out-file=' + out, os.path.abspath(PROGRAM), 'match', 'json', pattern],
                       stdin=source, stdout=subprocess.DEVNULL, stderr=subprocess.DEVNULL)
    said = subprocess.run(['callgrind_annotate', '--inclusive=yes', '--threshold=100', out], capture_output=True, text=True).stdout

    def most(word):
        found = [int(m.group(1).replace(',', '')) for m in re.finditer(r'^\s*([\d,]+) .*' + word, said, re.M)]
        return max(found) if found else sys.exit('callgrind names no function %s' % word)

    return most('read_json'), most('match_leaf')


def main():
    with tempfile.TemporaryDirectory() as folder:
        path = os.path.join(folder, 'text')

        def put(text):
            with open(path, 'w') as f:
                f.write(text)
            return len(text)

        for name, patterns in BESIDE_READING:
            size = put(text_of(name))
            for pattern in patterns:
                reading, matching = instructions(pattern, path, folder)
                print('%-13s %7d bytes  %-28s reading %6.1f, matching %6.1f million, ratio %.2f' % (
                    name, size, pattern, reading / 1e6, matching / 1e6, 1 + matching / reading))
        put('1')
        start, _ = least([PROGRAM, 'match', 'json', '1'], path)
        for language, pattern, name, count in WIDE:
            put(text_of(name, count))
            command = [PROGRAM, 'match', language, pattern]
            (took, status), room = least(command, path, RUNS), peak(command, path)
            print('%-30r %7d %-15s status %d, %8.1f ms, %3.0f MB' % (pattern, count, name, status, 1e3 * (took - start), room / 1e6))


if __name__ == '__main__':
    main()
