#!/usr/bin/env python3
"""Measures what searches cost as rules become more, and lists and repetitions longer.

    tools/measure_search.py [PROGRAM]

PROGRAM is the program as `./semscan` built it, if none is given. First, scans of 940,000 bytes of CPython's library by rules `name(...)`: by ten, by
a thousand whose names the text calls, and by a thousand of which it calls only ten. Then `match` on texts whose lists grow to twice as many
items, with two and three dots, and on expressions nested 400 deep. Times are processor times of whole runs, each the least of
three; memory is the most that a run held. A run that takes longer than a minute is ended, and told as that.
"""
import glob
import os
import re
import subprocess
import sys
import tempfile
import time

from measure_json import PROGRAM

LIBRARY = 940_000
LONGEST = 60
RUNS = 3
RULE = '- id: r%d\n  languages: [python]\n  severity: INFO\n  message: m\n  pattern: %s(...)\n'


def commas(start, item, end):
    """A function that gives a text of so many items of a number, parted by commas."""
    return lambda count: start + ','.join(item(k) for k in range(count)) + end


def chain(start, item, end):
    """A function that gives a text of so many items one behind the other."""
    return lambda count: start + ''.join(item(k) for k in range(count)) + end


TWICE = '%s$X, ..., $X, ...%s'
THRICE = '%s$X, ..., $X, ..., $X, ...%s'
# what grows, a language, a pattern, a text of so many items, and how many
GROWING = [
    ('equal items', 'json', TWICE % ('[..., ', ']'), commas('[', lambda k: '0', ']'), 249_999),
    ('different items', 'json', TWICE % ('[..., ', ']'), commas('[', str, ']'), 50_000),
    ('equal items, the last one again', 'json', '[..., $X, ..., $X]', commas('[', lambda k: '0', ']'), 1_000),
    ('equal items, three names', 'json', THRICE % ('[..., ', ']'), commas('[', lambda k: '0', ']'), 100_000),
    ('different members', 'json', '{$K: $V, ...}', commas('{', lambda k: '"k%d":0' % k, '}'), 30_000),
    ('members in a list, two names', 'json', '[{$A: $B, $C: $D, ...}, $E, $E]', commas('[{', lambda k: '"k%d":0' % k, '},1,2]'), 250),
    ('equal members', 'json', '{"a": $X, "a": $X, ...}', commas('{', lambda k: '"a":0', '}'), 1_000),
    ('equal arguments', 'python', TWICE % ('f(..., ', ')'), commas('f(', lambda k: 'a', ')\n'), 100_000),
    ('different arguments', 'python', TWICE % ('f(..., ', ')'), commas('f(', lambda k: 'a%d' % k, ')\n'), 50_000),
    ('arguments, two names', 'python', 'f(..., $X, ..., $Y, ...)', commas('f(', lambda k: 'a%d' % k, ')\n'), 1_500),
    ('arguments in a list, two names', 'python', 'f([..., $X, ..., $Y, ...], 1)', commas('f([', lambda k: 'a%d' % k, '],1)\n'), 500),
    ('named arguments, two names', 'python', 'f($A=0, $B=0, ...)', commas('f(', lambda k: 'k%d=0' % k, ')\n'), 25_000),
    ('named arguments in a call', 'python', 'g(f($A=0, $B=0, ...), $E, $E)', commas('g(f(', lambda k: 'k%d=0' % k, '), 1, 2)\n'), 250),
    ('arguments before one with a name', 'python', 'f(..., $X, ..., $Y, ..., k=0)', commas('f(', lambda k: 'a', ', k=0)\n'), 50_000),
    ('parameters', 'python', 'def f(..., $X, ..., $Y, ...): ...', commas('def f(', lambda k: 'a%d' % k, '): pass\n'), 1_500),
    ('items of an array', 'python', TWICE % ('[..., ', ']'), commas('x = [', lambda k: '0', ']\n'), 100_000),
    ('statements without the second', 'python', 'a()\n...\nb()', chain('', lambda k: 'a()\n', ''), 120_000),
    ('statements, reading alone', 'python', 'zzz', chain('', lambda k: 'a()\n', ''), 120_000),
    ('statements with a name twice', 'python', '$X = 1\n...\n$X = 2', chain('', lambda k: 'a%d = 1\n' % k, ''), 5_000),
    ('statements with a name twice, calls', 'python', 'a($X)\n...\nb($X)', chain('', lambda k: 'a(%d)\nb(-%d)\n' % (k, k), ''), 20_000),
    ('arguments in C', 'c', TWICE % ('f(..., ', ')'), commas('int g(void) { f(', lambda k: 'a', '); }'), 100_000),
    ('initialisers in C', 'c', 'int x[] = {..., $X, ..., $X, ...};', commas('int x[] = {', lambda k: '0', '};'), 100_000),
]
SUMS = 'x = ' + ' + '.join('a' for _ in range(400)) + '\n'
CALLS = 'x = ' + 'g(' * 400 + 'a' + ')' * 400 + '\n'
DEEP = [('sums 400 deep', SUMS), ('calls 400 deep', CALLS)]
DEEP_PATTERNS = ['<... <... <... $X ...> ...> ...>', 'f(<... g(<... $X ...>) ...>)', 'g(<... g(<... $X ...>) ...>)']


def run(words, path, folder):
    """The processor seconds of a run, the most bytes that it held, and its status, or None where it took too long."""
    with open(path, 'rb') as source:
        child = subprocess.Popen(words, stdin=source, stdout=subprocess.DEVNULL, stderr=subprocess.DEVNULL, cwd=folder)
    begun = time.monotonic()
    while True:
        pid, status, used = os.wait4(child.pid, os.WNOHANG)
        if pid:
            child.returncode = os.waitstatus_to_exitcode(status)
            return used.ru_utime + used.ru_stime, used.ru_maxrss * 1024, child.returncode
        if time.monotonic() - begun > LONGEST:
            child.kill()
            child.wait()
            return None
        time.sleep(0.002)


def least(words, path, folder):
    """The run of three that took the least, or None where one took too long."""
    tried = []
    for _ in range(RUNS):
        one = run(words, path, folder)
        if one is None:
            return None
        tried.append(one)
    return min(tried)


def told(one):
    return 'more than %d s' % LONGEST if one is None else '%8.1f ms, %4.0f MB, status %d' % (1e3 * one[0], one[1] / 1e6, one[2])


def library():
    """Modules of CPython's library, one behind the other."""
    text = ''
    for path in sorted(glob.glob(os.path.join(os.path.dirname(os.__file__), '*.py'))):
        with open(path, encoding='utf-8') as file:
            module = file.read()
        if '\r' not in module and 'from __future__' not in module and len((text + module).encode()) <= LIBRARY:
            text += module
    return text


def rules(program, folder):
    """What rules add, in a text that has their names and in one that lacks them."""
    text = library()
    os.mkdir(os.path.join(folder, 'src'))
    with open(os.path.join(folder, 'src', 'a.py'), 'w', encoding='utf-8') as file:
        file.write(text)
    called = sorted(set(re.findall(r'\b([a-z_]\w+)\(', text)) - {'print', 'super'})
    absent = ['absent_%d' % k for k in range(990)]
    took = {}
    for name, names in (('ten', called[:10]), ('called', called[:1_000]), ('absent', called[:10] + absent)):
        with open(os.path.join(folder, name + '.yaml'), 'w', encoding='utf-8') as file:
            file.write('rules:\n' + ''.join(RULE % rule for rule in enumerate(names)))
        took[name] = least([program, 'scan', '--max', '50000', '--config', name + '.yaml', 'src'], os.devnull, folder)
        print('%d bytes of the library, %4d rules, %-7s %s' % (len(text.encode()), len(names), name + ':', told(took[name])))
    if all(took.values()):
        for name in ('called', 'absent'):
            print('a pattern more, %s: %.1f microseconds; 1,000 rules take %.1f times as long as ten' % (
                name, 1e6 * (took[name][0] - took['ten'][0]) / 990, took[name][0] / took['ten'][0]))


def growing(program, folder):
    """Texts of n and 2n items."""
    path = os.path.join(folder, 'text')
    for what, language, pattern, text, count in GROWING:
        seen = []
        for items in (count, 2 * count):
            with open(path, 'w', encoding='utf-8') as file:
                file.write(text(items))
            seen.append(least([program, 'match', language, pattern], path, folder))
            print('%-31s %-36r %6d items: %s' % (what, pattern, items, told(seen[-1])))
        if all(seen):
            print('%-31s %.1f times as long' % (what, seen[1][0] / seen[0][0]))


def deep(program, folder):
    """Dots at any depth in expressions that are nested deep."""
    path = os.path.join(folder, 'text')
    for what, text in DEEP:
        with open(path, 'w', encoding='utf-8') as file:
            file.write(text)
        for pattern in DEEP_PATTERNS:
            print('%-31s %-36r %s' % (what, pattern, told(least([program, 'match', 'python', pattern], path, folder))))


def main():
    program = os.path.abspath(sys.argv[1] if sys.argv[1:] else PROGRAM)
    print('load %.1f' % os.getloadavg()[0])
    with tempfile.TemporaryDirectory() as folder:
        rules(program, folder)
        growing(program, folder)
        deep(program, folder)


if __name__ == '__main__':
    main()
