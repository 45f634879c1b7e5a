#!/usr/bin/env python3
"""Measures what knowing constants adds to the reading of files.

    tools/measure_constants.py BEFORE [PROGRAM]

BEFORE is a program built from a commit in which no name was known, PROGRAM one in which names are (as `./semscan` built it, if none is given).
Both search for a call that no file has, so that all they do is read; the call has a string, so that known names are found. Times are processor times of whole runs without their start-up, each the
least of some. First: the files of the standard library of the Python that runs this, and those of some thousand C headers of the machine that have a tree,
one a run; all together, and the dearest among those of 20,000 bytes and more. Then: generated texts, of a size and of twice that size.
"""
import os
import sys
import tempfile

from measure_json import PROGRAM, SIZE, least
from measure_python import files

HEADERS, SAMPLE, LARGE = '/usr/include', 1000, 20_000
NOTHING = 'zzz_nothing("a")'


def headers():
    """At most so many of the machine's headers, spread over all of them."""
    found = sorted(os.path.join(folder, name) for folder, _, names in os.walk(HEADERS) for name in names if name.endswith('.h'))
    return [path for path in found[::max(1, len(found) // SAMPLE)] if os.path.getsize(path) <= SIZE]


def nest(depth, head='while (c) ', tail=''):
    """A function in C of statements that stand in one another."""
    return 'void f(int c) {' + ''.join('%s{ x = %d; y = x;' % (head, k % 3) for k in range(depth)) + ('}' + tail) * depth + '}\n'


def deep(head, tail=''):
    """Statements in Python that stand in one another, each with a part behind what it holds."""
    def text(depth):
        parts = [' ' * k + head + '\n' + ' ' * k + ' x = %d\n' % (k % 3) for k in range(depth)]
        parts += [' ' * k + tail + '\n' + ' ' * k + ' x = 3\n' for k in reversed(range(depth)) if tail]
        return ''.join(parts)
    return text


def jumps(size):
    return 'void f(int c) {' + ''.join('goto l%d; x = 1; l%d: ;' % (size - 1 - k, k) for k in range(size)) + '}\n'


def lines(text):
    """A text of one line, or some, for each number below a size."""
    return lambda size: ''.join(text % {'k': k, 'next': k + 1} for k in range(size))


# a name, the language, a size, and the text of a size
GROWING = [
    ('statements', 'python', 20_000, lines('x = 1\nf(x)\n')),
    ('names', 'python', 2_400, lines('a%(k)d = 1\n')),
    ('literals', 'python', 3_400, lines('x = %(k)d\n')),
    ('copies', 'python', 2_400, lines('a%(next)d = a%(k)d\n')),
    ('copies in a loop', 'python', 2_400, lambda size: 'while c:\n' + ''.join(' a%d = a%d\n' % (k + 1, k) for k in reversed(range(size)))),
    ('names and literals', 'python', 12_000, lines('a%(k)d = %(k)d\n')),
    ('functions', 'python', 6_000, lines('def f%(k)d(a):\n    b = "x"\n    g(a, b, f)\n')),
    ('fixed names', 'python', 1_200, lines('K%(k)d = "a"\ndef f%(k)d():\n    return K%(k)d\n')),
    ('functions in functions', 'python', 8, lambda size: size * ''.join(' ' * k + 'def f%d():\n' % k + ' ' * k + ' x%d = 1\n' % k for k in range(150))),
    ('branches', 'python', 8_000, lines('if c:\n    x = 1\nelse:\n    y = x\n')),
    ('handlers', 'python', 5_000, lambda size: 'try:\n' + '    x = 1\n' * size + ''.join('except E%d:\n    f(x)\n' % k for k in range(4))),
    ('nested loops', 'c', 100, lambda size: nest(size) * 60),
    ('cases', 'c', 5_000, lambda size: 'void f(int c) { switch (c) {' + ''.join('case %d: x = %d; break;\n' % (k, k % 5) for k in range(size)) + '} }\n'),
    ('parameters', 'c', 4_000, lines('int f%(k)d(int a, char *b) { int d = 3; return g(a, d, b[0]); }\n')),
    ('many statements', 'python', 25_000, lines('x = %(k)d\n')),
    ('many functions', 'python', 5_000, lines('def f%(k)d(a):\n    g(a, "x")\n')),
    ('many functions in c', 'c', 5_000, lines('int f%(k)d(int a) { return g(a, "x"); }\n')),
    ('jumps to labels', 'c', 5_000, jumps),
]

# statements that stand in one another, as deep as trees may be
GROWING += [('nested ' + name, 'python', 120, deep(*parts)) for name, parts in (
    ('if', ['if c:']), ('else', ['if c:', 'else:']), ('for', ['for a in c:']), ('while', ['while c:']), ('with', ['with c as a:']),
    ('except', ['try:', 'except E:']), ('finally', ['try:', 'finally:']), ('class', ['class C:']), ('def', ['def f(a):']))]
GROWING += [('nested %s in c' % name, 'c', 120, lambda size, parts=parts: nest(size, *parts)) for name, parts in (
    ('if', ['if (c) ']), ('else', ['if (c) ', ' else { x = 3; }']), ('for', ['for (; c; x++) ']), ('do', ['do ', ' while (c);']), ('switch', ['switch (c) ']))]


class Reader:
    """A program that reads."""

    def __init__(self, path, folder):
        self.path, self.starts = os.path.abspath(path), {}
        for lang, text in (('python', '1\n'), ('c', ';\n')):
            small = os.path.join(folder, 'small')
            with open(small, 'w') as f:
                f.write(text)
            self.starts[lang] = self.whole(lang, small, 15)[0]

    def whole(self, lang, path, runs):
        return least([self.path, 'match', lang, NOTHING], path, runs)

    def reads(self, lang, path, runs):
        """The seconds of the reading of a file, or None where it has no tree."""
        took, status = self.whole(lang, path, runs)
        return max(took - self.starts[lang], 1e-6) if status == 0 else None


def compare(name, lang, paths, before, after):
    count, old, new, dearest = 0, 0.0, 0.0, (0, '')
    for path in paths:
        a = before.reads(lang, path, 3)
        if a is None:
            continue
        b = after.reads(lang, path, 3)
        if b is None:
            sys.exit('%s has a tree before, and none after' % path)
        count, old, new = count + 1, old + a, new + b
        if os.path.getsize(path) >= LARGE:
            dearest = max(dearest, (b / a, path))
    print('%-8s %5d files: before %7.2f s, after %7.2f s, ratio %.2f; dearest %.2f, %s' % (name, count, old, new, new / old, *dearest))


def main():
    if len(sys.argv) not in (2, 3):
        sys.exit(__doc__)
    with tempfile.TemporaryDirectory() as folder:
        before, after = Reader(sys.argv[1], folder), Reader(sys.argv[2] if sys.argv[2:] else PROGRAM, folder)
        compare('library', 'python', [path for path, _, tree in files() if tree is not None], before, after)
        compare('headers', 'c', headers(), before, after)
        path = os.path.join(folder, 'text')
        for name, lang, size, text in GROWING:
            times = []
            for many in (size, 2 * size):
                with open(path, 'w') as f:
                    f.write(text(many))
                times.append((before.reads(lang, path, 5), after.reads(lang, path, 5)))
            if None in times[0] + times[1]:
                sys.exit('%s has no tree, or more than 1,000,000 bytes' % name)
            (small, one), (large, two) = times
            print('%-22s %6d: %7.1f ms, twice: %7.1f ms, growth %.2f (before %.2f), ratio %.2f' % (
                name, size, 1e3 * one, 1e3 * two, two / one, large / small, two / large))


if __name__ == '__main__':
    main()
