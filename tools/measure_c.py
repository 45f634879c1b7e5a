#!/usr/bin/env python3
"""Measures `semscan match c PATTERN` on texts of 1,000,000 bytes, beside gcc's and, where it is installed, spatch's time.

    tools/measure_c.py [FILE ..]

It measures the program that `./semscan` built: on generated functions, and on the given files one behind the other, as often as they fit; give
files that have a tree (tools/read_c.py tells which). It prints the processor time of a whole run without its start-up (the least of several runs),
that of `gcc -fsyntax-only` on the same text, and of `spatch` with `strcpy(D, S)` in place of `strcpy($D, $S)`, and the program's peak memory a
source byte.
"""
import os
import shutil
import sys
import tempfile

from measure_json import PROGRAM, SIZE, least, peak

RULE = '@@ expression D, S; @@\n* strcpy(D, S)\n'


def functions():
    one = ('static int f%d(struct node *n, const char *s)\n{\n    char b[16];\n    unsigned i;\n    if (n == 0)\n        return -1;\n'
           '    for (i = 0; i < 16; i++)\n        b[i] = s[i];\n    strcpy(b, s);\n    return g(n->next, (int)i) + b[0] * 2;\n}\n\n')
    parts, size = ['struct node { struct node *next; };\n'], 40
    while size < SIZE - 400:
        parts.append(one % len(parts))
        size += len(parts[-1])
    return ''.join(parts)


def repeated(paths):
    texts = [open(path, encoding='utf-8').read() for path in paths]
    parts, size = [], 0
    while texts:
        for text in texts:
            size += len(text.encode()) + 1
            if size > SIZE:
                return ''.join(parts)
            parts.append(text + '\n')
    return ''.join(parts)


def main():
    ours = [os.path.abspath(PROGRAM), 'match', 'c', 'strcpy($D, $S)']
    with tempfile.TemporaryDirectory() as folder:
        small = os.path.join(folder, 'small.c')
        with open(small, 'w') as f:
            f.write(';\n')
        rule = os.path.join(folder, 'rule.cocci')
        with open(rule, 'w') as f:
            f.write(RULE)
        start, _ = least(ours, small)
        print('start-up of semscan: %.1f ms' % (1e3 * start))
        for name, text in [('functions', functions())] + ([('files', repeated(sys.argv[1:]))] if sys.argv[1:] else []):
            path = os.path.join(folder, name + '.c')
            with open(path, 'w') as f:
                f.write(text)
            size = os.path.getsize(path)
            took, status = least(ours, path)
            if status != 0:
                sys.exit('%s ends with %d on %s' % (ours[0], status, name))
            line = '%-9s %7d bytes: semscan %6.1f ms, %3.0f bytes of memory a byte' % (name, size, 1e3 * (took - start), peak(ours, path) / size)
            if shutil.which('gcc'):
                line += ', gcc %.1f ms' % (1e3 * least(['gcc', '-w', '-fsyntax-only', path], path)[0])
            if shutil.which('spatch'):
                line += ', spatch %.1f ms' % (1e3 * least(['spatch', '--sp-file', rule, path], path, 1)[0])
            print(line)


if __name__ == '__main__':
    main()
