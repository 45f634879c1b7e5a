#!/usr/bin/env python3
"""Measures `semscan match python PATTERN` beside Python's ast.parse on texts of 1,000,000 bytes.

It measures the program that `./semscan` built. The texts are one expression each: generated lists, and the expressions of the
standard library of the Python that runs this, in one list; or modules: generated functions, and files of that library one behind the other.
Expressions are matched by `zzz`, modules by `f($X)`. With --library it reads each file of the library instead, and prints how many have a
tree, how many of the others have a `match` or an `except*`, and the slowest a byte among those of 20,000 bytes and more. It prints, for each text, the processor time of a whole run without
its start-up (the least of several runs, less the least of as many runs on `1`), the processor time of ast.parse alone on the same
text (the least of as many), the ratio of the two, and the program's peak memory a source byte.
"""
import ast
import os
import sys
import sysconfig
import tempfile

from measure_json import PROGRAM, SIZE, fill, least, least_parse, peak

# prints the processor time that ast.parse takes
PARSE = ('import sys, ast, time; text = sys.stdin.buffer.read(); start = time.process_time(); ast.parse(text); '
         'print(time.process_time() - start)')


def written(lines, node):
    """A node as it is written, from the lines of its file as bytes."""
    first, last = node.lineno - 1, node.end_lineno - 1
    if first == last:
        return lines[first][node.col_offset:node.end_col_offset]
    return b''.join([lines[first][node.col_offset:], *lines[first + 1:last], lines[last][:node.end_col_offset]])


def expressions():
    """The expressions of the standard library's statements, each as it is written, in the files' order."""
    top = sysconfig.get_paths()['stdlib']
    for folder, folders, files in sorted(os.walk(top)):
        for name in sorted(files):
            if not name.endswith('.py'):
                continue
            with open(os.path.join(folder, name), 'rb') as f:
                text = f.read()
            try:
                tree = ast.parse(text)
            except (SyntaxError, ValueError):
                continue
            lines = [line + b'\n' for line in text.split(b'\n')]
            for node in ast.walk(tree):
                value = getattr(node, 'value', None) if isinstance(node, (ast.Assign, ast.Expr, ast.Return)) else None
                if isinstance(value, ast.expr) and not isinstance(value, (ast.Yield, ast.YieldFrom, ast.Tuple, ast.Starred)):
                    yield written(lines, value)


def library():
    """A list of such expressions, of those without a byte outside ASCII and a continued line."""
    parts, size = [], 2
    for one in expressions():
        if not one.isascii() or b'\\\n' in one:
            continue
        if size + len(one) + 2 > SIZE:
            break
        parts.append(one.decode())
        size += len(one) + 2
    return '[%s]' % ',\n'.join(parts)


def files():
    """The files of the standard library of at most 1,000,000 bytes, each with its text and its tree, or None."""
    top = sysconfig.get_paths()['stdlib']
    for folder, folders, names in sorted(os.walk(top)):
        if 'site-packages' in folder.split(os.sep):
            continue
        for name in sorted(names):
            path = os.path.join(folder, name)
            if name.endswith('.py') and os.path.getsize(path) <= SIZE:
                with open(path, 'rb') as f:
                    text = f.read()
                try:
                    yield path, text, ast.parse(text)
                except (SyntaxError, ValueError):
                    yield path, text, None


def is_left_out(tree):
    return any(type(node).__name__ in ('Match', 'TryStar') for node in ast.walk(tree))


def modules():
    """Files of the library one behind the other, of those without a byte outside ASCII."""
    parts, size = [], 0
    for path, text, tree in files():
        if tree is None or is_left_out(tree) or not text.isascii() or size + len(text) > SIZE - 1:
            continue
        parts.append(text.decode())
        size += len(text)
    return ''.join(parts)


def functions():
    """Functions one behind the other."""
    one = 'def f%d(a, b=1):\n    if a:\n        return f(a, b)\n    for x in b:\n        h(x)\n    return None\n\n'
    parts, size = [], 0
    while size < SIZE - 200:
        parts.append(one % len(parts))
        size += len(parts[-1])
    return ''.join(parts)


def texts():
    for name, text in expression_texts():
        yield name, 'zzz', text
    yield 'functions', 'f($X)', functions()
    yield 'modules', 'f($X)', modules()


def expression_texts():
    yield 'sums', fill('[', lambda k: 'a%d + %d * b' % (k % 97, k), ']')
    yield 'calls', fill('[', lambda k: 'f(a, x.y[%d], key="v")' % k, ']')
    yield 'dicts', fill('[', lambda k: '{"id": %d, "on": True, "tags": [a, b]}' % k, ']')
    yield 'f-strings', fill('[', lambda k: 'f"{a.b} and {c:>%d}"' % (k % 30), ']')
    yield 'library', library()


def read_library():
    """Which files of the library have a tree."""
    ours = [os.path.abspath(PROGRAM), 'match', 'python', 'zzz']
    read, left_out, others, slowest = 0, 0, [], (0, '')
    for path, text, tree in files():
        if tree is None:
            continue
        took, status = least(ours, path, 1)
        if status == 0:
            read += 1
            if len(text) >= 20000:
                slowest = max(slowest, (1e9 * took / len(text), path))
        elif is_left_out(tree):
            left_out += 1
        else:
            others.append('%s (%d)' % (path, status))
    print('%d files have a tree, %d have match or except*, others: %s' % (read, left_out, ', '.join(others) or 'none'))
    print('slowest: %.0f ns a byte, %s' % slowest)


def main():
    if '--library' in sys.argv[1:]:
        return read_library()
    ours = [os.path.abspath(PROGRAM), 'match', 'python', 'zzz']
    with tempfile.TemporaryDirectory() as folder:
        small = os.path.join(folder, 'small')
        with open(small, 'w') as f:
            f.write('1\n')
        our_start, _ = least(ours, small)
        print('start-up of semscan: %.1f ms' % (1e3 * our_start))
        for name, pattern, text in texts():
            ours[3] = pattern
            path = os.path.join(folder, name)
            with open(path, 'wb') as f:
                f.write(text.encode() + b'\n')
            size = os.path.getsize(path)
            took, status = least(ours, path)
            if status != 0:
                sys.exit('%s ends with %d on %s' % (ours[0], status, name))
            a, b = took - our_start, least_parse(path, PARSE)
            print('%-9s %7d bytes: semscan %6.1f ms, ast.parse %6.1f ms, ratio %.2f, %3.0f bytes of memory a byte' % (
                name, size, 1e3 * a, 1e3 * b, a / b, peak(ours, path) / size))


if __name__ == '__main__':
    main()
