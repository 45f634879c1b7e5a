#!/usr/bin/env python3
"""Measures what a rule that follows data adds to a scan, and what traces add to that.

    tools/measure_taint.py [PROGRAM]

PROGRAM is the program as `./semscan` built it, if none is given. It scans one generated file by a rule for calls that the file lacks, and by a
rule that follows data to `sink(...)` from `src(...)`, or from each string, without `--trace` and with it; processor times of whole runs, each the
least of three.
"""
import json
import os
import resource
import subprocess
import sys
import tempfile

from measure_json import PROGRAM

HEAD = 'rules:\n- id: r\n  languages: [python]\n  severity: INFO\n  message: m\n'
PLAIN = HEAD + '  pattern: zzz_nothing(...)\n'
TAINT = HEAD + '  mode: taint\n  pattern-sources:\n  - pattern: %s\n  pattern-sinks:\n  - pattern: sink(...)\n'
CALLS, STRINGS = 'src(...)', '\'"..."\''


def one_source(lines):
    moved = ''.join('    a%d = f(a%d, b)\n' % (k % 7, (k + 1) % 7) for k in range(lines))
    return 'def f(b):\n    a0 = src()\n' + moved + '    sink(a0)\n'


def functions(count):
    return ''.join('def f%d(b):\n    a = src()\n    sink(a)\n' % k for k in range(count))


def many_sources(count):
    return 'def f(b):\n' + ''.join('    a%d = src(%d)\n' % (k, k) for k in range(count)) + ''.join('    sink(a%d)\n' % k for k in range(count))


def no_source(sinks):
    return 'def f(b):\n' + ''.join('    sink(a%d)\n' % k for k in range(sinks))


def no_sink(sources):
    return 'def f(b):\n' + ''.join('    a%d = src(b)\n' % (k % 7) for k in range(sources))


def nothing(lines):
    return 'def f(b):\n' + ''.join('    a%d = g(a%d, b)\n' % (k % 7, (k + 1) % 7) for k in range(lines))


def go_nowhere(lines):
    return 'a = "x"\n' * lines + 'sink(a)\n'


def go_no_step(lines):
    return 'f("x")\n' * lines + 'sink(a)\n'


def round_and_round(names, sources, lines):
    """A loop whose names all take from one another, with as many sources, each of which gets to each name at each point."""
    moved = ''.join('        a%d = a%d + a%d%s\n' % (k % names, k % names, (k + 1) % names, ' + src()' if k < sources else '') for k in range(lines))
    return 'def f(b):\n    while b:\n' + moved + '    sink(a0)\n'


def many_sources_round(lines):
    return round_and_round(17, 240, lines)


def many_names_round(lines):
    return round_and_round(4_900, 1, lines)


CASES = [('lines between one source and one sink', CALLS, one_source, (5_000, 10_000, 20_000)),
         ('functions with a source and a sink each', CALLS, functions, (2_500, 5_000, 10_000)),
         ('sources, names and sinks in one function', CALLS, many_sources, (50, 100, 200)),
         ('sinks without a source', CALLS, no_source, (2_000, 4_000, 8_000)),
         ('sources without a sink', CALLS, no_sink, (1_000, 2_000, 4_000)),
         ('lines with no source and no sink', CALLS, nothing, (5_000, 10_000, 20_000)),
         ('sources that are overwritten, and one sink', STRINGS, go_nowhere, (1_000, 2_500, 4_990)),
         ('sources that go nowhere, and one sink', STRINGS, go_no_step, (1_000, 2_000, 4_000)),
         ('lines with 240 sources and 17 names, the most that are followed', CALLS, many_sources_round, (10_400,)),
         ('lines with a source and 4,900 names, the most that are followed', CALLS, many_names_round, (10_180,))]


def took(words, folder):
    """The least processor time of three runs, and what the last one printed."""
    times = []
    for _ in range(3):
        before = resource.getrusage(resource.RUSAGE_CHILDREN)
        run = subprocess.run(words, cwd=folder, capture_output=True, check=True)
        after = resource.getrusage(resource.RUSAGE_CHILDREN)
        times.append(after.ru_utime + after.ru_stime - before.ru_utime - before.ru_stime)
    return min(times), run.stdout


def main():
    program = os.path.abspath(sys.argv[1] if sys.argv[1:] else PROGRAM)
    with tempfile.TemporaryDirectory() as folder:
        os.mkdir(os.path.join(folder, 'src'))
        with open(os.path.join(folder, 'plain.yaml'), 'w') as f:
            f.write(PLAIN)
        for name, source, text, sizes in CASES:
            with open(os.path.join(folder, 'taint.yaml'), 'w') as f:
                f.write(TAINT % source)
            for size in sizes:
                with open(os.path.join(folder, 'src', 'a.py'), 'w') as f:
                    f.write(text(size))
                plain, _ = took([program, 'scan', '--config', 'plain.yaml', 'src'], folder)
                taint, line = took([program, 'scan', '--config', 'taint.yaml', 'src'], folder)
                traced, _ = took([program, 'scan', '--trace', '--config', 'taint.yaml', 'src'], folder)
                report = json.loads(line)
                print('%6d %-42s plain %6.1f ms, taint %6.1f ms, ratio %.2f, traced %6.1f ms; %d findings, %d notices' % (
                    size, name + ':', 1e3 * plain, 1e3 * taint, taint / plain, 1e3 * traced, len(report['results']), len(report['notices'])))


if __name__ == '__main__':
    main()
