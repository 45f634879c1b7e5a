#!/usr/bin/env python3
"""Measures how long after a change in an editor its diagnostics come, with integrations/semscan-lsp over the program.

    tools/measure_lsp.py [--files N] [--changes N] [--rules PATH]

The folder has N files of Python (1,000) of some 2,500 bytes, functions with calls, and the rules are those of `rules/python` where none are
named. One file is open and has two more lines after each change. The time runs from sending the change to the diagnostics of that file, the
wait of the server for more changes (0 here) included. Beside it stands the processor time for each change, which depends less on what else
the machine does: that of the server, and that of the session of semscan which it keeps; and one `semscan scan` of the same folder.
SEMSCAN names the program, as everywhere in integrations/.
"""
import argparse
import os
import resource
import statistics
import subprocess
import sys
import tempfile
import time

TOP = os.path.dirname(os.path.dirname(os.path.abspath(__file__)))
sys.path.insert(0, os.path.join(TOP, 'integrations'))

from semscan_tools.program import find_program  # noqa: E402
from semscan_tools.rule_files import joined_rules, rule_files  # noqa: E402
from tests.lsp_client import Editor  # noqa: E402

FUNCTION = 'def f%d(a, b):\n    c = g(a, b) + %d\n    for x in c:\n        h(x, [a, b], key=lambda y: y.z)\n    return {"a": c}\n\n'
MARKED = 'rules:\n- id: marked\n  languages: [regex]\n  severity: INFO\n  message: m\n  pattern-regex: marked\\(0\\)\n'
TICKS = os.sysconf('SC_CLK_TCK')


def put(folder, path, text):
    with open(os.path.join(folder, path), 'w', encoding='utf-8') as file:
        file.write(text)


def fill(folder, files, rules):
    """The files, the rule that finds the changes, and all rules in one file."""
    os.mkdir(os.path.join(folder, 'src'))
    for number in range(files):
        put(folder, 'src/m%d.py' % number, ''.join(FUNCTION % (count, number) for count in range(20)))
    put(folder, 'marked.yaml', MARKED)
    put(folder, 'all.yaml', joined_rules([os.path.join(folder, 'marked.yaml'), *rule_files([rules])]))


def children(process):
    """The processes that a process started and that run."""
    found = []
    for thread in os.listdir('/proc/%d/task' % process):
        with open('/proc/%d/task/%s/children' % (process, thread), encoding='ascii') as file:
            found += map(int, file.read().split())
    return found


def processor_time(process):
    """The processor time that a process took, in seconds."""
    with open('/proc/%d/stat' % process, encoding='utf-8') as file:
        words = file.read().rpartition(')')[2].split()
    return (int(words[11]) + int(words[12])) / TICKS


def times_of(editor):
    """The processor time of the server, and that of its session."""
    server = editor.process.pid
    return processor_time(server), sum(map(processor_time, children(server)))


def measure(editor, changes):
    """The time of the first scan, those from each change to its diagnostics, and the processor times for a change."""
    text = ''.join(FUNCTION % (count, 0) for count in range(20))
    begin = time.monotonic()
    editor.open('src/m0.py', text + 'marked(0)\n')
    editor.diagnostics('src/m0.py', 1)
    first, times, before = time.monotonic() - begin, [], times_of(editor)
    for version in range(2, changes + 2):
        begin = time.monotonic()
        editor.change('src/m0.py', version, {'text': text + 'marked(0)\n\n' * version})
        editor.diagnostics('src/m0.py', version)
        times.append(time.monotonic() - begin)
    return first, times, [(end - start) / changes for start, end in zip(before, times_of(editor))]


def scan(program, folder):
    """The time and the processor time of one scan of the folder."""
    def spent():
        used = resource.getrusage(resource.RUSAGE_CHILDREN)
        return used.ru_utime + used.ru_stime
    before, begin = spent(), time.monotonic()
    subprocess.run([program, 'scan', '--config', 'all.yaml', 'src'], cwd=folder, stdin=subprocess.DEVNULL, stdout=subprocess.DEVNULL, check=True)
    return time.monotonic() - begin, spent() - before


def main():
    parser = argparse.ArgumentParser(description=__doc__, formatter_class=argparse.RawDescriptionHelpFormatter)
    parser.add_argument('--files', type=int, default=1_000)
    parser.add_argument('--changes', type=int, default=30)
    parser.add_argument('--rules', default=os.path.join(TOP, 'rules', 'python'))
    chosen = parser.parse_args()
    program = find_program(os.environ)
    if program is None or subprocess.run([program, 'session'], input=b'end\n', capture_output=True, check=False).returncode:
        sys.exit('there is no built program that has the word session (SEMSCAN says where it is)')
    with tempfile.TemporaryDirectory(prefix='semscan-lsp-') as folder:
        folder = os.path.realpath(folder)
        fill(folder, chosen.files, os.path.abspath(chosen.rules))
        alone = scan(program, folder)
        editor = Editor(folder, program, '--debounce', '0', '--config', 'all.yaml', '--path', 'src')
        try:
            editor.begin()
            first, times, (server, session) = measure(editor, chosen.changes)
            editor.end()
        finally:
            editor.release()
    print('%d files, %d changes, load %.0f' % (chosen.files, chosen.changes, os.getloadavg()[0]))
    print('first diagnostics: %.0f ms' % (1_000 * first))
    print('from a change to its diagnostics: median %.0f ms, longest %.0f ms' % (1_000 * statistics.median(times), 1_000 * max(times)))
    print('processor time for a change: %.0f ms of semscan, %.0f ms of the server' % (1_000 * session, 1_000 * server))
    print('one semscan scan: %.0f ms, %.0f ms of processor time' % (1_000 * alone[0], 1_000 * alone[1]))


main()
