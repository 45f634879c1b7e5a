"""semscan-report: the text for people, colours, words and bad input."""
import json
import os
import pty
import subprocess
import sys
import time

from .support import INTEGRATIONS, NO_PROGRAM, PROGRAM, InFolder, line, needs_program, notice, put, result, run

from semscan_tools.fix_diff import diff_lines
from semscan_tools.fixes import read_edits
from semscan_tools.gitlab import gitlab_of
from semscan_tools.refusal import Refusal
from semscan_tools.report_line import read_report
from semscan_tools.sarif import sarif_of
from semscan_tools.screen import Pen
from semscan_tools.sources import SourceFile, read_sources
from semscan_tools.text_report import report_lines

PYTHON = b'def show(terms):\n    return eval(terms)\n'
WIDE = 'x = "\u6f22\u5b57"; \tf(1)\n'.encode()
MARKED = '\ufefff(1)\nf(\u00e9)\n'.encode()
LINES = b'try:\n    a()\n    b()\n    c()\n    d()\n\n    e()\nexcept E:\n    pass\nlast()\n'
LOOP = b'void f(void) {\n  char *s;\n  for (s = read(1); read(2); s = read(3))\n    run(s);\n}\n'
FLOW = b'def f(q):\n    s = read()\n    t = s\n    run(t)\n'

RULES = """\
rules:
- id: no-eval
  languages: [python]
  severity: ERROR
  message: eval runs $X.
  pattern: eval($X)
  fix: parse($X)
"""

SHOWN = """\
a.py (1 finding)

a.py:2:12: error: eval runs terms. [no-eval]
     2 |     return eval(terms)
       |            ^^^^^^^^^^^
  fix:
     2 -     return eval(terms)
     2 +     return parse(terms)

Notices: what the scan could not do

b.py: NoTree: it can't be parsed in its language, so only regular expressions looked at it
r.yaml: old: BadPattern: a pattern can't be parsed in the rule's language, so the rule didn't run (rules.1.pattern)

1 finding in 1 file (1 ERROR), 2 notices (1 NoTree, 1 BadPattern)
"""

FLOWS = """\
a.py:4:5: high: m [r]
     4 |     run(t)
       |     ^^^^^^
  data flows:
     1 | a.py:2:5: runs: s = read()
     2 | a.py:2:9: source: s = read()
     3 | a.py:3:5: runs: t = s
     4 | a.py:4:5: runs: run(t)
     5 | a.py:4:5: sink: run(t)
"""

TAINT_RULE = """\
rules:
- id: sqli
  mode: taint
  languages: [python]
  severity: ERROR
  message: Tainted data reaches $DB.execute.
  pattern-sources:
  - pattern: $REQ.args.get(...)
  pattern-sinks:
  - pattern: $DB.execute(...)
  pattern-sanitizers:
  - pattern: clean(...)
"""
TRACED = b'def f(req):\n    u = req.args.get("u")\n    if ok:\n        u = clean(u)\n    cur.execute(u)\n'
TRACE_SHOWN = """\
     1 | a.py:2:5: runs: u = req.args.get("u")
     2 | a.py:2:9: source: u = req.args.get("u")
     3 | a.py:3:5: runs: if ok:
     4 | a.py:5:5: runs: cur.execute(u)
     5 | a.py:5:5: sink: cur.execute(u)

1 finding in 1 file (1 ERROR), 0 notices
"""

LONG = """\
a.py:1:1: error: m [r]
     1 | try:
       | ^^^^
     2 |     a()
       |     ^^^
     3 |     b()
       |     ^^^
     4 |     c()
       |     ^^^
   ... | 4 more lines
     9 |     pass
       |     ^^^^
"""


def places_of(value):
    """All places inside a value of JSON: a list or an object, and the index or key of one of its items."""
    for key in value if isinstance(value, dict) else range(len(value)):
        yield value, key
        if isinstance(value[key], (dict, list)):
            yield from places_of(value[key])


class Texts(InFolder):
    """What is printed for people."""

    def shows(self, content, results, expected, notices=()):
        self.put('a.py', content)
        found = run('semscan-report', cwd=self.folder, stdin=line(results, notices))
        self.assertEqual((found.returncode, found.stderr), (0, b''))
        self.assertIn(expected, found.stdout.decode())
        return found.stdout.decode()

    def test_finding_fix_and_notices(self):
        finding = result(PYTHON, b'eval(terms)', rule='no-eval', message='eval runs terms.', fix='parse(terms)')
        notices = [notice('NoTree', 'b.py'), notice('BadPattern', 'r.yaml', 'old', 'rules.1.pattern')]
        self.assertEqual(self.shows(PYTHON, [finding], '', notices), SHOWN)

    def test_nothing_found(self):
        self.assertEqual(self.shows(b'', [], ''), '0 findings, 0 notices\n')

    def test_wide_characters_and_tabs(self):
        self.shows(WIDE, [result(WIDE, b'f(1)')],
                   'a.py:1:12: error: m [r]\n     1 | x = "\u6f22\u5b57";     f(1)\n       |                 ^^^^\n')

    def test_byte_order_mark_and_accents(self):
        findings = [result(MARKED, b'f(1)'), result(MARKED, '\u00e9'.encode())]
        text = self.shows(MARKED, findings, 'a.py:1:1: error: m [r]\n     1 | f(1)\n       | ^^^^\n')
        self.assertIn('a.py:2:3: error: m [r]\n     2 | f(\u00e9)\n       |   ^\n', text)

    def test_many_lines(self):
        self.shows(LINES, [result(LINES, LINES[:-8])], LONG)

    def test_range_that_ends_with_a_line(self):
        text = self.shows(b'a\nb\n', [result(b'a\nb\n', b'a\n')], '     1 | a\n       | ^\n')
        self.assertNotIn('     2 |', text)

    def test_line_ends_of_windows(self):
        self.shows(b'f(1)\r\n', [result(b'f(1)\r\n', b'f(1)', fix='g(1)')],
                   '     1 | f(1)\n       | ^^^^\n  fix:\n     1 - f(1)\n     1 + g(1)\n')

    def test_long_line(self):
        content = b'a' * 5_000 + b'f(1)' + b'b' * 5_000
        text = self.shows(content, [result(content, b'f(1)')], '...f(1)'[3:])
        code, carets = text.split('\n')[3:5]
        self.assertLess(len(code), 200)
        self.assertEqual(code[carets.index('^'):carets.rindex('^') + 1], 'f(1)')

    def test_many_findings_in_one_long_line(self):
        """Of a line of a megabyte, as programs write JSON, only what is near a finding is looked at and shown."""
        unit = b'{"a": "\xc3\xa9"},\t'
        content = unit * (900_000 // len(unit))
        found = [result(content, b'"a"', fix='"b"', source=[at, at + 1], trace=[[at, 'Head']], at=at)
                 for at in range(1_000 * len(unit), 50_000 * len(unit), 1_000 * len(unit))]
        source = SourceFile(content)
        begin = time.process_time()
        lines = list(report_lines(read_report(line(found)), {'a.py': source}, Pen(False)))
        self.assertLess(time.process_time() - begin, 15)
        self.assertLess(max(map(len, lines)), 250)
        carets = [at for at, text in enumerate(lines) if '^' in text]
        self.assertEqual(len(carets), 49)
        for at in carets:
            self.assertEqual(lines[at - 1][lines[at].index('^'):].partition(':')[0], '"a"')
            self.assertIn('"a"', lines[at + 2])
            self.assertIn('"b"', lines[at + 3])

    def test_text_cannot_steer_the_terminal(self):
        content = 'f("\x1b[2J\u202e")\n'.encode()
        text = self.shows(content, [result(content, content[:-1], message='\x1b]0;x\x07')], 'f("<U+001B>[2J<U+202E>")')
        self.assertFalse(set(text) & {'\x1b', '\x07', '\u202e'})

    def test_fix_of_several_lines(self):
        content = b'a\nb\nc\nd\n'
        self.shows(content, [result(content, b'b\nc', fix='b\nx\ny')], '  fix:\n     3 - c\n     3 + x\n     4 + y\n')

    def test_steps_of_taint(self):
        source = [FLOW.index(b'read()'), FLOW.index(b'read()') + 6]
        trace = [[FLOW.index(words), 'Head'] for words in (b's =', b't =', b'run')]
        finding = result(FLOW, b'run(t)', severity='HIGH', source=source, trace=trace)
        self.shows(FLOW, [finding], FLOWS)
        without = '  data flows:\n     1 | a.py:2:9: source: s = read()\n     2 | a.py:4:5: sink: run(t)\n'
        self.shows(FLOW, [result(FLOW, b'run(t)', source=source)], without)

    def test_source_in_a_part_of_a_loop(self):
        """The parts of a loop of C begin at one place. The source stands behind the one in which it is."""
        parts = [(LOOP.index(words), role) for words, role in (
            (b'char', 'Head'), (b'for', 'Init'), (b'for', 'Test'), (b'run', 'Head'), (b'for', 'Step'), (b'for', 'Test'), (b'run', 'Head'))]
        for words, trace, before in ((b'read(3)', parts, 5), (b'read(2)', parts[:4], 3), (b'read(1)', parts[:4], 2)):
            start = LOOP.index(words)
            text = self.shows(LOOP, [result(LOOP, b'run(s)', source=[start, start + 7], trace=trace)], '')
            shown = [line.split(': ')[1] for line in text.split('  data flows:\n')[1].split('\n\n')[0].splitlines()]
            roles = [{'Head': 'runs', 'Init': 'begins the loop', 'Test': 'tests', 'Step': 'steps the loop'}[role] for _, role in trace]
            self.assertEqual(shown, [*roles[:before], 'source', *roles[before:], 'sink'])

    def test_counts_by_kind(self):
        findings = [result(b'f f', b'f', severity='INFO'), result(b'f f', b'f', at=1, severity='CRITICAL')]
        self.shows(b'f f', findings, '2 findings in 1 file (1 CRITICAL, 1 INFO), 1 notice (1 Later)\n', [notice('Later')])


class Words(InFolder):
    """Options, statuses and colours."""

    def test_statuses(self):
        self.put('a.py', PYTHON)
        self.put('report', line([result(PYTHON, b'eval')]))
        self.put('noted', line([], [notice('NoTree', 'a.py')]))
        for words, status in ((['report'], 0), (['--error', 'report'], 1), (['--error', 'noted'], 0), (['--strict', 'noted'], 1)):
            self.assertEqual(run('semscan-report', *words, cwd=self.folder).returncode, status, words)

    def test_other_folder(self):
        self.put('tree/a.py', PYTHON)
        self.put('report', line([result(PYTHON, b'eval')]))
        self.assertEqual(run('semscan-report', '--folder', 'tree', 'report', cwd=self.folder).returncode, 0)
        self.ends(run('semscan-report', '--folder', 'none', 'report', cwd=self.folder), 2, b'none is no folder')
        self.ends(run('semscan-report', '--folder', '', 'scan', cwd=self.folder), 2, b"'' is no folder")

    def test_help_and_bad_words(self):
        found = run('semscan-report', '--help', cwd=self.folder)
        self.assertEqual((found.returncode, b'semscan scan --config' in found.stdout), (0, True))
        self.ends(run('semscan-report', '--sarif', '--gitlab', cwd=self.folder), 2)
        self.ends(run('semscan-report', 'a', 'b', cwd=self.folder), 2, b'b is too much')

    def on_terminal(self, **environment):
        """What a terminal gets."""
        self.put('a.py', PYTHON)
        self.put('report', line([result(PYTHON, b'eval')]))
        ours, theirs = pty.openpty()
        variables = {**{key: value for key, value in os.environ.items() if key != 'NO_COLOR'}, 'TERM': 'xterm', **environment}
        program = os.path.join(INTEGRATIONS, 'semscan-report')
        subprocess.run([sys.executable, program, 'report'], cwd=self.folder, stdout=theirs, env=variables, check=True)
        os.close(theirs)
        said = os.read(ours, 100_000)
        os.close(ours)
        return said

    def test_colours_only_on_terminals(self):
        self.assertIn(b'\x1b[1;31m', self.on_terminal())
        self.assertNotIn(b'\x1b', self.on_terminal(NO_COLOR='1'))
        self.assertNotIn(b'\x1b', self.on_terminal(TERM='dumb'))
        self.assertNotIn(b'\x1b', run('semscan-report', 'report', cwd=self.folder).stdout)

    def test_reader_that_goes_away(self):
        content = b'f\n' * 20_000
        self.put('a.py', content)
        self.put('report', line([result(content, b'f', at=2 * k) for k in range(20_000)]))
        words = '%s %s/semscan-report report | head -n 1' % (sys.executable, INTEGRATIONS)
        found = subprocess.run(['sh', '-c', words], cwd=self.folder, capture_output=True, check=False)
        self.assertEqual((found.stdout, found.stderr), (b'a.py (20000 findings)\n', b''))


class BadInput(InFolder):
    """What is wrong is told in clear words, with status 2."""

    def refuses(self, given, said):
        self.ends(run('semscan-report', cwd=self.folder, stdin=given), 2, said)

    def test_line_that_is_cut_off(self):
        whole = line([result(PYTHON, b'eval', fix='\u00e9')], [notice('NoTree', 'a.py')])
        read_report(whole)
        for end in range(len(whole) - 1):
            with self.assertRaises(Refusal) as refused:
                read_report(whole[:end])
            self.assertEqual(refused.exception.status, 2)
        self.refuses(whole[:100], b"the report can't be read, maybe it is cut off")

    def test_no_report(self):
        self.refuses(b'', b'the scan printed nothing')
        self.refuses(b'[]', b'this is no report of semscan')
        self.refuses(b'{"notices":[],"results":[{}]}', b'result 1 has no extra')
        self.refuses(b'\xff', b"can't be read")
        self.refuses(b'[' * 200_000, b"can't be read")
        self.refuses(b'1' * 20_000, b"can't be read")
        self.refuses(line() + line(), b"can't be read")
        self.refuses(b'{"notices":[],"results":[{"check_id":"\\ud800"}]}', b"can't be read")
        self.refuses(line([result(b'f', b'f', path='../a.py')]), b'has the path')
        self.refuses(line([result(b'f', b'f', trace=[['x']])]), b'a trace with a point that is none')
        self.refuses(line([result(b'f', b'f', trace=None)]), b'result 1 has no trace')
        self.refuses(line([result(b'f', b'f', source=[2, 1])]), b'a source that is no range')

    def test_values_of_other_kinds(self):
        """Whatever stands in the place of one value of a report, it is read or refused."""
        self.put('a.py', FLOW)
        start = FLOW.index(b'run(t)')
        whole = json.loads(line([result(FLOW, b'run(t)', source=[17, 23], trace=[[13, 'Head']], fix='x')], [notice('NoTree', 'a.py')]))
        whole['fixed'] = [{'path': 'a.py', 'ranges': [[start, start + 6, 'x']]}]
        read_edits(json.dumps(whole).encode())
        for holder, key in list(places_of(whole)):
            before = holder[key]
            for value in (None, True, -1, 10**30, 1.5, '', [], [[1]], {}, [float(start), start + 6, 'x'], [start, start + 6, ['x']]):
                holder[key] = value
                try:
                    report, edits = read_edits(json.dumps(whole).encode())
                    sources = read_sources(self.folder, report)
                    written = [*report_lines(report, sources, Pen(False)), sarif_of(report, sources), gitlab_of(report, sources)]
                    written += [list(diff_lines(path, sources[path], edits[path])) for path in edits]
                    self.assertTrue(written)
                except Refusal as refusal:
                    self.assertEqual(refusal.status, 2)
            holder[key] = before

    def test_file_that_is_not_there(self):
        self.ends(run('semscan-report', 'none', cwd=self.folder), 2, b"none can't be read: No such file")
        given = line([result(PYTHON, b'eval')])
        self.refuses(given, b"a.py is not the file that was scanned: it can't be read (No such file or directory)")
        os.mkfifo(os.path.join(self.folder, 'a.py'))
        self.refuses(given, b'a.py is not the file that was scanned: it is no file')

    def test_folder_that_changed(self):
        given = line([result(PYTHON, b'eval(terms)')])
        moved = b'is not at line'
        for content, said in ((PYTHON[:20], b'fewer than'), (b'\n' + PYTHON, moved), (b'\xe9' * 99, moved), (b'#' * 99, moved)):
            self.put('a.py', content)
            self.refuses(given, said)
        self.put('a.py', b'f(1)\ng(\xff)\n')
        self.refuses(line([result(b'f(1)\ng(2)\n', b'f(1)', source=[5, 6])]), b'no text from byte')
        self.refuses(line([result(b'f(1)\ng(2)\n', b'f(1)', trace=[[5, 'Head']])]), b'no text from byte')
        content = '\u00e9f(1)'.encode()
        self.put('a.py', content)
        self.refuses(line([result(b'xxf(1)', b'xf(1)')]), b'no text from byte')

    def test_output_that_cannot_be_written(self):
        """It is no finding, so the status is another one than 1, and it is told."""
        self.put('a.py', PYTHON)
        self.put('report', line([result(PYTHON, b'eval', fix='parse')]))
        self.put('rules.yaml', RULES)
        for words in ('semscan-report report', 'semscan-report --sarif report', 'semscan-report --gitlab report', 'semscan-fix report',
                      'semscan-rules join rules.yaml'):
            for target, said in (('/dev/full', b'No space left on device'), ('&-', b'Bad file descriptor')):
                found = self.in_shell('%s >%s' % (words, target))
                self.assertEqual((found.returncode, found.stderr.count(b'\n')), (5, 1), found.stderr)
                self.assertIn(b"standard output can't be written: " + said, found.stderr)

    def in_shell(self, words):
        """A run of a program of this folder by a shell."""
        return subprocess.run(['sh', '-c', '%s %s/%s' % (sys.executable, INTEGRATIONS, words)], cwd=self.folder, capture_output=True, check=False)

    def test_streams_that_are_closed(self):
        for words in ('semscan-report', 'semscan-fix'):
            self.ends(self.in_shell(words + ' <&-'), 2, b'the scan printed nothing')
            self.assertEqual(self.in_shell(words + ' none 2>&-').returncode, 2)

    def test_place_to_save_that_cannot_be_written(self):
        self.ends(run('semscan-report', '--save', 'none/report', cwd=self.folder, stdin=line()), 2, b"can't be written")


class Runner(InFolder):
    """semscan-report scan WORDS.."""

    def test_how_paths_must_be_written(self):
        os.mkdir(os.path.join(self.folder, 'src'))
        rows = [('./src', b'write src instead of ./src'), ('src/', b'write src instead of src/'), ('src//a', b'write src/a instead of'),
                (os.path.join(self.folder, 'src'), b'write src instead of'), ('./', b'write . instead of ./'),
                ('..', b"isn't below the current folder"), ('/usr', b"isn't below the current folder"), ('', b'is no path')]
        for word, said in rows:
            found = run('semscan-report', 'scan', '--config', 'r.yaml', word, cwd=self.folder)
            self.ends(found, 2, said)
            self.assertEqual(found.stderr.count(b'\n'), 1)
        self.ends(run('semscan-report', 'scan', '--config', './r.yaml', 'src', cwd=self.folder), 2, b'write r.yaml instead of ./r.yaml')

    def test_prefix_that_is_not_there(self):
        os.mkdir(os.path.join(self.folder, 'src'))
        for program in ('semscan-report', 'semscan-fix'):
            found = run(program, 'scan', '--max', '9', '--config', 'r.yaml', 'scr', cwd=self.folder)
            self.ends(found, 2, program.encode() + b': there is no scr here, so nothing would be scanned\n')
            found = run(program, '--folder', 'src', 'scan', '--config', 'r.yaml', 'src', cwd=self.folder)
            self.ends(found, 2, b'there is no src here')

    def test_no_program(self):
        found = run('semscan-report', 'scan', '--config', 'r.yaml', '.', cwd=self.folder, SEMSCAN='/nowhere/semscan')
        self.ends(found, 127, b'there is no built program at /nowhere/semscan')

    def test_program_that_ends_otherwise(self):
        for status in (3, 5, 6, 8, 9, 77):
            self.put('fake', '#!/bin/sh\necho "semscan: words" >&2\nexit %d\n' % status)
            os.chmod(os.path.join(self.folder, 'fake'), 0o755)
            self.ends(run('semscan-report', 'scan', '--config', 'r', '.', cwd=self.folder, SEMSCAN='./fake'), status, b'semscan-report: words: ')
        self.put('fake', '#!/bin/sh\nkill -9 $$\n')
        self.ends(run('semscan-report', 'scan', '--config', 'r', '.', cwd=self.folder, SEMSCAN='./fake'), 137, b'nothing was said')
        self.put('fake', 'no program')
        self.ends(run('semscan-report', 'scan', '--config', 'r', '.', cwd=self.folder, SEMSCAN='./fake'), 127, b"can't be run")

    def test_scan_with_traces(self):
        """The example of docs/SCANS.md: the word --trace reaches the program, and its trace becomes steps. The stand-in prints the line of the page."""
        self.put('rules.yaml', TAINT_RULE)
        self.put('a.py', TRACED)
        self.put('line', line([result(TRACED, b'cur.execute(u)', rule='sqli', source=[20, 37], trace=[[16, 'Head'], [42, 'Head'], [74, 'Head']])]))
        self.put('fake', '#!/bin/sh\n[ "$1 $2" = "scan --trace" ] && exec cat line\n')
        os.chmod(os.path.join(self.folder, 'fake'), 0o755)
        for program in ['./fake'] + ([] if NO_PROGRAM else [PROGRAM]):
            found = run('semscan-report', 'scan', '--trace', '--config', 'rules.yaml', 'a.py', cwd=self.folder, SEMSCAN=program)
            self.assertEqual((found.returncode, found.stderr), (0, b''))
            self.assertEqual(found.stdout.decode().split('  data flows:\n')[1], TRACE_SHOWN)

    @needs_program
    def test_scan(self):
        put(self.folder, 'rules.yaml', RULES)
        put(self.folder, 'src/a.py', PYTHON)
        found = run('semscan-report', '--save', 'line', 'scan', '--error', '--config', 'rules.yaml', 'src', cwd=self.folder)
        self.assertEqual((found.returncode, found.stderr), (1, b''))
        self.assertIn(b'src/a.py:2:12: error: eval runs terms. [no-eval]\n', found.stdout)
        again = run('semscan-report', 'line', cwd=self.folder)
        self.assertEqual((again.returncode, again.stdout), (0, found.stdout))
        self.ends(run('semscan-report', 'scan', '--config', 'none.yaml', 'src', cwd=self.folder), 10, b'no config: there is no rule file at none.yaml')
        self.ends(run('semscan-report', 'scan', '--config', 'src', '.', cwd=self.folder), 10, b'there is no rule file at src')
        self.ends(run('semscan-report', 'scan', '--max', '0', '--config', 'rules.yaml', 'src', cwd=self.folder), 9, b'more than 0: ')
        self.ends(run('semscan-report', 'scan', 'src', cwd=self.folder), 2, b'usage: write semscan scan [--error]')
        for words in (['--config=rules.yaml', 'src'], ['src', '--config', 'rules.yaml'], ['--config', 'rules.yaml', 'src', 'src']):
            self.ends(run('semscan-report', 'scan', *words, cwd=self.folder), 2, b'with the options before PREFIX, a space after --config')
