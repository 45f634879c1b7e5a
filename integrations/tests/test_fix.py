"""semscan-fix: diffs, what is written, and what is refused."""
import json
import os
import random
import subprocess
import unittest

from .support import NO_PROGRAM, PROGRAM, TESTS, InFolder, get, line, needs_program, result, run

from semscan_tools.fix_diff import diff_lines
from semscan_tools.fixes import Edit, applied
from semscan_tools.sources import SourceFile

FAKE = os.path.join(TESTS, 'fake_semscan.py')
CODE = b'import x\n\ndef f(a):\n    return eval(a)\n\n\n# the end\n'
RULES = 'rules:\n- id: r\n  languages: [regex]\n  severity: INFO\n  message: m\n  pattern-regex: eval\\(a\\)\n  fix: parse(a)\n'
SHOWN = b"""\
--- a/src/a.py
+++ b/src/a.py
@@ -1,7 +1,7 @@
 import x
 
 def f(a):
-    return eval(a)
+    return parse(a)
 
 
 # the end
"""


def no_fix():
    """Why `semscan fix` can't be tried, if it can't."""
    if NO_PROGRAM:
        return NO_PROGRAM
    ran = subprocess.run([PROGRAM, 'fix', '--dryrun', '--config', 'none.yaml', 'none'], capture_output=True, check=False)
    return 'needs a built program that has the word fix' if ran.returncode == 2 else None


NO_FIX = no_fix()


class Shown(InFolder):
    """The diff, the summary and the statuses."""

    def report(self, content, *fixes, path='src/a.py'):
        self.put(path, content)
        self.put('report', line([result(content, found, path, fix=text, at=at) for found, text, at in fixes]))

    def test_diff(self):
        self.report(CODE, (b'eval(a)', 'parse(a)', 0))
        found = run('semscan-fix', 'report', cwd=self.folder)
        self.assertEqual((found.returncode, found.stdout), (0, SHOWN))
        self.assertEqual(found.stderr, b'semscan-fix: 1 fix in 1 file to write (--write does)\n')
        self.assertEqual(get(self.folder, 'src/a.py'), CODE)
        self.assertEqual(run('semscan-fix', '--error', 'report', cwd=self.folder).returncode, 1)

    def test_write(self):
        self.report(CODE, (b'eval(a)', 'parse(a)', 0))
        os.chmod(os.path.join(self.folder, 'src/a.py'), 0o750)
        found = run('semscan-fix', '--write', cwd=self.folder, stdin=get(self.folder, 'report'))
        self.assertEqual((found.returncode, found.stdout, found.stderr), (0, b'', b'semscan-fix: 1 fix in 1 file written\n'))
        self.assertEqual(get(self.folder, 'src/a.py'), CODE.replace(b'eval', b'parse'))
        self.assertEqual(os.stat(os.path.join(self.folder, 'src/a.py')).st_mode & 0o777, 0o750)
        self.assertEqual(os.listdir(os.path.join(self.folder, 'src')), ['a.py'])

    def test_overlapping_fixes(self):
        content = b'f(f(1))\nf(2)\n'
        self.report(content, (b'f(f(1))', 'g(f(1))', 0), (b'f(1)', 'g(1)', 1), (b'f(2)', 'g(2)', 0))
        found = run('semscan-fix', '--write', 'report', cwd=self.folder)
        self.assertEqual(get(self.folder, 'src/a.py'), b'g(f(1))\ng(2)\n')
        self.assertIn(b'2 fixes in 1 file written; 1 passed over', found.stderr)

    def test_nothing_to_change(self):
        self.report(CODE)
        found = run('semscan-fix', '--error', 'report', cwd=self.folder)
        self.assertEqual((found.returncode, found.stdout), (0, b''))

    def test_diffs_are_taken_by_patch(self):
        content = '\u00e9 = eval(1)\r\n\r\n'.encode() * 9 + b'eval(2)'
        self.report(content, (b'eval(1)', 'a\nb', 0), (b'eval(2)', '', 0), path='a file.py')
        patch = run('semscan-fix', 'report', cwd=self.folder).stdout
        self.assertIn(b'\\ No newline at end of file\n', patch)
        self.put('.git/x', '')
        for program in (['git', 'apply', '-p1', '-'], ['patch', '-p1', '--binary', '-i', '-']):
            self.put('a file.py', content)
            ran = subprocess.run(program, cwd=self.folder, input=patch, capture_output=True, check=False)
            self.assertEqual((ran.returncode, get(self.folder, 'a file.py')), (0, content.replace(b'eval(1)', b'a\nb', 1)[:-7]), ran)


class Diffs(unittest.TestCase):
    """Hunks."""

    def test_random_edits(self):
        """What a diff says of the old and of the new file is so, for all hunks."""
        chance = random.Random(2)
        for _ in range(500):
            content = bytes(chance.choice(b'ab\n\n') for _ in range(chance.randrange(60)))
            cuts = sorted(chance.randrange(len(content) + 1) for _ in range(2 * chance.randrange(4)))
            edits = [Edit(start, end, ''.join(chance.choice('ax\n') for _ in range(chance.randrange(4))))
                     for start, end in zip(cuts[::2], cuts[1::2]) if start < end]
            self.check(content, edits)

    def check(self, content, edits):
        new = applied(content, edits)
        found = [(sign, text.replace(b'\n\\ No newline at end of file', b'')) for sign, text in diff_lines('p', SourceFile(content), edits)]
        sides = {}
        for place, signs in ((0, ' -'), (1, ' +')):
            lines = [piece for piece in (content, new)[place].split(b'\n')]
            at, kept = 0, []
            for sign, text in found[2:]:
                if sign == '@':
                    start, _, count = text.split()[1 + place][1:].decode().partition(',')
                    at = int(start) - (count != '0')
                elif sign in signs:
                    self.assertEqual(text[1:].removesuffix(b'\n'), lines[at])
                    kept += [at] if sign == ' ' else []
                    at += 1
            sides[place] = len(kept)
        self.assertEqual(sides[0], sides[1])
        self.assertEqual(bool(found), new != content)


class Refused(InFolder):
    """What is wrong is told, and nothing is written."""

    def setUp(self):
        super().setUp()
        self.put('a.py', CODE)
        self.line = line([result(CODE, b'eval(a)', fix='parse(a)')])

    def refuses(self, given, said, *words):
        before = get(self.folder, 'a.py')
        self.ends(run('semscan-fix', '--write', *words, cwd=self.folder, stdin=given), 2, said)
        self.assertEqual(get(self.folder, 'a.py'), before)

    def test_file_that_changed(self):
        self.put('report', self.line)
        later = os.stat(os.path.join(self.folder, 'report')).st_mtime + 10
        self.put('a.py', CODE.replace(b'eval', b'evil'))
        os.utime(os.path.join(self.folder, 'a.py'), (later, later))
        self.refuses(b'', b'a.py was written after the scan', 'report')
        self.put('a.py', b'\n' + CODE)
        self.refuses(self.line, b'a.py is not the file that was scanned')
        os.remove(os.path.join(self.folder, 'a.py'))
        os.symlink('report', os.path.join(self.folder, 'b.py'))
        self.put('report', CODE)
        os.rename(os.path.join(self.folder, 'b.py'), os.path.join(self.folder, 'a.py'))
        self.refuses(self.line, b'a link leads to it')

    def test_lines_that_are_wrong(self):
        value = json.loads(self.line)
        start = CODE.index(b'eval(a)')
        good = [start, start + 7, 'parse(a)']
        for ranges in ([[0, 5, 'x']], [good, good], [[start]], ['x'], [[start, start + 7, 'other']]):
            self.refuses(json.dumps({'fixed': [{'path': 'a.py', 'ranges': ranges}], **value}).encode(), b'no fix of a result')
        self.refuses(b'{"fixed":[]', b"can't be read")
        self.refuses(b'', b'the scan printed nothing')

    def test_folder_that_cannot_be_written(self):
        os.chmod(self.folder, 0o555)
        self.addCleanup(os.chmod, self.folder, 0o755)
        self.ends(self.run_by_other('semscan-fix', '--write', stdin=self.line), 5, b"a.py can't be written: Permission denied")
        self.assertEqual(get(self.folder, 'a.py'), CODE)

    def test_how_a_path_must_be_written(self):
        self.ends(run('semscan-fix', 'scan', '--config', 'r.yaml', './src', cwd=self.folder), 2, b'write src instead of ./src')

    def test_words_that_are_not_enough(self):
        for word in ('scan', 'fix'):
            found = run('semscan-fix', word, cwd=self.folder, SEMSCAN=FAKE)
            self.ends(found, 2, b'usage: write semscan %s [' % word.encode())


class Runs(InFolder):
    """semscan-fix scan WORDS.. and fix WORDS.."""

    def tries(self, word, program):
        self.put('rules.yaml', RULES)
        self.put('src/a.py', CODE)
        found = run('semscan-fix', word, '--config', 'rules.yaml', 'src', cwd=self.folder, SEMSCAN=program)
        self.assertEqual((found.returncode, found.stdout), (0, SHOWN), found.stderr)
        found = run('semscan-fix', '--write', word, '--config', 'rules.yaml', 'src', cwd=self.folder, SEMSCAN=program)
        self.assertEqual((found.returncode, get(self.folder, 'src/a.py')), (0, CODE.replace(b'eval', b'parse')), found.stderr)

    def test_fix_of_the_fake(self):
        self.tries('fix', FAKE)

    @unittest.skipIf(NO_FIX, NO_FIX)
    def test_fix(self):
        self.tries('fix', PROGRAM)

    @needs_program
    def test_scan(self):
        self.tries('scan', PROGRAM)
