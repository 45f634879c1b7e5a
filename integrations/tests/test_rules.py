"""The rules of this repository, and semscan-rules."""
import glob
import os
import re

from .support import NO_PROGRAM, TESTS, TOP, InFolder, needs_program, run, scan

FAKE = os.path.join(TESTS, 'fake_semscan.py')
RULES = os.path.join(TOP, 'rules')
FILES = sorted(glob.glob(os.path.join(RULES, '*', '*.yaml')))
RULE = 'rules:\n- id: one\n  languages: [python]\n  severity: INFO\n  message: m\n  pattern: f($X)\n'


class Rules(InFolder):
    """The files of the folder rules."""

    def test_there_are_many_and_each_names_a_weakness(self):
        entries = []
        for file in FILES:
            with open(file, encoding='utf-8') as text:
                entries += text.read().split('\n- id: ')[1:]
        self.assertGreaterEqual(len(entries), 80)
        names = [entry.split('\n')[0] for entry in entries]
        self.assertEqual(len(names), len(set(names)))
        for entry in entries:
            self.assertTrue(re.search(r'^  message: .*\(CWE-[0-9]+\)\.', entry, re.MULTILINE), entry.split('\n')[0])

    @needs_program
    def test_rules_find_what_the_examples_say(self):
        found = run('semscan-rules', 'test', RULES, cwd=self.folder)
        said = found.stdout.decode()
        self.assertEqual((found.returncode, found.stderr), (0, b''), said)
        self.assertIn('in %d files' % len(FILES), said)
        self.assertIn(', 0 differences\n', said)

    @needs_program
    def test_all_rules_load_together_without_a_notice(self):
        joined = run('semscan-rules', 'join', *('rules/' + name for name in ('python', 'c', 'json', 'texts', 'flow')), cwd=TOP)
        self.assertEqual((joined.returncode, joined.stderr), (0, b''))
        self.put('rules.yaml', joined.stdout)
        for name, content in (('a.py', 'f(1)\n'), ('a.c', 'int x;\n'), ('a.json', '1\n'), ('a.md', 'text\n')):
            self.put('src/' + name, content)
        found = run('semscan-report', 'scan', '--config', 'rules.yaml', 'src', cwd=self.folder)
        self.assertEqual((found.stdout, found.stderr), (b'0 findings, 0 notices\n', b''))


class Program(InFolder):
    """semscan-rules on rules and examples of its own."""

    def says(self, example, status, *said):
        self.put('one.yaml', RULE)
        self.put('one.py', example)
        found = run('semscan-rules', 'test', '.', cwd=self.folder)
        self.assertEqual((found.returncode, found.stderr), (status, b''), found.stdout.decode())
        for words in said:
            self.assertIn(words, found.stdout)

    @needs_program
    def test_both_ways(self):
        self.says('f(1)  # found: one\ng(1)  # not found: one\n', 0, b'1 rules in 1 files, 2 marks, 0 differences')
        self.says('f(1)\nf(2)  # found: one\ng(1)  # not found: one\n', 1, b'one.py:1: one is found without a mark')
        self.says('f(1)  # found: one\ng(1)  # found: one\nh(1)  # not found: one\n', 1, b'one.py:2: one should be found and is not')
        self.says('f(1)  # found: one\nf(2)  # not found: one\n', 1, b'one.py:2: one is found without a mark')
        self.says('f(1)  # found: one\n', 1, b'no line is marked "not found: one"')
        self.says('g(1)  # not found: one, two\n', 1, b'no line is marked "found: one"', b'two: a mark names a rule that is not there')

    @needs_program
    def test_notices_are_differences(self):
        self.put('bad.yaml', RULE.replace('f($X)', 'f('))
        self.put('bad.py', 'f(1)  # found: one\ng(1)  # not found: one\n')
        found = run('semscan-rules', 'test', 'bad.yaml', cwd=self.folder)
        self.assertEqual(found.returncode, 1)
        self.assertIn(b'one: the notice BadPattern (rules.0.pattern)', found.stdout)

    def test_join(self):
        self.put('a.yaml', '# first\n' + RULE)
        self.put('b.yaml', RULE.replace('one', 'two'))
        found = run('semscan-rules', 'join', 'a.yaml', 'b.yaml', cwd=self.folder)
        self.assertEqual((found.returncode, found.stderr, found.stdout.count(b'- id: '), found.stdout.count(b'rules:\n')), (0, b'', 2, 1))
        self.ends(run('semscan-rules', 'join', 'a.yaml', 'a.yaml', cwd=self.folder), 2, b'have a rule with the id one')

    def test_join_of_lists_with_and_without_indentation(self):
        """Both forms are YAML, but not in one list. What a block scalar says stays the same."""
        self.put('a.yaml', RULE)
        self.put('b.yaml', 'rules:\n  # second\n  - id: two\n    languages: [regex]\n    severity: INFO\n    message: |\n      first\n\n        deeper\n'
                           '    pattern-regex: x\n\n  - id: three\n    languages: [regex]\n    severity: INFO\n    message: m\n    pattern-regex: y\n')
        expected = RULE + ('\n# second\n- id: two\n  languages: [regex]\n  severity: INFO\n  message: |\n    first\n\n      deeper\n'
                           '  pattern-regex: x\n\n- id: three\n  languages: [regex]\n  severity: INFO\n  message: m\n  pattern-regex: y\n')
        found = run('semscan-rules', 'join', 'a.yaml', 'b.yaml', cwd=self.folder)
        self.assertEqual((found.returncode, found.stdout.decode()), (0, expected.replace('rules:\n', 'rules:\n\n', 1)))
        if not NO_PROGRAM:
            self.put('rules.yaml', found.stdout)
            self.assertEqual(scan(self.folder, '--config', 'rules.yaml', 'none').stdout, b'{"notices":[],"results":[]}\n')

    def test_bad_input(self):
        self.ends(run('semscan-rules', 'join', 'none.yaml', cwd=self.folder), 2, b"none.yaml can't be read: No such file or directory\n")
        self.ends(run('semscan-rules', 'test', 'none.yaml', cwd=self.folder, SEMSCAN=FAKE), 2, b"none.yaml can't be read: No such file or directory\n")
        self.put('a.yaml', b'\xff')
        self.ends(run('semscan-rules', 'join', 'a.yaml', cwd=self.folder), 2, b"a.yaml can't be read: it isn't UTF-8\n")
        self.put('a.yaml', 'rule: 1\n')
        self.ends(run('semscan-rules', 'join', 'a.yaml', cwd=self.folder), 2, b"doesn't begin with the line rules:")
        self.put('a.yaml', RULE + 'version: 1\n')
        self.ends(run('semscan-rules', 'join', 'a.yaml', cwd=self.folder), 2, b'a.yaml has the key version beside rules')
        self.ends(run('semscan-rules', 'test', '.', cwd=self.folder, SEMSCAN='/nowhere'), 127, b'no built program')
        os.mkdir(os.path.join(self.folder, 'empty'))
        self.ends(run('semscan-rules', 'join', 'empty', cwd=self.folder), 2, b'there are no rule files')
