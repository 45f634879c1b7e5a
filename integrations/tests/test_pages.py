"""README.md, docs/INTEGRATIONS.md and docs/FROM_SEMGREP.md say what is so."""
import json
import os
import re
import shlex
import shutil
import subprocess
import unittest

from .support import INTEGRATIONS, PROGRAM, TOP, InFolder, get, needs_program, run, scan

HEAD = 'rules:\n- id: r\n  languages: [%s]\n  severity: %s\n  message: m\n'
ROWS = [  # the language, the severity, what else a rule says, and the kind and key of its notice, if it has one
    ('python', 'INFO', 'pattern: f($X)\n  metadata:\n    cwe: x\n  fix-regex: x\n  min-version: 1\n', None),
    ('python', 'INFO', 'pattern: f($X)\n  options:\n    symmetric_eq: true\n', ('OptionUnread', 'symmetric_eq')),
    ('generic', 'INFO', 'pattern: f($X)\n', ('OutsideProfile', 'rules.0.languages.0')),
    ('python, javascript', 'INFO', 'pattern: f($X)\n', ('OutsideProfile', 'rules.0.languages.1')),
    ('python', 'info', 'pattern: f($X)\n', ('WrongShape', 'rules.0.severity')),
    ('python', 'INFO', 'match:\n    all: f($X)\n', ('MissingKey', 'rules.0')),
    ('python', 'INFO', 'pattern: "($X: int)"\n', ('BadPattern', 'rules.0.pattern')),
    ('c', 'INFO', 'pattern: f((char *$X))\n', ('BadPattern', 'rules.0.pattern')),
    ('regex', 'INFO', 'pattern-regex: a(?!b)\n', ('Regex', 'a(?!b)')),
    ('python', 'INFO', 'mode: join\n', ('OutsideProfile', 'rules.0.mode')),
    ('python', 'INFO', 'patterns:\n  - pattern: f($X)\n  - metavariable-analysis:\n      metavariable: $X\n',
     ('UnknownKey', 'rules.0.patterns.1.metavariable-analysis')),
    ('python', 'INFO', 'patterns:\n  - pattern: f($X)\n  - metavariable-comparison:\n      comparison: re.match("a", $X)\n',
     ('BadComparison', 'rules.0.patterns.1.metavariable-comparison.comparison')),
]
MATCHES = [  # the pattern, the code, and the lines that are found
    ('f(a=1, b=2)', 'f(a=1, b=2)\nf(b=2, a=1)\nf(a=1)\n', [1, 2]),
    ('f($...A, a=1, b=2)', 'f(a=1, b=2)\nf(b=2, a=1)\n', [1]),
    ('{a: 1, b: 2}', 'x = {a: 1, b: 2}\nx = {b: 2, a: 1}\n', [1]),
    ('f(a)', 'f(a)\nf(a, b)\n', [1]),
    ('$X == None', 'x == None\nNone == x\n', [1]),
    ('os.system(...)', 'from os import system\nsystem(x)\nos.system(x)\n', [2, 3]),
    ('os.system(...)', 'from os import system\nsystem = x\nsystem(x)\n', []),
    ('f("=~/x/")', 'f("x")\nf("=~/x/")\n', [2]),
    ('|\n    a()\n    ...\n    b()', 'a()\nif x:\n    b()\nb()\na()\nif x:\n    b()\n', [1]),
    ('|\n    a()\n    b()', 'x = a()\nb()\na()\nb()\n', [3]),
    ('def $F(...): ...', '@d\nasync def f(a) -> int: pass\n', [1]),
    ('def $F(): ...', 'def f(a): pass\n', []),
]


def page(name, folder='docs'):
    with open(os.path.join(TOP, folder, name), encoding='utf-8') as file:
        return file.read()


def blocks_of(text):
    """The blocks of code of a page, of whatever language."""
    return re.findall(r'^```[a-z]*\n(.*?)^```$', text, re.DOTALL | re.MULTILINE)


def commands_of(text):
    """The commands of a page, each with what stands under it: in its blocks a command begins with a dollar sign."""
    for block in blocks_of(text):
        for piece in re.split(r'^\$ ', block, flags=re.MULTILINE)[1:]:
            command, _, said = piece.partition('\n')
            yield command, said


def real(words):
    """The words of a page with the built program in place of ./semscan."""
    return words.replace('./semscan ', shlex.quote(PROGRAM or '') + ' ')


def in_bash(words, folder):
    """A run of a command of a page."""
    return subprocess.run(['bash', '-o', 'pipefail', '-c', real(words)], cwd=folder, stdin=subprocess.DEVNULL, capture_output=True, check=False,
                          env={**os.environ, 'SEMSCAN': PROGRAM})


class Readme(InFolder):
    """README.md: its commands print what it says, where a line with three dots stands for any lines."""

    def test_commands_are_found(self):
        self.assertEqual(list(commands_of('```\n$ a b\nc\n$ d\n```\n```\ne\n```\n')), [('a b', 'c\n'), ('d', '')])
        self.assertGreater(len(list(commands_of(page('README.md', '.')))), 6)

    @needs_program
    def test_commands(self):
        for command, said in commands_of(page('README.md', '.')):
            ran = in_bash(command, TOP)
            pieces = ['\n' + piece for piece in re.split(r'^\.\.\.\n', said, flags=re.MULTILINE)]
            at, printed = 0, '\n' + ran.stdout.decode()
            for piece in pieces:
                self.assertIn(piece, printed[at:], command)
                at = printed.index(piece, at) + len(piece) - 1
            self.assertTrue(len(pieces) > 1 or printed == pieces[0], command)

    @needs_program
    def test_commands_to_try(self):
        first, second = next(block for block in blocks_of(page('README.md', '.')) if block.startswith('./semscan ')).splitlines()
        for command in (first, second):
            ran = in_bash(command, TOP)
            self.assertEqual((ran.returncode, ran.stderr, bool(ran.stdout)), (0, b'', True), command)

    def test_pages_that_are_named_are_there(self):
        for name in ['README.md', *(os.path.join('docs', name) for name in os.listdir(os.path.join(TOP, 'docs')))]:
            for found in re.findall(r'\b(docs/[A-Z_]+\.md|tools/[a-z_]+\.py|integrations/[a-z-]+(?:\.py)?|examples/[a-z./]+)\b', page(name, '.')):
                self.assertTrue(os.path.exists(os.path.join(TOP, found)), '%s names %s' % (name, found))


class Integrations(InFolder):
    """docs/INTEGRATIONS.md."""

    @needs_program
    def test_pictures(self):
        blocks = blocks_of(page('INTEGRATIONS.md'))
        found = run('semscan-report', 'scan', '--config', 'examples/rules.yaml', 'examples/shop', cwd=TOP)
        pictures = [block for block in blocks if block.startswith(('examples/', '17 '))]
        self.assertEqual(len(pictures), 2)
        for picture in pictures:
            self.assertIn(picture, found.stdout.decode())
        command, said = next(block for block in blocks if block.startswith('$ ')).splitlines()
        self.assertEqual(run('semscan-report', *command.split()[2:], cwd=TOP).stderr.decode(), said + '\n')

    @needs_program
    def test_commands(self):
        """The commands of the page, as a newcomer copies them, in a copy of what they need."""
        for name in ('examples', 'rules'):
            shutil.copytree(os.path.join(TOP, name), os.path.join(self.folder, name))
        os.symlink(INTEGRATIONS, os.path.join(self.folder, 'integrations'))
        shutil.copytree(os.path.join(TOP, 'examples/shop'), os.path.join(self.folder, 'src'))
        shutil.copy(os.path.join(TOP, 'examples/rules.yaml'), self.folder)
        lines = [line for block in blocks_of(page('INTEGRATIONS.md')) for line in block.splitlines()]
        commands = [line for line in lines if line.startswith(('integrations/', './semscan '))]
        self.assertGreater(len(commands), 4)
        for command in commands:
            ran = in_bash(command, self.folder)
            self.assertEqual((ran.returncode, bool(ran.stdout or '>' in command or '--write' in command)), (0, True), '%s: %s' % (command, ran.stderr.decode()))
        self.assertIn(b'fgets(line', get(self.folder, 'examples/shop/lib/names.c'))

    @needs_program
    def test_commands_for_a_project_of_your_own(self):
        script = next(block for block in blocks_of(page('INTEGRATIONS.md')) if block.startswith('export PATH'))
        self.assertEqual(script.count('/PATH/project'), 1)
        self.put('src/a.py', 'import os\n\nos.system(name)\n')
        ran = in_bash(script.replace('/PATH/semscan', shlex.quote(TOP)).replace('/PATH/project', shlex.quote(self.folder)), '/')
        self.assertEqual((ran.returncode, ran.stderr), (0, b''))
        self.assertIn(b'src/a.py:3:1: error: ', ran.stdout)
        self.assertTrue(ran.stdout.endswith(b'\n1 finding in 1 file (1 ERROR), 0 notices\n'), ran.stdout)

    @needs_program
    def test_commands_that_set_up_a_project(self):
        script = next(block for block in blocks_of(page('INTEGRATIONS.md')) if '/build-servers/' in block)
        for words, place in (('/PATH/semscan/crates/semscan/out/semscan', PROGRAM), ('/PATH/semscan', TOP), ('/PATH/project', self.folder)):
            self.assertIn(words, script)
            script = script.replace(words, shlex.quote(place))
        ran = in_bash(script, '/')
        self.assertEqual((ran.returncode, ran.stdout, ran.stderr), (0, b'', b''))
        self.put('src/a.py', 'eval(name)\n')
        entry, = re.findall('^    entry: (.*)$', get(self.folder, '.pre-commit-config.yaml').decode(), re.MULTILINE)
        ran = in_bash(entry, self.folder)
        self.assertEqual((ran.returncode, b'[python-eval-dynamic]' in ran.stdout, ran.stderr), (1, True, b''))

    @needs_program
    @unittest.skipUnless(shutil.which('git'), 'needs git')
    def test_check_of_settings(self):
        script = next(block for block in blocks_of(page('INTEGRATIONS.md')) if block.startswith('git ls-files'))
        self.put('good.json', '{"port": 80}')
        subprocess.run(['git', 'init', '-q', '.'], cwd=self.folder, check=True)
        subprocess.run(['git', 'add', '.'], cwd=self.folder, check=True)
        ran = in_bash(script, self.folder)
        self.assertEqual((ran.returncode, ran.stdout), (0, b''), ran.stderr)
        self.put('settings/bad.json', '{"port": 80,}')
        subprocess.run(['git', 'add', '.'], cwd=self.folder, check=True)
        ran = in_bash(script, self.folder)
        self.assertEqual((ran.returncode != 0, ran.stdout), (True, b'settings/bad.json: bad 12\n'), ran.stderr)

    def test_settings_of_editors(self):
        """The page has the files of integrations/editors, without the comments at their beginning."""
        blocks = blocks_of(page('INTEGRATIONS.md'))
        for name in ('semscan.lua', 'semscan.el'):
            settings = re.sub(r'\A(?:(?:--|;;).*\n)+', '', get(INTEGRATIONS, 'editors/' + name).decode())
            self.assertIn(settings, blocks, name)

    def test_all_that_is_there_is_told(self):
        text = page('INTEGRATIONS.md')
        for name in os.listdir(os.path.join(INTEGRATIONS, 'build-servers')) + ['semscan-report', 'semscan-shards', 'semscan-rules', 'semscan-lsp', 'semscan-fix']:
            self.assertIn(name, text)


class FromSemgrep(InFolder):
    """docs/FROM_SEMGREP.md."""

    @needs_program
    def test_keys(self):
        for language, severity, body, expected in ROWS:
            self.put('r.yaml', HEAD % (language, severity) + '  ' + body)
            report = json.loads(scan(self.folder, '--config', 'r.yaml', 'none').stdout)
            self.assertEqual([(notice['kind'], notice['detail']) for notice in report['notices']], [expected] if expected else [], body)

    @needs_program
    def test_patterns(self):
        for pattern, code, lines in MATCHES:
            self.put('r.yaml', HEAD % ('python', 'INFO') + '  pattern: %s\n' % (pattern if pattern.startswith('|') else json.dumps(pattern)))
            self.put('src/a.py', code)
            report = json.loads(scan(self.folder, '--config', 'r.yaml', 'src').stdout)
            self.assertEqual((report['notices'], [found['start']['line'] for found in report['results']]), ([], lines), pattern)

    @needs_program
    def test_files(self):
        self.put('r.rules', HEAD % ('regex', 'INFO') + '  pattern-regex: (?m)^b\n')
        for path in ('src/a.sh', 'src/.b/a.sh', 'src/a.rb', '.github/a.yml'):
            self.put(path, 'a\nb\n')
        os.symlink('src', os.path.join(self.folder, 'link'))
        for prefix, count in (('.', 1), ('.github', 0), ('link', 0), ('src/a.sh', 1)):
            report = json.loads(scan(self.folder, '--config', 'r.rules', prefix).stdout)
            self.assertEqual(len(report['results']), count, prefix)
