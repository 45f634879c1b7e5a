"""Random streams for `compare_session.py`: files and rules that come, change as editors change them, become unread, and come back."""
import ast
import json
import pathlib
import re
import warnings

import python_cases

TOP = pathlib.Path(__file__).resolve().parent.parent
TOKEN = re.compile(r'\$\w+|\w+|"[^"\n]*"|\'[^\'\n]*\'|[-+*/=<>!]=?|\.\.\.')
INDENT = re.compile(r'[ \t]*')
FOLDERS, ODD_FOLDERS = ['src/', 'src/lib/', 'src/lib/deep/', 'src/tests/'], ['src/.hidden/', 'other/']
ENDINGS, ODD_ENDINGS = ['py'] * 12 + ['pyi', 'c', 'c', 'h', 'json', 'txt', 'md'], ['zzz', '']
NAMES = ['rules/a.yaml', 'rules/b.yaml', 'rules/b.yml', 'z.yaml', 'src/0.py']
PREFIXES = ['.', 'src', 'src/lib', 'src/lib', 'src/lib/deep', 'src/tests', 'src/0.py', 'src/li', 'nowhere']
LARGE, LARGE_RULES = 1_000_000, 262_144

PYTHON = ['f(1)', 'f(f(2))', 'f(x)', 'f(A)', 'f("a")', 'f(A, A)', 'f(x, "a")', 'x = "a"', 'x = "b"', 'A = "a"', 'A = 7', 'B = A', 'x = B', 'del A', 'A += 1',
          'global A', 'os = f(1)', 'import os', 'import os as run', 'from os import system as run', 'from os import system, getenv', 'import os.path as p',
          'from . import os', 'run(x)', 'run("a")', 'os.system(x)', 'os.system("a")', 'run.system(A)', 'system(u)', 'u = source()', 'u = os.getenv("a")',
          'u = getenv("a")', 'u = clean(u)', 'sink(u)', 'sink(x)', 'x = u', 'x.add(u)', 'if x == None: f(x)', 'if f(1): x = "b"', 'while f(x): x = u',
          'for A in f(1): sink(A)', 'a()', 'b()', 'c()', 'a(); b()', 'print(A, x, 9)', 'def f(x, A="a"): return f(x)', 'def g(x=[]): sink(x); return A',
          'class A: x = "a"; f(x)', 'with open(x) as u: sink(u)', 'try: a()\nexcept E: b()', 'lambda A: f(A)', '"a"', '(x := "a")', '# nosemgrep', '', '#']
HEADS = ['', '\n\n', '# c', 'import os', 'from os import system as run', 'A = "a"', 'A = "b"', 'x = A', '"""a"""', 'from os import *', 'f = g', '# nosemgrep']
C = ['f(1);', 'x = f(x, "a");', 'if (x) return y;', 'strcpy(a, b);', 'free(p);', 'p = malloc(n);', 'return x;', 'sink(source());', 'while (f(x)) x = 0;', '// nosemgrep']
TEXTS = ['f(1)', 'password = "a"', 'a b c', '# nosemgrep', '']
SNIPPETS = {'py': PYTHON, 'pyi': PYTHON, 'c': C, 'h': C, 'json': ['"a": 1,', '{"a": [1, 2]},', '"a",'], 'txt': TEXTS}

BODIES = [
    'pattern: f($X)\n  fix: g($X)', 'pattern: f("...")', 'pattern: f("a")\n  fix: f(A)', 'pattern: f($X, $X)', 'pattern: os.system($X)',
    'pattern: os.system("...")', 'pattern: $X == None\n  fix: $X is None', 'pattern: $F($X)', 'pattern: $X = $Y\n  fix: $Y = $X', "pattern: '\"...\"'", 'pattern: $X',
    'pattern: f(<... "a" ...>)', 'pattern: 7', 'pattern: return $X\n  fix: return ($X)', 'pattern: strcpy($A, $B)\n  fix: strlcpy($A, $B)', 'pattern-regex: f\\(.\\)',
    'pattern-regex: (', 'pattern-either:\n  - pattern: a()\n  - pattern: x', 'pattern: f(...)\n  paths:\n    include: [lib]\n  fix: f()',
    'pattern: f(...)\n  paths:\n    exclude: ["src/*.py", deep]\n  fix: f(1, ...)', 'pattern: |\n    a()\n    ...\n    b()', 'pattern: |\n    a()\n    b()\n  fix: c()',
    'pattern: |\n    ...\n    f($X)\n    ...', 'pattern: |\n    $X = $Y\n    ...\n    $Z = $X', 'pattern: |\n    def $F(...):\n        ...',
    'pattern: |\n    import os\n    ...\n    f($X)', 'patterns:\n  - pattern: f($X)\n  - pattern-inside: |\n      def $F(...):\n          ...',
    'patterns:\n  - pattern: $F($X)\n  - pattern-not-inside: f(...)\n  fix: "0"', 'patterns:\n  - pattern: f($X)\n  - focus-metavariable: $X\n  fix: y',
    'patterns:\n  - pattern: $F($X)\n  - metavariable-regex:\n      metavariable: $F\n      regex: f|g',
    'patterns:\n  - pattern: print($X, ..., $N)\n  - metavariable-comparison:\n      comparison: $N > 8',
    "patterns:\n  - pattern: f($X)\n  - metavariable-pattern:\n      metavariable: $X\n      pattern: '\"a\"'",
    'mode: taint\n  pattern-sources:\n  - pattern: source()\n  - pattern: os.getenv("...")\n  pattern-sinks:\n  - pattern: sink(...)\n'
    '  - pattern: os.system($X)\n  pattern-sanitizers:\n  - pattern: clean(...)\n  pattern-propagators:\n  - pattern: $A.add($B)\n    from: $B\n    to: $A',
    "mode: taint\n  pattern-sources:\n  - pattern: '\"a\"'\n  pattern-sinks:\n  - pattern: f(...)\n  fix: h()"]
LANGUAGES = ['[python]'] * 16 + ['[python, c]', '[c]', '[c, json]', '[regex]', '[json, python, regex]', '[basic]']


def entries(text):
    """The entries of a rule file."""
    return ['- id:' + each.rstrip('\n') + '\n' for each in text.split('- id:')[1:]]


def pools(seed):
    """Texts by their endings, and entries of rule files: of the examples, the rules that come with semscan, and CPython's library."""
    texts, rules = {ending: [] for ending in SNIPPETS}, []
    for path in sorted([*TOP.glob('examples/**/*'), *TOP.glob('rules/**/*')]):
        if path.suffix == '.yaml':
            rules += entries(path.read_text(encoding='utf-8'))
        elif path.is_file():
            texts.get(path.suffix[1:], texts['txt']).append(path.read_text(encoding='utf-8'))
    texts['py'] += [text for _, text in python_cases.library(seed, 60) if len(text) < 30_000]
    texts['pyi'], texts['h'] = texts['py'], texts['c']
    return texts, rules


def reads(ending, text):
    """Whether a text is likely one that has a tree."""
    try:
        if ending in ('py', 'pyi'):
            with warnings.catch_warnings(action='ignore'):
                ast.parse(text)
        elif ending == 'json':
            json.loads(text)
    except (SyntaxError, ValueError, RecursionError, MemoryError):
        return False
    return text.count('{') == text.count('}') if ending in ('c', 'h') else True


class Maker:
    """Makes commands, one by one, for what a session has by then: `state` has `files`, `rules` and the `folder`, each by path."""

    def __init__(self, choose, pool, state):
        self.choose = choose
        self.texts, self.rules = pool
        self.state = state
        self.before = {}
        self.first = self.begin()
        self.odd = choose.random() < 0.15
        self.names = NAMES[:1] * 5 + NAMES if choose.random() < 0.4 else NAMES[:1]
        self.ways = {
            self.edit: 44, self.fresh: 6, self.again: 3, self.back: 6, self.remove: 3, self.unread: 3, self.rule: 4, self.edit_rule: 10, self.unrule: 1,
            self.unread_rule: 1, self.write: 8, self.leave: 1, self.sync: 3, self.scan: 24, self.fix: 4}

    def begin(self):
        """The commands that a session begins with."""
        yield from (self.rule() for _ in range(self.choose.choice([1, 1, 1, 1, 2, 3])))
        yield from (self.choose.choice([self.fresh, self.fresh, self.write])() for _ in range(self.choose.randint(1, 25)))

    def next(self):
        """The next command, as a word, a path and a body."""
        made = next(self.first, None) or self.choose.choices(list(self.ways), self.ways.values())[0]()
        if made[0] in ('put', 'rule', 'write'):
            self.before.setdefault(made[:2], []).append(made[2])
        return made

    def one_of(self, found, other):
        """One of these paths; another one at times, and where there is none."""
        return self.choose.choice(sorted(found)) if found and self.choose.random() < 0.95 else other

    def place(self):
        """A path; in few sessions also one that no scan of a folder takes."""
        folder = self.choose.choice(FOLDERS + ODD_FOLDERS * self.odd)
        return '%s%d.%s' % (folder, self.choose.randrange(6), self.choose.choice(ENDINGS + ODD_ENDINGS * self.odd))

    def text(self, ending):
        """A whole text: a small one of snippets, or one of the pool."""
        if self.choose.random() < 0.5 or not self.texts[ending]:
            lines = self.choose.choices(SNIPPETS[ending], k=self.choose.randint(1, 14))
            at = self.choose.randint(0, len(lines))
            lines[at:] = ['def f(u):', *['    ' + line.replace('\n', '\n    ') for line in lines[at:]], '    pass'] if ending == 'py' else lines[at:]
            return '\n'.join(lines) + '\n'
        return self.choose.choice(self.texts[ending])

    def edited(self, ending, text):
        """A text after an edit that mostly leaves it readable."""
        for _ in range(5):
            made = self.edited_once(ending, text)
            if reads(ending, made) or self.choose.random() < 0.05:
                return made
        return made if self.choose.random() < 0.1 else self.text(ending)

    def edited_once(self, ending, text):
        way = self.choose.choice([self.token, self.token, self.line, self.line, self.blocks, self.blocks, self.head, self.quiet, self.end])
        return way(ending, text)

    def token(self, _, text):
        """One token of a text becomes another."""
        found = list(TOKEN.finditer(text[:200_000]))
        if not found:
            return text + 'f'
        one = self.choose.choice(found)
        new = self.choose.choice([self.choose.choice(found).group(), one.group() + '1', '"a"', '"b"', 'x', 'A', 'f', '7'])
        return text[:one.start()] + new + text[one.end():]

    def line(self, ending, text):
        """A line goes, comes or stands twice."""
        lines = text.split('\n')
        at = self.choose.randrange(len(lines))
        new = INDENT.match(lines[at]).group() + self.choose.choice(SNIPPETS[ending])
        lines[at:at + 1] = self.choose.choice([[], [lines[at], lines[at]], [new, lines[at]], [new, lines[at]], [lines[at], new], [new]])
        return '\n'.join(lines)

    def blocks(self, ending, text):
        """A statement of the top level moves, goes, comes from another text, or changes places."""
        found = re.split(r'\n(?=[^\s)\]}#])', text)
        at, to = self.choose.randrange(len(found)), self.choose.randrange(len(found))
        other = self.choose.choice(re.split(r'\n(?=[^\s)\]}#])', self.text(ending)))
        way = self.choose.randrange(5)
        if way == 0:
            found.insert(to, found.pop(at))
        elif way == 1:
            found[at], found[to] = found[to], found[at]
        else:
            found[at:at + 1] = [[], [found[at], other], [found[at], found[at]]][way - 2]
        return '\n'.join(found)

    def head(self, ending, text):
        return self.choose.choice(HEADS if ending in ('py', 'pyi') else ['\n', '\n\n']) + '\n' + text

    def end(self, ending, text):
        return self.choose.choice([text + self.choose.choice(SNIPPETS[ending]) + '\n', text.rstrip('\n'), text + '\n'])

    def quiet(self, ending, text):
        """A comment that quiets, at the end of a line."""
        lines = text.split('\n')
        at = self.choose.randrange(len(lines))
        lines[at] += ' %s nosemgrep%s' % ('//' if ending in ('c', 'h') else '#', self.choose.choice(['', '', ': r1', ': r2, py-eval', ':', 'x']))
        return '\n'.join(lines)

    def changed(self, path, body):
        """The bytes of a file after an edit; of one that can't be read mostly a new text."""
        ending = path.rpartition('.')[2]
        ending = ending if ending in SNIPPETS else 'txt'
        try:
            text = body.decode() if len(body) < 200_000 else ''
        except UnicodeDecodeError:
            text = ''
        return (self.edited(ending, text) if text else self.text(ending)).encode()

    def edit(self):
        path = self.one_of(self.state.files, self.place())
        return 'put', path, self.changed(path, self.state.files.get(path, b''))

    def fresh(self):
        path = self.place()
        return 'put', path, self.changed(path, b'')

    def again(self):
        path = self.one_of(self.state.files, self.place())
        return 'put', path, self.state.files.get(path, b'')

    def back(self):
        """The bytes that a file or a rule file had some time before."""
        if not self.before:
            return self.scan()
        word, path = self.choose.choice(list(self.before))
        return word, path, self.choose.choice(self.before[word, path][-4:])

    def remove(self):
        return 'del', self.one_of(self.state.files, self.place()), None

    def unread(self):
        """A file that is not UTF-8, as large as may be, or larger."""
        path = self.one_of(self.state.files, self.place())
        body = self.state.files.get(path, b'')[:LARGE]
        if self.choose.random() < 0.7:
            at = self.choose.randint(0, len(body))
            return 'put', path, body[:at] + self.choose.choice([b'\xff', b'\xc3', b'\xed\xa0\x80', b'\0', b'\r']) + body[at:]
        return 'put', path, body.ljust(LARGE + self.choose.choice([0, 1, 1, 2]), self.choose.choice([b'\n', b'#']))

    def entry(self):
        if self.choose.random() < 0.4 and self.rules:
            return self.choose.choice(self.rules)
        words = [self.choose.randint(1, 30), self.choose.choice(LANGUAGES), self.choose.choice(['INFO', 'ERROR']), self.choose.choice(['m', '$X and $Y', '$F']),
                 self.choose.choice(BODIES)]
        return '- id: r%d\n  languages: %s\n  severity: %s\n  message: %s\n  %s\n' % tuple(words)

    def rule(self):
        made = [self.entry() for _ in range(self.choose.choice([2, 5, 10, 20, 40]))]
        return 'rule', self.choose.choice(self.names), ('rules:\n' + '\n'.join(made)).encode()

    def edit_rule(self):
        """A rule file with an entry more, less, elsewhere, or otherwise."""
        name = self.one_of(self.state.rules, NAMES[0])
        body = self.state.rules.get(name, b'')
        try:
            found = entries(body.decode() if len(body) < 100_000 else '')
        except UnicodeDecodeError:
            found = []
        if not found:
            return self.rule()
        at, way = self.choose.randrange(len(found)), self.choose.randrange(5)
        if way == 0:
            found.insert(0, found.pop(at))
        elif way < 3:
            found[at] = self.token('yaml', found[at])
        else:
            found[at:at + 1] = [found[at], self.entry()] if way == 3 else []
        return 'rule', name, ('rules:\n' + '\n'.join(found)).encode()

    def unread_rule(self):
        name = self.one_of(self.state.rules, NAMES[0])
        # (with one byte more it is within the limit: a longer rule file ends a session)
        body = self.state.rules.get(name, b'rules:\n')[:LARGE_RULES - 1]
        return 'rule', name, self.choose.choice([body + b'\xff', b'', b'rules: {}\n', b'rules:\n- &x 1\n', b'\t' + body, (body + b'\n').ljust(LARGE_RULES, b'#')])

    def unrule(self):
        return 'unrule', self.one_of(self.state.rules, NAMES[1]), None

    def write(self):
        """A file of the folder, which a session sees when it syncs."""
        path = self.one_of(sorted({*self.state.folder, *self.state.files}), self.place())
        return 'write', path, self.changed(path, self.state.folder.get(path, self.state.files.get(path, b'')))

    def leave(self):
        return 'remove', self.one_of(self.state.folder, 'src/none.py'), None

    def sync(self):
        return 'sync', self.choose.choice(PREFIXES), None

    def scan(self):
        return 'scan', '', None

    def fix(self):
        return 'fix', '', None
