"""Terms as tables are written with them, and the definitions of a file of specs/."""
import re
import sys
from pathlib import Path
from typing import NamedTuple

ROOT = Path(__file__).resolve().parent.parent.parent
TOKEN = re.compile(r'\s*([^\s()\[\]]+|\[\]|[()])')
INFIX = {'∣': 'alt', '·': 'seq', '++': '++', '∷': '∷', '⇒': '⇒'}  # from the loosest to the tightest; each joins from the right


class Term(NamedTuple):
    """A name and what it is applied to; an infix operator is a name too, that of INFIX."""
    head: str
    arguments: list


class Parser:
    """Reads one term."""

    def __init__(self, text):
        self.left = TOKEN.findall(text)

    def term(self, level=0):
        if level == len(INFIX):
            return self.application()
        mark, name = list(INFIX.items())[level]
        first = self.term(level + 1)
        if self.left and self.left[0] == mark:
            self.left.pop(0)
            return Term(name, [first, self.term(level)])
        return first

    def application(self):
        function, arguments = self.atom(), []
        while self.left and self.left[0] != ')' and self.left[0] not in INFIX:
            arguments.append(self.atom())
        return Term(function.head, function.arguments + arguments)

    def atom(self):
        token = self.left.pop(0)
        if token != '(':
            return Term(token, [])
        inner = self.term()
        if not self.left or self.left.pop(0) != ')':
            sys.exit('a closing parenthesis is missing')
        return inner


def parsed(text):
    return Parser(text).term()


def show(term):
    """The term as it is written, where it has no infix operators."""
    return ' '.join([term.head] + ['(' + show(a) + ')' if a.arguments else show(a) for a in term.arguments])


def listed(term):
    """The terms of a list `a ∷ b ∷ .. ∷ []`."""
    return [term.arguments[0]] + listed(term.arguments[1]) if term.head == '∷' else []


class Definitions:
    """The definitions of one line, `name parameter .. = term`, of a file of specs/, and what it imports from other such files."""

    def __init__(self, path):
        self.path, self.text = path, path.read_text(encoding='utf-8')
        self.own, self.rows, self.below = {}, {}, None
        for line in self.text.split('\n'):
            self.take(line.split('--')[0].rstrip())
        self.imported = dict(self.imports())

    def take(self, line):
        """Keeps what a line defines: a row of `table`, the row that takes in another table, or another name."""
        match = re.match(r'(\S+)((?: \S+)*?) = (.+)$', line)
        below = re.match(r'table \((\w+) l\) = .*\((\w+)\.table l\)$', line)
        if below:
            self.below = below[1], below[2]
        elif match and match[1] == 'table':
            self.rows[match[2].strip()] = match[3]
        elif match and not line.startswith(('use ', ' ')):
            self.own[match[1]] = (match[2].split(), match[3])

    def imports(self):
        """The names that the file imports of other files of specs/, but not of the crate `grammar`, whose words stay as they are."""
        for crate, module, names in re.findall(r'^use Rattle\.(\w+)\.specs\.([\w.]+)\.\{(.*)\}$', self.text, re.M):
            path = spec_file(crate, module)
            if crate != 'grammar' and path.exists():
                yield from ((name, path) for name in names.split(', '))

    def file_of(self, alias):
        """The file that is imported under this name."""
        return spec_file(*re.search(rf'^use Rattle\.(\w+)\.specs\.([\w.]+) as {alias}$', self.text, re.M).groups())

    def find(self, name):
        """The parameters and the term of a name, and the definitions by which to read it; or None where it has none."""
        if name in self.own:
            return *self.own[name], self
        if name in self.imported:
            return Definitions(self.imported[name]).find(name)
        return None


def spec_file(crate, module):
    return ROOT / 'crates' / crate / 'specs' / (module.replace('.', '/') + '.antt')


def sets_of(path):
    """The file of the sets of a table's file: in the folder of the reader's own steps, where there is one, else beside the table."""
    folder = path.with_name('reader')
    return (folder if folder.is_dir() else path.parent) / 'Sets.antt'


def module_of(path):
    """The name by which proofs import a file of specs/."""
    return 'Rattle.' + str(path.resolve().relative_to(ROOT / 'crates')).removesuffix('.antt').replace('/', '.')
