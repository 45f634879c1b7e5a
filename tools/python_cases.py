"""Python for `compare_constants.py` and `compare_taint.py`: random modules and files of CPython's library.

They are scanned here, made smaller, and run.
"""
import argparse
import ast
import json
import pathlib
import random
import re
import subprocess
import sys
import tempfile

import python_paths as paths

NAMES = ['a', 'b', 's', 't', 'w']
INDENT = '    '


SMALL = [
    '(%n := %v)', 'pass', 'c()', 'r()', 'assert c()', '%n = r()', '%n += %n', '%n += %v', '%n.x += %v', '%n[%v] -= %n',
    'del %n', 'del %n.x, %n', 'import %n', 'import %n.b, x.%n', 'import m as %n', 'from m import %n, x as %n',
    'from %n import *', 'lambda %n=(%n := %v): (%n := %v)', '[%v for %n in (%v) if (%n := %v)]', '%n.add(%v)', 'await (%v)',
    'yield %v', '%n = yield %v', '%n: %n', '%n: %n = %v', '%n = %v; %n = %n']
ASSIGN = ['%t = %v'] * 6 + ['%n = %n = %v', '%n, %n = %n, %n', '%n: int = %v', '%t = %t = %v']
TARGETS = ['%n'] * 12 + ['%n, %n', '%n.x', '%n[%n]', '%n.x[0]', '[%n, *%n]', '(%n, %n.y)', '(%n)', 'f(%n).x']
CONDITIONS = ['c()', '%n == %n or c()', '%v', '(%n := %v)', 'c() and (%n := %v)']
SIGNATURES = ['', '%n', '%n=%v', 'p, /, *%n', '*, p=%n, **%n', 'p: %n = %v']
ITEMS = ['cm()', 'cm() as %n', 'cm() as %n, cm() as %n']

PLAIN_SMALL = ['(%n := %v)', 'pass', 'c()']
PLAIN_RAISING = ['r()', 'assert c()', '%n = r()', '%n += %n', 'del %n; %n = u()']
PLAIN_ASSIGN = ['%n = %v'] * 6 + ['%n, %n = (%v, %v)', '%n = %n = %v', '%n, %n = %n, %n', '%n: int = %v']
PLAIN_CONDITIONS = ['c()', '%n == %n or c()', '(%n := %v) == 1 or c()']


class Maker:
    """Makes modules of random statements, from forms in which `%n` is a name, `%v` a value, `%t` a target and so on.

    `plain` makes only what CPython compiles and what runs as the rules of flow have it: no walrus that may be passed
    over, no name of a class body or a comprehension that stands for another one outside, no exception out of
    a handler whose try statement has a finally part, and no name without a value.
    """

    def __init__(self, choose, plain=False):
        self.choose = choose
        self.plain = plain
        self.names = NAMES if plain else choose.sample(NAMES, choose.randint(2, len(NAMES)))
        self.made = 0
        self.drawn = ['for %n in it():']
        self.forms = {'n': lambda: self.choose.choice(self.names), 't': lambda: self.one_of(TARGETS), 'v': self.value}

    def chance(self, part):
        """True in that part of all cases."""
        return self.choose.random() < part

    def one_of(self, forms):
        """One of some forms, filled."""
        return re.sub('%([a-z])', lambda found: self.forms[found[1]](), self.choose.choice(forms))

    def value(self):
        """An expression to assign."""
        raise NotImplementedError

    def ask(self, place):
        """Statements that make what a name holds visible."""
        raise NotImplementedError

    def assign(self, place):
        """An assignment to names."""
        return [self.one_of(PLAIN_ASSIGN if self.plain else ASSIGN)]

    def small(self, place):
        """A statement that holds no others and doesn't jump."""
        return [self.one_of(SMALL if not self.plain else PLAIN_SMALL if place.quiet else PLAIN_SMALL + PLAIN_RAISING)]

    def condition(self):
        """A condition."""
        return self.one_of(PLAIN_CONDITIONS if self.plain else CONDITIONS)

    def jump(self, place):
        """A statement that jumps."""
        wild = not self.plain and self.chance(0.1)
        loop = ['break', 'continue'] * 2 if place.loop or wild else []
        return [self.one_of(['raise E', 'raise E'] + loop + (['return', 'return %v'] if place.function or wild else []))]

    def statement(self, place):
        """Lines of one statement."""
        ways = [(self.assign, 7), (self.ask, 4), (self.small, 3), (self.jump, 1.2)]
        if place.depth < 4:
            ways += [(self.branch, 3), (self.loop, 3), (self.attempt, 3), (self.entered, 1), (self.define, 1), (self.classed, 0.6)]
        return self.choose.choices([each for each, _ in ways], [weight for _, weight in ways])[0](place)

    def block(self, place, most=4):
        """Indented lines of some statements."""
        lines = []
        for _ in range(self.choose.randint(1, most)):
            lines += self.statement(place)
        return [INDENT + line for line in lines]

    def branch(self, place):
        """An if statement."""
        inner = place.inside()
        lines = [f'if {self.condition()}:'] + self.block(inner)
        if self.chance(0.3):
            lines += [f'elif {self.condition()}:'] + self.block(inner)
        return lines + (['else:'] + self.block(inner) if self.chance(0.5) else [])

    def loop(self, place):
        """A while or a for statement."""
        if self.chance(0.5):
            head = 'while c():' if self.plain else f'while {self.condition()}:'
        else:
            head = self.one_of(self.drawn if self.plain else ['for %n in it():', 'for %t in %v:'])
        lines = [head] + self.block(place.inside(loop=True))
        return lines + (['else:'] + self.block(place.inside()) if self.chance(0.3) else [])

    def attempt(self, place):
        """A try statement."""
        handlers = self.choose.choice([0, 1, 1, 1, 2])
        last = handlers == 0 or self.chance(0.4)
        lines = ['try:'] + self.block(place.inside(quiet=place.quiet and not handlers))
        later = place.inside(quiet=place.quiet or last)
        for number in range(handlers):
            head = self.one_of(['except E:', f'except E as h{number}:' if self.plain else 'except E as %n:'])
            lines += [head if number + 1 < handlers or self.chance(0.7) else 'except:'] + self.block(later, 3)
        if handlers and self.chance(0.3):
            lines += ['else:'] + self.block(later, 3)
        return lines + (['finally:'] + self.block(place.inside(), 3) if last else [])

    def entered(self, place):
        """A with statement."""
        items = ITEMS if self.plain else ITEMS + ['%v as %t', '%v as %t, %n as %n']
        return [f'with {self.one_of(items)}:'] + self.block(place.inside())

    def title(self):
        """The name of a function."""
        return f'g{self.made}' if self.plain or self.chance(0.8) else self.one_of(['%n'])

    def define(self, place):
        """A function, and a call of it where the text is run."""
        self.made += 1
        called = self.title()
        inner = Place(place.depth + 1, function=True)
        if not self.plain:
            lines = self.one_of(['', '', '@%n\n', '@dec(%v)\n']) + self.one_of(['', '', 'async '])
            lines = (lines + f'def {called}({self.one_of(SIGNATURES)}):').split('\n')
            shared = [INDENT + self.one_of(['global %n', 'nonlocal %n'])] if self.chance(0.04) else []
            return lines + shared + self.block(inner)
        kept, self.names = self.names, self.choose.sample(NAMES, 3)
        lines = [f'def {called}({self.names[0]}):', INDENT + ' = '.join(self.names[1:]) + ' = u()'] + self.block(inner)
        self.names = kept
        return lines + ([f'{called}(u())'] if not place.quiet else [])

    def classed(self, place):
        """A class. Where the text is run, its body has names of its own."""
        self.made += 1
        if self.plain:
            return [f'class C{self.made}:', INDENT + f'q = {self.value()}']
        named = f'C{self.made}' if self.chance(0.8) else self.one_of(['%n'])
        head = self.one_of(['class %s:' % named, 'class %s(%%v, x=%%n):' % named])
        return self.choose.choice([[], [self.one_of(['@%n'])]]) + [head] + self.block(place.inside(), 3)

    def module(self):
        """The text of a module with constants, statements and functions."""
        lines = [' = '.join(NAMES) + ' = u()'] if self.plain or self.chance(0.3) else []
        if self.plain:
            lines = lines + [f'K = {self.value()}', f'L = {self.value()}']
        else:
            for name in self.choose.sample(['K', 'L', 'M'] + NAMES, self.choose.randint(0, 4)):
                lines += self.choose.choice([[f'{name} = {self.value()}'], ['if c():', f'{INDENT}{name} = {self.value()}']])
        for number in range(self.choose.randint(1, 3)):
            if self.chance(0.3):
                lines += [line.removeprefix(INDENT) for line in self.block(Place(1), 5)]
            else:
                lines += self.entry(number) if self.plain else self.define(Place(1))
        return '\n'.join(lines) + '\n'

    def entry(self, number):
        """A function of the top level that is run."""
        return [f'def f{number}(a, b):', INDENT + ' = '.join(NAMES[2:]) + ' = u()'] + self.block(Place(1, function=True), 6)


class Place:
    """Where a statement stands: how deep, in a loop or not, in a function or not; `quiet` where nothing may raise by itself."""

    def __init__(self, depth, loop=False, function=False, quiet=False):
        self.depth, self.loop, self.function, self.quiet = depth, loop, function, quiet

    def inside(self, **changed):
        """The place of what stands in a statement here."""
        return Place(**{**vars(self), 'depth': self.depth + 1, **changed})


def drops(tree):
    """The places of a tree whose statement or part may be left out, as a path of fields and numbers to each."""
    def below(node, way):
        for field in ('body', 'handlers', 'orelse', 'finalbody'):
            items = getattr(node, field, None)
            for number, item in enumerate(items if isinstance(items, list) else []):
                yield way + [(field, number)]
                yield from below(item, way + [(field, number)])
    return list(below(tree, []))


def without(text, way, part):
    """The text without one statement, or None where that can't be. With a part (`body`, `orelse`) its statements stand in its place."""
    tree = ast.parse(text)
    holder = tree
    for field, number in way[:-1]:
        holder = getattr(holder, field)[number]
    field, number = way[-1]
    items = getattr(holder, field)
    inner = getattr(items[number], part, None) if part else []
    if part and (not inner or isinstance(items[number], ast.ExceptHandler)):
        return None
    items[number:number + 1] = inner
    if not holder.body:
        holder.body.append(ast.Pass())
    if isinstance(holder, ast.Try) and not holder.handlers:
        holder.orelse = []
        if not holder.finalbody:
            return None
    return ast.unparse(tree) + '\n'


def shrink(text, differs):
    """The smallest text that is found by dropping statements one by one, the longest ones first.

    `differs` tells of each of some texts whether it is still a case.
    """
    while True:
        made = [without(text, way, part) for way in drops(ast.parse(text)) for part in (None, 'body', 'orelse')]
        made = sorted({each for each in made if each and len(each) < len(text)}, key=lambda each: (len(each), each))
        kept = None
        for start in range(0, len(made), 40):
            some = made[start:start + 40]
            kept = next((each for each, still in zip(some, differs(some)) if still), None)
            if kept:
                break
        if not kept:
            return text
        text = kept


def quoted(text):
    """A text on one line as a scalar of YAML."""
    return "'" + text.replace("'", "''") + "'"


def rule(name, lines, message='m'):
    """A rule of Python with further lines."""
    return ''.join(line + '\n' for line in [f'- id: {name}', f'  message: {message}', '  severity: INFO', '  languages: [python]'] + lines)


class Scanner:
    """Runs semscan on texts, each as a file of its own."""

    def __init__(self, program):
        self.program = str(pathlib.Path(program).resolve())
        self.runs = 0

    def scan(self, rules, texts):
        """For each text its results, and its notices; notices about rules end the run."""
        self.runs += 1
        with tempfile.TemporaryDirectory() as folder:
            cases = pathlib.Path(folder, 'cases')
            cases.mkdir()
            pathlib.Path(folder, 'r.yaml').write_text('rules:\n' + rules)
            for number, text in enumerate(texts):
                (cases / f'{number}.py').write_bytes(text.encode())
            words = [self.program, 'scan', '--config', 'r.yaml', 'cases']
            run = subprocess.run(words, cwd=folder, capture_output=True)
        if run.returncode:
            sys.exit(f'semscan ended with {run.returncode}: {run.stderr.decode()}')
        report = json.loads(run.stdout)
        found = [([], []) for _ in texts]
        for kind, key in enumerate(['results', 'notices']):
            for each in report[key]:
                if not each['path'].startswith('cases/'):
                    sys.exit(f'semscan says of the rules: {each}')
                found[int(pathlib.Path(each['path']).stem)][kind].append(each)
        return found

    def match(self, pattern, text):
        """The lines that `match` prints for a pattern and a text."""
        self.runs += 1
        run = subprocess.run([self.program, 'match', 'python', pattern], input=text.encode(), capture_output=True, check=True)
        return run.stdout.decode().splitlines()


def library(seed, count):
    """So many files of CPython's library with their texts, in a random order."""
    files = [file for file in pathlib.Path(ast.__file__).parent.rglob('*.py') if 'site-packages' not in file.parts]
    for file in random.Random(seed).sample(sorted(files), len(files)):
        raw = file.read_bytes()
        odd = b'\r' in raw or b'\f' in raw or b'coding:' in raw or raw.startswith(b'\xef\xbb\xbf')
        if count and not odd and 500 < len(raw) < 200_000:
            try:
                ast.parse(raw.decode())
            except (SyntaxError, ValueError):
                continue
            count -= 1
            yield file, raw.decode()


class Oracle:
    """What the functions do that plain texts call: they choose at random, and less and less often to go on."""

    def __init__(self, choose):
        self.choose = choose
        self.left = 60

    def go_on(self):
        """A random truth, and false after some calls."""
        self.left -= 1
        return self.left > 0 and self.choose.random() < 0.5

    def raising(self):
        """Raises at random."""
        if self.choose.random() < 0.4:
            raise ValueError
        return object()

    def __enter__(self):
        return object()

    def __exit__(self, *_):
        return False

    def names(self):
        """The functions by name."""
        return {'c': self.go_on, 'r': self.raising, 'cm': lambda: self, 'u': object, 'E': Exception,
                'it': lambda: [object() for _ in range(self.choose.randint(0, 2)) if self.go_on()], 'f': lambda *_: object()}


def place_of_call():
    """The line, end line, column and end column of the call that is under way two frames further out."""
    frame = sys._getframe(2)
    line, end_line, column, end_column = list(frame.f_code.co_positions())[frame.f_lasti // 2]
    return line, column, end_line, end_column


def run_plain(text, names, oracle):
    """Runs a plain text, and then each function of its top level."""
    names = {**oracle.names(), **names}
    names['__builtins__'] = __builtins__
    try:
        exec(compile(text, 'case', 'exec'), names)
    except Exception:
        pass
    for name in [name for name in names if name[0] == 'f' and name[1:].isdigit()]:
        try:
            names[name](names['u'](), names['u']())
        except Exception:
            pass


def calls_by_place(source):
    """The calls of a text by their places as `place_of_call` gives them."""
    return {(node.lineno, node.col_offset, node.end_lineno, node.end_col_offset): node
            for unit in source.units for point in paths.points(unit) for node in paths.nodes(point)
            if isinstance(node, ast.Call)}


def run(about, check_self, compare_cases, compare_library):
    """Does what the words of a comparing tool ask for, by its calls."""
    parser = argparse.ArgumentParser(description=about, formatter_class=argparse.RawDescriptionHelpFormatter)
    parser.add_argument('--program', default=str(pathlib.Path(__file__).resolve().parent.parent / 'semscan'))
    parser.add_argument('--seed', type=int, default=1)
    parser.add_argument('--cases', type=int, default=1000)
    parser.add_argument('--library', type=int, default=0)
    parser.add_argument('--self', action='store_true')
    words = parser.parse_args()
    sys.setrecursionlimit(20000)
    if words.self:
        return check_self(words.seed, words.cases)
    scanner = Scanner(words.program)
    compare_cases(scanner, words.seed, words.cases)
    compare_library(scanner, words.seed, words.library)
