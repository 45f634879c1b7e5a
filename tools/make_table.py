#!/usr/bin/env python3
"""Makes the automaton of a language, and the certificate by which the check shows that it is right.

    tools/make_table.py CRATE MODULE START ..

reads the rules of crates/CRATE/specs/MODULE.antt (and what they cite in specs/), where each START is a term of the type
`List Rule`, as 'rules true', and writes crates/CRATE/src/table.rt (the columns, the rows and the starts) and
crates/CRATE/proofs/Certificate.antt (what is left to read in each state, and that each start accepts its rules), both laid out as
`rt fmt` does. The states are built from the starts by Antimirov's partial derivatives, as proofs/Derivatives.antt of the crate
`lexing` defines them. Nothing of this is trusted: a wrong table or a wrong certificate is refused.
It prints each start's state and the width of a row.
"""
import re
import sys
import textwrap
from functools import lru_cache
from pathlib import Path

CRATES = Path(__file__).resolve().parent.parent / 'crates'
SYMBOLS = 131  # ASCII, and three classes of other characters
# How many rows one declaration checks, within the steps and the memory that it may take: so many, and so many rows times states.
ROWS_TOGETHER, CHECKED_TOGETHER = 26, 1500
# Two certificates keep what earlier versions of this script wrote, since each change is a proof anew: in the one the lemma `whole`
# has its own name, in the other the entries and rows are public though nothing cites them. Take a crate away here when it is made anew.
OWN_NAME_OF_WHOLE, PUBLIC_THOUGH_UNCITED = {'json_tree'}, {'meta_filter'}

# ---- expressions, as tuples that begin with the constructor's name

NEVER, EMPTY = ('Never',), ('Empty',)


def the(code):
    return ('OneOf', (('To', code, code),))


def folded(combine, none, parts):
    if not parts:
        return none
    return parts[0] if len(parts) == 1 else combine(parts[0], folded(combine, none, parts[1:]))


def then(a, b):
    return ('Then', a, b)


def either(a, b):
    return ('Or', a, b)


def to(low, high):
    return ('To', low, high)


def but(codes):
    ends = [-1, *codes, SYMBOLS]
    return ('OneOf', tuple(to(a + 1, b - 1) for a, b in zip(ends, ends[1:])))


def exactly(codes):
    return folded(then, EMPTY, [the(c) for c in codes])


BUILT_IN = {
    'the': (1, the),
    'exactly': (1, exactly),
    'maybe': (1, lambda a: either(EMPTY, a)),
    'some': (1, lambda a: then(a, ('Many', a))),
    'any_of': (1, lambda parts: folded(either, NEVER, parts)),
    'in_order': (1, lambda parts: folded(then, EMPTY, parts)),
    'codes': (1, lambda text: tuple(map(ord, text))),
    'but': (1, but),
    'digits': (0, lambda: to(48, 57)),
    'capitals': (0, lambda: to(65, 90)),
    'underscore': (0, lambda: to(95, 95)),
    'small_letters': (0, lambda: to(97, 122)),
    'other_starts': (0, lambda: to(128, 128)),
    'other_continues': (0, lambda: to(128, 129)),
}

# ---- the terms of specs/ that rules are written with

TOKEN = re.compile(r'\s*("(?:[^"\\]|\\.)*"|[A-Za-z_][\w.\-]*|0x[0-9a-f]+|\d+|\[\]|∷|\+\+|[(){};=])')


class Parser:
    def __init__(self, text):
        self.tokens, at = [], 0
        text = text.rstrip()
        while at < len(text):
            found = TOKEN.match(text, at)
            if not found:
                raise SyntaxError(text[at:at + 40])
            self.tokens.append(found.group(1))
            at = found.end()
        self.at = 0

    def next(self):
        return self.tokens[self.at] if self.at < len(self.tokens) else None

    def take(self, wanted=None):
        token = self.next()
        if wanted and token != wanted:
            raise SyntaxError(f'{token} in place of {wanted}')
        self.at += 1
        return token

    def term(self):
        if self.next() == 'if':
            self.take()
            test = self.term()
            self.take('then')
            yes = self.term()
            self.take('else')
            return ('if', test, yes, self.term())
        left = self.listed()
        while self.next() == '++':
            self.take()
            left = ('++', left, self.listed())
        return left

    def listed(self):
        head = self.applied()
        if self.next() == '∷':
            self.take()
            return ('∷', head, self.listed())
        return head

    def applied(self):
        head, parts = self.atom(), []
        while self.next() not in (None, ')', '}', ';', '∷', '++', 'then', 'else', '='):
            parts.append(self.atom())
        return ('call', head, parts) if parts else head

    def atom(self):
        token = self.take()
        if token == '(':
            inner = self.term()
            self.take(')')
            return inner
        if token == 'record':
            self.take('{')
            fields = {}
            while self.next() != '}':
                name = self.take()
                self.take('=')
                fields[name] = self.term()
                if self.next() == ';':
                    self.take()
            self.take('}')
            return ('record', fields)
        if token == '[]':
            return ('list',)
        if token[0] == '"':
            return ('text', re.sub(r'\\(.)', r'\1', token[1:-1]))
        if token[0].isdigit():
            return ('number', int(token, 0))
        return ('name', token.split('.')[-1])


class Definitions:
    """What the files of a crate's specs/ define: a name, with a list of clauses, which are patterns and a body."""

    def __init__(self, rules_file):
        self.clauses, self.constants = {}, {}
        self.read(rules_file)
        self.own = list(self.clauses)
        for path in sorted(rules_file.parent.glob('*.antt')):
            if path != rules_file:
                self.read(path)

    def read(self, path):
        lines = [line for line in path.read_text(encoding='utf-8').split('\n') if not line.startswith(('--', 'use '))]
        for clause in re.split(r'\n(?=\S)', '\n'.join(lines)):
            if '=' not in clause or re.match(r'(abbrev|unfoldable|pub|\s*$)', clause):
                continue
            left, right = clause.split('=', 1)
            head, *patterns = left.split()
            self.clauses.setdefault(head, []).append((patterns, right))

    def apply(self, name, arguments):
        """The value of a name, applied to values. A name that is not defined is a constructor."""
        if name == 'map':
            return tuple(self.apply(arguments[0], [part]) for part in arguments[1])
        if name in BUILT_IN:
            return BUILT_IN[name][1](*arguments)
        if name not in self.clauses:
            return (name, *arguments)
        for patterns, body in self.clauses[name]:
            bound = self.bound(patterns, arguments)
            if bound is not None:
                return self.value(Parser(body).term(), bound)
        raise NameError(f'no clause of {name} for {arguments}')

    def bound(self, patterns, arguments):
        """What the names of patterns stand for, or None where the arguments don't fit."""
        bound = {}
        for pattern, argument in zip(patterns, arguments):
            if not (pattern[0].isupper() or pattern in ('true', 'false')):
                bound[pattern] = argument
            elif self.value(('name', pattern), {}) != argument:
                return None
        return bound

    def constant(self, name):
        if name not in self.constants:
            self.constants[name] = self.apply(name, [])
        return self.constants[name]

    def named(self, name, bound):
        """The value of a name; that of a function is its name."""
        if name in bound:
            return bound[name]
        if name in ('true', 'false'):
            return name == 'true'
        if BUILT_IN.get(name, (0,))[0] or any(patterns for patterns, _ in self.clauses.get(name, [])):
            return name
        return self.constant(name)

    def value(self, term, bound):
        kind = term[0]
        if kind == 'if':
            return self.value(term[2] if self.value(term[1], bound) else term[3], bound)
        if kind == '++':
            return self.value(term[1], bound) + self.value(term[2], bound)
        if kind == '∷':
            return (self.value(term[1], bound),) + self.value(term[2], bound)
        if kind == 'list':
            return ()
        if kind in ('text', 'number'):
            return term[1]
        if kind == 'record':
            return tuple(self.value(part, bound) for part in term[1].values())
        if kind == 'name':
            return self.named(term[1], bound)
        return self.apply(term[1][1], [self.value(part, bound) for part in term[2]])

    def expressions(self):
        """The names of the rules' file that are expressions, each by what it is."""
        names = {}
        for name in self.own:
            if not self.clauses[name][0][0] and self.constant(name)[:1] and self.constant(name)[0] in ('Then', 'Or', 'Many', 'OneOf'):
                names.setdefault(self.constant(name), name)
        return names


# ---- partial derivatives


def nullable(e):
    if e[0] in ('Then', 'Or'):
        return (all if e[0] == 'Then' else any)(nullable(part) for part in e[1:])
    return e[0] in ('Empty', 'Many')


def before(a, b):
    return b if a == EMPTY else then(a, b)


@lru_cache(None)
def left_of(symbol, e):
    if e[0] == 'OneOf':
        return (EMPTY,) if any(low <= symbol <= high for _, low, high in e[1]) else ()
    if e[0] == 'Then':
        first = tuple(before(a, e[2]) for a in left_of(symbol, e[1]))
        return first + (left_of(symbol, e[2]) if nullable(e[1]) else ())
    if e[0] == 'Or':
        return left_of(symbol, e[1]) + left_of(symbol, e[2])
    if e[0] == 'Many':
        return tuple(before(a, e) for a in left_of(symbol, e[1]))
    return ()


def automaton(starts):
    """The states (lists of rules that are left), the state after each symbol, and the starts' states."""
    numbers, states = {}, []

    def number(rules):
        key = frozenset(rules)
        if key not in numbers:
            numbers[key] = len(states)
            states.append(tuple(dict.fromkeys(rules)))
        return numbers[key]

    number(())
    first = [number(rules) for rules in starts]
    after = []
    while len(after) < len(states):
        rules = states[len(after)]
        after.append([number([(w, a) for w, e in rules for a in left_of(y, e)]) for y in range(SYMBOLS)])
    return states, after, first


def word_of(rules):
    words = {w for w, e in rules if nullable(e)}
    if len(words) > 1:
        sys.exit(f'one spelling has the words {words}')
    return words.pop() + 1 if words else 0


def table(states, after):
    """The column of each symbol, the rows, and their width. Symbols that lead on alike share a column."""
    kinds = {}
    columns = [kinds.setdefault(tuple(row[y] for row in after), len(kinds) + 1) for y in range(SYMBOLS)]
    width = len(kinds) + 1
    rows = [[word_of(rules)] + [kind[s] * width for kind in kinds] for s, rules in enumerate(states)]
    return columns, rows, width


# ---- what is written


def shown(e, names, within=False):
    if e in names:
        return names[e]
    if e[0] in ('Never', 'Empty'):
        return e[0]
    if e[0] == 'OneOf':
        ranges = e[1]
        alone = len(ranges) == 1 and ranges[0][1] == ranges[0][2]
        text = f'the {ranges[0][1]}' if alone else 'OneOf (%s ∷ [])' % ' ∷ '.join('To %d %d' % r[1:] for r in ranges)
    else:
        text = ' '.join([e[0]] + [shown(part, names, True) for part in e[1:]])
    return f'({text})' if within else text


def array(values):
    return '[\n' + textwrap.fill(' '.join(f'{v},' for v in values), 99, initial_indent='    ', subsequent_indent='    ') + '\n]'


def constant_array(name, values):
    """A constant of an array, in one line where it fits."""
    head = f'pub const {name}: [usize; {len(values)}] = '
    line = head + '[' + ', '.join(map(str, values)) + '];\n'
    return line if len(line) <= 101 else head + array(values) + ';\n'


def table_file(first_line, starts, columns, rows, width, places):
    """The text of src/table.rt."""
    flat = [value for row in rows for value in row]
    begins = ', '.join(f'`{start}`' for start in starts)
    return f"""//! {first_line}
//!
//! The automaton of the tokens: the column of each symbol, and the rows of the states.

pub static COLUMNS: [u8; {SYMBOLS}] = {array(columns)};

pub static ROWS: [u16; {len(flat)}] = {array(flat)};

/// The length of a row.
pub const WIDTH: usize = {width};

/// The states where reading begins: {begins}.
{constant_array('STARTS', places)}"""


def imports(rules_file, starts, own, entries):
    """The lines that import what the entries cite of the rules' file, and what the starts cite of its own imports."""
    text = ' '.join(entries)
    path = 'Rattle.' + str(rules_file.relative_to(CRATES)).removesuffix('.antt').replace('/', '.')
    lines = [f'use {path}.{{{", ".join(name for name in own if re.search(rf"[ (]{name}[ )]", text))}}}']
    cited = set(re.findall(r'\w+', ' '.join(starts)))
    for place, names in re.findall(r'^use (\S+)\.\{(.*)\}$', rules_file.read_text(encoding='utf-8'), re.M):
        wanted = [name for name in names.split(', ') if name in cited]
        if wanted:
            lines.append(f'use {place}.{{{", ".join(wanted)}}}')
    constructors = [name for name in ('Empty', 'OneOf', 'Then', 'Or', 'Many', 'the', 'To') if re.search(rf'[ (]{name}[ )]', text)]
    return lines + [f'use Rattle.lexing.specs.Rules.{{Expression, {", ".join(constructors)}, Rule}}']


def cited_elsewhere(crate):
    """The names of the certificate that other proofs of the crate cite."""
    cited = re.compile(rf'^use Rattle\.{crate}\.proofs\.Certificate\.\{{(.*)\}}$', re.M)
    texts = [path.read_text(encoding='utf-8') for path in (CRATES / crate / 'proofs').rglob('*.antt')]
    return {name for text in texts for names in cited.findall(text) for name in names.split(', ')}


class Certificate:
    """The made proof: what is left in each state, that the rows agree with it, and what each start therefore accepts.

    `entries` are the states and what is left in them, `places` the starts' places in the rows, `imported` lines that the entries need.
    """

    def __init__(self, crate, entries, starts, places, imported):
        size = min(ROWS_TOGETHER, max(1, CHECKED_TOGETHER // len(entries)))
        self.chunks = [entries[i:i + size] for i in range(0, len(entries), size)]
        self.parts = [f'entries_{number}' for number in range(1, len(self.chunks) + 1)]
        self.opened = ' '.join(['entries', *self.parts])
        self.crate, self.starts, self.places, self.imported = crate, starts, places, imported
        self.whole = 'whole' if crate in OWN_NAME_OF_WHOLE else 'whole_by'
        self.cited = {'entries', 'rows', *self.parts} if crate in PUBLIC_THOUGH_UNCITED else cited_elsewhere(crate)

    def text(self, first_line):
        accepts = ''.join(self.accepts(*numbered) for numbered in enumerate(zip(self.starts, self.places)))
        return f'-- {first_line}\n' + self.head() + self.entries() + self.rows() + self.whole_table() + accepts

    def pub(self, name):
        """How a name that not every proof needs is declared: public where another file cites it."""
        return f'pub {name}' if name in self.cited else name

    def head(self):
        several, words = len(self.parts) > 1, ' '.join(self.starts).split()
        common = ['◌≡◌', 'ℕ', 'true', *['false'] * ('false' in words), 'List', '[]', '◌∷◌', *['◌++◌'] * several, 'refl', 'leb-true']
        lemmas = ['Entry', 'rows_right', 'row_right', *['rows_append'] * several, 'certified']
        whole = 'whole' if self.whole == 'whole' else f'whole as {self.whole}'
        return f"""-- What is left to read in each state of the automaton; so it accepts what the rules spell.
use Rattle.std.proofs.Common.{{{', '.join(common)}}}
use Rattle.lexing.specs.Automaton.{{Table, IsWhole, IsSound, Accepts}}
use Rattle.lexing.proofs.Certificate.{{{', '.join(lemmas)}}}
use Rattle.lexing.proofs.Whole.{{is_whole, {whole}}}
use Rattle.{self.crate}.specs.declared.table.TheConstants.{{COLUMNS, ROWS, WIDTH}}
""" + '\n'.join(self.imported) + """

abbrev pub the_table : Table
the_table = record { columns = COLUMNS; rows = ROWS; width = WIDTH }

abbrev entry : ℕ → List Rule → Entry
entry s rules = record { place = s; left = rules }

abbrev left : ℕ → Expression → Rule
left w e = record { word = w; spelled = e }

"""

    def entries(self):
        text = ''
        for part, chunk in zip(self.parts, self.chunks):
            text += f'unfoldable {self.pub(part)} : List Entry\n{part} =\n    ' + '\n    ∷ '.join(chunk) + '\n    ∷ []\n\n'
        joined = ' ++ ('.join(self.parts) + ')' * (len(self.parts) - 1)
        return text + f'unfoldable {self.pub("entries")} : List Entry\nentries = {joined}\n\n'

    def rows(self):
        text, joined = '', f'rows_of_{self.parts[-1]}'
        for part in self.parts:
            text += f'rows_of_{part} : rows_right the_table entries {part} ≡ true\nunfolding {self.opened} row_right\nrows_of_{part} = refl\n\n'
        for part in reversed(self.parts[:-1]):
            joined = f'rows_append the_table entries {part} _ rows_of_{part} ({joined})'
        return text + f'{self.pub("rows")} : rows_right the_table entries entries ≡ true\nunfolding entries\nrows = {joined}\n\n'

    def whole_table(self):
        return f'is_whole_table : IsWhole the_table\nunfolding is_whole\nis_whole_table = {self.whole} the_table refl\n'

    def accepts(self, number, begins):
        start, place = begins
        return f"""
pub accepts_{number} : Accepts the_table {place} ({start})
unfolding {self.opened}
accepts_{number} = certified the_table entries {place} ({start}) rows refl

pub sound_{number} : IsSound (record {{ table = the_table; start = {place} }})
sound_{number} = record {{ whole = is_whole_table; begins = record {{ row = leb-true _ _ refl; nothing = refl }} }}
"""


def made(crate, module, starts):
    """The two files with their texts, and a line that says how large the automaton is."""
    rules_file = CRATES / crate / 'specs' / f'{module}.antt'
    definitions = Definitions(rules_file)
    states, after, first = automaton([definitions.value(Parser(start).term(), {}) for start in starts])
    columns, rows, width = table(states, after)
    places, names, entries = [s * width for s in first], definitions.expressions(), []
    for number, rules in enumerate(states):
        left = starts[first.index(number)] if number in first else None
        left = left or ''.join(f'left {w} {shown(e, names, True)} ∷ ' for w, e in rules) + '[]'
        entries.append(f'entry {number * width} ({left})')
    first_line = 'Made by tools/make_table.py %s %s %s: do not edit.' % (crate, module, ' '.join(f"'{s}'" for s in starts))
    certificate = Certificate(crate, entries, starts, places, imports(rules_file, starts, definitions.own, entries))
    files = {CRATES / crate / 'src/table.rt': table_file(first_line, starts, columns, rows, width, places),
             CRATES / crate / 'proofs/Certificate.antt': certificate.text(first_line)}
    return files, f'{len(states)} states, width {width}, starts at ' + ', '.join(map(str, places))


def main(crate, module, *starts):
    files, size = made(crate, module, starts)
    for path, text in files.items():
        path.write_text(text, encoding='utf-8')
    print(size)


if __name__ == '__main__':
    if len(sys.argv) < 4:
        sys.exit(__doc__)
    main(*sys.argv[1:])
