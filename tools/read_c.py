#!/usr/bin/env python3
"""Reads files in C by the table of c_items, and says by what those without a tree differ from the grammar.

    tools/read_c.py [--all] PATH ..

reads each file and prints how many have a tree, and the others under the first of the features below that the item shows at which
the reader stops. With --all it prints a line for each file: `ok`, `none` with the byte where the item begins and the byte of the
token that no tree has there, or `lex` with the byte that no token has. It goes by the table alone, not by the program: where
both read the same files, their answers must agree. Limits of depth and brackets are not looked at.
"""
import re
import sys
import threading
from collections import Counter
from pathlib import Path

from tables.rules import Again, Around, Both, Choose, Done, Either, Level, Loop, Mark, Maybe, Must
from tables.sets import Sets
from tables.table import Table
from tables.terms import spec_file

# ---- tokens

SPELLINGS = dict(re.findall(r'text = codes "((?:\\.|[^"\\])*)"; word = (\w+)', spec_file('c_expr', 'Words').read_text()))
MARKS = sorted([s for s in SPELLINGS if not (s[0].isalpha() or s[0] == '_' or s in ('<...', '...>'))] + ['...'], key=len, reverse=True)
TOKEN = re.compile(
    r'(?P<blank>[ \t\v\f\r\n]+|\\\r?\n|//[^\n]*|/\*.*?\*/)'
    r'|(?P<Str>(?:u8|L|u|U)?"(?:\\[^\n]|[^"\\\n])*")'
    r"|(?P<Char>(?:L|u|U)?'(?:\\[^\n]|[^'\\\n])+')"
    r'|(?P<Number>\.?[0-9](?:[eEpP][+-]|[A-Za-z0-9_.])*)'
    r'|(?P<Name>[^\W\d]\w*)'
    r'|(?P<mark>(?!/\*)(?:' + '|'.join(map(re.escape, MARKS)) + r')|\#)', re.S)
DIRECTIVE = re.compile(r'#(?:\\\r?\n|[^\n])*')


def word_of(kind, text):
    if kind in ('Name', 'mark'):
        return SPELLINGS.get(text, 'Name' if kind == 'Name' else 'Ellipsis' if text == '...' else 'Other')
    return kind


def tokens_of(text):
    """Words with their places, or the place that has no token."""
    found, at, fresh = [], 1 if text.startswith('\ufeff') else 0, True
    while at < len(text):
        match = DIRECTIVE.match(text, at) if fresh and text[at] == '#' else TOKEN.match(text, at)
        if not match:
            return None, at
        if match.re is DIRECTIVE:
            found.append(('Directive', at))
            fresh = False
        elif match.lastgroup == 'blank':
            fresh = fresh or ('\n' in match[0] and not match[0].startswith('\\'))
        else:
            found.append((word_of(match.lastgroup, match[0]), at))
            fresh = False
        at = match.end()
    return found + [('End', len(text))], None


# ---- where the next tokens settle what stands there

NAMES, SPEC = {'Name', 'Meta'}, {'TypeWord', 'Tag', 'Qualifier'}
OPERANDS = {'Name', 'Meta', 'Number', 'Str', 'StrAny', 'Char', 'OpenRound', 'Flip', 'Sizeof'}
ONLY_GOES_ON = {'Equals', 'Assigns', 'Slash', 'Shift', 'Order', 'Equality', 'Caret', 'Bar', 'And', 'Or', 'Question', 'Comma',
                'OpenSquare', 'Dot', 'Arrow'}
OPENINGS, CLOSINGS = {'OpenRound', 'OpenSquare', 'OpenCurly'}, {'CloseRound', 'CloseSquare', 'CloseCurly'}


class Reader:
    def __init__(self, tokens):
        self.words, self.furthest = [w for w, _ in tokens], 0

    def at(self, i):
        return self.words[i] if i < len(self.words) else 'End'

    def stars(self, i):
        while self.at(i) == 'Star':
            i += 1
        return i

    def is_type(self, i, behind):
        return self.at(i) in SPEC or (self.at(i) in NAMES and self.at(i + 1) == 'Star' and self.at(self.stars(i + 1)) in behind)

    def opens_cast(self, i):
        named = self.at(i + 1) in NAMES and self.at(i + 2) == 'CloseRound' and self.at(i + 3) in OPERANDS
        return self.at(i) == 'OpenRound' and (self.is_type(i + 1, {'CloseRound'}) or named)

    def sizes_type(self, i):
        return self.at(i) == 'Sizeof' and self.at(i + 1) == 'OpenRound' and self.is_type(i + 2, {'CloseRound'})

    def takes_type(self, i):
        return self.is_type(i, {'Comma', 'CloseRound'})

    def opens_declarator(self, i):
        return self.at(i) == 'OpenRound' and self.at(i + 1) in {'Star', 'OpenRound'}

    def opens_enumerators(self, i):
        return self.at(i) == 'OpenCurly' and self.at(i + 1) in NAMES and self.at(i + 2) in {'Comma', 'Equals', 'CloseCurly'}

    def declares(self, i):
        if self.at(i) in SPEC or self.at(i) not in NAMES:
            return self.at(i) in SPEC
        name = self.stars(i + 1)
        pointed = name > i + 1 and self.at(name) in NAMES and self.at(name + 1) in {'Equals', 'Semicolon', 'Comma', 'OpenSquare'}
        return self.at(i + 1) in NAMES | SPEC or pointed

    def labels(self, i):
        return self.at(i) in NAMES and self.at(i + 1) == 'Colon'

    def marks(self, i):
        return self.at(i) in {'Case', 'Default'} or self.labels(i)

    def invokes(self, i):
        return self.at(i) in NAMES and self.at(i + 1) == 'OpenRound'

    def opens_block(self, i):
        return self.at(i) == 'OpenCurly'

    def stands_alone(self, i):
        return self.at(i) in {'Dots', 'MetaDots'} and self.at(i + 1) not in ONLY_GOES_ON

    def defines(self, i):
        inner = 0
        while self.at(i) != 'End':
            word = self.at(i)
            if inner == 0 and word not in {'OpenRound', 'OpenSquare'} | NAMES | SPEC | {'Star'}:
                return word == 'OpenCurly'
            inner += (word in OPENINGS) - (word in CLOSINGS)
            i += 1
        return False


# ---- rules as functions, from a place to the place behind, or none; a loop goes on behind ('again', place)

LEVELS = {}


def classes(names):
    return frozenset(n.strip('()').split('.')[-1] for n in names)


def of_token(words):
    def read(reader, i):
        reader.furthest = max(reader.furthest, i)
        return i + 1 if reader.at(i) in words else None
    return read


def of_sequence(first, last):
    def read(reader, i):
        middle = first(reader, i)
        return None if middle is None else last(reader, middle)
    return read


def of_loop(inner):
    def read(reader, i):
        end = inner(reader, i)
        while isinstance(end, tuple):
            end = inner(reader, end[1])
        return end
    return read


def of_rule(rule, loop, sets, above):
    """A rule as a function; `above` is what stands before the names of its levels in LEVELS."""
    def inner(part):
        return of_rule(part, loop, sets, above)

    def first_tells(words, first, second):
        yes, no = inner(first), inner(second)
        return lambda reader, i: (yes if reader.at(i) in words else no)(reader, i)

    match rule:
        case Done():
            return lambda reader, i: i
        case Mark(found):
            return of_token(classes(found))
        case Level(name):
            return lambda reader, i: LEVELS[above + name](reader, i)
        case Again():
            return lambda reader, i: ('again', i)
        case Loop(name, turn):
            return of_loop(of_rule(turn, name, sets, above))
        case Around(opens, closes, middle):
            return of_sequence(of_token(classes(opens)), of_sequence(inner(middle), of_token(classes(closes))))
        case Both(first, second):
            return of_sequence(inner(first), inner(second))
        case Choose(yes, no, test):
            return lambda reader, i, yes=inner(yes), no=inner(no): (yes if getattr(reader, test)(i) else no)(reader, i)
        case Must(words, part):
            return first_tells(classes(words), part, Done())
        case Maybe(part):
            return first_tells(classes(sets.first_of(loop, part)), part, Done())
        case Either(first, second):
            return first_tells(classes(sets.first_of(loop, first)), first, second)


def prepare():
    """Fills LEVELS with the levels of c_items, and with those of c_expr by the name that c_items has for them."""
    table = Table(spec_file('c_items', 'Table'))
    sets = Sets(table)
    for level, row in table.below.rows.items():
        above = table.alias + '.'
        LEVELS[above + level] = of_rule(row, None, sets.below, above)
    for level, row in table.rows.items():
        LEVELS[level] = of_rule(row, None, sets, '')


def read(text):
    """`ok`, or `none` with two places, or `lex` with one."""
    tokens, bad = tokens_of(text)
    if tokens is None:
        return 'lex', bad, bad
    reader, at = Reader(tokens), 0
    while at + 1 < len(tokens):
        end = LEVELS['FileItem'](reader, at)
        if end is None:
            return 'none', tokens[at][1], tokens[min(reader.furthest, len(tokens) - 1)][1]
        at = end
    return 'ok', 0, 0


# ---- by what an item differs from the grammar

NAME = r'[A-Za-z_]\w*'
COMPILER = (r'__attribute__|__extension__|__asm__|__asm|asm|__inline|__inline__|__restrict|__volatile__|__typeof__|__declspec'
            r'|_Static_assert|_Alignas|__int128|_Float\w+')
FEATURES = [
    ('C++', r'^\s*(namespace|class|template|using)\b|^[^;{]*(::|\boperator\b)'),
    ('extern "C"', r'^\s*extern\s*"'),
    ('directives within an item', r'\n[ \t]*#'),
    ('attributes and other words of a compiler', r'^[^;{]*\b(' + COMPILER + r')\b'),
    ('a macro behind a declarator', r'^[^;{]*\)\s*' + NAME + r'\s*(\([^;]*\)\s*)?[;{]'),
    ('old style of parameters', r'^[^;{]*\([^;{()]*\)\s*' + NAME + r'[\s*]+' + NAME + r'[^;{]*;'),
    ('a macro and a name of a type', r'^\s*((const|static|extern|inline|typedef)\s+)*' + NAME + r'\s+' + NAME + r'[\s*(]*' + NAME),
    ('the use of a macro that goes on', r'^\s*' + NAME + r'\s*\('),
]


def item_of(text):
    """The item at the text's start, as far as its brackets tell."""
    text, depth = re.sub(r'/\*.*?\*/|//[^\n]*', ' ', text, flags=re.S), 0
    for i, c in enumerate(text):
        depth += (c in '({[') - (c in ')}]')
        if depth <= 0 and c in '};':
            return text[:i + 1]
    return text


def main():
    prepare()
    paths, found = [p for p in sys.argv[1:] if p != '--all'], Counter()
    for path in paths:
        try:
            text = Path(path).read_bytes().decode()
        except (OSError, UnicodeDecodeError):
            found['not read'] += 1
            continue
        word, at, token = read(text)
        if '--all' in sys.argv:
            print(word, len(text[:at].encode()), len(text[:token].encode()), path)
        if word == 'none':
            item = item_of(text[at:])
            word = 'none: ' + next((name for name, pattern in FEATURES if re.search(pattern, item)), 'other')
        found[word] += 1
    for name, count in found.most_common():
        print('%6d  %s' % (count, name))


if __name__ == '__main__':
    sys.setrecursionlimit(100000)
    threading.stack_size(512 * 1024 * 1024)
    thread = threading.Thread(target=main)
    thread.start()
    thread.join()
