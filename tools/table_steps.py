#!/usr/bin/env python3
"""Writes a first version of the lemmas by which a reader's functions are proved to go by a grammar's table.

    tools/table_steps.py crates/NAME/specs/Table.antt [MODE..]

writes crates/NAME/proofs/Passes.antt, the check of each row by computing (and of closed runs, for each MODE of specs/Reading.antt;
with the tests of Sets.antt, where the table has an `automaton`), and crates/NAME/proofs/Steps.antt: for each level what it reads
in one step, and for each loop what it still reads in so many rounds.
Both files are then worked on by hand, as all that stand in the repository have been: levels that the reader has no function
for go, and lemmas of rows alike become one. So they are not made anew, and a file that is there is not written over.
It wants `source` and `build` in Build.antt, `sets` and `ranks` in Sets.antt, and `level` in Reading.antt, beside a table (or in the folder
reader/ there) that stands alone. A loop stands in a row as `[make b] (p · rep Loop round)` or `opt (p · rep Loop round)`, where p is a level and
`round` an abbreviation of the table; for a row of another shape the one step is written, and what its loop reads is to be said by hand.
Both files are proved like any other: nothing that is made here is trusted.
"""
import re
import sys
from pathlib import Path

from tables.rules import choices_in
from tables.table import Table
from tables.terms import module_of, parsed, sets_of, show

FUEL = 30
BIND = '◌>>=◌ {B = List N × ℕ}'


def snake(level):
    return re.sub(r'(?<!^)(?=[A-Z])', '_', level).lower()


def loop_row(term):
    """(kind, builder, first level, loop, round) of a row with a loop at its end, or None."""
    head, arguments = term
    if head in ('make', 'opt'):
        inner = loop_row(arguments[-1])
        if inner and inner[0] == 'plain':
            return (head, show(arguments[0]) if head == 'make' else None) + inner[2:]
        return None
    if head == 'seq' and arguments[0].head == 'ref' and arguments[1].head == 'rep':
        loop, body = arguments[1].arguments
        return ('plain', None, arguments[0].arguments[0].head, loop.head, show(body))
    return None


def has_loop(term):
    return term.head == 'rep' or any(has_loop(a) for a in term.arguments)


def steps_of(level, term):
    """The lemmas of a level that is no loop."""
    name, shape = snake(level), loop_row(term)
    zero = [f'pub {name}_zero : (ts : List Token) (room i : ℕ) → room ≡ zero → level ts room {level} i ≡ None',
            f'{name}_zero ts room i h = level_zero ts room {level} i h', '']
    if not shape:
        return zero + [f'pub {name}_step : (ts : List Token) (room i : ℕ) → zero < room → level ts room {level} i ≡ row ts room (table {level}) i',
                       f'{name}_step ts room i h = level_row ts room {level} i h', '']
    return loop_steps(name, level, *shape, zero)


def loop_steps(name, level, kind, builder, first, loop, body, zero):
    """The lemmas of a level whose row has a loop at its end."""
    again = f'read (source ts) sets (suc (length ts)) (rungs ts room) X (Some {loop}) {body}'
    nodes = f'build ts {builder} i y.1 (x.0 ++ y.0)' if kind == 'make' else 'x.0 ++ y.0'
    reads = f'{BIND} (level ts room {first} i) (λ x. {BIND} ({name}_rest ts room (suc (length ts)) x.1) (λ y. Some ({nodes}, y.1)))'
    if kind == 'opt':
        reads = f'cond (has (sets.first {first}) ((source ts).cls i)) ({reads}) (Some ([], i))'
    step = f'level_row ts room {level} i h'
    if kind == 'make':
        step += f' ∙ made (level ts room {first} i) ({name}_rest ts room (suc (length ts))) (λ j xs. build ts {builder} i j xs)'
    return [f'-- what the loop of {name} still reads, in n rounds',
            f'unfoldable pub {name}_rest : List Token → ℕ → ℕ → ℕ → Option (List N × ℕ)',
            f'{name}_rest ts room n = turns (λ i. None) (λ X. {again}) n', '',
            f'pub {name}_turn : (ts : List Token) (room n i : ℕ) → zero < n → {name}_rest ts room n i ≡ {again.replace(" X ", f" ({name}_rest ts room (n - 1)) ")} i',
            f'unfolding {name}_rest',
            f'{name}_turn ts room n i h = ap (λ f. f i) (turn (λ i. None) (λ X. {again}) n h)', '',
            f'pub {name}_turned : (ts : List Token) (room n i : ℕ) → n ≡ zero → {name}_rest ts room n i ≡ None',
            f'unfolding {name}_rest',
            f'{name}_turned ts room n i h = ap (λ f. f i) (turned (λ i. None) (λ X. {again}) n h)', '',
            *zero,
            f'pub {name}_step : (ts : List Token) (room i : ℕ) → zero < room → level ts room {level} i ≡ {reads}',
            f'unfolding {name}_rest', f'{name}_step ts room i h = {step}', '']


def declared(rule):
    count = len(choices_in(rule))
    return ', '.join(['((automaton.most, omega arith, λ f i. refl)'] * count + ['record {}' + ')' * count]) if count else 'record {}'


HEAD = '''-- The reader of a level, one step; first written by tools/table_steps.py.
use Rattle.std.proofs.Common.{◌≡◌, ℕ, zero, suc, ◌-◌, ◌<◌, List, [], ◌∷◌, ◌++◌, length, refl, ap, ◌∙◌, arith, Option, Some, None, cond}
use Rattle.std.specs.Prelude.{Bool}
TOKENS
use Rattle.grammar.specs.Rule.{Rule, has}
use Rattle.grammar.specs.Reader.{read, choice, turns, ◌>>=◌}
use Rattle.grammar.proofs.Rounds.{turn, turned, made}
use Rattle.grammar.proofs.Stable.{room_step}
use MODULE.Table.{Level, LEVELS, table, grammarNAMES, Row}
use MODULE.Build.{source, build}
use READER.Sets.{sets, ranks}
use READER.Reading.{level}
use PROOFS.Passes.{pass}

pub level_zero : (ts : List Token) (room : ℕ) (l : Level) (i : ℕ) → room ≡ zero → level ts room l i ≡ None
unfolding level
level_zero ts room l i h = rw h refl

-- the levels at hand, and those one step deeper
abbrev pub rungs : List Token → ℕ → Bool → Level → ℕ → Option (List N × ℕ)
rungs ts room = choice (level ts room) (level ts (room - 1))

-- what a row reads, over the levels at hand
abbrev pub row : List Token → ℕ → Row → ℕ → Option (List N × ℕ)
row ts room r = read (source ts) sets (suc (length ts)) (rungs ts room) (λ i. None) None r

pub level_row : (ts : List Token) (room : ℕ) (l : Level) (i : ℕ) → zero < room → level ts room l i ≡ row ts room (table l) i
unfolding level
level_row ts room l i h = room_step (source ts) sets (suc (length ts)) grammar ranks pass room l i h
'''


def tree_imports(build):
    """What a reader's nodes are, and the imports of these and of tokens, by the text of Build.antt."""
    node = re.search(r'^(?:unfoldable pub |abbrev pub |pub )?source : List \w+ → Source \w+ \w+ (\w+)', build, re.M)[1]
    uses = []
    for line in build.split('\n'):
        names = [name for name in ('Token', node) if line.startswith('use ') and re.search(r'\{[^}]*\b' + name + r'\b', line)]
        uses += [re.sub(r'\.\{.*', '.{' + ', '.join(names) + '}', line)] if names else []
    return node, uses


def reader_of(table):
    """Where the sets of a table stand, and what its reader reads, as proofs name it."""
    return module_of(sets_of(table.path)).removesuffix('.Sets')


def steps_file(table, module):
    """The text of Steps.antt."""
    node, uses = tree_imports(table.path.with_name('Build.antt').read_text(encoding='utf-8'))
    shapes = {level: parsed(row) for level, row in table.given.rows.items()}
    found = [loop_row(term) for term in shapes.values() if loop_row(term)]
    named = sorted({f[4] for f in found} | {f[1] for f in found if f[1]})
    head = HEAD.replace('TOKENS', '\n'.join(uses)).replace('READER', reader_of(table)).replace('MODULE', module).replace('PROOFS', module.replace('.specs', '.proofs'))
    lines = head.replace('LEVELS', ', '.join(shapes)).replace('NAMES', ''.join(', ' + n for n in named)).split('\n')
    for level, term in shapes.items():
        if level not in table.loops:
            lines += steps_of(level, term)
            if has_loop(term) and not loop_row(term):
                print(f'{level}: say by hand what its loop reads')
    return '\n'.join(lines).replace('List N ', f'List {node} ').rstrip() + '\n'


def passes_file(table, module, modes):
    """The text of Passes.antt."""
    tested = 'automaton' in table.given.own
    levels, closes = ', '.join(table.rows), 'closes' if tested else 'closes_runs'
    lines = ['-- The table passes the checks; first written by tools/table_steps.py.', 'use Rattle.std.specs.Prelude.{◌≡◌, ℕ, Bool, true}',
             f'use Rattle.std.proofs.Common.{{refl{", arith" if tested else ""}}}', f'use Rattle.grammar.specs.Check.{{passes, {closes}}}',
             *[re.sub(r'\{.*', '{class}', line) for line in table.given.text.split('\n') if re.match(r'use .*[{ ]class[,}]', line)],
             f'use {module}.Table.{{Level, {levels}, grammar{", automaton" if tested else ""}}}',
             f'use {reader_of(table)}.Sets.{{sets, ranks{", tests" if tested else ""}}}']
    lines += ['use Rattle.grammar.specs.Tests.{Declared}'] if tested else []
    lines += [f'use {reader_of(table)}.Reading.{{{", ".join(modes)}}}'] if modes else []
    closed = f'{closes} grammar sets ranks{" tests" if tested else ""}'
    for name, claim in [('pass', 'passes grammar sets ranks l')] + [(f'close_{m}', f'{closed} {m} {FUEL} l') for m in modes]:
        lines += ['', f'pub {name} : (l : Level) → {claim} ≡ true', 'unfolding class'] + [f'{name} {l} = refl' for l in table.rows]
    if tested:
        lines += ['', '-- each test in a row is the one that is declared of it', 'pub declared : (l : Level) → Declared tests l (grammar.table l)']
        lines += [f'declared {l} = ' + declared(row) for l, row in table.rows.items()]
    return '\n'.join(lines) + '\n'


def main():
    if len(sys.argv) < 2:
        sys.exit(__doc__)
    table, modes = Table(Path(sys.argv[1])), sys.argv[2:]
    if table.below:
        sys.exit('the lemmas of a table over another are written by hand')
    module = module_of(table.path).removesuffix('.Table')
    proofs, there = table.path.parent.parent / 'proofs', []
    for name, text in (('Steps.antt', steps_file(table, module)), ('Passes.antt', passes_file(table, module, modes))):
        if (proofs / name).exists():
            there.append(f'{proofs / name} is there, and was left alone')
        else:
            (proofs / name).write_text(text, encoding='utf-8')
    sys.exit('\n'.join(there) or 0)


if __name__ == '__main__':
    main()
