#!/usr/bin/env python3
"""Makes the sets and ranks of a grammar's table.

    tools/table_sets.py crates/NAME/specs/Table.antt

reads the table in that file and writes Sets.antt beside it, or into the folder reader/ there: for each level the classes that begin it, those that can go on
after it, whether it can be empty, its rank, and whether one token in hand, and tests that are told by their pieces, are all that
it goes by. Where the table has an `automaton`, it also writes `tests`: where each row's test begins, in which states it may look on
behind a level, and what may follow a level; `promised = Level ∷ .. ∷ []` names those that any class may follow.

A table may stand over another, as `table (Expression l) = renamed .. (e.table l)`, where `e` is the name by which it imports that
table. The sets of the other's levels are those of its own Sets.antt. Closed runs are promised of no level then.

Nothing that is made here is trusted: the check of the table, which computes in the proof, refuses what is wrong. Where a row fails
that check, this script says which part and which classes clash, and ends with status 1.

It reads definitions `name arg .. = term` and rows `table Level = term`, where terms are made of the constructors of `Rule`,
the abbreviations of this file and of those that it imports, `·`, `∣`, `∷`, `++`, `[]` and parentheses.
A class is whatever `class` is applied to. Of a test that is a function it is told by a line `-- NAME begins in state N`.
"""
import sys
from pathlib import Path

from tables.table import Table
from tables.terms import sets_of
from tables.written import Written


def main():
    if len(sys.argv) != 2:
        sys.exit(__doc__)
    path = Path(sys.argv[1])
    written = Written(Table(path))
    sets_of(path).write_text(written.text(), encoding='utf-8')
    faults = list(written.faults())
    for fault in faults:
        print(fault)
    sys.exit(1 if faults else 0)


if __name__ == '__main__':
    main()
