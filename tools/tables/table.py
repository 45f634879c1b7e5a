"""Reads a table: its rows as rules, its loops, and the table that it stands over."""
import re
import sys

from .rules import Again, Around, Both, Choose, Done, Either, Level, Look, Loop, Mark, Maybe, Must, loops_in
from .terms import Definitions, parsed, show

# How many arguments each word of a rule takes.
WORDS = {'done': 0, 'mark': 1, 'word': 2, 'ref': 1, 'deep': 1, 'again': 0, 'seq': 2, 'around': 3, 'alt': 2, 'look': 6,
         'choose': 3, 'opt': 1, 'must': 2, 'rep': 2, 'make': 2}


class Table:
    """The table of a file.

    `rows` has each level's rule, `loops` what each loop goes round, `order` the classes in the order in which the rows name them.
    `below` is the table that this one stands over, whose levels go by the name that it is imported by, as `e.Comma`.
    """

    def __init__(self, path):
        self.path, self.given = path.resolve(), Definitions(path)
        self.begins = {name: int(state) for name, state in re.findall(r'^-- (\S+) begins in state (\d+)$', self.given.text, re.M)}
        self.below = self.alias = self.wrapper = None
        if self.given.below:
            self.wrapper, self.alias = self.given.below
            self.below = Table(self.given.file_of(self.alias))
        self.order = list(self.below.order) if self.below else []
        self.rows = {level: self.rule(self.opened(parsed(row))) for level, row in self.given.rows.items()}
        self.loops = {loop.name: loop.inner for row in self.rows.values() for loop in loops_in(row)}
        for loop in self.loops:
            if loop not in self.rows:
                sys.exit(f'{path}: the loop {loop} has no row of its own')

    def all_rows(self):
        """Each level, the loop that it is, if any, and the rule by which it is read."""
        for level, row in self.rows.items():
            yield level, None, row
        for loop, inner in self.loops.items():
            yield loop, loop, inner

    def opened(self, term, parameters=None, scope=None):
        """The term with all abbreviations written out."""
        scope, parameters = scope or self.given, parameters or {}
        head, arguments = term.head, [self.opened(a, parameters, scope) for a in term.arguments]
        if head in parameters:
            return parameters[head]._replace(arguments=parameters[head].arguments + arguments)
        found = None if head in WORDS or head == 'class' or head in self.begins else scope.find(head)
        if not found or found[1].startswith('record') or len(arguments) < len(found[0]):
            return term._replace(arguments=arguments)
        names, body, inner = found
        opened = self.opened(parsed(body), dict(zip(names, arguments)), inner)
        return opened._replace(arguments=opened.arguments + arguments[len(names):])

    def classes(self, term):
        """The classes of a list. A class is whatever `class` is applied to."""
        if term.head == '[]':
            return frozenset()
        if term.head == '∷':
            name = show(term.arguments[0])
            if name not in self.order:
                self.order.append(name)
            return self.classes(term.arguments[1]) | {name}
        if term.head == '++':
            return self.classes(term.arguments[0]) | self.classes(term.arguments[1])
        sys.exit('not a list of classes: ' + show(term))

    def in_order(self, classes):
        return [c for c in self.order if c in classes]

    def level(self, term):
        """The name of a level; one of the table below has its own name, behind that of the table."""
        return show(term.arguments[0]) if term.head == self.wrapper else term.head

    def choice(self, test, yes, no):
        """A choice by a test of the automaton, or by a function that is declared to be one, or by a function."""
        state = int(show(test.arguments[1])) if test.head == 'test' else self.begins.get(test.head)
        return Choose(self.rule(yes), self.rule(no), test.head, state)

    def rule(self, term):
        """The rule that a term is."""
        if WORDS.get(term.head) != len(term.arguments):
            sys.exit('not a rule: ' + show(term))
        match term.head, *term.arguments:
            case ['done']:
                return Done()
            case ['again']:
                return Again()
            case ['mark', classes] | ['word', _, classes]:
                return Mark(self.classes(classes))
            case ['ref' | 'deep', level]:
                return Level(self.level(level), term.head == 'deep')
            case ['seq', first, second]:
                return Both(self.rule(first), self.rule(second))
            case ['alt', first, second]:
                return Either(self.rule(first), self.rule(second))
            case ['around', opens, closes, inner]:
                return Around(self.classes(opens), self.classes(closes), self.rule(inner))
            case ['look', _, first, second, _, yes, no]:
                return Look(self.classes(first), self.classes(second), self.rule(yes), self.rule(no))
            case ['choose', test, yes, no]:
                return self.choice(test, yes, no)
            case ['opt', inner]:
                return Maybe(self.rule(inner))
            case ['must', classes, inner]:
                return Must(self.classes(classes), self.rule(inner))
            case ['rep', loop, inner]:
                return Loop(loop.head, self.rule(inner))
            case ['make', _, inner]:
                return self.rule(inner)
