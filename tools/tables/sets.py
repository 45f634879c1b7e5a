"""The sets and ranks of a table, and what its check refuses."""
import sys

from .rules import Again, Around, Both, Choose, Done, Either, Level, Look, Loop, Mark, Maybe, Must, levels_in


class Sets:
    """For each level the classes that begin it (`first`), those that can go on after it (`more`), and whether it can be empty.

    The levels of a table below have the sets that they have there.
    """

    def __init__(self, table):
        self.table = table
        self.first, self.more, self.empty = ({level: none() for level in table.rows} for none in (set, set, bool))
        self.below = Sets(table.below) if table.below else None
        for level in table.below.rows if table.below else ():
            for own, known in zip((self.first, self.more, self.empty), (self.below.first, self.below.more, self.below.empty)):
                own[f'{table.alias}.{level}'] = known[level]
        while any([self.widened(*row) for row in table.all_rows()]):
            pass

    def widened(self, level, loop, rule):
        """Adds to a level's sets what its row has more, and says whether there was anything."""
        first, more, empty = self.first_of(loop, rule), self.more_of(loop, rule), self.can_be_empty(loop, rule)
        grows = not (first <= self.first[level] and more <= self.more[level] and empty <= self.empty[level])
        self.first[level] |= first
        self.more[level] |= more
        self.empty[level] |= empty
        return grows

    def can_be_empty(self, loop, rule):
        match rule:
            case Done() | Maybe() | Must():
                return True
            case Mark() | Around():
                return False
            case Level(name) | Loop(name):
                return self.empty[name]
            case Again():
                return self.empty[loop] if loop else False
            case Both(first, second):
                return self.can_be_empty(loop, first) and self.can_be_empty(loop, second)
            case Look(no=no):
                return self.can_be_empty(loop, no)
            case Either(first, second) | Choose(first, second):
                return self.can_be_empty(loop, first) or self.can_be_empty(loop, second)

    def first_of(self, loop, rule):
        match rule:
            case Done():
                return set()
            case Mark(classes) | Around(classes):
                return classes
            case Level(name) | Loop(name):
                return self.first[name]
            case Again():
                return self.first[loop] if loop else set()
            case Both(first, second):
                return self.first_of(loop, first) | (self.first_of(loop, second) if self.can_be_empty(loop, first) else set())
            case Look(first, no=no):
                return first | self.first_of(loop, no)
            case Maybe(inner) | Must(inner=inner):
                return self.first_of(loop, inner)
            case Either(first, second) | Choose(first, second):
                return self.first_of(loop, first) | self.first_of(loop, second)

    def more_of(self, loop, rule):
        match rule:
            case Done() | Mark() | Around():
                return set()
            case Level(name) | Loop(name):
                return self.more[name]
            case Again():
                return self.more[loop] if loop else set()
            case Both(first, second):
                return self.more_of(loop, second) | (self.more_of(loop, first) if self.can_be_empty(loop, second) else set())
            case Look(_, second, yes, no):
                return self.more_of(loop, yes) | second | self.more_of(loop, no)
            case Maybe(inner):
                return self.first_of(loop, inner) | self.more_of(loop, inner)
            case Must(_, inner):
                return self.more_of(loop, inner)
            case Either(first, second) | Choose(first, second):
                return self.more_of(loop, first) | self.more_of(loop, second)

    def clashes(self):
        """What the check of the table refuses: the level, the reason in words, and the classes."""
        for level, row in self.table.rows.items():
            yield from ((level, *clash) for clash in self.clashes_in(None, row))

    def clashes_in(self, loop, rule):
        loop = rule.name if isinstance(rule, Loop) else loop
        for part in rule.parts():
            yield from self.clashes_in(loop, part)
        for reason, classes in self.clashes_at(loop, rule):
            if classes:
                yield reason, classes
        if any(self.can_be_empty(loop, part) for part in told_by_first(rule)):
            yield 'what the first token is to tell can be empty', set()

    def clashes_at(self, loop, rule):
        match rule:
            case Both(first, second):
                yield ('in a sequence these go on in the first part and begin the second',
                       self.more_of(loop, first) & self.first_of(loop, second))
            case Around(_, closes, inner):
                yield 'in brackets these go on with what is inside and close them', self.more_of(loop, inner) & closes
            case Either(first, second):
                yield 'these begin both alternatives', self.first_of(loop, first) & self.first_of(loop, second)
            case Must(classes, inner):
                yield '`must` does not name these that begin it', self.first_of(loop, inner) - classes


def told_by_first(rule):
    """The parts of a rule that are told by the first token, so that none can be empty."""
    match rule:
        case Either(first, second):
            return [first, second]
        case Maybe(inner) | Must(inner=inner) | Look(no=inner):
            return [inner]
    return []


def ranks(table):
    """The rank of each level: above those of the levels at hand in its row, and above all of a table below."""
    known, floor = {}, max(ranks(table.below).values()) if table.below else 0

    def rank(level, path):
        if level in path:
            sys.exit('these levels stand in one another; one reference must be `deep`: ' + ' '.join(path + [level]))
        if level not in table.rows:
            return floor
        if level not in known:
            known[level] = 1 + max([floor] + [rank(at_hand, path + [level]) for at_hand in levels_in(table.rows[level], (False,))])
        return known[level]

    return {level: rank(level, []) for level in table.rows}
