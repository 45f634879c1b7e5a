"""What the tests of a table need: where they look on, and what may follow a level."""
import re

from .rules import Again, Around, Both, Choose, Done, Either, Level, Look, Loop, Mark, Maybe, Must, choices_in, levels_in
from .terms import listed, parsed, show

ANY = None  # in the place of a set: any class


class Tests:
    """The automaton of a table's tests.

    `starts` has the states in which the tests of a level's row begin. `after` has for each level, and each state before it, the
    states in which a test may look on behind it. `follow` has the classes that may stand behind a level, or ANY.
    """

    def __init__(self, table, sets):
        self.table, self.sets = table, sets
        record, scope = table.given.find('automaton')[1:]
        states = listed(parsed(re.search(r'states = ([^;}]*)', record)[1]))
        self.moves = [self.moves_of(table.opened(state, None, scope)) for state in states]
        self.starts = {level: {c.state for c in choices_in(row) if c.state is not None} for level, row in table.rows.items()}
        self.after = {level: [frozenset()] * len(self.moves) for level in table.rows}
        while any([self.look_on(*row) for row in table.all_rows()]):
            pass
        promised = table.given.find('promised')
        anywhere = [show(level) for level in listed(parsed(promised[1]))] if promised else table.rows
        self.follow = {level: ANY if level in anywhere else frozenset() for level in table.rows}
        while any([self.pass_on(loop, row, self.follow[level]) for level, loop, row in table.all_rows()]):
            pass

    def moves_of(self, state):
        """Where each class leads from a state, for those that lead on; the first arm that has a class counts."""
        moves = {}
        for arm in listed(state):
            classes, move = arm.arguments
            for c in self.table.classes(classes):
                moves.setdefault(c, int(show(move.arguments[0])) if move.head == 'go' else None)
        return {c: state for c, state in moves.items() if state is not None}

    def look_on(self, level, loop, rule):
        """Widens `after` of a level by its row, and says whether it grew."""
        known = self.after[level]
        self.after[level] = union(known, self.behind(loop, rule))
        return self.after[level] != known

    def onto(self, classes):
        """For each state, those that a token of these classes leads to."""
        return [frozenset(state for c, state in moves.items() if c in classes) for moves in self.moves]

    def behind(self, loop, rule):
        """For each state before a rule, those in which a test may look on behind it."""
        stay, nowhere = [frozenset([state]) for state in range(len(self.moves))], [frozenset()] * len(self.moves)
        match rule:
            case Done():
                return stay
            case Mark(classes):
                return self.onto(classes)
            case Level(name) | Loop(name):
                return self.after[name]
            case Again():
                return self.after[loop] if loop else nowhere
            case Both(first, second):
                return joined(self.behind(loop, first), self.behind(loop, second))
            case Around(opens, closes, inner):
                return joined(joined(self.onto(opens), self.behind(loop, inner)), self.onto(closes))
            case Look(first, second, yes, no):
                return union(joined(joined(self.onto(first), self.onto(second)), self.behind(loop, yes)), self.behind(loop, no))
            case Maybe(inner) | Must(inner=inner):
                return union(stay, self.behind(loop, inner))
            case Either(first, second) | Choose(first, second):
                return union(self.behind(loop, first), self.behind(loop, second))

    def before(self, loop, rule, follow):
        """What may follow a part that the rule follows, which `follow` may follow."""
        first = self.sets.first_of(loop, rule)
        if not self.sets.can_be_empty(loop, rule):
            return frozenset(first)
        return ANY if follow is ANY else follow | first

    def may_follow(self, level, follow):
        """Widens `follow` of a level, and says whether it grew."""
        known = self.follow[level]
        if known is ANY or (follow is not ANY and follow <= known):
            return False
        self.follow[level] = ANY if follow is ANY else known | follow
        return True

    def pass_on(self, loop, rule, follow):
        """Widens `follow` of all that stands in a rule by what follows the rule, and says whether anything grew."""
        match rule:
            case Level(name) | Loop(name):
                return self.may_follow(name, follow)
            case Again():
                return self.may_follow(loop, follow) if loop else False
            case Both(first, second):
                return any([self.pass_on(loop, first, self.before(loop, second, follow)), self.pass_on(loop, second, follow)])
            case Around(_, closes, inner):
                return self.pass_on(loop, inner, closes)
        return any([self.pass_on(loop, part, follow) for part in rule.parts()])

    def restless(self, loop, rule, follow):
        """The classes at which a test still looks on behind its piece."""
        match rule:
            case Loop(name, inner):
                return self.restless(name, inner, self.follow[name])
            case Both(first, second):
                return self.restless(loop, first, self.before(loop, second, follow)) | self.restless(loop, second, follow)
            case Around(_, closes, inner):
                return self.restless(loop, inner, closes)
        found = set().union(*[self.restless(loop, part, follow) for part in rule.parts()])
        if isinstance(rule, Choose) and rule.state is not None:
            on = set().union(*[self.moves[state] for state in self.behind(loop, rule)[rule.state]])
            found |= on if follow is ANY else on & follow
        return found

    def restless_at(self, level):
        return self.restless(None, self.table.rows[level], self.follow[level])


def union(one, other):
    return [a | b for a, b in zip(one, other)]


def joined(first, second):
    """For each state before the first, the states behind the second."""
    return [frozenset().union(*[second[state] for state in states]) for states in first]


def plain_levels(table, tests):
    """The levels that go by one token in hand, or by tests that are told by their pieces and the next token, with all levels in them."""
    def plain(level):
        choices = choices_in(table.rows[level])
        return not choices or (tests and all(c.state is not None for c in choices) and not tests.restless_at(level))

    levels = {level for level in table.rows if plain(level)}
    while True:
        kept = {level for level in levels if set(levels_in(table.rows[level])) <= levels}
        if kept == levels:
            return levels
        levels = kept
