"""The rules that a table's rows are made of, as far as sets and ranks go by them: what nodes they make is left out."""
from dataclasses import dataclass, fields
from typing import Optional


class Rule:
    def parts(self):
        """The rules that this rule is made of."""
        values = [getattr(self, field.name) for field in fields(self)]
        return [value for value in values if isinstance(value, Rule)]

    def within(self):
        """The rule and all that it is made of."""
        yield self
        for part in self.parts():
            yield from part.within()


@dataclass(eq=False)
class Done(Rule):
    """Nothing."""


@dataclass(eq=False)
class Mark(Rule):
    """A token of one of these classes, with a node or without."""
    classes: frozenset


@dataclass(eq=False)
class Level(Rule):
    """Another level."""
    name: str
    deep: bool


@dataclass(eq=False)
class Again(Rule):
    """The loop once more that the rule stands in."""


@dataclass(eq=False)
class Both(Rule):
    """The first and then the second."""
    first: Rule
    second: Rule


@dataclass(eq=False)
class Around(Rule):
    """A rule between brackets."""
    opens: frozenset
    closes: frozenset
    inner: Rule


@dataclass(eq=False)
class Either(Rule):
    """One of the two, told apart by the first token."""
    first: Rule
    second: Rule


@dataclass(eq=False)
class Look(Rule):
    """A token, one behind it and `yes`, where these two stand; else `no`."""
    first: frozenset
    second: frozenset
    yes: Rule
    no: Rule


@dataclass(eq=False)
class Choose(Rule):
    """`yes` where the test holds, else `no`. A test that has no state is told by its name alone."""
    yes: Rule
    no: Rule
    test: str
    state: Optional[int]


@dataclass(eq=False)
class Maybe(Rule):
    """The rule or nothing."""
    inner: Rule


@dataclass(eq=False)
class Must(Rule):
    """The rule, or nothing where none of these classes follows."""
    classes: frozenset
    inner: Rule


@dataclass(eq=False)
class Loop(Rule):
    """A loop under the name of its level."""
    name: str
    inner: Rule


def levels_in(rule, hands=(False, True)):
    """The levels that stand in a rule: at hand, one step deeper, or both."""
    return [part.name for part in rule.within() if isinstance(part, Level) and part.deep in hands]


def loops_in(rule):
    return [part for part in rule.within() if isinstance(part, Loop)]


def choices_in(rule):
    return [part for part in rule.within() if isinstance(part, Choose)]
