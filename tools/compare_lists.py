#!/usr/bin/env python3
"""Compares where patterns of lists, objects and calls match with a plain search that tries every way.

    tools/compare_lists.py [--program PROGRAM] [--runs N] [--seed N]

PROGRAM is the program as `./semscan` built it, if none is given. Each run makes an array of numbers, arrays and objects, as JSON, and a pattern of `...`,
names and such items, some of them lists in lists, and matches it by `semscan match json`. With calls in place of objects the same is done by `semscan match
python`. The search here goes through the items one by one, tries each number of items for `...`, and each member of an object, and each argument with a name,
for one of its pattern; it knows nothing of semscan's code. Where both differ, text and pattern are printed, and the status is 1.
"""
import argparse
import random
import subprocess
import sys

from measure_json import PROGRAM


class Members(list):
    """The members of an object, each a key and a value, or `...` in a pattern."""


class Call(list):
    """The arguments of a call of `f`: items, pairs of a name and an item, and in a pattern `...`."""


def argument_text(argument):
    """An argument as Python."""
    return '%s=%s' % (argument[0], text_of(argument[1])) if isinstance(argument, tuple) else text_of(argument)


def member_text(member):
    """A member as JSON."""
    return member if member == '...' else '%s:%s' % (member[0], text_of(member[1]))


def text_of(item):
    """An item as JSON."""
    if isinstance(item, Members):
        return '{' + ','.join(member_text(one) for one in item) + '}'
    if isinstance(item, Call):
        return 'f(' + ','.join(argument_text(one) for one in item) + ')'
    return '[' + ','.join(text_of(one) for one in item) + ']' if isinstance(item, list) else item


def spans(item, start, out):
    """Each item with its range, the outermost first. An item is told by its identity, so equal ones stay apart."""
    out.append((item, start, start + len(text_of(item))))
    if isinstance(item, Members):
        at = start + 1
        for key, value in item:
            out.append((key, at, at + len(key)))
            spans(value, at + len(key) + 1, out)
            at += len(member_text((key, value))) + 1
    elif isinstance(item, Call):
        at = start + 2
        for one in item:
            if isinstance(one, tuple):
                out.append((one[0], at, at + len(one[0])))
                spans(one[1], at + len(one[0]) + 1, out)
            else:
                spans(one, at, out)
            at += len(argument_text(one)) + 1
    elif isinstance(item, list):
        at = start + 1
        for one in item:
            spans(one, at, out)
            at += len(text_of(one)) + 1
    return out


class Item(str):
    """A number or a key in a text, told apart from an equal one elsewhere."""


def ways(pattern, item, bound, places):
    """What the names stand for, once for each way in which the pattern matches the item."""
    if isinstance(pattern, Members):
        if isinstance(item, Members):
            asked = [one for one in pattern if one != '...']
            yield from choices(asked, len(asked) < len(pattern), list(item), bound, places)
    elif isinstance(pattern, Call):
        if isinstance(item, Call):
            named = [one for one in pattern if isinstance(one, tuple)]
            others = [one for one in pattern if not isinstance(one, tuple)]
            for one in rows(others, [given for given in item if not isinstance(given, tuple)], bound, places):
                yield from choices(named, '...' in others, [given for given in item if isinstance(given, tuple)], one, places)
    elif isinstance(pattern, list):
        if type(item) is list:
            yield from rows(pattern, item, bound, places)
    elif pattern == '$_':
        yield bound
    elif pattern.startswith('$'):
        if pattern not in bound:
            yield {**bound, pattern: item}
        elif text_of(bound[pattern]) == text_of(item):
            yield bound
    elif not isinstance(item, list) and pattern == str(item):
        yield bound


def rows(patterns, items, bound, places):
    """The same for a list of patterns and a list of items."""
    if not patterns:
        if not items:
            yield bound
    elif patterns[0] == '...':
        for some in range(len(items) + 1):
            yield from rows(patterns[1:], items[some:], bound, places)
    elif items:
        for one in ways(patterns[0], items[0], bound, places):
            yield from rows(patterns[1:], items[1:], one, places)


def choices(patterns, loose, members, bound, places):
    """The same for patterns of members, each of which takes a member of its own. Where it is loose, some may be left over."""
    if not patterns:
        if loose or not members:
            yield bound
        return
    for at, (key, value) in enumerate(members):
        for named in ways(patterns[0][0], key, bound, places):
            for one in ways(patterns[0][1], value, named, places):
                yield from choices(patterns[1:], loose, members[:at] + members[at + 1:], one, places)


def wanted(pattern, array):
    """The lines of `semscan match`, in no order."""
    places = spans(array, 0, [])
    at = {id(item): '%d..%d' % (start, end) for item, start, end in places}
    lines = set()
    for item, start, end in places:
        for bound in ways(pattern, item, {}, at):
            names = ''.join(' %s=%s' % (name, at[id(bound[name])]) for name in sorted(bound))
            lines.add('%d..%d%s' % (start, end, names))
    return lines


def array_of(random, size, values, depth, calls):
    """An array of so many items, some of them arrays, and objects or calls."""
    items = []
    for _ in range(size):
        if depth and random.random() < 0.05:
            items.append((call_of if calls else object_of)(random, random.choice([0, 1, 2, 3, 5]), values, depth - 1))
        elif depth and random.random() < 0.04:
            items.append(array_of(random, random.choice([0, 1, 2, 3, 33]), values, depth - 1, calls))
        else:
            items.append(Item(random.randrange(values)))
    return items


def key_of(random, values):
    """A key."""
    return '"k%d"' % random.randrange(min(values, 4))


def object_of(random, size, values, depth):
    """An object of so many members, some with the same key."""
    return Members((Item(key_of(random, values)), array_of(random, 1, values, depth, False)[0]) for _ in range(size))


def call_of(random, size, values, depth):
    """A call with so many arguments, of which some have a name, each another one."""
    named = random.randint(0, size)
    names = [Item('k%d' % name) for name in random.sample(range(40), named)]
    return Call(array_of(random, size - named, values, depth, True) + [(name, array_of(random, 1, values, depth, True)[0]) for name in names])


def arguments_of(random, values, depth):
    """A pattern of a call, with at most three arguments that have a name."""
    parts = Call(pattern_of(random, values, depth, True))
    for name in random.sample(['$K', '$L', '$M', 'k1', 'k2'], random.randint(0, 3)):
        item = pattern_of(random, values, depth - 1, True) if depth and random.random() < 0.2 else random.choice(['$X', '$X', '$Y', str(random.randrange(values))])
        parts.append((name, item))
    if random.random() < 0.5 and '...' not in parts:
        parts.append('...')
    return parts


def members_of(random, values, depth):
    """A pattern of an object, with at most three members that ask for something."""
    parts = Members()
    for _ in range(random.randint(0, 3)):
        key = random.choice(['$K', '$K', '$L', '$_', key_of(random, values)])
        if depth and random.random() < 0.3:
            parts.append((key, pattern_of(random, values, depth - 1, False)))
        else:
            parts.append((key, random.choice(['$X', '$X', '$Y', '$_', str(random.randrange(values))])))
    if random.random() < 0.6:
        parts.insert(random.randint(0, len(parts)), '...')
    return parts


def pattern_of(random, values, depth, calls):
    """A pattern of an array, with `...` at most three times, since each may take any number of items."""
    parts = []
    for _ in range(random.randint(1, 6)):
        kind = random.random()
        if kind < 0.4 and parts.count('...') < 3:
            parts.append('...')
        elif kind < 0.75:
            parts.append(random.choice(['$X', '$X', '$Y', '$_']))
        elif kind < 0.85 or not depth:
            parts.append(str(random.randrange(values)))
        elif kind < 0.93:
            parts.append((arguments_of if calls else members_of)(random, values, depth - 1))
        else:
            parts.append(pattern_of(random, values, depth - 1, calls))
    return parts


def main():
    parser = argparse.ArgumentParser(description=__doc__.split('\n')[0])
    parser.add_argument('--program', default=PROGRAM)
    parser.add_argument('--runs', type=int, default=1_000)
    parser.add_argument('--seed', type=int, default=1)
    given = parser.parse_args()
    source = random.Random(given.seed)
    compared = matches = crowded = 0
    for _ in range(given.runs):
        values = source.choice([1, 3, 20, 100])
        calls = source.random() < 0.5
        size = source.choice([3, 8, 31, 32, 33, 40])
        array = call_of(source, source.choice([3, 9, 12]), values, 2) if calls and source.random() < 0.5 else array_of(source, size, values, 2, calls)
        if source.random() < 0.67:
            pattern = pattern_of(source, values, 2, calls)
        else:
            pattern = (arguments_of if calls else members_of)(source, values, 2)
        lines = wanted(pattern, array)
        asked = [given.program, 'match', 'python' if calls else 'json', text_of(pattern)]
        told = subprocess.run(asked, input=text_of(array), capture_output=True, text=True)
        found = told.stdout.splitlines()
        if len(lines) > 10_000:
            crowded += 1
            same = told.returncode != 0 and not found
        else:
            same = told.returncode == 0 and len(found) == len(lines) and set(found) == lines
        if not same:
            print('%s\n%s\nwanted %d matches, found %d, status %d: %s' % (
                text_of(pattern), text_of(array), len(lines), len(found), told.returncode, told.stderr.strip()))
            return 1
        compared += 1
        matches += len(lines)
    print('%d texts with %d matches, %d with more than 10,000: no difference' % (compared, matches, crowded))
    return 0


if __name__ == '__main__':
    sys.exit(main())
