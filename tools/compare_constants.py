#!/usr/bin/env python3
"""Compares the constants that semscan finds in Python with those of all paths, over CPython's `ast`.

`compare_constants.py [--program PATH] [--seed N] [--cases N] [--library N]`: random modules, and so many files of CPython's
own library, are read by `python_paths`, which holds each state of names that some path brings to a point. For each Name
that is no target the literal that all states agree on is compared with what semscan says: the patterns are each literal by
itself, which matches the Names known to hold it, and `probe(LITERAL)`, in one scan; some texts are asked by `match` as well.
On a difference the smallest case found is printed, and the run ends with 1.

`compare_constants.py --self [--seed N] [--cases N]` needs no program: it runs random modules under CPython with random
truths for their conditions, and looks whether a name ever held something else than `python_paths` says.
"""
import ast
import collections
import random
import re
import sys

import python_cases as cases
import python_paths as paths

LITERALS = ['"a"', "'b'", '1', '2', 'None', 'True', '"""a"""', '0x1', 'b"a"', 'u"b"', "R'a'", "''"]
QUOTES = re.compile('([A-Za-z]*)(\'\'\'|"""|\'|")')
LARGE = 50_000_000

Held = collections.namedtuple('Held', 'values whole')
Judged = collections.namedtuple('Judged', 'found known results')


VALUES = ['%l'] * 9 + ['%n'] * 5 + ['K', 'L', 'f(%n)', '(%n, %l)', '%n if c() else %l', '"a" "b"', '-1', 'not None', '(%l)', '...']
WILD_VALUES = ['(%n := %v)', 'c() and (%n := %l)', '%n.x', '(%n)', 'f"a"', '[%n for %n in %n]', 'lambda %n: %n', '{%v: %n}', '[*%n, %v]']
ASKS = ['probe(%k)'] * 5 + ['probe(%k); probe(%n)', '(lambda: probe(%k))()', '[probe(%k) for z in it()]', '%n = probe(%k)']
WILD_ASKS = ['[probe(%n) for %n in %n]', 'probe(%k, probe(%n))', 'probe(%n).x = %v', 'f((%n := %v), probe(%n))', '%n[probe(%n)] = %n.x',
             'probe(%n := %v)', 'probe(z=%n, *%n)', '(%n := %v, probe(%n), (%n := probe(%n)))']


class ConstantMaker(cases.Maker):
    """Makes modules whose names hold literals (`%l`), and calls of `probe` that ask for them (`%k`: a name, also of the module)."""

    def __init__(self, choose, plain=False):
        super().__init__(choose, plain)
        self.literals = choose.sample(LITERALS[:6] if plain else LITERALS, choose.randint(1, 3))
        self.common = choose.choice([[], [], ['%l'] * 20, ['%l', '%n'] * 40])
        self.forms['l'] = lambda: self.choose.choice(self.literals)
        self.forms['k'] = lambda: self.choose.choice(self.names + ['K', 'L'])

    def value(self):
        return self.one_of((VALUES if self.plain else VALUES + WILD_VALUES) + self.common)

    def ask(self, place):
        return [self.one_of(ASKS if self.plain else ASKS + WILD_ASKS)]


def content(written):
    """The kind and content of a written literal; None for several strings in a row, and for what is no literal."""
    if written in ('None', 'True', 'False'):
        return 'Const', written
    quotes = QUOTES.match(written)
    if not quotes:
        return ('Number', written) if written[0] in '.0123456789' and written != '...' else None
    prefix, mark = quotes.groups()
    at = quotes.end()
    while not written.startswith(mark, at):
        at += 2 if written[at] == '\\' else 1
    if at + len(mark) < len(written):
        return None
    return 'Str', ''.join(sorted(prefix.lower().replace('u', ''))), written[quotes.end():at]


class Reading:
    """What the Names of a text may hold, by all paths."""

    def __init__(self, source):
        self.source = source
        self.shared = {name for node in source.nodes if isinstance(node, (ast.Global, ast.Nonlocal)) for name in node.names}
        self.literals = {}
        for node in source.nodes:
            if isinstance(node, ast.Constant) and hasattr(node, 'lineno'):
                self.literals[node] = content(source.written(node))
        self.units = {unit: [(point, paths.assignments(point)) for point in paths.points(unit)] for unit in source.units}
        self.fixed = self.fixed_names()
        self.held = {source.span(node): Held({None}, True) for node in self.names_of(source.tree)}
        for unit, around in self.functions_around(source.tree, []):
            self.read_unit(unit, around)

    def names_of(self, tree):
        """All names of the text but those in texts with fields, whose places CPython doesn't tell rightly."""
        below = list(ast.iter_child_nodes(tree)) if not isinstance(tree, ast.JoinedStr) else []
        return [name for node in below for name in self.names_of(node)] + ([tree] if isinstance(tree, ast.Name) else [])

    def functions_around(self, node, around):
        """Each unit with the functions that stand around it."""
        if isinstance(node, paths.FUNCTIONS + (ast.Module,)):
            yield node, around
            around = around + [node]
        for kid in ast.iter_child_nodes(node):
            yield from self.functions_around(kid, around)

    def assigned_names(self, unit):
        """The names that a unit's points assign, as often as they do."""
        return [target.name for _, given in self.units[unit] for each in given for target in each.targets if target.reach != 'base']

    def fixed_names(self):
        """The names that the module assigns once, as a whole and a literal, with these."""
        count = collections.Counter(self.assigned_names(self.source.tree))
        fixed = {}
        for _, given in self.units[self.source.tree]:
            for each in given:
                value = self.literals.get(each.value) if each.manner == 'statement' else None
                fixed.update({target.name: value for target in each.targets if value and target.reach == 'whole'
                              and count[target.name] == 1 and target.name not in self.shared})
        return fixed

    def entry(self, unit, around):
        """What names hold where a unit begins."""
        if isinstance(unit, ast.Module):
            return {}
        own = {name for each in around[1:] + [unit] for name in self.assigned_names(each) + [arg.arg for arg in paths.parameters(each)]}
        return {name: value for name, value in self.fixed.items() if name not in own}

    def moves(self, unit):
        """For each point its groups of names that take a literal, what another name holds, or nothing known."""
        found = {}
        for point, given in self.units[unit]:
            found[point] = [{target.name: self.taken(each, target) for target in each.targets if target.reach != 'base'} for each in given]
        return found

    def taken(self, given, target):
        """What a target takes: a literal, the text of a name, or None."""
        if given.manner not in ('statement', 'walrus') or target.reach != 'whole' or target.name in self.shared:
            return None
        if isinstance(given.value, ast.Name):
            return given.value.id if given.value.id not in self.shared else None
        return self.literals.get(given.value)

    def size(self, unit, entry):
        """The points times the names times the literals and one, about."""
        below = [node for point, _ in self.units[unit] for node in paths.nodes(point)]
        names = {node.id for node in below if isinstance(node, ast.Name)} | set(self.assigned_names(unit))
        names |= {arg.arg for arg in paths.parameters(unit)}
        literals = {self.literals.get(node) for node in below if isinstance(node, ast.Constant)}
        literals |= {entry[name] for name in names & entry.keys()}
        return (len(self.units[unit]) + 2) * len(names) * (len(literals - {None}) + 1)

    def read_unit(self, unit, around):
        """Writes down what the names of a unit may hold at its points."""
        entry, moves = self.entry(unit, around), self.moves(unit)
        size = self.size(unit, entry)
        for group in groups(moves, entry):
            reached = follow(unit, group, entry, moves)
            for point, given in self.units[unit]:
                targets = {target.node for each in given for target in each.targets}
                for node in paths.nodes(point):
                    if isinstance(node, ast.Name) and node.id in group and node not in targets:
                        values = {state[group.index(node.id)] for state in reached.before[point]}
                        self.note(node, values, reached.whole, size)

    def note(self, node, values, whole, size):
        """Writes down the values of one name, unless the unit is too large; about the limit nothing is compared."""
        if self.source.span(node) in self.held and size < 1.3 * LARGE:
            self.held[self.source.span(node)] = Held(values, whole) if size < 0.7 * LARGE else Held(set(), False)


def groups(moves, entry):
    """The names of a unit that may hold literals, in groups within which they take values from each other."""
    group = {}
    def joined(name):
        return group.setdefault(name, [name])
    for given in moves.values():
        for each in given:
            for name, value in each.items():
                mine, other = joined(name), joined(value if isinstance(value, str) else name)
                if mine is not other:
                    mine += other
                    group.update({each: mine for each in other})
    for name in entry:
        joined(name)
    pairs = [pair for given in moves.values() for each in given for pair in each.items()]
    literal = {name for name, value in pairs if isinstance(value, tuple)} | set(entry)
    return {id(names): names for names in group.values() if literal & set(names)}.values()


def follow(unit, group, entry, moves):
    """The states of a group of names at the points of a unit."""
    place = {name: number for number, name in enumerate(group)}
    steps = {point: [[(place[name], value) for name, value in each.items() if name in place] for each in given]
             for point, given in moves.items()}
    steps = {point: [each for each in given if each] for point, given in steps.items()}

    def step(point, state):
        for each in steps[point]:
            after = list(state)
            for name, value in each:
                after[name] = state[place[value]] if isinstance(value, str) else value
            state = tuple(after)
        return state
    return paths.Paths(unit, tuple(entry.get(name) for name in group), step)


def only(held):
    """The one literal that all paths leave, or None."""
    return next(iter(held.values)) if len(held.values) == 1 else None


def differences(reading, said, asked):
    """Where semscan says something else than the paths, with what was expected and what was said."""
    found = []
    for span, held in sorted(reading.held.items()):
        got = said.get(span, set())
        want = {only(held)} & asked
        if got != want if held.whole else any(held.values - {each} for each in got) or len(got) > 1:
            found.append((span, want if held.whole else held.values, got))
    return found


def rules_for(literals, probes):
    """The rules that ask for literals, and what each one asks for."""
    rules, meant = [], {}
    for number, written in enumerate(literals):
        for name, pattern in [(f'n{number}', written)] + ([(f'p{number}', f'probe({written})')] if probes else []):
            rules.append(cases.rule(name, ['  pattern: ' + cases.quoted(pattern)]))
            meant[name] = content(written)
    if probes:
        rules.append(cases.rule('any', ['  pattern: probe("...")']))
        rules.append(cases.rule('off', ['  pattern: probe("a")', '  options:', '    constant_propagation: false']))
    return ''.join(rules), meant


def said_by(results, meant, letter):
    """What the results of the rules with that letter say, by the range."""
    said = collections.defaultdict(set)
    for each in results:
        if each['check_id'][0] == letter and each['check_id'] in meant:
            said[each['start']['offset'], each['end']['offset']].add(meant[each['check_id']])
    return said


def probe_differences(reading, results, meant, said):
    """Where `probe(NAME)` is found otherwise than the name by itself."""
    probes, found = said_by(results, meant, 'p'), []
    ranges = {name: {(each['start']['offset'], each['end']['offset']) for each in results if each['check_id'] == name} for name in ('any', 'off')}
    for node in reading.source.nodes:
        if not (isinstance(node, ast.Call) and reading.source.written(node.func) == 'probe' and len(node.args) == 1):
            continue
        span, held = reading.source.span(node), said.get(reading.source.span(node.args[0]), set())
        if not isinstance(node.args[0], ast.Name) or reading.source.span(node.args[0]) not in reading.held:
            continue
        texts = {span} if any(each[0] == 'Str' for each in held) else set()
        if probes.get(span, set()) != held or ranges['any'] & {span} != texts or span in ranges['off']:
            found.append((span, held, (probes.get(span), span in ranges['any'], span in ranges['off'])))
    return found


def judge(scanner, literals, texts, probes=True):
    """What the comparison of each text gives."""
    rules, meant = rules_for(literals, probes)
    return [judge_text(text, results, notices, meant, probes) for text, (results, notices) in zip(texts, scanner.scan(rules, texts))]


def judge_text(text, results, notices, meant, probes):
    """The differences of a text, how many names of it are known, and the results. A text that neither side reads has none."""
    try:
        reading = Reading(paths.Source(text))
    except paths.OutsideProfile:
        return Judged([] if notices else [((0, 0), 'no tree', 'a tree')], 0, results)
    if notices:
        return Judged([((0, 0), 'a tree', notices)], 0, results)
    said = said_by(results, meant, 'n')
    found = differences(reading, said, set(meant.values()))
    found += probe_differences(reading, results, meant, said) if probes else []
    return Judged(found, sum(1 for held in reading.held.values() if only(held)), results)


def show(text, found):
    """Prints a case with its differences."""
    print(text)
    for span, want, got in found:
        print(f'{span[0]}..{span[1]} {text.encode()[span[0]:span[1]].decode()!r}: expected {want or "nothing"}, said {got or "nothing"}')


def report(scanner, literals, text, probes=True):
    """Shows the smallest case for a text that differs, and ends."""
    def differs(texts):
        return [bool(each.found) for each in judge(scanner, literals, texts, probes)]
    text = cases.shrink(text, differs)
    show(text, judge(scanner, literals, [text], probes)[0].found)
    sys.exit(1)


def compare_match(scanner, text, results):
    """Ends where `match` finds other ranges for a call of `probe` than the scan does."""
    for number, written in enumerate(LITERALS):
        spans = {f'{each["start"]["offset"]}..{each["end"]["offset"]}' for each in results if each['check_id'] == f'p{number}'}
        lines = set(scanner.match(f'probe({written})', text))
        if lines != spans:
            print(text)
            sys.exit(f'probe({written}): scan finds {sorted(spans)}, match {sorted(lines)}')


def compare_cases(scanner, seed, count):
    """Compares random modules, 200 in a scan, and a few of each scan by `match`."""
    known = 0
    for first in range(0, count, 200):
        texts = []
        for number in range(first, min(first + 200, count)):
            choose = random.Random(f'{seed} {number}')
            texts.append(ConstantMaker(choose, plain=choose.random() < 0.2).module())
        for number, (text, judged) in enumerate(zip(texts, judge(scanner, LITERALS, texts))):
            known += judged.known
            if judged.found:
                report(scanner, LITERALS, text)
            if number < 3:
                compare_match(scanner, text, judged.results)
    print(f'{count} modules with {known} names that are known: no difference')


def askable(reading):
    """The literals of a text that some name may hold, one written form of each, as far as a rule can ask for them."""
    given = {value for moves in map(reading.moves, reading.units) for each in moves.values() for group in each for value in group.values()}
    found = {}
    for node, value in reading.literals.items():
        written = reading.source.written(node)
        if value and value in given and '\n' not in written and len(written) < 60 and written.isprintable() and value[-1] != '...':
            found.setdefault(value, written)
    return list(found.values())[:900]


def compare_library(scanner, seed, count):
    """Compares files of CPython's library, each in a scan of its own."""
    read = known = 0
    for file, text in cases.library(seed, count):
        try:
            literals = askable(Reading(paths.Source(text)))
        except paths.OutsideProfile:
            continue
        if not literals:
            continue
        judged = judge(scanner, literals, [text], False)[0]
        if judged.found and judged.found[0][1] == 'a tree':
            print(f'{file}: not read: {judged.found[0][2][0]["kind"]}')
        elif judged.found:
            print(f'{file} differs at {len(judged.found)} names')
            report(scanner, literals, text, False)
        else:
            read, known = read + 1, known + judged.known
    print(f'{read} files of CPython\'s library with {known} names that are known: no difference')


def observed(text, choose):
    """The values that names had in calls of `probe` where a text was run, by the span of the name."""
    source, seen = paths.Source(text), collections.defaultdict(list)
    calls = cases.calls_by_place(source)

    def probe(value):
        call = calls[cases.place_of_call()]
        seen[source.span(call.args[0])].append(value)
        return object()
    for _ in range(6):
        cases.run_plain(text, {'probe': probe}, cases.Oracle(choose))
    return seen


def allowed(held, value):
    """Whether some path leaves a name with a value that was seen, or with one that nothing is known of."""
    written = [each and (f'{each[1]}"{each[2]}"' if each[0] == 'Str' else each[1]) for each in held.values]
    return any(each is None or repr(ast.literal_eval(each)) == repr(value) for each in written)


def wrong_values(text, choose):
    """Names that held something at run time which no path leaves them with; and how many names were seen that are known."""
    held, seen = Reading(paths.Source(text)).held, observed(text, choose)
    found = [(span, held[span].values, set(map(repr, values))) for span, values in seen.items()
             if not all(allowed(held[span], value) for value in values)]
    return found, sum(1 for span in seen if only(held[span]))


def check_self(seed, count):
    """Runs random modules and looks whether the states of all paths hold what was seen."""
    asked = 0
    for number in range(count):
        choose = random.Random(f'{seed} {number}')
        text = ConstantMaker(choose, plain=True).module()
        found, known = wrong_values(text, random.Random(number))
        asked += known
        if found:
            text = cases.shrink(text, lambda texts: [bool(wrong_values(each, random.Random(number))[0]) for each in texts])
            show(text, wrong_values(text, random.Random(number))[0])
            sys.exit(1)
    print(f'{count} modules were run, {asked} names were asked while they are known: no difference')


if __name__ == '__main__':
    cases.run(__doc__, check_self, compare_cases, compare_library)
