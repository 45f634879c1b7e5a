#!/usr/bin/env python3
"""Compares the taint findings of semscan in Python with those of all paths, over CPython's `ast`.

`compare_taint.py [--program PATH] [--seed N] [--cases N] [--library N]`: random modules are scanned with random taint rules, 200
files and 4 rules in a run, and so many files of CPython's own library with a rule for what functions do with their
parameters. For each source `python_paths` holds every set of tainted names that some path brings to a point; from these
follow the sinks that are hit, each with its least source. Compared are the ranges, the bound names and the sources of all
results. On a difference the smallest case found is printed, and the run ends with 1.

`compare_taint.py --self [--seed N] [--cases N]` needs no program: it runs random modules under CPython with values that know
their sources, and looks whether a source ever came to a sink that isn't hit by it.
"""
import ast
import collections
import random
import sys

import python_cases as cases
import python_paths as paths

Carry = collections.namedtuple('Carry', 'range source target')
Sets = collections.namedtuple('Sets', 'sources sinks sanitizers carries')
Form = collections.namedtuple('Form', 'lines find')

PLAIN_VALUES = ['src()'] * 3 + ['%n'] * 5 + [
    'clean(%n)', 'f(%n, %n)', '(%n if c() else %v)', '[%n, %v]', 'f(clean(src()), %n)', 'u()', '0', 'f(%v)']
VALUES = PLAIN_VALUES + [
    'src(%n)', 'src(safe=%v)', '%n + %n', 'clean(%v)', '%n.strip()', '%n.field', 'secret', '[%n for %n in %n]',
    '(lambda: %n)', '(lambda %n=%n: src())', 'f"{%n}"', '%n.x', '%n[%n]', '%n[%n:%v]', '(not %n)', '{%n: %v}', '{**%n}',
    '(%n := %v)', 'f(z=%v)', 'f(*%n)', 'f(z for z in (%v))', '"k"', '"k" f"{%n}"', '%n == %v', '(%v, *%n)',
    '%n.strip().field', 'other()', '(c() or %v)', '(%v)', '(yield %v)', '(await %v)', 'clean(%n) + %n', 'src(safe=src())']
PLAIN_ASKS = ['sink(%n)'] * 3 + ['sink(%n, %n)', '%n = sink(%v)', 'sink(%v)']
ASKS = PLAIN_ASKS + [
    'sink(%v, %v)', '%n.out = %v', '%n.x.out = %n', 'sink(z=%v)', 'sink(*%n, %n)', 'sink(sink(%v), %n)', 'sink(%n := %v)',
    'sink((%n := %v), %n)', '%n.add(%n)', '%n.add(%v)', '%n.x.add(%v)', 'copy(%n, %n)', 'copy(%n.x, %n[0])', 'copy(%v, %n)',
    '%n[%n] = %v', '%n.add(%n), sink(%n)', 'f(%n.add(%v), (%n := %v))', 'sink(lambda: %n)', '[sink(%n) for %n in (%v)]',
    'f(%n).add(%n)', '%n = %n.add(%v)', 'sink(clean(%n), clean(%v))']


class TaintMaker(cases.Maker):
    """Makes modules with sources, sinks, sanitizers and what carries taint."""

    def __init__(self, choose, plain=False):
        super().__init__(choose, plain)
        self.drawn = ['for z in it():']
        self.common = choose.choice([[], ['%n'] * 20, ['0'] * 10, ['%n', '0'] * 15])

    def value(self):
        return self.one_of((PLAIN_VALUES if self.plain else VALUES) + self.common)

    def ask(self, place):
        return [self.one_of(PLAIN_ASKS if self.plain else ASKS)]

    def title(self):
        return 'guard' if not self.plain and self.chance(0.3) else super().title()


def calls(source, name):
    """The calls of a name in a text, each with its arguments in order."""
    return [(node, paths.by_place(node.args + node.keywords)) for node in source.nodes
            if isinstance(node, ast.Call) and isinstance(node.func, ast.Name) and node.func.id == name]


def methods(source, name):
    """The calls of an attribute, with what has it and the arguments."""
    return [(node, node.func.value, paths.by_place(node.args + node.keywords)) for node in source.nodes
            if isinstance(node, ast.Call) and isinstance(node.func, ast.Attribute) and node.func.attr == name]


def find_calls(name, count=None):
    """Finds the calls of a name, with so many arguments where a number is given."""
    return lambda source: [(source.span(node), {}) for node, given in calls(source, name) if count in (None, len(given))]


def find_arguments(name, places, alone=False):
    """Finds arguments of calls by `$X`, in these places."""
    def find(source):
        return [(source.span(each), {'$X': source.span(each)}) for _, given in calls(source, name) if not alone or len(given) == 1
                for each in given[places] if paths.is_expression(each)]
    return find


def find_safe(source):
    """Finds `src(safe=$X)`."""
    return [(source.span(node), {'$X': source.span(given[0].value)}) for node, given in calls(source, 'src')
            if len(given) == 1 and isinstance(given[0], ast.keyword) and given[0].arg == 'safe']


def find_parameters(source):
    """Finds parameters without mark and default by `$P`."""
    found = []
    for unit in source.units[1:]:
        args, default = unit.args.posonlyargs + unit.args.args, dict(zip(unit.args.kwonlyargs, unit.args.kw_defaults))
        plain = args[:len(args) - len(unit.args.defaults)] + [arg for arg in unit.args.kwonlyargs if default[arg] is None]
        found += [(named(source, arg), {'$F': named_function(source, unit), '$P': named(source, arg)}) for arg in plain]
    return found


def named(source, arg):
    """The span of a parameter's name, without its annotation."""
    start = source.span(arg)[0]
    return start, start + len(arg.arg.encode())


def named_function(source, unit):
    """The span of a function's name."""
    start = source.raw.index(b'def ', source.plain_span(unit)[0]) + 4
    return start, start + len(unit.name.encode())


def find_names(name):
    """Finds a name as an expression; that of a walrus is none."""
    def find(source):
        walrus = {node.target for node in source.nodes if isinstance(node, ast.NamedExpr)}
        return [(source.span(node), {}) for node in source.nodes
                if isinstance(node, ast.Name) and node.id == name and node not in walrus]
    return find


def find_fields(source):
    """Finds `$X.field`."""
    return [(source.span(node), {'$X': source.span(node.value)}) for node in source.nodes
            if isinstance(node, ast.Attribute) and node.attr == 'field']


def find_strips(source):
    """Finds `$X.strip()`."""
    return [(source.span(node), {'$X': source.span(item)}) for node, item, given in methods(source, 'strip') if not given]


def find_out(focus):
    """Finds `$O.out = $V`, or `$V` in it."""
    def find(source):
        found = []
        for node in source.nodes:
            target = node.targets[0] if isinstance(node, ast.Assign) and len(node.targets) == 1 else None
            if isinstance(target, ast.Attribute) and target.attr == 'out' and paths.is_expression(node.value):
                bound = {'$O': source.span(target.value), '$V': source.span(node.value)}
                found.append((bound['$V'] if focus else source.span(node), bound))
        return found
    return find


def find_returns(source):
    """Finds `return $X`."""
    return [(source.span(node), {'$X': source.span(node.value)}) for node in source.nodes
            if isinstance(node, ast.Return) and node.value]


def find_guards(source):
    """Finds functions of the name `guard`, with all that is in them."""
    return [(source.span(node), {}) for node in source.units[1:] if node.name == 'guard']


def find_given(name):
    """Finds `$A.NAME($B)`."""
    return lambda source: [(source.span(node), {'$A': source.span(item), '$B': source.span(given[0])})
                           for node, item, given in methods(source, name) if len(given) == 1 and paths.is_expression(given[0])]


def find_copies(source):
    """Finds `copy($A, $B)`."""
    return [(source.span(node), {'$A': source.span(given[0]), '$B': source.span(given[1])}) for node, given in calls(source, 'copy')
            if len(given) == 2 and all(map(paths.is_expression, given))]


def find_items(source):
    """Finds `$A[$I] = $B`."""
    found = []
    for node in source.nodes:
        target = node.targets[0] if isinstance(node, ast.Assign) and len(node.targets) == 1 else None
        if isinstance(target, ast.Subscript) and paths.is_expression(target.slice) and paths.is_expression(node.value):
            bound = {'$A': target.value, '$I': target.slice, '$B': node.value}
            found.append((source.span(node), {name: source.span(each) for name, each in bound.items()}))
    return found


def pattern(text, find):
    """A formula of one pattern."""
    return Form(['  - pattern: ' + cases.quoted(text)], find)


def focused(text, name, find):
    """A formula of one pattern and what one name in it is bound to."""
    return Form(['  - patterns:', '    - pattern: ' + cases.quoted(text), f'    - focus-metavariable: {name}'], find)


def either(first, second):
    """A formula of two patterns of calls without arguments."""
    lines = ['  - pattern-either:'] + [f'    - pattern: {name}()' for name in (first, second)]
    return Form(lines, lambda source: find_calls(first, 0)(source) + find_calls(second, 0)(source))


SOURCES = [pattern('src()', find_calls('src', 0)), pattern('src(...)', find_calls('src')), pattern('secret', find_names('secret')),
           focused('def $F(..., $P, ...): ...', '$P', find_parameters), pattern('$X.field', find_fields), either('src', 'other')]
SINKS = [pattern('sink(...)', find_calls('sink')), focused('sink($X, ...)', '$X', find_arguments('sink', slice(1))),
         focused('sink(..., $X, ...)', '$X', find_arguments('sink', slice(None))), pattern('$O.out = $V', find_out(False)),
         focused('$O.out = $V', '$V', find_out(True)), pattern('return $X', find_returns), pattern('def guard(...): ...', find_guards)]
SANITIZERS = [pattern('clean(...)', find_calls('clean')), pattern('$X.strip()', find_strips), pattern('src(safe=$X)', find_safe),
              focused('clean($X)', '$X', find_arguments('clean', slice(1), True)), pattern('$O.out = $V', find_out(False))]
ADD, COPY = pattern('$A.add($B)', find_given('add')), pattern('copy($A, $B)', find_copies)
ITEM = pattern('$A[$I] = $B', find_items)
CARRIES = [(ADD, '$B', '$A'), (ADD, '$A', '$B'), (COPY, '$A', '$B'), (COPY, '$Z', '$A'), (ITEM, '$B', '$I'), (ITEM, '$I', '$A')]

# What is looked for in CPython's library: parameters and what is opened, until they are returned, written or kept in a list.
CALLED = ['open', 'len', 'print', 'isinstance']
LIBRARY = [[SOURCES[3], pattern('open(...)', find_calls('open'))],
           [pattern('return $X', find_returns), pattern('print(...)', find_calls('print')), pattern('$A.append($B)', find_given('append'))],
           [pattern('len(...)', find_calls('len')), pattern('isinstance(...)', find_calls('isinstance'))]]
LIBRARY_CARRIES = [(LIBRARY[1][2], '$B', '$A')]


class TaintRule:
    """A random taint rule: what is written, and what its lists find in a text."""

    def __init__(self, name, choose):
        def some(forms, least, most):
            return choose.sample(forms, choose.randint(least, most))
        self.name = name
        self.lists = [some(SOURCES, 1, 2), some(SINKS, 1, 2), some(SANITIZERS, 0, 2)]
        self.carries = some(CARRIES, 0, 3)

    def text(self):
        """The rule as written."""
        lines = ['  mode: taint']
        for key, forms in zip(['sources', 'sinks', 'sanitizers'], self.lists):
            lines += [f'  pattern-{key}:'] * bool(forms) + [line for form in forms for line in form.lines]
        lines += ['  pattern-propagators:'] * bool(self.carries)
        for form, source, target in self.carries:
            lines += form.lines + [f'    from: {source}', f'    to: {target}']
        return cases.rule(self.name, lines)

    def sets(self, source):
        """What the lists find: spans of sources and sanitizers, sinks with what is bound, and carries."""
        sources, sinks, sanitizers = ([each for form in forms for each in form.find(source)] for forms in self.lists)
        carries = {Carry(span, bound[given], bound[taken]) for form, given, taken in self.carries for span, bound in form.find(source)
                   if given in bound and taken in bound}
        return Sets({span for span, _ in sources}, {(span, tuple(sorted(bound.items()))) for span, bound in sinks},
                    {span for span, _ in sanitizers}, carries)


@paths.kept
def expressions(node):
    """The expressions next below a node, with no other one between."""
    return [each for kid in paths.kids(node) for each in ([kid] if paths.is_expression(kid) else expressions(kid))]


class Reading:
    """Which sources hit which sinks of a text, by all paths of all units."""

    def __init__(self, source, sets):
        self.source, self.sets = source, sets
        self.span, self.causes = source.span, {}
        self.hits = collections.defaultdict(set)
        self.whole = True
        for unit in source.units:
            self.read_unit(unit)

    def tainting(self, node, start):
        """What taints an expression: the names of which one must be tainted, or None where the source at `start` does it by itself."""
        if (node, start) not in self.causes:
            self.causes[node, start] = self.cause(node, start)
        return self.causes[node, start]

    def cause(self, node, start):
        """`tainting`, from what taints the expressions below."""
        if paths.is_expression(node) and self.span(node) in self.sets.sanitizers:
            return frozenset()
        if paths.is_expression(node) and self.span(node) == start:
            return None
        if isinstance(node, ast.Lambda):
            return frozenset()
        names = {node.id} if isinstance(node, ast.Name) else set()
        for kid in expressions(node):
            below = self.tainting(kid, start)
            if below is None:
                return None
            names |= below
        return frozenset(names)

    def tainted(self, node, names, start):
        """Whether an expression is tainted by the source at `start` where these names are."""
        causes = self.tainting(node, start)
        return causes is None or not names.isdisjoint(causes)

    def outermost(self, node, span):
        """The outermost expressions at or below a node that lie in a range."""
        if hasattr(node, 'lineno') and (self.span(node)[1] <= span[0] or span[1] <= self.span(node)[0]):
            return []
        if paths.is_expression(node) and span[0] <= self.span(node)[0] and self.span(node)[1] <= span[1]:
            return [node]
        return [each for kid in paths.kids(node) for each in self.outermost(kid, span)]

    def carries_at(self, point):
        """The carries that stand at a point: the expression that gives, and the names that take."""
        if not self.sets.carries:
            return []
        found, ranges, placed = [], set(), collections.defaultdict(list)
        for node in paths.nodes(point):
            if hasattr(node, 'lineno'):
                ranges.add(self.span(node))
                placed[self.span(node)] += [node] * paths.is_expression(node)
        for carry in self.sets.carries:
            if carry.range in ranges:
                taken = [paths.base_of(node) for node in placed[carry.target]]
                found += [(node, name) for node in placed[carry.source] for name in taken if name]
        return found

    def move(self, given, carries, names, start):
        """The tainted names after a point whose assignments and carries these are."""
        after = set(names)
        for each in given:
            tainted = each.value is not None and self.tainted(each.value, after, start)
            for target in each.targets:
                if tainted:
                    after.add(target.name)
                elif target.reach != 'base' and each.manner != 'augmented':
                    after.discard(target.name)
        return frozenset(after | {name for node, name in carries if self.tainted(node, names, start)})

    def read_unit(self, unit):
        """Adds the hits in one unit."""
        given = {point: (paths.assignments(point), self.carries_at(point)) for point in paths.points(unit)}
        spans = {self.span(node) for point in given for node in paths.nodes(point) if paths.is_expression(node)}
        parameters = {named(self.source, arg): arg.arg for arg in paths.parameters(unit)}
        ends = [(sink, point, [node for top in paths.tops(point) for node in self.outermost(top, sink[0])])
                for sink in self.sets.sinks for point in given]
        ends = [each for each in ends if each[2]]
        for start in self.sets.sources & (spans | parameters.keys()) if ends else ():
            entry = frozenset([parameters[start]] if start in parameters else [])
            reached = paths.Paths(unit, entry, lambda point, names: self.move(*given[point], names, start))
            self.whole = self.whole and reached.whole
            for sink, point, found in ends:
                if any(self.tainted(node, names, start) for node in found for names in reached.before[point]):
                    self.hits[sink].add(start)

    def results(self):
        """What a report should say: the range, what is bound, and the least source of each sink that is hit."""
        return {(*sink, min(starts)) for sink, starts in self.hits.items()}


def said_by(results, rule):
    """What the results of a rule say, in the form of `Reading.results`."""
    found = set()
    for each in results:
        if each['check_id'] == rule.name:
            bound = tuple(sorted((name, tuple(span)) for name, span in each['extra']['metavars'].items()))
            found.add(((each['start']['offset'], each['end']['offset']), bound, tuple(each['extra']['source'])))
    return found


def judge(scanner, rules, texts):
    """For each text each rule that differs in it, with what was expected and what was said; and how much was expected."""
    answers = []
    for text, (results, notices) in zip(texts, scanner.scan(''.join(rule.text() for rule in rules), texts)):
        source, found, count = paths.Source(text), [], 0
        for rule in rules:
            reading = Reading(source, rule.sets(source))
            want, got = reading.results(), said_by(results, rule)
            count += len(want)
            if notices or (want != got if reading.whole else not {each[:2] for each in want} <= {each[:2] for each in got}):
                found.append((rule, want, got if not notices else notices))
        answers.append((found, count))
    return answers


def report(scanner, rule, text):
    """Shows the smallest case for a rule and a text that differ, and ends."""
    text = cases.shrink(text, lambda texts: [bool(found) for found, _ in judge(scanner, [rule], texts)])
    _, want, got = judge(scanner, [rule], [text])[0][0][0]
    print(rule.text() + '\n' + text)
    if isinstance(got, list):
        sys.exit(f'said: {got}')
    for word, each in [('expected', want - got), ('said', got - want)]:
        for span, bound, start in sorted(each):
            written = [text.encode()[slice(*part)].decode() for part in (span, start)]
            print(f'{word} only: {span[0]}..{span[1]} {written[0]!r} {dict(bound)} from {start[0]}..{start[1]} {written[1]!r}')
    sys.exit(1)


def compare_cases(scanner, seed, count):
    """Compares random modules under random rules, 200 modules and 4 rules in a scan."""
    expected = 0
    for first in range(0, count, 200):
        choose = random.Random(f'{seed} {first} rules')
        rules = [TaintRule(f't{number}', choose) for number in range(4)]
        makers = [random.Random(f'{seed} {number}') for number in range(first, min(first + 200, count))]
        texts = [TaintMaker(maker, plain=maker.random() < 0.1).module() for maker in makers]
        for text, (found, results) in zip(texts, judge(scanner, rules, texts)):
            expected += results
            if found:
                report(scanner, found[0][0], text)
    print(f'{count} modules with {expected} findings: no difference')


def fits(source, rule):
    """Whether a text may be compared: no name of the rule is imported, and none of its ranges stands in a text with fields,
    whose places CPython doesn't tell rightly."""
    sets = rule.sets(source)
    spans = sets.sources | sets.sanitizers | {span for span, _ in sets.sinks} | {carry.range for carry in sets.carries}
    fields = [source.span(node) for node in source.nodes if isinstance(node, ast.JoinedStr)]
    imports = {alias.asname or alias.name for node in source.nodes if isinstance(node, (ast.Import, ast.ImportFrom))
               for alias in node.names}
    return not (imports & set(CALLED) or any(start <= span[0] and span[1] <= end for start, end in fields for span in spans))


def compare_library(scanner, seed, count):
    """Compares files of CPython's library, each in a scan of its own."""
    rule, read, expected = TaintRule('t', random.Random(0)), 0, 0
    rule.lists, rule.carries = LIBRARY, LIBRARY_CARRIES
    for file, text in cases.library(seed, count):
        try:
            fit = fits(paths.Source(text), rule)
            found, results = judge(scanner, [rule], [text])[0] if fit else ([], 0)
        except paths.OutsideProfile:
            continue
        if found and isinstance(found[0][2], list):
            print(f'{file}: not read: {found[0][2][0]["kind"]}')
        elif found:
            print(f'{file} differs')
            report(scanner, rule, text)
        else:
            read, expected = read + fit, expected + results
    print(f'{read} files of CPython\'s library with {expected} findings: no difference')


class Traced:
    """A value that knows its sources."""

    def __init__(self, *values):
        self.sources = set().union(*map(sources_of, values))

    def __add__(self, other):
        return Traced(self, other)

    def __eq__(self, other):
        return False


def sources_of(value):
    """The sources of a value, which may be a list or a tuple of values."""
    if isinstance(value, (list, tuple)):
        return set().union(*map(sources_of, value))
    return value.sources if isinstance(value, Traced) else set()


def missed(text, choose):
    """Sinks that a source came to where a text was run, and that aren't hit by it; and the number of all that came."""
    source = paths.Source(text)
    placed, seen = cases.calls_by_place(source), set()

    def src():
        value = Traced()
        value.sources = {source.span(placed[cases.place_of_call()])}
        return value

    def sink(*values):
        span = source.span(placed[cases.place_of_call()])
        seen.update((span, start) for start in sources_of(values))
        return Traced(*values)
    for _ in range(6):
        given = {'src': src, 'sink': sink, 'u': Traced, 'f': Traced, 'clean': lambda _: Traced()}
        cases.run_plain(text, given, cases.Oracle(choose))
    rule = TaintRule('t', random.Random(0))
    rule.lists, rule.carries = [SOURCES[:1], SINKS[:1], SANITIZERS[:1]], []
    hits = Reading(source, rule.sets(source)).hits
    return [each for each in sorted(seen) if each[1] not in hits[each[0], ()]], len(seen)


def check_self(seed, count):
    """Runs random modules and looks whether each source that came to a sink was expected."""
    came = 0
    for number in range(count):
        text = TaintMaker(random.Random(f'{seed} {number}'), plain=True).module()
        found, all_seen = missed(text, random.Random(number))
        came += all_seen
        if found:
            text = cases.shrink(text, lambda texts: [bool(missed(each, random.Random(number))[0]) for each in texts])
            sys.exit(f'{text}\nnot expected: {missed(text, random.Random(number))[0]}')
    print(f'{count} modules were run, {came} times a source came to a sink: no difference')


if __name__ == '__main__':
    cases.run(__doc__, check_self, compare_cases, compare_library)
