"""Python read by CPython's `ast`: units, points, what points assign, and every state that paths bring to them.

The rules are those of docs/FLOW.md, written down here a second time and in another form: no graph is made. `Paths` runs a
unit over sets of whole states (all names at once), each statement from the states before it to those after it, and goes
round a loop until no new state comes. So it holds the states of all paths, however long, and joins no two of them.
"""
import ast
import collections

FUNCTIONS = (ast.FunctionDef, ast.AsyncFunctionDef)
LOOPS = (ast.While, ast.For, ast.AsyncFor)
FORS = (ast.For, ast.AsyncFor)
WITHS = (ast.With, ast.AsyncWith)
JUMPS = (ast.Return, ast.Raise, ast.Break, ast.Continue)
PARTS = (ast.Starred, ast.Slice, ast.FormattedValue)
SIGNS = (ast.expr_context, ast.operator, ast.unaryop, ast.boolop, ast.cmpop)
SIMPLE = JUMPS + (ast.Expr, ast.Assign, ast.AugAssign, ast.AnnAssign, ast.Delete, ast.Pass, ast.Global, ast.Nonlocal,
                  ast.Assert, ast.Import, ast.ImportFrom)

Target = collections.namedtuple('Target', 'name reach node')
Assigned = collections.namedtuple('Assigned', 'manner targets value')


def kept(function):
    """Keeps the answer of a function of a node at the node."""
    name = 'kept_' + function.__name__

    def ask(node):
        if not hasattr(node, name):
            setattr(node, name, function(node))
        return getattr(node, name)
    ask.__doc__ = function.__doc__
    return ask


class OutsideProfile(Exception):
    """A statement that the scanner's Python doesn't have."""


class Source:
    """A text, its tree by CPython, and the spans of nodes in bytes."""

    def __init__(self, text):
        self.raw = text.encode()
        self.tree = ast.parse(text)
        self.starts = [0]
        for line in self.raw.split(b'\n'):
            self.starts.append(self.starts[-1] + len(line) + 1)
        self.spans = {}
        self.nodes = list(ast.walk(self.tree))
        self.units = [self.tree] + [node for node in self.nodes if isinstance(node, FUNCTIONS)]
        for node in self.nodes:
            if isinstance(node, ast.Call) and len(node.args) == 1 and not node.keywords:
                self.strip(node, node.args[0])

    def strip(self, call, only):
        """A generator that stands in its call's own parentheses hasn't these, though CPython counts them."""
        start, end = self.plain_span(only)
        if isinstance(only, ast.GeneratorExp) and end == self.plain_span(call)[1]:
            inner = self.raw[start + 1:end - 1]
            self.spans[only] = start + 1 + len(inner) - len(inner.lstrip()), end - 1 - len(inner) + len(inner.rstrip())

    def plain_span(self, node):
        """The span that CPython gives a node."""
        return (self.starts[node.lineno - 1] + node.col_offset, self.starts[node.end_lineno - 1] + node.end_col_offset)

    def span(self, node):
        """The span of a node: of a definition with its decorators."""
        if node not in self.spans:
            start, end = self.plain_span(node)
            if getattr(node, 'decorator_list', None):
                start = self.raw.rindex(b'@', 0, self.plain_span(node.decorator_list[0])[0])
            self.spans[node] = start, end
        return self.spans[node]

    def written(self, node):
        """The bytes of a node as a text."""
        start, end = self.span(node)
        return self.raw[start:end].decode()


def parameters(unit):
    """The parameters of a function, in no certain order."""
    if not isinstance(unit, FUNCTIONS):
        return []
    args = unit.args
    return args.posonlyargs + args.args + args.kwonlyargs + [arg for arg in (args.vararg, args.kwarg) if arg]


def by_place(nodes):
    """Nodes as they stand in the text."""
    return sorted((node for node in nodes if node), key=lambda node: (node.lineno, node.col_offset))


def tops(point):
    """The nodes that belong to a point with all that stands below them."""
    if isinstance(point, SIMPLE):
        return [point]
    if isinstance(point, (ast.If, ast.While)):
        return [point.test]
    if isinstance(point, FORS):
        return [point.target, point.iter]
    if isinstance(point, WITHS):
        return point.items
    if isinstance(point, ast.Try):
        return []
    if isinstance(point, ast.ExceptHandler):
        return [point.type] if point.type else []
    if isinstance(point, ast.ClassDef):
        return point.decorator_list + by_place(point.bases + point.keywords)
    if isinstance(point, FUNCTIONS):
        return point.decorator_list + by_place(point.args.defaults + point.args.kw_defaults)
    raise OutsideProfile(type(point).__name__)


@kept
def kids(node):
    """What stands below a node, in the order of the scanner's tree. The name of a walrus is no expression."""
    if isinstance(node, ast.Call):
        return [node.func] + by_place(node.args + node.keywords)
    if isinstance(node, ast.Dict):
        return [kid for pair in zip(node.keys, node.values) for kid in pair if kid]
    if isinstance(node, ast.Lambda):
        return by_place(node.args.defaults + node.args.kw_defaults) + [node.body]
    if isinstance(node, ast.NamedExpr):
        return [node.value]
    return [kid for kid in ast.iter_child_nodes(node) if not isinstance(kid, SIGNS)]


def postorder(node):
    """A node and all below it, kids first."""
    for kid in kids(node):
        yield from postorder(kid)
    yield node


@kept
def nodes(point):
    """All nodes that belong to a point, kids first."""
    return [node for top in tops(point) for node in postorder(top)]


def is_expression(node):
    """Whether a node of CPython's is an expression of the scanner's."""
    return isinstance(node, ast.expr) and not isinstance(node, PARTS)


def base_of(node):
    """The name whose attribute or item a node is, or None."""
    while isinstance(node, (ast.Attribute, ast.Subscript)):
        node = node.value
    return node.id if isinstance(node, ast.Name) else None


def reached(node, reach='whole'):
    """The targets of what stands left of a value: names, their parts of tuples, lists and stars, and bases."""
    if isinstance(node, ast.Name):
        return [Target(node.id, reach, node)]
    if isinstance(node, (ast.Tuple, ast.List)):
        return [target for item in node.elts for target in reached(item, 'part')]
    if isinstance(node, ast.Starred):
        return reached(node.value, 'part')
    if isinstance(node, (ast.Attribute, ast.Subscript)) and base_of(node):
        return [Target(base_of(node), 'base', None)]
    return []


def assigned_by(node):
    """What one node below a point's tops assigns, or None."""
    def of(manner, targets, value):
        return Assigned(manner, [target for each in targets for target in reached(each)], value)
    if isinstance(node, ast.Assign):
        return of('statement', node.targets, node.value)
    if isinstance(node, ast.AnnAssign) and node.value:
        return of('statement', [node.target], node.value)
    if isinstance(node, ast.NamedExpr):
        return of('walrus', [node.target], node.value)
    if isinstance(node, ast.AugAssign):
        return of('augmented', [node.target], node.value)
    if isinstance(node, ast.withitem) and node.optional_vars:
        return of('drawn', [node.optional_vars], node.context_expr)
    if isinstance(node, ast.Delete):
        return of('lost', node.targets, None)
    if isinstance(node, (ast.Import, ast.ImportFrom)):
        return lost([imported(node, alias) for alias in node.names if alias.name != '*'])
    return None


def lost(names):
    """Names that get a value which nothing is known of."""
    return Assigned('lost', [Target(name, 'whole', None) for name in names], None)


def imported(node, alias):
    """The name that an alias of an import binds."""
    name = alias.asname or alias.name
    return name.split('.')[0] if isinstance(node, ast.Import) and not alias.asname else name


@kept
def assignments(point):
    """What a point assigns, one node after the other; a statement that holds others, or a handler, does so last."""
    found = [given for given in map(assigned_by, nodes(point)) if given]
    if isinstance(point, FORS):
        found.append(Assigned('drawn', reached(point.target), point.iter))
    if isinstance(point, (ast.ExceptHandler, ast.ClassDef) + FUNCTIONS) and point.name:
        found.append(lost([point.name]))
    return found


def points_of(block):
    """The points of statements, in order; functions among them are one point each."""
    for node in block:
        yield node
        for part in ('body', 'handlers', 'orelse', 'finalbody') if not isinstance(node, FUNCTIONS) else ():
            yield from points_of(getattr(node, part, []))


@kept
def points(unit):
    """The points of a unit but its entry and exit."""
    return list(points_of(unit.body))


def routes(block, around, found):
    """The ways of the jumps in a block; `around` has the loops and try statements whose parts it stands in."""
    for node in block:
        if isinstance(node, JUMPS):
            found[node] = route(node, around)
        elif isinstance(node, LOOPS):
            routes(node.body, around + [('loop', node)], found)
            routes(node.orelse, around, found)
        elif isinstance(node, ast.Try):
            routes(node.body, around + [('body', node)], found)
            for part in [handler.body for handler in node.handlers] + [node.orelse]:
                routes(part, around + [('later', node)], found)
            routes(node.finalbody, around, found)
        elif not isinstance(node, FUNCTIONS):
            routes(getattr(node, 'body', []), around, found)
            routes(getattr(node, 'orelse', []), around, found)
    return found


def route(jump, around):
    """The way of one jump, out of what stands around it."""
    way = []
    for part, node in reversed(around):
        if part == 'loop':
            if isinstance(jump, (ast.Break, ast.Continue)):
                return way + [(type(jump), node)]
        elif part == 'body' and isinstance(jump, ast.Raise) and node.handlers:
            return way + [('handlers', node)]
        elif node.finalbody:
            way.append(('finally', node))
    return way + [('exit', None)]


@kept
def jumps(unit):
    """For each jump of a unit, the finally parts that it goes through, from the inside, and then its target."""
    return routes(unit.body, [], {})


class Paths:
    """All states before each point of a unit, over all paths from its entry.

    `step(point, state)` tells what a point makes of a state. More than `limit` pairs of a point and a state are not
    followed; `whole` tells whether all were.
    """

    def __init__(self, unit, start, step, limit=20000):
        self.step = step
        self.room = limit
        self.whole = True
        self.before = collections.defaultdict(set)
        self.waiting = collections.defaultdict(set)
        self.bodies = []
        self.routes = jumps(unit)
        self.block(unit.body, {start})

    def take(self, key, node):
        """The states that wait for a place, which are now under way."""
        return self.waiting.pop((key, node), set())

    def point(self, node, states):
        """Goes through one point; each try statement whose body holds it gets the states after it as well."""
        fresh = states - self.before[node]
        if len(fresh) > self.room:
            self.whole = False
            states = states - set(sorted(fresh, key=repr)[self.room:])
            fresh = states - self.before[node]
        self.room -= len(fresh)
        self.before[node] |= states
        after = {self.step(node, state) for state in states}
        for body in self.bodies:
            self.waiting['handlers' if body.handlers else 'finally', body] |= after
        return after

    def block(self, block, states):
        """Goes through statements one after the other."""
        for node in block:
            if not states:
                break
            states = self.statement(node, states)
        return states

    def statement(self, node, states):
        """Goes through one statement, and answers the states that come to what follows it."""
        if isinstance(node, LOOPS):
            return self.loop(node, states)
        after = self.point(node, states)
        if isinstance(node, JUMPS):
            self.waiting[self.routes[node][0]] |= after
            return set()
        if isinstance(node, ast.If):
            return self.block(node.body, after) | self.block(node.orelse, after)
        if isinstance(node, ast.Try):
            return self.attempt(node, after)
        if isinstance(node, WITHS + (ast.ClassDef,)):
            return self.block(node.body, after)
        return after

    def loop(self, node, states):
        """Goes round a loop until no state is new at its head."""
        seen, ended = set(), set()
        while states - seen:
            states = states - seen
            seen |= states
            after = self.point(node, states)
            ended |= after
            states = self.block(node.body, after) | self.take(ast.Continue, node)
        return self.block(node.orelse, ended) | self.take(ast.Break, node)

    def attempt(self, node, states):
        """Goes through a try statement: its body, else part, handlers, and then the finally part for all of them."""
        self.bodies.append(node)
        ended = self.block(node.body, states)
        self.bodies.pop()
        ended = self.block(node.orelse, ended)
        caught = self.take('handlers', node)
        for handler in node.handlers if caught else []:
            ended = ended | self.block(handler.body, self.point(handler, caught))
        if not node.finalbody:
            return ended
        ended = self.block(node.finalbody, ended | self.take('finally', node))
        for way in self.routes.values():
            for (_, passed), behind in zip(way, way[1:]):
                if passed is node:
                    self.waiting[behind] |= ended
        return ended
