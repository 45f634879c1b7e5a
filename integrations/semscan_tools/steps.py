"""The way of tainted data to a finding, as steps."""
from dataclasses import dataclass

from .report_line import Finding

ROLES = {'Entry': 'enters', 'Exit': 'leaves', 'Head': 'runs', 'Init': 'begins the loop', 'Test': 'tests', 'Step': 'steps the loop'}
LOOP = ('Init', 'Test', 'Step')


@dataclass(frozen=True)
class Step:
    """A step: what happens, and the range of its place in bytes. A point of a trace has only a start."""
    label: str
    start: int
    end: int


def place_of_source(finding: Finding, content: bytes) -> int:
    """How many points of the trace stand before the source: up to the first point with the nearest start before it. The parts of a loop of C, all of
    which begin where the loop does, are told apart by the semicolons before the source."""
    starts = [start for start, _ in finding.trace if start <= finding.source[0]]
    if not starts:
        return 0
    nearest = max(starts)
    part = LOOP[min(content.count(b';', nearest, finding.source[0]), len(LOOP) - 1)]
    near = [number for number, (start, _) in enumerate(finding.trace, 1) if start == nearest]
    return next((number for number in near if finding.trace[number - 1][1] == part), near[0])


def steps_of(finding: Finding, content: bytes) -> list[Step]:
    """The points of the trace in order, with the source among them and the sink at the end; none for a finding without taint. The content is that of
    the file."""
    if finding.source is None and not finding.trace:
        return []
    steps = [Step(ROLES.get(role, role), start, start) for start, role in finding.trace]
    if finding.source is not None:
        steps.insert(place_of_source(finding, content), Step('source', *finding.source))
    return steps + [Step('sink', finding.start.offset, finding.end.offset)]
