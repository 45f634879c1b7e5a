"""Reads the line that `semscan scan` prints (docs/SCANS.md)."""
import json
from dataclasses import dataclass
from typing import Any, Optional

from .path_words import is_path
from .refusal import Refusal

SEVERITIES = ('CRITICAL', 'HIGH', 'ERROR', 'MEDIUM', 'WARNING', 'LOW', 'INFO')


@dataclass(frozen=True)
class Place:
    """A place in a file: line and column from 1, the offset from 0; column and offset in bytes."""
    line: int
    column: int
    offset: int


@dataclass(frozen=True)
class Finding:
    """A result of a report. Ranges are offsets in bytes; the trace has the starts of the statements on the way, with their roles."""
    rule: str
    path: str
    start: Place
    end: Place
    message: str
    severity: str
    fix: Optional[str]
    source: Optional[tuple[int, int]]
    trace: tuple[tuple[int, str], ...]


@dataclass(frozen=True)
class Notice:
    """What a scan could not do. What doesn't apply is empty."""
    kind: str
    path: str
    rule: str
    detail: str


@dataclass(frozen=True)
class Report:
    """A report: findings and notices in its order."""
    findings: tuple[Finding, ...]
    notices: tuple[Notice, ...]


def bad(what: str) -> Refusal:
    return Refusal("this is no report of semscan: %s" % what)


def member(value: Any, key: str, kind: type, where: str) -> Any:
    """The member of an object, which must be there and of this type."""
    if type(value) is not dict or type(value.get(key)) is not kind:
        raise bad('%s has no %s' % (where, key))
    return value[key]


def number(value: Any, key: str, where: str) -> int:
    found = member(value, key, int, where)
    if found < 0:
        raise bad('%s has a negative %s' % (where, key))
    return found


def place(value: Any, key: str, where: str) -> Place:
    found = member(value, key, dict, where)
    return Place(number(found, 'line', where), number(found, 'col', where), number(found, 'offset', where))


def source_of(extra: dict, where: str) -> Optional[tuple[int, int]]:
    """The range that tainted data comes from, if the report says one."""
    if 'source' not in extra:
        return None
    source = extra['source']
    if type(source) is not list or [type(end) for end in source] != [int, int] or not 0 <= source[0] <= source[1]:
        raise bad('%s has a source that is no range' % where)
    return source[0], source[1]


def trace_of(extra: dict, where: str) -> tuple[tuple[int, str], ...]:
    """The points on the way from a source to a sink, if the report says them."""
    points = []
    for point in member(extra, 'trace', list, where) if 'trace' in extra else ():
        if type(point) is not list or [type(part) for part in point] != [int, str] or point[0] < 0:
            raise bad('%s has a trace with a point that is none' % where)
        points.append((point[0], point[1]))
    return tuple(points)


def finding_of(value: Any, where: str) -> Finding:
    extra = member(value, 'extra', dict, where)
    found = Finding(
        rule=member(value, 'check_id', str, where), path=member(value, 'path', str, where),
        start=place(value, 'start', where), end=place(value, 'end', where),
        message=member(extra, 'message', str, where), severity=member(extra, 'severity', str, where),
        fix=member(extra, 'fix', str, where) if 'fix' in extra else None,
        source=source_of(extra, where), trace=trace_of(extra, where))
    if not is_path(found.path):
        raise bad('%s has the path %s' % (where, ascii(found.path)))
    return found


def notice_of(value: Any, where: str) -> Notice:
    return Notice(*(member(value, key, str, where) for key in ('kind', 'path', 'rule', 'detail')))


def value_of(line: bytes) -> Any:
    """The JSON value of a report line."""
    if not line.strip():
        raise Refusal('there is no report: the scan printed nothing (its standard error says why)')
    try:
        text = line.decode('utf-8')
        value = json.loads(text)
        json.dumps(value, ensure_ascii=False).encode('utf-8')
    except (ValueError, RecursionError) as error:
        raise Refusal("the report can't be read, maybe it is cut off: %s" % error) from None
    return value


def report_of(value: Any) -> Report:
    """The report that a value is, or a refusal that tells what is wrong with it."""
    results, notices = (member(value, key, list, 'the line') for key in ('results', 'notices'))
    return Report(
        findings=tuple(finding_of(result, 'result %d' % k) for k, result in enumerate(results, 1)),
        notices=tuple(notice_of(notice, 'notice %d' % k) for k, notice in enumerate(notices, 1)))


def read_report(line: bytes) -> Report:
    """The report that a line says."""
    return report_of(value_of(line))
