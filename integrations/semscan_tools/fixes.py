"""Which fixes of a report are taken, and what they make of a file (docs/FIXES.md)."""
from dataclasses import dataclass
from typing import Any, Iterable

from .report_line import Finding, Report, bad, member, report_of, value_of
from .sources import by_path


@dataclass(frozen=True)
class Edit:
    """The text that a range of a file, in bytes, is replaced by."""
    start: int
    end: int
    text: str


def chosen_edits(findings: Iterable[Finding]) -> list[Edit]:
    """The fixes of one file that are taken, in the report's order: one that is empty, or shares a byte with one taken before, is passed over."""
    edits: list[Edit] = []
    for finding in findings:
        start, end = finding.start.offset, finding.end.offset
        if finding.fix is not None and start < end and (not edits or edits[-1].end <= start):
            edits.append(Edit(start, end, finding.fix))
    return edits


def applied(content: bytes, edits: Iterable[Edit]) -> bytes:
    """The bytes with the range of each edit replaced by its text. Each edit ends before the next begins."""
    pieces, at = [], 0
    for edit in edits:
        pieces += [content[at:edit.start], edit.text.encode('utf-8', 'surrogatepass')]
        at = edit.end
    return b''.join(pieces + [content[at:]])


def written_edits(value: Any, report: Report) -> dict[str, list[Edit]]:
    """The edits that a line with fixes says, by path: each must be the fix of a result, and they stand in order."""
    offered = {(finding.path, finding.start.offset, finding.end.offset, finding.fix) for finding in report.findings}
    edits: dict[str, list[Edit]] = {}
    for number, file in enumerate(member(value, 'fixed', list, 'the line'), 1):
        where = 'changed file %d' % number
        path = member(file, 'path', str, where)
        before = 0
        for entry in member(file, 'ranges', list, where):
            if type(entry) is not list or [type(part) for part in entry] != [int, int, str] or (path, *entry) not in offered or entry[0] < before:
                raise bad('%s has a range that is no fix of a result, or stands out of order' % where)
            edits.setdefault(path, []).append(Edit(*entry))
            before = entry[1]
    return edits


def read_edits(line: bytes) -> tuple[Report, dict[str, list[Edit]]]:
    """A report, and its fixes that are taken, by path: as the line says, or chosen here where it is a scan's."""
    value = value_of(line)
    report = report_of(value)
    if 'fixed' in value:
        return report, written_edits(value, report)
    chosen = {path: chosen_edits(findings) for path, findings in by_path(report.findings).items()}
    return report, {path: edits for path, edits in chosen.items() if edits}
