"""A report for people: as compilers print it, grouped by file."""
from collections import Counter
from typing import Iterable, Iterator

from .code_lines import code_of, diff_of, gutter, shown_part
from .report_line import SEVERITIES, Finding, Notice, Report
from .screen import OF_SEVERITY, Pen, plain
from .sources import SourceFile, by_path
from .steps import steps_of

NOTICES = {
    'NotUtf8': "it isn't UTF-8, so it wasn't read",
    'TooLarge': "it has more than 1,000,000 bytes, so it wasn't read",
    'NoTree': "it can't be parsed in its language, so only regular expressions looked at it",
    'Crowded': 'a pattern matches more than 10,000 times, so the rule found nothing in this file',
    'FlowTooLarge': 'a function is too large for following its data, so the rule found nothing in this file',
    'MissingKey': "a key is missing, so the rule didn't run",
    'UnknownKey': "a key is unknown, so the rule didn't run",
    'WrongShape': "a key's value has the wrong form, so the rule didn't run",
    'BadPattern': "a pattern can't be parsed in the rule's language, so the rule didn't run",
    'BadComparison': "a comparison can't be parsed, so the rule didn't run",
    'OutsideProfile': "the rule uses something that semscan doesn't have, so it didn't run",
    'DuplicateId': "an earlier rule has this id, so the rule didn't run",
    'YamlProfile': "the rule file uses a feature of YAML that semscan doesn't read, so none of its rules ran",
    'YamlNoValue': "the rule file isn't YAML, so none of its rules ran",
    'NoRules': "the rule file has no list under 'rules', so no rule ran",
    'OptionUnread': "semscan doesn't know this option; the rule ran without it",
    'Regex': "a regular expression was refused, so the rule didn't run",
}


def several(count: int, word: str) -> str:
    return '%d %s%s' % (count, word, '' if count == 1 else 's')


def message_lines(finding: Finding) -> list[str]:
    return [plain(line) for line in finding.message.rstrip('\n').split('\n')]


def steps_lines(source: SourceFile, finding: Finding, pen: Pen) -> Iterator[str]:
    """The way of tainted data, a line for each step."""
    for count, step in enumerate(steps_of(finding, source.content), 1):
        if count == 1:
            yield '  data flows:'
        line, column = source.line_at(step.start), source.column(step.start)
        yield '%s%s:%d:%d: %s: %s' % (
            pen.paint(gutter(str(count)), 'faint'), plain(finding.path), line, column,
            step.label, shown_part(source.line_text(line), column - 1).strip())


def finding_lines(source: SourceFile, finding: Finding, pen: Pen) -> Iterator[str]:
    """All lines of a finding."""
    colour = OF_SEVERITY.get(finding.severity, 'bad')
    message = message_lines(finding)
    place = '%s:%d:%d:' % (plain(finding.path), finding.start.line, source.column(finding.start.offset))
    yield '%s %s %s %s' % (pen.paint(place, 'path'), pen.paint(plain(finding.severity.lower()) + ':', colour), message[0],
                           pen.paint('[%s]' % plain(finding.rule), 'rule'))
    yield from ('  ' + line for line in message[1:])
    yield from code_of(source, finding, pen, colour)
    if finding.fix is not None:
        yield from diff_of(source, finding, pen)
    yield from steps_lines(source, finding, pen)


def notice_line(notice: Notice, pen: Pen) -> str:
    """A notice in one line: where, what, and the report's own words."""
    where = ': '.join(plain(part) for part in (notice.path, notice.rule) if part)
    detail = ' (%s)' % plain(notice.detail) if notice.detail else ''
    return '%s %s: %s%s' % (pen.paint((where or 'scan') + ':', 'path'), pen.paint(plain(notice.kind), 'warn'),
                            NOTICES.get(notice.kind, 'a notice that this program does not know'), detail)


def in_order(counts: Counter, order: Iterable[str]) -> str:
    """Counts by kind, those with a known place first."""
    known = [kind for kind in order if kind in counts]
    return ', '.join('%d %s' % (counts[kind], plain(kind)) for kind in known + sorted(set(counts) - set(known)))


def last_line(report: Report) -> str:
    """The counts of findings and notices by kind."""
    findings = Counter(finding.severity for finding in report.findings)
    notices = Counter(notice.kind for notice in report.notices)
    files = len({finding.path for finding in report.findings})
    text = several(len(report.findings), 'finding')
    if findings:
        text += ' in %s (%s)' % (several(files, 'file'), in_order(findings, SEVERITIES))
    text += ', ' + several(len(report.notices), 'notice')
    return text + (' (%s)' % in_order(notices, NOTICES) if notices else '')


def report_lines(report: Report, sources: dict[str, SourceFile], pen: Pen) -> Iterator[str]:
    """All lines of a report: each file with its findings, the notices, the counts."""
    for path, findings in by_path(report.findings).items():
        yield pen.paint('%s (%s)' % (plain(path), several(len(findings), 'finding')), 'path')
        for finding in findings:
            yield ''
            yield from finding_lines(sources[path], finding, pen)
        yield ''
    if report.notices:
        yield pen.paint('Notices: what the scan could not do', 'path')
        yield ''
        yield from (notice_line(notice, pen) for notice in report.notices)
        yield ''
    yield last_line(report)
