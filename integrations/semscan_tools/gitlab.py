"""A report as GitLab takes it of static analysis (its schema `sast-report-format`, version 15.0.0)."""
import time
import uuid
from collections import Counter
from typing import Any

from .report_line import Finding, Report
from .sarif import page_of, weaknesses
from .sources import SourceFile

VERSION = '15.0.0'
SEVERITIES = {'CRITICAL': 'Critical', 'HIGH': 'High', 'ERROR': 'High', 'MEDIUM': 'Medium', 'WARNING': 'Medium', 'LOW': 'Low', 'INFO': 'Info'}
TOOL = {'id': 'semscan', 'name': 'semscan', 'vendor': {'name': 'semscan'}, 'version': '0'}
NAMES = uuid.uuid5(uuid.NAMESPACE_URL, 'semscan')


def identities(findings: tuple[Finding, ...]) -> list[str]:
    """A name for each finding, the same in each report with the same finding. Those of one rule and range are counted."""
    seen: Counter = Counter()
    names = []
    for finding in findings:
        place = (finding.rule, finding.path, finding.start.offset, finding.end.offset)
        names.append(str(uuid.uuid5(NAMES, repr(place + (seen[place],)))))
        seen[place] += 1
    return names


def identifiers(finding: Finding) -> list[dict]:
    """What a finding is an example of: its rule, and the weaknesses that its message names."""
    found = [{'type': 'semscan_rule', 'name': finding.rule, 'value': finding.rule}]
    for number in weaknesses(finding.message):
        found.append({'type': 'cwe', 'name': 'CWE-%s' % number, 'value': number, 'url': page_of(number)})
    return found


def vulnerability(finding: Finding, source: SourceFile, name: str) -> dict[str, Any]:
    end = finding.end.offset - (1 if finding.end.offset > finding.start.offset else 0)
    return {'id': name, 'name': (finding.message.split('\n')[0] or finding.rule)[:255],
            'description': finding.message, 'severity': SEVERITIES.get(finding.severity, 'Unknown'),
            'identifiers': identifiers(finding),
            'location': {'file': finding.path, 'start_line': finding.start.line, 'end_line': source.line_at(end)}}


def gitlab_of(report: Report, sources: dict[str, SourceFile]) -> dict:
    """The report's findings as the value of a GitLab report. GitLab's form has no place for notices."""
    now = time.strftime('%Y-%m-%dT%H:%M:%S', time.gmtime())
    return {
        'version': VERSION,
        'scan': {'analyzer': TOOL, 'scanner': TOOL, 'type': 'sast', 'start_time': now, 'end_time': now, 'status': 'success'},
        'vulnerabilities': [vulnerability(finding, sources[finding.path], name)
                            for finding, name in zip(report.findings, identities(report.findings))]}
