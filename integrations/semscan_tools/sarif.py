"""A report as SARIF 2.1.0, the form that build servers show. Regions are in lines and in columns of characters."""
import re
from typing import Any, Iterable, Optional
from urllib.parse import quote

from .report_line import Finding, Notice, Report
from .sources import SourceFile
from .steps import Step, steps_of
from .text_report import NOTICES

SCHEMA = 'https://json.schemastore.org/sarif-2.1.0.json'
LEVELS = {'INFO': 'note', 'LOW': 'note', 'WARNING': 'warning', 'MEDIUM': 'warning', 'ERROR': 'error', 'HIGH': 'error', 'CRITICAL': 'error'}
SCORES = {'CRITICAL': '9.5', 'HIGH': '8.0', 'ERROR': '7.0', 'MEDIUM': '5.5', 'WARNING': '5.0', 'LOW': '2.5', 'INFO': '1.0'}
ABOUT_FILES = ('NotUtf8', 'TooLarge', 'NoTree', 'Crowded', 'FlowTooLarge')


def weaknesses(message: str) -> list[str]:
    """The numbers of weaknesses (CWE) that a message names, each once."""
    return list(dict.fromkeys(re.findall(r'\bCWE-([0-9]{1,4})\b', message)))


def page_of(number: str) -> str:
    """The page about a weakness."""
    return 'https://cwe.mitre.org/data/definitions/%d.html' % int(number)


def message_of(text: str) -> dict:
    """A text as a message. Braces stand for arguments there, so those of the text are doubled (SARIF 2.1.0, section 3.11.5)."""
    return {'text': text.replace('{', '{{').replace('}', '}}')}


def artifact(path: str) -> dict:
    return {'uri': quote(path, safe='/'), 'uriBaseId': '%SRCROOT%'}


def region(source: SourceFile, start: int, end: int) -> dict:
    """The range of these offsets."""
    return {'startLine': source.line_at(start), 'startColumn': source.column(start),
            'endLine': source.line_at(end), 'endColumn': source.column(end),
            'byteOffset': start, 'byteLength': end - start}


def location(source: SourceFile, path: str, start: int, end: int, message: Optional[str] = None) -> dict:
    """The location of a range. An empty one is shown up to the end of its line."""
    until = end if end > start else max(end, source.line_end(source.line_at(end)))
    found: dict[str, Any] = {'physicalLocation': {'artifactLocation': artifact(path), 'region': region(source, start, until)}}
    if message is not None:
        found['message'] = message_of(message)
    return found


def code_flow(source: SourceFile, path: str, steps: Iterable[Step]) -> dict:
    return {'threadFlows': [{'locations': [
        {'location': location(source, path, step.start, step.end, step.label)} for step in steps]}]}


def fix(source: SourceFile, finding: Finding) -> dict:
    replacement = {'deletedRegion': region(source, finding.start.offset, finding.end.offset), 'insertedContent': {'text': finding.fix}}
    return {'description': message_of('The fix of the rule %s' % finding.rule),
            'artifactChanges': [{'artifactLocation': artifact(finding.path), 'replacements': [replacement]}]}


def result(source: SourceFile, finding: Finding, rules: list[str]) -> dict:
    found = {
        'ruleId': finding.rule, 'ruleIndex': rules.index(finding.rule), 'level': LEVELS.get(finding.severity, 'error'),
        'message': message_of(finding.message or finding.rule),
        'locations': [location(source, finding.path, finding.start.offset, finding.end.offset)]}
    steps = steps_of(finding, source.content)
    if steps:
        found['codeFlows'] = [code_flow(source, finding.path, steps)]
    if finding.fix is not None:
        found['fixes'] = [fix(source, finding)]
    return found


def rule(name: str, findings: Iterable[Finding]) -> dict:
    """What is known of a rule from its findings, with the texts that GitHub asks for."""
    findings = list(findings)
    numbers = list(dict.fromkeys(number for finding in findings for number in weaknesses(finding.message)))
    properties: dict[str, Any] = {'tags': ['security', *('external/cwe/cwe-%03d' % int(number) for number in numbers)] if numbers else []}
    if numbers:
        properties['security-severity'] = SCORES.get(findings[0].severity, '7.0')
    links = ''.join('; CWE-%s: %s' % (number, page_of(number)) for number in numbers)
    return {'id': name, 'name': name, 'shortDescription': message_of(name),
            'fullDescription': message_of(findings[0].message or name), 'help': message_of('the rule %s%s' % (name, links)),
            'defaultConfiguration': {'level': LEVELS.get(findings[0].severity, 'error')}, 'properties': properties}


def notification(notice: Notice) -> dict:
    """A notice as a message of the run."""
    said = [NOTICES.get(notice.kind, notice.kind), notice.detail and '(%s)' % notice.detail, notice.rule and 'rule %s' % notice.rule]
    found: dict[str, Any] = {
        'descriptor': {'id': notice.kind}, 'level': 'warning',
        'message': message_of('%s: %s' % (notice.path or 'scan', ' '.join(part for part in said if part)))}
    if notice.path:
        found['locations'] = [{'physicalLocation': {'artifactLocation': artifact(notice.path)}}]
    return found


def invocation(notices: tuple[Notice, ...]) -> dict:
    """How the run went: notices of files are of the run, those of rules of its configuration."""
    return {
        'executionSuccessful': True,
        'toolExecutionNotifications': [notification(notice) for notice in notices if notice.kind in ABOUT_FILES],
        'toolConfigurationNotifications': [notification(notice) for notice in notices if notice.kind not in ABOUT_FILES]}


def sarif_of(report: Report, sources: dict[str, SourceFile]) -> dict:
    """The report as the value of a SARIF log of one run."""
    findings: dict[str, list[Finding]] = {}
    for finding in report.findings:
        findings.setdefault(finding.rule, []).append(finding)
    names = sorted(findings)
    driver = {'name': 'semscan', 'rules': [rule(name, findings[name]) for name in names]}
    run = {
        'tool': {'driver': driver}, 'columnKind': 'unicodeCodePoints', 'invocations': [invocation(report.notices)],
        'originalUriBaseIds': {'%SRCROOT%': {'description': message_of('The folder that the scan was run in')}},
        'results': [result(sources[finding.path], finding, names) for finding in report.findings]}
    return {'$schema': SCHEMA, 'version': '2.1.0', 'runs': [run]}
