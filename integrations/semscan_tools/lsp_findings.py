"""Findings as editors show them: diagnostics, and code actions for their fixes."""
from typing import Any, Iterable, Iterator, Optional

from .documents import Document, Text
from .fixes import Edit, chosen_edits
from .report_line import Finding
from .steps import steps_of

LEVELS = {'CRITICAL': 1, 'HIGH': 1, 'ERROR': 1, 'MEDIUM': 2, 'WARNING': 2, 'LOW': 3, 'INFO': 3}
ONE = 'quickfix'
ALL = 'source.fixAll.semscan'


def related(finding: Finding, text: Text, uri: str) -> list[dict[str, Any]]:
    """The steps of tainted data before the sink."""
    return [{'location': {'uri': uri, 'range': text.range(step.start, step.end)}, 'message': step.label}
            for step in steps_of(finding, text.content)[:-1]]


def diagnostic(finding: Finding, text: Text, uri: str, with_steps: bool) -> dict[str, Any]:
    """A finding as a diagnostic, with its steps where the editor takes them."""
    found = {'range': text.range(finding.start.offset, finding.end.offset), 'severity': LEVELS.get(finding.severity, 1),
             'code': finding.rule, 'source': 'semscan', 'message': finding.message.strip() or finding.rule}
    steps = related(finding, text, uri) if with_steps else []
    return {**found, 'relatedInformation': steps} if steps else found


def has_place(finding: Finding, text: Text) -> bool:
    """Whether a finding's places can be in this text."""
    for place in (finding.start, finding.end):
        begins = place.offset - place.column + 1
        is_begin = begins == 0 or text.content[begins - 1:begins] == b'\n'
        if not is_begin or place.offset > len(text.content) or b'\n' in text.content[begins:place.offset]:
            return False
    return True


def workspace_edit(document: Document, edits: Iterable[Edit], with_versions: bool) -> dict[str, Any]:
    """Edits of a document as the protocol has them."""
    changes = [{'range': document.text.range(edit.start, edit.end), 'newText': edit.text} for edit in edits]
    if with_versions:
        return {'documentChanges': [{'textDocument': {'uri': document.uri, 'version': document.version}, 'edits': changes}]}
    return {'changes': {document.uri: changes}}


def is_wanted(kind: str, only: Optional[list[str]]) -> bool:
    """Whether a kind of action is among those that an editor asks for, which stand for all kinds below them too."""
    return only is None or any(kind == wanted or kind.startswith(wanted + '.') or not wanted for wanted in only)


def actions(document: Document, shown: list[tuple[Finding, dict[str, Any]]], start: int, end: int, only: Optional[list[str]],
            with_versions: bool) -> Iterator[dict[str, Any]]:
    """Of findings with their diagnostics: an action for the fix of each that touches the range, and one for all fixes of the document."""
    if is_wanted(ONE, only):
        for finding, said in shown:
            if finding.fix is not None and finding.start.offset <= end and start <= finding.end.offset:
                edit = Edit(finding.start.offset, finding.end.offset, finding.fix)
                yield {'title': 'Fix %s' % finding.rule, 'kind': ONE, 'diagnostics': [said],
                       'edit': workspace_edit(document, [edit], with_versions)}
    edits = chosen_edits(finding for finding, _ in shown)
    if edits and is_wanted(ALL, only):
        yield {'title': 'Fix all findings of semscan in this file (%d)' % len(edits), 'kind': ALL,
               'edit': workspace_edit(document, edits, with_versions)}
