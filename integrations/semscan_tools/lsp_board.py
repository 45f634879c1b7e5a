"""What the editor was shown: findings by file, and notices."""
import threading
from dataclasses import dataclass
from typing import Any, Callable, Optional

from .documents import Text
from .lsp_findings import diagnostic, has_place
from .lsp_wire import Wire
from .refusal import Refusal
from .report_line import Finding, Notice, finding_of, notice_of
from .sarif import ABOUT_FILES
from .session_keeper import Wanted
from .text_report import NOTICES
from .tree_parts import is_taken
from .workspace import is_under


@dataclass(frozen=True)
class Shown:
    """The findings of a file, and the text in which they lie."""
    text: Text
    findings: list[Finding]
    diagnostics: list[dict[str, Any]]
    uri: str


def by_path(results: list[dict[str, Any]]) -> dict[str, list[dict[str, Any]]]:
    groups: dict[str, list[dict[str, Any]]] = {}
    for result in results:
        groups.setdefault(result['path'], []).append(result)
    return groups


def is_of_file(notice: Notice) -> bool:
    """Whether a notice is of a file that was scanned, and not of a rule file."""
    return notice.kind in ABOUT_FILES and is_taken(notice.path)


def words_of(notice: Notice) -> str:
    where = ': '.join(part for part in (notice.path, notice.rule) if part)
    return '%s: %s%s' % (where, NOTICES.get(notice.kind, notice.kind), ' (%s)' % notice.detail if notice.detail else '')


class Board:
    """Takes reports, and publishes the diagnostics of the files in which they changed."""

    def __init__(self, wire: Wire, say: Callable[[int, str], None], log: Callable[[str], None]):
        self.wire = wire
        self.say = say
        self.log = log
        self.encoding = 'utf-16'
        self.with_steps = False
        self.complaint = ''
        self.lock = threading.Lock()
        self.results: dict[str, list[dict[str, Any]]] = {}
        self.behind: set[str] = set()
        self.files: dict[str, Shown] = {}
        self.notices: set[Notice] = set()

    def take(self, wanted: Wanted, changed: set[str], value: dict[str, Any]) -> set[str]:
        """Shows a report. Which files aren't as the session knows them comes back."""
        self.behind |= changed
        if 'too_many' in value:
            self.complain('there are more than %s findings, so none of this scan are shown; the setting max says how many may be' % value['too_many'])
            return set()
        try:
            stale = self.show_results(wanted, self.behind, by_path(value['results']))
            self.show_notices(value['notices'])
        except (KeyError, TypeError, Refusal) as error:
            self.complain("a report of semscan can't be read: %s" % error)
            return set()
        self.behind, self.complaint = set(), ''
        return stale

    def complain(self, words: str) -> None:
        """Tells why a report isn't shown: once, until one is shown again, since a scan follows each change."""
        if words != self.complaint:
            self.say(1, words)
        self.complaint = words

    def show_results(self, wanted: Wanted, changed: set[str], results: dict[str, list[dict[str, Any]]]) -> set[str]:
        stale = set()
        for path in sorted(set(results) | set(self.results)):
            if results.get(path) == self.results.get(path) and not any(is_under(path, place) for place in changed):
                continue
            findings = [finding_of(result, path) for result in results.get(path, [])]
            if not self.show_file(wanted, path, findings):
                stale.add(path)
        self.results = results
        return stale

    def show_file(self, wanted: Wanted, path: str, findings: list[Finding]) -> bool:
        """Publishes the findings of a file, if they aren't shown yet. False means that the file isn't what was scanned."""
        document = wanted.documents.get(path)
        uri = document.uri if document else wanted.workspace.uri_of(path)
        text = document.text if document else (wanted.workspace.text(path, self.encoding) if findings else Text(b''))
        here = [finding for finding in findings if has_place(finding, text)]
        shown = Shown(text, here, [diagnostic(finding, text, uri, self.with_steps) for finding in here], uri)
        with self.lock:
            before = self.files.pop(path, None)
            if here:
                self.files[path] = shown
        if before is not None and before.uri != uri:
            self.publish(before.uri, [])
            before = None
        if shown.diagnostics != (before.diagnostics if before else []):
            self.publish(uri, shown.diagnostics, document.version if document else None)
        return len(here) == len(findings)

    def publish(self, uri: str, diagnostics: list[dict[str, Any]], version: Any = None) -> None:
        params = {'uri': uri, 'diagnostics': diagnostics}
        self.wire.notify('textDocument/publishDiagnostics', params if version is None else {**params, 'version': version})

    def show_notices(self, values: list[dict[str, Any]]) -> None:
        """Tells each notice once: those of rule files in a message, those of files, which come and go while one types, in the log. One of a rule
        file that went away is told again when it comes back."""
        notices = [notice_of(value, 'a notice') for value in values]
        self.notices = {notice for notice in self.notices if is_of_file(notice) or notice in notices}
        for notice in notices:
            if notice not in self.notices:
                self.notices.add(notice)
                if is_of_file(notice):
                    self.log(words_of(notice))
                else:
                    self.say(2, words_of(notice))

    def shown(self, path: str) -> Optional[Shown]:
        """What is shown of a file, if anything is."""
        with self.lock:
            return self.files.get(path)
