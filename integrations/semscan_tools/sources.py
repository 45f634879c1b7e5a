"""The files that a report speaks of, and places in them."""
import bisect
import os
from typing import Iterable

from .refusal import Refusal
from .report_line import Finding, Place, Report

BYTE_ORDER_MARK = '\ufeff'


class Changed(Exception):
    """Why a file can't be the one that was scanned."""


class SourceFile:
    """A file as it is now, whose lines end at line feeds."""

    def __init__(self, content: bytes):
        self.content = content
        self.starts = [0]
        at = content.find(b'\n')
        while at >= 0:
            self.starts.append(at + 1)
            at = content.find(b'\n', at + 1)

    def line_at(self, offset: int) -> int:
        """The line of an offset, from 1."""
        return bisect.bisect_right(self.starts, offset)

    def line_start(self, line: int) -> int:
        return self.starts[line - 1]

    def line_end(self, line: int) -> int:
        """Where a line ends, without its line feed."""
        return self.starts[line] - 1 if line < len(self.starts) else len(self.content)

    def text(self, start: int, end: int) -> str:
        """The text of a range."""
        try:
            return self.content[start:end].decode('utf-8')
        except UnicodeDecodeError:
            raise Changed('there is no text from byte %d to %d' % (start, end)) from None

    def line_text(self, line: int) -> str:
        """A line without its end. A byte order mark is none of its characters."""
        text = self.text(self.line_start(line), self.line_end(line))
        return (text[1:] if line == 1 and text.startswith(BYTE_ORDER_MARK) else text).removesuffix('\r')

    def column(self, offset: int) -> int:
        """The column of an offset in characters, from 1. A byte order mark is none."""
        line = self.line_at(offset)
        before = self.text(self.line_start(line), offset)
        return len(before) + (0 if line == 1 and before.startswith(BYTE_ORDER_MARK) else 1)

    def check_place(self, place: Place) -> None:
        """Whether the place can be in this file."""
        if place.offset > len(self.content):
            raise Changed('it has fewer than %d bytes' % place.offset)
        line = self.line_at(place.offset)
        if (line, place.offset - self.line_start(line) + 1) != (place.line, place.column):
            raise Changed('byte %d is not at line %d, column %d' % (place.offset, place.line, place.column))
        self.column(place.offset)

    def check_finding(self, finding: Finding) -> None:
        """Whether all places of the finding can be in this file."""
        self.check_place(finding.start)
        self.check_place(finding.end)
        if finding.end.offset < finding.start.offset:
            raise Changed('a finding ends before it begins')
        self.text(self.line_start(finding.start.line), self.line_end(finding.end.line))
        for offset in [*(finding.source or ()), *(start for start, _ in finding.trace)]:
            if offset > len(self.content):
                raise Changed('it has fewer than %d bytes' % offset)
            self.column(offset)
            self.line_text(self.line_at(offset))


def read_source(folder: str, path: str) -> SourceFile:
    """The file at a path of a report."""
    place = os.path.join(folder, path)
    if os.path.exists(place) and not os.path.isfile(place):
        raise Changed('it is no file')
    try:
        with open(place, 'rb') as file:
            return SourceFile(file.read())
    except OSError as error:
        raise Changed("it can't be read (%s)" % (error.strerror or error)) from None


def checked_source(folder: str, path: str, findings: Iterable[Finding]) -> SourceFile:
    source = read_source(folder, path)
    for finding in findings:
        source.check_finding(finding)
    return source


def by_path(findings: Iterable[Finding]) -> dict[str, list[Finding]]:
    """The findings of each file, in the report's order."""
    groups: dict[str, list[Finding]] = {}
    for finding in findings:
        groups.setdefault(finding.path, []).append(finding)
    return groups


def check_folder(folder: str) -> None:
    if not os.path.isdir(folder):
        raise Refusal('%s is no folder' % (folder or "''"))


def read_sources(folder: str, report: Report) -> dict[str, SourceFile]:
    """All files with findings. Those that aren't there or changed since the scan are told in one refusal."""
    check_folder(folder)
    sources, faults = {}, []
    for path, findings in by_path(report.findings).items():
        try:
            sources[path] = checked_source(folder, path, findings)
        except Changed as changed:
            faults.append('%s is not the file that was scanned: %s' % (path, changed))
    if faults:
        raise Refusal('\n'.join(faults + ['scan again, or say with --folder where the scan was run']))
    return sources
