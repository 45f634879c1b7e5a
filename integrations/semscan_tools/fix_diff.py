"""What edits change in a file, as a unified diff that `patch -p1` and `git apply` take."""
from dataclasses import dataclass
from typing import Iterator

from .fixes import Edit, applied
from .sources import SourceFile

CONTEXT = 3
NO_END = b'\\ No newline at end of file\n'


@dataclass(frozen=True)
class Change:
    """Lines that are replaced by others: the first of them, counted from 0, the old ones and the new ones, with their line ends."""
    first: int
    old: list[bytes]
    new: list[bytes]

    def end(self) -> int:
        return self.first + len(self.old)


def lines_of(content: bytes) -> list[bytes]:
    """The lines of bytes with their line feeds. Nothing else ends a line."""
    pieces = [piece + b'\n' for piece in content.split(b'\n')]
    pieces[-1] = pieces[-1][:-1]
    return pieces if pieces[-1] else pieces[:-1]


def groups(source: SourceFile, edits: list[Edit]) -> Iterator[list[Edit]]:
    """Edits that have lines in common stand together."""
    held: list[Edit] = []
    for edit in edits:
        if held and source.line_at(edit.start) > source.line_at(held[-1].end):
            yield held
            held = []
        held.append(edit)
    if held:
        yield held


def change_of(source: SourceFile, edits: list[Edit]) -> Change:
    """The lines that a group of edits changes. Lines at both ends that stay are none of them."""
    first, last = source.line_at(edits[0].start), source.line_at(edits[-1].end)
    start = source.line_start(first)
    end = min(source.line_end(last) + 1, len(source.content))
    moved = [Edit(edit.start - start, edit.end - start, edit.text) for edit in edits]
    old, new = (lines_of(content) for content in (source.content[start:end], applied(source.content[start:end], moved)))
    front = 0
    while front < min(len(old), len(new)) and old[front] == new[front]:
        front += 1
    back = 0
    while back < min(len(old), len(new)) - front and old[-1 - back] == new[-1 - back]:
        back += 1
    return Change(first - 1 + front, old[front:len(old) - back], new[front:len(new) - back])


def hunks(changes: list[Change]) -> Iterator[list[Change]]:
    """Changes whose lines around them meet stand in one hunk."""
    held: list[Change] = []
    for change in changes:
        if held and change.first - held[-1].end() > 2 * CONTEXT:
            yield held
            held = []
        held.append(change)
    if held:
        yield held


def span(start: int, count: int) -> str:
    """Where lines stand, as the head of a hunk has it; `start` counts from 0."""
    return '%d' % (start + 1) if count == 1 else '%d,%d' % (start + 1 if count else start, count)


def hunk_lines(lines: list[bytes], changes: list[Change], shift: int) -> Iterator[tuple[str, bytes]]:
    """The lines of a hunk, each with its sign; `shift` is by how many lines the new file is longer up to here."""
    start, end = max(0, changes[0].first - CONTEXT), min(len(lines), changes[-1].end() + CONTEXT)
    grown = sum(len(change.new) - len(change.old) for change in changes)
    yield '@', b'@@ -%s +%s @@\n' % (span(start, end - start).encode(), span(start + shift, end - start + grown).encode())
    at = start
    for change in changes:
        yield from ((' ', line) for line in lines[at:change.first])
        yield from (('-', line) for line in change.old)
        yield from (('+', line) for line in change.new)
        at = change.end()
    yield from ((' ', line) for line in lines[at:end])


def diff_lines(path: str, source: SourceFile, edits: list[Edit]) -> Iterator[tuple[str, bytes]]:
    """The diff of a file, line by line, each with its sign, whole as it is written; none where the edits change nothing."""
    changes = [change_of(source, group) for group in groups(source, edits)]
    changes = [change for change in changes if change.old or change.new]
    if not changes:
        return
    tab = b'\t' if ' ' in path else b''
    yield '@', b'--- a/' + path.encode() + tab + b'\n'
    yield '@', b'+++ b/' + path.encode() + tab + b'\n'
    lines, shift = lines_of(source.content), 0
    for hunk in hunks(changes):
        for sign, line in hunk_lines(lines, hunk, shift):
            whole = line if sign == '@' else sign.encode() + line
            yield sign, whole if whole.endswith(b'\n') else whole + b'\n' + NO_END
        shift += sum(len(change.new) - len(change.old) for change in hunk)
