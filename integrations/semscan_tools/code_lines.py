"""The lines of code under a finding, with a caret under its range, and its fix as a small diff."""
from typing import Iterator

from .report_line import Finding
from .screen import Pen, laid_out, plain
from .sources import BYTE_ORDER_MARK, SourceFile

MOST_LINES = 6
MOST_WIDTH = 160
BEFORE = 40


def gutter(number: str, sign: str = '|') -> str:
    return '%6s %s ' % (number, sign)


def window(length: int, first: int) -> tuple[int, int]:
    """The part of a long line that is shown: where it begins and ends, so that a range that begins at first can be seen."""
    if length <= MOST_WIDTH:
        return 0, length
    start = max(0, min(first - BEFORE, length - MOST_WIDTH))
    return start, min(length, start + MOST_WIDTH)


def shown_part(text: str, at: int) -> str:
    """A line as it is shown; of a long one the part around a character."""
    start, end = window(len(text), at)
    return ('...' if start else '') + plain(text[start:end]) + ('...' if end < len(text) else '')


def line_with_carets(number: int, text: str, first: int, last: int, pen: Pen, colour: str) -> Iterator[str]:
    """A line and its carets, under the characters from first to last, at least one."""
    start, end = window(len(text), first)
    cells = laid_out(text[start:end])
    head, tail = '...' if start else '', '...' if end < len(text) else ''
    yield (pen.paint(gutter(str(number)), 'faint') + head + ''.join(piece for piece, _ in cells) + tail).rstrip(' ')
    before = len(head) + sum(cells_of for _, cells_of in cells[:first - start])
    under = sum(cells_of for _, cells_of in cells[first - start:last - start])
    yield pen.paint(gutter(''), 'faint') + ' ' * before + pen.paint('^' * max(1, under), colour)


def last_line(source: SourceFile, finding: Finding) -> int:
    """The last line that a finding has a character of."""
    at_start = finding.end.column == 1 and finding.end.line > finding.start.line
    return finding.end.line - (1 if at_start else 0)


def carets_of(source: SourceFile, finding: Finding, line: int, text: str) -> tuple[int, int]:
    """Which characters of a line a finding has, blanks at its beginning and end left out where it goes over several lines."""
    first = source.column(finding.start.offset) - 1 if line == finding.start.line else len(text) - len(text.lstrip())
    last = source.column(finding.end.offset) - 1 if line == finding.end.line else len(text.rstrip())
    return first, max(first, last)


def code_of(source: SourceFile, finding: Finding, pen: Pen, colour: str) -> Iterator[str]:
    """The lines of a finding with carets: all of a few lines, the first and the last of many."""
    last = last_line(source, finding)
    lines = list(range(finding.start.line, last + 1))
    hidden = len(lines) - MOST_LINES
    for place, line in enumerate(lines):
        if hidden > 0 and MOST_LINES - 2 <= place < len(lines) - 1:
            if place == MOST_LINES - 2:
                yield pen.paint('%s%d more lines' % (gutter('...'), hidden + 1), 'faint')
            continue
        text = source.line_text(line)
        first, end = carets_of(source, finding, line, text)
        if text.strip():
            yield from line_with_carets(line, text, first, end, pen, colour)
        else:
            yield pen.paint(gutter(str(line)), 'faint').rstrip(' ')


def lines_of_fix(source: SourceFile, finding: Finding) -> tuple[list[str], list[str]]:
    """The lines of the range as they are, and as the fix makes them."""
    start, end = source.line_start(finding.start.line), source.line_end(finding.end.line)
    head, tail = source.text(start, finding.start.offset), source.text(finding.end.offset, end)
    old = source.text(start, end)
    return ([line.removesuffix('\r').removeprefix(BYTE_ORDER_MARK) for line in text.split('\n')] for text in (old, head + finding.fix + tail))


def diff_of(source: SourceFile, finding: Finding, pen: Pen) -> Iterator[str]:
    """The fix as a small diff: lines that stay are left out, and of long ones what is far from the fix."""
    old, new = lines_of_fix(source, finding)
    line, column = finding.start.line, source.column(finding.start.offset)
    while old and new and old[0] == new[0]:
        old, new, line = old[1:], new[1:], line + 1
    while old and new and old[-1] == new[-1]:
        old, new = old[:-1], new[:-1]
    if not old and not new:
        yield pen.paint('  fix: changes nothing', 'faint')
        return
    yield '  fix:'
    for sign, lines, colour in (('-', old, 'minus'), ('+', new, 'plus')):
        for place, text in enumerate(lines, line):
            at = column - 1 if place == finding.start.line else 0
            yield pen.paint(gutter(str(place), sign) + shown_part(text, at), colour)
