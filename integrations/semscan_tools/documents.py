"""Texts as editors and as semscan see them: offsets in bytes here, lines and columns there."""
import re
from bisect import bisect_right
from dataclasses import dataclass
from functools import cached_property
from typing import Any

from .sources import BYTE_ORDER_MARK

LINE_END = re.compile(rb'\r\n|\n|\r')
WIDE = re.compile(rb'[\xc0-\xff][\x80-\xbf]*')
MARK = BYTE_ORDER_MARK.encode('utf-8')
UTF_8 = 'utf-8'
UTF_16 = 'utf-16'
Position = dict[str, int]


@dataclass(frozen=True)
class WideCharacters:
    """The characters of a text that take several bytes: where they begin and end, and by how many bytes more than units of UTF-16 the text has up to
    each end."""
    starts: list[int]
    ends: list[int]
    excess: list[int]

    def until(self, offset: int) -> int:
        """How many more bytes than units there are up to an offset."""
        count = bisect_right(self.ends, offset)
        return self.excess[count - 1] if count else 0


def wide_characters(content: bytes) -> WideCharacters:
    starts, ends, excess, more = [], [], [], 0
    for found in WIDE.finditer(content):
        length = found.end() - found.start()
        more += length - (2 if length == 4 else 1)
        starts.append(found.start())
        ends.append(found.end())
        excess.append(more)
    return WideCharacters(starts, ends, excess)


def bytes_of(text: str) -> bytes:
    """A text of a message in bytes. Halves of surrogate pairs, which JSON can write, become bytes that are no UTF-8."""
    return text.encode('utf-8', 'surrogatepass')


class Text:
    """The bytes of a text. Lines end at line feeds, carriage returns and both together, as the protocol has it."""

    def __init__(self, content: bytes, encoding: str = UTF_16, has_mark: bool = False):
        """The columns are counted in units of the encoding. Of a file that begins with a byte order mark editors don't show it."""
        self.content = content
        self.encoding = encoding
        self.begin = len(MARK) if has_mark and content.startswith(MARK) else 0

    @cached_property
    def lines(self) -> list[tuple[int, int]]:
        """Where each line begins and ends, without its line end."""
        lines, start = [], self.begin
        for found in LINE_END.finditer(self.content):
            lines.append((start, found.start()))
            start = found.end()
        return lines + [(start, len(self.content))]

    @cached_property
    def wide(self) -> WideCharacters:
        return wide_characters(self.content)

    def line_at(self, offset: int) -> int:
        """The line of an offset, from 0."""
        low, high = 0, len(self.lines)
        while high - low > 1:
            middle = (low + high) // 2
            low, high = (middle, high) if self.lines[middle][0] <= offset else (low, middle)
        return low

    def column(self, start: int, offset: int) -> int:
        """The column of an offset in the line that begins at a start."""
        if self.encoding == UTF_8:
            return offset - start
        return offset - start - self.wide.until(offset) + self.wide.until(start)

    def position(self, offset: int) -> Position:
        """The position of an offset. One inside a line end is that of the end of the line."""
        line = self.line_at(min(offset, len(self.content)))
        start, end = self.lines[line]
        return {'line': line, 'character': self.column(start, max(start, min(offset, end)))}

    def range(self, start: int, end: int) -> dict[str, Position]:
        return {'start': self.position(start), 'end': self.position(end)}

    def offset(self, position: Position) -> int:
        """The offset of a position. A column behind the end of its line is the line's end, a line behind the last one the text's end."""
        if position['line'] >= len(self.lines):
            return len(self.content)
        start, end = self.lines[position['line']]
        if self.encoding == UTF_8:
            return min(end, start + position['character'])
        return self.offset_in_line(start, end, position['character'])

    def offset_in_line(self, start: int, end: int, column: int) -> int:
        """The offset of a column in units of UTF-16; that of a character's second unit is where the character begins."""
        first, last = (bisect_right(self.wide.ends, place) for place in (start, end))
        low, high = first, last
        while low < high:
            middle = (low + high) // 2
            low, high = (middle + 1, high) if self.column(start, self.wide.ends[middle]) <= column else (low, middle)
        base = self.wide.ends[low - 1] if low > first else start
        limit = self.wide.starts[low] if low < last else end
        return min(limit, base + column - self.column(start, base))

    def changed(self, changes: list[dict[str, Any]]) -> 'Text':
        """The text after the changes of a message, one after the other: each replaces a range, or the whole text."""
        text = self
        for change in changes:
            new = bytes_of(change['text'])
            if change.get('range') is not None:
                start, end = (text.offset(change['range'][key]) for key in ('start', 'end'))
                new = text.content[:start] + new + text.content[max(start, end):]
            text = Text(new, self.encoding)
        return text


@dataclass(frozen=True)
class Document:
    """A text that is open in the editor, under the name and with the version that the editor gave it."""
    uri: str
    version: int
    text: Text
