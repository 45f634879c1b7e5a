"""Text as a terminal shows it: its width, its colours, and nothing in it that could steer the terminal."""
import unicodedata
from typing import Mapping, TextIO

TAB = 4
COLOURS = {'path': '1', 'rule': '36', 'bad': '1;31', 'warn': '1;33', 'mild': '1;34', 'faint': '2', 'minus': '31', 'plus': '32'}
OF_SEVERITY = {'CRITICAL': 'bad', 'HIGH': 'bad', 'ERROR': 'bad', 'MEDIUM': 'warn', 'WARNING': 'warn', 'LOW': 'mild', 'INFO': 'mild'}


def wants_colour(stream: TextIO, environment: Mapping[str, str]) -> bool:
    """Colours are for terminals, unless NO_COLOR says that there are none (https://no-color.org)."""
    return stream.isatty() and not environment.get('NO_COLOR') and environment.get('TERM') != 'dumb'


class Pen:
    """Colours text, or leaves it as it is."""

    def __init__(self, coloured: bool):
        self.coloured = coloured

    def paint(self, text: str, colour: str) -> str:
        return '\x1b[%sm%s\x1b[0m' % (COLOURS[colour], text) if self.coloured and text else text


def shown(character: str, column: int) -> str:
    """A character as it is shown in this column, counted from 0: a tab as spaces, what isn't printed by its number."""
    if character == '\t':
        return ' ' * (TAB - column % TAB)
    if unicodedata.category(character) in ('Cc', 'Cf', 'Cs', 'Zl', 'Zp'):
        return '<U+%04X>' % ord(character)
    return character


def width(text: str) -> int:
    """How many cells a shown text takes: wide characters take two, combining ones none."""
    return sum(0 if unicodedata.category(character) in ('Mn', 'Me') else 1 + (unicodedata.east_asian_width(character) in 'WF')
               for character in text)


def laid_out(text: str) -> list[tuple[str, int]]:
    """Each character of a line as it is shown, with the cells that it takes."""
    cells, column = [], 0
    for character in text:
        piece = shown(character, column)
        cells.append((piece, width(piece)))
        column += cells[-1][1]
    return cells


def plain(text: str) -> str:
    """A text in one line as it is shown."""
    return ''.join(piece for piece, _ in laid_out(text.replace('\r\n', ' ').replace('\n', ' ')))
