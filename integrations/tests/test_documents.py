"""Offsets in bytes here, lines and columns of editors there."""
import itertools
import random
import time
import unittest

from .support import INTEGRATIONS  # noqa: F401  it makes semscan_tools findable

from semscan_tools.documents import UTF_8, UTF_16, Text

PIECES = ('a', '\u00e9', '\u6f22', '\U0001f600', 'e\u0301', '\t', '\n', '\r\n', '\r', '\ufeff')
ROWS = [  # a text, an offset, its position in UTF-16 and in UTF-8
    ('', 0, (0, 0), (0, 0)),
    ('ab', 2, (0, 2), (0, 2)),
    ('\u00e9b', 2, (0, 1), (0, 2)),
    ('\u6f22b', 3, (0, 1), (0, 3)),
    ('\U0001f600b', 4, (0, 2), (0, 4)),
    ('a\n\U0001f600\u00e9b', 8, (1, 3), (1, 6)),
    ('a\r\nb', 3, (1, 0), (1, 0)),
    ('a\rb', 2, (1, 0), (1, 0)),
    ('a\n', 2, (1, 0), (1, 0)),
]


def pair(position):
    return position['line'], position['character']


def at(line, character):
    return {'line': line, 'character': character}


class Columns(unittest.TestCase):
    """Both directions."""

    def test_rows(self):
        for text, offset, wide, narrow in ROWS:
            for encoding, expected in ((UTF_16, wide), (UTF_8, narrow)):
                found = Text(text.encode(), encoding)
                self.assertEqual(pair(found.position(offset)), expected, text)
                self.assertEqual(found.offset(at(*expected)), offset, text)

    def test_every_place_of_short_texts(self):
        for pieces in itertools.product(PIECES, repeat=3):
            content = ''.join(pieces)
            ends = [len(content[:count].encode()) for count in range(len(content) + 1)]
            for encoding in (UTF_16, UTF_8):
                text = Text(content.encode(), encoding)
                for offset in ends:
                    inside_line_end = text.content[offset - 1:offset + 1] == b'\r\n'
                    back = text.offset(text.position(offset))
                    self.assertEqual(back, offset - inside_line_end, (content, offset))

    def test_places_that_are_not_there(self):
        text = Text('a\U0001f600\nb'.encode())
        for place, offset in ((at(0, 2), 1), (at(0, 99), 5), (at(9, 0), 7), (at(1, 9), 7)):
            self.assertEqual(text.offset(place), offset)
        self.assertEqual(pair(text.position(99)), (1, 1))

    def test_byte_order_mark_of_a_file(self):
        text = Text('\ufefff(1)\ng'.encode(), UTF_16, has_mark=True)
        self.assertEqual([pair(text.position(offset)) for offset in (0, 3, 5, 8)], [(0, 0), (0, 0), (0, 2), (1, 0)])
        self.assertEqual(text.offset(at(0, 1)), 4)

    def test_bytes_that_are_no_text(self):
        text = Text(b'\xff\xfe\nf')
        self.assertEqual(pair(text.position(3)), (1, 0))
        text = Text(b'a').changed([{'text': '\ud83d'}])
        self.assertEqual((pair(text.position(3)), text.offset(at(0, 1))), ((0, 1), 3))

    def test_random_edits(self):
        """Edits by ranges give what the same edits of Python's text give."""
        chance = random.Random(1)
        for encoding, code in ((UTF_16, 'utf-16-le'), (UTF_8, 'utf-8')):
            lines = ['']
            text = Text(b'', encoding)
            for _ in range(400):
                ends = sorted((chance.randrange(len(lines)), chance.random()) for _ in range(2))
                places = [(line, int(part * (len(lines[line]) + 1))) for line, part in ends]
                places.sort()
                (first, start), (last, end) = places
                new = ''.join(chance.choice(PIECES[:6] + ('\n',)) for _ in range(chance.randrange(4)))
                positions = [at(line, len(lines[line][:column].encode(code)) // len('a'.encode(code))) for line, column in places]
                text = text.changed([{'range': dict(zip(('start', 'end'), positions)), 'text': new}])
                lines[first:last + 1] = (lines[first][:start] + new + lines[last][end:]).split('\n')
                self.assertEqual(text.content.decode(), '\n'.join(lines))

    def test_long_lines(self):
        """Many places of one long line take no longer than a look at the text for all."""
        text = Text('\u00e9\U0001f600 = f(x); '.encode() * 40_000)
        begin = time.monotonic()
        for place in range(0, 15 * 40_000, 300):
            self.assertEqual(text.offset(text.position(place)), place)
        self.assertLess(time.monotonic() - begin, 5)
