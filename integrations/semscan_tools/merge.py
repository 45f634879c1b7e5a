"""Merges the reports of parts into the line of one scan. The texts of results and notices are taken over as they are."""
import json
from dataclasses import dataclass
from typing import Iterable

DECODER = json.JSONDecoder()
Items = dict[str, list[str]]


class NoReport(Exception):
    """Why a line is no report."""


@dataclass(frozen=True)
class Pieces:
    """The texts of the notices and results of a report, by path, in their order."""
    notices: Items
    results: Items


def read_items(text: str, at: int) -> tuple[Items, int]:
    """The texts of a list from behind its bracket on, by path, and the place behind the list."""
    found: Items = {}
    while text[at:at + 1] != ']':
        value, end = DECODER.raw_decode(text, at)
        found.setdefault(value['path'], []).append(text[at:end])
        at = end + 1 if text[end:end + 1] == ',' else end
    return found, at + 1


def expect(text: str, at: int, words: str) -> int:
    if not text.startswith(words, at):
        raise NoReport('there is no %s at character %d' % (words.strip(), at))
    return at + len(words)


def pieces_of(line: bytes) -> Pieces:
    """The pieces of a report's line."""
    try:
        text = line.decode('utf-8')
        notices, at = read_items(text, expect(text, 0, '{"notices":['))
        results, at = read_items(text, expect(text, at, ',"results":['))
        if expect(text, at, '}\n') != len(text):
            raise NoReport('something follows the report')
    except (ValueError, KeyError, TypeError, RecursionError) as error:
        raise NoReport('the line is cut off or no report: %r' % error) from None
    return Pieces(notices, results)


def add(items: Items, more: Items) -> None:
    """Adds what a part says. What two parts say of one path, the rule file, must be the same."""
    for path, texts in more.items():
        if items.setdefault(path, texts) != texts:
            raise NoReport('two parts say different things of %s' % path)


def union(pieces: Iterable[Pieces]) -> Pieces:
    """What the parts say together, each once."""
    all_pieces = Pieces({}, {})
    for piece in pieces:
        add(all_pieces.notices, piece.notices)
        add(all_pieces.results, piece.results)
    return all_pieces


def count(items: Items) -> int:
    return sum(map(len, items.values()))


def joined(items: Items) -> str:
    return ','.join(text for path in sorted(items, key=str.encode) for text in items[path])


def line_of(pieces: Pieces) -> bytes:
    """The line of a report with these pieces."""
    return ('{"notices":[%s],"results":[%s]}\n' % (joined(pieces.notices), joined(pieces.results))).encode('utf-8')
