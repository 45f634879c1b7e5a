"""The files that a scan takes, and parts of them within the limits of one run (docs/SCANS.md)."""
import os
import stat
from dataclasses import dataclass
from typing import Iterator, Optional

from .path_words import is_path
from .refusal import Refusal

MOST_FILES = 10_000
MOST_BYTES = 33_554_432
MOST_OF_A_FILE = 1_000_001
ENDINGS = ('.py', '.pyi', '.c', '.h', '.json', '.txt', '.md', '.yaml', '.yml', '.toml', '.ini', '.cfg', '.sh', '.html')
FAILED = 6


@dataclass(frozen=True)
class Entry:
    """A file of a tree, with the bytes that a scan counts of it: of a file that is too large only so many as tell that."""
    path: str
    size: int


@dataclass(frozen=True)
class Part:
    """Some files of a tree, in order of their paths, and how often the part was run without a report."""
    entries: tuple[Entry, ...]
    failures: int = 0

    def name(self) -> str:
        if not self.entries:
            return 'the part without files'
        return 'the part from %s to %s' % (self.entries[0].path, self.entries[-1].path)

    def halves(self) -> list['Part']:
        middle = len(self.entries) // 2
        return [Part(self.entries[:middle]), Part(self.entries[middle:])]


def failed(path: str, error: OSError) -> Refusal:
    return Refusal("folder failed: %s can't be read: %s" % (path, error.strerror), FAILED)


def status_at(path: str) -> Optional[os.stat_result]:
    """What stands at a path, if anything does. Links are not followed."""
    try:
        return os.lstat(path)
    except (FileNotFoundError, NotADirectoryError):
        return None
    except OSError as error:
        raise failed(path, error) from None


def entry_at(path: str) -> Optional[os.stat_result]:
    """What stands at a path from the current folder; behind a link stands nothing."""
    segments = path.split('/')
    for count in range(1, len(segments)):
        above = status_at('/'.join(segments[:count]))
        if above is None or not stat.S_ISDIR(above.st_mode):
            return None
    return status_at(path)


def is_taken(path: str) -> bool:
    """Whether a scan takes a file of this path."""
    return is_path(path) and path.endswith(ENDINGS) and not any(segment.startswith('.') for segment in path.split('/'))


def is_text(path: str) -> bool:
    try:
        path.encode('utf-8')
    except UnicodeEncodeError:
        return False
    return True


def names_in(folder: str) -> list[str]:
    try:
        return os.listdir(folder)
    except FileNotFoundError:
        return []
    except OSError as error:
        raise failed(folder, error) from None


def files_under(prefix: str) -> Iterator[tuple[str, os.stat_result]]:
    """All regular files under a prefix, in any order."""
    waiting = [prefix]
    first = True
    while waiting:
        path = waiting.pop()
        found = entry_at(path) if first else status_at(path)
        first = False
        if found is not None and stat.S_ISREG(found.st_mode):
            yield path, found
        elif found is not None and stat.S_ISDIR(found.st_mode):
            paths = (name if path == '.' else path + '/' + name for name in names_in(path))
            waiting += (inner for inner in paths if is_text(inner) and is_path(inner))


def entries_under(prefix: str) -> list[Entry]:
    """The files that a scan of the prefix takes, in order of the bytes of their paths."""
    entries = (Entry(path, min(found.st_size, MOST_OF_A_FILE)) for path, found in files_under(prefix) if is_taken(path))
    return sorted(entries, key=lambda entry: entry.path.encode())


def read_front(path: str, most: int) -> Optional[bytes]:
    """The first bytes of a file, if a regular file is still there."""
    found = status_at(path)
    if found is None or not stat.S_ISREG(found.st_mode):
        return None
    try:
        with open(os.open(path, os.O_RDONLY | os.O_NOFOLLOW | os.O_NONBLOCK | os.O_CLOEXEC), 'rb') as file:
            return file.read(most)
    except FileNotFoundError:
        return None
    except OSError as error:
        raise failed(path, error) from None


def split(entries: list[Entry], most_files: int, most_bytes: int) -> list[Part]:
    """Parts of neighbouring files within these limits, at least one; a file that is over them stands alone."""
    parts, held, size = [], [], 0
    for entry in entries:
        if held and (len(held) == most_files or size + entry.size > most_bytes):
            parts.append(Part(tuple(held)))
            held, size = [], 0
        held.append(entry)
        size += entry.size
    return parts + ([Part(tuple(held))] if held or not parts else [])
