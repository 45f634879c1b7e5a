"""The folder of a language server: names of files in it, as the editor writes them and as semscan does."""
import os
import stat
from typing import Optional
from urllib.parse import quote, unquote, urlsplit

from .documents import Text
from .path_words import is_path
from .tree_parts import is_taken


def file_of(uri: str) -> Optional[str]:
    """The file that a URI names, if it names one of this machine."""
    try:
        parts = urlsplit(uri)
        path = unquote(parts.path, errors='strict')
    except (ValueError, UnicodeDecodeError):
        return None
    if parts.scheme != 'file' or parts.netloc not in ('', 'localhost') or '\0' in path or not os.path.isabs(path):
        return None
    return os.path.normpath(path)


def uri_of_file(path: str) -> str:
    return 'file://' + quote(path, safe='/')


def is_under(path: str, prefix: str) -> bool:
    """Whether a path lies under a prefix."""
    return prefix == '.' or path == prefix or path.startswith(prefix + '/')


class Workspace:
    """A folder, and the prefixes in it that are scanned."""

    def __init__(self, folder: str, prefixes: tuple[str, ...] = ('.',)):
        self.folder = os.path.abspath(folder)
        self.prefixes = prefixes

    def path_of(self, uri: str) -> Optional[str]:
        """The path from the folder of what a URI names, if it lies in the folder."""
        file = file_of(uri)
        if file is None:
            return None
        for folder in (self.folder, os.path.realpath(self.folder)):
            path = os.path.relpath(file, folder)
            if is_path(path):
                return path
        return None

    def uri_of(self, path: str) -> str:
        return uri_of_file(os.path.join(self.folder, path))

    def is_plain(self, path: str) -> bool:
        """Whether a path is that of a regular file that no link leads to, or of none as yet."""
        segments = path.split('/')
        for count in range(1, len(segments) + 1):
            try:
                mode = os.lstat(os.path.join(self.folder, *segments[:count])).st_mode
            except OSError:
                return True
            if not (stat.S_ISREG(mode) if count == len(segments) else stat.S_ISDIR(mode)):
                return False
        return True

    def is_scanned(self, path: str) -> bool:
        """Whether a scan of the prefixes takes a file of this path."""
        return is_taken(path) and any(is_under(path, prefix) for prefix in self.prefixes) and self.is_plain(path)

    def text(self, path: str, encoding: str) -> Text:
        """The text of a file as it stands in the folder; an empty one where there is none."""
        try:
            with open(os.path.join(self.folder, path), 'rb') as file:
                return Text(file.read(), encoding, has_mark=True)
        except OSError:
            return Text(b'', encoding)
