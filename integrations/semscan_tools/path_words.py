"""How semscan wants paths to be written: from the current folder, as `src/app.py`."""
import os
from typing import Optional

FORM = "write paths from the current folder, with one / between names and no '.' or '..' among them"
MOST = 1024


def is_path(word: str) -> bool:
    """Whether semscan takes the word as a path."""
    segments = word.split('/')
    return (0 < len(word.encode('utf-8', 'surrogateescape')) <= MOST and min(word) >= ' '
            and not any(segment in ('', '.', '..') for segment in segments))


def suggestion(word: str, folder: str) -> Optional[str]:
    """The same place as semscan takes it, if it lies under the folder."""
    if not word or '\0' in word:
        return None
    near = os.path.relpath(os.path.join(folder, word), folder)
    return near if near == '.' or is_path(near) else None


def fault_of_path(word: str, folder: str, is_prefix: bool) -> Optional[str]:
    """What is wrong with a path and how it must be written, in one line; None where it is right. A prefix may be `.`."""
    if is_path(word) or (is_prefix and word == '.'):
        return None
    near = suggestion(word, folder)
    if near is not None and near != word and (near != '.' or is_prefix):
        return "write %s instead of %s (%s)" % (near, word or "''", FORM)
    if os.path.isabs(word) or '..' in word.split('/'):
        return "%s isn't below the current folder: change to a folder above it first (%s)" % (word, FORM)
    return "%s is no path here (%s)" % (ascii(word), FORM)
