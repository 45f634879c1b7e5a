"""The rule files of a language server, as a session takes them."""
import glob
import os
from dataclasses import dataclass
from typing import Optional

from .lsp_settings import USUAL_RULES
from .path_words import is_path
from .tree_parts import is_text

MOST_FILES = 100
MOST_BYTES = 262_144


@dataclass(frozen=True)
class Rules:
    """Rule files by the names that the session knows them by, and what is wrong with those that are not among them."""
    files: dict[str, bytes]
    faults: list[str]


def name_of(place: str, folder: str) -> str:
    """The name of a rule file: its path from the folder where it lies in it, else the whole path without its first slash."""
    near = os.path.relpath(place, folder)
    return near if near.split(os.sep)[0] != '..' else os.path.abspath(place).lstrip('/')


def files_at(place: str) -> list[str]:
    """A rule file, or those below a folder."""
    if not os.path.isdir(place):
        return [place]
    found = glob.glob(os.path.join(glob.escape(place), '**', '*.y*ml'), recursive=True)
    return sorted(path for path in found if path.endswith(('.yaml', '.yml')) and os.path.isfile(path))


def content_of(path: str) -> tuple[bytes, Optional[str]]:
    """The bytes of a rule file, or what is wrong with it."""
    try:
        with open(path, 'rb') as file:
            content = file.read(MOST_BYTES + 1)
    except OSError as error:
        return b'', "the rule file %s can't be read: %s" % (path, error.strerror)
    if len(content) > MOST_BYTES:
        return b'', "the rule file %s has more than %d bytes, so it wasn't read" % (path, MOST_BYTES)
    return content, None


def read_rules(places: list[str], folder: str) -> Rules:
    """The rule files at these places."""
    files: dict[str, bytes] = {}
    faults = []
    if not places:
        faults.append('no rule file is named: say config in the settings, or put rules into %s' % ' or '.join(USUAL_RULES))
    for place in places:
        found = files_at(place)
        if not found:
            faults.append('there are no rule files below %s' % place)
        for path in found:
            name, (content, fault) = name_of(path, folder), content_of(path)
            if fault is None and not (is_text(name) and is_path(name)):
                fault = "the rule file %s has a name that semscan doesn't take" % ascii(path)
            elif fault is None and len(files) == MOST_FILES:
                fault = "there are more than %d rule files; %s wasn't read" % (MOST_FILES, path)
            if fault is None:
                files[name] = content
            else:
                faults.append(fault)
    return Rules(files, faults)
