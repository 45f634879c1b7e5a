"""Writes what fixes make of files, and refuses files that changed since they were scanned."""
import os
import tempfile

from .fixes import Edit, applied
from .refusal import Refusal
from .sources import SourceFile
from .workspace import Workspace

NOT_WRITTEN = 5


def check_ages(folder: str, paths: list[str], scanned: float) -> None:
    """Refuses files that were written after the time of the scan, and paths that a link leads to, since no scan follows links."""
    workspace, faults = Workspace(folder), []
    for path in paths:
        if not workspace.is_plain(path):
            faults.append('%s is no regular file, or a link leads to it' % path)
        elif os.stat(os.path.join(folder, path)).st_mtime > scanned:
            faults.append('%s was written after the scan' % path)
    if faults:
        raise Refusal('\n'.join(faults + ['nothing was changed; scan again']))


def replace_file(place: str, content: bytes, before: bytes) -> None:
    """Puts a file of these bytes in the place of one with the bytes before, as a whole, with its permissions."""
    name = None
    try:
        with tempfile.NamedTemporaryFile(dir=os.path.dirname(place), prefix='.semscan-fix-', delete=False) as file:
            name = file.name
            file.write(content)
        os.chmod(name, os.stat(place).st_mode & 0o7777)
        with open(place, 'rb') as file:
            is_same = file.read() == before
        if not is_same:
            raise Refusal('%s changed just now' % place)
        os.replace(name, place)
        name = None
    except OSError as error:
        raise Refusal("%s can't be written: %s" % (place, error.strerror), NOT_WRITTEN) from None
    finally:
        if name is not None:
            os.unlink(name)


def write_fixes(folder: str, sources: dict[str, SourceFile], edits: dict[str, list[Edit]]) -> None:
    """Writes all files with their edits, in order. Where one can't be written, those before it are, and it is told which."""
    written = []
    for path in edits:
        try:
            replace_file(os.path.join(folder, path), applied(sources[path].content, edits[path]), sources[path].content)
        except Refusal as refusal:
            raise Refusal('%s\nwritten before it: %s' % (refusal, ', '.join(written) or 'nothing'), refusal.status) from None
        written.append(path)
