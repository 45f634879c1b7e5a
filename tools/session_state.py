"""What a session of semscan has after some commands, worked out without it, for `compare_session.py`: its files and rule files, and the folder."""
import os

from session_cases import LARGE, LARGE_RULES

TAKEN = ('.py', '.pyi', '.c', '.h', '.json', '.txt', '.md', '.yaml', '.yml', '.toml', '.ini', '.cfg', '.sh', '.html')


def is_under(path, prefix):
    """Whether a prefix of a scan holds a path."""
    return prefix in ('.', path) or path.startswith(prefix + '/')


def is_taken(path):
    """Whether a scan of a folder takes a file."""
    return path.endswith(TAKEN) and not any(segment.startswith('.') for segment in path.split('/'))


def chosen(results):
    """The fixes that are taken, by path: those that share no byte with one that was taken before."""
    fixed = {}
    for each in results:
        start, end, text = each['start']['offset'], each['end']['offset'], each['extra'].get('fix')
        before = fixed.get(each['path'], [])
        if text is not None and start < end and (not before or before[-1][1] <= start):
            fixed[each['path']] = before + [[start, end, text]]
    return [{'path': path, 'ranges': ranges} for path, ranges in sorted(fixed.items(), key=lambda item: item[0].encode())]


def applied(body, ranges):
    """The bytes after the fixes."""
    pieces, at = [], 0
    for start, end, text in ranges:
        pieces += [body[at:start], text.encode()]
        at = end
    return b''.join(pieces) + body[at:]


class Folder:
    """A folder on the disk, and what it has."""

    def __init__(self, root):
        self.root = root
        self.files = {}

    def put(self, path, body):
        place = os.path.join(self.root, path)
        os.makedirs(os.path.dirname(place), exist_ok=True)
        with open(place, 'wb') as file:
            file.write(body)
        self.files[path] = body

    def remove(self, path):
        if self.files.pop(path, None) is not None:
            os.remove(os.path.join(self.root, path))

    def become(self, files):
        """Changes what is otherwise than in these files."""
        for path in set(self.files) - set(files):
            self.remove(path)
        for path, body in files.items():
            if self.files.get(path) != body:
                self.put(path, body)


class State:
    """What a session has, by its commands so far, and the folder that it runs in."""

    def __init__(self, work):
        self.work = work
        self.folder = work.files
        self.files = {}
        self.rules = {}

    def take(self, word, path, body):
        """Does what a command does to files and rules: its answer, where that is known."""
        if word in ('del', 'unrule'):
            there = (self.files if word == 'del' else self.rules).pop(path, None) is not None
            return b'{"removed":%s}\n' % (b'true' if there else b'false')
        if word == 'put':
            self.files[path] = body[:LARGE + 1]
        elif word == 'rule':
            self.rules[path] = body[:LARGE_RULES + 1]
        elif word == 'sync':
            found = {each: text[:LARGE + 1] for each, text in self.folder.items() if is_under(each, path) and is_taken(each)}
            self.files = {**{each: text for each, text in self.files.items() if not is_under(each, path)}, **found}
        return b'' if word not in ('scan', 'fix') else None

    def fix(self, fixed):
        """Takes the fixes that an answer says."""
        for each in fixed:
            self.files[each['path']] = applied(self.files[each['path']], each['ranges'])
