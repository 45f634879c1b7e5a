"""What the tests of this folder share."""
import json
import os
import pwd
import subprocess
import sys
import tempfile
import unittest

TESTS = os.path.dirname(os.path.abspath(__file__))
INTEGRATIONS = os.path.dirname(TESTS)
TOP = os.path.dirname(INTEGRATIONS)
sys.path.insert(0, INTEGRATIONS)

from semscan_tools.program import find_program  # noqa: E402

PROGRAM = find_program({key: value for key, value in os.environ.items() if key == 'SEMSCAN'})
NO_PROGRAM = None if PROGRAM and os.access(PROGRAM, os.X_OK) else 'needs the built program (SEMSCAN=PATH, else crates/semscan/out/semscan)'
needs_program = unittest.skipIf(NO_PROGRAM, NO_PROGRAM)


def put(folder, path, content):
    """Writes a file in a folder, and the folders above it."""
    place = os.path.join(folder, path)
    os.makedirs(os.path.dirname(place), exist_ok=True)
    with open(place, 'wb') as file:
        file.write(content if isinstance(content, bytes) else content.encode())


def get(folder, path):
    with open(os.path.join(folder, path), 'rb') as file:
        return file.read()


def run(name, *words, cwd, stdin=b'', by=(sys.executable, {}), **environment):
    """A run of a program of this folder, by a Python and as a user."""
    variables = {**os.environ, **({'SEMSCAN': PROGRAM} if PROGRAM else {}), **environment}
    python, user = by
    return subprocess.run([python, os.path.join(INTEGRATIONS, name), *words], cwd=cwd, input=stdin, capture_output=True, env=variables, check=False, **user)


def other_user():
    """The Python of a user who may not read and write everywhere, and how to run it as that user: for root nobody. None where nobody can't run the
    programs of this folder."""
    if os.geteuid() != 0:
        return sys.executable, {}
    needed = [INTEGRATIONS] + ([PROGRAM] if PROGRAM else [])
    reads = 'import os, sys; sys.exit(not all(os.access(path, os.R_OK | os.X_OK) for path in sys.argv[1:]))'
    try:
        nobody = pwd.getpwnam('nobody')
    except KeyError:
        return None
    user = {'user': nobody.pw_uid, 'group': nobody.pw_gid, 'extra_groups': []}
    for python in filter(os.path.exists, (sys.executable, '/usr/bin/python3')):
        try:
            if subprocess.run([python, '-c', reads, *needed], cwd='/', capture_output=True, check=False, **user).returncode == 0:
                return python, user
        except OSError:  # nobody may not run this Python
            pass
    return None


def scan(folder, *words):
    """A run of the built program."""
    return subprocess.run([PROGRAM, 'scan', *words], cwd=folder, stdin=subprocess.DEVNULL, capture_output=True, check=False)


def place(content, offset):
    """A place as reports write it."""
    before = content[:offset]
    return {'col': offset - before.rfind(b'\n'), 'line': before.count(b'\n') + 1, 'offset': offset}


def result(content, found, path='a.py', rule='r', message='m', severity='ERROR', at=0, **extra):
    """A result whose range is the first place of these bytes from an offset on."""
    start = content.index(found, at)
    return {'check_id': rule, 'end': place(content, start + len(found)),
            'extra': {'message': message, 'metavars': {}, 'severity': severity, **extra},
            'path': path, 'start': place(content, start)}


def notice(kind, path='', rule='', detail=''):
    return {'detail': detail, 'kind': kind, 'path': path, 'rule': rule}


def line(results=(), notices=()):
    """The line of a report."""
    value = {'notices': list(notices), 'results': list(results)}
    return (json.dumps(value, ensure_ascii=False, separators=(',', ':'), sort_keys=True) + '\n').encode()


class InFolder(unittest.TestCase):
    """A test in an empty folder."""

    def setUp(self):
        room = tempfile.TemporaryDirectory()
        self.addCleanup(room.cleanup)
        self.folder = os.path.join(room.name, 'work')
        os.mkdir(self.folder)

    def put(self, path, content):
        put(self.folder, path, content)

    def run_by_other(self, name, *words, stdin=b''):
        """A run in the folder by a user who may not read and write everywhere."""
        by = other_user()
        if by is None:
            self.skipTest('needs a user other than root who can run this Python and the program')
        os.chmod(os.path.dirname(self.folder), 0o755)
        return run(name, *words, cwd=self.folder, stdin=stdin, by=by)

    def ends(self, found, status, said=b''):
        """Whether a run ended so, and said so on standard error, without a trace of Python."""
        self.assertEqual((found.returncode, found.stdout if status > 1 else b''), (status, b''), found.stderr.decode())
        self.assertIn(said, found.stderr)
        self.assertNotIn(b'Traceback', found.stderr)
