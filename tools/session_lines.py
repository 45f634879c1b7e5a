"""A running session of semscan whose answers are the lines that it prints, as bytes, for the tools that hold them beside other runs.

SEMSCAN names the program, as everywhere in integrations/.
"""
import os
import sys

sys.path.insert(0, os.path.join(os.path.dirname(os.path.dirname(os.path.abspath(__file__))), 'integrations'))

from semscan_tools.program import find_program  # noqa: E402
from semscan_tools.session_wire import Ended, Session  # noqa: E402

ANSWERED = ('del', 'unrule', 'scan', 'fix')


class Lines(Session):
    """A session by its lines. A session that ends where it shouldn't raises Ended."""

    def answer(self) -> bytes:
        line = self.process.stdout.readline()
        if not line.endswith(b'\n'):
            raise self.ended()
        return line

    def play(self, word: str, path: str = '', body: bytes | None = None) -> bytes:
        """Gives a command: the line that it prints, or nothing. A folder may change once `sync` was played."""
        self.send(word, path, body)
        if word == 'sync':
            self.settle()
        return self.answer() if word in ANSWERED else b''


def command(word: str, path: str = '', body: bytes | None = None) -> bytes:
    """A command as it stands in a stream."""
    if body is None:
        return b'%s %s\n' % (word.encode(), path.encode()) if path else word.encode() + b'\n'
    return b'%s %d %s\n%s\n' % (word.encode(), len(body), path.encode(), body)


def needed_program() -> str:
    """The built program, whose word `session` was tried."""
    program = find_program(os.environ)
    if program is None or not os.access(program, os.X_OK):
        sys.exit('there is no built program (SEMSCAN says where it is)')
    return program
