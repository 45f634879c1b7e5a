"""A running `semscan session`: its commands and its answers (docs/SESSIONS.md)."""
import json
import subprocess
from typing import Any, Optional

MOST_OF_A_STREAM = 268_435_456
KEPT_OF_A_FILE = 1_000_001
KEPT_OF_RULES = 262_145
NOWHERE = b'.semscan/nowhere'  # no file of a session is ever here, since a sync passes over what begins with a dot
PATIENCE = 5


class Ended(Exception):
    """The program ended: its status, what it said, and the command that it ended at, as a word and a path."""

    def __init__(self, status: int, said: str, command: tuple[str, str]):
        super().__init__(said)
        self.status = status
        self.said = said
        self.command = command


class Session:
    """One run of the program in a folder. Each command waits until the program has taken it; if the program ends, Ended is raised."""

    def __init__(self, program: str, folder: str, options: list[str]):
        self.sent = 0
        self.command = ('start', '')
        try:
            self.process = subprocess.Popen([program, 'session', *options], cwd=folder, stdin=subprocess.PIPE,
                                            stdout=subprocess.PIPE, stderr=subprocess.PIPE)
        except (OSError, ValueError) as error:
            raise Ended(127, "%s can't be run: %s" % (program, error), self.command) from None

    def has_room(self, more: int) -> bool:
        """Whether the stream, which has a greatest length, can take so many bytes more and its end."""
        return self.sent + more + len(b'end\n') <= MOST_OF_A_STREAM

    def ended(self) -> Ended:
        """Why the program ended. One that closed its output and goes on is ended here."""
        try:
            status = self.process.wait(PATIENCE)
        except subprocess.TimeoutExpired:
            self.process.kill()
            status = self.process.wait()
        said = self.process.stderr.read().decode('utf-8', 'replace').strip()
        self.close_streams()
        return Ended(status if status >= 0 else 128 - status, said.removeprefix('semscan: ') or 'nothing was said', self.command)

    def write(self, whole: bytes) -> None:
        self.sent += len(whole)
        try:
            self.process.stdin.write(whole)
            self.process.stdin.flush()
        except OSError:
            raise self.ended() from None

    def send(self, word: str, path: str = '', body: Optional[bytes] = None) -> None:
        self.command = (word, path)
        words = [word] if body is None else [word, str(len(body))]
        line = ' '.join(words + ([path] if path else [])).encode('utf-8') + b'\n'
        self.write(line if body is None else line + body + b'\n')

    def answer(self) -> Any:
        """The value of the next line of output."""
        line = self.process.stdout.readline()
        if not line.endswith(b'\n'):
            raise self.ended()
        try:
            return json.loads(line)
        except (ValueError, RecursionError) as error:
            self.process.kill()
            self.ended()
            raise Ended(70, "its answer can't be read: %s" % error, self.command) from None

    def settle(self) -> None:
        """Waits until the program has taken the last command: after it, it answers that there is no file where none ever is."""
        self.write(b'del %s\n' % NOWHERE)
        self.answer()

    def put(self, path: str, content: bytes) -> None:
        self.send('put', path, content[:KEPT_OF_A_FILE])
        self.settle()

    def rule(self, name: str, content: bytes) -> None:
        self.send('rule', name, content[:KEPT_OF_RULES])
        self.settle()

    def sync(self, prefix: str) -> None:
        self.send('sync', prefix)
        self.settle()

    def unrule(self, name: str) -> bool:
        self.send('unrule', name)
        return self.answer()['removed']

    def delete(self, path: str) -> bool:
        self.send('del', path)
        return self.answer()['removed']

    def scan(self) -> Any:
        """The report as a value, or one whose `too_many` says how many findings are the most."""
        self.send('scan')
        return self.answer()

    def close_streams(self) -> None:
        for stream in (self.process.stdin, self.process.stdout, self.process.stderr):
            try:
                stream.close()
            except OSError:
                pass

    def close(self) -> None:
        """Ends the session in order, or the program where it doesn't end by itself."""
        try:
            self.process.stdin.write(b'end\n')
            self.process.stdin.close()
            self.process.wait(PATIENCE)
        except (OSError, ValueError, subprocess.TimeoutExpired):
            self.process.kill()
            self.process.wait()
        self.close_streams()
