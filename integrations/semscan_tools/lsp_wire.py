"""Messages of the language server protocol over two streams: a header with the length of the body, then the body as JSON."""
import json
import os
import threading
from typing import Any, BinaryIO, Optional

MOST = 268_435_456
MOST_OF_A_HEADER = 4_096


class BadFrame(Exception):
    """Why no message can be read here, nor anything after it."""


class BadMessage(Exception):
    """Why a body is no message. The next one can be read."""


def length_of(lines: list[bytes]) -> int:
    """The length that the lines of a header say."""
    for line in lines:
        name, _, value = line.partition(b':')
        if name.strip().lower() == b'content-length' and value.strip().isdigit() and int(value) <= MOST:
            return int(value)
    raise BadFrame('a header says no length: %r' % b''.join(lines)[:200])


class Wire:
    """Both directions. Several threads may send, one may read."""

    def __init__(self, source: BinaryIO, sink: BinaryIO):
        self.source = source
        self.sink = sink
        self.lock = threading.Lock()

    def header(self) -> Optional[list[bytes]]:
        """The lines of the next header; None where the stream ends."""
        lines: list[bytes] = []
        while True:
            line = self.source.readline(MOST_OF_A_HEADER)
            if not line.endswith(b'\n'):
                if line:
                    raise BadFrame('a header is cut off or too long: %r' % line[:200])
                return None
            if not line.strip():
                return lines
            lines.append(line)

    def read(self) -> Optional[dict[str, Any]]:
        """The next message; None where the stream ends."""
        lines = self.header()
        if lines is None:
            return None
        length = length_of(lines)
        body = self.source.read(length)
        if len(body) < length:
            return None
        try:
            message = json.loads(body)
        except (ValueError, RecursionError) as error:
            raise BadMessage(str(error)) from None
        if type(message) is not dict:
            raise BadMessage('a message is no object')
        return message

    def send(self, message: dict[str, Any]) -> None:
        """Sends a message as a whole. Characters other than ASCII are escaped, so any text can be sent. An editor that went away hears nothing."""
        body = json.dumps({'jsonrpc': '2.0', **message}, separators=(',', ':')).encode('ascii')
        with self.lock:
            try:
                self.sink.write(b'Content-Length: %d\r\n\r\n' % len(body) + body)
                self.sink.flush()
            except OSError:
                os.dup2(os.open(os.devnull, os.O_WRONLY), self.sink.fileno())

    def notify(self, method: str, params: Any) -> None:
        self.send({'method': method, 'params': params})

    def answer(self, number: Any, result: Any) -> None:
        self.send({'id': number, 'result': result})

    def refuse(self, number: Any, code: int, words: str) -> None:
        self.send({'id': number, 'error': {'code': code, 'message': words}})
