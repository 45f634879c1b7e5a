"""An editor for tests: it starts semscan-lsp and speaks the protocol with it."""
import json
import os
import queue
import subprocess
import sys
import threading
import time

from .support import INTEGRATIONS

PATIENCE = 120
CAPABILITIES = {'workspace': {'workspaceEdit': {'documentChanges': True}, 'didChangeWatchedFiles': {'dynamicRegistration': True}},
                'textDocument': {'codeAction': {}}}


class Editor:
    """A language server that runs, and what it said."""

    def __init__(self, folder, program, *words, **environment):
        variables = {**os.environ, 'SEMSCAN': program, **environment}
        self.folder = folder
        self.process = subprocess.Popen([sys.executable, os.path.join(INTEGRATIONS, 'semscan-lsp'), '--debounce', '20', *words], cwd=folder,
                                        env=variables, stdin=subprocess.PIPE, stdout=subprocess.PIPE, stderr=subprocess.PIPE)
        self.inbox = queue.Queue()
        self.said = []
        self.shown = {}
        self.number = 0
        self.errors = []
        self.threads = [threading.Thread(target=self.listen, daemon=True), threading.Thread(target=self.hear_errors, daemon=True)]
        for thread in self.threads:
            thread.start()

    def listen(self):
        stream = self.process.stdout
        while True:
            length = None
            while (line := stream.readline()).strip():
                name, _, value = line.partition(b':')
                length = int(value) if name.lower() == b'content-length' else length
            if length is None:
                self.inbox.put(None)
                return
            self.inbox.put(json.loads(stream.read(length)))

    def hear_errors(self):
        for line in self.process.stderr:
            self.errors.append(line.decode())

    def send(self, message):
        body = json.dumps({'jsonrpc': '2.0', **message}).encode()
        self.raw(b'Content-Length: %d\r\nContent-Type: application/vscode-jsonrpc; charset=utf-8\r\n\r\n' % len(body) + body)

    def raw(self, content):
        self.process.stdin.write(content)
        self.process.stdin.flush()

    def notify(self, method, **params):
        self.send({'method': method, 'params': params})

    def wait(self, wanted, what):
        """The first message, from now on or said before and not taken, that is wanted."""
        until = time.monotonic() + PATIENCE
        for message in self.said:
            if wanted(message):
                self.said.remove(message)
                return message
        while True:
            try:
                message = self.inbox.get(timeout=max(0.01, until - time.monotonic()))
            except queue.Empty:
                message = None
            if message is None:
                raise AssertionError('no %s came; said: %s; errors: %s' % (what, self.said, ''.join(self.errors)))
            self.note(message)
            if wanted(message):
                return message
            self.said.append(message)

    def note(self, message):
        """Keeps what is shown of each file."""
        if message.get('method') == 'textDocument/publishDiagnostics':
            self.shown[message['params']['uri']] = message['params']['diagnostics']

    def take(self, seconds):
        """Takes a message, if one comes in this time."""
        try:
            message = self.inbox.get(timeout=seconds)
        except queue.Empty:
            return
        if message is not None:
            self.note(message)
            self.said.append(message)

    def request(self, method, **params):
        self.number += 1
        number = self.number
        self.send({'id': number, 'method': method, 'params': params})
        return self.wait(lambda message: message.get('id') == number and 'method' not in message, 'answer to ' + method)

    def uri(self, path):
        return 'file://' + os.path.join(self.folder, path)

    def begin(self, capabilities=None, **params):
        """Begins as editors do; the answer to initialize."""
        answer = self.request('initialize', **{'processId': None, 'rootUri': 'file://' + self.folder,
                                               'capabilities': CAPABILITIES if capabilities is None else capabilities, **params})
        self.notify('initialized')
        return answer

    def open(self, path, text, version=1):
        self.notify('textDocument/didOpen', textDocument={'uri': self.uri(path), 'languageId': 'python', 'version': version, 'text': text})

    def change(self, path, version, *changes):
        self.notify('textDocument/didChange', textDocument={'uri': self.uri(path), 'version': version}, contentChanges=list(changes))

    def close(self, path):
        self.notify('textDocument/didClose', textDocument={'uri': self.uri(path)})

    def diagnostics(self, path, count):
        """The diagnostics of a file once there are so many: as rule, begin and end."""
        def wanted(message):
            return (message.get('method') == 'textDocument/publishDiagnostics' and message['params']['uri'] == self.uri(path)
                    and len(message['params']['diagnostics']) == count)
        found = self.wait(wanted, '%d diagnostics for %s' % (count, path))['params']
        return [(one['code'], *((one['range'][end]['line'], one['range'][end]['character']) for end in ('start', 'end')))
                for one in found['diagnostics']]

    def message(self, words, method='window/showMessage'):
        """The message with these words."""
        return self.wait(lambda message: message.get('method') == method and words in message['params']['message'], words)['params']

    def actions(self, path, line, **context):
        end = {'line': line, 'character': 9_999}
        return self.request('textDocument/codeAction', textDocument={'uri': self.uri(path)}, context={'diagnostics': [], **context},
                            range={'start': {'line': line, 'character': 0}, 'end': end})['result']

    def end(self):
        """Ends in order: the status."""
        self.request('shutdown')
        self.notify('exit')
        status = self.process.wait(PATIENCE)
        self.release()
        return status

    def release(self):
        """Ends the server where it still runs, and closes its streams."""
        if self.process.poll() is None:
            self.process.kill()
            self.process.wait()
        for thread in self.threads:
            thread.join(PATIENCE)
        for stream in (self.process.stdin, self.process.stdout, self.process.stderr):
            stream.close()
