"""The language server: what the editor says, and what it is answered."""
import os
import sys
from dataclasses import replace
from typing import Any, BinaryIO, Callable, Optional

from .documents import UTF_8, UTF_16, Document, Text, bytes_of
from .lsp_board import Board
from .lsp_findings import ALL, ONE, actions
from .lsp_settings import Settings, rule_places, with_values
from .lsp_wire import BadFrame, BadMessage, Wire
from .session_keeper import Keeper, Wanted
from .tree_parts import ENDINGS
from .workspace import file_of, is_under

NOT_BEGUN, NO_METHOD, BAD_PARAMS, BAD_REQUEST, UNREAD = -32002, -32601, -32602, -32600, -32700
LEVELS = {1: 'error', 2: 'warning', 3: 'note', 4: 'log'}
WATCHED = '**/*.{%s}' % ','.join(ending[1:] for ending in ENDINGS)


class NoMethod(Exception):
    """The server doesn't know a request."""


def log(words: str) -> None:
    """A line on standard error."""
    try:
        print('semscan-lsp: %s' % words.replace('\n', ' '), file=sys.stderr, flush=True)
    except OSError:
        pass


def has(capabilities: Any, *keys: str) -> Any:
    """What a client says of a capability; None where it says nothing."""
    for key in keys:
        capabilities = capabilities.get(key) if isinstance(capabilities, dict) else None
    return capabilities


class Server:
    """One editor, one folder, one session."""

    def __init__(self, source: BinaryIO, sink: BinaryIO, settings: Settings, folder: Optional[str]):
        self.wire = Wire(source, sink)
        self.settings = settings
        self.folder = folder
        self.board = Board(self.wire, self.say, self.note)
        self.keeper: Optional[Keeper] = None
        self.client: dict[str, Any] = {}
        self.began = False
        self.shut = False
        self.watches = False

    # The loop.

    def serve(self) -> int:
        """Answers the editor until it ends. The status is 0 where it asked for the end first, as the protocol has it."""
        try:
            while self.step():
                pass
        except BadFrame as error:
            log(str(error))
            self.shut = False
        except OSError as error:
            log('the editor went away: %s' % error)
        if self.keeper is not None:
            self.keeper.stop()
        return 0 if self.shut else 1

    def step(self) -> bool:
        """Reads one message and does what it asks. False means the end."""
        try:
            message = self.wire.read()
        except BadMessage as error:
            self.wire.refuse(None, UNREAD, str(error))
            return True
        if message is None or message.get('method') == 'exit':
            return False
        if 'method' in message:
            self.take(message)
        return True

    def take(self, message: dict[str, Any]) -> None:
        """Does what a request or a notification asks. One that is wrong is refused, and changes nothing."""
        method, params = message['method'], message.get('params') or {}
        is_request = 'id' in message
        refusal = self.refusal(method)
        if refusal is None:
            try:
                result = self.handler(method, is_request)(params)
            except NoMethod:
                refusal = (NO_METHOD, '%s is not known' % method)
            except (KeyError, TypeError, ValueError, AttributeError, IndexError) as error:
                refusal = (BAD_PARAMS, '%s has wrong parameters: %r' % (method, error))
                log(refusal[1])
        if is_request and refusal is not None:
            self.wire.refuse(message['id'], *refusal)
        elif is_request:
            self.wire.answer(message['id'], result)

    def refusal(self, method: str) -> Optional[tuple[int, str]]:
        """Why a message comes at the wrong time, if it does."""
        if self.shut:
            return BAD_REQUEST, 'the server was shut down'
        if not self.began and method != 'initialize':
            return NOT_BEGUN, 'initialize comes first'
        if self.began and method == 'initialize':
            return BAD_REQUEST, 'initialize comes once'
        return None

    def handler(self, method: str, is_request: bool) -> Callable[[Any], Any]:
        handlers: dict[str, Callable[[Any], Any]] = {
            'initialize': self.initialize, 'initialized': self.initialized, 'shutdown': self.shutdown,
            'textDocument/didOpen': self.opened, 'textDocument/didChange': self.edited, 'textDocument/didClose': self.closed,
            'textDocument/didSave': self.saved, 'textDocument/codeAction': self.code_actions,
            'workspace/didChangeWatchedFiles': self.files_changed, 'workspace/didChangeConfiguration': self.configured}
        if method not in handlers:
            if is_request:
                raise NoMethod
            return lambda params: None
        return handlers[method]

    def say(self, level: int, words: str) -> None:
        """Shows a message to the person at the editor."""
        log('%s: %s' % (LEVELS[level], words))
        self.wire.notify('window/showMessage', {'type': level, 'message': 'semscan: ' + words})

    def note(self, words: str) -> None:
        """Writes a line into the editor's log."""
        log(words)
        self.wire.notify('window/logMessage', {'type': 3, 'message': 'semscan: ' + words})

    # The beginning and the end.

    def initialize(self, params: dict[str, Any]) -> dict[str, Any]:
        self.client = params.get('capabilities') or {}
        named = self.folder or self.folder_of(params)
        self.folder = os.path.abspath(named or '.')
        if not os.path.isdir(self.folder):
            raise ValueError('%s is no folder' % self.folder)
        encodings = has(self.client, 'general', 'positionEncodings') or []
        self.board.encoding = UTF_8 if 'utf-8' in encodings else UTF_16
        self.board.with_steps = has(self.client, 'textDocument', 'publishDiagnostics', 'relatedInformation') is True
        self.take_settings(params.get('initializationOptions'))
        if not named:
            self.say(2, 'the editor named no folder, so nothing is scanned: open a folder')
            self.settings = replace(self.settings, paths=())
        self.keeper = Keeper(self.folder, self.report, self.say)
        self.began = True
        return {
            'capabilities': {
                'positionEncoding': self.board.encoding,
                'textDocumentSync': {'openClose': True, 'change': 2, 'save': {'includeText': False}},
                'codeActionProvider': {'codeActionKinds': [ONE, ALL]} if has(self.client, 'textDocument', 'codeAction') is not None else True},
            'serverInfo': {'name': 'semscan-lsp'}}

    def folder_of(self, params: dict[str, Any]) -> Optional[str]:
        """The folder that the editor names, if it names one: the first of several, since a session has one."""
        folders = params.get('workspaceFolders') or []
        if len(folders) > 1:
            self.say(2, 'only the first folder of the workspace is scanned')
        uri = folders[0]['uri'] if folders else params.get('rootUri')
        return file_of(uri) or uri if uri else params.get('rootPath')

    def initialized(self, _: Any) -> None:
        if has(self.client, 'workspace', 'didChangeWatchedFiles', 'dynamicRegistration'):
            self.watches = True
            watchers = [{'globPattern': WATCHED}]
            self.wire.send({'id': 'watch', 'method': 'client/registerCapability', 'params': {'registrations': [
                {'id': 'watch', 'method': 'workspace/didChangeWatchedFiles', 'registerOptions': {'watchers': watchers}}]}})
        self.keeper.configure(self.settings)
        self.keeper.start()

    def shutdown(self, _: Any) -> None:
        self.shut = True
        self.keeper.stop()

    def take_settings(self, value: Any) -> None:
        """Takes settings of the editor. What is wrong with them is told."""
        self.settings, faults = with_values(self.settings, value)
        for fault in faults:
            self.say(2, fault)

    def configured(self, params: dict[str, Any]) -> None:
        before, value = self.settings, params.get('settings')
        self.take_settings(value['semscan'] if isinstance(value, dict) and 'semscan' in value else None)
        if self.settings != before:
            self.keeper.configure(self.settings)

    # Documents.

    def opened(self, params: dict[str, Any]) -> None:
        item = params['textDocument']
        path = self.keeper.workspace.path_of(item['uri'])
        if path is not None:
            text = Text(bytes_of(item['text']), self.board.encoding)
            self.keeper.put(path, Document(item['uri'], item['version'], text))

    def edited(self, params: dict[str, Any]) -> None:
        item = params['textDocument']
        path = self.keeper.workspace.path_of(item['uri'])
        before = self.keeper.document(path) if path is not None else None
        if before is not None:
            text = before.text.changed(params['contentChanges'])
            self.keeper.put(path, Document(before.uri, item['version'], text))

    def closed(self, params: dict[str, Any]) -> None:
        path = self.keeper.workspace.path_of(params['textDocument']['uri'])
        if path is not None:
            self.keeper.close(path)

    def saved(self, params: dict[str, Any]) -> None:
        """A rule file that was saved is read anew. Where the editor watches no files, all files and rules are looked at again, since others may have
        changed."""
        uri = params['textDocument']['uri']
        if not self.watches:
            self.keeper.look_again({'.'}, True)
        elif self.is_rules(uri):
            self.keeper.look_again(set(), True)

    def files_changed(self, params: dict[str, Any]) -> None:
        uris = [change['uri'] for change in params['changes']]
        named = {self.keeper.workspace.path_of(uri) for uri in uris} - {None}
        paths = {path for path in named if not any(segment.startswith('.') for segment in path.split('/'))}
        with_rules = any(self.is_rules(uri) for uri in uris)
        if paths or with_rules:
            self.keeper.look_again(paths, with_rules)

    def is_rules(self, uri: str) -> bool:
        """Whether a URI names a rule file, or one in a folder of them."""
        file = file_of(uri)
        places = rule_places(self.settings, self.folder)
        return file is not None and (not places or any(is_under(file, place) for place in places))

    # Findings.

    def report(self, wanted: Wanted, changed: set[str], value: Any) -> None:
        """A report of the session's thread."""
        if isinstance(value, dict) and 'too_many' not in value:
            log('%d findings, %d notices' % (len(value.get('results', ())), len(value.get('notices', ()))))
        stale = self.board.take(wanted, changed, value)
        if stale:
            self.keeper.look_again(stale, False)

    def code_actions(self, params: dict[str, Any]) -> list[dict[str, Any]]:
        """The fixes in a range. There are none while the document isn't the one that was scanned."""
        path = self.keeper.workspace.path_of(params['textDocument']['uri'])
        document = self.keeper.document(path) if path is not None else None
        shown = self.board.shown(path) if document is not None else None
        if shown is None or shown.text.content != document.text.content:
            return []
        start, end = (document.text.offset(params['range'][key]) for key in ('start', 'end'))
        only = (params.get('context') or {}).get('only')
        with_versions = bool(has(self.client, 'workspace', 'workspaceEdit', 'documentChanges'))
        return list(actions(document, list(zip(shown.findings, shown.diagnostics)), start, end, only, with_versions))
