"""Keeps a session of the program, tells it what changed, and hands on its reports."""
import os
import threading
import time
from dataclasses import dataclass, field
from typing import Any, Callable, Optional

from .documents import Document
from .lsp_rules import Rules, read_rules
from .lsp_settings import Settings, prefixes_of, rule_places
from .program import needed_program
from .refusal import Refusal
from .session_wire import KEPT_OF_A_FILE, Ended, Session
from .workspace import Workspace, is_under

LONGEST_WAIT = 60.0
MANY = 200
SOFTWARE = 70
LEAVES_OUT = (6, 8)  # a folder that can't be read, a limit: the command that met it is left out, and all else goes on

ONLY_OPEN = 'of the files under %s only those that are open are scanned (the setting paths says what to scan)'


@dataclass(frozen=True)
class Wanted:
    """What the session is to know: the settings, the open documents by path, and the paths whose files may have changed."""
    settings: Settings
    workspace: Workspace
    documents: dict[str, Document]
    changed: set[str]
    with_rules: bool
    anew: bool


@dataclass
class Known:
    """What the running session was told."""
    rules: dict[str, bytes] = field(default_factory=dict)
    documents: dict[str, bytes] = field(default_factory=dict)


class Backoff:
    """When a program that ended may be started again: the first time at once, then after longer and longer waits."""

    def __init__(self) -> None:
        self.failures = 0
        self.until = 0.0

    def failed(self, now: float) -> None:
        self.failures += 1
        self.until = now + (0 if self.failures == 1 else min(LONGEST_WAIT, 2.0 ** (self.failures - 2)))

    def succeeded(self) -> None:
        self.failures, self.until = 0, 0.0


class Keeper:
    """The thread that holds the session. What others call is safe from any thread; a scan that began is never broken off."""

    def __init__(self, folder: str, show: Callable[[Wanted, set[str], Any], None], say: Callable[[int, str], None]):
        self.folder = folder
        self.show = show
        self.say = say
        self.state = threading.Condition()
        self.settings = Settings()
        self.workspace = Workspace(folder)
        self.documents: dict[str, Document] = {}
        self.changed: set[str] = set()
        self.rules_changed = True
        self.anew = False
        self.due: Optional[float] = None
        self.stopping = False
        self.session: Optional[Session] = None
        self.known = Known()
        self.rules = Rules({}, [])
        self.left_out: set[tuple[str, str, bytes]] = set()
        self.backoff = Backoff()
        self.last_end = ''
        self.thread = threading.Thread(target=self.run, name='session', daemon=True)

    # What the editor's thread calls.

    def start(self) -> None:
        self.thread.start()

    def touch(self, wait: float) -> None:
        """Lets a round begin after this time, and not before."""
        self.due = time.monotonic() + wait
        self.state.notify_all()

    def configure(self, settings: Settings) -> None:
        prefixes, faults = prefixes_of(settings, self.folder)
        for fault in faults:
            self.say(1, fault)
        with self.state:
            self.settings, self.workspace = settings, Workspace(self.folder, prefixes)
            self.left_out = set()
            self.rules_changed = self.anew = True
            self.touch(0)

    def put(self, path: str, document: Document) -> None:
        with self.state:
            self.documents[path] = document
            if self.workspace.is_scanned(path):
                self.touch(self.settings.debounce / 1000)

    def close(self, path: str) -> None:
        with self.state:
            if self.documents.pop(path, None) is not None:
                self.changed.add(path)
                self.touch(0)

    def look_again(self, paths: set[str], with_rules: bool) -> None:
        """Says that the files at or below these paths, or the rule files, may have changed."""
        with self.state:
            self.changed |= paths
            self.rules_changed |= with_rules
            self.touch(self.settings.debounce / 1000)

    def document(self, path: str) -> Optional[Document]:
        with self.state:
            return self.documents.get(path)

    def stop(self) -> None:
        """Ends the session, and the program where it still works after a while."""
        with self.state:
            self.stopping = True
            self.state.notify_all()
        if self.thread.is_alive():
            self.thread.join(2)
        if self.thread.is_alive() and self.session is not None:
            self.session.process.kill()

    # The thread itself.

    def run(self) -> None:
        while self.wait():
            wanted = self.take()
            try:
                changed, value = self.tell(wanted)
                self.backoff.succeeded()
                self.last_end = ''
                self.show(wanted, changed, value)
            except Ended as ended:
                self.lost(ended)
            except Exception as error:  # whatever went wrong, the next change is looked at with a new session
                self.kill()
                self.lost(Ended(SOFTWARE, repr(error), ('semscan-lsp', '')))
        self.drop()

    def kill(self) -> None:
        """Ends the program whatever it does."""
        if self.session is not None:
            self.session.process.kill()
            self.session.ended()

    def wait(self) -> bool:
        """Waits until there is something to do. False means the end."""
        with self.state:
            while not self.stopping:
                now = time.monotonic()
                begin = None if self.due is None else max(self.due, self.backoff.until)
                if begin is not None and begin <= now:
                    return True
                self.state.wait(None if begin is None else begin - now)
        return False

    def take(self) -> Wanted:
        with self.state:
            documents = {path: document for path, document in self.documents.items() if self.workspace.is_scanned(path)}
            wanted = Wanted(self.settings, self.workspace, documents, self.changed, self.rules_changed, self.anew)
            self.changed, self.rules_changed, self.anew, self.due = set(), False, False, None
        return wanted

    def drop(self) -> None:
        """Ends the session in order, if there is one."""
        if self.session is not None:
            self.session.close()
        self.session, self.known = None, Known()

    def lost(self, ended: Ended) -> None:
        """The program ended: leaves out what it could not take, and starts it again where that may help."""
        self.session, self.known = None, Known()
        if self.stopping:
            return
        self.backoff.failed(time.monotonic())
        word, path = ended.command
        leaves = ended.status in LEAVES_OUT and word in ('put', 'rule', 'sync')
        end = 'the program ended with status %d at %s: %s' % (ended.status, ' '.join(ended.command).strip(), ended.said)
        if leaves:
            end += '; ' + (ONLY_OPEN if word == 'sync' else '%s is left out') % path
        if end != self.last_end:
            self.say(1, end)
        self.last_end = end
        if leaves:
            self.left_out.add((word, path, self.content_at(word, path)))
            self.backoff.until = 0.0
        with self.state:
            self.rules_changed = True
            if ended.status not in (2, 7, SOFTWARE, 127):
                self.touch(0)

    def content_at(self, word: str, path: str) -> bytes:
        """What a command that was left out would have put, so that it is tried again once that changes."""
        if word == 'rule':
            return self.rules.files.get(path, b'')
        document = self.document(path) if word == 'put' else None
        return document.text.content if document else b''

    def begin(self, wanted: Wanted) -> Session:
        """A new session that knows the files of the folder."""
        try:
            program = needed_program(os.environ)
        except Refusal as refusal:
            raise Ended(127, str(refusal), ('start', '')) from None
        self.session, self.known = Session(program, self.folder, wanted.settings.options()), Known()
        for prefix in wanted.workspace.prefixes:
            self.sync(self.session, prefix)
        return self.session

    def tell(self, wanted: Wanted) -> tuple[set[str], Any]:
        """One round: the session is told all that it doesn't know yet, and scans. With the report comes what it was told."""
        session = self.session
        if session is not None and self.must_begin(session, wanted):
            self.drop()
            session = None
        changed = set(wanted.changed)
        if session is None:
            session, changed = self.begin(wanted), {'.'}
        else:
            self.sync_changed(session, wanted)
        self.tell_rules(session, wanted)
        changed |= self.tell_documents(session, wanted)
        return changed, session.scan()

    def must_begin(self, session: Session, wanted: Wanted) -> bool:
        """Whether a session can't go on: the settings changed, or its stream, which has a greatest length, has no room."""
        more = sum(len(document.text.content[:KEPT_OF_A_FILE]) + 2_000 for path, document in wanted.documents.items()
                   if self.known.documents.get(path) != document.text.content)
        rules = 30_000_000 if wanted.with_rules else 0
        return wanted.anew or not session.has_room(more + rules + 2_000 * len(wanted.changed))

    def sync(self, session: Session, prefix: str) -> None:
        """Lets the session read the files under a prefix anew, which drops what was put under it."""
        if ('sync', prefix, b'') in self.left_out:
            return
        session.sync(prefix)
        self.known.documents = {path: content for path, content in self.known.documents.items() if not is_under(path, prefix)}

    def sync_changed(self, session: Session, wanted: Wanted) -> None:
        """Lets the session read anew what may have changed in the folder. A path outside the prefixes of the scan is passed over."""
        prefixes = [prefix for prefix in wanted.workspace.prefixes if ('sync', prefix, b'') not in self.left_out]
        inside = {path for path in wanted.changed if any(is_under(path, prefix) for prefix in prefixes)}
        above = {prefix for prefix in prefixes for path in wanted.changed if is_under(prefix, path)}
        places = set(prefixes) if len(inside) > MANY else inside | above
        for place in sorted(places):
            if not any(is_under(place, other) for other in places - {place}):
                self.sync(session, place)
        for path in set(self.known.documents) - set(wanted.documents):
            session.delete(path)
            del self.known.documents[path]

    def tell_rules(self, session: Session, wanted: Wanted) -> None:
        """Reads the rule files anew where they may have changed, and tells the session those that did."""
        if wanted.with_rules:
            before = self.rules.faults
            self.rules = read_rules(rule_places(wanted.settings, self.folder), self.folder)
            for fault in self.rules.faults:
                if fault not in before:
                    self.say(2, fault)
        for name in set(self.known.rules) - set(self.rules.files):
            session.unrule(name)
            del self.known.rules[name]
        for name, content in self.rules.files.items():
            if self.known.rules.get(name) != content and ('rule', name, content) not in self.left_out:
                session.rule(name, content)
                self.known.rules[name] = content

    def tell_documents(self, session: Session, wanted: Wanted) -> set[str]:
        """Puts the open documents that changed: their paths."""
        told = set()
        for path, document in wanted.documents.items():
            content = document.text.content
            if self.known.documents.get(path) != content and ('put', path, content) not in self.left_out:
                session.put(path, content)
                self.known.documents[path] = content
                told.add(path)
        return told
