"""semscan-lsp: an editor's conversation with it, over the fake program and over the real one where that has sessions."""
import json
import os
import pty
import queue
import random
import re
import shutil
import subprocess
import sys
import time
import unittest
from unittest import mock

from .lsp_client import CAPABILITIES, PATIENCE, Editor
from .support import INTEGRATIONS, NO_PROGRAM, PROGRAM, TESTS, TOP, InFolder, get, put

from semscan_tools import session_wire
from semscan_tools.documents import Document, Text
from semscan_tools.lsp_rules import read_rules
from semscan_tools.lsp_settings import SHAPES, Settings, with_values
from semscan_tools.session_keeper import Keeper
from semscan_tools.tree_parts import ENDINGS

FAKE = os.path.join(TESTS, 'fake_semscan.py')
RULES = """\
rules:
- id: no-eval
  languages: [regex]
  severity: ERROR
  message: eval runs text.
  pattern-regex: eval\\(x\\)
  fix: parse(x)
- id: no-print
  languages: [regex]
  severity: INFO
  message: print is for tests.
  pattern-regex: print
"""
BAD_RULE = """\
- id: empty
  languages: [python]
  severity: ERROR
  message: nothing.
"""
FLOW_RULE = """\
- id: flow
  mode: taint
  languages: [python]
  severity: ERROR
  message: data runs.
  pattern-sources:
  - pattern: read()
  pattern-sinks:
  - pattern: run($X)
"""
WIDE = 'a = "\U0001f600\u00e9\u6f22"; eval(x)\n'


def no_session():
    """Why the real program can't be tried, if it can't."""
    if NO_PROGRAM:
        return NO_PROGRAM
    ran = subprocess.run([PROGRAM, 'session'], input=b'end\n', capture_output=True, check=False)
    return None if ran.returncode == 0 else 'needs a built program that has the word session'


NO_SESSION = no_session()


def has_eglot():
    """Whether there is an Emacs with Eglot, as part of it or as a package."""
    words = ['emacs', '--batch', '--eval', "(progn (require 'package) (package-initialize) (require 'eglot))"]
    return shutil.which('emacs') is not None and subprocess.run(words, capture_output=True, check=False).returncode == 0


needs_neovim = unittest.skipUnless(shutil.which('nvim'), "needs Neovim (Debian's package neovim)")
needs_emacs = unittest.skipUnless(has_eglot(), "needs Emacs with Eglot (Debian's packages emacs-nox and elpa-eglot)")


class Conversations:
    """What holds over every program."""

    program = FAKE

    def setUp(self):
        super().setUp()
        self.folder = os.path.realpath(self.folder)
        self.put('.semscan/rules.yaml', RULES)
        self.put('a.py', 'x = 1\n')

    def editor(self, *words, **environment):
        editor = Editor(self.folder, self.program, *words, **environment)
        self.addCleanup(editor.release)
        return editor

    def test_example_of_the_page(self):
        with open(os.path.join(TOP, 'docs', 'SESSIONS.md'), encoding='utf-8') as file:
            stream, = re.findall('```\n(rule .*?)```', file.read(), re.DOTALL)
        ran = subprocess.run([self.program, 'session'], cwd=self.folder, input=stream.encode(), capture_output=True, check=False)
        self.assertEqual((ran.returncode, ran.stderr), (0, b''))
        found, = json.loads(ran.stdout)['results']
        self.assertEqual((found['check_id'], found['end']['offset']), ('no-eval', 5))

    def test_open_change_and_close(self):
        self.put('b.py', 'eval(x)\n')
        editor = self.editor()
        answer = editor.begin()['result']['capabilities']
        self.assertEqual((answer['positionEncoding'], answer['textDocumentSync']['change']), ('utf-16', 2))
        self.assertEqual(editor.diagnostics('b.py', 1), [('no-eval', (0, 0), (0, 7))])
        editor.open('a.py', 'x = 1\neval(x)\n')
        self.assertEqual(editor.diagnostics('a.py', 1), [('no-eval', (1, 0), (1, 7))])
        editor.change('a.py', 2, {'range': {'start': {'line': 0, 'character': 0}, 'end': {'line': 0, 'character': 1}}, 'text': 'print(1)\ny'})
        self.assertEqual(editor.diagnostics('a.py', 2), [('no-print', (0, 0), (0, 5)), ('no-eval', (2, 0), (2, 7))])
        editor.change('a.py', 3, {'text': 'y = 2\n'})
        editor.diagnostics('a.py', 0)
        editor.change('a.py', 4, {'text': 'eval(x)\n'})
        editor.diagnostics('a.py', 1)
        editor.close('a.py')
        editor.diagnostics('a.py', 0)
        self.assertEqual(editor.end(), 0)
        self.assertNotIn('Traceback', ''.join(editor.errors))

    def test_new_file_that_is_closed_unsaved(self):
        editor = self.editor()
        editor.begin()
        editor.open('new/c.py', 'eval(x)\n')
        editor.diagnostics('new/c.py', 1)
        editor.close('new/c.py')
        editor.diagnostics('new/c.py', 0)

    def test_code_actions_beside_wide_characters(self):
        editor = self.editor()
        editor.begin()
        editor.open('a.py', WIDE + 'eval(x)\n', 7)
        self.assertEqual(editor.diagnostics('a.py', 2), [('no-eval', (0, 12), (0, 19)), ('no-eval', (1, 0), (1, 7))])
        one, every = editor.actions('a.py', 0)
        self.assertEqual((one['title'], one['kind'], every['kind']), ('Fix no-eval', 'quickfix', 'source.fixAll.semscan'))
        change, = one['edit']['documentChanges']
        self.assertEqual(change['textDocument'], {'uri': editor.uri('a.py'), 'version': 7})
        self.assertEqual(change['edits'], [{'range': {'start': {'line': 0, 'character': 12}, 'end': {'line': 0, 'character': 19}}, 'newText': 'parse(x)'}])
        editor.change('a.py', 8, {'range': change['edits'][0]['range'], 'text': change['edits'][0]['newText']})
        self.assertEqual(editor.diagnostics('a.py', 1), [('no-eval', (1, 0), (1, 7))])
        self.assertEqual([action['kind'] for action in editor.actions('a.py', 0)], ['source.fixAll.semscan'])
        self.assertEqual(editor.actions('a.py', 1, only=['refactor']), [])
        self.assertEqual([action['kind'] for action in editor.actions('a.py', 1, only=['quickfix'])], ['quickfix'])
        every, = editor.actions('a.py', 1, only=['source.fixAll'])
        self.assertEqual(len(every['edit']['documentChanges'][0]['edits']), 1)

    def test_columns_in_bytes_where_the_editor_offers_them(self):
        editor = self.editor()
        answer = editor.begin({**CAPABILITIES, 'general': {'positionEncodings': ['utf-16', 'utf-8']}, 'workspace': {}})
        self.assertEqual(answer['result']['capabilities']['positionEncoding'], 'utf-8')
        editor.open('a.py', WIDE)
        self.assertEqual(editor.diagnostics('a.py', 1), [('no-eval', (0, 17), (0, 24))])
        edit, = editor.actions('a.py', 0, only=['quickfix'])[0]['edit']['changes'][editor.uri('a.py')]
        editor.change('a.py', 2, {'range': edit['range'], 'text': 'print'})
        self.assertEqual(editor.diagnostics('a.py', 1), [('no-print', (0, 17), (0, 22))])

    def steps(self, accepts, **settings):
        """The steps that an editor is shown of a finding of tainted data: message, begin and end; None where it is shown none."""
        self.put('.semscan/rules.yaml', RULES + FLOW_RULE)
        editor = self.editor()
        editor.begin({**CAPABILITIES, 'textDocument': {'codeAction': {}, **accepts}}, initializationOptions=settings)
        editor.open('a.py', 's = "\U0001f600" + read()\nrun(s)\n')
        self.assertEqual(editor.diagnostics('a.py', 1), [('flow', (1, 0), (1, 6))])
        found, = editor.shown[editor.uri('a.py')]
        for step in found.get('relatedInformation', []):
            self.assertEqual(step['location']['uri'], editor.uri('a.py'))
        editor.end()
        if 'relatedInformation' not in found:
            return None
        return [(step['message'], *((step['location']['range'][end]['line'], step['location']['range'][end]['character']) for end in ('start', 'end')))
                for step in found['relatedInformation']]

    def test_steps_of_tainted_data(self):
        """They go as related information to editors that say that they take it."""
        accepts = {'publishDiagnostics': {'relatedInformation': True}}
        source = ('source', (0, 11), (0, 17))
        self.assertEqual(self.steps(accepts), [source])
        self.assertEqual(self.steps(accepts, trace=True), [('runs', (0, 0), (0, 0)), source, ('runs', (1, 0), (1, 0))])
        self.assertIsNone(self.steps({'publishDiagnostics': {'relatedInformation': False}}, trace=True))
        self.assertIsNone(self.steps({}, trace=True))

    def test_bad_rule_that_is_mended(self):
        self.put('.semscan/rules.yaml', RULES + BAD_RULE)
        editor = self.editor()
        editor.begin()
        self.assertEqual(editor.message('empty: a key is missing')['type'], 2)
        editor.open('a.py', 'eval(x)\n')
        editor.diagnostics('a.py', 1)
        self.put('.semscan/rules.yaml', RULES.replace('eval', 'exec'))
        editor.notify('textDocument/didSave', textDocument={'uri': editor.uri('.semscan/rules.yaml')})
        editor.diagnostics('a.py', 0)
        self.put('.semscan/rules.yaml', RULES + BAD_RULE)
        editor.notify('workspace/didChangeWatchedFiles', changes=[{'uri': editor.uri('.semscan/rules.yaml'), 'type': 2}])
        editor.message('empty: a key is missing')
        editor.diagnostics('a.py', 1)

    def test_editor_that_watches_nothing(self):
        """It tells only what is saved in it, as Neovim 0.7 does of files of code: then files and rules are read anew."""
        self.put('b.py', 'x = 1\n')
        editor = self.editor()
        editor.begin({'textDocument': {'codeAction': {}}})
        editor.open('a.py', 'eval(x); exec(x)\n')
        self.assertEqual(editor.diagnostics('a.py', 1), [('no-eval', (0, 0), (0, 7))])
        self.put('b.py', 'exec(x)\n')
        self.put('.semscan/rules.yaml', RULES.replace('eval', 'exec'))
        editor.notify('textDocument/didSave', textDocument={'uri': editor.uri('a.py')})
        self.assertEqual(editor.diagnostics('b.py', 1), [('no-exec', (0, 0), (0, 7))])
        self.assertEqual(editor.shown[editor.uri('a.py')][0]['code'], 'no-exec')

    def test_notices_are_told_once(self):
        self.put('bad.py', 'def def\n')
        editor = self.editor()
        editor.begin()
        editor.message("bad.py: it can't be parsed in its language", 'window/logMessage')
        for version, text in enumerate(('eval(x)\n', 'y = 1\n', 'eval(x)\n'), 2):
            editor.open('a.py', text, version)
            editor.diagnostics('a.py', text.count('eval'))
        self.assertFalse([message for message in editor.said if 'bad.py' in str(message)])

    def test_files_that_change_outside_of_the_editor(self):
        editor = self.editor()
        editor.begin()
        editor.wait(lambda message: message.get('method') == 'client/registerCapability', 'registration')
        self.put('lib/b.py', '\n\u00e9; eval(x)\n')
        self.put('lib/c.py', 'eval(x)\n')
        editor.notify('workspace/didChangeWatchedFiles', changes=[{'uri': editor.uri('lib'), 'type': 1}])
        self.assertEqual(editor.diagnostics('lib/b.py', 1), [('no-eval', (1, 3), (1, 10))])
        editor.open('lib/c.py', 'eval(x); eval(x)\n')
        editor.diagnostics('lib/c.py', 2)
        shutil.rmtree(os.path.join(self.folder, 'lib'))
        editor.notify('workspace/didChangeWatchedFiles', changes=[{'uri': editor.uri('lib/b.py'), 'type': 3}, {'uri': editor.uri('lib/c.py'), 'type': 3}])
        editor.diagnostics('lib/b.py', 0)
        editor.open('a.py', 'eval(x)\n')
        editor.diagnostics('a.py', 1)
        self.assertEqual(len(editor.shown[editor.uri('lib/c.py')]), 2)

    def test_files_that_are_left_alone(self):
        outside = os.path.join(os.path.dirname(self.folder), 'out.py')
        os.symlink(os.path.join(self.folder, 'a.py'), os.path.join(self.folder, 'link.py'))
        editor = self.editor()
        editor.begin()
        for path in (outside, 'link.py', '.hidden/a.py', 'a.js'):
            editor.open(path, 'eval(x)\n')
        editor.notify('textDocument/didOpen', textDocument={'uri': 'untitled:1', 'languageId': 'python', 'version': 1, 'text': 'eval(x)\n'})
        editor.open('a.py', 'eval(x)\n')
        editor.diagnostics('a.py', 1)
        self.assertEqual(editor.actions('link.py', 0), [])
        self.assertEqual(list(editor.shown), [editor.uri('a.py')])

    def test_settings(self):
        self.put('other.yaml', RULES.replace('eval\\(', 'exec\\('))
        self.put('src/b.py', 'exec(x); eval(x)\n')
        self.put('lib/b.py', 'exec(x)\n')
        editor = self.editor()
        editor.begin(initializationOptions={'config': 'other.yaml', 'paths': ['src'], 'colour': 1})
        editor.message('there is no setting')
        self.assertEqual(editor.diagnostics('src/b.py', 1), [('no-eval', (0, 0), (0, 7))])
        editor.notify('workspace/didChangeConfiguration', settings={'semscan': {'config': ['.semscan/rules.yaml'], 'paths': ['lib', './src/']}})
        self.assertEqual(editor.diagnostics('src/b.py', 1), [('no-eval', (0, 9), (0, 16))])
        editor.notify('workspace/didChangeConfiguration', settings={'semscan': {'config': ['none.yaml']}})
        editor.message("none.yaml can't be read")
        editor.diagnostics('src/b.py', 0)
        self.assertNotIn(editor.uri('lib/b.py'), editor.shown)

    def test_too_many_findings(self):
        editor = self.editor('--max', '1')
        editor.begin()
        editor.open('a.py', 'eval(x)\n')
        editor.diagnostics('a.py', 1)
        editor.open('a.py', 'eval(x)\neval(x)\n', 2)
        editor.message('there are more than 1 findings')

    def test_folder_over_a_limit(self):
        for number in range(10_001):
            self.put('many/f%d.txt' % number, '')
        editor = self.editor()
        editor.begin()
        editor.message('over limit 10001; of the files under . only those that are open')
        editor.open('a.py', 'eval(x)\n')
        editor.diagnostics('a.py', 1)
        editor.close('a.py')
        editor.diagnostics('a.py', 0)

    def test_many_edits(self):
        """Edits by ranges give the text that the editor has, whatever characters stand in it."""
        editor = self.editor()
        editor.begin()
        text = '\u00e9\U0001f600 = 1\r\ny = "\u6f22"\r\n' * 3
        editor.open('a.py', text)
        for version in range(2, 30):
            lines = text.split('\r\n')
            line = version % len(lines)
            column = version * 7 % (len(lines[line]) + 1)
            character = len(lines[line][:column].encode('utf-16-le')) // 2
            place = {'line': line, 'character': character}
            new = ['\U0001f600', 'eval(x)', '\r\n', '\u00e9'][version % 4]
            editor.change('a.py', version, {'range': {'start': place, 'end': place}, 'text': new})
            lines[line] = lines[line][:column] + new + lines[line][column:]
            text = '\r\n'.join(lines)
        found = editor.diagnostics('a.py', text.count('eval(x)'))
        places = [(line, len(words[:words.index('eval(x)')].encode('utf-16-le')) // 2)
                  for line, words in enumerate(text.split('\r\n')) if words.count('eval(x)') == 1]
        self.assertTrue(places and set(places) <= {start for _, start, _ in found})

    def test_events_in_any_order(self):
        """After random events the editor shows what a scan of the last texts finds."""
        chance = random.Random(3)
        editor = self.editor('--debounce', '0')
        editor.begin()
        paths, texts, opened = ['a.py', 'b.py', 'lib/c.py', 'lib/d.py'], {'a.py': 'x = 1\n'}, {}
        for version in range(1, 80):
            path, text = chance.choice(paths), chance.choice(['eval(x)\n', '\u00e9; print; eval(x)\n', 'x = 1\n', '\n']) * chance.randrange(4)
            event = chance.choice(['open', 'change', 'close', 'write', 'remove'])
            if event in ('open', 'change') and path in opened:
                editor.change(path, version, {'text': text})
                opened[path] = text
            elif event in ('open', 'change'):
                editor.open(path, text, version)
                opened[path] = text
            elif event == 'close' and path in opened:
                editor.close(path)
                del opened[path]
            elif event in ('write', 'remove'):
                self.outside(editor, texts, path, text if event == 'write' else None)
            time.sleep(chance.choice([0, 0, 0.05]))
        editor.open('z.py', 'eval(x)\n')
        expected = {path: count for path, text in {**texts, **opened, 'z.py': 'eval(x)'}.items() if (count := text.count('eval') + text.count('print'))}
        for _ in range(200):
            shown = {path.removeprefix(editor.uri('')): len(found) for path, found in editor.shown.items() if found}
            if shown == expected:
                break
            editor.take(0.1)
        self.assertEqual(shown, expected)

    def outside(self, editor, texts, path, text):
        """Writes or removes a file behind the editor's back, and lets the editor tell that it changed."""
        if text is not None:
            self.put(path, text)
            texts[path] = text
        elif path in texts:
            os.remove(os.path.join(self.folder, path))
            del texts[path]
        editor.notify('workspace/didChangeWatchedFiles', changes=[{'uri': editor.uri(path), 'type': 2}])


class OverTheFake(Conversations, InFolder):
    """With the fake, which can also be made to fail."""

    def steering(self, *names):
        room = os.path.join(os.path.dirname(self.folder), 'steer')
        os.makedirs(room, exist_ok=True)
        for name in names:
            with open(os.path.join(room, name), 'w', encoding='utf-8'):
                pass
        return room

    def commands(self, room):
        return get(room, 'log').decode().splitlines()

    def test_program_that_dies_once(self):
        self.put('.semscan/rules.yaml', RULES + BAD_RULE)
        editor = self.editor(FAKE=self.steering('die'))
        editor.begin()
        editor.message('empty: a key is missing')
        editor.open('a.py', 'eval(x)\n')
        self.assertEqual(editor.message('status 3 at scan: out of memory')['type'], 1)
        editor.diagnostics('a.py', 1)
        self.steering('die')
        editor.change('a.py', 2, {'text': 'eval(x); eval(x)\n'})
        editor.message('status 3 at scan')
        editor.diagnostics('a.py', 2)
        self.assertFalse([message for message in editor.said if 'a key is missing' in str(message)])

    def test_program_that_dies_again_and_again(self):
        """It is started at once, then after 1, 2, 4 and more seconds, and told once: n starts take at least 2 ** (n - 2) - 1 seconds."""
        room = self.steering('die always')
        editor = self.editor(FAKE=room)
        began = time.monotonic()
        editor.begin()
        editor.message('status 3 at scan')
        editor.open('a.py', 'eval(x)\n')
        tries = 0
        while tries < 4 and time.monotonic() < began + PATIENCE:
            time.sleep(0.1)
            tries = self.commands(room).count('scan ')
        self.assertGreaterEqual(tries, 4)
        self.assertGreaterEqual(time.monotonic() - began, 2 ** (tries - 2) - 1)
        os.remove(os.path.join(room, 'die always'))
        editor.diagnostics('a.py', 1)
        self.assertFalse([message for message in editor.said if message.get('method') == 'window/showMessage'])

    def test_only_what_changed_is_told(self):
        room = self.steering()
        editor = self.editor(FAKE=room)
        editor.begin()
        editor.open('a.py', 'eval(x)\n')
        editor.diagnostics('a.py', 1)
        first = self.commands(room)
        self.assertEqual(first[:2], ['sync .', 'rule .semscan/rules.yaml'])
        editor.change('a.py', 2, {'text': 'eval(x); eval(x)\n'})
        editor.diagnostics('a.py', 2)
        editor.close('a.py')
        editor.diagnostics('a.py', 0)
        self.assertEqual(self.commands(room)[len(first):], ['put a.py', 'scan ', 'sync a.py', 'scan '])

    def test_changes_are_gathered(self):
        room = self.steering()
        editor = self.editor('--debounce', '1500', FAKE=room)  # longer than a loaded machine takes from change to change
        editor.begin()
        editor.open('a.py', 'eval(x)\n')
        editor.diagnostics('a.py', 1)
        before = self.commands(room).count('scan ')
        for version in range(2, 12):
            editor.change('a.py', version, {'text': 'eval(x)\n' * version})
        self.assertEqual(len(editor.diagnostics('a.py', 11)), 11)
        self.assertEqual(self.commands(room).count('scan '), before + 1)

    def test_too_many_findings_are_told_once(self):
        """While one types on, and again once there were few enough."""
        room = self.steering()
        editor = self.editor('--max', '1', FAKE=room)
        editor.begin()
        editor.open('a.py', 'eval(x)\neval(x)\n')
        editor.message('there are more than 1 findings')
        before = self.commands(room).count('scan ')
        editor.change('a.py', 2, {'text': 'eval(x)\n' * 3})
        for _ in range(600):
            if self.commands(room).count('scan ') > before:
                break
            time.sleep(0.05)
        editor.change('a.py', 3, {'text': 'eval(x)\n'})
        editor.diagnostics('a.py', 1)
        self.assertFalse([message for message in editor.said if 'more than' in str(message)])
        editor.change('a.py', 4, {'text': 'eval(x)\n' * 2})
        editor.message('there are more than 1 findings')

    def test_stream_that_is_full(self):
        """A session's stream has a greatest length. Where it is reached, a new session goes on, and nobody notices."""
        room, shown, said = self.steering(), queue.Queue(), []
        keeper = Keeper(self.folder, lambda wanted, changed, value: shown.put(value), lambda level, words: said.append(words))
        with mock.patch.object(session_wire, 'MOST_OF_A_STREAM', 40_000), \
                mock.patch.dict(os.environ, {'SEMSCAN': FAKE, 'FAKE': room, 'FAKE_STREAM': '40000'}):
            keeper.configure(Settings(debounce=0))
            keeper.start()
            shown.get(timeout=20)
            for version in range(10):
                text = '#' * 9_000 + '\n' + 'print\n' * version
                keeper.put('a.py', Document('file:///a.py', version, Text(text.encode())))
                self.assertEqual(len(shown.get(timeout=20)['results']), version)
            keeper.stop()
        self.assertEqual(said, [])
        self.assertTrue(3 <= self.commands(room).count('sync .') <= 5, self.commands(room))

    def test_file_that_puts_the_session_over_a_limit(self):
        editor = self.editor()
        self.put('more.yaml', 'rules:\n' + RULES[7:].replace('no-', 'more-') + '- id: x\n' * 1_000)
        editor.begin(initializationOptions={'config': ['.semscan/rules.yaml', 'more.yaml']})
        editor.message('more.yaml is left out')
        editor.open('a.py', 'eval(x)\n')
        editor.diagnostics('a.py', 1)


class OverTheProgram(Conversations, InFolder):
    """With the real program."""

    program = PROGRAM

    def setUp(self):
        if NO_SESSION:
            self.skipTest(NO_SESSION)
        super().setUp()


class TheProtocol(InFolder):
    """What holds of messages whatever the program does."""

    def setUp(self):
        super().setUp()
        self.folder = os.path.realpath(self.folder)
        self.put('semscan.yaml', RULES)
        self.server = Editor(self.folder, FAKE)
        self.addCleanup(self.server.release)

    def test_order_of_messages(self):
        self.assertEqual(self.server.request('textDocument/codeAction')['error']['code'], -32002)
        self.server.notify('textDocument/didOpen')
        self.server.begin()
        self.assertEqual(self.server.request('initialize')['error']['code'], -32600)
        self.assertEqual(self.server.request('textDocument/hover')['error']['code'], -32601)
        self.assertEqual(self.server.request('textDocument/codeAction')['error']['code'], -32602)
        self.server.notify('$/setTrace', value='off')
        self.server.notify('textDocument/didOpen', textDocument={'uri': 7})
        self.server.raw(b'Content-Length: 2\r\n\r\n{]')
        self.assertEqual(self.server.wait(lambda message: 'error' in message, 'refusal')['error']['code'], -32700)
        self.assertIsNone(self.server.request('shutdown')['result'])
        self.assertEqual(self.server.request('textDocument/codeAction')['error']['code'], -32600)
        self.server.notify('exit')
        self.assertEqual(self.server.process.wait(20), 0)

    def test_editor_that_goes_away(self):
        self.server.begin()
        self.server.process.stdin.close()
        self.assertEqual(self.server.process.wait(20), 1)

    def test_what_is_no_frame(self):
        self.server.raw(b'Hello\r\n\r\n')
        self.assertEqual(self.server.process.wait(20), 1)
        self.assertNotIn('Traceback', ''.join(self.server.errors))

    def test_person_that_starts_it(self):
        ours, theirs = pty.openpty()
        self.addCleanup(os.close, ours)
        found = subprocess.run([sys.executable, os.path.join(INTEGRATIONS, 'semscan-lsp')], stdin=theirs, capture_output=True, check=False, timeout=60)
        os.close(theirs)
        self.ends(found, 2, b'semscan-lsp: editors start this program')

    def test_names_of_rule_files(self):
        put(os.path.dirname(self.folder), 'outside.yaml', RULES)
        names = [os.fsencode(self.folder) + name for name in (b'/rules/a\n.yaml', b'/rules/\xff.yaml', b'/rules/b.yml', b'/rules/c.txt')]
        os.mkdir(os.path.join(self.folder, 'rules'))
        for name in names:
            with open(name, 'wb') as file:
                file.write(RULES.encode())
        found = read_rules([os.path.join(self.folder, 'rules'), os.path.join(os.path.dirname(self.folder), 'outside.yaml'), '/none.yaml'], self.folder)
        self.assertEqual(list(found.files), ['rules/b.yml', os.path.dirname(self.folder)[1:] + '/outside.yaml'])
        self.assertEqual(len(found.faults), 3)

    def test_no_folder(self):
        self.server.begin(rootUri=None)
        self.server.message('the editor named no folder')
        self.server.open('a.py', 'eval(x)\n')
        self.assertEqual(self.server.end(), 0)
        self.assertEqual(self.server.shown, {})

    def test_no_program(self):
        editor = Editor(self.folder, '/nowhere/semscan')
        self.addCleanup(editor.release)
        editor.begin()
        editor.message('there is no built program at /nowhere/semscan')
        self.assertEqual(editor.end(), 0)


class InEditors(InFolder):
    """Real editors without a screen, with the settings of integrations/editors."""

    def tries(self, program, settings, *words):
        """What an editor saw."""
        self.put('.semscan/rules.yaml', RULES)
        self.put('a.py', 'eval(x)\n')
        self.put('../out.py', 'eval(x)\n')
        self.put('in here/b.h', 'eval(x)\n')
        seen = os.path.join(os.path.dirname(self.folder), 'seen')
        variables = {**os.environ, 'SEMSCAN': program, 'PATH': INTEGRATIONS + ':' + os.environ['PATH'], 'SEEN': seen,
                     'SETTINGS': os.path.join(INTEGRATIONS, 'editors', settings), 'HOME': self.folder,
                     'XDG_STATE_HOME': self.folder, 'XDG_CACHE_HOME': self.folder}
        ran = subprocess.run(words, cwd=self.folder, env=variables, stdin=subprocess.DEVNULL, capture_output=True, check=False, timeout=120)
        self.assertTrue(os.path.exists(seen), ran.stderr)
        return get(os.path.dirname(seen), 'seen').decode().splitlines()

    def neovim(self, program):
        found = self.tries(program, 'semscan.lua', 'nvim', '--clean', '--headless', '-n', '-S', os.path.join(TESTS, 'nvim_lsp.lua'))
        self.assertEqual(found, [
            '0 servers', 'no-eval 1:0-1:7',
            'no-eval 0:0-0:7', 'no-eval 0:0-0:7 no-eval 1:14-1:21', 'Fix all findings of semscan in this file (2)', '',
            'parse(x)|s = "\U0001f600\u00e9"; parse(x)', 'true'])

    def emacs(self, program):
        found = self.tries(program, 'semscan.el', 'emacs', '--batch', '-l', os.path.join(TESTS, 'eglot_lsp.el'))
        text = 'semscan [no-eval]: eval runs text.'
        self.assertEqual(found, [
            'server for a.py', '001-008 ' + text, '001-008 %s 019-026 %s' % (text, text), 'Fix all findings of semscan in this file (2)', '',
            'parse(x)|s = "\U0001f600\u00e9"; parse(x)|'])

    def test_settings_of_vs_code(self):
        """The extension offers all settings that the server takes, with the same defaults, and hands them on."""
        room = os.path.join(INTEGRATIONS, 'editors', 'vscode')
        package = json.loads(get(room, 'package.json'))
        self.assertIn('onLanguage:cpp', package['activationEvents'])  # what VS Code takes a header file for
        properties = package['contributes']['configuration']['properties']
        self.assertEqual(properties.pop('semscan.command')['default'], 'semscan-lsp')
        defaults = {name.removeprefix('semscan.'): property['default'] for name, property in properties.items()}
        self.assertEqual(set(defaults), set(SHAPES))
        self.assertEqual(with_values(Settings(), defaults), (Settings(), []))
        names, = re.findall(r'^const NAMES = \[(.*)\];$', get(room, 'extension.js').decode(), re.MULTILINE)
        self.assertEqual({name.strip(" '") for name in names.split(',')}, set(SHAPES))

    def test_files_that_editors_hand_over(self):
        """Those with the endings that a scan takes, whatever language the editor takes them for."""
        for name in ('semscan.lua', 'vscode/extension.js'):
            endings, = re.findall(r"\*\.\{(.*)\}'", get(os.path.join(INTEGRATIONS, 'editors'), name).decode())
            self.assertEqual(tuple('.' + ending for ending in endings.split(',')), ENDINGS, name)

    @needs_neovim
    def test_neovim_over_the_fake(self):
        self.neovim(FAKE)

    @needs_neovim
    @unittest.skipIf(NO_SESSION, NO_SESSION)
    def test_neovim_over_the_program(self):
        self.neovim(PROGRAM)

    @needs_emacs
    def test_emacs_over_the_fake(self):
        self.emacs(FAKE)

    @needs_emacs
    @unittest.skipIf(NO_SESSION, NO_SESSION)
    def test_emacs_over_the_program(self):
        self.emacs(PROGRAM)
