"""The script ./semscan: how it says that a path must be written, before it runs or builds anything. And the merge gate, .ci/run."""
import os
import shutil
import subprocess
import time

from .support import TOP, InFolder, get


class Script(InFolder):
    """A copy of the script beside a program that prints its words. The program counts as built, so nothing is proved here."""

    def setUp(self):
        super().setUp()
        self.folder = os.path.realpath(self.folder)
        self.top = os.path.join(os.path.dirname(self.folder), 'top')
        for path, content in (('crates.txt', ''), ('crates/semscan/out/semscan', '#!/bin/sh\necho "ran: $*"\n'), ('crates/semscan/out/semscan.built', '')):
            place = os.path.join(self.top, path)
            os.makedirs(os.path.dirname(place), exist_ok=True)
            with open(place, 'w', encoding='utf-8') as file:
                file.write(content)
        os.chmod(os.path.join(self.top, 'crates/semscan/out/semscan'), 0o755)
        os.utime(os.path.join(self.top, 'crates/semscan/out/semscan.built'), (time.time() + 60,) * 2)
        shutil.copy(os.path.join(TOP, 'semscan'), self.top)

    def script(self, *words):
        return subprocess.run([os.path.join(self.top, 'semscan'), *words], cwd=self.folder, stdin=subprocess.DEVNULL,
                              capture_output=True, check=False, timeout=60)

    def refuses(self, said, *words):
        found = self.script(*words)
        self.ends(found, 2, said)
        self.assertEqual(found.stderr.count(b'\n'), 1, found.stderr)

    def test_how_a_prefix_must_be_written(self):
        for word, said in (('./src', b'write src instead of ./src ('), ('src/', b'write src instead of src/ ('), ('src//a', b'write src/a instead of'),
                           (os.path.join(self.folder, 'src'), b'write src instead of /'), ('./', b'write . instead of ./ ('), ('a/..', b'write . instead of'),
                           ('..', b"isn't below the current folder"), ('/usr', b"isn't below the current folder"), ('', b"'' is no path")):
            self.refuses(said, 'scan', '--config', 'r.yaml', word)
            self.refuses(said, 'fix', '--dryrun', '--config', 'r.yaml', word)

    def test_how_a_rule_file_must_be_written(self):
        self.refuses(b'write r.yaml instead of ./r.yaml', 'scan', '--error', '--config', './r.yaml', 'src')
        self.refuses(b"'.' is no path", 'scan', '--config', '.', 'src')
        self.refuses(b"../r.yaml isn't below the current folder", 'scan', '--config', '../r.yaml', './src')

    def test_how_an_option_must_be_written(self):
        self.refuses(b'write --config r.yaml instead of --config=r.yaml', 'scan', '--config=r.yaml', 'src')
        self.refuses(b'write --max 9 instead of --max=9', 'fix', '--max=9', '--config', 'r.yaml', 'src')

    def test_words_that_are_left_to_the_program(self):
        for words in (['scan', '--max', './9', '--config', 'r.yaml', 'src'], ['scan', '--error', '--config', 'a/b.yaml', '.'], ['scan', '--config', 'r.yaml', 'a b'],
                      ['scan'], ['scan', '--config'], ['scan', '--config', 'r.yaml', '...'], ['scan', '--config', 'r=.yaml', 'a=b'], ['match', 'python', './x'], ['check', './json'], ['session'], []):
            found = self.script(*words)
            self.assertEqual((found.returncode, found.stdout.decode(), found.stderr), (0, 'ran: %s\n' % ' '.join(words), b''))


class Gate(InFolder):
    """A copy of .ci/run beside stand-ins of `rt` and of the tests of this folder."""

    def test_tests_run_after_the_proofs(self):
        """They run whatever came of the proofs, and if they fail, that is said. The status is that of the proofs."""
        self.put('.ci/run', get(TOP, '.ci/run'))
        for proved, held, said in ((0, 0, b''), (0, 1, b'tests of integrations/ or rules/ failed'), (3, 0, b'')):
            self.put('integrations/test.py', 'import sys\nprint("tests", flush=True)\nsys.exit(%d)\n' % held)
            self.put('bin/rt', '#!/bin/sh\necho "rt $*"\nexit %d\n' % proved)
            os.chmod(os.path.join(self.folder, 'bin/rt'), 0o755)
            found = subprocess.run(['bash', '.ci/run'], cwd=self.folder, stdin=subprocess.DEVNULL, capture_output=True, check=False,
                                   env={**os.environ, 'PATH': os.path.join(self.folder, 'bin') + ':' + os.environ['PATH']})
            self.assertEqual((found.returncode, found.stdout), (proved, b'rt ci\ntests\n'))
            self.assertEqual((said in found.stderr, not found.stderr), (True, not said))
