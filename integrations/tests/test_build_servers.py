"""The files for build servers: what their jobs run, run here, over the built program or else over the stand-in."""
import os
import re
import shutil
import stat
import subprocess
import unittest

from .support import INTEGRATIONS, NO_PROGRAM, PROGRAM, TESTS, InFolder, get

FOLDER = os.path.join(INTEGRATIONS, 'build-servers')
RULES = 'rules:\n- id: no-eval\n  languages: [regex]\n  severity: ERROR\n  message: eval runs text (CWE-95).\n  pattern-regex: eval\\(x\\)\n'


def scripts_of(text):
    """The block scalars of a file, in order: what its steps run."""
    found, lines = [], text.split('\n')
    for at, words in enumerate(lines):
        if words.rstrip().endswith('|'):
            inner = re.match(' *', lines[at + 1])[0]
            taken = []
            for line in lines[at + 1:]:
                if line.strip() and not line.startswith(inner):
                    break
                taken.append(line[len(inner):])
            found.append('\n'.join(taken))
    return found


class Jobs(InFolder):
    """A project with .semscan in it, and what the jobs do there."""

    def setUp(self):
        super().setUp()
        os.mkdir(os.path.join(self.folder, '.semscan'))
        os.symlink(INTEGRATIONS, os.path.join(self.folder, '.semscan/integrations'))
        shutil.copy(os.path.join(TESTS, 'fake_semscan.py') if NO_PROGRAM else PROGRAM, os.path.join(self.folder, '.semscan/semscan'))
        self.put('.semscan/rules.yaml', RULES)
        self.put('src/a.py', 'parse(x)\n')

    def bash(self, script, **environment):
        return subprocess.run(['bash', '-e', '-c', script], cwd=self.folder, capture_output=True, check=False,
                              env={**os.environ, 'SEMSCAN': '.semscan/semscan', **environment})

    def gitlab(self, **environment):
        with open(os.path.join(FOLDER, 'gitlab-semscan.yml'), encoding='utf-8') as file:
            script, = scripts_of(file.read())
        return self.bash(script.replace('/tmp/semscan.json', '"$PWD/../semscan.json"'), **environment)

    def github(self, **environment):
        """The steps of the job: what they said, and the status of the last."""
        with open(os.path.join(FOLDER, 'github-semscan.yml'), encoding='utf-8') as file:
            first, write, last = scripts_of(file.read())
        room = os.path.dirname(self.folder)
        output = os.path.join(room, 'output')
        ran = self.bash(first, RUNNER_TEMP=room, GITHUB_OUTPUT=output, **environment)
        status = get(room, 'output').decode().strip().removeprefix('status=')
        os.remove(output)
        if status in ('0', '1'):
            written = self.bash(write, RUNNER_TEMP=room)
            self.assertEqual((written.returncode, written.stderr), (0, b''))
        end = self.bash(last.replace('${{ steps.scan.outputs.status }}', status))
        return ran.stdout, end.returncode

    def test_gitlab(self):
        self.assertEqual(self.gitlab().returncode, 0)
        self.put('src/a.py', 'eval(x)\n')
        found = self.gitlab()
        self.assertEqual((found.returncode, b'semscan: there are findings' in found.stdout), (1, True))
        self.assertIn(b'"value": "no-eval"', get(self.folder, 'gl-sast-report.json'))
        os.remove(os.path.join(self.folder, '.semscan/rules.yaml'))
        found = self.gitlab()
        self.assertEqual((found.returncode, b'the scan failed (status 10)' in found.stdout), (10, True))
        self.assertEqual(self.gitlab(SEMSCAN='.semscan/none').returncode, 127)

    def test_github(self):
        self.assertEqual(self.github()[1], 0)
        self.put('src/a.py', 'eval(x)\n')
        said, status = self.github()
        self.assertEqual(status, 1)
        self.assertIn(b'src/a.py:1:1: error: eval runs text (CWE-95). [no-eval]', said)
        self.assertIn(b'::error::semscan: there are findings', said)
        self.assertIn(b'"external/cwe/cwe-095"', get(self.folder, 'semscan.sarif'))
        self.put('.semscan/rules.yaml', RULES + '#' * 262_144)
        said, status = self.github()
        self.assertEqual((status, b'over a limit (status 8)' in said), (8, True))
        said, status = self.github(SEMSCAN='.semscan/none')
        self.assertEqual((status, b'no built program at .semscan/none' in said), (127, True))

    @unittest.skipUnless(shutil.which('pre-commit'), "needs pre-commit (Debian's package of this name)")
    def test_pre_commit(self):
        shutil.copy(os.path.join(FOLDER, 'pre-commit-config.yaml'), os.path.join(self.folder, '.pre-commit-config.yaml'))
        self.put('.gitignore', '.semscan\n')
        words = 'git init -q . && git add . && PRE_COMMIT_HOME="$PWD/../cache" pre-commit run --all-files'
        found = self.bash(words)
        self.assertEqual((found.returncode, b'Passed' in found.stdout), (0, True), found.stdout + found.stderr)
        self.put('src/a.py', 'eval(x)\n')
        found = self.bash('git add . && PRE_COMMIT_HOME="$PWD/../cache" pre-commit run')
        self.assertEqual(found.returncode, 1)
        self.assertIn(b'- exit code: 1', found.stdout)
        self.assertIn(b'src/a.py:1:1: error:', found.stdout)

    def test_programs_can_be_run(self):
        for name in ('semscan-report', 'semscan-shards', 'semscan-rules', 'semscan-lsp', 'semscan-fix', 'test.py'):
            self.assertTrue(os.stat(os.path.join(INTEGRATIONS, name)).st_mode & stat.S_IXUSR, name)
