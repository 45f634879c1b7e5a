"""The script ./semscan where there is no built program: it builds one first, or ends with 70."""
import os
import shutil
import subprocess

from .support import TOP, InFolder, get, put

# A kit that makes the program, unless it is given more than the program needs, and one that fails.
PROVES = '''#!/bin/sh
[ "$*" = ci ] && [ -e crates/low/src/lib.rt ] || exit 3
[ -e crates/beside ] || [ -e crates/low/must-fail ] || [ -e crates/low/out ] && exit 3
mkdir crates/semscan/out
printf '#!/bin/sh\\necho "ran: $*"\\nexit 5\\n' > crates/semscan/out/semscan
chmod +x crates/semscan/out/semscan
'''
FAILS = '#!/bin/sh\necho "said by rt $1"\nexit 3\n'


class Build(InFolder):
    """A copy of the script in a folder of its own, with crates of which the program needs one, and a kit that proves nothing."""

    def setUp(self):
        super().setUp()
        self.top = os.path.join(os.path.dirname(os.path.realpath(self.folder)), 'top')
        put(self.top, 'crates.txt', 'low:\nbeside: low\nsemscan backend=rattle: low\n')
        put(self.top, 'HANDLES', 'Handles allowed: none.\n')
        for path in ('low/src/lib.rt', 'low/must-fail/wrong.edit', 'low/out/old', 'beside/src/lib.rt', 'semscan/src/main.rt'):
            put(self.top, 'crates/' + path, '')
        shutil.copy(os.path.join(TOP, 'semscan'), self.top)

    def script(self, kit):
        """A run of the script with this kit, and what it said. It says it to files, since what it leaves behind may hold them open."""
        tools = os.path.join(self.folder, 'bin')
        put(tools, 'rt', kit)
        os.chmod(os.path.join(tools, 'rt'), 0o755)
        environment = {**os.environ, 'PATH': tools + os.pathsep + os.environ['PATH'], 'TMPDIR': self.folder}
        with open(os.path.join(self.folder, 'out'), 'wb') as out, open(os.path.join(self.folder, 'err'), 'wb') as err:
            ended = subprocess.run([os.path.join(self.top, 'semscan'), 'check', 'json'], cwd=self.folder, stdin=subprocess.DEVNULL,
                                   stdout=out, stderr=err, env=environment, check=False, timeout=60)
        return ended.returncode, get(self.folder, 'out'), get(self.folder, 'err')

    def test_a_build_that_fails(self):
        """What the kit said stands before the last line, which names the file that has all of it. Nothing counts as built."""
        for _ in range(2):
            status, printed, said = self.script(FAILS)
            self.assertEqual((status, printed), (70, b''), said)
            self.assertRegex(said, rb'\nsaid by rt ci\nsemscan: the program was not built; all that was said stands in \S+\n$')
            self.assertEqual(get(self.folder, said.split()[-1].decode()), b'said by rt ci\n')

    def test_a_build_that_does_not(self):
        """The status is that of the program then, which isn't built again."""
        for said_first in (True, False):
            status, printed, said = self.script(PROVES)
            self.assertEqual((status, printed), (5, b'ran: check json\n'), said)
            self.assertEqual(b'proving and building' in said, said_first)
