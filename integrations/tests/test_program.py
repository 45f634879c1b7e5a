"""The built program: its statuses with their lines on standard error, over real folders, pipes and devices."""
import json
import os
import resource
import subprocess

from .support import PROGRAM, InFolder, get, line, needs_program, result

RULE = 'rules:\n- id: r\n  languages: [python]\n  severity: ERROR\n  message: m\n  pattern: f($X)\n'
CALL = b'f(1)\n'
NOBODY = 65534
MOST_OF_A_STREAM = 268_435_456


@needs_program
class Statuses(InFolder):
    """Runs in a folder with a rule and a file in which it finds a call."""

    def setUp(self):
        super().setUp()
        self.put('r.yaml', RULE)
        self.put('a.py', CALL)

    def run_program(self, *words, **how):
        how = {'stdout': subprocess.PIPE, 'stderr': subprocess.PIPE, **({} if 'stdin' in how else {'input': b''}), **how}
        return subprocess.run([PROGRAM, *words], cwd=self.folder, check=False, timeout=100, **how)

    def said(self, status, said, *words, **how):
        """What a run prints that ends with this status and says this on standard error."""
        found = self.run_program(*words, **how)
        self.assertEqual((found.returncode, found.stderr), (status, said), words)
        return found.stdout

    def refuses(self, status, said, *words, **how):
        """Whether a run ends so and prints nothing."""
        self.assertIn(self.said(status, said, *words, **how), (b'', None), words)

    def test_ends_without_a_line(self):
        call = result(CALL, b'f(1)', metavars={'$X': [2, 3]})
        for status, words in ((0, []), (1, ['--error'])):
            self.assertEqual(self.said(status, b'', 'scan', *words, '--config', 'r.yaml', 'a.py'), line([call]))
        self.assertEqual(self.said(0, b'', 'match', 'json', '1', input=b'[1,{"a":1}]'), b'1..2\n8..9\n')

    def test_words_outside_the_table(self):
        for words in ([], ['scan'], ['drill', '0'], ['match', 'json'], ['scan', '--max', '50001', '--config', 'r.yaml', '.']):
            self.refuses(2, b'semscan: usage\n', *words)

    def test_a_word_that_is_no_utf_8(self):
        for words in ([b'\xff'], [b'scan', b'--config', b'r.yaml', b'\xff'], [b'match', b'json', b'"\xff"']):
            self.refuses(2, b'semscan: usage\n', *words)

    def test_want_of_memory(self):
        """With more and more memory there is enough for the line on standard error before there is enough for the run. What was
        printed then is whole lines, the first of those that are printed with enough."""
        puts = b''.join(b'put 1000000 f%d.txt\n%s\n' % (number, b'#' * 1_000_000) for number in range(30))
        stream = b'scan\n%sscan\nend\n' % puts
        whole = [line(), line()]
        statuses = set()
        for megabytes in range(4, 400, 8):
            size = megabytes << 20
            found = self.run_program('session', input=stream, preexec_fn=lambda size=size: resource.setrlimit(resource.RLIMIT_AS, (size, size)))
            lines = found.stdout.splitlines(keepends=True)
            if found.returncode == 0:
                break
            if found.returncode == 3 or statuses:
                statuses.add(found.returncode)
                self.assertEqual((found.returncode, found.stderr), (3, b'semscan: out of memory\n'), size)
                self.assertEqual(lines, whole[:len(lines)], size)
        self.assertEqual((statuses, found.returncode, lines), ({3}, 0, whole))

    def test_an_input_that_is_a_folder(self):
        for words in (['match', 'json', '1'], ['check', 'json'], ['session']):
            folder = os.open(self.folder, os.O_RDONLY)
            try:
                self.refuses(4, b'semscan: input failed\n', *words, stdin=folder)
            finally:
                os.close(folder)

    def test_an_output_without_room(self):
        with open('/dev/full', 'wb') as full:
            for words, given in ((['match', 'json', '1'], b'1'), (['check', 'json'], b'1'), (['session'], b'scan\nend\n'), (['drill', '1'], b''),
                                 (['scan', '--config', 'r.yaml', '.'], b''), (['fix', '--config', 'r.yaml', '.'], b'')):
                self.refuses(5, b'semscan: output failed\n', *words, input=given, stdout=full)
            # where nothing is printed, nothing fails
            self.refuses(0, b'', 'match', 'json', '2', input=b'1', stdout=full)

    def other_user(self):
        """The user of a run for whom modes count: this one, or another one where this one is root."""
        if os.getuid() != 0:
            return {}
        user = {'user': NOBODY, 'group': NOBODY, 'extra_groups': []}
        for path in (self.folder, os.path.dirname(self.folder)):
            os.chmod(path, 0o755)
        try:
            self.refuses(0, b'', 'match', 'json', '2', input=b'1', **user)
        except PermissionError:
            self.skipTest('needs a built program that other users may run')
        return user

    def test_a_folder_that_may_not_be_read(self):
        user = self.other_user()
        self.put('src/b.py', CALL)
        src = os.path.join(self.folder, 'src')
        for words in (['scan', '--config', 'r.yaml', 'src'], ['scan', '--config', 'r.yaml', '.'], ['fix', '--config', 'r.yaml', 'src']):
            for mode, status, said in ((0o755, 0, b''), (0, 6, b'semscan: folder failed\n')):
                os.chmod(src, mode)
                printed = self.said(status, said, *words, **user)
                self.assertEqual(printed == b'', status == 6)
        os.chmod(src, 0o755)

    def test_files_that_may_not_be_read_or_written(self):
        user = self.other_user()
        self.put('r.yaml', RULE + '  fix: g($X)\n')
        self.put('src/b.py', CALL)
        place = os.path.join(self.folder, 'src', 'b.py')
        os.chmod(place, 0)
        for words in (['scan', '--config', 'r.yaml', 'src'], ['scan', '--config', 'src/b.py', 'a.py']):
            self.refuses(6, b'semscan: folder failed\n', *words, **user)
        os.chmod(place, 0o444)
        os.chmod(os.path.dirname(place), 0o555)
        self.refuses(6, b'semscan: folder failed\n', 'fix', '--config', 'r.yaml', 'src', **user)
        os.chmod(os.path.dirname(place), 0o755)
        self.assertEqual(get(self.folder, 'src/b.py'), CALL)

    def test_bad_commands(self):
        self.refuses(7, b'semscan: bad command at 0\n', 'session', input=b'scam\n')
        self.refuses(7, b'semscan: bad command at 0\n', 'session')
        self.assertEqual(self.said(7, b'semscan: bad command at 5\n', 'session', input=b'scan\nput 10 a.py\nabc'), line())

    def test_limits_passed(self):
        self.refuses(8, b'semscan: over limit 1000001\n', 'match', 'json', '1', input=b' ' * 1_000_001)
        self.refuses(8, b'semscan: over limit 1000001\n', 'check', 'json', input=b' ' * 2_000_000)
        self.put('long.yaml', b'#' * 262_145)
        self.refuses(8, b'semscan: over limit 262145\n', 'scan', '--config', 'long.yaml', 'a.py')

    def stream(self, size, end):
        """A file that is a stream: a put that takes so many bytes, and then these. What is put is a hole of the file."""
        head = b'put %d a.txt\n' % (size - 21)
        self.assertEqual(len(head), 20)
        place = os.path.join(self.folder, 'stream')
        with open(place, 'wb') as file:
            file.write(head)
            file.seek(size - 1)
            file.write(b'\n' + end)
        return open(place, 'rb')

    def test_how_long_a_stream_may_be(self):
        most = MOST_OF_A_STREAM
        for size, end, status, said in ((most - 4, b'end\n', 0, b''), (most - 3, b'end\n', 8, b'semscan: over limit 268435457\n'),
                                        (most, b'end\n', 8, b'semscan: over limit 268435457\n'), (most + 1, b'', 8, b'semscan: over limit 268435457\n'),
                                        (most, b'', 7, b'semscan: bad command at 268435456\n'), (most, b'en', 7, b'semscan: bad command at 268435456\n')):
            with self.stream(size, end) as stream:
                self.refuses(status, said, 'session', stdin=stream)

    def test_more_than_may_be_found(self):
        self.refuses(9, b'semscan: more than 0\n', 'scan', '--max', '0', '--config', 'r.yaml', '.')
        self.refuses(9, b'semscan: more than 10000\n', 'match', 'json', '0', input=b'[0%s]' % (b',0' * 10_000))

    def test_how_much_may_be_found(self):
        """At most 50,000 findings, of which a rule may have 10,000 in a file."""
        for number in range(5):
            self.put('src/f%d.py' % number, CALL * 10_000)
        printed = json.loads(self.said(0, b'', 'scan', '--config', 'r.yaml', 'src'))
        self.assertEqual((len(printed['results']), printed['notices']), (50_000, []))
        self.put('src/g.py', CALL)
        self.refuses(9, b'semscan: more than 50000\n', 'scan', '--config', 'r.yaml', 'src')

    def test_how_many_bytes_fixed_files_may_have(self):
        """The files of a session have 33,554,432 bytes together. A fix that is as long as what was there is taken, a longer one isn't."""
        puts = [(b'f%d.txt' % number, b'#' * 1_000_000) for number in range(33)] + [(b'f33.txt', b'#' * 554_427), (b'a.py', b'f(2)\n')]
        files = b''.join(b'put %d %s\n%s\n' % (len(whole), path, whole) for path, whole in puts)
        self.assertEqual(sum(len(whole) for _, whole in puts), 33_554_432)
        for fix, status, said in (('g($X)', 0, b''), ('gg($X)', 8, b'semscan: over limit 33554433\n')):
            rules = (RULE + '  fix: %s\n' % fix).encode()
            stream = files + b'rule %d r.yaml\n%s\nfix\nend\n' % (len(rules), rules)
            printed = self.said(status, said, 'session', input=stream)
            fixed = [json.loads(each)['fixed'] for each in printed.splitlines()]
            self.assertEqual(fixed, [[{'path': 'a.py', 'ranges': [[0, 4, 'g(2)']]}]] if status == 0 else [])

    def test_paths_that_lead_nowhere(self):
        for config in ('no.yaml', 'no/r.yaml', 'a.py/r.yaml'):
            for words in (['scan'], ['fix', '--dryrun']):
                self.refuses(10, b'semscan: no config\n', *words, '--config', config, '.')
        for prefix in ('no', 'no/a.py', 'a.py/b.py'):
            self.assertEqual(self.said(0, b'', 'scan', '--config', 'r.yaml', prefix), line())

    def test_inputs_without_a_tree(self):
        for words, given in ((['match', 'json', '1'], b''), (['match', 'json', '1'], b'\xff'), (['match', 'c', '1'], b'int main( {'), (['check', 'json'], b'\xff')):
            self.refuses(11, b'semscan: no tree\n', *words, input=given)

    def test_patterns_that_are_none(self):
        for lang, pattern in (('python', 'foo('), ('json', '...'), ('python', '$...A + 1')):
            self.refuses(12, b'semscan: no pattern\n', 'match', lang, pattern, input=b'1')

    def test_a_line_that_cannot_be_written(self):
        """The status is the same."""
        with open('/dev/full', 'wb') as full:
            for status, words in ((2, []), (10, ['scan', '--config', 'no.yaml', '.']), (12, ['match', 'json', '...'])):
                self.assertEqual(self.run_program(*words, stderr=full).returncode, status)
