"""semscan-shards: the merged line is that of one scan."""
import os
import random
import signal
import socket
import subprocess
import time
import unittest
from concurrent.futures import Executor, Future

from .support import INTEGRATIONS, PROGRAM, TESTS, TOP, InFolder, line, needs_program, notice, result, run, scan

from semscan_tools.merge import NoReport, line_of, pieces_of, union
from semscan_tools.part_queue import Job, Queue, check_rules
from semscan_tools.refusal import Refusal
from semscan_tools.tree_parts import Entry, split

RULES = """\
rules:
- id: call
  languages: [python]
  severity: INFO
  message: $X is called.
  pattern: $X(...)
- id: pair
  languages: [python]
  severity: INFO
  message: "quoted \\u00e9 \\t"
  patterns:
  - pattern: $X
  - pattern: $Y
- id: text
  languages: [regex]
  severity: ERROR
  message: m
  pattern-regex: id
- id: bad
  languages: [regex]
  severity: ERROR
  message: m
  pattern-regex: (
- id: unread
  languages: [cobol]
  severity: ERROR
  message: m
  pattern: x
"""
FAKE_RULES = """\
rules:
- id: call
  languages: [regex]
  severity: INFO
  message: called \u00e9.
  pattern-regex: [a-z0-9]+\\([0-9]\\)
- id: text
  languages: [regex]
  severity: ERROR
  message: m
  pattern-regex: id
- id: empty
  languages: [python]
  severity: ERROR
  message: nothing.
"""
FAKE = os.path.join(TESTS, 'fake_semscan.py')
PYTHON = '/usr/bin/python3'
SHARDS = os.path.join(INTEGRATIONS, 'semscan-shards')


def has_dask():
    """Whether Debian's Python has Dask's distributed."""
    found = subprocess.run([PYTHON, '-c', 'import cloudpickle, distributed'], capture_output=True, check=False) if os.path.exists(PYTHON) else None
    return found is not None and found.returncode == 0


class Merging(InFolder):
    """The pieces of reports, without the program."""

    def test_union_of_parts(self):
        rules = notice('Regex', 'm.yaml', 'bad', '(')
        first = line([result(b'f', b'f', 'b.py'), result(b'f', b'f', '\u00e4.py')], [notice('NoTree', 'a.py'), rules])
        second = line([result(b'f', b'f', 'a-b.py', message='"\\ \u2028')], [rules, notice('NoTree', 'z.py')])
        merged = line([result(b'f', b'f', 'a-b.py', message='"\\ \u2028'), result(b'f', b'f', 'b.py'), result(b'f', b'f', '\u00e4.py')],
                      [notice('NoTree', 'a.py'), rules, notice('NoTree', 'z.py')])
        self.assertEqual(line_of(union([pieces_of(first), pieces_of(second)])), merged)
        with self.assertRaises(NoReport):
            union([pieces_of(line([], [rules])), pieces_of(line([], [rules, notice('NoRules', 'm.yaml')]))])
        for end in range(len(first)):
            with self.assertRaises(NoReport):
                pieces_of(first[:end])
        with self.assertRaises(NoReport):
            pieces_of(first + first)

    def test_splitting(self):
        entries = [Entry('f%d' % k, size) for k, size in enumerate((5, 5, 9, 1, 1, 1, 20))]
        self.assertEqual([[entry.size for entry in part.entries] for part in split(entries, 3, 10)], [[5, 5], [9, 1], [1, 1], [20]])
        self.assertEqual([len(part.entries) for part in split(entries, 2, 100)], [2, 2, 2, 1])
        self.assertEqual([part.entries for part in split([], 2, 100)], [()])


class Failing(Executor):
    """Workers whose first runs fail, each by the next of these exceptions, and whose others print a report without findings. By an OSError a run
    can't even be begun."""

    def __init__(self, *failures):
        self.failures = list(failures)
        self.runs = 0

    def submit(self, function, *words):
        future = Future()
        self.runs += 1
        if self.failures and isinstance(self.failures[0], OSError):
            raise self.failures.pop(0)
        if self.failures:
            future.set_exception(self.failures.pop(0))
        else:
            future.set_result((0, line(), b''))
        return future


class Workers(InFolder):
    """Parts on workers that fail in ways of their own, as those of other machines do."""

    def tries(self, *failures):
        """A run of one part and of the rules before it: how many runs it took."""
        executor = Failing(*failures)
        job = Job('semscan', ['scan', '--config', 'rules.yaml', 'src'], {}, None, 3)
        check_rules(job, executor)
        pieces, = Queue(job, split([], 1, 1), executor, 2).run()
        self.assertEqual(line_of(pieces), line())
        return executor.runs

    def test_failures_of_any_kind(self):
        """A part that fails is run again, three times in all, and then told with the status of failed parts."""
        died = [RuntimeError('worker %d died' % number) for number in range(5)]
        self.assertEqual(self.tries(), 2)
        self.assertEqual(self.tries(died[0]), 2)
        self.assertEqual(self.tries(*died[:3]), 4)
        self.assertEqual(self.tries(died[0], OSError('no scheduler'), died[1]), 4)
        self.assertEqual(self.tries(OSError('no scheduler')), 2)
        with self.assertRaises(Refusal) as refused:
            self.tries(*died[:4])
        self.assertEqual((refused.exception.status, str(refused.exception)), (70, 'the part without files failed 3 times: RuntimeError: worker 3 died'))


class Tree(InFolder):
    """A tree with files of all kinds, and a rule file."""

    def setUp(self):
        super().setUp()
        self.put('rules.yaml', RULES)
        choose = random.Random(1)
        for k in range(60):
            folder = choose.choice(('src', 'src/a', 'src/a/b', 'src/a-b', 'other'))
            self.put('%s/f%02d.py' % (folder, k), ''.join('f%d(%d)\n' % (k, n) for n in range(choose.randrange(9))))
        self.put('src/bad.py', 'f(\n')
        self.put('src/bytes.py', b'\xff')
        self.put('src/large.py', b'f(1)\n' * 250_000)
        self.put('src/crowd.py', 'x = ' + '-' * 100 + '1\n')
        self.put('src/.hidden/a.py', 'f(1)\n')
        self.put('src/id.txt', 'id \u00e9 id\n')
        self.put('src/id.bin', 'id\n')
        os.symlink('id.txt', os.path.join(self.folder, 'src/link.txt'))
        os.symlink('a', os.path.join(self.folder, 'src/linked'))

    def fake(self, script):
        """A program that goes before the built one."""
        self.put('fake', '#!/bin/sh\n' + script)
        os.chmod(os.path.join(self.folder, 'fake'), 0o755)
        return os.path.join(self.folder, 'fake')


class Parts(Tree):
    """Parts on this machine."""

    def same(self, *words, prefix='src'):
        """Whether the parts' report is that of one scan, with the same status."""
        one = scan(self.folder, '--config', 'rules.yaml', prefix)
        many = run('semscan-shards', *words, '--config', 'rules.yaml', prefix, cwd=self.folder)
        self.assertEqual((many.returncode, many.stderr, many.stdout), (one.returncode, one.stderr, one.stdout))
        return one.stdout

    @needs_program
    def test_same_line_as_one_scan(self):
        said = self.same('--files', '7', '--jobs', '3')
        for words in (b'NoTree', b'NotUtf8', b'TooLarge', b'Crowded', b'Regex', b'OutsideProfile', b'"check_id":"text"'):
            self.assertIn(words, said)
        self.same('--bytes', '100')
        self.same()

    @needs_program
    def test_other_prefixes(self):
        for prefix in ('.', 'src/a', 'src/id.txt', 'none', 'rules.yaml', 'src/linked', 'src/link.txt', 'src/.hidden', 'src/linked/b'):
            self.same('--files', '9', prefix=prefix)

    @needs_program
    def test_example(self):
        for words in ((), ('--trace',)):
            one = scan(TOP, *words, '--config', 'examples/rules.yaml', 'examples')
            many = run('semscan-shards', *words, '--files', '2', '--config', 'examples/rules.yaml', 'examples', cwd=TOP)
            self.assertEqual((many.stdout, many.returncode, many.stderr), (one.stdout, 0, b''), words)

    @needs_program
    def test_statuses(self):
        self.assertEqual(run('semscan-shards', '--error', '--config', 'rules.yaml', 'src', cwd=self.folder).returncode, 1)
        self.assertEqual(run('semscan-shards', '--error', '--config', 'rules.yaml', 'none', cwd=self.folder).returncode, 0)
        self.ends(run('semscan-shards', '--max', '2', '--files', '9', '--config', 'rules.yaml', 'src', cwd=self.folder), 9, b'more than 2')
        self.ends(run('semscan-shards', '--config', 'none.yaml', 'src', cwd=self.folder), 10, b'no config')
        self.ends(run('semscan-shards', '--config', 'rules.yaml', './src', cwd=self.folder), 2, b'write src instead of ./src')
        self.ends(run('semscan-shards', '--config', 'src', 'src', cwd=self.folder), 10, b'no config')
        os.symlink('rules.yaml', os.path.join(self.folder, 'linked.yaml'))
        self.ends(run('semscan-shards', '--config', 'linked.yaml', 'src', cwd=self.folder), 10, b'no config')
        self.put('long.yaml', RULES + '#' * 262_144)
        self.ends(run('semscan-shards', '--config', 'long.yaml', 'src', cwd=self.folder), 8, b'over limit 26')

    @needs_program
    def test_folder_that_cannot_be_read(self):
        self.put('closed/in/a.py', 'f(1)\n')
        os.chmod(os.path.join(self.folder, 'closed/in'), 0)
        self.addCleanup(os.chmod, os.path.join(self.folder, 'closed/in'), 0o755)
        self.ends(self.run_by_other('semscan-shards', '--config', 'rules.yaml', 'closed'), 6, b"folder failed: closed/in can't be read: Permission denied")

    @needs_program
    def test_more_than_one_run_takes(self):
        text = '#' * 999_999 + '\n'
        for k in range(40):
            self.put('big/f%02d.py' % k, text)
        self.put('big/f40.py', 'f(1)\n')
        self.assertEqual(scan(self.folder, '--config', 'rules.yaml', 'big').returncode, 8)
        many = run('semscan-shards', '--config', 'rules.yaml', 'big', cwd=self.folder)
        self.assertEqual((many.returncode, many.stdout.count(b'"check_id":"call"'), many.stderr), (0, 1, b''))

    @needs_program
    def test_more_findings_than_one_run_takes(self):
        for k in range(6):
            self.put('many/f%d.txt' % k, 'id ' * 9_999)
        self.assertEqual(scan(self.folder, '--config', 'rules.yaml', 'many').returncode, 9)
        many = run('semscan-shards', '--config', 'rules.yaml', 'many', cwd=self.folder)
        self.assertEqual((many.returncode, many.stdout.count(b'"check_id"'), many.stderr), (0, 59_994, b''))

    @needs_program
    def test_part_that_fails_once_is_run_again(self):
        fake = self.fake('if [ -e src/bad.py ] && mkdir %s/once 2>/dev/null; then echo half; exit 0; fi\nexec %s "$@"\n' % (self.folder, PROGRAM))
        one = scan(self.folder, '--config', 'rules.yaml', 'src')
        many = run('semscan-shards', '--files', '7', '--config', 'rules.yaml', 'src', cwd=self.folder, SEMSCAN=fake)
        self.assertEqual((many.returncode, many.stderr, many.stdout), (0, b'', one.stdout))
        self.assertTrue(os.path.isdir(os.path.join(self.folder, 'once')))

    @needs_program
    def test_part_that_fails_for_good_is_told(self):
        fake = self.fake('if [ -e src/bad.py ]; then echo "semscan: out of memory" >&2; exit 3; fi\nexec %s "$@"\n' % PROGRAM)
        many = run('semscan-shards', '--files', '7', '--config', 'rules.yaml', 'src', cwd=self.folder, SEMSCAN=fake)
        self.ends(many, 3, b'failed 3 times: status 3, semscan: out of memory')
        self.assertIn(b'the part from ', many.stderr)
        fake = self.fake('if [ -e src/bad.py ]; then kill -9 $$; fi\nexec %s "$@"\n' % PROGRAM)
        self.ends(run('semscan-shards', '--config', 'rules.yaml', 'src', cwd=self.folder, SEMSCAN=fake), 137, b'failed 3 times')

    def test_bad_words(self):
        self.ends(run('semscan-shards', '--config', 'rules.yaml', 'src', cwd=self.folder, SEMSCAN='/nowhere'), 127, b'no built program')
        self.ends(run('semscan-shards', '--jobs', '0', '--config', 'rules.yaml', 'src', cwd=self.folder), 2, b'0 is too little')
        self.ends(run('semscan-shards', 'src', cwd=self.folder), 2, b'--config')


class OverTheFake(Tree):
    """Parts of the stand-in, which looks for regular expressions only."""

    def setUp(self):
        super().setUp()
        self.put('rules.yaml', FAKE_RULES)

    def one(self, *words):
        return subprocess.run([FAKE, 'scan', *words], cwd=self.folder, stdin=subprocess.DEVNULL, capture_output=True, check=False)

    def many(self, *words, program=FAKE):
        return run('semscan-shards', *words, cwd=self.folder, SEMSCAN=program)

    def test_same_line_as_one_scan(self):
        for prefix, *words in (('src', '--files', '7', '--jobs', '3'), ('src', '--bytes', '100'), ('.', '--files', '9'), ('rules.yaml',), ('none',)):
            one, many = self.one('--config', 'rules.yaml', prefix), self.many(*words, '--config', 'rules.yaml', prefix)
            self.assertEqual((many.returncode, many.stderr, many.stdout), (0, b'', one.stdout), words)
        said = self.one('--config', 'rules.yaml', '.').stdout
        for words in (b'"NoTree"', b'"NotUtf8"', b'"TooLarge"', b'"MissingKey"', b'"check_id":"call"', b'"path":"rules.yaml"'):
            self.assertIn(words, said)

    def test_too_many_findings(self):
        self.ends(self.many('--max', '2', '--files', '9', '--config', 'rules.yaml', 'src'), 9, b'more than 2')
        self.ends(self.many('--config', 'none.yaml', 'src'), 10, b'no config (there is no rule file at none.yaml)')
        self.assertEqual(self.many('--error', '--config', 'rules.yaml', 'src').returncode, 1)
        few = self.fake('case "$*" in *"--max 50000"*) exec %s scan --max 30 "$4" "$5" "$6";; esac\nexec %s "$@"\n' % (FAKE, FAKE))
        one, many = self.one('--config', 'rules.yaml', 'src'), self.many('--max', '60000', '--config', 'rules.yaml', 'src', program=few)
        self.assertEqual((many.returncode, many.stderr, many.stdout), (0, b'', one.stdout))

    def test_part_that_fails(self):
        """Once, by a line that is cut off, and it is run again; for good, and it is told."""
        cut = 'if [ -e src/bad.py ] && mkdir %s/once 2>/dev/null; then %s "$@" | head -c 99; exit 0; fi\nexec %s "$@"\n' % (self.folder, FAKE, FAKE)
        words = ['--files', '7', '--config', 'rules.yaml', 'src']
        one, many = self.one('--config', 'rules.yaml', 'src'), self.many(*words, program=self.fake(cut))
        self.assertEqual((many.returncode, many.stderr, many.stdout), (0, b'', one.stdout))
        self.assertTrue(os.path.isdir(os.path.join(self.folder, 'once')))
        dies = self.fake('if [ -e src/bad.py ]; then echo "semscan: out of memory" >&2; exit 3; fi\nexec %s "$@"\n' % FAKE)
        self.ends(self.many(*words, program=dies), 3, b'failed 3 times: status 3, semscan: out of memory')


@unittest.skipUnless(has_dask(), "needs Dask (Debian's python3-distributed)")
class Cluster(Tree):
    """Parts on two workers of Dask."""

    def setUp(self):
        super().setUp()
        with socket.socket() as free:
            free.bind(('127.0.0.1', 0))
            self.address = 'tcp://127.0.0.1:%d' % free.getsockname()[1]
        port = self.address.rsplit(':', 1)[1]
        self.start('distributed.cli.dask_scheduler', '--host', '127.0.0.1', '--port', port, '--no-dashboard', '--no-show')
        own = ['--nthreads', '1', '--no-dashboard', '--local-directory', self.folder + '-workers']
        for name in ('first', 'second'):
            self.start('distributed.cli.dask_worker', self.address, '--name', name, *own)

    def start(self, module, *words):
        """A program of Dask that is ended with the test."""
        program = subprocess.Popen([PYTHON, '-m', module, *words], cwd=os.path.dirname(self.folder),
                                   stdout=subprocess.DEVNULL, stderr=subprocess.DEVNULL)
        self.addCleanup(program.wait)
        self.addCleanup(program.send_signal, signal.SIGTERM)

    def on_workers(self, *words, program=PROGRAM):
        """A run with this scheduler, once it has its workers."""
        for _ in range(60):
            found = subprocess.run([PYTHON, SHARDS, '--scheduler', self.address, '--program', program, *words],
                                   cwd=self.folder, capture_output=True, check=False)
            if found.returncode != 70 or b'no scheduler' not in found.stderr and b'no workers' not in found.stderr:
                break
            time.sleep(0.5)
        return found

    @needs_program
    def test_same_line_as_one_scan(self):
        one = scan(self.folder, '--config', 'rules.yaml', '.')
        many = self.on_workers('--files', '9', '--config', 'rules.yaml', '.')
        self.assertEqual((many.returncode, many.stdout), (0, one.stdout), many.stderr.decode())

    @needs_program
    def test_part_that_fails_for_good_is_told(self):
        self.ends(self.on_workers('--config', 'rules.yaml', 'src', program='/nowhere/semscan'), 70, b'failed 3 times: FileNotFoundError')
        fake = self.fake('if [ -e src/bad.py ]; then kill -9 $PPID; sleep 1; fi\nexec %s "$@"\n' % PROGRAM)
        found = self.on_workers('--files', '7', '--attempts', '1', '--config', 'rules.yaml', 'src', program=fake)
        self.ends(found, 70, b'failed 1 times: KilledWorker')

    @needs_program
    def test_worker_that_dies_loses_nothing(self):
        dies = 'if [ -e src/bad.py ] && mkdir %s/once 2>/dev/null; then kill -9 $PPID; sleep 1; fi\nexec %s "$@"\n'
        fake = self.fake(dies % (self.folder, PROGRAM))
        one = scan(self.folder, '--config', 'rules.yaml', 'src')
        many = self.on_workers('--files', '7', '--config', 'rules.yaml', 'src', program=fake)
        self.assertEqual((many.returncode, many.stdout, many.stderr), (0, one.stdout, b''))
        self.assertTrue(os.path.isdir(os.path.join(self.folder, 'once')))

    def test_no_scheduler(self):
        words = ['--scheduler', 'tcp://127.0.0.1:1', '--program', 'x', '--config', 'rules.yaml', 'src']
        found = subprocess.run([PYTHON, SHARDS, *words], cwd=self.folder, capture_output=True, check=False)
        self.ends(found, 70, b'there is no scheduler at tcp://127.0.0.1:1')

