#!/usr/bin/env python3
"""Measures what sessions cost, with a real stream, beside fresh runs over the same files: one table of what was wanted and what came out.

    tools/measure_session.py [--files N] [--rules N] [--edits N] [--only PART]

Files are generated: some 3 KB of Python each, functions, classes, calls and texts, and one of 940 KB. Rules are calls by name, of which few are in a
file, and some formulas. A time runs from the first byte of the commands to the last of the answer; beside it stands the processor time of semscan,
which depends less on other work, and by which ratios go. Edits change one statement, each another one; the middle of some is taken, and of first scans
the least of few. How long a report is stands there too, since a time holds writing it. The parts are `edits`, `first`, `growth` and `many`, which takes most
of the time and memory; where nothing else is said, it has 10,000 files, 1,000 rules and 10,000 edits, and the others 1,000 files with 60 and 1,000 rules.
SEMSCAN names the program, as everywhere in integrations/.
"""
import argparse
import os
import statistics
import subprocess
import tempfile
import time

from session_lines import Lines, command, needed_program

WORDS = 40_000
EDITS = 15
STATEMENTS = [
    'def handle_{n}(request, name=None):\n    value = request.args.get("key_{n}")\n    if value is None:\n        return call_{a}("error.html", code={n})\n'
    '    for item in call_{b}(value, name):\n        call_{c}(item, [value, name], key=lambda each: each.place)\n    return client.send(value, retries=3)\n\n\n',
    'LIMIT_{n} = call_{a}({n}, "limit of {n}", default=[{n}, 4])\n',
    'class Model_{n}(Base):\n    table = "t_{n}"\n\n    def save(self, *args, **kwargs):\n        self.check(call_{a}(args))\n'
    '        return super().save(*args, **kwargs)\n\n\n',
    'register("{n}", handle_{n}, order=[hit({n}), hit(call_{a}), miss({n}), miss(call_{b})])\n']
SHORT = 'rules:\n- id: alone\n  languages: [python]\n  severity: INFO\n  message: m\n  pattern: call_1($X)\n'


def statement(place, number):
    """The statement at a place of a file, by its number."""
    a, b, c = ((31 * number + 7_919 * k) % WORDS for k in range(3))
    return STATEMENTS[place % 4].format(n=number, a=a, b=b, c=c)


def text(number, size=3_000):
    """The statements of a file, by its number."""
    made = []
    while size > 0:
        made.append(statement(len(made), number * 1_000 + len(made)))
        size -= len(made[-1])
    return made


class Edited:
    """A file whose statements are edited, another one each time."""

    def __init__(self, number, made):
        self.path = path(number)
        self.made = list(made)
        self.count = 0

    def put(self):
        """The command that puts the file with one more statement edited."""
        self.count += 1
        place = self.count * 37 % len(self.made)
        self.made[place] = statement(place, 10_000_000 + self.count)
        return 'put', self.path, ''.join(self.made).encode()


def entry(number):
    """A rule: seven of ten look for a call by its name, the others are formulas."""
    head = '- id: rule-%d\n  languages: [python]\n  severity: WARNING\n  message: $X is used here.\n' % number
    kind, name = number % 10, 'call_%d' % (number * 17 % WORDS)
    if kind == 7:
        return head + '  patterns:\n  - pattern: %s($X, ...)\n  - pattern-inside: |\n      def $F(...):\n          ...\n' % name
    if kind == 8:
        return head + '  patterns:\n  - pattern: client.send($X, ...)\n  - metavariable-regex:\n      metavariable: $X\n      regex: none_%d\n' % number
    if kind == 9:
        return head + '  patterns:\n  - pattern: $F(%s($X), ...)\n  - pattern-not: print(...)\n' % name
    return head + '  pattern: %s(...)\n' % name


def rules(count, more=''):
    return ('rules:\n' + ''.join(map(entry, range(count))) + more).encode()


def path(number):
    return 'src/package_%d/module_%d.py' % (number % 100, number)


def fill(folder, count, rule_file, size=3_000):
    """A folder with so many files and the rules."""
    for number in range(count):
        place = os.path.join(folder, path(number))
        os.makedirs(os.path.dirname(place), exist_ok=True)
        with open(place, 'w', encoding='utf-8') as file:
            file.write(''.join(text(number, size)))
    with open(os.path.join(folder, 'rules.yaml'), 'wb') as file:
        file.write(rule_file)


class Spent:
    """What some commands took: seconds by the clock and of the processor, and how long the answer was."""

    def __init__(self, clock, processor, size):
        self.clock, self.processor, self.size = clock, processor, size

    def __str__(self):
        report = '%d KB' % (self.size // 1_000) if self.size else 'none'
        return '%s, %s of the processor, report %s' % (shown(self.clock), shown(self.processor), report)


def shown(seconds):
    return '%.1f ms' % (1_000 * seconds) if seconds < 1 else '%.2f s' % seconds


def middle(spent):
    """The middle of some times."""
    return Spent(*(statistics.median(getattr(each, name) for each in spent) for name in ('clock', 'processor', 'size')))


def least(spent):
    return min(spent, key=lambda each: each.processor)


class Measured(Lines):
    """A session whose commands are timed."""

    def processor(self):
        with open('/proc/%d/schedstat' % self.process.pid, encoding='ascii') as file:
            return int(file.read().split()[0]) / 1e9

    def memory(self, name):
        """Kilobytes that the process has, or had at most."""
        with open('/proc/%d/status' % self.process.pid, encoding='ascii') as file:
            return next(int(line.split()[1]) for line in file if line.startswith(name))

    def timed(self, *commands):
        """What these commands and a scan take."""
        before, begin = self.processor(), time.monotonic()
        self.write(b''.join(command(*each) for each in [*commands, ('scan',)]))
        size = len(self.answer())
        clock = time.monotonic() - begin
        return Spent(clock, self.processor() - before, size)

    def edits(self, number, made, count=EDITS):
        """The middle of what edits of a file took, each with its scan, and that of as many scans without one."""
        file = Edited(number, made)
        changed = middle([self.timed(file.put()) for _ in range(count)])
        return changed, middle([self.timed() for _ in range(count)])


def alone(words, folder, stream=b''):
    """What a run of the program by itself takes."""
    begin = time.monotonic()
    run = subprocess.Popen(words, cwd=folder, stdin=subprocess.PIPE, stdout=subprocess.PIPE)
    run.stdin.write(stream)
    run.stdin.close()
    size = len(run.stdout.read())
    _, status, used = os.wait4(run.pid, 0)
    if status:
        raise SystemExit('%s ended with %d' % (words, status))
    return Spent(time.monotonic() - begin, used.ru_utime + used.ru_stime, size)


class Table:
    """Measures, and prints a row for each."""

    def __init__(self, chosen):
        self.program = needed_program()
        self.chosen = chosen
        self.some = min(chosen.files, 1_000)
        print('| Work | Wanted | Measured | Load |\n|---|---|---|---|')

    def row(self, work, wanted, *measured):
        print('| %s | %s | %s | %.0f |' % (work, wanted, '; '.join(map(str, measured)), os.getloadavg()[0]), flush=True)

    def counts(self):
        """How many rules: few, and as many as were asked for."""
        return sorted({60, self.chosen.rules})

    def begun(self, folder, rule_file):
        """A session that has the files of a folder and these rules, and what its first scan took."""
        session = Measured(self.program, folder, [])
        session.rule('rules.yaml', rule_file)
        return session, session.timed(('sync', 'src'))

    def edits(self):
        """One statement changed in a large file, and in one of a thousand."""
        large = text(1, 940_000)
        whole = ''.join(large).encode()
        match = least([alone([self.program, 'match', 'python', 'call_1(...)'], '.', whole) for _ in range(5)])
        literal = '- id: text\n  languages: [python]\n  severity: INFO\n  message: m\n  pattern: register("none", ...)\n'
        for name, more in (('60 rules', ''), ('60 rules, one with a text, which asks for known names', literal)):
            with tempfile.TemporaryDirectory() as folder:
                session = Measured(self.program, folder, [])
                first = session.timed(('rule', 'rules.yaml', rules(60, more)), ('put', path(1), whole))
                changed, same = session.edits(1, large, 7)
                session.close()
            self.row('edit and scan, one file of 940 KB, %s' % name, '1.3 times `match` by one pattern, %s' % shown(match.processor),
                     changed, 'ratio %.2f' % (changed.processor / match.processor), 'nothing changed: %s' % same, 'first scan %s' % first)
        for count in self.counts():
            with tempfile.TemporaryDirectory() as folder:
                fill(folder, self.some, rules(count))
                session, first = self.begun(folder, rules(count))
                changed, same = session.edits(self.some // 2, text(self.some // 2))
                session.close()
            self.row('edit and scan, one of %d files of 3 KB, %d rules' % (self.some, count), '%d ms beside writing the report' % (10 if count <= 60 else 15),
                     changed, 'nothing changed: %s' % same, 'first scan %s' % first)

    def many(self):
        """All files and all rules that a session may have: nothing changed, a rule more, memory."""
        files, count = self.chosen.files, self.chosen.rules
        with tempfile.TemporaryDirectory() as folder:
            fill(folder, files, rules(count - 1))
            with open(os.path.join(folder, 'alone.yaml'), 'w', encoding='utf-8') as file:
                file.write(SHORT)
            fresh = alone([self.program, 'scan', '--config', 'rules.yaml', 'src'], folder)
            single = alone([self.program, 'scan', '--config', 'alone.yaml', 'src'], folder)
            session, first = self.begun(folder, rules(count - 1))
            self.row('first scan, %d files, %d rules' % (files, count - 1), '1.2 times `scan`, %s' % fresh, first,
                     'ratio %.2f' % (first.processor / fresh.processor))
            self.row('scan again, nothing changed', '50 ms beside writing the report', middle([session.timed() for _ in range(5)]))
            added = session.timed(('rule', 'zone.yaml', SHORT.encode()))
            self.row('a rule added to %d others' % (count - 1), 'twice a fresh scan by it alone, %s' % single, added, 'ratio %.2f' % (added.processor / single.processor))
            self.row('most memory after first scans', '1 GB', '%d MB' % (session.memory('VmHWM') // 1_000))
            self.after_edits(session, files)
            session.close()

    def after_edits(self, session, files):
        """Memory and times after one edit, and after many, of which some go into a scan."""
        edited = [Edited(number, text(number)) for number in range(files)]
        one = session.timed(edited[0].put())
        before = session.memory('VmHWM'), session.memory('VmRSS')
        count, some = self.chosen.edits, max(self.chosen.edits // 200, 1)
        for at in range(0, count, some):
            session.timed(*(edited[number * 7 % files].put() for number in range(at, min(at + some, count))))
        last = session.timed(edited[0].put())
        after = session.memory('VmHWM'), session.memory('VmRSS')
        said = ['%d MB at most, %d MB then' % (most // 1_000, then // 1_000) for most, then in (before, after)]
        self.row('memory after %d edits, %d in a scan' % (count, some), 'as after the first: %s' % said[0], said[1])
        self.row('edit and scan then', 'as the first: %s' % one, last)

    def first(self):
        """First scans beside the word, each a whole run."""
        for count in self.counts():
            with tempfile.TemporaryDirectory() as folder:
                fill(folder, self.some, rules(count))
                stream = command('rule', 'rules.yaml', rules(count)) + command('sync', 'src') + command('scan') + command('end')
                fresh = least([alone([self.program, 'scan', '--config', 'rules.yaml', 'src'], folder) for _ in range(3)])
                session = least([alone([self.program, 'session'], folder, stream) for _ in range(3 if count <= 60 else 1)])
            self.row('a session with one scan, %d files of 3 KB, %d rules' % (self.some, count), '1.2 times `scan`, %s' % fresh, session,
                     'ratio %.2f' % (session.processor / fresh.processor))

    def times(self, files, count, size, found):
        """What a first scan, an edit and a scan of the same take, and a fresh scan, for so many files and rules."""
        more = '- id: found\n  languages: [python]\n  severity: INFO\n  message: m\n  pattern-either:\n%s' % ''.join('  - pattern: %s($X)\n' % name for name in found)
        with tempfile.TemporaryDirectory() as folder:
            fill(folder, files, rules(count, more), size)
            session, first = self.begun(folder, rules(count, more))
            changed, same = session.edits(files // 2, text(files // 2, size))
            session.close()
            return first, changed, same, alone([self.program, 'scan', '--config', 'rules.yaml', 'src'], folder)

    def growth(self):
        """Twice as many files, rules, findings, and pieces."""
        base = (250, 100, 3_000, ['hit'])
        before = self.times(*base)
        for name, larger in (('files', (500, *base[1:])), ('rules', (250, 200, *base[2:])), ('findings', (*base[:3], ['hit', 'miss'])),
                             ('pieces in a file', (250, 100, 6_000, ['hit']))):
            after = self.times(*larger)
            said = ['%s %.2f (%s to %s)' % (kind, new.processor / old.processor, shown(old.processor), shown(new.processor))
                    for kind, old, new in zip(('first scan', 'edit', 'nothing changed', '`scan`'), before, after)]
            self.row('from 250 files of 3 KB and 100 rules to twice as many %s' % name, 'at most 2.2', *said, 'report %d to %d KB' % (before[0].size // 1_000, after[0].size // 1_000))


def main():
    parser = argparse.ArgumentParser(description=__doc__, formatter_class=argparse.RawDescriptionHelpFormatter)
    parser.add_argument('--files', type=int, default=10_000)
    parser.add_argument('--rules', type=int, default=1_000)
    parser.add_argument('--edits', type=int, default=10_000)
    parser.add_argument('--only', choices=['edits', 'many', 'first', 'growth'])
    chosen = parser.parse_args()
    table = Table(chosen)
    for name in ('edits', 'first', 'growth', 'many'):
        if chosen.only in (None, name):
            getattr(table, name)()


if __name__ == '__main__':
    main()
