#!/usr/bin/env python3
"""Plays random sessions and holds each report beside that of a fresh run over the same files and rules, byte for byte.

    tools/compare_session.py [--seed N] [--commands N] [--minutes M] [--to FILE]
    tools/compare_session.py --replay FILE

Files are small texts whose statements touch each other, the examples, the code beside the rules that come with semscan, and modules of CPython's
library; `session_cases.py` makes the commands: edits as editors make them, files that become unread and come back, rule files that come, go and
change, files of the folder and `sync`. Each answer of `scan` and `fix` is held beside that of a new session that gets the files and rules
there are then and is asked once; where one rule file is there, and only files that a scan of a folder takes, also beside the words `scan` and
`fix --dryrun` over a folder that has just these. What `fix` makes of the files is worked out here, from the ranges that it says, and so is which
fixes of the results it must take. The answers of `del` and `unrule` are known too.

At a difference the stream is made smaller, as long as one remains, and written to a file, which `--replay` plays again; the run ends with 1.
SEMSCAN names the program, as everywhere in integrations/.
"""
import argparse
import json
import os
import random
import signal
import subprocess
import sys
import tempfile
import time

import session_cases
from session_lines import Ended, Lines, command, needed_program
from session_state import Folder, State, chosen, is_taken, is_under

PATIENCE = 600
TO_MAKE_SMALLER = 180


class Different(Exception):
    """A session's answer is not the one that it must be."""

    def __init__(self, what, ours, wanted):
        super().__init__('%s:\n    the session: %s\n    wanted:      %s' % (what, *shown(ours, wanted)))


def no_answer(*_):
    raise Different('after %d seconds' % PATIENCE, b'no answer', b'an answer')


def shown(ours, wanted):
    """Two texts from where they begin to differ."""
    at = next((at for at, pair in enumerate(zip(ours, wanted)) if pair[0] != pair[1]), min(len(ours), len(wanted)))
    return ['(from byte %d) %r' % (max(at - 150, 0), text[max(at - 150, 0):at + 250]) for text in (ours, wanted)]


class Player:
    """Plays commands to one session of the program, and compares."""

    def __init__(self, program, room, most):
        self.program = program
        self.options = ['--max', str(most)]
        self.too_many = b'{"too_many":%d}\n' % most
        self.mirror = Folder(tempfile.mkdtemp(dir=room))
        self.state = State(Folder(tempfile.mkdtemp(dir=room)))
        self.session = Lines(program, self.state.work.root, self.options)
        self.counts = {'commands': 0, 'answers': 0, 'words': 0, 'results': 0}

    def play(self, word, path, body):
        """Plays one command; Different where its answer is."""
        if word == 'write':
            return self.state.work.put(path, body)
        if word == 'remove':
            return self.state.work.remove(path)
        self.counts['commands'] += 1
        try:
            ours = self.session.play(word, path, body)
        except Ended as ended:
            raise Different('%s %s' % (word, path), b'ended with %d: %s' % (ended.status, ended.said.encode()), b'an answer') from None
        wanted = self.state.take(word, path, body)
        if wanted is None:
            return self.compare(word, ours)
        if ours != wanted:
            raise Different('%s %s' % (word, path), ours, wanted)

    def compare(self, word, ours):
        """Holds an answer of `scan` or `fix` beside those of fresh runs."""
        self.counts['answers'] += 1
        self.counts['results'] += ours.count(b'"check_id":')
        wanted = self.fresh_session(word)
        if ours != wanted:
            raise Different('%s beside a new session' % word, ours, wanted)
        if len(self.state.rules) == 1 and not is_under(*self.state.rules, 'src') and all(is_under(each, 'src') and is_taken(each) for each in self.state.files):
            self.counts['words'] += 1
            wanted = self.fresh_words(word)
            if ours != wanted:
                raise Different('%s beside the word' % word, ours, wanted)
        if word == 'fix':
            value = json.loads(ours)
            fixed, wanted = value.get('fixed', []), chosen(value.get('results', []))
            if fixed != wanted:
                raise Different('the fixes that are taken', json.dumps(fixed).encode(), json.dumps(wanted).encode())
            self.state.fix(fixed)

    def fresh_session(self, word):
        """The answer of a new session, which gets what there is in another order."""
        parts = [command('rule', *each) for each in sorted(self.state.rules.items(), reverse=True)]
        parts += [command('put', *each) for each in sorted(self.state.files.items(), reverse=True)]
        return self.run(['session', *self.options], self.state.work.root, b''.join(parts) + command(word) + command('end'))

    def fresh_words(self, word):
        """What the words of the program say of a folder with these files and these rules."""
        self.mirror.become({**self.state.files, **self.state.rules})
        words = ['scan'] if word == 'scan' else ['fix', '--dryrun']
        return self.run([*words, *self.options, '--config', *self.state.rules, 'src'], self.mirror.root, b'')

    def run(self, words, folder, stream):
        ended = subprocess.run([self.program, *words], input=stream, cwd=folder, capture_output=True, check=False)
        if ended.returncode == 9:
            return self.too_many
        return ended.stdout if not ended.returncode else b'%s ended with %d: %s' % (words[0].encode(), ended.returncode, ended.stderr)


def difference(program, most, commands):
    """What differs first where these commands are played to a session, and which of them that is; None where nothing does."""
    with tempfile.TemporaryDirectory(prefix='semscan-session-') as room:
        player = Player(program, room, most)
        try:
            for number, each in enumerate(commands):
                signal.alarm(PATIENCE)
                player.play(*each)
        except Different as different:
            return number, different
        finally:
            signal.alarm(0)
            player.session.close()
    return None


def smaller(commands, still, until):
    """Fewer parts of a list that are still a case, as long as there is time."""
    size = len(commands)
    while size:
        size = (size + 1) // 2 if size > 1 else 0
        at = 0
        while size and at < len(commands) and time.monotonic() < until:
            some = commands[:at] + commands[at + size:]
            at, commands = (at, some) if still(some) else (at + size, commands)
    return commands


def made_smaller(program, most, commands):
    """A small stream that shows a difference: with few commands, and few lines in each."""
    until = time.monotonic() + TO_MAKE_SMALLER
    commands = smaller(commands, lambda some: difference(program, most, some), until)
    for number, (word, path, body) in enumerate(commands):
        if body:
            def with_lines(lines):
                return [*commands[:number], (word, path, b''.join(lines)), *commands[number + 1:]]
            commands = with_lines(smaller(body.splitlines(True), lambda some: difference(program, most, with_lines(some)), until))
    return commands


def keep(path, most, commands):
    """Writes a stream to a file."""
    values = [{'most': most}, *([word, path, None if body is None else body.decode('latin-1')] for word, path, body in commands)]
    with open(path, 'w', encoding='utf-8') as file:
        file.writelines(json.dumps(value) + '\n' for value in values)


def read(path):
    """The finding limit and the commands of a stream in a file."""
    with open(path, encoding='utf-8') as file:
        head, *lines = map(json.loads, file)
    return head['most'], [(word, place, body if body is None else body.encode('latin-1')) for word, place, body in lines]


def play_one(program, choose, pool, count):
    """Plays one random session of so many commands: its finding limit, what was played, the counts, and the difference if there is one."""
    most, played = choose.choice([50_000] * 16 + [0, 100, 400, 1_500]), []
    with tempfile.TemporaryDirectory(prefix='semscan-session-') as room:
        player = Player(program, room, most)
        maker = session_cases.Maker(choose, pool, player.state)
        try:
            while len(played) < count and player.session.has_room(4 * session_cases.LARGE):
                played.append(maker.next())
                signal.alarm(PATIENCE)
                player.play(*played[-1])
        except Different as different:
            return most, played, player.counts, different
        finally:
            signal.alarm(0)
            player.session.close()
    return most, played, player.counts, None


def main():
    parser = argparse.ArgumentParser(description=__doc__, formatter_class=argparse.RawDescriptionHelpFormatter)
    parser.add_argument('--seed', type=int, default=1)
    parser.add_argument('--commands', type=int, default=1_000)
    parser.add_argument('--minutes', type=float, default=60)
    parser.add_argument('--to', default='session_difference.json')
    parser.add_argument('--replay')
    words = parser.parse_args()
    signal.signal(signal.SIGALRM, no_answer)
    program, until = needed_program(), time.monotonic() + 60 * words.minutes
    if words.replay:
        found = difference(program, *read(words.replay))
        sys.exit('command %d: %s' % found if found else 0)
    choose, pool, totals, sessions = random.Random(words.seed), session_cases.pools(words.seed), {'commands': 0}, 0
    while totals['commands'] < words.commands and time.monotonic() < until:
        count = min(choose.choice([20, 60, 200, 400, 400, 1_500]), words.commands - totals['commands'])
        most, played, counts, different = play_one(program, choose, pool, count)
        totals, sessions = {name: totals.get(name, 0) + more for name, more in counts.items()}, sessions + 1
        if different:
            keep(words.to, most, played)
            played = made_smaller(program, most, played)
            keep(words.to, most, played)
            sys.exit('seed %d, session %d: %s\nthe stream, made smaller to %d commands, is in %s' % (words.seed, sessions, different, len(played), words.to))
    print('seed %d: no difference in %d sessions with %d commands; %d answers with %d results, of which %d were held beside the words too; load %.0f'
          % (words.seed, sessions, *[totals[name] for name in ('commands', 'answers', 'results', 'words')], os.getloadavg()[0]))


if __name__ == '__main__':
    main()
