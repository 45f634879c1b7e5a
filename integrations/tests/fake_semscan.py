#!/usr/bin/env python3
"""A stand-in for the program in tests of what stands around it: it has the words `session`, `scan` and `fix --dryrun`, for rules of regular expressions.

It finds what `pattern-regex` of each rule finds in the bytes of each file, for a rule with `pattern-sinks` a flow, tells a rule
without either and a file of Python that can't be read, and keeps to the protocol of the session: the commands, their output, the limits and how a run ends.

Files in the folder that FAKE names steer it: `die` ends it with status 3 at a scan, once; `die always` at every scan; `log` gets each command.
"""
import ast
import json
import os
import re
import stat
import sys

ENDINGS = ('.py', '.pyi', '.c', '.h', '.json', '.txt', '.md', '.yaml', '.yml', '.toml', '.ini', '.cfg', '.sh', '.html')
MOST_OF_A_STREAM = int(os.environ.get('FAKE_STREAM', 268_435_456))
STEER = os.environ.get('FAKE', '/nowhere')


def end(status, words):
    print('semscan: ' + words, file=sys.stderr)
    sys.exit(status)


def steer(name):
    return os.path.join(STEER, name)


def steered():
    """Ends the run where a test wants that."""
    if os.path.exists(steer('die')):
        os.remove(steer('die'))
        end(3, 'out of memory')
    if os.path.exists(steer('die always')):
        end(3, 'out of memory')


def entries(content):
    """The rules of a file: a dictionary of keys for each."""
    found = []
    for line in content.decode().splitlines():
        matched = re.match(r'(?:- |  )([a-z-]+): *(.*)$', line)
        if matched:
            if line.startswith('- '):
                found.append({})
            found[-1][matched[1]] = matched[2]
    return found


def is_taken(path):
    return path.endswith(ENDINGS) and not any(segment.startswith('.') for segment in path.split('/'))


def listed(prefix):
    """The regular files under a prefix, with their bytes."""
    found = {}
    for folder, folders, names in os.walk(prefix):
        folders[:] = [name for name in folders if not os.path.islink(os.path.join(folder, name))]
        for name in names:
            found[os.path.relpath(os.path.join(folder, name), '.')] = None
    if os.path.isfile(prefix):
        found[prefix] = None
    taken = [path for path in found if is_taken(path) and stat.S_ISREG(os.lstat(path).st_mode)]
    for path in sorted(taken):
        try:
            with open(path, 'rb') as file:
                yield path, file.read(1_000_001)
        except PermissionError:
            end(6, 'folder failed')


def is_under(path, prefix):
    return prefix == '.' or path == prefix or path.startswith(prefix + '/')


def place(content, offset):
    before = content[:offset]
    return {'col': offset - before.rfind(b'\n'), 'line': before.count(b'\n') + 1, 'offset': offset}


def results_of(rule, path, content):
    for found in re.finditer(rule['pattern-regex'].encode(), content):
        extra = {'message': rule['message'], 'metavars': {}, 'severity': rule['severity'], **({'fix': rule['fix']} if 'fix' in rule else {})}
        yield {'check_id': rule['id'], 'end': place(content, found.end()), 'extra': extra, 'path': path, 'start': place(content, found.start())}


def flows_of(rule, path, content, with_traces):
    """The results of a rule that follows data, whatever it says: from the first read() of a file without blocks to each run(..) below."""
    source = re.search(rb'read\(\)', content)
    for found in re.finditer(rb'^run\(\w*\)', content, re.MULTILINE):
        if source and source.end() < found.start():
            extra = {'message': rule['message'], 'metavars': {}, 'severity': rule['severity'], 'source': [source.start(), source.end()]}
            if with_traces:
                extra['trace'] = [[start.start(), 'Head'] for start in re.finditer(rb'^', content[:found.end()], re.MULTILINE)]
            yield {'check_id': rule['id'], 'end': place(content, found.end()), 'extra': extra, 'path': path, 'start': place(content, found.start())}


def fault_of(path, content):
    if len(content) > 1_000_000:
        return 'TooLarge'
    try:
        text = content.decode()
    except UnicodeDecodeError:
        return 'NotUtf8'
    try:
        return ast.parse(text) and None if path.endswith('.py') else None
    except SyntaxError:
        return 'NoTree'


def report(files, rules, with_traces):
    """The report of a scan as a value."""
    notices, results, good = [], [], []
    for name in sorted(rules):
        for at, rule in enumerate(entries(rules[name])):
            if 'pattern-regex' in rule or 'pattern-sinks' in rule:
                good.append(rule)
            else:
                notices.append({'detail': 'rules.%d' % at, 'kind': 'MissingKey', 'path': name, 'rule': rule['id']})
    for path in sorted(files):
        kind = fault_of(path, files[path])
        if kind:
            notices.append({'detail': '', 'kind': kind, 'path': path, 'rule': ''})
        if kind not in ('TooLarge', 'NotUtf8'):
            found = [result for rule in good for result in (
                results_of(rule, path, files[path]) if 'pattern-regex' in rule else flows_of(rule, path, files[path], with_traces))]
            results += sorted(found, key=lambda result: (result['start']['offset'], result['end']['offset'], result['check_id']))
    return {'notices': sorted(notices, key=lambda notice: (notice['path'], notice['rule'])), 'results': results}


def fixed(value, files):
    """The value of a fix line."""
    changed = []
    for path in sorted(files):
        ranges = []
        for result in value['results']:
            start, until = result['start']['offset'], result['end']['offset']
            if result['path'] == path and 'fix' in result['extra'] and start < until and (not ranges or ranges[-1][1] <= start):
                ranges.append([start, until, result['extra']['fix']])
        if ranges:
            changed.append({'path': path, 'ranges': ranges})
    return {'fixed': changed, **value}


def answer(value):
    sys.stdout.buffer.write(json.dumps(value, ensure_ascii=False, separators=(',', ':'), sort_keys=True).encode() + b'\n')
    sys.stdout.buffer.flush()


class Stream:
    """The commands of standard input, and how many bytes were read."""

    def __init__(self):
        self.at = 0

    def bad(self, start):
        end(7, 'bad command at %d' % start)

    def take(self, count, start):
        body = sys.stdin.buffer.read(count + 1)
        if len(body) <= count or body[-1:] != b'\n':
            self.bad(start)
        self.at += count + 1
        return body[:-1]

    def command(self):
        """The next command: its words, and its body where it has one."""
        start = self.at
        line = sys.stdin.buffer.readline()
        if not line.endswith(b'\n'):
            self.bad(start)
        self.at += len(line)
        word, _, rest = line[:-1].decode().partition(' ')
        body = None
        if word in ('put', 'rule'):
            count, _, rest = rest.partition(' ')
            body = self.take(int(count), start)
        elif word not in ('del', 'unrule', 'sync', 'scan', 'fix', 'end'):
            self.bad(start)
        if self.at > MOST_OF_A_STREAM:
            end(8, 'over limit %d' % (MOST_OF_A_STREAM + 1))
        return word, rest, body


def over(count, most):
    if count > most:
        end(8, 'over limit %d' % count)


def session(most, with_traces):
    """Runs the commands of a stream."""
    stream, files, rules = Stream(), {}, {}
    while True:
        word, path, body = stream.command()
        if os.path.isdir(STEER) and word != 'end' and path != '.semscan/nowhere':
            with open(steer('log'), 'a', encoding='utf-8') as log:
                print(word, path, file=log)
        if word == 'end':
            return
        if word == 'put':
            files[path] = body[:1_000_001]
            over(len(files), 10_000)
            over(sum(map(len, files.values())), 33_554_432)
        elif word == 'rule':
            rules[path] = body
            over(len(body), 262_144)
            over(sum(len(entries(content)) for content in rules.values()), 1_000)
        elif word in ('del', 'unrule'):
            answer({'removed': (files if word == 'del' else rules).pop(path, None) is not None})
        elif word == 'sync':
            files = {name: content for name, content in files.items() if not is_under(name, path)}
            for name, content in listed(path):
                files[name] = content
                over(len(files), 10_000)
        else:
            steered()
            value = report(files, rules, with_traces)
            too_many = len(value['results']) > most
            answer({'too_many': most} if too_many else value if word == 'scan' else fixed(value, files))


def fix(words):
    """Prints the fix line, and writes nothing."""
    config, prefix = words[words.index('--config') + 1], words[-1]
    files = dict(listed(prefix))
    with open(config, 'rb') as file:
        answer(fixed(report(files, {config: file.read()}, '--trace' in words), files))


def scan(words):
    """Prints the report."""
    config, prefix = words[words.index('--config') + 1], words[-1]
    most = int(words[words.index('--max') + 1]) if '--max' in words else 50_000
    if not os.path.isfile(config):
        end(10, 'no config')
    files = dict(listed(prefix))
    over(len(files), 10_000)
    with open(config, 'rb') as file:
        rules = file.read()
    over(len(rules), 262_144)
    value = report(files, {config: rules}, '--trace' in words)
    if len(value['results']) > most:
        end(9, 'more than %d' % most)
    answer(value)
    sys.exit(1 if '--error' in words and value['results'] else 0)


def main():
    words = sys.argv[1:]
    options = [word for word in words[1:] if word != '--trace']
    if words[:1] == ['session'] and options[:1] in ([], ['--max']):
        session(int(options[1]) if options else 50_000, '--trace' in words)
    elif words[:1] == ['scan'] and '--config' in words:
        scan(words)
    elif words[:1] == ['fix'] and '--dryrun' in words and '--config' in words:
        fix(words)
    else:
        end(2, 'usage')


main()
