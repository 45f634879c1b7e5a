#!/usr/bin/env python3
"""Measures `semscan match json 1` beside Python's json.loads on generated files of 1,000,000 bytes.

It measures the program that `./semscan` built. It prints, for each file, the processor time of a whole run without its start-up
(the least of several runs, less the least of as many runs on `1`), the processor time that Python takes to read the same file
and parse it (the least of as many), the ratio of the two, and the program's peak memory a source byte.
"""
import os
import random
import subprocess
import sys
import tempfile

SIZE = 1_000_000
RUNS = 7
# prints the processor time that json.loads takes, reading included
LOADS = ('import sys, json, time; start = time.process_time(); json.loads(sys.stdin.buffer.read()); '
         'print(time.process_time() - start)')
PROGRAM = os.path.join(os.path.dirname(os.path.abspath(__file__)), '..', 'crates', 'semscan', 'out', 'semscan')


def fill(start, item, end):
    """A text of at most SIZE bytes: items from a function of a number, parted by commas."""
    parts, size, k = [], len(start) + len(end), 0
    while True:
        one = item(k)
        if size + len(one) + 1 > SIZE:
            return start + ','.join(parts) + end
        parts.append(one)
        size += len(one) + 1
        k += 1


def texts():
    rng = random.Random(7)
    words = ['alpha', 'beta', 'gamma', 'delta']
    yield 'numbers', fill('[', lambda k: str(k % 97), ']')
    yield 'strings', fill('[', lambda k: '"%s %d"' % (rng.choice(words) * 4, k), ']')
    yield 'records', fill('[', lambda k: '{"id": %d, "name": "%s", "tags": ["a", "b"], "on": true, "price": %d.%02d}' % (
        k, rng.choice(words), k % 1000, k % 100), ']')
    yield 'pairs', fill('[', lambda k: '[' * 400 + '2' + ',2]' * 399 + ']', ']')
    yield 'nested', fill('[', lambda k: '[' * 400 + '1' + ']' * 400, ']')


def least(command, path, runs=RUNS):
    """The least processor time of some runs of the command on a file, in seconds, and its exit status."""
    times = []
    for _ in range(runs):
        with open(path, 'rb') as source:
            run = subprocess.Popen(command, stdin=source, stdout=subprocess.DEVNULL, stderr=subprocess.DEVNULL)
        _, status, usage = os.wait4(run.pid, 0)
        run.returncode = os.waitstatus_to_exitcode(status)
        times.append(usage.ru_utime + usage.ru_stime)
    return min(times), run.returncode


def least_parse(path, code):
    """The least of the times, in seconds, that several new processes print which run the code on a file."""
    times = []
    for _ in range(RUNS):
        with open(path, 'rb') as source:
            times.append(float(subprocess.run([sys.executable, '-c', code], stdin=source, capture_output=True).stdout))
    return min(times)


def peak(command, path):
    """The most memory that a run of the command has, in bytes, by the system's own mark, which is read until the run ends."""
    most = 0
    with open(path, 'rb') as source:
        run = subprocess.Popen(command, stdin=source, stdout=subprocess.DEVNULL, stderr=subprocess.DEVNULL)
    while run.poll() is None:
        with open('/proc/%d/status' % run.pid) as status:
            marks = [int(line.split()[1]) * 1024 for line in status if line.startswith('VmHWM')]
        most = max([most, *marks])
    return most


def main():
    ours = [os.path.abspath(PROGRAM), 'match', 'json', '1']
    with tempfile.TemporaryDirectory() as folder:
        small = os.path.join(folder, 'small')
        with open(small, 'w') as f:
            f.write('1')
        our_start, _ = least(ours, small)
        print('start-up of semscan: %.1f ms' % (1e3 * our_start))
        for name, text in texts():
            path = os.path.join(folder, name)
            with open(path, 'w') as f:
                f.write(text)
            took, status = least(ours, path)
            if status != 0:
                sys.exit('%s ends with %d on %s' % (ours[0], status, name))
            a, b = took - our_start, least_parse(path, LOADS)
            room = peak(ours, path) / len(text)
            print('%-8s %7d bytes: semscan %6.1f ms, json.loads %6.1f ms, ratio %.2f, %3.0f bytes of memory a byte' % (
                name, len(text), 1e3 * a, 1e3 * b, a / b, room))


if __name__ == '__main__':
    main()
