#!/usr/bin/env python3
"""Measures what reading a session's stream costs: processor time, and the most memory that was held.

    tools/measure_stream.py BUILD

BUILD is a command that builds the program of a crate with optimisation, called at the top of a checkout as `BUILD CRATE OUT`. A copy of
the crates that are needed gets one more, a program that reads the commands of its standard input and says how many there were. It is
given streams of nearly 268,435,456 bytes: one `put` whose body is as long as a body may be, of which 1,000,001 bytes are kept; many
`put` of 1,000 bytes each; and many commands without a body.
"""
import os
import re
import shutil
import subprocess
import sys
import tempfile

MOST = 268_435_456
NEEDED = ['node_tree', 'lexing', 'path_glob', 'scan_world', 'wire_words', 'wire_stream']

PROGRAM = r'''//! Reads the commands of a stream.
#![tactic(auto)]

mod adapters;

use crate::adapters::StdinSource;
use wire_stream::{Feed, Wire, next_command};

fn main(rt: HostRuntime) {
    let mut source = StdinSource::new(rt.stdin());
    let Ok(mut feed) = Feed::new(rt.alloc()) else {
        return;
    };
    let mut count = 0u64;
    while let Ok(wire) = next_command(&mut feed, &mut source) {
        count = count.saturating_add(1);
        if matches!(wire, Wire::End) {
            let _ = println!(rt; "commands {count}");
            return;
        }
    }
}
'''

END = b'end\n'


def one_long_body():
    """One body as long as the stream allows."""
    length = MOST - 100
    yield b'put %d a.py\n' % length
    block = b'x' * 1_000_000
    for _ in range(length // len(block)):
        yield block
    yield b'x' * (length % len(block)) + b'\n'


def many(command):
    """That command again and again, as often as the stream allows."""
    count = (MOST - 100) // len(command)
    block = command * 1000
    for _ in range(count // 1000):
        yield block


STREAMS = [
    ('one `put` of nearly 268 MB', one_long_body),
    ('`put` of 1,000 bytes', lambda: many(b'put 1000 a.py\n' + b'x' * 1000 + b'\n')),
    ('`del a.py`', lambda: many(b'del a.py\n')),
]


def build(command, folder):
    """Builds the program in a copy of the crates that it needs."""
    top = os.path.join(os.path.dirname(os.path.abspath(__file__)), '..')
    lines = open(os.path.join(top, 'crates.txt')).read().splitlines()
    kept = [line for line in lines if line.split(':')[0] in NEEDED]
    with open(os.path.join(folder, 'crates.txt'), 'w') as listed:
        listed.write('\n'.join(kept + ['stream_speed: node_tree scan_world wire_stream']) + '\n')
    for name in NEEDED:
        shutil.copytree(os.path.join(top, 'crates', name), os.path.join(folder, 'crates', name), ignore=shutil.ignore_patterns('out'))
    source = os.path.join(folder, 'crates', 'stream_speed', 'src')
    os.makedirs(source)
    shutil.copy(os.path.join(top, 'crates', 'semscan', 'src', 'adapters.rt'), source)
    open(os.path.join(source, 'main.rt'), 'w').write(PROGRAM)
    out = os.path.join(folder, 'stream_speed')
    subprocess.run([command, 'stream_speed', out], cwd=folder, check=True)
    return out


def measure(program, pieces):
    """Processor seconds and peak bytes of a run on these pieces, and what it said."""
    run = subprocess.Popen([program], stdin=subprocess.PIPE, stdout=subprocess.PIPE)
    for piece in pieces:
        run.stdin.write(piece)
    run.stdin.write(END)
    run.stdin.close()
    said = run.stdout.read().decode()
    used = os.wait4(run.pid, 0)[2]
    return used.ru_utime + used.ru_stime, used.ru_maxrss * 1024, said


def main():
    if len(sys.argv) != 2:
        sys.exit(__doc__)
    with tempfile.TemporaryDirectory() as folder:
        program = build(os.path.abspath(sys.argv[1]), folder)
        for name, pieces in STREAMS:
            seconds, peak, said = measure(program, pieces())
            count = re.search(r'\d+', said)
            commands = int(count.group()) if count else 0
            print(f'{name}: {commands} commands, {seconds:.2f} s, {peak / 1e6:.1f} MB')


if __name__ == '__main__':
    main()
