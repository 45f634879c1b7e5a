#!/usr/bin/env python3
"""Runs the gate, and says what it took: minutes by the clock, and processor minutes by crate and kind of work.

    python3 tools/measure_gate.py [WORDS]

runs `rt ci` with these words (a kit that keeps what it proved wants `--anew`) at the repository's top, prints what it prints, and then a table: for each crate the processor
minutes of its own proof, of its tests' proofs and of its must-fail edits (the seed that they begin with among them), when its
proof ended, in minutes after the start, and the most memory that one process of them held. The row `rt` is what `rt` itself
computed. It looks at the processes once a second, so what ends between two looks is lost: the sums are a little too small. It
ends with the status of `rt ci`.
"""
import os
import subprocess
import sys
import time
from pathlib import Path

TOP = Path(__file__).resolve().parent.parent
TICKS = os.sysconf('SC_CLK_TCK')
PAGE = os.sysconf('SC_PAGE_SIZE')
KINDS = ('proof', 'tests', 'edits')


def stat_of(pid):
    """What the system says of a process, from its state on."""
    stat = Path(f'/proc/{pid}/stat').read_text()
    return [0] + [int(word) for word in stat[stat.rindex(')') + 4:].split()]


def spent(pid):
    """The session of a process, its processor seconds, and the bytes that it holds."""
    fields = stat_of(pid)
    return fields[3], (fields[11] + fields[12]) / TICKS, fields[21] * PAGE


def crate_and_kind(pid):
    """The crate that a process of the prover works at, or its nearest ancestor does, and the kind of that work, or None."""
    words = Path(f'/proc/{pid}/cmdline').read_bytes().decode(errors='replace').split('\0')
    if '--crate-name' not in words:
        above = stat_of(pid)[1]
        return crate_and_kind(above) if above > 1 else None
    name = words[words.index('--crate-name') + 1]
    if '/rt-edit-' in os.readlink(f'/proc/{pid}/cwd'):
        return name, 'edits'
    return name, 'tests' if '--test' in words else 'proof'


def look(session, seconds, most, last):
    """Notes what each process of the session has taken so far, and when each kind of work was seen last."""
    for pid in (name for name in os.listdir('/proc') if name.isdigit()):
        try:
            of, time_taken, held = spent(pid)
            work = of == session and (('rt', 'proof') if int(pid) == session else crate_and_kind(pid))
        except OSError:
            continue
        if work:
            seconds[pid, work] = time_taken
            most[work] = max(most.get(work, 0), held)
            last[work] = time.time()


def table(seconds, most, last, begun):
    """The lines of the table, the dearest crate first."""
    sums = {}
    for (_, work), time_taken in seconds.items():
        sums[work] = sums.get(work, 0) + time_taken
    total = {kind: sum(taken for (_, of), taken in sums.items() if of == kind) for kind in KINDS}
    yield '| Crate | Proof | Tests | Edits | Proved after | Most memory |'
    yield '|---|---|---|---|---|---|'
    yield '| all | ' + ' | '.join(f'{total[kind] / 60:.1f}' for kind in KINDS) + ' | | |'
    crates = {name: sum(sums.get((name, kind), 0) for kind in KINDS) for name, _ in sums}
    for name in sorted(crates, key=lambda it: -crates[it]):
        cells = [f'{sums.get((name, kind), 0) / 60:.1f}' for kind in KINDS]
        memory = max(most.get((name, kind), 0) for kind in KINDS)
        ended = (last.get((name, 'proof'), begun) - begun) / 60
        yield f'| `{name}` | ' + ' | '.join(cells) + f' | {ended:.0f} | {memory / 1e9:.1f} GB |'


def main():
    begun, load = time.time(), os.getloadavg()[0]
    run = subprocess.Popen(['rt', 'ci', *sys.argv[1:]], cwd=TOP, start_new_session=True)
    seconds, most, last = {}, {}, {}
    while run.poll() is None:
        look(run.pid, seconds, most, last)
        time.sleep(1)
    minutes = (time.time() - begun) / 60
    print(f'\n{minutes:.1f} minutes by the clock on {os.cpu_count()} processors, whose load was {load:.1f} when it began\n')
    print('\n'.join(table(seconds, most, last, begun)))
    sys.exit(run.returncode)


if __name__ == '__main__':
    main()
