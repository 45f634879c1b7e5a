#!/usr/bin/env python3
"""Measures scans of CPython's standard library by rules that follow data, beside `bandit` with its checks of injection.

    tools/measure_library.py [PROGRAM]

PROGRAM is the program as `./semscan` built it, if none is given. The library is copied without `site-packages`. It prints processor
times and peak memory of whole runs, one each: semscan by the rules of `rules/flow/python.yaml`, by those of `examples/rules.yaml`, by one
rule that finds nothing, and bandit (Debian's package `bandit`), if it is there.
"""
import os
import shutil
import sys
import tempfile
from pathlib import Path

from measure_json import PROGRAM

TOP = Path(__file__).resolve().parent.parent
NOTHING = 'rules:\n- id: r\n  languages: [python]\n  severity: INFO\n  message: m\n  pattern: zzz_nothing(...)\n'
RULES = {'flow': TOP / 'rules/flow/python.yaml', 'examples': TOP / 'examples/rules.yaml'}
# what bandit calls its checks of injection
INJECTION = ','.join(f'B6{number:02}' for number in range(1, 12))


def copy_library(to):
    """Copies the library's modules into that folder, and returns how many these are and their bytes."""
    source = Path(os.__file__).parent
    shutil.copytree(source, to, ignore=lambda at, names: [it for it in names if it in ('site-packages', '__pycache__') or not (
        it.endswith('.py') or (Path(at) / it).is_dir())])
    files = list(Path(to).rglob('*.py'))
    return len(files), sum(it.stat().st_size for it in files)


def took(words, folder):
    """The processor seconds and the peak memory in bytes of one run, and its status."""
    child = os.fork()
    if child == 0:
        os.chdir(folder)
        nothing = os.open(os.devnull, os.O_RDWR)
        for stream in (0, 1, 2):
            os.dup2(nothing, stream)
        try:
            os.execvp(words[0], words)
        finally:
            os._exit(127)
    _, status, used = os.wait4(child, 0)
    return used.ru_utime + used.ru_stime, used.ru_maxrss * 1024, os.waitstatus_to_exitcode(status)


def main():
    program = os.path.abspath(sys.argv[1] if sys.argv[1:] else PROGRAM)
    with tempfile.TemporaryDirectory() as folder:
        count, size = copy_library(os.path.join(folder, 'lib'))
        print(f'{count} modules, {size / 1e6:.1f} million bytes; load {os.getloadavg()[0]:.1f}')
        Path(folder, 'nothing.yaml').write_text(NOTHING)
        for name, file in RULES.items():
            shutil.copy(file, f'{folder}/{name}.yaml')
        runs = [(f'semscan, {name}', [program, 'scan', '--config', f'{name}.yaml', 'lib']) for name in ('nothing', *RULES)]
        runs.append(('bandit, injection', ['bandit', '-q', '-r', 'lib', '-t', INJECTION]))
        for name, words in runs:
            if not shutil.which(words[0]):
                print(f'{name}: {words[0]} is not there')
                continue
            seconds, memory, status = took(words, folder)
            print(f'{name:20} {seconds:7.1f} s, {memory / 1e6:4.0f} MB, status {status}')


if __name__ == '__main__':
    main()
