"""Runs the built program, and says what its statuses mean (docs/SCANS.md)."""
import os
import shutil
import subprocess
from typing import Iterator, Mapping, Optional

from .path_words import fault_of_path
from .refusal import Refusal

BUILT = os.path.join(os.path.dirname(os.path.dirname(os.path.dirname(os.path.abspath(__file__)))), 'crates', 'semscan', 'out', 'semscan')
NO_PROGRAM = 127
FORMS = {'scan': 'semscan scan [--error] [--trace] [--max N] --config PATH PREFIX', 'fix': 'semscan fix [--dryrun] [--trace] [--max N] --config PATH PREFIX'}
MEANING = {
    3: 'memory ran out; scan fewer files at once',
    5: 'the report could not be written',
    6: 'a file or folder could not be read; look at its permissions',
    8: 'there is more than one run takes; use semscan-shards for many files, and split a rule file of over 262,144 bytes or 1,000 rules',
    9: 'there are more findings than asked for with --max (50,000 where nothing is said)',
}


def find_program(environment: Mapping[str, str]) -> Optional[str]:
    """The built program: what SEMSCAN names, else the one of this repository, else the one on PATH."""
    if environment.get('SEMSCAN'):
        return os.path.abspath(environment['SEMSCAN'])
    return BUILT if os.access(BUILT, os.X_OK) else shutil.which('semscan')


def needed_program(environment: Mapping[str, str]) -> str:
    program = find_program(environment)
    if program is None or not os.access(program, os.X_OK):
        raise Refusal('there is no built program at %s; build it with ./semscan, or say with SEMSCAN where it is' % (program or BUILT), NO_PROGRAM)
    return program


def paths_among(words: list[str]) -> Iterator[tuple[str, bool]]:
    """The paths among the words of a scan, and whether each is a prefix."""
    before = ''
    for word in words:
        if before == '--config':
            yield word, False
        elif before != '--max' and not word.startswith('--'):
            yield word, True
        before = word if before not in ('--config', '--max') else ''


def check_words(words: list[str], folder: str) -> None:
    """Says in one line how a path among the words of a scan must be written, where it is written otherwise."""
    for word, is_prefix in paths_among(words):
        fault = fault_of_path(word, folder, is_prefix)
        if fault is not None:
            raise Refusal(fault)


def check_prefixes(words: list[str], folder: str) -> None:
    """Refuses to scan what isn't there. The program's report of it is empty, so that a name that is written wrong would pass for good code."""
    for word, is_prefix in paths_among(words):
        if is_prefix and not os.path.lexists(os.path.join(folder, word)):
            raise Refusal('there is no %s here, so nothing would be scanned' % word)


def run_scan(program: str, words: list[str], folder: str, word: str = 'scan') -> subprocess.CompletedProcess:
    """A scan in a folder by these words, which come after `scan`, or after another word of the program."""
    try:
        return subprocess.run([program, word, *words], cwd=folder, stdin=subprocess.DEVNULL, capture_output=True, check=False)
    except (OSError, ValueError) as error:
        raise Refusal("%s can't be run: %s" % (program, error), NO_PROGRAM) from None


def meaning_of(status: int, words: list[str]) -> str:
    """What a status means for a run by these words."""
    if status == 2:
        return 'write %s, with the options before PREFIX, a space after --config, and an N of at most 50,000' % FORMS[words[0]]
    if status == 10:
        return 'there is no rule file at %s' % ' '.join(word for word, is_prefix in paths_among(words[1:]) if not is_prefix)
    return MEANING.get(status, 'the program ended with status %d' % status)


def fault_of_run(run: subprocess.CompletedProcess) -> Optional[str]:
    """What is wrong with a run that printed no report, in the program's words and in ours; None where there is a report."""
    if run.returncode in (0, 1):
        return None
    said = run.stderr.decode('utf-8', 'replace').strip() or 'semscan: nothing was said'
    return '%s: %s' % (said.removeprefix('semscan: '), meaning_of(run.returncode, run.args[1:]))


def status_of_run(run: subprocess.CompletedProcess) -> int:
    """The status to end with: the program's own, or as shells say it of a program that a signal ended."""
    return run.returncode if run.returncode >= 0 else 128 - run.returncode
