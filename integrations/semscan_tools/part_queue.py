"""Runs parts side by side, a few at a time, and those that fail again."""
from concurrent.futures import FIRST_COMPLETED, Executor, Future, wait
from dataclasses import dataclass, replace
from typing import Optional

from .merge import NoReport, Pieces, pieces_of
from .part_run import run_part
from .program import meaning_of
from .refusal import Refusal
from .tree_parts import MOST_OF_A_FILE, Part, read_front

PART_FAILED = 70
OVER_LIMIT = 8
TOO_MANY = 9
MOST_FINDINGS = 50_000


@dataclass(frozen=True)
class Job:
    """What is the same for all parts: the program, the words of the scan, and the rule file, which goes with each part."""
    program: str
    words: list[str]
    files: dict[str, bytes]
    most_findings: Optional[int]
    attempts: int


def files_of(job: Job, part: Part) -> dict[str, bytes]:
    """The files of a part as they are now, and the rule file. One that is gone counts as if it had not been there."""
    files = {entry.path: read_front(entry.path, MOST_OF_A_FILE) for entry in part.entries}
    return {**{path: content for path, content in files.items() if content is not None}, **job.files}


def said(job: Job, status: int, errors: bytes) -> str:
    words = errors.decode('utf-8', 'replace').strip() or 'nothing was said'
    return 'status %d, %s (%s)' % (status, words, meaning_of(status, job.words))


def kind_of(error: Exception) -> str:
    return '%s: %s' % (type(error).__name__, error)


def check_rules(job: Job, executor: Executor) -> None:
    """Ends the run where the rule file ends it, as no file of the tree can change that."""
    try:
        status, _, errors = executor.submit(run_part, job.program, job.words, job.files).result()
    except Exception:  # whatever a worker says: the parts will fail by the same cause, and are then tried again and told
        return
    if status in (2, 8, 10):
        raise Refusal(said(job, status, errors), status)


class Queue:
    """Parts that wait, parts that run, and what was found."""

    def __init__(self, job: Job, parts: list[Part], executor: Executor, width: int):
        self.job = job
        self.waiting = list(reversed(parts))
        self.executor = executor
        self.width = width
        self.running: dict[Future, Part] = {}
        self.found: list[Pieces] = []

    def start_some(self) -> None:
        while self.waiting and len(self.running) < self.width:
            part = self.waiting.pop()
            files = files_of(self.job, part)
            try:
                self.running[self.executor.submit(run_part, self.job.program, self.job.words, files)] = part
            except Exception as error:  # there is no thread to be had, or the scheduler went away
                self.again(part, kind_of(error), PART_FAILED)

    def again(self, part: Part, reason: str, status: int) -> None:
        """Lets a part that failed run again, or tells that it failed for good."""
        part = replace(part, failures=part.failures + 1)
        if part.failures >= self.job.attempts:
            raise Refusal('%s failed %d times: %s' % (part.name(), part.failures, reason), status)
        self.waiting.append(part)

    def take(self, part: Part, status: int, line: bytes, errors: bytes) -> None:
        """What comes of a run that ended: a report, two smaller parts, another try, or the end."""
        if status == TOO_MANY and self.job.most_findings is not None and self.job.most_findings <= MOST_FINDINGS:
            raise Refusal('more than %d' % self.job.most_findings, TOO_MANY)
        if status in (OVER_LIMIT, TOO_MANY) and len(part.entries) > 1:
            self.waiting += part.halves()
        elif status in (OVER_LIMIT, TOO_MANY):
            raise Refusal('%s: %s' % (part.name(), said(self.job, status, errors)), status)
        elif status != 0:
            self.again(part, said(self.job, status, errors), status if status > 0 else 128 - status)
        else:
            try:
                self.found.append(pieces_of(line))
            except NoReport as reason:
                self.again(part, str(reason), PART_FAILED)

    def finish_some(self) -> None:
        done, _ = wait(self.running, return_when=FIRST_COMPLETED)
        for future in done:
            part = self.running.pop(future)
            try:
                outcome = future.result()
            except Exception as error:  # whatever a worker says, the part must not be lost
                self.again(part, kind_of(error), PART_FAILED)
            else:
                self.take(part, *outcome)

    def run(self) -> list[Pieces]:
        """The pieces of all parts' reports."""
        try:
            while self.waiting or self.running:
                self.start_some()
                self.finish_some()
        finally:
            for future in self.running:
                future.cancel()
        return self.found
