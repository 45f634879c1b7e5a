"""Rule files with examples beside them: joining rule files, and comparing what rules find with what the examples say."""
import glob
import os
import re
import tempfile
from dataclasses import dataclass, field
from typing import Iterable, Iterator

from .part_run import put
from .program import fault_of_run, run_scan
from .refusal import Refusal
from .report_line import Report, read_report

MARK = re.compile(r'\b(not found|found): *([\w.-]+(?:, *[\w.-]+)*)')
RULE = re.compile(r'^ *- id: *["\']?([^"\'\s#]+)', re.MULTILINE)
DASH = re.compile(r'^( *)- ', re.MULTILINE)
OTHER_KEY = re.compile(r'^([\w-]+):(?:\s|$)', re.MULTILINE)
Place = tuple[str, int, str]


@dataclass
class Marks:
    """What examples say: where which rules find something and where they don't, as path, line and rule."""
    found: set[Place] = field(default_factory=set)
    absent: set[Place] = field(default_factory=set)


@dataclass
class Outcome:
    """What came of the test of a rule file: how many rules and marks it has, and the faults."""
    rules: int
    marks: int
    faults: list[str]


def read_text(path: str) -> str:
    try:
        with open(path, encoding='utf-8', newline='') as file:
            return file.read()
    except OSError as error:
        raise Refusal("%s can't be read: %s" % (path, error.strerror)) from None
    except UnicodeDecodeError:
        raise Refusal("%s can't be read: it isn't UTF-8" % path) from None


def ids_of(text: str) -> list[str]:
    """The ids of a rule file, in order."""
    return RULE.findall(text)


def list_of(path: str, text: str) -> str:
    """The list of rules of a file, with its dashes in the first column, so that the lists of several files can stand below each other."""
    head, found, rest = text.partition('rules:\n')
    if not found or any(line.strip() and not line.startswith('#') for line in head.splitlines()):
        raise Refusal("%s doesn't begin with the line rules:" % path)
    other = OTHER_KEY.search(rest)
    if other is not None:
        raise Refusal('%s has the key %s beside rules, which has no place among the rules of other files' % (path, other[1]))
    dash = DASH.search(rest)
    return re.sub('^ {0,%d}' % len(dash[1]), '', rest, flags=re.MULTILINE) if dash else rest


def joined_rules(paths: Iterable[str]) -> str:
    """One rule file with the rules of all."""
    pieces, seen = ['rules:\n'], {}
    for path in paths:
        text = read_text(path)
        rest = list_of(path, text)
        for name in ids_of(text):
            if name in seen:
                raise Refusal('%s and %s have a rule with the id %s' % (seen[name], path, name))
            seen[name] = path
        pieces.append(rest.rstrip('\n') + '\n')
    return '\n'.join(pieces)


def rule_files(paths: list[str]) -> list[str]:
    """The rule files at these paths: each itself, or the .yaml files below a folder."""
    files = []
    for path in paths:
        below = sorted(glob.glob(os.path.join(glob.escape(path), '**', '*.yaml'), recursive=True))
        files += below if os.path.isdir(path) else [path]
    if not files:
        raise Refusal('there are no rule files at %s' % ' '.join(paths))
    return files


def examples_of(rule_file: str) -> list[str]:
    """The examples of NAME.yaml: the files beside it whose names begin with NAME and a dot."""
    stem = rule_file.removesuffix('.yaml')
    return sorted(path for path in glob.glob(glob.escape(stem) + '.*') if path != rule_file and os.path.isfile(path))


def marks_of(path: str, text: str, marks: Marks) -> None:
    """Adds the marks of an example. A mark speaks of its own line."""
    for number, line in enumerate(text.split('\n'), 1):
        for kind, names in MARK.findall(line):
            places = {(path, number, name.strip()) for name in names.split(',')}
            (marks.found if kind == 'found' else marks.absent).update(places)


def scan_examples(program: str, rule_file: str, examples: list[str]) -> Report:
    """The report of a rule file over its examples alone, in a folder of their own."""
    with tempfile.TemporaryDirectory(prefix='semscan-rules-') as folder:
        put(folder, 'rules.yaml', read_text(rule_file).encode())
        for example in examples:
            put(folder, 'code/' + os.path.basename(example), read_text(example).encode())
        run = run_scan(program, ['--config', 'rules.yaml', 'code'], folder)
    fault = fault_of_run(run)
    if fault is not None:
        raise Refusal('%s: %s' % (rule_file, fault))
    return read_report(run.stdout)


def said_wrong(found: set[Place], marks: Marks) -> Iterator[str]:
    """Where the rules and the marks differ."""
    for path, line, rule in sorted(marks.found - found):
        yield '%s:%d: %s should be found and is not' % (path, line, rule)
    for path, line, rule in sorted(found - marks.found):
        yield '%s:%d: %s is found without a mark that says so' % (path, line, rule)
    for path, line, rule in sorted(marks.found & marks.absent):
        yield '%s:%d: %s is marked as found and as not found' % (path, line, rule)


def marked_badly(ids: list[str], marks: Marks) -> Iterator[str]:
    """Rules without a mark of each kind, and marks of rules that aren't there."""
    named = [{rule for _, _, rule in places} for places in (marks.found, marks.absent)]
    for rule in ids:
        for names, kind in zip(named, ('found', 'not found')):
            if rule not in names:
                yield '%s: no line is marked "%s: %s"' % (rule, kind, rule)
    for rule in sorted((named[0] | named[1]) - set(ids)):
        yield '%s: a mark names a rule that is not there' % rule


def test_rules(program: str, rule_file: str) -> Outcome:
    """Compares what the rules of a file find in the examples beside it with their marks, both ways."""
    ids = ids_of(read_text(rule_file))
    examples, marks = examples_of(rule_file), Marks()
    if not examples:
        raise Refusal('%s has no examples beside it' % rule_file)
    for example in examples:
        marks_of(os.path.basename(example), read_text(example), marks)
    report = scan_examples(program, rule_file, examples)
    found = {(finding.path.removeprefix('code/'), finding.start.line, finding.rule) for finding in report.findings}
    faults = [*said_wrong(found, marks), *marked_badly(ids, marks)]
    faults += ['%s: the notice %s (%s)' % (notice.rule or notice.path, notice.kind, notice.detail) for notice in report.notices]
    return Outcome(len(ids), len(marks.found) + len(marks.absent), ['%s: %s' % (rule_file, fault) for fault in faults])
