#!/usr/bin/env python3
"""Measures `yaml_read::read_yaml` beside PyYAML's CSafeLoader on a generated rule file of 262,144 bytes.

`measure_yaml.py PROGRAM`, where PROGRAM reads its standard input and gives it to `read_yaml` twenty times. It prints the
processor time of one reading of each, without start-up: the least of seven runs, less the least of as many on an empty text.
"""
import random
import resource
import subprocess
import sys
import tempfile

SIZE = 262_144
RUNS = 7
TIMES = 20
PYTHON = f"""
import sys, yaml
text = sys.stdin.buffer.read()
for _ in range({TIMES}):
    yaml.load(text, Loader=yaml.CSafeLoader)
"""


def rule(n, severity):
    """A rule as rule files have them."""
    return f"""- id: python.lang.security.audit.rule-{n}
  languages: [python, py]
  severity: {severity}
  message: >-
    Found a call of `subprocess` function '$FUNC' with `shell=True`. This is
    dangerous because this call will spawn the command using a shell process.

    Use `shell=False` instead: rule {n}.
  metadata:
    cwe:
    - "CWE-78: Improper Neutralization of Special Elements used in an OS Command (\\u201cOS Command Injection\\u201d)"
    owasp: ['A1:2017 - Injection', "A03:2021 - Injection"]
    references:
      - https://docs.python.org/3/library/subprocess.html#rule-{n}
    confidence: MEDIUM   # so far
  patterns:
    - pattern-either:
        - pattern: subprocess.$FUNC(..., shell=True, ...)
        - pattern: |
            $X = $Y
            ...
            os.system($X, {n})
    - pattern-not: 'subprocess.$FUNC("...", shell=True, ...)'
    - metavariable-regex:
        metavariable: $FUNC
        regex: ^(call|run|Popen|check_output)$
"""


def rules():
    """As many rules as fit, and a comment."""
    choice = random.Random(7).choice
    text, n = 'rules:\n', 1
    while True:
        one = rule(n, choice(['INFO', 'WARNING', 'ERROR']))
        if len(text) + len(one) + 60 > SIZE:
            return text + '# ' + 'x' * (SIZE - len(text) - 3) + '\n'
        text += one
        n += 1


def seconds(command, text):
    """The least processor time of some runs on a text."""
    least = float('inf')
    for _ in range(RUNS):
        with tempfile.TemporaryFile() as file:
            file.write(text.encode())
            file.seek(0)
            start = resource.getrusage(resource.RUSAGE_CHILDREN)
            subprocess.run(command, stdin=file, stdout=subprocess.DEVNULL, check=True)
            end = resource.getrusage(resource.RUSAGE_CHILDREN)
        least = min(least, end.ru_utime + end.ru_stime - start.ru_utime - start.ru_stime)
    return least


def reading(command, text):
    """The milliseconds of one reading."""
    return (seconds(command, text) - seconds(command, '')) / TIMES * 1000


text = rules()
ours = reading([sys.argv[1]], text)
theirs = reading([sys.executable, '-c', PYTHON], text)
print(f'read_yaml {ours:.1f} ms, CSafeLoader {theirs:.1f} ms, ratio {ours / theirs:.3f}')
