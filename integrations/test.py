#!/usr/bin/env python3
"""Runs all tests of the folders integrations and rules.

Those that need the built program use the one that SEMSCAN names, else crates/semscan/out/semscan; where there is none they are
skipped, and so are those that need Dask, pre-commit, Neovim, Emacs or git where these are not installed.
"""
import collections
import os
import sys
import unittest

HERE = os.path.dirname(os.path.abspath(__file__))


def main() -> int:
    suite = unittest.defaultTestLoader.discover(os.path.join(HERE, 'tests'), top_level_dir=HERE)
    outcome = unittest.TextTestRunner(verbosity=1, stream=sys.stdout).run(suite)
    bad = len(outcome.failures) + len(outcome.errors) + len(outcome.unexpectedSuccesses)
    for reason, count in collections.Counter(reason for _, reason in outcome.skipped).items():
        print('skipped %d: %s' % (count, reason))
    skipped = len(outcome.skipped)
    print('integrations and rules: %d tests held, %d did not, %d were skipped' % (outcome.testsRun - bad - skipped, bad, skipped))
    return 1 if bad else 0


sys.exit(main())
