# SPDX-License-Identifier: Apache-2.0
"""Runs the tests of the clients: over the built program, and over servers
that fail.

usage: python3 clients/python/test_hopslintel.py [PROGRAM] [unittest's words]

The program is PROGRAM, else that of the environment variable BUNDLED, else
crates/bundled/out/bundled. Expected values are made by hand from
docs/FORMATS.md; canonical texts of real bundles were made by another program.
"""
import os
import sys
import unittest

sys.dont_write_bytecode = True

HERE = os.path.dirname(os.path.abspath(__file__))


def load_tests(loader, tests, pattern):
    """The tests of the folder `tests`."""
    return loader.discover(f"{HERE}/tests", top_level_dir=HERE)


if __name__ == "__main__":
    if len(sys.argv) > 1 and os.path.isfile(sys.argv[1]):
        os.environ["BUNDLED"] = sys.argv.pop(1)
    unittest.main()
