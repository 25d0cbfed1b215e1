#!/usr/bin/env python3
"""Breaks on purpose what runs around the program: kills each part at each step, fills disks, cuts dumps, sets the clock, carries a large
store to another machine. Each time a dump has to be whole, and what was withdrawn has to reach who trusts it.

usage: gate/breaks.py [NAME..]   (over the program that rt ci or rt run has built in crates/bundled/out/)

The scripts are those of the repository, over the real program. With names only the checks of these names are run.
"""
import importlib
import os
import signal
import sys

sys.dont_write_bytecode = True

from checks import ROOT, run_checks  # noqa: E402

MODULES = ["breaks_units", "breaks_loops", "breaks_etcd", "breaks_scale", "breaks_clock"]


def main(names):
    # A script that was started in the background ignores it, and so would the scripts that are started here.
    signal.signal(signal.SIGINT, signal.default_int_handler)
    found = [importlib.import_module(it) for it in MODULES if os.path.exists(f"{ROOT}/gate/{it}.py")]
    checks = [it for module in found for it in module.CHECKS]
    needs = {}
    for module in found:
        needs.update(getattr(module, "NEEDS", {}))
    return run_checks([it for it in checks if it.__name__ in (names or [it.__name__])], needs=needs)


if __name__ == "__main__":
    sys.exit(main(sys.argv[1:]))
