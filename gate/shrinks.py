#!/usr/bin/env python3
"""Sessions that hypothesis makes, each of whose replies the model of gate/model.py foretells: one that is answered otherwise is told
by the few requests that show it.

usage: gate/shrinks.py   (over the program that rt ci or rt run has built in crates/bundled/out/)

It is left out if Debian's Python has no hypothesis. The sessions are the same at each run, and have in them what the generator of
the model seldom makes: names twice in an object, halves of surrogates, numbers in all forms. That a session is shrunk is tried
over models into which a fault was put.
"""
import functools
import os
import subprocess
import sys

sys.dont_write_bytecode = True

from checks import ROOT, SECONDS, Room, program, run_checks  # noqa: E402

# Where Debian installs hypothesis, and the Python that has it.
DEBIAN_PYTHON, HYPOTHESIS = "/usr/bin/python3", "/usr/lib/python3/dist-packages/hypothesis/__init__.py"
# Each fault of gate/shrunk_sessions.py, and how many requests show it: a set, a remove and an older set; or a set.
FAULTS = {"tombstones": 3, "members": 1, "surrogates": 1}


def shrunk(*words):
    """The lines of a session that is answered otherwise, and what differs."""
    program()
    room = Room()
    how = {"cwd": room.path, "env": {**os.environ, "HYPOTHESIS_STORAGE_DIRECTORY": room.path}, "stdin": subprocess.DEVNULL}
    ran = subprocess.run([DEBIAN_PYTHON, f"{ROOT}/gate/shrunk_sessions.py", *words], capture_output=True, text=True, timeout=5 * SECONDS, **how)
    assert ran.returncode == 0, ran.stderr
    return ran.stdout.splitlines()


def sessions_are_as_the_model_says():
    lines = shrunk()
    assert not lines, "\n".join(["these requests are answered otherwise:", *lines])


def is_shrunk(fault, most):
    """A session that shows the fault has no more requests than are needed."""
    *requests, _ = shrunk(fault)
    assert 1 <= len(requests) <= most, requests
    return f"; it is told by {', '.join(requests)}"


CHECKS = {sessions_are_as_the_model_says.__name__: sessions_are_as_the_model_says}
CHECKS |= {f"a fault of {it}": functools.partial(is_shrunk, it, most) for it, most in FAULTS.items()}


if __name__ == "__main__":
    sys.exit(run_checks(CHECKS, needs=dict.fromkeys(CHECKS.values(), [DEBIAN_PYTHON, HYPOTHESIS])))
