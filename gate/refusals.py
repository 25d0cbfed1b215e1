"""Runs of programs to which memory is refused."""
import collections
import os
import subprocess

from checks import ROOT, SECONDS, built

MOST_GROWTHS = 4000

# `allows` says whether an end is right where up to so many growths were refused.
Run = collections.namedtuple("Run", "name words given allows")
Ended = collections.namedtuple("Ended", "status out err")


def build_shim(room):
    """Compiles what refuses memory, by the compiler of the Rattle kit."""
    kit = os.path.dirname(subprocess.run(["rt", "doc"], stdout=subprocess.PIPE, check=True).stdout.decode().strip())
    clang = [f"{kit}/toolchain/bin/clang", "--no-default-config", "-shared", "-fPIC", "-O1", "-nostdlib"]
    shim = f"{room}/refuse.so"
    subprocess.run([*clang, "-fuse-ld=lld", "-o", shim, f"{ROOT}/gate/refuse.c"], check=True)
    return shim


def tests_of(crate):
    """The program that runs the tests of this crate."""
    return built(crate, f"{crate}_tests")


def run_once(words, given, first=0, last=0, shim=None):
    """Runs a program, its growths from the first to the last refused. Answers its end, and whether one was refused."""
    reading, writing = os.pipe()
    env = {"REFUSE_FROM": str(first), "REFUSE_TO": str(last), "REFUSE_REPORT": str(writing)}
    how = {"env": {**env, "LD_PRELOAD": shim} if shim else {}, "pass_fds": [writing], "timeout": SECONDS}
    with os.fdopen(reading, "rb") as report:
        try:
            ran = subprocess.run(words, input=given, stdout=subprocess.PIPE, stderr=subprocess.PIPE, **how)
        finally:
            os.close(writing)
        marks = report.read()
    if shim and not marks.startswith(b"+"):
        raise RuntimeError(f"what refuses memory was not loaded into {words[0]}")
    return Ended(ran.returncode, ran.stdout, ran.stderr), b"-" in marks


def has_too_many(run, shim):
    """Whether the run has more growths than can be tried one after the other."""
    return run_once(run.words, run.given, MOST_GROWTHS + 1, MOST_GROWTHS + 1, shim)[1]


def growths_of(run, shim):
    """Which growths of the run are refused, and one that it has not: each, or of a run with too many each twentieth part further."""
    growth, step = 1, 20 if has_too_many(run, shim) else MOST_GROWTHS + 1
    while True:
        yield growth
        growth += 1 + growth // step


def sweep(run, shim):
    """Refuses growths of the run. Answers how many, and what went wrong, if something did."""
    is_test = "_tests" in run.words[0]
    for count, growth in enumerate(growths_of(run, shim)):
        for last in [growth] if is_test else [growth, 2**63]:
            try:
                ended, was_refused = run_once(run.words, run.given, growth, last, shim)
            except subprocess.TimeoutExpired:
                return growth, f"with growth {growth} refused it had not ended after {SECONDS} seconds"
            if not run.allows(ended, was_refused * (1 + last - growth)):
                what = f"growth {growth}{' and all after it' if last > growth else ''}" if was_refused else "nothing"
                return growth, f"{what} refused: status {ended.status}, {ended.out[:300]!r}, {ended.err[:300]!r}"
        if not was_refused:
            return count, None if count or is_test else "it met no refusal"
