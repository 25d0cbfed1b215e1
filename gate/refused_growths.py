#!/usr/bin/env python3
"""Refuses memory to the built programs and tests: the growths of each run below, one after the other.

usage: gate/refused_growths.py   (over what rt ci, rt run and rt test have built in crates/*/out)

The growths of a run are counted up from 1 until a run meets no refusal; of a run that has more than 4,000 not each is
refused, but one after each twentieth part more. Each is refused by itself, and to the program
also together with all growths after it. A run that met a refusal says that memory ran out in its own words, `fault 22`,
the reply 22 or a test's error. `trace`, a set with a fetch-all, and the tests that are for refused growths have to say so
of each. The other runs, and the tests of MAY_GO_ON, may also end as if nothing had been refused, since some growths are
asked for again or done without:

- a chunk of the arena that a tree of JSON lies in. The kit's `bumpalo` asks for half of a chunk that was refused, if it
  is not the first. The first has room for a document without entries;
- what the kit asks for by the hint of an iterator: `collect`, `extend`;
- the room for a bundle that a lasting session is shown: it takes the bundle instead, and asks again.

Any other end is a failure.
"""
import os
import re
import sys
import tempfile
from concurrent.futures import ThreadPoolExecutor

sys.dont_write_bytecode = True

from checks import Told, what_went_wrong  # noqa: E402
from program_runs import program_runs  # noqa: E402
from refusals import Run, build_shim, run_once, sweep, tests_of  # noqa: E402

# The modules of test crates of which all tests are run, but for those that have too many growths to try each.
ALL = ["documents_tests spiffe", "map_tests plain_maps", "map_tests machines"]
# Of others those with such a word in their names: the rest starts threads, which take memory in any order, or asks
# whether an answer is a certain one, which 22 is not.
SOME = {"map_tests shared_maps": ["a_refused_growth"], "map_tests stores": ["a_refused_growth", "removed_sequences", "a_front_asks"],
        "documents_tests reports": ["a_refused_growth"], "program_tests dumps": ["a_refused_growth"],
        "protocol_tests frames": ["a_refused_growth"], "protocol_tests lines": ["a_refused_growth"],
        "protocol_tests clients": ["a_refused_growth"], "protocol_tests asked_lines": ["a_refused_growth"],
        "protocol_tests traces": ["a_refused_growth"],
        "protocol_tests views": ["a_refused_growth"], "protocol_tests trees": ["a_refused_growth"],
        "program_tests folders": ["a_refused_growth"], "program_tests schedules": ["a_refused_growth", "parts_of"]}
# The tests for refused growths that read documents with entries, and that of a lasting session.
MAY_GO_ON = {"frames a_refused_growth_is_met_again", "views a_refused_growth_leaves_no_part_of_a_diff",
             "views a_refused_growth_leaves_no_part_of_a_pem", "folders a_refused_growth_shows_nothing",
             "reports a_refused_growth_appends_nothing", "dumps a_refused_growth_is_told",
             "schedules a_refused_growth_changes_nothing"}
WANT_OF_MEMORY = re.compile(r'error: (Memory|AllocError|AllocFailed \{ \.\. \}|"out of memory")', re.I)
ANSWERED_MEMORY = re.compile(r'(error: ".*: |")memory\b.*, and not .*"')


def test_allows(name):
    """What may become of a test, by its module and its own name."""
    is_for_growths = "a_refused_growth" in name
    tells_each = is_for_growths and name not in MAY_GO_ON

    def allows(ended, refused):
        if not refused or ended.status == 0:
            return ended.status == 0 and not (refused and tells_each)
        error = ended.err.decode(errors="replace").split("\n")[0]
        # A test for refused growths has to go on after an answer of 22, and never meets a second one.
        is_answer = not is_for_growths and ANSWERED_MEMORY.fullmatch(error)
        return ended.status == 101 and bool(WANT_OF_MEMORY.fullmatch(error) or is_answer)

    return allows


def tests_in(tests, module):
    """The names of the tests of one module, as the program of the tests lists them."""
    names = re.findall(r"^(\S+): test$", run_once([tests, "--list"], b"")[0].out.decode(), re.M)
    return [name for name in names if name.startswith(f"{module}::")]


def test_runs():
    may_go_on = set(MAY_GO_ON)
    for place in [*ALL, *SOME]:
        crate, module = place.split()
        tests = tests_of(crate)
        names = tests_in(tests, module)
        words = SOME.get(place, [""])
        for word in words:
            if not any(word in name for name in names):
                sys.exit(f"no test of {place} has {word} in its name, which gate/refused_growths.py looks for")
        for name in names:
            if any(word in name for word in words):
                short = f"{module} {name.rpartition('::')[2]}"
                may_go_on.discard(short)
                yield Run(f"{crate} {name}", [tests, name], b"", test_allows(short))
    if may_go_on:
        sys.exit(f"gate/refused_growths.py finds no test {', '.join(sorted(may_go_on))}")


def swept(run, shim):
    """How many growths the run has, and what went wrong: also if it could not be run."""
    try:
        return sweep(run, shim)
    except Exception as error:
        return 0, what_went_wrong(error)


def main():
    told = Told()
    with tempfile.TemporaryDirectory(prefix="refused-growths-") as room:
        shim = build_shim(room)
        runs = [*program_runs(), *test_runs()]
        with ThreadPoolExecutor(os.cpu_count()) as pool:
            for run, (growths, why) in zip(runs, pool.map(lambda it: swept(it, shim), runs)):
                if why:
                    told.fails(run.name, why)
                else:
                    told.passes(run.name, f"; {growths} growths refused")
    return told.end()


if __name__ == "__main__":
    sys.exit(main())
