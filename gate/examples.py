#!/usr/bin/env python3
"""Runs the examples of the README and of the pages that continue it, and compares what they print with what stands there.

usage: gate/examples.py   (over the program that rt ci or rt run has built in crates/bundled/out/)

An example is a block of lines, four spaces in, with a command after each '$' and below it what it prints. The commands of a
block are run by one shell, at the top of the repository, after what the blocks before it say of where the program is, that of
the README for the other pages too. What they print comes in one order, at each run: two commands that run beside each other don't both print,
and one in the background is waited for.
"""
import functools
import os
import re
import signal
import subprocess
import sys

sys.dont_write_bytecode = True

from checks import ROOT, Room, bytes_of, run_checks, unused_port  # noqa: E402

PAGES = ("README.md", "docs/USING.md", "docs/FETCH-ALL.md")
# The port that the texts name; another one is asked in its place.
PORT = "8443"
SECONDS = 300
# A server in the background is ready when it says so.
UNTIL_READY = f'for _ in $(seq {SECONDS}0); do grep -q ^listening "$OUTPUT" && break; sleep 0.1; done'

# (that a block has killed its server at the end is no output of a command)
UNTIL_ENDED = "wait 2> /dev/null"


def examples(page):
    """Yields of each block of the page with commands its line, the commands, and what they print."""
    text = bytes_of(f"{ROOT}/{page}").decode()
    for block in re.finditer(r"^    \$ .*\n(?:    .*\n|\n(?=    ))*", text, re.M):
        lines = [it[4:] for it in block[0].split("\n")[:-1]]
        commands = [it[2:] for it in lines if it.startswith("$ ")]
        yield text.count("\n", 0, block.start()) + 1, commands, [it for it in lines if not it.startswith("$ ")]


def printed(commands, at=ROOT):
    """What the commands print in a folder, with what those in the background print until they end."""
    script = []
    for command in commands:
        script += [command, UNTIL_READY] if command.endswith("&") else [command]
    room = Room()
    words = ["bash", room.write("script", "\n".join([*script, UNTIL_ENDED, ""]).encode())]
    with open(f"{room.path}/output", "wb") as output:
        how = {"cwd": at, "env": {**os.environ, "OUTPUT": output.name, "TMPDIR": room.path}, "stdin": subprocess.DEVNULL}
        with subprocess.Popen(words, **how, stdout=output, stderr=subprocess.STDOUT, start_new_session=True) as running:
            try:
                running.wait(SECONDS)
            except subprocess.TimeoutExpired:
                os.killpg(running.pid, signal.SIGKILL)
    return room.read("output").decode(errors="replace").split("\n")[:-1]


def counted(line):
    """A line of the race without its counts, which differ from run to run: only a fetch-all has to show no wrong map."""
    return re.sub(r"\b[1-9]\d*\b" if line.startswith("fetch-all") else r"\d+", "N", line)


def alike(commands, lines):
    """Lines that the commands print, in the form in which they are the same at each run."""
    if any("bundled race" in it for it in commands):
        # (a naive reader may be lucky, and then has no first wrong map)
        return [counted(it) for it in lines if "the first: " not in it]
    return lines


def prints(commands, wanted, at=ROOT):
    """The commands print these lines in a folder."""
    port = str(unused_port())
    found = printed([it.replace(PORT, port) for it in commands], at)
    wanted = [it.replace(PORT, port) for it in wanted]
    assert alike(commands, found) == alike(commands, wanted), "\n".join(["it prints something else:", *found])


def checks(at=ROOT):
    """A check for each example, by its page and line, in the repository or in a release that is unpacked in another folder."""
    places, found = [], {}
    for page in PAGES:
        for line, commands, wanted in examples(page):
            found[f"{page}:{line}"] = functools.partial(prints, [*places, *commands], wanted, at)
            places += [it for it in commands if it.startswith("PATH=")]
    return found


if __name__ == "__main__":
    sys.exit(run_checks(checks()))
