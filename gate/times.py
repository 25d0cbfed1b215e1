#!/usr/bin/env python3
"""Runs a command of the gate, and tells how much processor time each crate takes in it, and for what.

usage: gate/times.py rt ci --anew     the whole gate, from nothing
       gate/times.py rt ci NAME       a crate and those below it, where nothing is kept of them
       gate/times.py --write rt ..    the same, and writes the table into docs/TESTING.md, by which ./check tells what is left

What runs is looked at twice a second, so what takes less than a second is left out of the table; what all took together is
counted by the system. The table has a row for each crate: the seconds of its own proof, of its tests, of the check that its
wrong bodies begin with, and of the wrong bodies. Below it stand the wrong bodies that took longest.
"""
import collections
import os
import re
import resource
import signal
import subprocess
import sys
import time

sys.dont_write_bytecode = True

from wrong_bodies import ROOT, edits_of, edited  # noqa: E402

TICKS = os.sysconf("SC_CLK_TCK")
KINDS = ["proof", "tests", "check before its wrong bodies", "wrong bodies"]
SLOWEST = 20
PAGE = f"{ROOT}/docs/TESTING.md"
# Where the table stands there.
TABLE = re.compile(r"^\| crate \|(?:.*\n)+?(?=\n)", re.M)

# A process that checks or builds: what it works on, in which folder, and its seconds until now.
Seen = collections.namedtuple("Seen", "crate kind folder seconds")


def text_of(path):
    with open(path, encoding="utf-8", errors="replace") as it:
        return it.read()


def look(process, session):
    """What a process is seen to do, if it is one of the prover's, and of this session."""
    words = text_of(f"/proc/{process}/cmdline").split("\0")
    fields = text_of(f"/proc/{process}/stat").rpartition(")")[2].split()
    if os.path.basename(words[0]) != "rattle" or "--crate-name" not in words or int(fields[3]) != session:
        return None
    folder = os.readlink(f"/proc/{process}/cwd")
    kind = KINDS["--test" in words or 2 * ("/rt-edit-" in folder)]
    return Seen(words[words.index("--crate-name") + 1], kind, folder, (int(fields[11]) + int(fields[12])) / TICKS)


class Times:
    """What was seen of the processes, and which wrong body stands in which folder."""

    def __init__(self):
        self.seen, self.edits, self.texts = {}, {}, {}

    def watch(self, session):
        for process in filter(str.isdigit, os.listdir("/proc")):
            try:
                found = look(process, session)
                if found:
                    self.seen[process, found.folder, found.crate] = found
                    if found.kind == KINDS[2] and found.folder not in self.edits:
                        self.edits[found.folder] = self.edit_in(found)
            except (OSError, ValueError):
                # It has ended meanwhile.
                continue

    def edit_in(self, found):
        """The wrong body that stands in the folder: none if it is the crate as it is."""
        if found.crate not in self.texts:
            self.texts[found.crate] = {it: edited(found.crate, it) for it in edits_of(found.crate, "must-fail")}
        for edit, texts in self.texts[found.crate].items():
            if texts and all(text_of(f"{found.folder}/{path}") == text for path, text in texts.items()):
                return os.path.basename(edit)
        return None

    def rows(self):
        """Seconds by crate and kind, and by wrong body."""
        crates, bodies = collections.defaultdict(collections.Counter), collections.Counter()
        for found in self.seen.values():
            edit = self.edits.get(found.folder)
            crates[found.crate][KINDS[3] if edit else found.kind] += found.seconds
            if edit:
                bodies[f"{found.crate}/{edit}"] += found.seconds
        return crates, bodies


def table_of(crates):
    """The rows of the crates, those that take longest first, and the sum."""
    rows = sorted(crates.items(), key=lambda it: -it[1].total())
    rows.append(("all", sum(crates.values(), collections.Counter())))
    lines = [f"| crate | {' | '.join(KINDS)} |", f"|---{'|---:' * len(KINDS)}|"]
    lines += [f"| {crate} | {' | '.join(f'{row[it]:.0f}' for it in KINDS)} |" for crate, row in rows]
    return "".join(f"{it}\n" for it in lines)


def tell(times, is_written):
    crates, bodies = times.rows()
    print(table_of(crates))
    for body, seconds in bodies.most_common(SLOWEST):
        print(f"{seconds:6.0f} {body}")
    used = resource.getrusage(resource.RUSAGE_CHILDREN)
    print(f"all together: {(used.ru_utime + used.ru_stime) / 60:.0f} minutes of processor time")
    if is_written:
        text = text_of(PAGE)
        with open(PAGE, "w", encoding="utf-8") as it:
            it.write(TABLE.sub(lambda _: table_of(crates), text, count=1))


def main(words):
    is_written = words[:1] == ["--write"]
    command = words[is_written:]
    if not command or command[0].startswith("-"):
        print(__doc__, end="", file=sys.stderr)
        return 2
    times, start = Times(), time.monotonic()
    with subprocess.Popen(command, cwd=ROOT, stdin=subprocess.DEVNULL, start_new_session=True) as running:
        try:
            while running.poll() is None:
                times.watch(running.pid)
                time.sleep(0.5)
        except KeyboardInterrupt:
            os.killpg(running.pid, signal.SIGINT)
    tell(times, is_written)
    print(f"on the clock: {(time.monotonic() - start) / 60:.0f} minutes, on {len(os.sched_getaffinity(0))} processors")
    return running.returncode


if __name__ == "__main__":
    sys.exit(main(sys.argv[1:]))
