#!/usr/bin/env python3
"""A store that is large, through etcd: 20 MiB of real bundles are published, and followed byte for byte. gate/breaks.py runs this.

usage: gate/breaks_scale.py MEBIBYTES   a store of so many, also through the commands that read dumps; what it takes is told
"""
import os
import re
import subprocess
import sys
import time

sys.dont_write_bytecode = True

import saves  # noqa: E402
from breaks_etcd import FOLLOW, Judge  # noqa: E402
from checks import bytes_of, dump_of, numbered, run_checks  # noqa: E402
from recipe_rooms import EXAMPLES  # noqa: E402
from recipes_etcd import Follower, digest_of  # noqa: E402

MEBIBYTES = 20
# A domain in the middle that is withdrawn, and one that is removed; and the document without any authority, of a later sequence.
WITHDRAWN, REMOVED = "d000900.example", "d000901.example"
NO_AUTHORITY = numbered(41)


def large_stores():
    """20 MiB of real bundles go to a machine that follows, and so does what is withdrawn or removed then."""
    items = saves.large(MEBIBYTES)
    judge = Judge({})
    judge.crash(dump_of(items))
    judge.shows(items)
    follower = Follower(judge.room)
    follower.comes_to(dump_of(items), "all is there")
    items[WITHDRAWN] = NO_AUTHORITY
    judge.room.set({WITHDRAWN: NO_AUTHORITY})
    judge.shows(items)
    follower.comes_to(dump_of(items), "what was withdrawn is there")
    judge.remove(REMOVED)
    del items[REMOVED]
    judge.shows(items)
    follower.comes_to(dump_of(items), "what was removed is gone")
    return f", {len(judge.etcd.current()) - 1} pieces"


NEEDS = {large_stores: ["etcd", "etcdctl", "flock"]}
CHECKS = list(NEEDS)


def timed(room, what, text, status=0):
    """Runs a script, and tells its seconds."""
    begun = time.monotonic()
    started = room.start(text, stdout=open(f"{room.path}/said", "wb"), stdin=subprocess.DEVNULL)
    started.wait()
    seconds, said = time.monotonic() - begun, room.read("said").decode()
    print(f"{what}: {seconds:.2f} s; {said.strip()[:100]}", flush=True)
    assert started.returncode == status, (started.returncode, said)


def measured(mebibytes):
    """Tells how long a store of so many mebibytes takes, and how much memory."""
    saves.measured(mebibytes)
    items = saves.large(mebibytes)
    dump = dump_of(items)
    judge = Judge({})
    room = judge.room
    judge.crash(dump)
    publish, follow = f"{EXAMPLES}/etcd/publish 8443", f"{FOLLOW} --once dump true"
    for what, changes in (("all", {}), ("the same", {}), ("one changed", {WITHDRAWN: NO_AUTHORITY}), ("one removed", None)):
        if changes is None:
            judge.remove(REMOVED)
            del items[REMOVED]
        elif changes:
            room.set(changes)
            items.update(changes)
        timed(room, f"publish, {what}", publish)
        timed(room, f"follow, {what}", follow)
        assert room.read("dump") == dump_of(items)
        peak = re.search(r"VmHWM:\s*(\d+)", bytes_of(f"/proc/{etcd_of(judge)}/status").decode())[1]
        print(f"etcd: {int(peak) / 1024:.0f} MiB, {os.path.getsize(f'{room.path}/etcd/member/snap/db') / 2**20:.0f} MiB in its file", flush=True)
    assert judge.etcd.current()[0] == digest_of(dump_of(items))


def etcd_of(judge):
    """The process of etcd, which the shell has become."""
    return judge.etcd.running.pid


if __name__ == "__main__":
    if len(sys.argv) != 2 or not sys.argv[1].isdigit():
        sys.exit(__doc__.strip())
    sys.exit(run_checks({"measured": lambda: measured(int(sys.argv[1]))}))
