"""What rests on the clock of the machine, when that is set a day forwards and a day back: ages that a monitor asks for, the times at
which documents are due, and those of dumps. `date` is a script here that tells another time.
"""
import os
import subprocess
import time

from breaks_cron import REFRESH, Endpoint
from breaks_cron import Store as StoreOfList
from breaks_etcd import FOLLOW, NOWHERE, Judge
from breaks_loops import PEM, WITHDRAWN, Follower, is_failure
from breaks_units import AFTER, BEFORE, DUMP, Store, run_script
from checks import SECONDS, Room, canonical, dump_of, numbered, part, wait_until
from recipe_rooms import BOTH, stop

DAY = 86_400
JUMPS = (DAY, 0, -DAY, 0)
# How old something is that a check of an age of a second has to call old; and clocks that were set back by about as much.
OLD = 3
CLOCKS = (0, -OLD + 1, -OLD, -OLD - 1, -OLD - 2, -DAY, DAY)


class Clock:
    """What `date +%s` tells in a room that has a folder of programs, so many seconds ahead of the machine's clock."""

    def __init__(self, room):
        self.room = room
        self.set(0)
        real = subprocess.run(["which", "date"], stdout=subprocess.PIPE, text=True, check=True).stdout.strip()
        text = f'#!/bin/sh\n[ "$*" = +%s ] || exec {real} "$@"\necho $(($({real} +%s) + $(cat {room.path}/ahead)))\n'
        os.chmod(room.write("bin/date", text.encode()), 0o755)

    def set(self, ahead):
        self.room.write("ahead.new", str(ahead).encode())
        os.rename(f"{self.room.path}/ahead.new", f"{self.room.path}/ahead")

    def environment(self):
        return {**os.environ, "PATH": f"{self.room.path}/bin:{os.environ['PATH']}"}


def act_goes_on():
    """Whatever the clock does what is withdrawn is trusted by nobody, and the last success is new to a monitor; and one that is old is
    old by each clock, also one that was set back by just its age."""
    follower = Follower()
    clock = Clock(follower)
    look = lambda seconds, status: run_script(f"{PEM}/act", "--max-age", str(seconds), f"{follower.path}/state", status=status, env=clock.environment())
    follower.start()
    for ahead in JUMPS:
        with part(ahead=ahead):
            follower.is_trusted()
            clock.set(ahead)
            follower.set(WITHDRAWN)
            follower.is_refused("the clock was set")
            wait_until(lambda: not is_failure(follower, SECONDS), "the last success is new")
            look(SECONDS, 0)
    follower.stop()
    time.sleep(OLD)
    for ahead in CLOCKS:
        with part(ahead=ahead):
            clock.set(ahead)
            assert "seconds old" in look(1, 1)
            look(10 * SECONDS, 0)


def follow_goes_on():
    """So does a machine that follows etcd."""
    judge = Judge(BOTH)
    room, clock = judge.room, Clock(judge.room)
    judge.shows(BOTH)
    running = room.start(f"exec {FOLLOW} dump true", **NOWHERE)
    for number, ahead in enumerate(JUMPS, 10):
        with part(ahead=ahead):
            clock.set(ahead)
            room.set({"a.example": numbered(number)})
            wanted = {**BOTH, "a.example": numbered(number)}
            judge.shows(wanted)
            wait_until(lambda: os.path.exists(f"{room.path}/dump") and room.read("dump") == dump_of(wanted), "it goes on")
            wait_until(lambda: room.run(f"{FOLLOW} --max-age {SECONDS} dump", status=None) == "", "that all is well is new")
    stop(running)
    room.run(f"{FOLLOW} --once dump true")
    time.sleep(OLD)
    for ahead in CLOCKS:
        with part(ahead=ahead):
            clock.set(ahead)
            assert "seconds ago" in room.run(f"{FOLLOW} --max-age 1 dump", status=1)
            assert room.run(f"{FOLLOW} --max-age {10 * SECONDS} dump") == ""


# The refresh hints of two documents, in seconds: five minutes, and four weeks.
SHORT, LONG = 300, 2_419_200
# When the clock is how far ahead, and which documents are fetched then; the runs come one after the other.
RUNS = [(0, "ab", "at first all are"), (0, "", "none is due"), (DAY, "a", "a day is longer than one of the hints"), (DAY, "", "none is due"),
        (0, "ab", "the clock was set back to where it was"), (0, "", "none is due"), (-DAY, "ab", "the clock was set back"), (-DAY, "", "none is due"),
        (SHORT + 1 - DAY, "a", "the short hint is over"), (LONG + SHORT + 1 - DAY, "ab", "both are"), (0, "ab", "a month back")]


def a_refresh_waits_no_longer_than_a_hint():
    """Wherever the clock was: a time at which a document is due that was reckoned by a later clock counts for nothing."""
    store = StoreOfList({})
    room, clock = store.room, Clock(store.room)
    served = Endpoint(room)
    documents = {"a": canonical("rotation"), "b": canonical("spire-default")}
    served.answers = {name: (200, text) for name, text in documents.items()}
    served.list(*documents)
    for number, (ahead, wanted, why) in enumerate(RUNS):
        with part(number=number, why=why):
            clock.set(ahead)
            served.asked.clear()
            assert room.run(REFRESH) == "", room.read("faults")
            assert "".join(sorted(served.asked)) == wanted, (why, served.asked, room.read("due"))
            now = int(room.run("date +%s"))
            due = dict(line.split() for line in room.read("due").decode().splitlines())
            assert int(due["a.example"]) <= now + SHORT and int(due["b.example"]) <= now + LONG, (now, due)
            room.run("bundled ask --port 8443 --raw fetch > asked")
            assert room.read("asked") == dump_of({f"{name}.example": text for name, text in documents.items()})


def a_run_that_was_cut_off():
    """If the time of the last run is not there, or torn, all is due."""
    store = StoreOfList({})
    room = store.room
    served = Endpoint(room)
    served.answers = {"b": (200, canonical("spire-default"))}
    served.list("b")
    room.run(REFRESH)
    assert served.asked == ["b"]
    for text in (None, b"", b"x\n"):
        with part(text=text):
            os.remove(f"{room.path}/ran") if text is None else room.write("ran", text)
            served.asked.clear()
            assert (room.run(REFRESH), served.asked) == ("", ["b"])
            assert (room.run(REFRESH), served.asked) == ("", ["b"])


def dumps_of_another_time():
    """Which dump is loaded, and which one a dump takes the place of, does not go by their times; that of dump.1 is only told."""
    for first, second in ((0, DAY), (DAY, 0), (-DAY, DAY), (DAY, -DAY), (DAY, DAY)):
        with part(first=first, second=second):
            room = Room()
            now = int(time.time())
            for name, items, at in (("dump", AFTER, now + first), ("dump.1", BEFORE, now + second)):
                os.utime(room.write(name, dump_of(items)), (at, at))
            store = Store(room.path)
            assert store.holds() == dump_of(AFTER), store.said()
            store.set({"more.example": numbered(1)})
            os.utime(f"{room.path}/dump", (now + second, now + second))
            run_script(DUMP, f"{room.path}/dump", str(store.port))
            newest = dump_of({**AFTER, "more.example": numbered(1)})
            assert (room.read("dump"), room.read("dump.1")) == (newest, dump_of(AFTER))
            assert store.end() == 0
            room.write("dump", newest[:-1])
            os.utime(room.write("dump.1", newest), (now + second, now + second))
            store = Store(room.path)
            told = time.strftime("%Y-%m-%dT%H:%M:%SZ", time.gmtime(now + second))
            assert store.holds() == newest and f"dump.1 of {told} is loaded" in store.said(), store.said()
            assert store.end() == 0


CHECKS = [act_goes_on, follow_goes_on, a_refresh_waits_no_longer_than_a_hint, a_run_that_was_cut_off, dumps_of_another_time]
NEEDS = {act_goes_on: ["openssl", "flock"], follow_goes_on: ["etcd", "etcdctl", "flock"], dumps_of_another_time: ["flock"],
         **{it: ["openssl", "curl", "flock"] for it in (a_refresh_waits_no_longer_than_a_hint, a_run_that_was_cut_off)}}
