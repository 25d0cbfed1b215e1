#!/usr/bin/env python3
"""Breaks what carries bundles between machines: the judge, etcd, publishers, followers, and the endpoints of a refresh by cron.

usage: gate/breaks_etcd.py [NAME..]   (over the program that rt ci or rt run has built in crates/bundled/out/)

Whatever is broken, and at whatever step, no machine is taken back, no good file is replaced by an empty one or a part of one, and
what is well again once the cause is over. With names only the checks of these names are run.
"""
import os
import subprocess
import sys
import time

sys.dont_write_bytecode = True

import breaks_cron  # noqa: E402
from breaks_cron import Store  # noqa: E402
from checks import SECONDS, dump_of, line_of, numbered, run_checks, wait_until  # noqa: E402
from recipe_rooms import A, BLOCKS, BOTH, EXAMPLES, Shell  # noqa: E402
from recipes_etcd import KEYS, Etcd, Follower, a_judge, digest_of, many_bundles, name_of, publish  # noqa: E402

FOLLOW = f"{EXAMPLES}/etcd/follow"
NOWHERE = {"stdout": subprocess.DEVNULL, "stderr": subprocess.DEVNULL}
NOBODY = b'{"keys":[]}'


class Judge(Store):
    """A store, and an etcd in which it is published."""

    def __init__(self, items):
        super().__init__(items)
        self.etcd = Etcd(self.room)

    def remove(self, name):
        assert self.room.run(f"bundled ask --port 8443 remove {name}") == "removed\n"

    def refuses(self, why, options=""):
        """A publish is refused for this, and etcd has what it had."""
        before = self.etcd.current()
        said = self.room.run(f"{EXAMPLES}/etcd/publish {options} 8443", status=4)
        assert said == f"publish: refused: {why}\n", said
        assert self.etcd.current() == before

    def shows(self, items, options=""):
        """A publish is done, and these are there then."""
        digest = digest_of(dump_of(items))
        # (what is published by force may be told of before)
        assert self.room.run(f"{EXAMPLES}/etcd/publish {options} 8443").split()[-1] == digest
        assert self.etcd.current()[0] == digest


def a_judge_that_comes_back_old():
    """After a crash it has the dump of before: a sequence fell, a removed domain is there again, and one that was set since is not.
    No machine is taken back, and once each is as it was the next publish goes on by itself."""
    judge = Judge({"a.example": numbered(2), "b.example": numbered(1)})
    old = dump_of({"a.example": numbered(2), "b.example": numbered(1)})
    judge.shows({"a.example": numbered(2), "b.example": numbered(1)})
    judge.room.set({"a.example": numbered(10), "c.example": numbered(1)})
    judge.remove("b.example")
    newest = {"a.example": numbered(10), "c.example": numbered(1)}
    judge.shows(newest)
    follower = Follower(judge.room)
    follower.comes_to(dump_of(newest), "the last moment is shown")
    judge.crash(old)
    falls = "the sequence of a.example falls from 10 to 2"
    judge.refuses(f"{falls}, and 2 more")
    judge.room.set({"c.example": numbered(1)})
    judge.remove("b.example")
    judge.refuses(falls)
    judge.room.set({"a.example": NOBODY})
    judge.refuses("the sequence of a.example falls from 10 to none")
    judge.room.set({"a.example": numbered(11)})
    newest = {"a.example": numbered(11), "c.example": numbered(1)}
    judge.shows(newest)
    follower.comes_to(dump_of(newest), "it goes on")
    # (the same sequences, in another order of digits)
    assert all(b"b.example" not in it and numbered(2) not in it for it in follower.shown())
    judge.room.set({"a.example": numbered(2**64 - 1)})
    judge.shows({**newest, "a.example": numbered(2**64 - 1)})


def an_empty_judge():
    """One that comes back with nothing takes no domain away, and one that has lost all its domains since it was published does."""
    judge = Judge(BOTH)
    judge.shows(BOTH)
    judge.crash()
    gone = "is gone, and the store has started since the last publish"
    judge.refuses(f"a.example {gone}, and 1 more")
    judge.room.set({"a.example": A})
    judge.refuses(f"b.example {gone}")
    judge.room.set({"b.example": BOTH["b.example"]})
    judge.shows(BOTH)
    # A start is forgotten once all was there again.
    judge.remove("b.example")
    judge.shows({"a.example": A})
    judge.remove("a.example")
    judge.shows({})


def counts_that_come_late():
    """A store whose counts take seconds to come, on a busy machine, is not taken for one that has started since."""
    judge = Judge(BOTH)
    judge.shows(BOTH)
    # (so that it is seen to be up before it is asked, and not yet to have been at the last publish)
    time.sleep(5)
    room = judge.room
    real = room.run("command -v bundled").strip()
    late = f'[ "$1" = stats ] && mv {room.path}/late {room.path}/was-late 2> /dev/null && sleep 3'
    room.write_program("bundled", f'#!/bin/sh\n{real} "$@"\nstatus=$?\n{late}\nexit $status\n')
    room.write("late", b"")
    judge.remove("b.example")
    wanted = digest_of(dump_of({"a.example": A}))
    assert room.run(f"PATH={room.path}/bin:$PATH {EXAMPLES}/etcd/publish 8443") == f"published {wanted}\n"
    assert os.path.exists(f"{room.path}/was-late")


def a_removed_domain_that_comes_back():
    """Whatever its sequence is, and after whatever was published in between; a domain that is new goes on."""
    judge = Judge(BOTH)
    judge.shows(BOTH)
    judge.remove("b.example")
    judge.shows({"a.example": A})
    items = {"a.example": A, "c.example": numbered(1)}
    judge.room.set({"c.example": numbered(1)})
    judge.shows(items)
    comes_back = "b.example, removed before, comes back"
    for sequence in (1, 9):
        judge.room.set({"b.example": numbered(sequence)})
        judge.refuses(comes_back)
    # It may, once somebody has said so.
    items["b.example"] = numbered(9)
    judge.shows(items, "--force")
    judge.room.set({"b.example": numbered(10)})
    judge.shows({**items, "b.example": numbered(10)})
    judge.remove("b.example")
    judge.shows({"a.example": A, "c.example": numbered(1)})
    judge.room.set({"b.example": numbered(11)})
    judge.refuses(comes_back)


def too_few_domains():
    """Fewer than the guard says are not published, and not taken by a follower, whose file stays: that is told once."""
    judge = Judge(BOTH)
    judge.shows(BOTH, "--at-least 2")
    room = judge.room
    room.run(f"{FOLLOW} --once --at-least 2 dump true")
    judge.remove("b.example")
    judge.refuses("there are 1 domains, fewer than 2", "--at-least 2")
    judge.shows({"a.example": A}, "--at-least 1")
    few = f"follow: {digest_of(dump_of({'a.example': A}))} is not taken: it has 1 domains, fewer than 2\n"
    assert room.run(f"{FOLLOW} --once --at-least 2 dump true", status=4) == few
    assert room.read("dump") == dump_of(BOTH)
    room.variables["LONGEST"] = "1"
    room.start(f"exec {FOLLOW} --at-least 2 dump touch changed 2> said", stdout=subprocess.DEVNULL)
    wait_until(lambda: os.path.exists(f"{room.path}/said") and room.read("said"), "it is told")
    room.set({"c.example": NOBODY})
    judge.shows({"a.example": A, "c.example": NOBODY})
    wait_until(lambda: room.read("dump") == dump_of({"a.example": A, "c.example": NOBODY}), "what is enough is taken")
    assert room.read("said").decode() == few, room.read("said")


def kills_at(room, number, names, when):
    """Programs of these names that kill what has called them, before or after the call of this number in all."""
    room.write("calls", b"")
    kill = f'[ "$(wc -l < {room.path}/calls)" = {number} ] && kill -9 "$PPID"'
    for name in names:
        real = room.run(f"PATH={os.environ['PATH']} command -v {name}").strip()
        lines = ["#!/bin/sh", f"echo >> {room.path}/calls", *([f"{kill} && exit 1"] if when == "before" else []), f'{real} "$@"', "status=$?"]
        room.write_program(name, "\n".join([*lines, *([kill] if when == "after" else []), "exit $status", ""]))


def as_they_were(room, names):
    for name in names:
        os.remove(f"{room.path}/bin/{name}")


def until_none_is_killed(room, names, prepares, does, holds):
    """Does it, killed before and after each of its calls of these programs, and sees each time that something holds."""
    count = 0
    for when in ("before", "after"):
        number = 0
        while True:
            number += 1
            prepares()
            kills_at(room, number, names, when)
            does()
            calls = room.read("calls").count(b"\n")
            as_they_were(room, names)
            holds(f"{when} call {number} of {calls}")
            if calls < number:
                break
        count += number - 1
    assert count >= 10, count
    return f", killed {count} times"


class Changing:
    """A judge whose domain a.example is changed again and again."""

    def __init__(self):
        self.judge, self.sequence = Judge({"a.example": numbered(0), "b.example": A}), 0
        self.room = self.judge.room

    def dump(self, sequence=None):
        return dump_of({"a.example": numbered(self.sequence if sequence is None else sequence), "b.example": A})

    def change(self):
        self.sequence += 1
        self.room.set({"a.example": numbered(self.sequence)})


def publish_is_killed():
    """At each step: what is shown then is one moment or a later one, whole, and the next run shows the last."""
    it = Changing()
    publish(it.room)

    def holds(when):
        it.room.run(f"{FOLLOW} --once dump true")
        assert it.room.read("dump") in [it.dump(sequence) for sequence in range(it.sequence + 1)], when

    said = until_none_is_killed(it.room, ["etcdctl"], it.change, lambda: publish(it.room, status=None), holds)
    publish(it.room)
    it.room.run(f"{FOLLOW} --once dump true")
    assert it.room.read("dump") == it.dump()
    assert it.judge.etcd.pieces() >= set(it.judge.etcd.current()[1:])
    return said


def follow_is_killed():
    """At each step: its file is whole, and the next run has what was published last, and does the command for it."""
    it = Changing()
    room, follow = it.room, f"{FOLLOW} --once dump cp dump acted"

    def prepares():
        it.change()
        publish(room)

    def holds(when):
        assert room.read("dump") in (it.dump(it.sequence - 1), it.dump()), when
        room.run(follow)
        assert (room.read("dump"), room.read("acted")) == (it.dump(), it.dump()), when

    prepares()
    room.run(follow)
    return until_none_is_killed(room, ["etcdctl", "head", "sync", "mv", "cp"], prepares, lambda: room.run(follow, status=None), holds)


def a_file_that_is_damaged():
    """At its start `follow` puts it right and does the command, also for what it was done for once, and says how old that is."""
    it = Changing()
    publish(it.room)
    room = it.room
    assert room.run(f"{FOLLOW} --max-age 60 dump", status=1) == "follow: dump has never been what was published\n"
    room.run(f"{FOLLOW} --once dump true")
    for damaged in (b"", it.dump()[:-1]):
        room.write("dump", damaged)
        room.run(f"{FOLLOW} --once dump true")
        assert room.read("dump") == it.dump()
    room.variables["LONGEST"] = "1"
    room.write("dump", it.dump()[:20])
    room.start(f"exec {FOLLOW} dump cp dump acted", **NOWHERE)
    wait_until(lambda: os.path.exists(f"{room.path}/acted") and room.read("acted") == it.dump(), "the command is done")
    assert room.run(f"{FOLLOW} --max-age 600 dump") == ""
    # With etcd away nothing is well any more, which only the age says.
    it.judge.etcd.end()
    digest, boot, second = room.read("dump.done").decode().split()
    for when, at, why in ((boot, int(second) + 3600, "seconds ago"), ("another", second, "before this machine has started")):
        room.write("dump.done", f"{digest} {when} {at}\n".encode())
        said = room.run(f"{FOLLOW} --max-age 600 dump", status=1)
        assert said.startswith("follow: dump was what is published ") and said.endswith(f"{why}\n"), said
    assert room.read("dump") == it.dump()
    it.judge.etcd.start()
    wait_until(lambda: room.run(f"{FOLLOW} --max-age 600 dump", status=None) == "", "it goes on")


def an_older_moment():
    """A publisher that has asked first does not publish after one that has found all as it was."""
    judge = Judge({"a.example": NOBODY})
    room = judge.room
    judge.shows({"a.example": NOBODY})
    real = room.run("command -v etcdctl").strip()
    room.set({"a.example": A.replace(b',"spiffe_sequence":7', b"")})
    # Before its transaction the store has again what is published, and another publisher sees that.
    other = f"printf 'set a.example {NOBODY.decode()}\\n' | bundled ask --port {room.port} && {EXAMPLES}/etcd/publish {room.port}"
    room.write_program("etcdctl", f"""#!/bin/sh
        if [ "$1" = txn ] && ! [ -e {room.path}/overtaken ]; then
            touch {room.path}/overtaken
            ({other}) < /dev/null > {room.path}/other 2>&1
        fi
        exec {real} "$@"
    """)
    assert publish(room, status=3) == "publish: another run was faster\n"
    wanted = digest_of(dump_of({"a.example": NOBODY}))
    assert room.read("other").decode() == f"stored\nunchanged {wanted}\n"
    assert judge.etcd.current()[0] == wanted


def many_pieces():
    """More of them than a transaction of etcd has steps go there and back, and those of old moments are taken away."""
    items = many_bundles()
    room, etcd = a_judge(items)
    room.variables["PIECE"] = "30000"
    for sequence in range(1, 4):
        # (the number of digits changes what stands in each piece)
        items[name_of(0)] = numbered(10**sequence)
        room.set({name_of(0): items[name_of(0)]})
        publish(room)
        assert etcd.pieces() >= set(etcd.current()[1:])
    count = len(etcd.current()) - 1
    assert count > 128
    assert len(etcd.pieces()) <= 2 * count
    room.run(f"{FOLLOW} --once dump true")
    assert room.read("dump") == dump_of(items)
    return f", {count} pieces"


def pieces_that_are_lost():
    """What stands in etcd is not whole: no file is taken of it, and a publish makes it whole, or says that it cannot compare."""
    judge = Judge(BOTH)
    room = judge.room
    judge.shows(BOTH)
    room.run(f"etcdctl del --prefix {KEYS}/pieces/")
    room.write("dump", b"good")
    said = room.run(f"{FOLLOW} --once dump true", status=1)
    assert said == f"follow: pieces of {judge.etcd.current()[0]} are not there\n"
    assert room.read("dump") == b"good"
    judge.shows(BOTH)
    room.run(f"{FOLLOW} --once dump true")
    assert room.read("dump") == dump_of(BOTH)
    room.run(f"etcdctl del --prefix {KEYS}/pieces/")
    room.set({"a.example": numbered(8)})
    said = room.run(f"{EXAMPLES}/etcd/publish 8443", status=4)
    assert said.endswith("publish: refused: what was published last is not whole, so nothing can be compared with it\n"), said
    judge.shows({**BOTH, "a.example": numbered(8)}, "--force")


def recipes_by_hand():
    """With etcd away, or the store, each ends with a fault, and what was there stays."""
    put, get = BLOCKS["etcd"][-2].splitlines()
    watched = BLOCKS["etcd"][-1].strip().split("sh -c ")[1]
    judge = Judge(BOTH)
    room = judge.room
    room.run(f"{put}\n{get}")
    assert room.read("dump") == dump_of(BOTH)
    judge.end()
    refuses(room, put)
    room.run("etcdctl get --print-value-only bundles > value")
    assert room.read("value") == dump_of(BOTH) + b"\n"
    room.write_program("kubectl", f"#!/bin/sh\necho \"$@\" >> {room.path}/kubectl\ncat > /dev/null\n")
    refuses(room, BLOCKS["Kubernetes"][0])
    assert not os.path.exists(f"{room.path}/kubectl")
    room.run("etcdctl del bundles")
    refuses(room, get)
    judge.etcd.end()
    refuses(room, get)
    refuses(room, f"sh -c {watched}")
    assert room.read("dump") == dump_of(BOTH)


def refuses(room, text):
    """The recipe ends with a fault."""
    ended = room.start(text)
    said = ended.communicate(timeout=SECONDS)[0]
    assert ended.returncode != 0, (text, said)


def over_a_socket():
    """A store that listens at a Unix socket is filled and published like one at a port."""
    room = Shell()
    running = room.start("exec bundled serve --socket store --connections unlimited", stderr=subprocess.DEVNULL)
    assert line_of(running) == b"listening store\n"
    Etcd(room)
    room.write("list", b"a.example https://localhost/a https_spiffe spiffe://a.example/s\n")
    for place in ("store", "./store"):
        assert room.run(f"{EXAMPLES}/cron/refresh {place}") == ""
        assert room.run(f"{EXAMPLES}/etcd/publish {place}").split()[1] == digest_of(dump_of({"a.example": A}))


def says_what_is_missing():
    """Each script has --help, ends with 2 and a usage if its words are not right, and leaves no files where it was called."""
    room = Shell()
    os.mkdir(f"{room.path}/here")
    rows = {"etcd/publish": ["", "8443 8444", "--at-least", "--at-least x 8443", "--at-least -1 8443", "--every 8443", "''"],
            "etcd/follow": ["", "dump", "--once", "--at-least x dump true", "none/dump true", "--max-age 5", "--max-age 5 dump true", "--each dump true"],
            "cron/fetch": ["", "list", "list documents more", "none .", "--at-once 0 list .", "--at-once", "--each list ."],
            "cron/refresh": ["", "8443", "8443 8444", "--each 8443"]}
    for script, words in rows.items():
        for word in words:
            said = room.run(f"cd here; {EXAMPLES}/{script} {word}", status=2)
            assert f": usage: {os.path.basename(script)} " in said, (script, word, said)
        said = room.run(f"cd here; {EXAMPLES}/{script} --help")
        assert f"\nusage: {os.path.basename(script)} " in said and "#" not in said, said
    assert os.listdir(f"{room.path}/here") == []


NEEDS = {it: ["etcd", "etcdctl", "curl", "flock"] for it in (
    a_judge_that_comes_back_old, an_empty_judge, counts_that_come_late, a_removed_domain_that_comes_back, too_few_domains, publish_is_killed, follow_is_killed,
    a_file_that_is_damaged, an_older_moment, many_pieces, pieces_that_are_lost, recipes_by_hand, over_a_socket, says_what_is_missing)}
NEEDS |= breaks_cron.NEEDS
CHECKS = list(NEEDS)


if __name__ == "__main__":
    chosen = [it for it in CHECKS if it.__name__ in (sys.argv[1:] or [it.__name__])]
    sys.exit(run_checks(chosen, needs=NEEDS))
