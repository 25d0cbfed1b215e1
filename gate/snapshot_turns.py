"""Checks of `snapshot --every`, a part of gate/snapshots.py: what passes does not end it, and what it says is enough to act on."""
import os
import subprocess

from checks import AFTERWARDS, EMPTY, FakeServer, LeftOut, Server, answers_with, dump_of, frame, numbered, unused_port, wait_until
from snapshot_rooms import MOVED, Place, Turns, files_of, folder_names, in_turn, remove_bundle, set_bundle, shown, take

ENDLESS = ("--workers", "1", "--connections", "unlimited")
VERSION = frame(b"v\x03")
SAME = frame(b"e")


def lasting(items):
    """A server of the check's that has these, at each turn."""
    return FakeServer(in_turn([(dump_of(items),), (VERSION, SAME)]))


def faults_that_pass():
    """Whatever a server answers is told once, and again if it changes or is over, and the next turn tries again. What was fetched
    is asked for by its digest, in version 3, and does not come again while it is the same."""
    one, two = dump_of({"a": EMPTY}), dump_of({"a": EMPTY, "b": EMPTY})
    moved_on = MOVED[:-1] + b"\x09"
    refused = [frame(b"\x16"), frame(b"\x16")]
    later = [SAME, one[:-1], b"", frame(b"s"), frame(MOVED), frame(moved_on), bytes(4), frame(b"\x38"), SAME, frame(b"\x28" + bytes(4)), two]
    replies = [*((it,) for it in (*refused, one)), *((VERSION, it) for it in later), (VERSION, SAME)]
    room = Place()
    turns = Turns(FakeServer(in_turn(replies)).port, room.folder)
    for line in ("fault 22", "over: fault 22", "fault 52", "fault 58", "fault 41 1 2 3", "fault 50", "fault 56", "over: fault 56", "fault 40 0", "over: fault 40"):
        turns.tells(line)
    turns.shows("shown snapshot-1 domains 1")
    turns.shows("shown snapshot-2 domains 2")
    assert room.current() == files_of({"a": EMPTY, "b": EMPTY})
    turns.end()


def server_that_comes_and_goes():
    """A server that is not there yet is waited for, and so is one that was killed; what it holds then is shown."""
    room, port = Place(), unused_port()
    turns = Turns(port, room.folder)
    turns.tells("fault 78")
    server = Server(*ENDLESS, port=port)
    turns.shows("shown snapshot-1 domains 0")
    turns.tells("over: fault 78")
    set_bundle(server, "a", EMPTY)
    turns.shows("shown snapshot-2 domains 1")
    server.end()
    turns.tells("fault 78")
    assert room.current() == files_of({"a": EMPTY})
    Server(*ENDLESS, port=port)
    turns.shows("shown snapshot-3 domains 0")
    turns.tells("over: fault 78")
    turns.end()
    assert room.current() == files_of({})


def server_that_comes_back_empty():
    """With --at-least a server that was started again empty takes nobody's bundles away: that is told, and the folder stays until it
    has as many domains again."""
    room, port = Place(), unused_port()
    server = Server(*ENDLESS, port=port)
    turns = Turns(port, room.folder, "--at-least", "2")
    turns.tells("fewer than 2 domains: 0; nothing is shown")
    set_bundle(server, "a", EMPTY)
    turns.tells("fewer than 2 domains: 1; nothing is shown")
    set_bundle(server, "b", EMPTY)
    turns.shows("shown snapshot-1 domains 2")
    turns.tells("over: fewer than 2 domains")
    server.end()
    turns.tells("fault 78")
    server = Server(*ENDLESS, port=port)
    turns.tells("fewer than 2 domains: 0; kept snapshot-1")
    assert (folder_names(room.folder), room.current()) == (["current", "snapshot-1"], files_of({"a": EMPTY, "b": EMPTY}))
    for name in ("b", "c"):
        set_bundle(server, name, numbered(5))
    turns.shows("shown snapshot-2 domains 2")
    assert room.current() == files_of({"b": numbered(5), "c": numbered(5)})


def disk_that_is_full():
    """A disk that is full is told; what could not be written leaves nothing there, and once there is room all goes on: a domain
    that was removed meanwhile is not shown any more."""
    room = Place()
    if subprocess.run(["mount", "-t", "tmpfs", "-o", "size=512k", "none", room.folder], capture_output=True, check=False).returncode:
        raise LeftOut("this machine does not let one mount a small disk")
    AFTERWARDS.callback(subprocess.run, ["umount", "--lazy", room.folder], check=True)
    server = Server(*ENDLESS)
    for name in "abcdefgh":
        set_bundle(server, name, EMPTY)
    turns = Turns(server.port, room.folder)
    turns.shows("shown snapshot-1 domains 8")
    with open(f"{room.folder}/filler", "wb", buffering=0) as filler:
        try:
            while True:
                filler.write(bytes(1024))
        except OSError:
            pass
    remove_bundle(server, "a")
    turns.tells("fault 74")
    items = {name: EMPTY for name in "abcdefgh"}
    assert room.current() == files_of(items)
    wait_until(lambda: folder_names(room.folder) == ["current", "filler", "snapshot-1"], "nothing is left of what could not be written")
    os.remove(f"{room.folder}/filler")
    turns.shows("shown snapshot-2 domains 7")
    turns.tells("over: fault 74")
    del items["a"]
    assert room.current() == files_of(items)
    turns.end()


def folder_that_is_away():
    """A folder that is removed is told, though nothing else has changed; once it is there again, all is written into it."""
    room = Place()
    turns = Turns(lasting({"a": EMPTY}).port, room.folder)
    turns.shows("shown snapshot-1 domains 1")
    os.rename(room.folder, f"{room.path}/away")
    turns.tells("fault 74")
    os.mkdir(room.folder)
    turns.shows("shown snapshot-1 domains 1")
    turns.tells("over: fault 74")
    assert room.current() == files_of({"a": EMPTY})
    room.link("elsewhere", "current")
    turns.tells("fault 74")
    room.link("snapshot-1", "current")
    turns.tells("over: fault 74")
    turns.end()
    assert folder_names(room.folder) == ["current", "snapshot-1"]


def names_without_files():
    """A writer who sets a name that is too long for a file keeps nobody's change from being shown. It is told when it comes."""
    room, server, name = Place(), Server(*ENDLESS), 252 * "x"
    set_bundle(server, "a", EMPTY)
    turns = Turns(server.port, room.folder)
    turns.shows("shown snapshot-1 domains 1")
    set_bundle(server, name, EMPTY)
    turns.shows("shown snapshot-2 domains 2")
    turns.tells(f"left out {name}: too long for a file")
    remove_bundle(server, "a")
    turns.shows("shown snapshot-3 domains 1")
    assert sorted(room.current()) == ["map"]
    assert room.current()["map"] == b'{"trust_domains":{"%s":%s}}\n' % (name.encode(), EMPTY)
    turns.end()


def line_of_a_new_start():
    """Each start tells what is current before all else, also without a server, so that whoever acts on lines acts on it. Nothing is
    told if there is nothing."""
    room = Place()
    server = FakeServer(answers_with(dump_of({"a": EMPTY, "b": EMPTY})))
    assert take(server.port, room.folder) == shown(1, 2)
    for _ in range(2):
        turns = Turns(unused_port(), room.folder)
        turns.shows("current snapshot-1 domains 2")
        turns.tells("fault 78")
        turns.end()
    turns = Turns(lasting({"a": EMPTY, "b": EMPTY}).port, room.folder)
    turns.shows("current snapshot-1 domains 2")
    turns.end()
    turns = Turns(lasting({}).port, room.folder)
    turns.shows("current snapshot-1 domains 2")
    turns.shows("shown snapshot-2 domains 0")
    turns.end()
    # A link to a snapshot that is gone shows nothing.
    room.link("snapshot-7", "current")
    turns = Turns(lasting({"a": EMPTY, "b": EMPTY}).port, room.folder)
    turns.shows("shown snapshot-8 domains 2")
    turns.end()


def turns_without_a_change():
    """While nothing changes no file is read; one that is removed, or that comes, is seen all the same."""
    items = {f"domain-{number}": b'{"keys":[],"spiffe_refresh_hint":%d}' % (10 ** 18 + number) for number in range(500)}
    room, counted = Place(), Counted([(dump_of(items),), (VERSION, SAME)])
    turns = Turns(counted.server.port, room.folder)
    turns.shows("shown snapshot-1 domains 500")
    counted.wait_for_turns(3)
    before = turns.io()
    counted.wait_for_turns(4)
    read = turns.io() - before
    assert read < 20_000 < sum(len(it) for it in room.current().values()), read
    os.remove(f"{room.folder}/current/domain-7.json")
    turns.shows("shown snapshot-2 domains 500")
    assert room.current() == files_of(items)
    turns.end()


class Counted:
    """A server of the check's that counts its connections."""

    def __init__(self, replies):
        self.count, answer = 0, in_turn(replies)

        def serve(stream):
            self.count += 1
            answer(stream)

        self.server = FakeServer(serve)

    def wait_for_turns(self, more):
        until = self.count + more
        wait_until(lambda: self.count >= until, f"{more} more turns")


TURNS = [faults_that_pass, server_that_comes_and_goes, server_that_comes_back_empty, disk_that_is_full, folder_that_is_away, names_without_files,
         line_of_a_new_start, turns_without_a_change]
