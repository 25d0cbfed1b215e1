#!/usr/bin/env python3
"""Runs the command `snapshot`: over a real server, over servers that answer otherwise, and over folders in which it finds anything.

usage: gate/snapshots.py   (over the program that rt ci or rt run has built in crates/bundled/out/)

What is expected is not made by the program: each NAME.canonical in gate/bundles was made by another one, and certificates
are cut into lines here.
"""
import contextlib
import json
import os
import shutil
import sys
import threading
import time

sys.dont_write_bytecode = True

from checks import DUE, EMPTY, SECONDS, Beside, FakeServer, Room, Server, answers_with, canonical, dump_of, dump_of_real  # noqa: E402
from checks import frame, frame_of, named, numbered, part, program, run_checks, unused_port, wait_until  # noqa: E402
from refusals import MOST_GROWTHS, build_shim, run_once  # noqa: E402
from snapshot_rooms import DUMP_OF_NONE, HELD, MOVED, Place, files_of, folder_names, read_folder, remove_bundle, set_bundle  # noqa: E402
from snapshot_rooms import shown, take, words_of  # noqa: E402
from snapshot_turns import TURNS  # noqa: E402


def real_bundles():
    """The files of real bundles, and a folder that a second run leaves as it is."""
    items = {name: canonical(name) for name in DUE}
    room = Place()
    server = FakeServer(answers_with(dump_of_real()))
    assert take(server.port, room.folder) == shown(1, len(DUE))
    assert room.current() == files_of(items), sorted(room.current())
    assert any(it.count(b"BEGIN") > 1 for it in room.current().values())
    assert folder_names(room.folder) == ["current", "snapshot-1"]
    before = room.marks()
    assert take(server.port, room.folder) == (0, "", "")
    assert room.marks() == before, "something was done though nothing had changed"


def changes_over_a_server():
    """Each change is one snapshot. The two before it are kept, and the third one takes the first away."""
    server = Server("--workers", "1", "--connections", "unlimited")
    kept = {}
    room = Place()
    for number in range(1, 6):
        set_bundle(server, "a", numbered(number))
        assert take(server.port, room.folder) == shown(number, 1)
        kept[f"snapshot-{number}"] = files_of({"a": numbered(number)})
        kept.pop(f"snapshot-{number - 3}", None)
        assert folder_names(room.folder) == sorted([*kept, "current"]), folder_names(room.folder)
        assert {name: read_folder(f"{room.folder}/{name}") for name in kept} == kept
        assert os.readlink(f"{room.folder}/current") == f"snapshot-{number}"
        assert take(server.port, room.folder) == (0, "", "")
    remove_bundle(server, "a")
    assert take(server.port, room.folder) == shown(6, 0)
    assert room.current() == files_of({})


def names_that_bite():
    """Names that a file system has, or that the folder itself has: each is a file of the snapshot, and nothing else is changed."""
    names = [".", "..", "...", "-", "_", "map", "map.json", "current", "next", "snapshot-1", "a.json", "a.pem", "a", "con", 250 * "z"]
    items = {name: numbered(place) for place, name in enumerate(names)}
    room = Place()
    server = FakeServer(answers_with(dump_of(items)))
    assert take(server.port, room.folder) == shown(1, len(names))
    assert room.current() == files_of(items), sorted(room.current())
    assert folder_names(room.folder) == ["current", "snapshot-1"]
    assert folder_names(room.path) == ["beside", "out"]
    assert room.read("beside") == b"stays"


def names_that_are_too_long():
    """A name with which `.json` does not fit into 255 bytes is told, and has no files; it is in the map, and the others have theirs.
    Not more than ten are told by their names."""
    for size in (251, 254, 255):
        room = Place()
        name = size * "b"
        items = {"a": numbered(1), name: numbered(2), "c": numbered(3)}
        server = FakeServer(answers_with(dump_of(items)))
        told = f"left out {name}: too long for a file\n"
        assert take(server.port, room.folder) == (0, "shown snapshot-1 domains 3\n", told)
        files = files_of(items)
        del files[f"{name}.json"], files[f"{name}.pem"]
        assert room.current() == files, sorted(room.current())
        before = room.marks()
        assert take(server.port, room.folder) == (0, "", told)
        assert room.marks() == before
    many = [f"{place:x}".rjust(251, "d") for place in range(13)]
    ended = take(FakeServer(answers_with(dump_of({it: EMPTY for it in ("a", *many)}))).port, Place().folder)
    told = "".join(f"left out {it}: too long for a file\n" for it in sorted(many)[:10]) + "left out 3 more: too long for a file\n"
    assert ended == (0, "shown snapshot-1 domains 14\n", told), ended


def fewer_domains_than_are_wanted():
    """A server with fewer domains changes nothing, and the status is 3; one with as many is shown."""
    room = Place()
    one, two = ({it: EMPTY for it in names} for names in ("a", "ab"))
    ended = take(FakeServer(answers_with(dump_of(one))).port, room.folder, "--at-least", "2")
    assert ended == (3, "", "fewer than 2 domains: 1; nothing is shown\n"), ended
    assert folder_names(room.folder) == []
    assert take(FakeServer(answers_with(dump_of(two))).port, room.folder, "--at-least", "2") == shown(1, 2)
    before = room.marks()
    for items in ({}, one):
        ended = take(FakeServer(answers_with(dump_of(items))).port, room.folder, "--at-least", "2")
        assert ended == (3, "", f"fewer than 2 domains: {len(items)}; kept snapshot-1\n"), ended
    assert room.marks() == before
    assert take(FakeServer(answers_with(dump_of(one))).port, room.folder, "--at-least", "1") == shown(2, 1)


def holes_in_the_numbers():
    """Old snapshots go by the names that are there, also if a run that was killed has left holes, and if nothing else is to be done.
    What only has such a name stays, and what `current` names."""
    for is_new in (False, True):
        room = Place()
        assert take(FakeServer(answers_with(dump_of({"a": EMPTY}))).port, room.folder) == shown(1, 1)
        os.rename(f"{room.folder}/snapshot-1", f"{room.folder}/snapshot-50")
        room.link("snapshot-50", "current")
        for number in (3, 20, 21, 46, 47, 48, 49, 51):
            os.mkdir(f"{room.folder}/snapshot-{number}")
            room.write(f"out/snapshot-{number}/map", b"old")
        others = ["snapshot-05", "snapshot-6x", "snapshot-", "snapshot-0x1", "snapshots", "7"]
        for name in others:
            os.mkdir(f"{room.folder}/{name}")
        room.write("out/snapshot-8", b"a file")
        os.mkdir(f"{room.path}/elsewhere")
        room.write("elsewhere/map", b"stays")
        room.link("../elsewhere", "snapshot-9")
        with open(os.fsencode(room.folder) + b"/snapshot-\xff", "wb"):
            pass
        items = {"b" if is_new else "a": EMPTY}
        current = 51 if is_new else 50
        ended = take(FakeServer(answers_with(dump_of(items))).port, room.folder)
        assert ended == (shown(51, 1) if is_new else (0, "", "")), ended
        kept = [f"snapshot-{it}" for it in range(current - 2, current + 1)]
        left = sorted(["current", *kept, *others, "snapshot-8", "snapshot-9", os.fsdecode(b"snapshot-\xff")])
        assert folder_names(room.folder) == left, folder_names(room.folder)
        assert room.read("elsewhere/map") == b"stays"
        assert room.current() == files_of(items)


def links_that_are_planted():
    """Whoever may write in the folder puts a link in the place of the new snapshot as it is written: no file that is there is
    written over. (Before, a few runs were enough.)"""
    room = Place()
    os.mkdir(f"{room.path}/victim")
    theirs = {"map": b"theirs", **{f"{name}.{end}": b"theirs" for name in "abcdefgh" for end in ("json", "pem")}}
    for name, data in theirs.items():
        room.write(f"victim/{name}", data)
    is_over = threading.Event()
    planter = Beside("the planter", plant_links, room, is_over)
    number, until = 0, time.monotonic() + SECONDS / 3
    while number < 100 and time.monotonic() < until:
        number += 1
        take(FakeServer(answers_with(dump_of({name: numbered(number) for name in "abcdefgh"}))).port, room.folder)
        found = read_folder(f"{room.path}/victim")
        assert {name: found.get(name) for name in theirs} == theirs, number
    is_over.set()
    planter.join()
    assert take(FakeServer(answers_with(DUMP_OF_NONE)).port, room.folder)[0] == 0
    assert room.current() == files_of({})


def plant_links(room, is_over):
    """Puts a link in the place of each folder that the command makes, as soon as it is there, and takes it away again."""
    while not is_over.is_set():
        for name in os.listdir(room.folder):
            path = f"{room.folder}/{name}"
            if name.startswith("snapshot-") and not os.path.islink(path) and not os.path.exists(f"{path}/map"):
                with contextlib.suppress(OSError):
                    os.rename(path, f"{room.path}/away")
                    os.symlink("../victim", path)
                    time.sleep(0.001)
                with contextlib.suppress(OSError):
                    os.remove(path)
                shutil.rmtree(f"{room.path}/away", ignore_errors=True)


def folders_that_are_not_used():
    """A folder that is not there, or cannot be written, or whose `current` is something else: a fault, and nothing is changed."""
    server = FakeServer(answers_with(dump_of({"a": EMPTY})))
    bad = (1, "", "fault 74\n")
    room = Place()
    for path in (f"{room.path}/nowhere", f"{room.path}/beside", "/proc", "", "/dev/null"):
        assert take(server.port, path) == bad, path
    for text in ("elsewhere", "snapshot-", "snapshot-0", "snapshot-x", "snapshot-01", "../out/snapshot-1", "snapshot-18446744073709551615"):
        os.symlink(text, f"{room.folder}/current")
        assert take(server.port, room.folder) == bad, text
        assert (folder_names(room.folder), os.readlink(f"{room.folder}/current")) == (["current"], text)
        os.remove(f"{room.folder}/current")
    os.mkdir(f"{room.folder}/current")
    assert take(server.port, room.folder) == bad
    os.rmdir(f"{room.folder}/current")
    assert take(server.port, room.folder) == shown(1, 1)
    os.mkdir(f"{room.folder}/next")
    other = FakeServer(answers_with(dump_of({"b": EMPTY})))
    assert take(other.port, room.folder) == bad
    assert (os.readlink(f"{room.folder}/current"), room.current()) == ("snapshot-1", files_of({"a": EMPTY}))
    os.rmdir(f"{room.folder}/next")
    assert take(other.port, room.folder) == shown(2, 1)
    if os.geteuid() != 0:
        room = Place()
        os.chmod(room.folder, 0o555)
        assert take(server.port, room.folder) == bad
        os.chmod(room.folder, 0o755)


def leftovers_of_a_crash():
    """What a run left that was cut off is never shown: it is removed, and the snapshot written anew."""
    server = FakeServer(answers_with(dump_of({"a": EMPTY})))
    for shown_before in (0, 1):
        room = Place()
        if shown_before:
            assert take(FakeServer(answers_with(DUMP_OF_NONE)).port, room.folder) == shown(1, 0)
        left = f"{room.folder}/snapshot-{shown_before + 1}"
        os.mkdir(left)
        for name in ("map", "z.json"):
            room.write(f"out/snapshot-{shown_before + 1}/{name}", b"half a te")
        os.symlink("../beside", f"{left}/a.json")
        os.symlink(f"snapshot-{shown_before + 1}", f"{room.folder}/next")
        assert take(server.port, room.folder) == shown(shown_before + 1, 1)
        assert room.current() == files_of({"a": EMPTY})
        assert "next" not in folder_names(room.folder)
        assert room.read("beside") == b"stays"


def damaged_snapshots():
    """A current snapshot of which a file is gone or has other bytes is not taken for what the server holds."""
    server = FakeServer(answers_with(dump_of({"a": EMPTY})))
    room = Place()
    assert take(server.port, room.folder) == shown(1, 1)
    number = 1
    for name, text in [("a.json", None), ("a.json", b'{"keys":[ '), ("a.pem", b" "), ("map", b""), (None, None)]:
        current = f"{room.folder}/snapshot-{number}"
        if name is None:
            os.rename(current, f"{room.path}/gone")
        elif text is None:
            os.remove(f"{current}/{name}")
        else:
            room.write(f"out/snapshot-{number}/{name}", text)
        number += 1
        assert take(server.port, room.folder) == shown(number, 1)
        assert room.current() == files_of({"a": EMPTY})


def answers_that_are_none():
    """A reply that is torn off at any byte or malformed, a refusal, no server: a fault with its number, and nothing is done."""
    whole = dump_of({"a": EMPTY, "b": EMPTY})
    torn = [(whole[:size], 52) for size in range(len(whole))]
    others = [(bytes(4), 50), (frame(b"s"), 58), (frame(b"\x16"), 22), (frame(MOVED), "41 1 2 3"), (frame(HELD), "42 1 2"), (frame(b"\x29" + bytes(16)), 58), (dump_of({})[:-8] + bytes(7), 52)]
    room = Place()
    assert take(FakeServer(answers_with(whole)).port, room.folder) == shown(1, 2)
    before = room.marks()
    for reply, number in torn + others:
        with part(reply=reply):
            ended = take(FakeServer(answers_with(reply)).port, room.folder)
            assert ended == (1, "", f"fault {number}\n"), ended
    assert take(unused_port(), room.folder) == (1, "", "fault 78\n")
    assert room.marks() == before


def memory_that_is_refused():
    """Each growth is refused in turn: that is told, or it ends as if none had been refused; and what is shown is whole."""
    items = {"a": numbered(7), "rotation": canonical("rotation"), 30 * "n": EMPTY}
    server = FakeServer(answers_with(dump_of(items)))
    whole = shown(1, len(items))
    growth, is_refused = 0, True
    shim = build_shim(Room().path)
    while is_refused and growth < MOST_GROWTHS:
        growth += 1
        room = Place()
        ended, is_refused = run_once([program(), *words_of(server.port, room.folder)], b"", growth, growth, shim)
        told = ended.status, ended.out.decode(), ended.err.decode()
        if "current" in folder_names(room.folder):
            assert told in (whole, (1, "", "fault 22\n"), (1, whole[1], "fault 22\n")), (growth, told)
            assert room.current() == files_of(items), growth
        else:
            assert told == (1, "", "fault 22\n"), (growth, told)
    assert 10 < growth < MOST_GROWTHS and told == whole, growth


def one_moment_beside_a_writer():
    """Whoever follows the link and then reads sees one moment, whatever is set and shown meanwhile: `b` is set before `a`."""
    server = Server("--workers", "2", "--connections", "unlimited")
    seen, is_over, room = [], threading.Event(), Place()
    for name in ("b", "a"):
        set_bundle(server, name, numbered(1))
    assert take(server.port, room.folder) == shown(1, 2)
    others = [Beside("the writer", set_both, server, is_over), Beside("the reader", follow, room.folder, seen, is_over)]
    number, until = 1, time.monotonic() + 5 * SECONDS
    while number < 30:
        assert time.monotonic() < until, f"there are only {number} snapshots"
        status, out, err = take(server.port, room.folder)
        if (status, err[:9]) == (1, "fault 41 ") or (status, out, err) == (0, "", ""):
            # The writer was in the way of each round, or has set nothing since the last snapshot.
            continue
        number += 1
        assert (status, out, err) == shown(number, 2), (out, err)
        wait_for_the_reader(seen)
    is_over.set()
    for other in others:
        other.join()
    moments = {moment_of(files) for files in seen}
    assert len(moments) >= number - 1, moments


def wait_for_the_reader(seen):
    """Waits until it has read twice: the second time it has begun since."""
    before = len(seen)
    wait_until(lambda: len(seen) >= before + 2, "the reader has read twice")


def set_both(server, is_over):
    """Sets `b`, and then `a` to the same number, over and over."""
    with server.connect() as stream:
        for number in range(2, 1_000_000):
            for name in ("b", "a"):
                stream.sendall(named(b"S", name, numbered(number)))
                reply = frame_of(stream)
                assert reply == frame(b"s"), reply
            if is_over.is_set():
                return


def follow(folder, seen, is_over):
    """Reads the folder that the link shows, over and over."""
    while not is_over.is_set():
        shown_first = os.readlink(f"{folder}/current")
        try:
            files = read_folder(f"{folder}/{shown_first}")
        except FileNotFoundError:
            files = None
        first, now = (int(it.rpartition("-")[2]) for it in (shown_first, os.readlink(f"{folder}/current")))
        # A snapshot stays while one of the next two is shown, and then is removed, file after file.
        if now <= first + 2:
            assert files, f"snapshot-{first} is gone while snapshot-{now} is shown"
            seen.append(files)


def moment_of(files):
    """Which numbers they show; all of them have to be of one moment."""
    items = {name: files[f"{name}.json"] for name in ("a", "b")}
    assert files == files_of(items), files
    first, second = (json.loads(items[name])["spiffe_sequence"] for name in ("a", "b"))
    assert first <= second <= first + 1, (first, second)
    return first, second


CHECKS = [real_bundles, changes_over_a_server, names_that_bite, names_that_are_too_long, folders_that_are_not_used, leftovers_of_a_crash,
          fewer_domains_than_are_wanted, holes_in_the_numbers, links_that_are_planted, damaged_snapshots, answers_that_are_none, memory_that_is_refused,
          one_moment_beside_a_writer, *TURNS]


if __name__ == "__main__":
    sys.exit(run_checks(CHECKS))
