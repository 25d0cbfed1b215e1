#!/usr/bin/env python3
"""Dumps of any length, and what a server does with its files: --load, --save, the socket's.

usage: gate/saves.py            (over the program that rt ci or rt run has built in crates/bundled/out/)
       gate/saves.py MEBIBYTES  a dump of so many, in place of 20: no part of the gate
       gate/saves.py --domains N   a store of so many small bundles, which is saved and loaded: neither (it needs a C compiler)
"""
import errno
import fcntl
import os
import re
import select
import signal
import socket
import stat
import struct
import subprocess
import sys
import termios
import time

sys.dont_write_bytecode = True

from checks import AFTERWARDS, EMPTY, SECONDS, Lasting, LeftOut, Room, Server, bytes_of, canonical, dump_of  # noqa: E402
from checks import frame, named, numbered, part, pem_of, rest_of, run_checks, run_words, start, unused_port, wait_until  # noqa: E402
from loads import compiled  # noqa: E402
from refusals import build_shim  # noqa: E402

STORED = frame(b"s")
MEBIBYTES = 20
# What was told of an input that is too long.
MOST_BYTES = 16_777_216
# The kilobytes that a server may take while it ends, beside its store: less than half of the dump that is kept then.
MOST_MORE = 10_000
# The kilobytes that a command which keeps a frame may take more for a long dump than for a short one; and those that a server
# which has loaded a dump may take, beside its store and the requests of the dump, more than one that was filled by a client.
MOST_OF_A_FRAME = 8_192
# So many domains take a while to load.
MANY = 150_000


def large(mebibytes):
    """So many mebibytes of real bundles, by their names."""
    text = canonical("many")
    return {f"d{number:06}.example": text for number in range(mebibytes * 1024 * 1024 // len(text) + 1)}


def fill(server, items):
    """Sets all of these."""
    with server.connect() as stream:
        names = list(items)
        for at in range(0, len(names), 100):
            some = names[at : at + 100]
            stream.sendall(b"".join(named(b"S", name, items[name]) for name in some))
            replies = b""
            while len(replies) < len(STORED) * len(some):
                more = stream.recv(1 << 16)
                assert more, replies
                replies += more
            assert replies == STORED * len(some), replies
        stream.shutdown(socket.SHUT_WR)
        assert rest_of(stream) == b""


def large_dumps():
    """A dump of 20 MiB is what a server keeps, and what it begins with; and every command that reads dumps reads it."""
    room, items = Room(), large(MEBIBYTES)
    dump = dump_of(items)
    assert len(dump) > MOST_BYTES, len(dump)
    saved, count = f"{room.path}/saved", len(items)
    server = Lasting("--workers", "2", "--save", saved)
    fill(server, items)
    assert server.ended() == (0, f"served 1\ndomains {count}\n", ""), "ended otherwise"
    assert bytes_of(saved) == dump, "another dump is kept"
    server = Lasting("--workers", "2", "--load", saved)
    assert server.ask(frame(b"F")) == dump, "another store is loaded"
    known = run_words("ask", "--port", str(server.port), "--unless", saved, "fetch")
    assert known == (0, b"same\n", b""), known
    assert server.ended() == (0, f"served 2\ndomains {count}\n", ""), "ended otherwise"
    views_of(room, saved, items)


def views_of(room, saved, items):
    """What the commands show of a large dump."""
    dump, name = bytes_of(saved), "d000007.example"
    with part(command="digest"):
        expected = subprocess.run(["sha256sum"], input=dump, capture_output=True, check=True, timeout=SECONDS).stdout
        told = run_words("digest", given=dump)
        assert (told[0], told[1].split()[0], told[2]) == (0, expected.split()[0], b""), told
    with part(command="pem"):
        told = run_words("pem", name, given=dump)
        assert told == (0, pem_of(items[name]), b""), told
    with part(command="map"):
        status, out, err = run_words("map", name, given=dump)
        assert (status, err) == (0, b"") and name.encode() in out, (status, err, out[:200])
    with part(command="diff"):
        assert run_words("diff", saved, saved) == (0, b"", b"")
        removed = {other: text for other, text in items.items() if other != name}
        told = run_words("diff", saved, room.write("less", dump_of(removed)))
        assert told == (3, f"- {name}\n".encode(), b""), told


def limits_that_stay():
    """What is not a dump has its limit still, and so has `migrate`."""
    long = b" " * (MOST_BYTES + 1)
    for words in (["migrate"], ["import"], ["trace"], ["check"]):
        with part(words=words):
            told = run_words(*words, given=long)
            assert told == (1, b"", b"fault 71\n"), told


def cut_dumps():
    """A dump that is cut after any tenth byte is a fault of each reader, and never a smaller store."""
    room = Room()
    dump = dump_of({"a": EMPTY, "b": numbered(7), "c.example": canonical("spire-default")})
    whole = room.write("whole", dump)
    for size in range(0, len(dump), 10):
        with part(size=size):
            cut = room.write("cut", dump[:size])
            server = Server("--load", cut)
            status, out, err = server.ended()
            assert (server.line, status, out) == ("", 1, "") and err.startswith("fault 63 "), (server.line, status, out, err)
            fault = err.splitlines(keepends=True)[0].encode()
            for words in (["digest"], ["map"], ["pem", "a"], ["migrate"]):
                told = run_words(*words, given=dump[:size])
                assert told == (1, b"", fault), (words, told)
            for words in (["diff", whole, cut], ["diff", cut, whole]):
                assert run_words(*words) == (1, b"", fault), words
    server = Lasting("--load", whole)
    assert server.ask(frame(b"F")) == dump
    assert server.ended() == (0, "served 1\ndomains 3\n", ""), "ended otherwise"


def worked(server):
    """For how long the server has worked, in ticks of the processor."""
    fields = bytes_of(f"/proc/{server.pid}/stat").rpartition(b") ")[2].split()
    return int(fields[11]) + int(fields[12])


def can_connect(place):
    """Whether somebody listens."""
    with socket.socket(socket.AF_INET if isinstance(place, int) else socket.AF_UNIX) as stream:
        stream.settimeout(SECONDS)
        try:
            stream.connect(("127.0.0.1", place) if isinstance(place, int) else place)
        except OSError as error:
            assert error.errno in (errno.ECONNREFUSED, errno.ENOENT), error
            return False
    return True


def nobody_before_the_load():
    """Nobody can connect before the store is filled: after the first who can, a server works for a small part of all."""
    room = Room()
    dump = room.write("dump", dump_of({f"d{number:06}": EMPTY for number in range(MANY)}))
    for place in (unused_port(), f"{room.path}/socket"):
        with part(place=place):
            option = "--port" if isinstance(place, int) else "--socket"
            server = start("serve", option, str(place), "--connections", "unlimited", "--until-eof", "--load", dump,
                           stdin=subprocess.PIPE, stdout=subprocess.PIPE)
            until = time.monotonic() + SECONDS
            refused = 0
            while not can_connect(place):
                refused += 1
                assert server.poll() is None and time.monotonic() < until, "nobody listens"
                time.sleep(0.001)
            before = worked(server)
            assert select.select([server.stdout], [], [], SECONDS)[0], "it does not listen"
            after = worked(server)
            assert server.stdout.readline() == f"listening {place}\n".encode()
            assert refused > 0, "the first has connected"
            assert after - before <= max(5, after // 5), f"after the first connection it worked for {after - before} ticks of {after}"
            out = server.communicate(timeout=SECONDS)[0]
            assert out.endswith(b"domains %d\n" % MANY), out


def told_at_the_start():
    """A file that cannot be written is told before anybody is served, and what is there stays."""
    room = Room()
    saved = room.write("saved", b"what stood there before")
    os.mkdir(f"{room.path}/folder")
    os.mkdir(f"{room.path}/other.new")
    os.mkfifo(f"{room.path}/fifo")
    for name in ("none/saved", "folder", "other", "fifo", "saved/saved"):
        for form in ([], ["--connections", "unlimited"]):
            with part(name=name, form=form):
                server = Server("--workers", "1", "--save", f"{room.path}/{name}", *form)
                status, out, err = server.ended()
                assert (server.line, status, out) == ("", 1, "") and err.startswith("fault 59\n"), (server.line, status, out, err)
    assert bytes_of(saved) == b"what stood there before"
    assert sorted(os.listdir(room.path)) == ["fifo", "folder", "other.new", "saved"], os.listdir(room.path)


def links_beside_it():
    """What stands at FILE.new is removed and not written to: a link's file stays as it is, and so does what a link at FILE
    names."""
    room = Room()
    victim = room.write("victim", b"the victim's")
    saved = room.write("saved", b"what stood there before")
    os.symlink(victim, f"{saved}.new")
    server = Lasting("--workers", "1", "--save", saved)
    assert server.ask(named(b"S", "a", EMPTY)) == STORED
    os.symlink(victim, f"{saved}.new")
    assert server.ended() == (0, "served 1\ndomains 1\n", ""), "ended otherwise"
    assert bytes_of(victim) == b"the victim's"
    assert not os.path.islink(saved) and bytes_of(saved) == dump_of({"a": EMPTY})
    assert sorted(os.listdir(room.path)) == ["saved", "victim"], os.listdir(room.path)
    os.remove(saved)
    os.symlink(victim, saved)
    server = Lasting("--workers", "1", "--save", saved)
    assert server.ended() == (0, "served 0\ndomains 0\n", ""), "ended otherwise"
    assert bytes_of(victim) == b"the victim's"
    assert not os.path.islink(saved) and bytes_of(saved) == dump_of({})


def mode_of(path):
    return oct(stat.S_IMODE(os.stat(path).st_mode))


def modes():
    """A file keeps its mode, whatever the umask is; one that takes the place of none may be read by all, less the umask."""
    room = Room()
    for mode, umask, expected in [(0o600, 0, 0o600), (0o640, 0o77, 0o640), (None, 0, 0o644), (None, 0o77, 0o600)]:
        with part(mode=mode, umask=umask):
            saved = f"{room.path}/saved-{mode}-{umask}"
            if mode is not None:
                os.chmod(room.write(os.path.basename(saved), b""), mode)
            server = Lasting("--workers", "1", "--save", saved, umask=umask)
            assert server.ended() == (0, "served 0\ndomains 0\n", ""), "ended otherwise"
            assert (mode_of(saved), bytes_of(saved)) == (oct(expected), dump_of({})), mode_of(saved)


def small_disk():
    """A folder of its own with room for 256 KiB."""
    room = Room().path
    mounted = subprocess.run(["mount", "-t", "tmpfs", "-o", "size=256k", "tmpfs", room], capture_output=True, timeout=SECONDS)
    if mounted.returncode != 0:
        raise LeftOut(f"nothing can be mounted: {mounted.stderr.decode().strip()}")
    AFTERWARDS.callback(subprocess.run, ["umount", "-l", room], check=True, timeout=SECONDS)
    return room


def full_disk():
    """On a disk that is full the file stays as it was, and nothing of the new one is left to fill it."""
    room = small_disk()
    saved = f"{room}/saved"
    with open(saved, "wb") as it:
        it.write(dump_of({"a": EMPTY}))
    server = Lasting("--workers", "1", "--load", saved, "--save", saved)
    fill(server, large(1))
    status, out, err = server.ended()
    assert (status, out.partition("\n")[0], err) == (1, "served 1", "fault 59\n"), (status, out, err)
    assert os.listdir(room) == ["saved"], os.listdir(room)
    assert bytes_of(saved) == dump_of({"a": EMPTY})


def memory_of_a_save():
    """A dump is written piece by piece: a server does not take its length once more as it ends."""
    room, items = Room(), large(MEBIBYTES)
    server = Lasting("--workers", "1", "--save", f"{room.path}/saved")
    fill(server, items)
    before = int(server.of_system("VmHWM"))
    server.stop()
    after = most_until_it_ends(server.started, before)
    assert server.started.wait(SECONDS) == 0, server.said()
    assert os.path.getsize(f"{room.path}/saved") == len(dump_of(items))
    assert after < before + MOST_MORE, f"it had {before} kB, and then {after}"
    return f"; it had {before} kB, and then {after}"


def most_until_it_ends(started, most):
    """The most kilobytes that a process which ends has had: what the system says of it last. (What it says of a process that has
    ended begins with what this script had.)"""
    until = time.monotonic() + SECONDS
    while found := re.search(r"^VmHWM:\s*(\d+)", bytes_of(f"/proc/{started.pid}/status").decode(), re.M):
        assert time.monotonic() < until, "it does not end"
        most = int(found[1])
    return most


def most_of_a_reader(words, dump):
    """The most kilobytes that a command has which reads this dump."""
    reader = start(*words, stdin=subprocess.PIPE, stdout=subprocess.PIPE)
    reader.stdin.write(dump)
    reader.stdin.flush()
    until = time.monotonic() + SECONDS
    # It has begun, and waits for more, once nothing is left in the pipe.
    while struct.unpack("i", fcntl.ioctl(reader.stdin, termios.FIONREAD, bytes(4)))[0]:
        assert time.monotonic() < until, "it does not read"
        time.sleep(0.001)
    most = int(re.search(r"^VmHWM:\s*(\d+)", bytes_of(f"/proc/{reader.pid}/status").decode(), re.M)[1])
    reader.stdin.close()
    most = most_until_it_ends(reader, most)
    assert reader.wait(SECONDS) == 0, reader.returncode
    return most


def memory_of_readers():
    """`digest` and `pem` keep a frame of a dump: for one of 20 MiB they take no more than for one of a domain, but for little."""
    items = large(MEBIBYTES)
    name = min(items)
    said = []
    for words in (["digest"], ["pem", name]):
        with part(words=words):
            little = most_of_a_reader(words, dump_of({name: items[name]}))
            most = most_of_a_reader(words, dump_of(items))
            assert most < little + MOST_OF_A_FRAME, f"of a domain it had {little} kB, and of {len(items)} {most}"
            said.append(f"{words[0]} had {little} kB, and then {most}")
    return f"; {', '.join(said)}"


def memory_of_a_load():
    """A server that loads a dump has its store and the requests that the dump becomes, which are no longer than the dump."""
    room, items = Room(), large(MEBIBYTES)
    dump = dump_of(items)
    server = Lasting("--workers", "1")
    fill(server, items)
    filled = int(server.of_system("VmHWM"))
    assert server.ended() == (0, f"served 1\ndomains {len(items)}\n", ""), "ended otherwise"
    server = Lasting("--workers", "1", "--load", room.write("dump", dump))
    loaded = int(server.of_system("VmHWM"))
    assert server.ended() == (0, f"served 0\ndomains {len(items)}\n", ""), "ended otherwise"
    assert loaded < filled + len(dump) // 1024 + MOST_OF_A_FRAME, f"filled by a client it had {filled} kB, and loaded {loaded}"
    return f"; filled by a client it had {filled} kB, and loaded {loaded}"


def sockets_of_others():
    """A server that ends removes the socket that it has bound, and not one that another server has put in its place."""
    room = Room()
    path = f"{room.path}/socket"
    first = Lasting("--workers", "1", port=path)
    os.remove(path)
    second = Lasting("--workers", "1", port=path)
    assert first.ended() == (0, "served 0\ndomains 0\n", ""), "ended otherwise"
    assert second.ask(named(b"S", "a", EMPTY)) == STORED
    assert second.ended() == (0, "served 1\ndomains 1\n", ""), "ended otherwise"
    assert os.listdir(room.path) == [], os.listdir(room.path)


def about_to_keep(server):
    """The server ends, and has written its map beside the file; it stops there until it is to go on."""
    server.stop()
    wait_until(lambda: server.of_system("State") == "T", "a server is about to keep its map")


def two_of_one_file():
    """Two servers share a file. One that starts, or ends, while the other writes takes away what that has written: the other ends with
    fault 59, and leaves the file, and what stands beside it by then, as they are."""
    room = Room()
    saved, before = f"{room.path}/saved", dump_of({"before": EMPTY})
    how = {"env": {"LD_PRELOAD": build_shim(room.path), "STOP_AT_SYNC": "1"}}
    room.write("saved", before)
    first = Lasting("--workers", "1", "--save", saved, **how)
    assert first.ask(named(b"S", "a", EMPTY)) == STORED
    about_to_keep(first)
    assert bytes_of(f"{saved}.new") == dump_of({"a": EMPTY})
    starts = Lasting("--workers", "1", "--save", saved)
    assert not os.path.exists(f"{saved}.new")
    first.started.send_signal(signal.SIGCONT)
    assert first.ended() == (1, "served 1\ndomains 1\n", "fault 59\n"), "ended otherwise"
    assert bytes_of(saved) == before
    assert starts.ended() == (0, "served 0\ndomains 0\n", ""), "ended otherwise"
    assert bytes_of(saved) == dump_of({})
    first, second = (Lasting("--workers", "1", "--save", saved, **how) for _ in range(2))
    assert [server.ask(named(b"S", name, EMPTY)) for server, name in ((first, "a"), (second, "b"))] == [STORED, STORED]
    about_to_keep(first)
    about_to_keep(second)
    first.started.send_signal(signal.SIGCONT)
    assert first.ended() == (1, "served 1\ndomains 1\n", "fault 59\n"), "ended otherwise"
    assert (bytes_of(saved), bytes_of(f"{saved}.new")) == (dump_of({}), dump_of({"b": EMPTY}))
    second.started.send_signal(signal.SIGCONT)
    assert second.ended() == (0, "served 1\ndomains 1\n", ""), "ended otherwise"
    assert bytes_of(saved) == dump_of({"b": EMPTY})


CHECKS = [large_dumps, limits_that_stay, cut_dumps, nobody_before_the_load, told_at_the_start, links_beside_it, modes, full_disk,
          memory_of_a_save, memory_of_readers, memory_of_a_load, two_of_one_file, sockets_of_others]


def measured(mebibytes):
    """Tells how long a dump of so many mebibytes takes, and how much memory."""
    room = Room()
    path = room.write("dump", dump_of(large(mebibytes)))
    print(f"{os.path.getsize(path)} bytes")
    for words in (["serve", "--port", "0", "--connections", "unlimited", "--until-eof", "--load", path, "--save", f"{room.path}/saved"],
                  ["digest"], ["pem", "d000007.example"], ["diff", path, path]):
        with open(path if words[0] in ("digest", "pem") else os.devnull, "rb") as given:
            begun = time.monotonic()
            started = start(*words, stdin=given, stdout=subprocess.DEVNULL)
            _, status, used = os.wait4(started.pid, 0)
            started.returncode = os.waitstatus_to_exitcode(status)
        seconds, work = time.monotonic() - begun, used.ru_utime + used.ru_stime
        print(f"{words[0]}: status {started.returncode}, {seconds:.2f} s ({work:.2f} s of a processor), {used.ru_maxrss / 1024:.0f} MiB")
    assert bytes_of(f"{room.path}/saved") == bytes_of(path)


def a_store(*options):
    """A server with one worker, which has nothing to wait for but the end of its input."""
    words = ["serve", "--port", "0", "--connections", "unlimited", "--until-eof", "--workers", "1", "--shards", "16", *options]
    return start(*words, stdin=subprocess.PIPE, stdout=subprocess.PIPE, stderr=subprocess.DEVNULL)


def processor(server):
    return worked(server) / os.sysconf("SC_CLK_TCK")


def most_of(server):
    """The most mebibytes that it had until now."""
    with open(f"/proc/{server.pid}/status", encoding="ascii") as it:
        return next(int(line.split()[1]) / 1024 for line in it if line.startswith("VmHWM:"))


def ended_at(server, begun):
    """Ends its input, and answers the seconds until it has ended, and all that it had: the processor's seconds, and mebibytes."""
    server.stdin.close()
    _, status, used = os.wait4(server.pid, 0)
    server.returncode = os.waitstatus_to_exitcode(status)
    assert server.returncode == 0, server.returncode
    return time.monotonic() - begun, used.ru_utime + used.ru_stime, used.ru_maxrss / 1024


def small_bundles(count):
    """Tells how long a store of so many small bundles takes to be saved, and to be loaded, and how much memory."""
    room = Room()
    saved, again = f"{room.path}/saved", f"{room.path}/again"
    server = a_store("--save", saved)
    port = server.stdout.readline().split()[1].decode()
    fills = [compiled(room.path), "frames", port, "1", str(count // 100), "100", "1", str(count), "1", "p"]
    subprocess.run(fills, check=True, stdout=subprocess.DEVNULL)
    print(f"{count} domains, of 16 shards; the machine's load is {os.getloadavg()[0]:.1f}", flush=True)
    before, had = processor(server), most_of(server)
    seconds, work, most = ended_at(server, time.monotonic())
    print(f"saved: {seconds:.2f} s ({work - before:.2f} s of a processor), at most {most:.0f} MiB, {had:.0f} before; {os.path.getsize(saved)} bytes", flush=True)
    assert server.stdout.read() == b"served 1\ndomains %d\n" % count
    begun = time.monotonic()
    server = a_store("--load", saved, "--save", again)
    assert server.stdout.readline().startswith(b"listening"), "it has not loaded"
    seconds, work, most = time.monotonic() - begun, processor(server), most_of(server)
    print(f"loaded: {seconds:.2f} s ({work:.2f} s of a processor), at most {most:.0f} MiB", flush=True)
    seconds, all_work, most = ended_at(server, time.monotonic())
    print(f"saved again: {seconds:.2f} s ({all_work - work:.2f} s of a processor), at most {most:.0f} MiB", flush=True)
    assert server.stdout.read() == b"served 0\ndomains %d\n" % count
    assert bytes_of(again) == bytes_of(saved), "another store was loaded"


if __name__ == "__main__":
    if sys.argv[1:2] == ["--domains"]:
        CHECKS = {"small_bundles": lambda: small_bundles(int(sys.argv[2]))}
    elif sys.argv[1:]:
        CHECKS = {"measured": lambda: measured(int(sys.argv[1]))}
    sys.exit(run_checks(CHECKS))
