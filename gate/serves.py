#!/usr/bin/env python3
"""Runs the command `serve` as an operator does: over sockets of this machine, with clients that behave and clients that don't.

usage: gate/serves.py   (over the program that rt ci or rt run has built in crates/bundled/out/)

What is expected of the bundles in gate/bundles is not made by the program: each NAME.canonical was made by another one.
"""
import calendar
import contextlib
import hashlib
import os
import re
import resource
import select
import signal
import socket
import statistics
import struct
import sys
import threading
import time

sys.dont_write_bytecode = True

from checks import BUNDLES, DUE, EMPTY, ENTRY, SECONDS, Beside, Lasting, LeftOut, Room, Server, bytes_of, canonical, dump_of, dump_of_real  # noqa: E402
from checks import frame, frame_of, named, numbered, part, received, rest_of, run_checks, run_words, untimed, wait_until  # noqa: E402
from refusals import build_shim  # noqa: E402

SET_A, GET_A = named(b"S", "a", EMPTY), named(b"G", "a")
STORED, FOUND, NO_DOMAIN = frame(b"s"), frame(b"f" + EMPTY), frame(b"\x1e")
FIRST = STORED + FOUND
REAL = f"{BUNDLES}/many.json"
# So many gets of that are answered by more than a connection holds, if nobody reads.
TOO_MANY = 2000


def two_workers():
    """Two workers have a client each, both at once: each client gets all its replies, over one store."""
    server = Server("--workers", "2")
    first, second = server.connections(2)
    first.sendall(SET_A + GET_A)
    second.sendall((SET_A + GET_A).replace(b"\x01a", b"\x01b"))
    for client in (first, second):
        client.shutdown(socket.SHUT_WR)
    assert (rest_of(first), rest_of(second)) == (FIRST, FIRST)
    assert server.ended() == (0, "served 2\ndomains 2\n", ""), "ended otherwise"


def one_after_the_other():
    """A worker waits in its client, and only then serves the next; after so many it ends."""
    server = Server("--workers", "1", "--connections", "2")
    first, second = server.connections(2)
    second.sendall(GET_A)
    first.sendall(SET_A)
    assert received(first, len(STORED)) == STORED
    second.settimeout(0.3)
    try:
        raise AssertionError(f"the second was answered beside the first: {second.recv(5)}")
    except TimeoutError:
        second.settimeout(SECONDS)
    first.close()
    assert received(second, len(FOUND)) == FOUND
    second.close()
    assert server.ended() == (0, "served 2\ndomains 1\n", ""), "ended otherwise"


def workers_without_threads():
    """Where no thread can be made the caller's serves for all workers, each client to its end before the next."""
    server = Server("--workers", "2", env={"LD_PRELOAD": build_shim(Room().path), "REFUSE_THREADS": "1"})
    first, second = server.connections(2)
    second.sendall(GET_A)
    second.shutdown(socket.SHUT_WR)
    first.sendall(SET_A)
    assert received(first, len(STORED)) == STORED
    assert int(server.of_system("Threads")) == 1
    first.close()
    assert rest_of(second) == FOUND
    assert server.ended() == (0, "served 2\ndomains 1\n", ""), "ended otherwise"


def reads_that_are_counted():
    """A client of which no more reads may be made is given up with what it was answered, in either form of a server."""
    blocking = Server("--workers", "1", "--connections", "2", "--turns", "2")
    lasting = Lasting("--workers", "1", "--turns", "2")
    for server in (blocking, lasting):
        assert server.ask(SET_A) == STORED
        with server.connect() as stream:
            for _ in range(2):
                stream.sendall(GET_A)
                assert received(stream, len(FOUND)) == FOUND
            assert rest_of(stream) == b""
        assert server.ended() == (0, "served 2\ndomains 1\n", "fault 55\n"), "ended otherwise"


def side_by_side():
    """While one worker waits inside a frame, the other serves; what the first set is seen by the second."""
    server = Server("--workers", "2")
    with server.connect() as slow:
        slow.sendall(SET_A + b"\0\0\0\3G")
        assert received(slow, len(STORED)) == STORED
        assert server.ask(GET_A) == FOUND
        slow.sendall(b"\x01a")
        assert received(slow, len(FOUND)) == FOUND
    assert server.ended() == (0, "served 2\ndomains 1\n", ""), "ended otherwise"


def real_bundles():
    """A refresher sets real bundles, and another client fetches all of them."""
    server = Server("--workers", "1", "--connections", "3")
    words = ["--relationships", f"{BUNDLES}/relationships", "--documents", BUNDLES, "--now", "1000", "--port", str(server.port)]
    for said in ("stored", "unchanged"):
        lines = "".join(f"1000 {name} {said} due {1000 + due}\n" for name, due in sorted(DUE.items()))
        ended = run_words("refresh", *words)
        assert ended == (0, lines.encode(), b""), ended
    assert server.ask(frame(b"F")) == dump_of_real()
    assert server.ended() == (0, f"served 3\ndomains {len(DUE)}\n", ""), "ended otherwise"


def filled_stores():
    """A dump fills the store before the first client comes; what is no dump is refused, and nothing listens."""
    room = Room()
    dump = room.write("dump", dump_of_real())
    server = Server("--workers", "2", "--load", dump)
    assert server.ask(frame(b"F")) == dump_of_real()
    assert server.ask(named(b"R", "many") + named(b"G", "many")) == frame(b"d") + NO_DOMAIN
    assert server.ended() == (0, f"served 2\ndomains {len(DUE) - 1}\n", ""), "ended otherwise"
    room.write("torn", dump_of_real()[:-1])
    room.write("empty", b"")
    for bad, line in [("torn", f"fault 63 {len(DUE)}\n"), ("empty", "fault 63 0\n"), ("nowhere", "fault 53\n")]:
        server = Server("--load", f"{room.path}/{bad}")
        status, out, err = server.ended()
        assert (server.line, status, out) == ("", 1, "") and err.startswith(line), (server.line, status, out, err)


def clients_that_fail():
    """Clients that leave inside a frame, send a bad length, close at once or reset the connection; the server goes on."""
    server = Server("--workers", "1", "--connections", "6")
    assert server.ask(SET_A + b"\0\0\0\3G") == STORED
    assert server.ask(GET_A + b"\0\0\0\0") == FOUND
    assert server.ask(b"") == b""
    with server.connect() as stream:
        stream.setsockopt(socket.SOL_SOCKET, socket.SO_LINGER, struct.pack("ii", 1, 0))
        stream.sendall(b"\0\0")
    with server.connect() as stream:
        stream.sendall(GET_A)
        assert received(stream, len(FOUND)) == FOUND
    assert server.ask(GET_A + named(b"R", "a") + GET_A) == FOUND + frame(b"d") + NO_DOMAIN
    status, out, err = server.ended()
    assert (status, out) == (0, "served 6\ndomains 0\n"), (status, out, err)
    assert err == "fault 52\nfault 50\nfault 53\n", err


def many_workers():
    """64 workers take 64 connections that stand beside each other."""
    server = Server("--workers", "64")
    streams = server.connections(64)
    for number, stream in enumerate(streams):
        stream.sendall(SET_A.replace(b"\x01a", bytes([1, 48 + number % 10])))
    for stream in streams:
        assert received(stream, 5) in (STORED, frame(b"u"))
        stream.close()
    assert server.ended() == (0, "served 64\ndomains 10\n", ""), "ended otherwise"


def ports_and_outputs():
    """A port that is taken is a fault, and so is an output that takes nothing: then nothing is accepted."""
    with socket.create_server(("127.0.0.1", 0)) as taken:
        server = Server(port=str(taken.getsockname()[1]))
        assert (server.line, server.ended()) == ("", (1, "", "fault 57\n")), server.line
    with open("/dev/full", "wb") as full:
        ended = run_words("serve", "--port", "0", out=full)
        assert ended == (1, None, b"fault 54\n"), ended
    server = Server("--workers", "1")
    server.started.stdout.close()
    assert server.ask(SET_A) == STORED
    assert (server.started.wait(SECONDS), server.said()) == (1, "fault 54\nfault 54\n"), server.said()


def silent_clients():
    """A client that is silent inside a frame is given up. One that is silent between frames for longer than that is not."""
    server = Server("--workers", "1", "--connections", "unlimited", "--idle", "3", "--log")
    with server.connect() as patient:
        patient.sendall(SET_A)
        assert received(patient, len(STORED)) == STORED
        for _ in range(2):
            for byte in GET_A:
                patient.sendall(bytes([byte]))
            assert received(patient, len(FOUND)) == FOUND
            with server.connect() as silent:
                silent.sendall(GET_A + b"\0\0\0\3G")
                assert received(silent, len(FOUND)) == FOUND
                assert rest_of(silent) == b""
        patient.sendall(GET_A)
        assert received(patient, len(FOUND)) == FOUND
    told = ["1 set a absent to unnumbered", "2 session fault 53", "3 session fault 53", "1 session ended after 4 replies"]
    wanted = "settings workers 1 shards 4 max-open 1000\n" + "".join(f"worker 0 client {line}\n" for line in told)
    wait_until(lambda: placeless(server.said()) == wanted, "each end is told")


def client_that_never_reads():
    """A client that asks for more than the sockets hold, and reads nothing, is given up."""
    server = Lasting("--workers", "1", "--idle", "1", "--log")
    with server.connect() as stream:
        stream.sendall(named(b"S", "a", bytes_of(REAL)) + TOO_MANY * GET_A)
        wait_until_it_writes(stream)
        assert server.ask(GET_A) == frame(b"f" + canonical("many"))
        told = f"worker 0 client 1 session fault 54 from {stream.getsockname()[1]}\n"
        wait_until(lambda: server.said().endswith(told), "the client is given up")
        status, out, err = server.ended()
        assert (status, out) == (0, "served 2\ndomains 1\n") and err.endswith(f"{told}fault 54\n"), (status, out, err)


def client_that_sends_and_never_reads():
    """A client that reads nothing is given up, though it sends a byte now and then."""
    server = Lasting("--workers", "1", "--idle", "2", "--log")
    with server.connect() as stream:
        stream.sendall(named(b"S", "a", bytes_of(REAL)) + TOO_MANY * GET_A)
        wait_until_it_writes(stream)
        told = f"worker 0 client 1 session fault 54 from {stream.getsockname()[1]}\n"
        wait_until(lambda: told in server.said() or send_one_byte(stream), "the client that sends is given up")


def send_one_byte(stream):
    with contextlib.suppress(ConnectionError):
        stream.sendall(b"\0")
    time.sleep(0.3)


def client_that_begins_a_frame():
    """A client that sends a byte of its frame now and then, and takes longer for all of it than it may, is given up."""
    server = Lasting("--workers", "1", "--idle", "2", "--log")
    with server.connect() as stream:
        stream.sendall(b"\0\0\xff\xff")
        told = f"worker 0 client 1 session fault 53 from {stream.getsockname()[1]}\n"
        wait_until(lambda: told in server.said() or send_one_byte(stream), "the client that sends is given up")


def client_that_reads_slowly():
    """A client that takes its replies slowly, but without a pause, is served for as long as it takes."""
    server, idle, read = Lasting("--workers", "1", "--idle", "5", "--log"), 5, 0
    with server.connect() as stream:
        stream.sendall(named(b"S", "a", bytes_of(REAL)) + TOO_MANY * GET_A)
        wait_until_it_writes(stream)
        until = time.monotonic() + 4 * idle
        while time.monotonic() < until:
            read += len(stream.recv(25_000))
            time.sleep(0.1)
        assert "session" not in server.said(), server.said()
        # More comes than the sockets held at the beginning, and the rest is taken at once.
        whole = len(STORED) + TOO_MANY * len(frame(b"f" + canonical("many")))
        while read < whole:
            read += len(stream.recv(1 << 20)) or whole
        assert read == whole, f"{read} bytes of {whole}"
    status, out, err = server.ended()
    assert (status, out) == (0, "served 1\ndomains 1\n") and "fault" not in err, (status, out, err)


def others_are_taken_beside_long_turns():
    """A worker that is busy with one client keeps no other from being taken: the other worker takes most that come."""
    server, is_over, sent = Lasting("--workers", "2", "--log"), threading.Event(), []
    document = 500_000 * b"[" + 500_000 * b"]"
    busy = Beside("the client of long turns", send_again_and_again, server, named(b"S", "a", document), is_over, sent)
    # (so many do not fit into the sockets)
    wait_until(lambda: len(sent) >= 10, "documents are read")
    took = [seconds_of(lambda: server.ask(GET_A), NO_DOMAIN) for _ in range(30)]
    is_over.set()
    busy.join()
    wait_until(lambda: server.said().count("session ended after 1 replies") == len(took), "each end is told")
    by_worker = [len(re.findall(rf"worker {worker} client \d+ session ended after 1 replies", server.said())) for worker in range(2)]
    assert max(by_worker) >= 20, by_worker
    assert server.ended()[1] == "served 31\ndomains 0\n", "ended otherwise"
    return f"; {max(by_worker)} of {len(took)} by one worker, {answered_soon(took)}"


def send_again_and_again(server, request, is_over, sent):
    """Sends a request without pause until it is over, adds to what was sent, and reads the replies beside that."""
    with server.connect() as stream:
        reader = Beside("the reader of long turns", read_all, stream)
        while not is_over.is_set():
            stream.sendall(request)
            sent.append(len(request))
        stream.shutdown(socket.SHUT_WR)
        reader.join()


def wait_until_it_writes(stream):
    """Waits until the server has written much that is not read, and leaves that there."""
    wait_until(lambda: len(stream.recv(1 << 16, socket.MSG_PEEK)) == 1 << 16, "there is much to read")


def replies_before_a_bad_length():
    """What was answered comes, though a bad length follows and much that nobody reads."""
    server = Server("--workers", "1")
    with server.connect() as stream:
        stream.sendall(GET_A + bytes(4) + bytes(30000))
        wait_until_it_writes_no_more(stream)
        stream.sendall(b"more")
        assert rest_of(stream) == NO_DOMAIN
    assert server.ended() == (0, "served 1\ndomains 0\n", "fault 50\n"), "ended otherwise"


def wait_until_it_writes_no_more(stream):
    """Waits for the end of what the server writes, and leaves all of that there."""
    waiting = select.poll()
    waiting.register(stream, select.POLLRDHUP)
    assert waiting.poll(1000 * SECONDS), f"the server goes on after {SECONDS} seconds"


def stops_at_the_end_of_input():
    """Without an end of connections the server stops at the end of its input: workers that wait, and one in a session."""
    end, hold = os.pipe()
    server = Server("--workers", "3", "--connections", "unlimited", "--until-eof", stdin=end)
    os.close(end)
    os.write(hold, b"what is read says nothing")
    assert server.ask(SET_A) == STORED
    for _ in range(10):
        assert server.ask(GET_A) == FOUND
    with server.connect() as stream:
        stream.sendall(GET_A)
        assert received(stream, len(FOUND)) == FOUND
        os.close(hold)
        assert rest_of(stream) == b""
    assert server.ended() == (0, "served 12\ndomains 1\n", ""), "ended otherwise"


def keeps_the_last_map():
    """With --save the dump of the last map is in the file at the end, in both forms, and --load reads it. What stood in the
    file is replaced."""
    room = Room()
    saved = room.write("saved", b"what stood there before")
    server = Lasting("--workers", "2", "--save", saved)
    server.ask(named(b"S", "b", numbered(7)) + SET_A + named(b"S", "c", EMPTY) + named(b"R", "c"))
    assert bytes_of(saved) == b"what stood there before"
    assert server.ended() == (0, "served 1\ndomains 2\n", ""), "ended otherwise"
    assert bytes_of(saved) == dump_of({"a": EMPTY, "b": numbered(7)})
    assert os.listdir(room.path) == ["saved"], "something is left beside it"
    again = Server("--workers", "1", "--load", saved, "--save", saved)
    assert again.ask(named(b"R", "b") + frame(b"F")) == frame(b"d") + dump_of({"a": EMPTY})
    assert again.ended() == (0, "served 1\ndomains 1\n", ""), "ended otherwise"
    digest = run_words("digest", given=bytes_of(saved))
    assert digest == run_words("digest", given=dump_of({"a": EMPTY})) and digest[0] == 0, digest


def cannot_keep_the_last_map():
    """A file that cannot be written at the end is told, the last line comes all the same, and what was in the file stays."""
    room = Room()
    saved = room.write("saved", b"what stood there before")
    server = Lasting("--workers", "1", "--save", saved)
    assert server.ask(SET_A) == STORED
    os.mkdir(f"{saved}.new")
    assert server.ended() == (1, "served 1\ndomains 1\n", "fault 59\n"), "ended otherwise"
    assert bytes_of(saved) == b"what stood there before"


def placeless(told):
    """What is told, without the times, and without the ports of clients, which the system chooses."""
    return re.sub(r"^(worker \d+ client \d+ session .*) from \d+$", r"\1", untimed(told), flags=re.M)


def asked_from(server, request, port=None):
    """The port that a client has, and what comes back for its request, which is the last."""
    with server.connect(port) as stream:
        stream.sendall(request)
        stream.shutdown(socket.SHUT_WR)
        return stream.getsockname()[1], rest_of(stream)


def told_changes():
    """With --log each change is a line on standard error, and so is each one that was refused by 31 or 36, and
    each end of a connection, with the number of its client and its port; nothing else is. The time stands before each."""
    begun = int(time.time())
    server = Server("--workers", "1", "--connections", "2", "--log")
    turns = [
        (b"S\x01a" + numbered(7), b"s"),
        (b"S\x01a" + numbered(7), b"u"),
        (b"S\x01a" + numbered(6), b"\x1f" + (7).to_bytes(8, "big")),
        (b"V\x02", b"v\x02"),
        (b"C\x01a\1" + (6).to_bytes(8, "big") + numbered(8), b"\x24\1" + (7).to_bytes(8, "big")),
        (b"C\x01b\1" + (6).to_bytes(8, "big") + numbered(8), b"\x24\0"),
        (b"G\x01a", b"f" + numbered(7)),
        (b"A\x01a" + ENTRY, b"p\1" + (8).to_bytes(8, "big")),
        (b"S\x01b" + EMPTY, b"s"),
        (b"R\x01b", b"d"),
        (b"R\x01b", b"\x1e"),
    ]
    first, replies = asked_from(server, b"".join(frame(request) for request, _ in turns))
    assert replies == b"".join(frame(reply) for _, reply in turns)
    second, nothing = asked_from(server, GET_A[:-1])
    assert nothing == b""
    told = ["1 set a absent to 7", "1 refused a 31 7", "1 refused a 36 7", "1 refused b 36 absent", "1 appended a 7 to 8", "1 set b absent to unnumbered",
            "1 removed b unnumbered to absent", f"1 session ended after 11 replies from {first}", f"2 session fault 52 from {second}"]
    log = "settings workers 1 shards 4 connections 2\n" + "".join(f"worker 0 client {line}\n" for line in told)
    status, out, err = server.ended()
    assert (status, out, untimed(err)) == (0, "served 2\ndomains 1\n", f"{log}fault 52\n"), "ended otherwise"
    times = [calendar.timegm(time.strptime(line.split()[0], "%Y-%m-%dT%H:%M:%SZ")) for line in err.splitlines()[:-1]]
    assert [begun, *times, int(time.time())] == sorted([begun, *times, int(time.time())]), times


def told_refusals_of_a_port():
    """With --log it is told how many changes that came to the port for reads only were refused by 56."""
    server = Lasting("--workers", "1", "--read-port", "0", "--log")
    tried = [SET_A, named(b"A", "a", ENTRY), named(b"R", "b"), frame(b"V\2"), frame(b"C\x01c\0" + EMPTY), GET_A, frame(b"F"), named(b"S", "A", EMPTY)]
    port, replies = asked_from(server, b"".join(tried), server.read_port)
    assert replies.startswith(3 * frame(b"\x38") + frame(b"v\2") + frame(b"\x38") + NO_DOMAIN) and replies.endswith(frame(b"\x38")), replies
    told = ["refused 5 changes 56", f"session ended after 8 replies from {port}"]
    log = "settings workers 1 shards 4 max-open 1000\n" + "".join(f"worker 0 client 1 {line}\n" for line in told)
    status, out, err = server.ended()
    assert (status, out, untimed(err)) == (0, "served 1\ndomains 0\n", log), (status, out, err)


def steps_of(name):
    """A set, one of a lower sequence, and a removal; the reply of each, and what is told of it."""
    return [(named(b"S", name, numbered(7)), STORED, f"set {name} absent to 7"),
            (named(b"S", name, numbered(6)), frame(b"\x1f" + (7).to_bytes(8, "big")), f"refused {name} 31 7"),
            (named(b"R", name), frame(b"d"), f"removed {name} 7 to absent")]


def told_of(server):
    """By client, what is told of it by a server that has ended."""
    lines = [re.fullmatch(r"worker \d+ client (\d+) (.*)", it) for it in untimed(server.ended()[2]).splitlines() if it.startswith("worker")]
    assert all(lines), server.said()
    return {number: [it[2] for it in lines if it[1] == number] for number in sorted({it[1] for it in lines}, key=int)}


def asked_in_turn(streams):
    """Each client asks its first step, and then each its second."""
    for steps in zip(*(steps_of(name) for name in "abc")):
        for stream, (request, reply, _) in zip(streams, steps):
            stream.sendall(request)
            assert received(stream, len(reply)) == reply


def asked_one_by_one(streams):
    """Each client asks all its steps, and leaves before the next is served."""
    for stream, name in zip(streams, "abc"):
        for request, reply, _ in steps_of(name):
            stream.sendall(request)
            assert received(stream, len(reply)) == reply
        stream.close()


def told_clients():
    """With --log each change and each refusal has the number of its client, which is that of the end of its session, where its port
    stands. So it is of clients that a worker has beside each other, too; and over all workers no two clients have the same number."""
    path = f"{Room().path}/socket"
    for server, ask in ((Server("--workers", "1", "--connections", "3", "--log"), asked_one_by_one), (Lasting("--workers", "1", "--log"), asked_in_turn),
                        (Lasting("--workers", "3", "--log"), asked_in_turn), (Lasting("--workers", "1", "--log", port=path), asked_in_turn)):
        with part(server=server.line, ask=ask.__name__):
            streams = server.connections(3)
            ports = [None if server.port == path else stream.getsockname()[1] for stream in streams]
            ask(streams)
            for stream in streams:
                stream.close()
            told = told_of(server)
            assert list(told) == ["1", "2", "3"], told
            wanted = [[*(said for *_, said in steps_of(name)), "session ended after 3 replies" + (f" from {port}" if port else "")] for name, port in zip("abc", ports)]
            assert sorted(told.values()) == wanted, told


def told_changes_only():
    """With --log changes the ends of sessions are not told, in either form; all else is."""
    for server in (Server("--workers", "1", "--log", "changes"), Lasting("--workers", "1", "--log=changes"), Lasting("--log", "changes", "--workers", "1")):
        with part(server=server.line):
            assert server.ask(b"".join(request for request, *_ in steps_of("a"))) == b"".join(reply for _, reply, _ in steps_of("a"))
            told = told_of(server)
            assert told == {"1": [said for *_, said in steps_of("a")]}, told
    for words in (("--log", "all"), ("--log=all",), ("--log",)):
        with part(words=words):
            server = Server("--workers", "1", *words)
            assert server.ask(GET_A) == NO_DOMAIN
            assert [it.partition(" from ")[0] for it in told_of(server)["1"]] == ["session ended after 1 replies"]


def more_clients_than_descriptors():
    """That more clients may be connected than the server may have descriptors is told at once, with or without a log."""
    few = lambda: resource.setrlimit(resource.RLIMIT_NOFILE, (64, 64))
    for options, most in (((), 1000), (("--max-open", "65"), 65), (("--max-open", "64", "--log"), None)):
        with part(options=options):
            server = Lasting("--workers", "1", *options, preexec_fn=few)
            assert server.ask(GET_A) == NO_DOMAIN
            told = f"max-open {most} is over the limit of 64 descriptors\n" if most else ""
            assert [it for it in untimed(server.ended()[2]).splitlines(True) if it.startswith("max-open")] == [told] * bool(most)


def descriptors_that_are_used_up():
    """Standard error is told at once, with a log and without one, that no client can be taken since the program may have no more
    files open; once, also if clients wait for a while. Those that are connected are served, and one that waits is once others have gone."""
    few = lambda: resource.setrlimit(resource.RLIMIT_NOFILE, (64, 64))
    for log in ((), ("--log",)):
        with part(log=log):
            begun, server = time.monotonic(), Lasting("--workers", "2", *log, preexec_fn=few)
            told = lambda: re.findall(r"^no more connections: the limit of open files \(ulimit -n\) is reached; (\d+) are open$", untimed(server.said()), re.M)
            streams = server.connections(80)
            wait_until(told, "it is told that no client can be taken")
            assert 32 <= int(told()[0]) < 64, told()
            for stream in streams[:32]:
                stream.sendall(GET_A)
                assert received(stream, len(NO_DOMAIN)) == NO_DOMAIN
            time.sleep(1)
            for stream in streams[:32]:
                stream.close()
            streams[-1].sendall(GET_A)
            assert received(streams[-1], len(NO_DOMAIN)) == NO_DOMAIN
            assert len(told()) <= 1 + (time.monotonic() - begun) // 60, server.said()


def set_of(number):
    return named(b"S", f"n{number:04}", EMPTY)


def get_of(number):
    return named(b"G", f"n{number:04}")


def a_thousand_connections():
    """On 4 workers a thousand connections are open at once, and each gets all its replies, in order."""
    server = Lasting("--workers", "4", "--max-open", "1000")
    streams = server.connections(1000)
    for number, stream in enumerate(streams):
        stream.sendall(set_of(number) + 3 * get_of(number))
    for stream in streams:
        assert received(stream, len(FIRST + 2 * FOUND)) == FIRST + 2 * FOUND
    # All are open still, and are answered again, in another order.
    for number, stream in reversed(list(enumerate(streams))):
        stream.sendall(get_of((number + 1) % 1000))
    for stream in streams:
        assert received(stream, len(FOUND)) == FOUND
    for stream in streams:
        stream.close()
    assert server.ended() == (0, "served 1000\ndomains 1000\n", ""), "ended otherwise"


def connections_in_wait():
    """One more than may be open waits, and is answered once another is closed."""
    server = Lasting("--workers", "2", "--max-open", "2")
    streams = server.connections(3)
    for stream in streams:
        stream.sendall(GET_A)
    for stream in streams[:2]:
        assert received(stream, 5) == NO_DOMAIN
    streams[2].settimeout(0.6)
    try:
        raise AssertionError(f"one too many was answered: {streams[2].recv(5)}")
    except TimeoutError:
        streams[2].settimeout(SECONDS)
    streams[0].close()
    assert received(streams[2], 5) == NO_DOMAIN
    for stream in streams[1:]:
        stream.close()
    assert server.ended() == (0, "served 3\ndomains 0\n", ""), "ended otherwise"


def read_only_port():
    """At the port for reads only nothing is changed, and what is set at the other port is seen."""
    server = Lasting("--workers", "2", "--read-port", "0")
    shut = frame(b"\x38")
    tried = SET_A + named(b"R", "a") + named(b"A", "a", ENTRY) + GET_A + frame(b"F")
    none = frame(b"a" + bytes(8))
    assert server.ask(tried, server.read_port) == 3 * shut + NO_DOMAIN + none
    assert server.ask(frame(b"V\2") + frame(b"C\x01a\0" + EMPTY), server.read_port) == frame(b"v\2") + shut
    unless = frame(b"V\3") + frame(b"U" + hashlib.sha256(none).digest())
    assert server.ask(unless, server.read_port) == frame(b"v\3") + frame(b"e")
    assert server.ask(SET_A) == STORED
    assert server.ask(named(b"R", "a") + GET_A, server.read_port) == shut + FOUND
    assert server.ask(unless, server.read_port) == frame(b"v\3") + dump_of({"a": EMPTY})
    assert server.ended() == (0, "served 6\ndomains 1\n", ""), "ended otherwise"


def one_client_that_asks_steadily():
    """A worker has one client that asks steadily. Meanwhile it is stopped and goes on, and others come and leave."""
    server = Lasting("--workers", "1", "--idle", "3600")
    took = []
    with server.connect() as steady:
        steady.sendall(SET_A)
        assert received(steady, len(STORED)) == STORED
        for number in range(600):
            time.sleep(0.001)
            if number % 200 == 100:
                stop_and_go_on(server)
            if number % 100 == 50:
                took.append(seconds_of(lambda: server.ask(GET_A)))
            # In two pieces now and then, so that the worker waits inside a frame too.
            front = 3 if number % 7 == 0 else 0
            steady.sendall(GET_A[:front])
            time.sleep(0.002 * bool(front))
            steady.sendall(GET_A[front:])
            assert received(steady, len(FOUND)) == FOUND
        # A client that takes no more keeps nobody waiting.
        steady.sendall(named(b"S", "b", bytes_of(REAL)) + TOO_MANY * named(b"G", "b"))
        wait_until_it_writes(steady)
        took.append(seconds_of(lambda: server.ask(GET_A)))
    assert server.ended()[:2] == (0, "served 8\ndomains 2\n"), "ended otherwise"
    return f"; others were {answered_soon(took)}"


def stop_and_go_on(server):
    """Stops the process, sees that it stands, and lets it go on."""
    server.started.send_signal(signal.SIGSTOP)
    wait_until(lambda: server.of_system("State") == "T", "the server stands")
    server.started.send_signal(signal.SIGCONT)


def seconds_of(ask, wanted=FOUND):
    began = time.monotonic()
    assert ask() == wanted
    return time.monotonic() - began


def answered_soon(took):
    """Sees that most answers come soon. The machine may have kept the server from any one of them."""
    usual, worst = statistics.median(took), max(took)
    assert usual < 1, f"half of the answers took {usual:.1f} seconds or more"
    return f"answered within {1000 * usual:.1f} ms, at worst {1000 * worst:.1f}"


def flood_beside_others():
    """One client sends without pause, one a byte at a time, one bad lengths; another one has its answers soon."""
    server = Lasting("--workers", "1", "--idle", "3600")
    until = time.monotonic() + 3
    others = [Beside("the flood", send_gets, server, until), Beside("the bad lengths", send_bad_lengths, server, until)]
    took, before, at = [], server.kilobytes(), 0
    with server.connect() as slow, server.connect() as stream:
        while time.monotonic() < until:
            slow.sendall(bytes([GET_A[at % len(GET_A)]]))
            at += 1
            stream.sendall(GET_A)
            took.append(seconds_of(lambda: received(stream, 5), NO_DOMAIN))
            time.sleep(0.05)
        for other in others:
            other.join(6 * SECONDS)
        assert received(slow, at // len(GET_A) * 5) == at // len(GET_A) * NO_DOMAIN
    grown = server.kilobytes() - before
    assert grown < 20_000, f"the server has grown by {grown} kB"
    status, out, _ = server.ended()
    assert status == 0 and out.endswith("domains 0\n"), (status, out)
    return f"; another one was {answered_soon(took)}, and the server has grown by {max(grown, 0)} kB"


def send_gets(server, until):
    """Sends gets as fast as they are taken, and reads the replies as they come."""
    with server.connect() as stream:
        reader = Beside("the reader of the flood", read_all, stream)
        while time.monotonic() < until:
            stream.sendall(1000 * GET_A)
        stream.shutdown(socket.SHUT_WR)
        # (much of what was sent is still to be answered)
        reader.join(5 * SECONDS)


def read_all(stream):
    while stream.recv(1 << 20):
        pass


def send_bad_lengths(server, until):
    """Connects again and again, and sends lengths of 4,294,967,295 until the server takes no more."""
    lengths = 100_000 * b"\xff\xff\xff\xff"
    while time.monotonic() < until:
        with server.connect() as stream, contextlib.suppress(ConnectionError):
            for _ in range(50):
                stream.sendall(lengths)


def stops_while_clients_write():
    """A stop while 100 clients set domains: each that was told `stored` is there at the end."""
    server, is_over = Lasting("--workers", "4"), threading.Event()
    stored = 100 * [0]
    clients = [Beside(f"client {number}", set_until_it_ends, server, number, stored, is_over) for number in range(len(stored))]
    wait_until(lambda: sum(stored) >= 1000, "a thousand domains are set")
    is_over.set()
    status, out, _ = server.ended()
    for client in clients:
        client.join()
    assert status == 0 and sum(stored) <= int(out.split()[3]), (status, out, sum(stored))


def set_until_it_ends(server, number, stored, is_over):
    """Sets one domain of its own after the other, and counts the replies, until the server is told to end and does."""
    try:
        with server.connect() as stream:
            for domain in range(1_000_000):
                stream.sendall(named(b"S", f"c{number:02}-{domain:06}", EMPTY))
                reply = frame_of(stream)
                if not reply:
                    break
                # Another worker may have been in the way.
                assert reply == STORED or reply[4:5] == b"\x2a", reply
                stored[number] += reply == STORED
            assert is_over.is_set(), "the connection is closed"
    except ConnectionError:
        assert is_over.is_set(), "the connection is lost"


def clients_before_they_are_taken():
    """As many clients as the system allows are connected before a server that is stopped takes one, in either form."""
    most = int(bytes_of("/proc/sys/net/core/somaxconn"))
    if most < 300:
        raise LeftOut("the system lets fewer clients wait")
    for form in (("--connections", "300", "--workers", "1"), ("--connections", "unlimited")):
        server = Server(*form)
        os.kill(server.started.pid, signal.SIGSTOP)
        with contextlib.ExitStack() as clients:
            for _ in range(300):
                clients.enter_context(socket.create_connection(("127.0.0.1", server.port), timeout=SECONDS))
            os.kill(server.started.pid, signal.SIGCONT)


CHECKS = [two_workers, one_after_the_other, workers_without_threads, reads_that_are_counted, side_by_side, real_bundles,
          filled_stores, clients_that_fail, many_workers, ports_and_outputs, silent_clients, client_that_never_reads,
          client_that_sends_and_never_reads, client_that_begins_a_frame, client_that_reads_slowly, others_are_taken_beside_long_turns,
          replies_before_a_bad_length, stops_at_the_end_of_input, keeps_the_last_map, cannot_keep_the_last_map, told_changes, told_refusals_of_a_port, told_clients, told_changes_only, more_clients_than_descriptors, descriptors_that_are_used_up, a_thousand_connections, connections_in_wait,
          clients_before_they_are_taken, read_only_port, one_client_that_asks_steadily, flood_beside_others, stops_while_clients_write]


if __name__ == "__main__":
    sys.exit(run_checks(CHECKS))
