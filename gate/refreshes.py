#!/usr/bin/env python3
"""Runs the command `refresh` as an operator does: over real bundles in a folder, and over a server at a port.

usage: gate/refreshes.py   (over the program that rt ci or rt run has built in crates/bundled/out/)

What is expected of the bundles in gate/bundles is not made by the program: each NAME.canonical was made by another
one. The server is this script, with `bundled run` behind its port, or with replies that no server gives.
"""
import os
import subprocess
import sys
import time

sys.dont_write_bytecode = True

from checks import BUNDLES, DUE, EMPTY, FakeServer, Room, answers_with, canonical, frame, frame_of  # noqa: E402
from checks import named, part, replies_of, run_checks, run_words, start, unused_port  # noqa: E402

KEYS = b'{"keys":[{"e":"AQAB","kid":"k","kty":"RSA","n":"AQAB","use":"jwt-svid"}],"spiffe_sequence":7}'


def web(*domains):
    return "".join(f"{it} https://bundles.example/{it} https_web\n" for it in domains)


class Refresher(Room):
    """A list of relationships and a folder of documents."""

    def __init__(self, list, documents=()):
        super().__init__()
        self.list, self.folder = f"{self.path}/list", f"{self.path}/documents"
        self.write("list", list if isinstance(list, bytes) else list.encode())
        os.mkdir(self.folder)
        for name, document in documents:
            self.put(name, document)

    def put(self, name, document):
        self.write(f"documents/{name}.json", document)

    def run(self, *options, folder=None, **how):
        status, out, err = run_words("refresh", "--relationships", self.list, "--documents", folder or self.folder, *options, **how)
        return status, out, None if err is None else err.decode()


class Store:
    """`bundled run`, one session for all connections."""

    def __init__(self):
        self.ran = start("run", stdin=subprocess.PIPE, stdout=subprocess.PIPE)

    def serve(self, stream):
        while request := frame_of(stream):
            self.ran.stdin.write(request)
            self.ran.stdin.flush()
            head = self.ran.stdout.read(4)
            stream.sendall(head + self.ran.stdout.read(int.from_bytes(head, "big")))


def real_bundles():
    """Each real bundle is sent in canonical text, and a session takes the frames."""
    room = Refresher("")
    room.list = f"{BUNDLES}/relationships"
    wanted = b"".join(named(b"S", name, canonical(name)) for name in DUE)
    lines = "".join(f"1000 {name} sent{' empty' if name == 'withdrawn' else ''} due {1000 + DUE[name]}\n" for name in DUE)
    ended = room.run("--now", "1000", folder=BUNDLES)
    assert ended == (0, wanted, lines), ended
    gets = b"".join(named(b"G", name) for name in DUE)
    status, found, err = run_words("run", given=wanted + gets)
    assert (status, err) == (0, b""), (status, err)
    found = [*replies_of(found)]
    assert found == [frame(b"s")] * len(DUE) + [frame(b"f" + canonical(name)) for name in DUE], found


def what_is_no_document():
    """What is absent, or is not a bundle document, is said so and sends nothing, whatever its name is."""
    long, longest = "l" * 250, "l" * 251
    names = ["absent", "folder", "pipe", "..", ".", long, longest, "list", "large", "broken", "x5c", "secret"]
    entry = b'{"use":"x509-svid","kty":"RSA","n":"AQAB","e":"AQAB","x5c":["MAA"]}'
    room = Refresher(web(*names), [("..", EMPTY), (".", EMPTY), (long, EMPTY), ("list", b"[]"), ("broken", b"{")])
    room.put("large", EMPTY.ljust(1_048_577))
    room.put("x5c", b'{"keys":[%s]}' % entry)
    os.mkdir(f"{room.folder}/folder.json")
    os.mkfifo(f"{room.folder}/pipe.json")
    room.write("secret.json", EMPTY)
    said = {"folder": "no answer due 1300 (the file cannot be read)", "pipe": "no answer due 1300 (the file cannot be read)"}
    said |= {"..": "sent empty due 1300", ".": "sent empty due 1300", long: "sent empty due 1300"}
    said |= {longest: "no answer due 1300 (the name is too long for a file)", "list": "bad document 12 due 1300"}
    said |= {"large": "bad document 10 due 1300", "broken": "bad document 11 due 1300", "x5c": "bad document 18 at 0 due 1300"}
    lines = "".join(f"1000 {name} {said.get(name, 'no answer due 1300')}\n" for name in names)
    sent = b"".join(named(b"S", name, EMPTY) for name in ["..", ".", long])
    ended = room.run("--now", "1000")
    assert ended == (3, sent, lines), ended


def refused_lists():
    """A list with a bad line is refused at the line, and nothing is sent."""
    good = web("a")
    rows = [(good + "a b\n", "fault 70 2"), (good + "\n" + good, "fault 70 3"), (good + "B https://x https_web", "fault 79 2 3")]
    rows += [("a http://x.example https_web", "fault 79 1 60"), ("a https://x.example ftp", "fault 79 1 61")]
    rows += [("a https://x.example https_spiffe", "fault 79 1 62"), ("a https://x https_spiffe spiffe://a/", "fault 79 1 5")]
    rows += [(b"\xff", "fault 70 1"), (b" " * 16_777_217, "fault 71")]
    for list, fault in rows:
        with part(list=list[:80]):
            ended = Refresher(list, [("a", EMPTY)]).run("--now", "1000")
            assert ended == (1, b"", f"{fault}\n"), ended
    room = Refresher(good)
    room.list = f"{room.path}/none"
    assert room.run() == (1, b"", "fault 53\n"), room.run()


def times():
    """Times are those of the clock, or of the option; a hint of 0 doesn't mean each second."""
    room = Refresher(web("a"), [("a", b'{"keys":[],"spiffe_refresh_hint":0}')])
    for options, due in (([], 1060), (["--at-least", "0"], 1001), (["--at-least", "3600"], 4600)):
        ended = room.run("--now", "1000", *options)
        assert ended[2] == f"1000 a sent empty due {due}\n", ended
    most = 2**64 - 1
    ended = room.run("--now", str(most))
    assert ended[2] == f"{most} a sent empty due {most}\n", ended
    before = int(time.time())
    now, due = (int(it) for it in room.run()[2].split()[::5])
    assert before <= now <= time.time() and due == now + 60, (before, now, due)


def failing_ends():
    """Standard output that takes nothing is a fault; standard error that takes nothing isn't."""
    room = Refresher(web("a"), [("a", EMPTY)])
    with open("/dev/full", "wb") as full:
        ended = room.run("--now", "1000", out=full)
        assert ended == (1, None, "fault 54\n"), ended
        ended = room.run(err=full)
        assert ended == (0, named(b"S", "a", EMPTY), None), ended


def over_a_store():
    """The replies of a store are told, and a domain that loses its last authority is said to be empty."""
    room = Refresher(web("a", "b"), [("a", KEYS)])
    port = ["--port", str(FakeServer(Store().serve).port), "--now", "1000"]
    steps = [(None, 3, "stored"), (None, 3, "unchanged"), (KEYS.replace(b":7}", b":6}"), 3, "refused 31 7")]
    steps += [(b'{"keys":[],"spiffe_sequence":8}', 3, "stored empty"), (b'{"keys":[],"spiffe_sequence":9}', 3, "stored")]
    for document, status, said in steps:
        if document:
            room.put("a", document)
        wanted = f"1000 a {said} due 1300\n1000 b no answer due 1300\n".encode()
        ended = room.run(*port)
        assert ended == (status, wanted, ""), (said, ended)
    room.put("b", KEYS)
    ended = room.run(*port)
    assert ended == (0, b"1000 a unchanged due 1300\n1000 b stored due 1300\n", ""), ended
    with open("/dev/full", "wb") as full:
        ended = room.run(*port, out=full)
        assert ended == (1, None, "fault 54\n"), ended


def servers_that_fail():
    """A server that is not there, goes away or gives no reply is a fault."""
    room = Refresher(web("a"), [("a", KEYS)])
    rows = [(b"", "52"), (b"\0\0\0", "52"), (b"\0\0\0\2s", "52"), (b"\0\0\0\0", "50"), (b"\0\x10\x01\xa9", "50")]
    rows += [(frame(b"z"), "58"), (frame(b"ss"), "58"), (frame(b"\x33"), "58")]
    for reply, fault in rows:
        with part(reply=reply):
            ended = room.run("--port", str(FakeServer(answers_with(reply)).port))
            assert ended == (1, b"", f"fault {fault}\n"), ended
    for reply, said in ((b"\x16", None), (b"\x2a\0\0\0\3" + bytes(7) + b"\5", "given up held 3 5")):
        with part(reply=reply):
            ended = room.run("--now", "1000", "--port", str(FakeServer(answers_with(frame(reply))).port))
            assert ended == ((3, f"1000 a {said} due 1300\n".encode(), "") if said else (1, b"", "fault 22\n")), ended
    ended = room.run("--port", str(unused_port()))
    assert ended == (1, b"", "fault 78\n"), ended


CHECKS = [real_bundles, what_is_no_document, refused_lists, times, failing_ends, over_a_store, servers_that_fail]


if __name__ == "__main__":
    sys.exit(run_checks(CHECKS))
