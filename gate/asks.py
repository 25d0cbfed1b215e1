#!/usr/bin/env python3
"""Runs the command `ask` as people and scripts do: over real servers, and over servers that answer as none should.

usage: gate/asks.py   (over the program that rt ci or rt run has built in crates/bundled/out/)
"""
import contextlib
import hashlib
import json
import os
import pty
import socket
import subprocess
import sys
import time
import tty

sys.dont_write_bytecode = True

from checks import EMPTY, ENTRY, SECONDS, FakeServer, Room, Server, dump_of, frame, frame_of  # noqa: E402
from checks import line_of, named, part, run_checks, run_words, start, unused_port  # noqa: E402

SET_A, GET_A = named(b"S", "a", EMPTY), named(b"G", "a")
GREETING, GREETED = frame(b"V\x03"), frame(b"v\x03")
MOVED = frame(b"\x29" + bytes(4) + (3).to_bytes(8, "big") + (4).to_bytes(8, "big"))
BUNDLE_A = named(b"i", "a", EMPTY)
# A document that no pipe holds.
DOCUMENT = b"{" + 1_000_000 * b" " + b"}"


def asked(port, *words, lines=None, **how):
    """The status of `ask`, and what it writes, for these words or these lines."""
    return run_words("ask", "--port", str(port), *words, given=lines, **how)


def server_that_says(*replies):
    """A server whose client is told the first of these after the greeting, and each other after one more request; and what
    the server hears."""
    heard = []

    def serve(stream):
        for reply in (GREETED, *replies):
            heard.append(heard_of(stream))
            stream.sendall(reply)
        with contextlib.suppress(OSError):
            stream.shutdown(socket.SHUT_WR)
            heard.append(heard_of(stream))

    return FakeServer(serve), heard


def heard_of(stream):
    """The next frame of a client, and what it has sent behind that."""
    told = frame_of(stream)
    stream.settimeout(0)
    with contextlib.suppress(BlockingIOError):
        told += stream.recv(65536)
    stream.settimeout(SECONDS)
    return told


def words_and_lines():
    """One request as words, several as lines, and the status that tells whether some reply is a refusal."""
    server = Server("--workers", "1", "--connections", "8")
    assert asked(server.port, "set", "a", EMPTY.decode()) == (0, b"stored\n", b"")
    assert asked(server.port, "get", "a") == (0, b"found " + EMPTY + b"\n", b"")
    assert asked(server.port, "get", "b") == (3, b"refused 30\n", b"")
    # Conditional sets need version 2, and version 3 is set first.
    assert asked(server.port, "setif", "b", "absent", EMPTY.decode()) == (0, b"stored\n", b"")
    lines = b"# two requests, and the last has no line feed\n\nget a\nfetch"
    both = b"".join(b"bundle " + name + b" " + EMPTY + b"\n" for name in (b"a", b"b"))
    assert asked(server.port, lines=lines) == (0, b"found " + EMPTY + b"\nall 2\n" + both, b"")
    assert asked(server.port, lines=b"get c\nget a\n") == (3, b"refused 30\nfound " + EMPTY + b"\n", b"")
    assert asked(server.port, lines=b"get a\ngot a\nremove a\n") == (1, b"found " + EMPTY + b"\n", b"fault 70 2\n")
    assert asked(server.port, "--raw", "fetch") == (0, dump_of({"a": EMPTY, "b": EMPTY}), b"")
    assert server.ended() == (0, "served 8\ndomains 2\n", ""), "ended otherwise"


def bundles_alone():
    """With --text a bundle that was got has no verb before it; all other replies are lines."""
    server = Server("--workers", "1", "--connections", "4")
    assert asked(server.port, "set", "a", EMPTY.decode()) == (0, b"stored\n", b"")
    assert asked(server.port, "--text", "get", "a") == (0, EMPTY + b"\n", b"")
    assert asked(server.port, "--text", "get", "b") == (3, b"refused 30\n", b"")
    lines = b"set b " + EMPTY + b"\nget b\nfetch\n"
    both = b"".join(b"bundle " + name + b" " + EMPTY + b"\n" for name in (b"a", b"b"))
    assert asked(server.port, "--text", lines=lines) == (0, b"stored\n" + EMPTY + b"\nall 2\n" + both, b"")
    assert server.ended() == (0, "served 4\ndomains 2\n", ""), "ended otherwise"


def documents_of_files():
    """A document by the name of its file; and a document with line feeds as a word is refused before anything is asked."""
    server = Server("--workers", "1", "--connections", "4")
    room = Room()
    document = room.write("a.json", b'{\n  "keys": []\n}\n')
    assert asked(server.port, "set", "a", f"@{document}") == (0, b"stored\n", b"")
    assert asked(server.port, "set", "a", f"@{room.path}/b.json") == (1, b"", b"fault 77 1\n")
    assert asked(server.port, "set", "a", '{"keys":[]}\nremove a') == (1, b"", b"fault 70 1\n")
    assert asked(server.port, "get", "a") == (0, b"found " + EMPTY + b"\n", b"")
    assert server.ended() == (0, "served 4\ndomains 1\n", ""), "ended otherwise"


def unless_a_dump_is_known():
    """With --unless the bundles are told only if they are not those of the dump in the file. A file that is no dump is a fault."""
    server = Server("--workers", "1", "--connections", "3")
    room = Room()
    dump, torn = room.write("dump", dump_of({})), room.write("torn", dump_of({"a": EMPTY})[:-1])
    assert asked(server.port, "--unless", dump, "fetch") == (0, b"same\n", b"")
    assert asked(server.port, "set", "a", EMPTY.decode()) == (0, b"stored\n", b"")
    changed = asked(server.port, "--unless", dump, "--raw", "fetch")
    assert changed == (0, dump_of({"a": EMPTY}), b""), changed
    for path, told in ((f"{room.path}/none", b"fault 53\n"), (torn, b"fault 63 1\n")):
        with part(path=path):
            assert asked(server.port, "--unless", path, "fetch") == (1, b"", told)
    assert server.ended() == (0, "served 3\ndomains 1\n", ""), "ended otherwise"


def unless_a_digest_is_known():
    """All bundles are told only if they have another digest; it is that of the dump."""
    server = Server("--workers", "1", "--connections", "9")
    assert asked(server.port, "set", "a", EMPTY.decode()) == (0, b"stored\n", b"")
    dump, told = dump_of({"a": EMPTY}), b"all 1\nbundle a " + EMPTY + b"\n"
    known, other = hashlib.sha256(dump).hexdigest(), hashlib.sha256(dump_of({})).hexdigest()
    assert asked(server.port, "fetch", "unless", known) == (0, b"same\n", b"")
    assert asked(server.port, "fetch", "unless", other) == (0, told, b"")
    lines = f"fetch unless {known}\nremove a\nfetch unless {known}\nfetch unless {other}\nversion 2\nfetch unless {other}\nversion 3\n"
    replies = b"same\nremoved\nall 0\nsame\nversion 2\nrefused 51\nversion 3\n"
    assert asked(server.port, lines=lines.encode()) == (3, replies, b"")
    # What is no digest has no line, and is not sent.
    for digest in (known[:-1], known + "0", known.upper(), known[:-1] + "g", ""):
        with part(digest=digest):
            assert asked(server.port, lines=f"fetch unless {digest}\n".encode()) == (1, b"", b"fault 70 1\n")
    assert server.ended() == (0, "served 9\ndomains 0\n", ""), "ended otherwise"


def each_reply_before_the_next_line():
    """A person or a script sees each reply before the next line is given."""
    server = Server("--workers", "1")
    started = start("ask", "--port", str(server.port), stdin=subprocess.PIPE, stdout=subprocess.PIPE)
    for line, reply in ((b"get a\n", b"refused 30\n"), (b"set a " + EMPTY + b"\n", b"stored\n"), (b"get a\n", b"found " + EMPTY + b"\n")):
        started.stdin.write(line)
        started.stdin.flush()
        assert line_of(started) == reply, line
    started.stdin.close()
    assert started.wait(SECONDS) == 3
    assert server.ended() == (0, "served 1\ndomains 1\n", ""), "ended otherwise"


def asked_again():
    """What changed nothing is asked again, as often as is wanted."""
    for retries, replies, told in (
        (2, (MOVED, frame(b"\x16"), frame(b"s")), (0, b"stored\n", b"")),
        (1, (MOVED, frame(b"\x16")), (3, b"memory\n", b"")),
        (0, (MOVED,), (3, b"moved 0 3 4\n", b"")),
    ):
        with part(retries=retries):
            server, heard = server_that_says(*replies)
            ended = asked(server.port, "--retry", str(retries), "set", "a", EMPTY.decode())
            assert ended == told, ended
            server.end()
            assert heard == [GREETING, *[SET_A] * len(replies), b""], heard


GET, FETCH = ("get", "a"), ("fetch",)


def replies_that_are_none():
    """A reply that is torn off, too long, or none at all is a fault; what came before it stands."""
    for words, reply, shown, told in (
        (GET, b"", b"", b"fault 52\n"),
        (GET, frame(b"f" + EMPTY)[:-1], b"", b"fault 52\n"),
        (GET, b"\0\0\0\0", b"", b"fault 50\n"),
        (GET, frame(b"z"), b"", b"fault 58\n"),
        (GET, BUNDLE_A, b"", b"fault 58\n"),
        (FETCH, frame(b"a" + (2).to_bytes(8, "big")) + frame(b"s"), b"all 2\n", b"fault 58\n"),
        (FETCH, frame(b"a" + (2).to_bytes(8, "big")) + BUNDLE_A, b"all 2\nbundle a " + EMPTY + b"\n", b"fault 52\n"),
    ):
        with part(reply=reply):
            server, heard = server_that_says(reply)
            ended = asked(server.port, *words)
            assert ended == (1, shown, told), ended
            server.end()
            assert heard[:2] == [GREETING, GET_A if words == GET else frame(b"F")], heard


# Requests; a reply to each that is one of another request; and one that it may have, with its line.
OTHER_REPLIES = [
    (("get", "a"), b"d", b"\3" + bytes(4), b"refused 3 0"),
    (("get", "a"), b"s", b"\x1e", b"refused 30"),
    (("get", "a"), b"m", b"\x33", b"refused 51"),
    (("get", "a"), b"\x1f" + bytes(8), b"\x28" + bytes(4), b"worn 0"),
    (("get", "a"), b"\x0b", b"\1", b"refused 1"),
    (("get", "a"), b"a" + bytes(8), b"f" + EMPTY, b"found " + EMPTY),
    (("remove", "a"), b"s", b"d", b"removed"),
    (("remove", "a"), b"f" + EMPTY, b"\x38", b"shut"),
    (("set", "a", "{}"), b"d", b"\x0d", b"refused 13"),
    (("set", "a", "{}"), b"\x24\0", b"\x1f" + bytes(8), b"refused 31 0"),
    (("set", "a", "{}"), b"\x17", b"u", b"unchanged"),
    (("setif", "a", "absent", "{}"), b"e", b"\x24\2", b"refused 36 none"),
    (("append", "a", "{}"), b"s", b"\x17", b"refused 23"),
    (("append", "a", "{}"), b"\x24\0", b"p\0", b"appended -"),
    (("fetch",), b"e", b"a" + bytes(8), b"all 0"),
    (("fetch",), b"\x1e", b"a" + bytes(8), b"all 0"),
    (("fetch", "unless", 64 * "0"), b"f" + EMPTY, b"e", b"same"),
    (("stats",), b"v\3", b"mdomains=1", b"stats domains=1"),
    (("version", "2"), b"u", b"v\2", b"version 2"),
]


def replies_to_other_requests():
    """What is a reply, but none that the request may have, is a fault and is not shown."""
    for words, other, own, line in OTHER_REPLIES:
        for payload, told in ((other, (1, b"", b"fault 58\n")), (own, (3 if own[0] < 64 else 0, line + b"\n", b""))):
            with part(words=words, payload=payload):
                server, _ = server_that_says(frame(payload))
                ended = asked(server.port, "--retry", "0", *words)
                assert ended == told, ended
                server.end()


def counts_that_are_none():
    """A server that tells something else in place of counts, or counts whose names or numbers are none: nothing of it is shown."""
    for payload in (b"d", b"f" + EMPTY, b'mrequests_a"}_1=1', b"mdomains=\x1b[2J", b"mdomains=1\nx=1", b"mdomains 1", b"mdomains=", b"m=1", b"m\xff=1"):
        for how in ((), ("--prometheus",)):
            with part(payload=payload, how=how):
                server, _ = server_that_says(frame(payload))
                ended = run_words("stats", "--port", str(server.port), *how)
                assert ended == (1, b"", b"fault 58\n"), ended
                server.end()
    for payload, told in ((b"m", b"\n"), (b"mdomains=1 later_2=3", b"domains 1\nlater_2 3\n")):
        server, _ = server_that_says(frame(payload))
        assert run_words("stats", "--port", str(server.port)) == (0, told, b"")
        server.end()


def waits_that_end():
    """A server that tells a byte a second, that tells nothing, or whose socket has no room for a client is not waited for any longer."""
    def drips(stream):
        with contextlib.suppress(OSError):
            for byte in GREETED + frame(b"f" + EMPTY) * 30:
                stream.sendall(bytes((byte,)))
                time.sleep(1)

    for serve in (drips, lambda stream: time.sleep(10)):
        server = FakeServer(serve)
        for words in (("ask", "get", "a"), ("stats",)):
            with part(words=words):
                assert waited(words[0], "--port", str(server.port), *words[1:]) == (1, b"", b"fault 53\n")
        server.end()
    path = f"{Room().path}/full"
    with socket.socket(socket.AF_UNIX) as listener, contextlib.ExitStack() as clients:
        listener.bind(path)
        listener.listen(0)
        for _ in range(1000):
            client = clients.enter_context(socket.socket(socket.AF_UNIX))
            client.setblocking(False)
            try:
                client.connect(path)
            except BlockingIOError:
                break
        for words in (("ask", "get", "a"), ("stats",), ("snapshot", "--out", os.path.dirname(path))):
            with part(words=words):
                assert waited(words[0], "--socket", path, *words[1:]) == (1, b"", b"fault 78\n")


def waited(*words):
    """What comes of the command that waits 2 seconds for its server. It takes no less, and it ends."""
    begun = time.monotonic()
    ended = run_words(*words, "--timeout", "2")
    assert time.monotonic() - begun > 1.9, time.monotonic() - begun
    return ended


def time_that_is_not_the_servers():
    """What is done with a reply, as by a pager, is not waited for: only the server is."""
    def serve(stream):
        for reply in (GREETED, frame(b"a" + (3).to_bytes(8, "big"))):
            frame_of(stream)
            stream.sendall(reply)
        stream.sendall(named(b"i", "a", DOCUMENT) * 3)

    server = FakeServer(serve)
    started = start("ask", "--port", str(server.port), "--timeout", "2", "fetch", stdout=subprocess.PIPE)
    time.sleep(4)
    told = started.communicate(timeout=SECONDS)[0]
    assert (started.returncode, told) == (0, b"all 3\n" + (b"bundle a " + DOCUMENT + b"\n") * 3), started.returncode


def shown_on_a_terminal(*words, given=None):
    """The status of the program if standard output is a terminal, and what the terminal is given."""
    end, terminal = pty.openpty()
    tty.setraw(terminal)
    started = start(*words, stdin=subprocess.PIPE, stdout=terminal, stderr=subprocess.DEVNULL)
    os.close(terminal)
    started.stdin.write(given or b"")
    started.stdin.close()
    shown = b""
    with contextlib.suppress(OSError):
        while piece := os.read(end, 65536):
            shown += piece
    os.close(end)
    return started.wait(SECONDS), shown


# A `kid` as a publisher may write it, what a bundle has of it, and what a terminal is given of that.
KID = "\x7f\x9b2J\u202e\u2066\u00e4\U0001f600"
SHOWN_KID = b"\\u007f\\u009b2J\\u202e\\u2066\\u00e4\\ud83d\\ude00"


def what_terminals_would_obey():
    """On a terminal it is escaped; a pipe and a file are given it as it is."""
    document = canonical_of(KID)
    server = Server("--workers", "1", "--connections", "4")
    room = Room()
    assert asked(server.port, "set", "a", f"@{room.write('a.json', document)}") == (0, b"stored\n", b"")
    assert asked(server.port, "get", "a") == (0, b"found " + document + b"\n", b"")
    shown = document.replace(KID.encode(), SHOWN_KID)
    assert shown_on_a_terminal("ask", "--port", str(server.port), "get", "a") == (0, b"found " + shown + b"\n")
    status, raw = shown_on_a_terminal("ask", "--port", str(server.port), "--raw", "fetch")
    assert (status, raw) == (0, dump_of({"a": document})), raw
    assert server.ended()[0] == 0
    given = frame(b"f\x1b[2J\x07\xc2\x9b\xff\xe2\x80") + frame(b"s")
    assert shown_on_a_terminal("decode", given=given) == (0, b"found \\u001b[2J\\u0007\\u009b\\ufffd\\ufffd\nstored\n")
    assert run_words("decode", given=given) == (0, b"found \x1b[2J\x07\xc2\x9b\xff\xe2\x80\nstored\n", b"")


def canonical_of(kid):
    """The canonical text of a bundle with one authority of this `kid`."""
    jwk = json.loads(ENTRY)
    jwk["kid"] = kid
    return json.dumps({"keys": [jwk]}, separators=(",", ":"), ensure_ascii=False, sort_keys=True).encode()


def ends_that_fail():
    """No server, and an output that takes nothing."""
    assert asked(unused_port(), "get", "a") == (1, b"", b"fault 78\n")
    server = Server("--workers", "1", "--connections", "2")
    assert asked(server.port, "set", "a", EMPTY.decode())[0] == 0
    with open("/dev/full", "wb") as full:
        assert asked(server.port, "get", "a", out=full) == (1, None, b"fault 54\n")
    assert server.ended() == (0, "served 2\ndomains 1\n", ""), "ended otherwise"


CHECKS = [
    words_and_lines,
    bundles_alone,
    documents_of_files,
    unless_a_dump_is_known,
    unless_a_digest_is_known,
    each_reply_before_the_next_line,
    asked_again,
    replies_that_are_none,
    replies_to_other_requests,
    counts_that_are_none,
    waits_that_end,
    time_that_is_not_the_servers,
    what_terminals_would_obey,
    ends_that_fail,
]


if __name__ == "__main__":
    sys.exit(run_checks(CHECKS))
