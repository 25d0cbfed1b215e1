#!/usr/bin/env python3
"""Runs servers that listen at Unix sockets, and the commands that ask them there.

usage: gate/sockets.py   (over the program that rt ci or rt run has built in crates/bundled/out/)

How long a path may be, and who may connect, is what Linux says in unix(7).
"""
import os
import signal
import socket
import stat
import sys

sys.dont_write_bytecode = True

from checks import BUNDLES, DUE, EMPTY, SECONDS, Lasting, Room, Server, bytes_of, canonical, connected, dump_of_real, frame, named  # noqa: E402
from checks import part, received, rest_of, run_checks, run_words  # noqa: E402

SET_A, GET_A = named(b"S", "a", EMPTY), named(b"G", "a")
STORED, FOUND, SHUT, NO_DOMAIN = frame(b"s"), frame(b"f" + EMPTY), frame(b"\x38"), frame(b"\x1e")
# What cannot be had, for who asks a server.
NOT_REACHED = (1, b"", b"fault 78\n")
LONGEST_PATH = 107
NOBODY = 65534


def is_socket(path):
    return os.path.lexists(path) and stat.S_ISSOCK(os.lstat(path).st_mode)


def is_not_there(server):
    """Whether the server has ended since it cannot listen. The words behind the fault's line are looked at by gate/told.py."""
    status, out, err = server.ended()
    return (server.line, status, out) == ("", 1, "") and err.startswith("fault 57\n")


def both_forms():
    """Clients are served at a socket in both forms. The line has its path, and at the end the file is gone."""
    path = f"{Room().path}/all"
    for form, options in ((Server, ("--workers", "1", "--connections", "2")), (Lasting, ("--workers", "2"))):
        server = form(*options, port=path)
        assert server.line == f"listening {path}\n", server.line
        assert is_socket(path)
        assert server.ask(SET_A + GET_A) == STORED + FOUND
        assert server.ask(GET_A) == FOUND
        assert server.ended() == (0, "served 2\ndomains 1\n", ""), "ended otherwise"
        assert not os.path.lexists(path), "the file is left"


def commands():
    """`refresh`, `ask` and `snapshot` ask a server at its socket."""
    room = Room()
    server = Lasting("--workers", "1", port=f"{room.path}/all")
    at = ("--socket", server.port)
    lines = "".join(f"1000 {name} stored due {1000 + due}\n" for name, due in sorted(DUE.items()))
    ended = run_words("refresh", "--relationships", f"{BUNDLES}/relationships", "--documents", BUNDLES, "--now", "1000", *at)
    assert ended == (0, lines.encode(), b""), ended
    ended = run_words("ask", *at, "--text", "get", "many")
    assert ended == (0, canonical("many") + b"\n", b""), ended
    ended = run_words("ask", *at, "--raw", "fetch")
    assert ended == (0, dump_of_real(), b""), ended
    os.mkdir(f"{room.path}/out")
    ended = run_words("snapshot", *at, "--out", f"{room.path}/out")
    assert ended == (0, f"shown snapshot-1 domains {len(DUE)}\n".encode(), b""), ended
    assert room.read("out/current/many.json") == canonical("many")
    assert server.ended() == (0, f"served 4\ndomains {len(DUE)}\n", ""), "ended otherwise"
    for words in (("ask", "fetch"), ("snapshot", "--out", f"{room.path}/out")):
        ended = run_words(words[0], *at, *words[1:])
        assert ended == NOT_REACHED, ended


def for_reads_only():
    """At the socket for reads only nothing is changed. A port and a socket go together, either way round."""
    room = Room()
    all_at, reads_at = f"{room.path}/all", f"{room.path}/reads"
    for port, option, place in ((all_at, "--read-socket", reads_at), (0, "--read-socket", reads_at), (all_at, "--read-port", "0")):
        with part(port=port, option=option):
            server = Lasting("--workers", "2", option, place, port=port)
            assert server.line == f"listening {server.port} read-only {server.read_port}\n", server.line
            assert server.ask(SET_A) == STORED
            assert server.ask(named(b"R", "a") + GET_A, server.read_port) == SHUT + FOUND
            assert server.ended() == (0, "served 2\ndomains 1\n", ""), "ended otherwise"
            assert os.listdir(room.path) == [], "a file is left"


def paths_that_are_taken():
    """The socket of a server that is up is a fault, and that server goes on. A socket of the same line is removed then."""
    room = Room()
    first = Lasting("--workers", "1", port=f"{room.path}/first")
    server = Server(port=first.port)
    assert is_not_there(server), server.said()
    server = Lasting("--read-socket", first.port, port=f"{room.path}/second")
    assert is_not_there(server), server.said()
    assert os.listdir(room.path) == ["first"]
    assert first.ask(GET_A) == NO_DOMAIN
    assert first.ended()[0] == 0


def what_a_dead_server_left():
    """The socket of a server that was killed is there, and nobody can be asked there. The next server replaces it."""
    path = f"{Room().path}/all"
    server = Lasting("--workers", "1", port=path)
    server.started.send_signal(signal.SIGKILL)
    server.started.wait(SECONDS)
    assert is_socket(path)
    ended = run_words("ask", "--socket", path, "fetch")
    assert ended == NOT_REACHED, ended
    server = Lasting("--workers", "1", port=path)
    assert server.ask(SET_A) == STORED
    assert server.ended()[0] == 0 and not os.path.lexists(path)


def other_files():
    """Whatever else is at the path is a fault, and stays as it was."""
    room = Room()
    room.write("file", b"what stood there")
    os.mkdir(f"{room.path}/folder")
    os.mkfifo(f"{room.path}/pipe")
    os.symlink("nowhere", f"{room.path}/link")
    with socket.socket(socket.AF_UNIX, socket.SOCK_DGRAM) as other:
        other.bind(f"{room.path}/datagrams")
        before = {name: os.lstat(f"{room.path}/{name}") for name in os.listdir(room.path)}
        for name in [*before, "none/socket"]:
            with part(name=name):
                server = Server(port=f"{room.path}/{name}")
                assert is_not_there(server), server.said()
    assert {name: os.lstat(f"{room.path}/{name}") for name in os.listdir(room.path)} == before
    assert bytes_of(f"{room.path}/file") == b"what stood there"


def lengths_of_paths():
    """The longest path that the system takes is served, and told in full. A longer one is a fault."""
    room = Room()
    path = f"{room.path}/".ljust(LONGEST_PATH, "x")
    reads = path[:-1] + "y"
    server = Lasting("--workers", "1", "--read-socket", reads, port=path)
    assert server.line == f"listening {path} read-only {reads}\n", server.line
    assert server.ask(SET_A) == STORED
    assert server.ask(GET_A, reads) == FOUND
    assert server.ended()[0] == 0
    server = Server(port=f"{path}x")
    assert is_not_there(server), server.said()
    ended = run_words("ask", "--socket", f"{path}x", "fetch")
    assert ended == NOT_REACHED, ended


def rights_of_the_file():
    """The umask says who may connect."""
    room = Room()
    os.chmod(room.path, 0o711)
    server = Lasting("--workers", "1", port=f"{room.path}/all", preexec_fn=lambda: os.umask(0o177))
    assert stat.S_IMODE(os.lstat(server.port).st_mode) == 0o600
    if os.geteuid() == 0:
        os.seteuid(NOBODY)
        try:
            connected(server.port).close()
            raise AssertionError("whoever may not write to the file has connected")
        except PermissionError:
            pass
        finally:
            os.seteuid(0)
    assert server.ask(SET_A) == STORED
    assert server.ended() == (0, "served 1\ndomains 1\n", ""), "ended otherwise"


def many_clients():
    """A hundred clients at once, who ask for more than their sockets hold before they read; all replies come, in order."""
    server = Lasting("--workers", "4", port=f"{Room().path}/all")
    real = canonical("many")
    assert server.ask(named(b"S", "a", bytes_of(f"{BUNDLES}/many.json"))) == STORED
    streams = server.connections(100)
    for stream in streams:
        stream.sendall(20 * GET_A + named(b"G", "b"))
    for stream in streams:
        assert received(stream, 20 * (len(real) + 5) + 5) == 20 * frame(b"f" + real) + NO_DOMAIN
        stream.shutdown(socket.SHUT_WR)
        assert rest_of(stream) == b""
    assert server.ended() == (0, "served 101\ndomains 1\n", ""), "ended otherwise"


CHECKS = [both_forms, commands, for_reads_only, paths_that_are_taken, what_a_dead_server_left, other_files, lengths_of_paths,
          rights_of_the_file, many_clients]


if __name__ == "__main__":
    sys.exit(run_checks(CHECKS))
