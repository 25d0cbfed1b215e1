#!/usr/bin/env python3
"""What commands say in words on standard error: behind the line of a fault comes what could not be had, where and why;
and how many clients `serve` serves if nobody has said that.

usage: gate/told.py   (over the program that rt ci or rt run has built in crates/bundled/out/)

The reasons are those of Linux: bind(2), open(2), unix(7). The line of a fault stays as it is: the words are a line of their own.
"""
import os
import socket
import sys

sys.dont_write_bytecode = True

from checks import EMPTY, FakeServer, Lasting, LeftOut, Room, Server, dump_of, frame, frame_of, named, part, run_checks, run_words, untimed, unused_port  # noqa: E402
from refusals import build_shim  # noqa: E402

FOREVER = ("--connections", "unlimited")
NOBODY = 65534


def refused(fault, words, *options, port=0, **how):
    """Nothing listens, and this is all that is said."""
    server = Server(*options, port=port, **how)
    assert (server.line, server.ended()) == ("", (1, "", f"{fault}\n{words}\n")), server.line


def ports_that_are_taken():
    """The number of the port that is taken is told: of the first, and of the one for reads."""
    with socket.create_server(("127.0.0.1", 0)) as taken:
        port = taken.getsockname()[1]
        refused("fault 57", f"port {port} is in use", *FOREVER, port=port)
        refused("fault 57", f"port {port} is in use", *FOREVER, "--read-port", str(port))


def sockets_that_are_not_had():
    """A path is told, and what is wrong with it, in either form of a server."""
    room = Room()
    other = Lasting(port=f"{room.path}/other")
    room.write("file", b"")
    os.mkdir(f"{room.path}/folder")
    os.symlink("other", f"{room.path}/link")
    long = f"{room.path}/{'n' * 108}"
    for path, why in ((other.port, "a server listens there"), (f"{room.path}/file", "what stands there is not a socket"),
                      (f"{room.path}/folder", "what stands there is not a socket"), (f"{room.path}/link", "what stands there is not a socket"),
                      (f"{room.path}/none/socket", "no such folder"), (f"{room.path}/file/socket", "a part of the path is not a folder"),
                      (long, "the path is not one of a socket, or too long")):
        for form in ((), FOREVER):
            with part(path=path, form=form):
                refused("fault 57", f'the socket "{path}": {why}', *form, port=path)
    refused("fault 57", f'the socket "{other.port}": a server listens there', *FOREVER, "--read-socket", other.port)
    assert other.ended()[0] == 0


def rights_that_are_missing():
    """Whoever may not write to a folder is told that: of a socket, and of the file of --save; and who may not read a dump."""
    if os.getuid() != 0:
        raise LeftOut("only root can be somebody else")
    room = Room()
    os.chmod(room.path, 0o755)
    dump = room.write("dump", dump_of({"a": EMPTY}))
    os.chmod(dump, 0o600)
    how = {"user": NOBODY, "group": NOBODY, "extra_groups": []}
    refused("fault 57", f'the socket "{room.path}/all": permission denied', port=f"{room.path}/all", **how)
    refused("fault 59", f'cannot write the dump "{room.path}/saved": permission denied', "--save", f"{room.path}/saved", **how)
    refused("fault 53", f'cannot read the dump "{dump}": permission denied', "--load", dump, **how)


def files_that_are_not_written():
    """The file of --save that cannot be written is told, and why."""
    room = Room()
    room.write("file", b"")
    os.mkdir(f"{room.path}/folder")
    os.mkdir(f"{room.path}/other.new")
    for name, why in (("none/saved", "no such folder"), ("folder", "what stands there is not a file"), ("file/saved", "a part of the path is not a folder"),
                      ("other", "FILE.new is there and cannot be removed")):
        for form in ((), FOREVER):
            with part(name=name, form=form):
                refused("fault 59", f'cannot write the dump "{room.path}/{name}": {why}', "--save", f"{room.path}/{name}", *form)


def dumps_that_are_not_read():
    """A dump that cannot be read, is cut, or is none."""
    room = Room()
    whole = dump_of({"a": EMPTY, "b": EMPTY})
    room.write("torn", whole[:-1])
    room.write("more", whole + frame(b"s"))
    room.write("none", b"")
    room.write("other", b"what is not a dump")
    os.mkdir(f"{room.path}/folder")
    for name, fault, words in (("nowhere", "fault 53", 'cannot read the dump "{}": no such file'), ("folder", "fault 53", 'cannot read the dump "{}": it is a folder'),
                               ("torn", "fault 63 2", 'the dump "{}" is not whole: frame 2 is wrong, missing or too much'),
                               ("more", "fault 63 3", 'the dump "{}" is not whole: frame 3 is wrong, missing or too much'),
                               ("none", "fault 63 0", 'the dump "{}" is empty, or not a dump'), ("other", "fault 63 0", 'the dump "{}" is empty, or not a dump')):
        with part(name=name):
            refused(fault, words.format(f"{room.path}/{name}"), "--load", f"{room.path}/{name}")


def names_that_terminals_obey():
    """What a terminal would obey, and what would end the line, is shown as a question mark."""
    path = f"{Room().path}/a\x1b[2J\nfault 0\x7f"
    shown = path.replace("\x1b", "?").replace("\n", "?").replace("\x7f", "?")
    refused("fault 53", f'cannot read the dump "{shown}": no such file', "--load", path)


def the_required_form():
    """With a port and a number of clients the line of a fault stands by itself."""
    with socket.create_server(("127.0.0.1", 0)) as taken:
        for form in ((), ("--connections", "2")):
            server = Server(*form, port=taken.getsockname()[1], bare=True)
            assert (server.line, server.ended()) == ("", (1, "", "fault 57\n")), server.line


def numbers_that_nobody_said():
    """Without --connections a server that listens tells how many clients it serves; and serves so many. With a number it says nothing
    of the kind."""
    for workers, said in (((), "2 clients"), (("--workers", "1"), "1 client"), (("--workers", "3"), "3 clients")):
        with part(workers=workers):
            server, count = Server(*workers, bare=True), int(said.split()[0])
            for _ in range(count):
                assert server.ask(named(b"G", "a")) == frame(b"\x1e")
            status, out, err = server.ended()
            assert (status, out, untimed(err)) == (0, f"served {count}\ndomains 0\n", f"serving {said}, then it ends; --connections unlimited stays\n"), (out, err)
    server = Server("--workers", "1", "--connections", "1")
    assert server.ask(named(b"G", "a")) == frame(b"\x1e")
    assert server.ended() == (0, "served 1\ndomains 0\n", "")


def no_thread_for_the_end():
    """A server that is to stop at the end of its input does not begin if no thread can be made: nobody would be served. Without
    that it serves everybody by one thread."""
    env = {"LD_PRELOAD": build_shim(Room().path), "REFUSE_THREADS": "1"}
    server = Lasting("--workers", "2", env=env)
    ended = server.ended()
    assert (server.line, ended) == ("", (1, "", "fault 57\nno thread can be made that waits for the end of the input\n")), (server.line, ended)
    server = Server(*FOREVER, "--workers", "2", env=env)
    assert server.ask(named(b"S", "a", EMPTY)) == frame(b"s")
    assert int(server.of_system("Threads")) == 1


def said(words, fault, why, **how):
    """Nothing is written but the line of the fault, and this behind it."""
    ended = run_words(*words, is_whole=True, **how)
    assert ended == (1, b"", f"{fault}\n{why}\n".encode()), ended


def servers_that_are_not_reached():
    """A port at which nobody listens; a socket that is not there, that nobody listens at, or that is none."""
    room, port = Room(), unused_port()
    room.write("file", b"")
    room.write("list", b"a https://a.example https_web\n")
    with socket.socket(socket.AF_UNIX) as left:
        left.bind(f"{room.path}/left")
    for words in (("ask", "fetch"), ("stats",), ("snapshot", "--out", room.path), ("refresh", "--relationships", f"{room.path}/list", "--documents", room.path)):
        with part(words=words):
            said((words[0], "--port", str(port), *words[1:]), "fault 78", f"nobody listens at port {port}")
            for name, why in (("none", "no such file"), ("left", "nobody listens there, or it is not a socket"), ("file", "nobody listens there, or it is not a socket"),
                              ("file/none", "a part of the path is not a folder"), ("n" * 108, "the path is not one of a socket, or too long")):
                said((words[0], "--socket", f"{room.path}/{name}", *words[1:]), "fault 78", f'the socket "{room.path}/{name}": {why}')


def servers_that_do_not_answer():
    """One that closes the connection, and one that tells something else."""
    for sent, fault, why in ((b"", "fault 52", "the server closed the connection before its reply was whole"),
                             (frame(b"v\2"), "fault 58", "what the server sent is not a reply to the request"),
                             (bytes(4), "fault 50", "a reply of the server has a length of 0 or of more than 1049000 bytes")):
        def serve(stream, sent=sent):
            frame_of(stream)
            stream.sendall(sent)
        server = FakeServer(serve)
        for words in (("ask", "fetch"), ("stats",)):
            with part(sent=sent, words=words):
                said((words[0], "--port", str(server.port), *words[1:]), fault, why)
        server.end()


def files_that_are_not_read():
    """The file that is not had is told, also which of two it is."""
    room = Room()
    dump, none, folder = room.write("dump", dump_of({"a": EMPTY})), f"{room.path}/none", room.path
    torn = room.write("torn", dump_of({"a": EMPTY})[:-1])
    absent, is_folder = f'cannot read "{none}": no such file', f'cannot read "{folder}": it is a folder'
    for words, fault, why in ((("diff", none, dump), "fault 53", absent), (("diff", dump, none), "fault 53", absent), (("diff", folder, none), "fault 53", is_folder),
                              (("diff", dump, torn), "fault 63 1", f'the dump "{torn}" is not a whole dump: frame 1 is wrong, missing or too much'),
                              (("diff", torn, none), "fault 53", absent),
                              (("check", none), "fault 77 1", absent), (("check", folder), "fault 77 1", is_folder),
                              (("ask", "--port", "1", "--unless", none, "fetch"), "fault 53", absent),
                              (("ask", "--port", "1", "--unless", torn, "fetch"), "fault 63 1", f'the dump "{torn}" is not a whole dump: frame 1 is wrong, missing or too much'),
                              (("refresh", "--relationships", none, "--documents", folder), "fault 53", absent)):
        with part(words=words):
            said(words, fault, why)


def input_that_is_another():
    """What a command cannot take of its input, or what it does not find there."""
    dump = dump_of({"a": EMPTY})
    for words, given, fault, why in ((("map",), b"", "fault 63 0", "standard input is empty, or not a dump"), (("digest",), dump[:-1], "fault 63 1", "standard input is not a whole dump: frame 1 is wrong, missing or too much"),
                                     (("pem", "b"), dump, "fault 75 1", 'the dump has no bundle of "b"'), (("map", "a", "b"), dump, "fault 75 2", 'the dump has no bundle of "b"'),
                                     (("import",), b"[]", "fault 64", "standard input is not a SPIFFE bundle map"), (("import",), b'{"trust_domains":{"a":1}}', "fault 65 0", "member 0 of the map is not a trust domain and its bundle, or stands twice")):
        with part(words=words):
            said(words, fault, why, given=given)


def the_required_commands():
    """What `run` and `trace` tell is one line."""
    for words, fault in ((("run", "--turns", "1"), b"fault 55\n"), (("trace",), b"fault 70 1\n")):
        assert run_words(*words, given=frame(b"F") * 20000, is_whole=True)[2] == fault


CHECKS = [ports_that_are_taken, sockets_that_are_not_had, rights_that_are_missing, files_that_are_not_written, dumps_that_are_not_read,
          names_that_terminals_obey, the_required_form, numbers_that_nobody_said, no_thread_for_the_end, servers_that_are_not_reached, servers_that_do_not_answer,
          files_that_are_not_read, input_that_is_another, the_required_commands]

if __name__ == "__main__":
    sys.exit(run_checks(CHECKS))
