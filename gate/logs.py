#!/usr/bin/env python3
"""Tries the log of `serve` where much is told, or nobody reads it.

usage: gate/logs.py   (over the program that rt ci or rt run has built in crates/bundled/out/)
"""
import os
import re
import sys
import time

sys.dont_write_bytecode = True

from checks import AFTERWARDS, EMPTY, Beside, Lasting, frame, named, received, run_checks, wait_until  # noqa: E402

CHANGED, READ_ONLY, NO_DOMAIN = frame(b"s") + frame(b"d"), frame(b"\x38"), frame(b"\x1e")
# How many requests are sent together, and how often.
TOGETHER, TIMES = 100, 20
# So many refusals and ends of sessions are told in a second.
A_SECOND = 100
TIME = r"\d{4}-\d\d-\d\dT\d\d:\d\d:\d\dZ "
LEFT_OUT = re.compile(TIME + r"log (\d+) lines left out")
CHANGE = re.compile(TIME + r"worker \d client \d+ (?:set [a-z]+ absent to unnumbered|removed [a-z]+ unnumbered to absent)")
REFUSAL = re.compile(TIME + r"worker \d client \d+ refused 1 changes 56")
END = re.compile(TIME + r"worker \d client \d+ session ended after \d+ replies from \d+")
SETTINGS = re.compile(TIME + r"settings workers \d shards \d+ max-open \d+")


class Piped:
    """A server whose log is a pipe."""

    def __init__(self, *options):
        self.read, write = os.pipe()
        AFTERWARDS.callback(os.close, self.read)
        try:
            self.server = Lasting("--workers", "2", "--read-port", "0", "--log", *options, err=write)
        finally:
            os.close(write)
        self.data, self.again = bytearray(), 0

    def read_on(self):
        """Reads until the server has ended."""
        while more := os.read(self.read, 1 << 16):
            self.data += more

    def lines(self):
        return self.data.decode().splitlines()


def changes_of(name):
    """A bundle is set, and removed."""
    return named(b"S", name, EMPTY) + named(b"R", name)


def asked(stream, request, reply, times=TIMES, together=TOGETHER):
    """Asks the same again and again, some requests together, and has all replies."""
    for _ in range(times):
        stream.sendall(together * request)
        came = received(stream, together * len(reply))
        assert came == together * reply, f"{came[:100]} came in place of {reply}"


def told(lines):
    """How many changes, refusals and ends the lines tell, and how many lines were left out by what they say. Each is whole."""
    kinds = {kind: [line for line in lines if kind.fullmatch(line)] for kind in (CHANGE, REFUSAL, END, SETTINGS, LEFT_OUT)}
    others = [line for line in lines if not any(kind.fullmatch(line) for kind in kinds)]
    assert not others and len(kinds[SETTINGS]) == 1, (len(kinds[SETTINGS]), others[:5])
    left_out = sum(int(LEFT_OUT.fullmatch(line)[1]) for line in kinds[LEFT_OUT])
    return len(kinds[CHANGE]), len(kinds[REFUSAL]), len(kinds[END]), left_out


def nobody_reads():
    """While nobody reads the log, changes and refusals are answered, and so are clients that come then. Once it is read, what it
    lacks is told: each line stands in it or is counted."""
    piped, long_name = Piped(), 250 * "a"
    server = piped.server
    with server.connect() as writer, server.connect(server.read_port) as reader:
        asked(writer, changes_of(long_name), CHANGED)
        # (each alone, so that each is a turn, and has a line)
        asked(reader, named(b"R", "a"), READ_ONLY, TIMES * TOGETHER, 1)
        for stream in server.connections(4):
            stream.sendall(named(b"G", "b"))
            assert received(stream, len(NO_DOMAIN)) == NO_DOMAIN
            stream.close()
        reading = Beside("the reader of the log", piped.read_on)
        # The pipe is empty in a while, and a line that comes then is followed by the count.
        wait_until(lambda: change_again(writer, piped), "the count is told")
    status, out, _ = server.ended()
    reading.join()
    assert (status, out) == (0, "served 6\ndomains 0\n"), (status, out)
    changes, refusals, ends, left_out = told(piped.lines())
    wanted = 3 * TIMES * TOGETHER + 2 * piped.again + 6
    assert changes + refusals + ends + left_out == wanted, (changes, refusals, ends, left_out, wanted)
    assert left_out > TIMES * TOGETHER, (changes, refusals, ends, left_out)
    return f"; {left_out} of {wanted} lines left out"


def change_again(writer, piped):
    """Changes a bundle twice, and says whether the log has told by then that lines were left out."""
    piped.again += 1
    asked(writer, changes_of("c"), CHANGED, 1, 1)
    return any(LEFT_OUT.fullmatch(line) for line in piped.lines())


def many_refusals():
    """A client that is refused without pause fills no log: some lines are written each second, and the others are counted. What
    others change meanwhile is told."""
    begun = time.monotonic()
    server = Lasting("--workers", "2", "--read-port", "0", "--log")
    sent = changes = 0
    with server.connect() as writer, server.connect(server.read_port) as reader:
        while time.monotonic() < begun + 4:
            asked(reader, named(b"R", "a"), READ_ONLY, 5 * TOGETHER, 1)
            sent += 5 * TOGETHER
            asked(writer, changes_of("c"), CHANGED, 1, 1)
            changes += 2
    status, out, err = server.ended()
    seconds = time.monotonic() - begun
    assert (status, out) == (0, "served 2\ndomains 0\n"), (status, out)
    set_lines, refusals, ends, left_out = told(err.splitlines())
    assert set_lines == changes, f"{set_lines} of {changes} changes are told"
    assert refusals + ends + left_out == sent + 2, (refusals, ends, left_out, sent)
    assert refusals + ends <= A_SECOND * (seconds + 2), f"{refusals} refusals are told in {seconds:.1f} seconds"
    assert refusals >= A_SECOND and left_out > 0, (refusals, left_out)
    return f"; {refusals} of {sent} refusals told in {seconds:.1f} s"


if __name__ == "__main__":
    sys.exit(run_checks([nobody_reads, many_refusals]))
