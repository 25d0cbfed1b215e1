#!/usr/bin/env python3
"""Runs the program over lines of arguments: which command runs, with which settings, and where a text goes.

usage: gate/command_lines.py   (over the program that rt ci or rt run has built in crates/bundled/out/)
"""
import hashlib
import json
import re
import sys

sys.dont_write_bytecode = True

from checks import EMPTY, ROOT, Room, bytes_of, canonical, dump_of, frame, part, pem_of, run_checks, run_words, version  # noqa: E402

FIRST_RUN = frame(b"S\x01a" + EMPTY) + frame(b"G\x01a")
FIRST_REPLIES = frame(b"s") + frame(b"f" + EMPTY)
DUMP_OF_ONE = dump_of({"a": EMPTY})
MIGRATED = frame(b"V\x02") + frame(b"C\x01a\x00" + EMPTY)

# A fetch-all over one shard that is done after two steps; over more shards it is not.
FETCH_ALL = b"begin 1 fetch\nstep 1\nstep 1\nend 1\n"
FETCHED = b"record 0 caller 1 first 0 last 3 reply all 0\norder 0\n"
UNFINISHED = b"record 0 caller 1 first 0 last - reply -\norder\n"
# A fetch-all over one shard that is overtaken in each of three rounds, and one that is overtaken once.
SET = b'begin 2 set a {"keys":[]}\nstep 2\nend 2\n'
OVERTAKEN = (
    b"begin 1 fetch\nstep 1\n" + SET + b"step 1\nstep 1\nbegin 2 remove a\nstep 2\nend 2\nstep 1\nstep 1\n" + SET + b"step 1\nend 1\n"
)
WRITES = (
    b"record 1 caller 2 first 2 last 4 reply stored\nrecord 2 caller 2 first 7 last 9 reply removed\n"
    b"record 3 caller 2 first 12 last 14 reply stored\norder 1 2 3\n"
)
MOVED_IN_ALL = b"record 0 caller 1 first 0 last 16 reply moved 0 2 3\n" + WRITES
NOT_YET = b"record 0 caller 1 first 0 last - reply -\n" + WRITES
OVERTAKEN_ONCE = b"begin 1 fetch\nstep 1\n" + SET + b"step 1\nend 1\n"
MOVED_ONCE = (
    b"record 0 caller 1 first 0 last 6 reply moved 0 0 1\nrecord 1 caller 2 first 2 last 4 reply stored\norder 1\n"
)

# The picture of that, drawn by hand.
LEGEND = b"""\
A row for each caller, a column for each event, counted from 0.
[ an operation begins   ] it ends   - it is open   . no operation is open
order: each operation at a moment when it can take effect, by the last digit of
its number, so that one after another they give these replies.
Up to 960 events and 16 callers are drawn.

"""
OVERTAKEN_PICTURE = b"""\
event             0
caller 1          [-----]
caller 2          ..[-]..
order             ..1....

"""

# A fetch-all that knows the digest of no bundles, or another, as lines, as requests and as what is answered; over no bundles.
NONE = hashlib.sha256(dump_of({})).digest()
UNLESS_LINES = b"version 3\nfetch unless %s\nfetch unless %s\n" % (NONE.hex().encode(), b"0" * 64)
UNLESS = frame(b"V\x03") + frame(b"U" + NONE) + frame(b"U" + bytes(32))
UNLESS_REPLIES = frame(b"v\x03") + frame(b"e") + dump_of({})
# Counts are asked for, of a session that counts nothing; and an expectation in both of its words.
COUNT_LINES = b"version 3\nstats\n"
COUNTS = frame(b"V\x03") + frame(b"M")
COUNTS_REPLIES = frame(b"v\x03") + frame(b"m")
EXPECTED = frame(b"C\x01a\x02" + EMPTY)

FETCH_UNLESS = b"begin 1 fetch unless %s\nstep 1\nstep 1\nend 1\n"
FETCHED_SAME = b"record 0 caller 1 first 0 last 3 reply same\norder 0\n"

NOTHING = b"-: no authorities: nothing would be kept of 0 entries\n"

# Lines that become the first run, and what its replies are as lines.
FIRST_LINES = b'# two requests\nset a {"keys":[]}\n\nget a\n'
TOLD = b'stored\nfound {"keys":[]}\n'
BUNDLE = f"{ROOT}/gate/bundles/many.json"
SET_BUNDLE = frame(b"S\x01a" + bytes_of(BUNDLE))

# A dump of a domain with an empty bundle and of a real one, with what is shown of it.
ROTATION = canonical("rotation")
DUMP_OF_TWO = dump_of({"a": EMPTY, "rotation": ROTATION})
MAP_OF_TWO = b'{"trust_domains":{"a":' + EMPTY + b',"rotation":' + ROTATION + b"}}"
MAP_OF_ONE = b'{"trust_domains":{"a":' + EMPTY + b"}}"
PEM = pem_of(ROTATION)
assert PEM.count(b"BEGIN") > 1

# Each option at its limits, with a run that shows it if any does (the replies are the same over each number of shards).
RUNS = [
    ("run", FIRST_RUN, FIRST_REPLIES),
    ("run --shards 1", FIRST_RUN, FIRST_REPLIES),
    ("run --shards=256", FIRST_RUN, FIRST_REPLIES),
    ("run --turns 2", FIRST_RUN, FIRST_REPLIES),
    ("run --turns 1000000000", FIRST_RUN, FIRST_REPLIES),
    ("run --turns 2 --shards 1", FIRST_RUN, FIRST_REPLIES),
    ("run", UNLESS, UNLESS_REPLIES),
    ("run --shards 256", UNLESS, UNLESS_REPLIES),
    ("encode", FIRST_LINES, FIRST_RUN),
    ("encode", FIRST_LINES[:-1], FIRST_RUN),
    ("encode", f"set a @{BUNDLE}\n".encode(), SET_BUNDLE),
    ("decode", FIRST_REPLIES, TOLD),
    ("decode", FIRST_RUN, b'set a {"keys":[]}\nget a\n'),
    ("decode", DUMP_OF_ONE, b'all 1\nbundle a {"keys":[]}\n'),
    ("encode", UNLESS_LINES, UNLESS),
    ("decode", UNLESS, UNLESS_LINES),
    ("decode", UNLESS_REPLIES, b"version 3\nsame\nall 0\n"),
    ("run", COUNTS, COUNTS_REPLIES),
    ("run", frame(b"M") + frame(b"V\x02") + frame(b"M"), frame(b"\x33") + frame(b"v\x02") + frame(b"\x33")),
    ("encode", COUNT_LINES, COUNTS),
    ("decode", COUNTS, COUNT_LINES),
    ("decode", COUNTS_REPLIES + frame(b"ma=1 b=2"), b"version 3\nstats \nstats a=1 b=2\n"),
    ("encode", b"setif a none " + EMPTY, EXPECTED),
    ("encode", b"setif a unnumbered " + EMPTY, EXPECTED),
    ("decode", EXPECTED, b"setif a none " + EMPTY + b"\n"),
    ("check", EMPTY, b"-: bundle of 0 authorities (0 X.509, 0 JWT), no sequence, no refresh hint\n" + NOTHING),
    ("map", DUMP_OF_TWO, MAP_OF_TWO + b"\n"),
    ("map a", DUMP_OF_TWO, MAP_OF_ONE + b"\n"),
    ("map rotation a a", DUMP_OF_TWO, MAP_OF_TWO + b"\n"),
    ("map --x509 a", DUMP_OF_TWO, MAP_OF_ONE + b"\n"),
    ("import", MAP_OF_TWO, frame(b"S\x01a" + EMPTY) + frame(b"S\x08rotation" + ROTATION)),
    ("pem rotation", DUMP_OF_TWO, PEM),
    ("pem a", DUMP_OF_TWO, b""),
    ("digest", DUMP_OF_TWO, hashlib.sha256(DUMP_OF_TWO).hexdigest().encode() + b"\n"),
    ("migrate", DUMP_OF_ONE, MIGRATED),
    ("trace --shards 1", FETCH_ALL, FETCHED),
    ("trace --shards 1", FETCH_UNLESS % NONE.hex().encode(), FETCHED_SAME),
    ("trace --shards 1", FETCH_UNLESS % (b"0" * 64), FETCHED),
    ("trace --shards 2", FETCH_ALL, UNFINISHED),
    ("trace --shards 256", FETCH_ALL, UNFINISHED),
    ("trace", FETCH_ALL, UNFINISHED),
    ("trace --shards 1", OVERTAKEN, MOVED_IN_ALL),
    ("trace --shards 1 --rounds 3", OVERTAKEN, MOVED_IN_ALL),
    ("trace --rounds 4 --shards 1", OVERTAKEN, NOT_YET),
    ("trace --shards 1 --rounds 16", OVERTAKEN, NOT_YET),
    ("trace --shards 1 --rounds 1", OVERTAKEN_ONCE, MOVED_ONCE),
    ("trace --shards 2 --rounds 1", FETCH_ALL, UNFINISHED),
    ("trace --shards 1 --rounds 2", FETCH_ALL, FETCHED),
    ("trace --shards 1 --rounds 1 --picture", OVERTAKEN_ONCE, LEGEND + OVERTAKEN_PICTURE + MOVED_ONCE),
]

FAULTS = [
    ("run --turns 1", FIRST_RUN, FIRST_REPLIES, b"fault 55\n"),
    ("trace", FIRST_RUN, b"", b"fault 70 1\n"),
    ("migrate", FIRST_RUN, b"", b"fault 63 0\n"),
    ("map", FIRST_RUN, b"", b"fault 63 0\n"),
    ("map a b c", DUMP_OF_ONE, b"", b"fault 75 2\n"),
    ("import", b"[]", b"", b"fault 64\n"),
    ("import", MAP_OF_ONE[:-1], b"", b"fault 64\n"),
    ("import", b'{"trust_domains":{"a":{"keys":[]},"b":{"keys":0}}}', b"", b"fault 65 1\n"),
    ("import", b'{"trust_domains":{"a":{"keys":[]},"a":{"keys":[]}}}', b"", b"fault 65 1\n"),
    ("pem b", DUMP_OF_ONE, b"", b"fault 75 1\n"),
    ("pem a", DUMP_OF_ONE[:-1], b"", b"fault 63 1\n"),
    ("digest", DUMP_OF_ONE + frame(b"s"), b"", b"fault 63 2\n"),
    ("encode", FIRST_LINES + b"get\n", FIRST_RUN, b"fault 70 5\n"),
    ("encode", UNLESS_LINES + b"fetch unless " + NONE.hex().upper().encode(), UNLESS, b"fault 70 4\n"),
    ("encode", UNLESS_LINES + b"fetch unless " + b"0" * 63, UNLESS, b"fault 70 4\n"),
    ("encode", UNLESS_LINES + b"fetch  unless " + b"0" * 64, UNLESS, b"fault 70 4\n"),
    ("encode", b"version 4\n", b"", b"fault 70 1\n"),
    ("encode", COUNT_LINES + b"stats a\n", COUNTS, b"fault 70 3\n"),
    ("encode", b"setif a Unnumbered " + EMPTY, b"", b"fault 70 1\n"),
    ("decode", COUNTS + frame(b"Mx"), COUNT_LINES, b"fault 76 2\n"),
    ("decode", COUNTS_REPLIES + frame(b"ma=1\nb=2"), b"version 3\nstats \n", b"fault 76 2\n"),
    ("encode", b"get a\nset a @/nowhere\n", frame(b"G\x01a"), b"fault 77 2\n"),
    ("encode", b"get a\nset a @/dev/zero\n", frame(b"G\x01a"), b"fault 70 2\n"),
    ("decode", FIRST_REPLIES + frame(b"X"), TOLD, b"fault 76 2\n"),
    ("decode", frame(b"G\x01a") + frame(b"S\x01a@b"), b"get a\n", b"fault 76 1\n"),
    ("decode", UNLESS + frame(b"U" + bytes(31)), UNLESS_LINES, b"fault 76 3\n"),
    ("decode", UNLESS_REPLIES + frame(b"e\0"), b"version 3\nsame\nall 0\n", b"fault 76 3\n"),
    ("trace", FETCH_UNLESS % (b"0" * 65), b"", b"fault 70 1\n"),
    ("decode", FIRST_REPLIES[:-1], b"stored\n", b"fault 52\n"),
    ("decode", FIRST_REPLIES + b"\0\0\0\0", TOLD, b"fault 50\n"),
]

# What is asked for, and a part of what is shown.
SHOWN = [
    ("--version", f"bundled {version()}\n"),
    ("--help", "  2  the command line is refused\n"),
    ("-h", "Usage: bundled <COMMAND>"),
    ("help", "migrate"),
    ("run --help", "Usage: bundled run [OPTIONS]"),
    ("run --help", "A frame is a length of 4 bytes"),
    ("ask --help", "bundled ask --port 8443 get a.example"),
    ("encode --help", "set D DOC"),
    ("decode --help", "moved S A B"),
    ("check --help", "its kty is"),
    ("map --help", "spiffe_trust_bundle_map_file"),
    ("import --help", "fault 65 MEMBER"),
    ("pem --help", "bundled pem a.example < dump > ca.pem"),
    ("diff --help", "~ a.example sequence 3 to 4 x509 +1 -0"),
    ("digest --help", "bundled digest < dump"),
    ("explain --help", "Usage: bundled explain <NUMBER>"),
    ("explain 31", "lower than the stored one"),
    ("trace --help", "--rounds <COUNT>"),
    ("trace --help", "--picture"),
    ("race --help", "--seconds <SECONDS>"),
    ("migrate --help", "bundled migrate < dump"),
    ("refresh --help", "--relationships <FILE>"),
    ("refresh --help", "1000 a.example sent due 1300"),
    ("snapshot --help", "shown snapshot-7 domains 2"),
    ("explain 73", "over 250 bytes"),
    ("serve --help", "worker 0 client 1 set a.example absent to 7"),
    ("serve --help", "each worker serves many clients beside each other"),
    ("serve --help", "--turns <READS>"),
    ("serve --help", "--save <FILE>"),
]

REFRESH = "refresh --relationships list --documents folder"
# A line that is refused, and a part of what is said.
REFUSED = [
    ("", "requires a subcommand"),
    ("frames", "unrecognized subcommand 'frames'"),
    ("run run", "unexpected"),
    ("run --shards 0", "0 is not in 1..=256"),
    ("run --shards 257", "257 is not in 1..=256"),
    ("run --turns 0", "0 is not in 1..=1000000000"),
    ("run --turns 1000000001", "1000000001 is not in 1..=1000000000"),
    ("run --turns 1e3", "invalid value '1e3' for '--turns <READS>'"),
    ("run --shards four", "invalid value 'four' for '--shards <COUNT>'"),
    ("run --shards", "--shards <COUNT>"),
    ("run --rounds 3", "unexpected argument '--rounds'"),
    ("encode --shards 1", "unexpected argument '--shards'"),
    ("decode all", "unexpected argument 'all'"),
    ("map A", "a NAME is not that of a trust domain"),
    ("pem", "<NAME>"),
    ("pem a b", "unexpected argument 'b'"),
    ("pem .\u00e9", "a NAME is not that of a trust domain"),
    ("diff old", "<NEW>"),
    ("digest dump", "unexpected argument 'dump'"),
    ("explain", "<NUMBER>"),
    ("explain 0", "0 is not in 1..=255"),
    ("explain Stale", "invalid value 'Stale' for '<NUMBER>'"),
    ("explain 99", "no refusal and no fault has this number"),
    ("trace --shards 0", "0 is not in 1..=256"),
    ("trace --shards 257", "257 is not in 1..=256"),
    ("trace --rounds 0", "0 is not in 1..=16"),
    ("trace --rounds 17", "17 is not in 1..=16"),
    ("trace --rounds 1.5", "invalid value '1.5' for '--rounds <COUNT>'"),
    ("trace --turns 3", "unexpected argument '--turns'"),
    ("demo race", "unrecognized subcommand 'demo'"),
    ("race rally", "unexpected argument 'rally'"),
    ("race --seconds 0", "0 is not in 1..=60"),
    ("race --seconds 61", "61 is not in 1..=60"),
    ("migrate --shards 1", "unexpected argument '--shards'"),
    ("refresh", "--relationships <FILE>"),
    ("refresh --relationships list", "--documents <FOLDER>"),
    (f"{REFRESH} --port 0", "0 is not in 1..=65535"),
    (f"{REFRESH} --port 65536", "--port <PORT>"),
    (f"{REFRESH} --port 1 --socket a", "--port and --socket exclude each other"),
    (f"{REFRESH} --socket=", "a value is required for '--socket <PATH>'"),
    (f"{REFRESH} --now -1", "unexpected argument '-1'"),
    (f"{REFRESH} --at-least 18446744073709551616", "--at-least <SECONDS>"),
    ("ask", "--port PORT or --socket PATH has to be given"),
    ("ask get a", "--port PORT or --socket PATH has to be given"),
    ("ask --port 1 --socket a get a", "--port and --socket exclude each other"),
    ("ask --port 0 get a", "0 is not in 1..=65535"),
    ("ask --port 1 --retry 1000001 get a", "1000001 is not in 0..=1000000"),
    ("ask --port 1 --raw --text get a", "--raw and --text exclude each other"),
    ("snapshot --port 1", "--out <FOLDER>"),
    ("snapshot --out a", "--port PORT or --socket PATH has to be given"),
    ("snapshot --port 1 --socket a --out a", "--port and --socket exclude each other"),
    ("snapshot --port 1 --out a --every 86401", "86401 is not in 1..=86400"),
    ("snapshot --port 1 --out a --at-least 0", "0 is not in 1..18446744073709551615"),
    ("serve", "--port PORT or --socket PATH has to be given"),
    ("serve --port 0 --socket a", "--port and --socket exclude each other"),
    ("serve --port 0 --connections unlimited --read-port 0 --read-socket a", "--read-port and --read-socket exclude each other"),
    ("serve --socket a --read-socket b", "belong to --connections unlimited"),
    ("serve --port 1 --workers 65", "65 is not in 1..=64"),
    ("serve --port 1 --turns 0", "0 is not in 1..=1000000000"),
    ("serve --port 1 --connections unlimited --turns 1000000001", "1000000001 is not in 1..=1000000000"),
    ("serve --port 1 --connections 0", "--connections takes a number in 1..=1000, or `unlimited`"),
    ("serve --port 1 --connections 1001", "--connections takes a number in 1..=1000, or `unlimited`"),
    ("serve --port 1 --max-open 1000", "--max-open, --read-port, --read-socket, --until-eof, --idle, --reply-seconds and --moments belong to --connections unlimited"),
    ("serve --port 1 --connections 1 --read-port 0", "belong to --connections unlimited"),
    ("serve --port 1 --until-eof --connections 1000", "belong to --connections unlimited"),
    ("serve --port 1 --idle 60", "belong to --connections unlimited"),
    ("serve --port 1 --connections unlimited --idle 0", "0 is not in 1..=86400"),
    ("serve --port 1 --moments 8", "belong to --connections unlimited"),
    ("serve --port 1 --reply-seconds 60", "belong to --connections unlimited"),
    ("serve --port 1 --connections unlimited --reply-seconds 0", "0 is not in 1..=86400"),
    ("serve --port 1 --connections unlimited --moments 0", "0 is not in 1..=1000"),
    ("run --version", "unexpected argument '--version'"),
    ("run --shards \udcff", "error: an argument is not UTF-8"),
    ("\udcff", "try '--help'"),
]


def ran(line, given=FIRST_RUN, **how):
    """The program over these arguments. (A byte that is no text comes as a surrogate.)"""
    return run_words(*line.split(), given=given, **how)


def runs_what_the_line_wants():
    for line, given, output in RUNS:
        with part(line=line):
            ended = ran(line, given)
            assert ended == (0, output, b""), ended


def faults():
    for line, given, output, told in FAULTS:
        with part(line=line):
            ended = ran(line, given)
            assert ended == (1, output, told), ended


def shows_what_is_asked_for():
    """On standard output; if it is not taken, that is a fault."""
    for line, text in SHOWN:
        with part(line=line):
            status, output, told = ran(line)
            assert (status, told) == (0, b"") and text in output.decode(), (status, output, told)
            with open("/dev/full", "wb") as full:
                ended = ran(line, out=full)
                assert ended == (1, None, b"fault 54\n"), ended


def refuses_other_lines():
    """On standard error, with status 2."""
    for line, text in REFUSED:
        with part(line=line):
            status, output, told = ran(line)
            assert (status, output) == (2, b""), (status, output)
            assert told.startswith(b"error: ") and text in told.decode(), told


def races():
    """For a second: a fetch-all shows no map that never was. What a naive reader shows is up to the threads."""
    status, output, told = ran("race --seconds 1")
    assert (status, told) == (0, b""), (status, output, told)
    counts = re.search(rb"^fetch-all: ([0-9]+) readings, 0 of them maps that never were\n\Z", output, re.M)
    assert counts and int(counts[1]) > 0, output
    assert re.search(rb"^bundles set: [1-9][0-9]*\ndomain by domain: [1-9][0-9]* readings, [0-9]+ of them maps", output, re.M), output


def tells_what_is_kept():
    """Of documents: status 0 if all is kept, 3 if something is ignored, 1 if one is not a bundle or cannot be read."""
    whole, lacking = f"{ROOT}/gate/bundles/rotation.json", f"{ROOT}/gate/bundles/with-unknown.json"
    status, output, told = ran(f"check {whole}")
    assert (status, told, output.count(b"\n")) == (0, b"", 1)
    assert output.startswith(f"{whole}: bundle of 4 authorities (2 X.509, 2 JWT), sequence 7".encode()), output
    status, output, told = ran(f"check {whole} {lacking}")
    assert (status, told) == (3, b"") and f"{lacking}: keys[".encode() in output and b"is ignored: " in output, output
    status, output, told = ran(f"check {lacking} {ROOT}/README.md {whole}")
    assert (status, told) == (1, b"") and f"{ROOT}/README.md: not a bundle: ".encode() in output, output
    status, output, told = ran(f"check {whole} {ROOT}/nowhere {lacking}")
    assert (status, told, output.count(b"\n")) == (1, b"fault 77 2\n", 1), (status, told)


def tells_what_changed():
    """From one dump to another, with status 3; nothing where they hold the same, with status 0."""
    sequence = json.loads(ROTATION)["spiffe_sequence"]
    count = len(json.loads(ROTATION)["keys"])
    room = Room()
    one, two, other = room.write("one", DUMP_OF_ONE), room.write("two", DUMP_OF_TWO), room.write("other", FIRST_RUN)
    added = f"+ rotation authorities {count} sequence {sequence}\n".encode()
    assert ran(f"diff {one} {two}") == (3, added, b"")
    assert ran(f"diff {two} {one}") == (3, b"- rotation\n", b"")
    assert ran(f"diff {two} {two}") == (0, b"", b"")
    assert ran(f"diff {one} {other}") == (1, b"", b"fault 63 0\n")
    assert ran(f"diff {room.path}/none {one}") == (1, b"", b"fault 53\n")
    with open("/dev/full", "wb") as full:
        assert ran(f"diff {one} {two}", out=full) == (1, None, b"fault 54\n")


def explains_each_number():
    """Each number of the tables of the formats, by its name."""
    with open(f"{ROOT}/docs/FORMATS.md", encoding="utf-8") as formats:
        rows = re.findall(r"^\| (\d+(?:, \d+)*) \| ((?:`[^`]+`(?:, )?)+) \|", formats.read(), re.M)
    known = {}
    for numbers, names in rows:
        for number, name in zip(numbers.split(", "), re.findall(r"`(\w+)", names)):
            known.setdefault(int(number), name)
    assert len(known) > 40, known
    for number, name in known.items():
        status, output, told = ran(f"explain {number}")
        lines = output.decode().splitlines()
        assert (status, told) == (0, b"") and re.match(rf"{number} {name}\b", lines[0]), (number, name, output)
        assert any(line.startswith("What to do: ") for line in lines), number


CHECKS = [
    runs_what_the_line_wants,
    faults,
    shows_what_is_asked_for,
    refuses_other_lines,
    races,
    tells_what_is_kept,
    tells_what_changed,
    explains_each_number,
]


if __name__ == "__main__":
    sys.exit(run_checks(CHECKS))
