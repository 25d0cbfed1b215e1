#!/usr/bin/env python3
"""Runs the recipes of docs/USING.md as they stand there, over a real server and real bundles.

usage: gate/recipes.py [NAME..]   (over the program that rt ci or rt run has built in crates/bundled/out/)

A recipe is a block of the page, and its text is taken from the page: only the port is another one. What is expected is not
made by the program: each NAME.canonical in gate/bundles was made by another one, and certificates are made by openssl. Many
recipes call other programs, and those whose program the machine lacks are left out, which is told. With names only the
checks of these names are run.
"""
import hashlib
import json
import os
import re
import subprocess
import sys

sys.dont_write_bytecode = True

import recipes_etcd  # noqa: E402
import recipes_service  # noqa: E402
import recipes_systemd  # noqa: E402
import recipes_tls  # noqa: E402
from checks import ROOT, SECONDS, dump_of, line_of, pem_of, run_checks, wait_until  # noqa: E402
from examples import PORT  # noqa: E402
from recipe_rooms import A, B, BLOCKS, BOTH, Shell, a_store, stop, without_pause  # noqa: E402


def runs_a_store():
    """By hand, with an empty dump, and with a dump that was kept."""
    empty = BLOCKS["Keep what it holds"][1]
    room = a_store(recipe=("Keep what it holds", 0), prepare=lambda it: it.run(empty), is_filled=False)
    assert json.loads(room.run("store map")) == {"trust_domains": {}}
    room = a_store()
    room.run(BLOCKS["Keep what it holds"][0].splitlines()[0])
    kept = room.read("dump")
    assert kept == dump_of(BOTH)
    for heading in ("Keep what it holds", "More than one machine"):
        room = a_store(recipe=(heading, 0), prepare=lambda it: it.write("dump", kept), is_filled=False)
        assert (room.get("a.example"), room.get("b.example")) == (A, B)


def a_store_comes_back():
    """What it held when it was told to end, and what was dumped before it was killed."""
    lasting, dump = BLOCKS["A store that comes back"]
    room = Shell()
    for number, is_stopped in enumerate((True, False)):
        server = room.start(f"exec {lasting}", stderr=subprocess.DEVNULL)
        assert line_of(server) == f"listening {room.port}\n".encode()
        if number == 0:
            room.run(BLOCKS["Set one document"][1])
        assert (room.get("a.example"), room.get("b.example")) == (A, B)
        if is_stopped:
            server.terminate()
            assert server.wait(SECONDS) == 0
        else:
            room.run(f"store remove b.example && {dump}")
            stop(server)
    assert (room.read("dump"), room.read("dump.1")) == (dump_of({"a.example": A}), dump_of(BOTH))


def fills_it_by_refreshes():
    """The list of the page, twice."""
    room = a_store(is_filled=False)
    room.write("list", BLOCKS["Fill it from SPIRE"][1].encode())
    for said in ("stored", "unchanged"):
        lines = room.run(BLOCKS["Fill it from SPIRE"][2]).splitlines()
        assert [it.split()[1:3] for it in lines] == [["a.example", said], ["b.example", said]], lines
    os.remove(f"{room.path}/documents/b.example.json")
    lines = room.run(BLOCKS["Fill it from SPIRE"][2], status=3).splitlines()
    assert [it.split()[1:4] for it in lines][1] == ["b.example", "no", "answer"], lines
    assert (room.get("a.example"), room.get("b.example")) == (A, B)


def fills_it_by_hand():
    """Documents are judged and set, one and many, and a bundle map is imported."""
    room = a_store(is_filled=False)
    said = room.run(BLOCKS["Judge a document"][0])
    assert "documents/a.example.json" in said and "documents/b.example.json" in said, said
    assert room.run(BLOCKS["Set one document"][0]) == "stored\n"
    assert room.run(BLOCKS["Set one document"][1]) == "unchanged\nstored\n"
    room.write("map.json", b'{"trust_domains":{"c.example":' + A + b"}}")
    assert room.run(BLOCKS["Fill it from a bundle map"][0]) == "stored\n"
    assert room.get("c.example") == A
    room.write("map.json", b'{"trust_domains":{"c.example":{}}}')
    room.run(BLOCKS["Fill it from a bundle map"][0], status=1)


def sets_it_if_it_is_the_one():
    """Of two who have read the same bundle the first sets it."""
    recipe = BLOCKS["Several refreshers"][0]
    room = a_store()
    assert room.python(recipe) == ""
    assert json.loads(room.get("a.example")) == {**json.loads(A), "spiffe_sequence": 8, "spiffe_refresh_hint": 60}
    other = "        Client.connect(8443).set('a.example', {'keys': [], 'spiffe_sequence': 9})\n"
    raced = recipe.replace("    try:\n", f"    try:\n{other}")
    assert raced != recipe
    assert room.python(raced) == "refused 36 NotExpected 9\n"


def is_read():
    """In a shell, by the client, and in Python, over a port and over a pipe."""
    room = a_store()
    lines = [f"bundle {name} {text.decode()}" for name, text in BOTH.items()]
    assert room.run(BLOCKS["Read it in a shell"][0]).splitlines() == [f"found {A.decode()}", A.decode(), "all 2", *lines]
    assert room.read("dump") == dump_of(BOTH)
    text, whole = room.run(BLOCKS["Read it in a shell"][1]).splitlines()
    assert (text.encode(), json.loads(whole)) == (A, {"trust_domains": {it: json.loads(BOTH[it]) for it in BOTH}})
    keys, *rest = room.python(BLOCKS["Read it in Python"][0]).splitlines()
    assert keys == repr(json.loads(A)["keys"])
    assert rest[:2] == [f"{it} {len(BOTH[it])}" for it in BOTH] and len(rest) == 4, rest
    said = f"as before\n{hashlib.sha256(dump_of(BOTH)).hexdigest()}\n"
    assert room.python(BLOCKS["Read it in Python"][1]) == said
    assert room.python(BLOCKS["Read it in Python"][2]).startswith("Stored")


def is_read_in_go():
    """By a program that is made of the page's and the client."""
    room = a_store()
    os.mkdir(f"{room.path}/program")
    room.write("program/main.go", BLOCKS["Read it in Go"][0].replace(PORT, room.port).encode())
    room.write("program/go.mod", f"module program\ngo 1.19\nrequire hopslintel.example/hopslintel v1.0.0\nreplace hopslintel.example/hopslintel => {ROOT}/clients/go\n".encode())
    # The first build takes its time.
    lines = room.run("cd program && CGO_ENABLED=0 go run .", seconds=10 * SECONDS).splitlines()
    assert lines == [A.decode(), *(f"{it} {len(BOTH[it])}" for it in BOTH)], lines


def hands_on_a_folder():
    """A snapshot again and again, two files that are of one moment, and something that is done at each change and looked at."""
    again, together = BLOCKS["A folder of files"]
    at_changes, look = BLOCKS["Something at each change"]
    room = a_store()
    room.start(again)
    wait_until(lambda: os.path.exists(f"{room.path}/bundles/current"), "the folder shows something")
    assert room.run(together).encode() == pem_of(A) + pem_of(B)
    room = a_store()
    room.run(look, status=1)
    room.start(without_pause(at_changes))
    told = lambda: room.read("changes") if os.path.exists(f"{room.path}/changes") else b""
    wait_until(lambda: told() == b"shown snapshot-1\n", "the first snapshot is told")
    room.run("store remove b.example")
    wait_until(lambda: told().endswith(b"shown snapshot-2\n"), "the change is told")
    wait_until(lambda: "snapshot-2 " in room.run(look, status=None), "it is known to be done")


def hands_on_files():
    """For gRPC and Envoy, and for another SPIRE server."""
    room = a_store()
    room.run(BLOCKS["gRPC"][0])
    only = {name: {"keys": [it for it in json.loads(text)["keys"] if it["use"] == "x509-svid"]} for name, text in BOTH.items()}
    found = json.loads(room.read("map.x509"))["trust_domains"]
    assert {it: {"keys": found[it]["keys"]} for it in found} == only
    assert not any("spiffe_refresh_hint" in it for it in found.values())
    assert json.loads(room.read("map")) == {"trust_domains": {it: json.loads(BOTH[it]) for it in BOTH}}
    room.run(BLOCKS["SPIRE"][0].splitlines()[0])
    assert room.read("b.example.json") == B + b"\n"


def is_looked_at():
    """Whether it answers, a dump and requests as lines, what changed, and the digest."""
    room = a_store()
    assert room.run(BLOCKS["Whether it answers"][0]) == "version 2\n"
    room.run("store dump > dump.yesterday && store dump > dump")
    dumps, typed, piped = BLOCKS["Look at it in lines"][0].splitlines()
    assert room.run(dumps).splitlines()[0] == "all 2"
    assert room.run(typed, given=b"get b.example\nremove b.example\n").splitlines() == [f"found {B.decode()}", "removed"]
    assert room.run(piped, given=b"get b.example\n").splitlines() == ["refused 30"]
    assert room.run(BLOCKS["What changed"][0]) == ""
    room.run(BLOCKS["Keep what it holds"][0].splitlines()[0])
    assert room.read("dump") == dump_of({"a.example": A})
    assert room.run(BLOCKS["What changed"][0], status=3).startswith("- b.example")
    digest = room.run(BLOCKS["More than one machine"][1]).split()[0]
    assert digest == hashlib.sha256(dump_of({"a.example": A})).hexdigest()


def is_looked_at_with_jq():
    """Sequences and authorities, domains without any, a key ID; and the keys of a JWT library."""
    first, second, third = BLOCKS["Look at it with jq"]
    key = json.loads(B)["keys"][1]["kid"]
    room = a_store()
    assert room.run(first).splitlines() == ["a.example\t7\t2\t2", "b.example\t1\t1\t1"]
    assert room.run(second) == ""
    assert room.run(third.replace("kid k1", f"kid {key}")) == "b.example\n"
    wanted = [{**it, "use": "sig"} for it in json.loads(A)["keys"] if it["use"] == "jwt-svid"]
    assert json.loads(room.run(BLOCKS["A JWT library"][0])) == {"keys": wanted}
    room.run(BLOCKS["A restart"][0])
    assert json.loads(room.get("a.example")) == {"keys": [], "spiffe_sequence": 8}
    assert room.run(second) == "a.example\n"


def certificates_are_looked_at():
    """Each X.509 authority has a subject and an end."""
    room = a_store()
    lines = room.run(BLOCKS["Look at certificates"][0]).splitlines()
    assert [it.partition("=")[0] for it in lines] == 2 * ["subject", "notAfter"], lines


def is_put_right():
    """A domain that began its sequence anew, and one whose bundle was emptied."""
    empty = b'{"keys":[],"spiffe_sequence":9}'
    emptied = BLOCKS["A bundle was emptied"]
    room = a_store()
    room.run("store dump > dump")
    room.write("later", empty)
    room.run("store set a.example later")
    assert room.run(BLOCKS["Set one document"][0], status=3) == "refused 31 9\n"
    room.run(BLOCKS["A domain began its sequence anew"][0])
    assert room.get("a.example") == A
    uses = [json.loads(it)["use"] for it in room.run(emptied[0]).splitlines()]
    assert uses == [it["use"] for it in json.loads(room.read("documents/a.example.json"))["keys"]]
    room.run("store set a.example later")
    room.run(emptied[1])
    wanted = json.loads(A)
    del wanted["spiffe_sequence"]
    assert json.loads(room.get("a.example")) == wanted


def listens_at_sockets():
    """A store at two Unix sockets: by the one it is changed, and by the other read."""
    room = Shell()
    start, ask = BLOCKS["Unix sockets"]
    assert line_of(room.start(start, stderr=subprocess.DEVNULL)) == b"listening sockets/writers/all read-only sockets/reads\n"
    assert room.run(ask) == f"stored\n{A.decode()}\n"
    assert room.run(ask.replace("sockets/writers/all", "sockets/reads"), status=0) == f"shut\n{A.decode()}\n"


def shows_the_race():
    """No fetch-all shows a map that never was."""
    last = Shell().run(BLOCKS["See why a fetch-all matters"][0]).splitlines()[-1]
    assert re.fullmatch(r"fetch-all: [1-9]\d* readings, 0 of them maps that never were", last), last


# Each check, and the programs that its recipes call besides those of any system.
CHECKS = {runs_a_store: [], a_store_comes_back: ["flock"], fills_it_by_refreshes: [], fills_it_by_hand: [], sets_it_if_it_is_the_one: [], is_read: [],
          is_read_in_go: ["go"], hands_on_a_folder: ["flock"], hands_on_files: [], is_looked_at: [], is_looked_at_with_jq: ["jq"],
          certificates_are_looked_at: ["jq", "openssl"], is_put_right: ["jq"], listens_at_sockets: [], shows_the_race: [],
          **recipes_tls.CHECKS, **recipes_service.CHECKS, **recipes_systemd.CHECKS,
          **recipes_etcd.CHECKS}


if __name__ == "__main__":
    chosen = [it for it in CHECKS if it.__name__ in (sys.argv[1:] or [it.__name__])]
    sys.exit(run_checks(chosen, needs=CHECKS))
