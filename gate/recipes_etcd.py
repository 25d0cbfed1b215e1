"""The recipes of docs/USING.md for more than one machine: over a real etcd, and with kubectl as far as it needs no cluster."""
import base64
import hashlib
import json
import os
import re
import signal
import subprocess

from checks import SECONDS, Beside, Room, bytes_of, canonical, dump_of, numbered, unused_port, wait_until
from examples import PORT
from recipe_rooms import A, BLOCKS, BOTH, EXAMPLES, a_store, stop, without_pause
from recipes_service import analyze

DOMAINS = 2000
# How often a writer publishes beside a reader.
ROUNDS = 12
KEYS = "hopslintel"


class Etcd:
    """etcd with a folder in the room, which outlives it. The room's recipes ask this one."""

    def __init__(self, room):
        self.room, self.client, self.peer = room, unused_port(), unused_port()
        room.variables.update(ETCDCTL_ENDPOINTS=f"http://127.0.0.1:{self.client}", ETCDCTL_API="3", PAUSE="0.1")
        self.start()

    def start(self):
        at, peers = (f"http://127.0.0.1:{it}" for it in (self.client, self.peer))
        words = f"exec etcd --data-dir etcd --listen-client-urls {at} --advertise-client-urls {at} --listen-peer-urls {peers}"
        words += f" --initial-advertise-peer-urls {peers} --initial-cluster default={peers} --logger zap"
        self.running = self.room.start(words, stdout=subprocess.DEVNULL, stderr=subprocess.DEVNULL)
        is_up = lambda: self.room.start("etcdctl endpoint health", stdout=subprocess.DEVNULL).wait(SECONDS) == 0
        wait_until(is_up, "etcd has started")

    def end(self):
        self.running.kill()
        self.running.wait()

    def pieces(self):
        """The names of the pieces that are there."""
        return set(re.findall(r"pieces/(\w+)", self.room.run(f"etcdctl get --prefix --keys-only {KEYS}/pieces/")))

    def current(self):
        """The names of the pieces of the moment that is shown, in order, behind the digest of the whole."""
        return self.room.run(f"etcdctl get --print-value-only {KEYS}/current").split()

    def revision(self):
        return json.loads(self.room.run("etcdctl get --write-out json nothing"))["header"]["revision"]


def publish(room, status=0):
    return room.run(f"{EXAMPLES}/etcd/publish {PORT}", status=status)


def digest_of(dump):
    return hashlib.sha256(dump).hexdigest()


class Follower:
    """A machine that follows: its dump, and what it has shown, each as a file that its command has made."""

    def __init__(self, room, name="node"):
        self.room, self.folder = room, f"{room.path}/{name}"
        os.makedirs(f"{self.folder}/shown", exist_ok=True)
        self.start()

    def start(self):
        command = 'sh -c \'cp dump shown/new && mv shown/new "shown/$(date +%s.%N)"\''
        words = f"cd {self.folder} && exec {EXAMPLES}/etcd/follow dump {command}"
        self.running = self.room.start(words, stdout=subprocess.DEVNULL, stderr=subprocess.DEVNULL)

    def signal(self, number):
        """Sends it to all of its processes."""
        os.killpg(self.running.pid, number)

    def dump(self):
        path = f"{self.folder}/dump"
        return self.room.read(os.path.relpath(path, self.room.path)) if os.path.exists(path) else b""

    def shown(self):
        """The dumps that it has shown, in their order."""
        names = sorted(it for it in os.listdir(f"{self.folder}/shown") if it != "new")
        return [self.room.read(f"{os.path.relpath(self.folder, self.room.path)}/shown/{it}") for it in names]

    def comes_to(self, dump, what):
        wait_until(lambda: self.dump() == dump, what)


def name_of(number):
    return f"n{number:04}.example"


# A domain in the first piece of a dump, and one in the last.
FIRST, LAST = name_of(0), name_of(DOMAINS - 1)


def many_bundles():
    """As many real bundles as the recipe was made for, under names of their own."""
    return {name_of(it): canonical("rotation") for it in range(DOMAINS)}


def a_judge(items):
    """A room with an etcd, and a store of these bundles."""
    room = a_store(is_filled=False)
    room.set(items)
    return room, Etcd(room)


def one_value():
    """A dump in one value: put, got and watched, byte for byte."""
    put_and_get, watch = BLOCKS["etcd"][-2:]
    room = a_store()
    Etcd(room)
    room.run(put_and_get)
    assert room.read("dump") == dump_of(BOTH)
    room.start(watch, stdout=subprocess.DEVNULL)
    room.run("store remove b.example")
    # (a put before the watch has begun is not told)
    is_told = lambda: room.run(put_and_get.splitlines()[0]) and room.read("dump") == dump_of({"a.example": A})
    wait_until(is_told, "the watch has told")


def thousands_of_domains():
    """Two thousand domains go to a store on another machine, which is restarted at each change."""
    items = many_bundles()
    room, etcd = a_judge(items)
    wanted = dump_of(items)
    assert len(wanted) > 4 * 1000000
    assert publish(room) == f"published {digest_of(wanted)}\n"
    pieces = etcd.current()
    assert pieces[0] == digest_of(wanted)
    assert len(pieces) == 1 + -(-len(wanted) // 1000000)
    # (pieces that are equal would be one)
    assert publish(room) == f"unchanged {digest_of(wanted)}\n"
    replica = Replica(room)
    wait_until(lambda: replica.digest() == digest_of(wanted), "the other machine shows it")
    room.set({name_of(7): numbered(8)})
    room.start(without_pause(BLOCKS["etcd"][0]), stdout=subprocess.DEVNULL, stderr=subprocess.DEVNULL)
    changed = digest_of(dump_of({**items, name_of(7): numbered(8)}))
    wait_until(lambda: replica.digest() == changed, "it shows the change")


class Replica:
    """A store on another machine, which `follow` restarts: `systemctl` is a script here."""

    def __init__(self, room):
        self.room, self.port = room, unused_port()
        restart = f"""#!/bin/sh
            [ -e replica ] && kill "$(cat replica)" && tail --pid="$(cat replica)" -f /dev/null
            bundled serve --port {self.port} --connections unlimited --load dump > /dev/null 2>&1 &
            echo $! > replica
        """
        room.write_program("systemctl", restart)
        room.start(BLOCKS["etcd"][1], stdout=subprocess.DEVNULL, stderr=subprocess.DEVNULL)

    def digest(self):
        """That of what it shows, or nothing if it is not up."""
        asked = self.room.start(f"bundled ask --port {self.port} --raw fetch > asked 2> /dev/null && bundled digest < asked")
        return asked.communicate(timeout=SECONDS)[0].decode().strip()


def a_reader_beside_a_writer():
    """Each dump that a machine shows is one moment, and never one before that which it showed last: of two domains, in the
    first piece and in the last, the first is always set first."""
    items = {**many_bundles(), FIRST: numbered(0), LAST: numbered(0)}
    room, etcd = a_judge(items)
    follower = Follower(room)
    for number in range(1, ROUNDS + 1):
        room.set({FIRST: numbered(number)})
        writer = Beside("a writer", room.set, {LAST: numbered(number)})
        publish(room)
        writer.join()
    publish(room)
    wanted = dump_of({**items, FIRST: numbered(ROUNDS), LAST: numbered(ROUNDS)})
    follower.comes_to(wanted, "the last moment is shown")
    # (the command is done after the dump is there)
    wait_until(lambda: follower.shown()[-1:] == [wanted], "the last moment is told")
    moments = [moment_of(it, items) for it in follower.shown()]
    assert all(first - last in (0, 1) for first, last in moments), moments
    assert moments == sorted(moments), moments
    assert etcd.pieces() >= set(etcd.current()[1:])
    assert len(etcd.pieces()) <= 2 * len(etcd.current()), "pieces of old moments are removed"
    return f", {len(moments)} moments shown"


def moment_of(dump, items):
    """The numbers of the first domain and the last in a dump, which has to have all of these bundles besides."""
    numbers = [re.search(rb"i." + re.escape(it.encode()) + rb'\{"keys":\[\],"spiffe_sequence":(\d+)\}', dump, re.S) for it in (FIRST, LAST)]
    assert all(numbers), len(dump)
    first, last = (int(it[1]) for it in numbers)
    assert dump == dump_of({**items, FIRST: numbered(first), LAST: numbered(last)}), len(dump)
    return first, last


def a_torn_publish():
    """One that is cut off, after some pieces or before the last step, is seen by nobody, and what it left is removed later."""
    items = many_bundles()
    room, etcd = a_judge(items)
    publish(room)
    follower = Follower(room)
    before = dump_of(items)
    follower.comes_to(before, "the first moment is shown")
    items[name_of(1)] = numbered(9)
    room.set({name_of(1): numbered(9)})
    real = room.run("command -v etcdctl").strip()
    for torn in ("put", "txn"):
        # At the third put, or at the transaction, the publisher is killed.
        is_time = 'echo >> puts && [ "$(wc -l < puts)" = 3 ]' if torn == "put" else "true"
        room.write_program("etcdctl", f'#!/bin/sh\n[ "$1" = {torn} ] && {is_time} && kill -9 $PPID && exit\nexec {real} "$@"\n')
        publish(room, status=None)
        os.remove(f"{room.path}/bin/etcdctl")
        assert etcd.current()[0] == digest_of(before)
        assert follower.dump() == before
    assert etcd.pieces() > set(etcd.current()[1:]), "a torn publish leaves pieces"
    publish(room)
    follower.comes_to(dump_of(items), "the next moment is shown")
    wait_until(lambda: len(follower.shown()) >= 2, "it is told")
    assert follower.shown() == [before, dump_of(items)]
    publish_twice_more(room, etcd)


def publish_twice_more(room, etcd):
    """Then only the pieces of two moments are there."""
    before = set(etcd.current()[1:])
    room.set({name_of(1): numbered(10)})
    publish(room)
    assert etcd.pieces() == before | set(etcd.current()[1:])


def one_of_two_publishers():
    """Of two publishers the one that asked the store before the other had published is refused: no older moment is shown, also if
    its pieces are there."""
    room, etcd = a_judge(BOTH)
    real = room.run("command -v etcdctl").strip()
    # Before the transaction of the first, another publishes the same, the store changes, and it publishes once more.
    other = f"{EXAMPLES}/etcd/publish {room.port} < /dev/null > /dev/null"
    room.write_program("etcdctl", f"""#!/bin/sh
        if [ "$1" = txn ] && ! [ -e overtaken ]; then
            touch overtaken
            {other} && echo remove b.example | bundled ask --port {room.port} > /dev/null && {other} || exit
        fi
        exec {real} "$@"
    """)
    publish(room, status=3)
    newer = digest_of(dump_of({"a.example": A}))
    assert etcd.current()[0] == newer
    assert publish(room) == f"unchanged {newer}\n"


def a_machine_that_was_away():
    """One that was stopped, also over a compaction, or that etcd was away from, shows the last moment once they meet again."""
    items = dict(BOTH)
    room, etcd = a_judge(items)
    publish(room)
    follower = Follower(room)
    follower.comes_to(dump_of(items), "the first moment is shown")

    def change(number):
        items["a.example"] = numbered(number)
        room.set({"a.example": numbered(number)})
        publish(room)

    follower.signal(signal.SIGSTOP)
    for number in range(8, 12):
        change(number)
    room.run(f"etcdctl compaction {etcd.revision()}")
    follower.signal(signal.SIGCONT)
    follower.comes_to(dump_of(items), "what was published while it was stopped")
    stop(follower.running)
    change(12)
    room.run(f"etcdctl compaction {etcd.revision()}")
    follower.start()
    follower.comes_to(dump_of(items), "what was published while it was not running")
    etcd.end()
    etcd.start()
    change(13)
    follower.comes_to(dump_of(items), "what was published after etcd was away")
    assert all(it in (dump_of(BOTH), *(dump_of({**items, "a.example": numbered(number)}) for number in range(8, 14))) for it in follower.shown())
    once = room.run(f"{EXAMPLES}/etcd/follow --once dump true")
    assert (once, room.read("dump")) == ("", dump_of(items)), once


def a_command_that_fails():
    """It is run again until it is done, and then not any more."""
    room, _ = a_judge(BOTH)
    publish(room)
    command = "sh -c 'echo >> tries; [ \"$(wc -l < tries)\" -ge 3 ]'"
    room.start(f"exec {EXAMPLES}/etcd/follow dump {command}", stdout=subprocess.DEVNULL, stderr=subprocess.DEVNULL)
    wait_until(lambda: os.path.exists(f"{room.path}/dump.done"), "the command is done")
    assert room.read("tries") == 3 * b"\n"
    room.run(f"{EXAMPLES}/etcd/follow --once dump {command}")
    assert room.read("tries") == 3 * b"\n"


def units_are_judged():
    """systemd takes the units of the pair without a word."""
    room = Room()
    paths = []
    for name in ("hopslintel-publish.service", "hopslintel-follow.service"):
        text = bytes_of(f"{EXAMPLES}/etcd/{name}").decode().replace("/opt/hopslintel/share/hopslintel", EXAMPLES)
        paths.append(room.write(name, text.encode()))
    # (verify looks for manual pages by default)
    said = analyze("verify", "--man=no", *paths)
    assert said == "", said


def a_config_map():
    """kubectl makes a ConfigMap that has the dump, byte for byte. What it would apply is kept here."""
    room = a_store()
    real = room.run("command -v kubectl").strip()
    room.write_program("kubectl", f'#!/bin/sh\n[ "$1" = create ] && exec {real} "$@"\necho "$@" > words && cat > applied\n')
    room.run(BLOCKS["Kubernetes"][0])
    text = room.read("applied").decode()
    assert base64.b64decode(re.search(r"^  dump: (\S+)$", text, re.M)[1]) == dump_of(BOTH), text
    assert room.read("words") == b"apply --server-side --force-conflicts -f -\n"


CHECKS = {it: ["etcd", "etcdctl"] for it in (one_value, thousands_of_domains, a_reader_beside_a_writer, a_torn_publish, one_of_two_publishers,
                                              a_machine_that_was_away, a_command_that_fails)}
CHECKS |= {units_are_judged: ["systemd-analyze"], a_config_map: ["kubectl"]}
