"""What a store keeps that is killed, whose disk is full, or whose dump is torn: share/hopslintel/dump and lasting, which the units run."""
import contextlib
import os
import signal
import subprocess
import threading

from checks import (AFTERWARDS, ROOT, SECONDS, Beside, LeftOut, Room, bytes_of, canonical, connected, dump_of, frame, line_of, named, numbered,
                    program, rest_of, wait_until)

LASTING, DUMP = f"{ROOT}/share/hopslintel/lasting", f"{ROOT}/share/hopslintel/dump"
SCRIPTS = [LASTING, DUMP, f"{ROOT}/examples/pem/act", f"{ROOT}/examples/pem/trust"]
# Dumps of before and after a change, each of some domains.
NAMES = [f"d{it}.example" for it in range(10)]
BEFORE, AFTER = ({name: numbered(sequence) for name in NAMES} for sequence in (1, 2))


def environment():
    return {**os.environ, "PATH": f"{os.path.dirname(program())}:{os.environ['PATH']}"}


def run_script(*words, status=0, **how):
    """What a script says on standard error. It has to end with the status."""
    how = {"stdin": subprocess.DEVNULL, "capture_output": True, "timeout": SECONDS, "env": environment(), **how}
    ran = subprocess.run(words, **how)
    assert ran.returncode == status, (words, ran)
    return ran.stderr.decode()


class Store:
    """A store that `lasting` runs, over the dump of a folder."""

    def __init__(self, folder, *options):
        self.errors_path = f"{folder}/errors"
        with open(self.errors_path, "wb") as errors:
            words = [LASTING, f"{folder}/dump", "--port", "0", *options]
            self.started = subprocess.Popen(words, stdin=subprocess.DEVNULL, stdout=subprocess.PIPE, stderr=errors, env=environment())
        AFTERWARDS.enter_context(self.started)
        AFTERWARDS.callback(self.stop)
        line = line_of(self.started).split()
        assert line[:1] == [b"listening"], (line, self.said())
        self.port = int(line[1])

    def said(self):
        return bytes_of(self.errors_path).decode()

    def program_pid(self):
        """The process of the program, which is the only one that the script waits for."""
        with open(f"/proc/{self.started.pid}/task/{self.started.pid}/children", encoding="ascii") as it:
            return int(it.read().split()[0])

    def set(self, items):
        replies = self.ask(b"".join(named(b"S", name, text) for name, text in items.items()))
        assert replies == len(items) * frame(b"s"), replies

    def ask(self, requests):
        with connected(self.port) as stream:
            stream.sendall(requests)
            stream.shutdown(1)
            return rest_of(stream)

    def holds(self):
        return self.ask(frame(b"F"))

    def stop(self):
        """Ends all of it at once, so that nothing writes into the folder any more."""
        with contextlib.suppress(OSError, IndexError):
            inner = self.program_pid()
            os.kill(inner, signal.SIGKILL)
            wait_until(lambda: is_gone(inner), "the program has ended")
        self.started.kill()

    def end(self, how=signal.SIGTERM):
        """Tells the script to end, and answers its status."""
        self.started.send_signal(how)
        return self.started.wait(SECONDS)


def is_gone(pid):
    try:
        with open(f"/proc/{pid}/stat", encoding="ascii") as it:
            return it.read().rpartition(")")[2].split()[0] == "Z"
    except FileNotFoundError:
        return True


def a_signal_loses_nothing():
    """What was set a moment before stands in the dump, and the next start has it."""
    room = Room()
    for number, how in enumerate((signal.SIGTERM, signal.SIGINT, signal.SIGHUP), 1):
        store = Store(room.path)
        assert ("starts empty" in store.said()) == (number == 1), store.said()
        store.set({name: numbered(number) for name in NAMES})
        assert store.end(how) == 0, store.said()
        assert room.read("dump") == dump_of({name: numbered(number) for name in NAMES})
    # One that comes to the whole group, as from a terminal.
    with open(f"{room.path}/errors", "wb") as errors:
        words = [LASTING, f"{room.path}/dump", "--port", "0"]
        how = {"stdin": subprocess.DEVNULL, "stdout": subprocess.PIPE, "stderr": errors, "env": environment(), "start_new_session": True}
        started = AFTERWARDS.enter_context(subprocess.Popen(words, **how))
    assert line_of(started).startswith(b"listening")
    os.remove(f"{room.path}/dump")
    os.killpg(started.pid, signal.SIGTERM)
    assert started.wait(SECONDS) == 0
    assert room.read("dump") == dump_of({name: numbered(3) for name in NAMES})


def a_killed_script_loses_nothing():
    """The store ends and writes. Whoever starts another in the meantime gets what it wrote."""
    room = Room()
    store = Store(room.path)
    inner = store.program_pid()
    store.set(AFTER)
    store.started.kill()
    assert Store(room.path).holds() == dump_of(AFTER)
    assert is_gone(inner), "the store of a script that was killed lives on"


def a_killed_store_has_its_last_dump():
    """At each of some moments in which it is dumped. The status is that of the program, as a unit has to see it."""
    room = Room()
    store = Store(room.path)
    store.set(BEFORE)
    run_script(DUMP, f"{room.path}/dump", str(store.port))
    for pause in (0, 0.005, 0.01, 0.02, 0.05):
        store.set(AFTER)
        dumping = subprocess.Popen([DUMP, f"{room.path}/dump", str(store.port)], stderr=subprocess.DEVNULL, env=environment())
        timer = threading.Timer(pause, os.kill, (store.program_pid(), signal.SIGKILL))
        timer.start()
        assert store.started.wait(SECONDS) == 128 + signal.SIGKILL
        dumping.wait(SECONDS)
        timer.join()
        assert room.read("dump") in (dump_of(BEFORE), dump_of(AFTER))
        room.write("dump", dump_of(BEFORE))
        store = Store(room.path)
        assert store.holds() == dump_of(BEFORE)


def a_killed_dump_leaves_whole_ones():
    """Killed at many moments, with all that it has started: both files are whole each time, and the next run does what it is for."""
    room = Room()
    store = Store(room.path)
    path = f"{room.path}/dump"
    moments = []
    for number in range(1, 25):
        items = {name: numbered(number) for name in NAMES}
        store.set(items)
        moments.append(dump_of(items))
        how = {"stdout": subprocess.DEVNULL, "stderr": subprocess.DEVNULL, "env": environment(), "start_new_session": True}
        dumping = subprocess.Popen([DUMP, path, str(store.port)], **how)
        try:
            dumping.wait(0.004 * (number - 1))
        except subprocess.TimeoutExpired:
            os.killpg(dumping.pid, signal.SIGKILL)
            dumping.wait(SECONDS)
        for name in ("dump", "dump.1"):
            assert not os.path.exists(f"{room.path}/{name}") or room.read(name) in moments[-3:], (number, name)
        run_script(DUMP, path, str(store.port))
        assert room.read("dump") == moments[-1]
        assert [it for it in sorted(os.listdir(room.path)) if it.startswith("dump")] in ALLOWED, os.listdir(room.path)


# What may stand there afterwards: the two dumps, and the files by which runs wait for each other.
ALLOWED = [["dump", "dump.dumping", "dump.lock"], ["dump", "dump.1", "dump.dumping", "dump.lock"]]


def a_torn_dump_is_not_loaded():
    """Cut at each tenth byte and after each frame: the one before it is loaded, which is told; and it is what the end writes."""
    room = Room()
    whole = dump_of(BEFORE)
    cuts = set(range(0, len(whole), 10)) | {whole.index(named(b"i", name, BEFORE[name])) for name in NAMES} | {len(whole) - 1}
    for cut in sorted(cuts):
        room.write("dump", whole[:cut])
        room.write("dump.1", dump_of(AFTER))
        store = Store(room.path)
        assert f"the dump {room.path}/dump is torn or empty; {room.path}/dump.1 of 20" in store.said(), (cut, store.said())
        assert store.end() == 0
        assert (room.read("dump"), room.read("dump.1")) == (dump_of(AFTER), dump_of(AFTER)), cut
    return f", at {len(cuts)} places"


def a_start_without_a_whole_dump():
    """Without any it is empty, which is told; with torn ones nothing starts and nothing is changed; with only the older it has that."""
    torn, older = dump_of(BEFORE)[:100], dump_of(AFTER)
    for files in ({"dump": torn}, {"dump": b""}, {"dump.1": b""}, {"dump": b"", "dump.1": torn}):
        room = Room()
        for name, data in files.items():
            room.write(name, data)
        said = run_script(LASTING, f"{room.path}/dump", "--port", "0", status=1)
        assert "is a whole dump: nothing is started" in said, (files, said)
        assert {it: room.read(it) for it in os.listdir(room.path) if it != "dump.lock"} == files
    room = Room()
    store = Store(room.path)
    assert "the store starts empty" in store.said() and store.holds() == dump_of({})
    room = Room()
    room.write("dump.1", older)
    store = Store(room.path)
    assert "is not there; " in store.said() and store.holds() == older, store.said()


def small_disk(kilobytes):
    """A folder of its own with so much room."""
    room = Room()
    os.mkdir(f"{room.path}/small")
    ran = subprocess.run(["mount", "-t", "tmpfs", "-o", f"size={kilobytes}k", "none", f"{room.path}/small"], capture_output=True)
    if ran.returncode:
        raise LeftOut(f"this machine lets nobody mount here: {ran.stderr[-200:]!r}")
    AFTERWARDS.callback(subprocess.run, ["umount", "--lazy", f"{room.path}/small"], check=True)
    return f"{room.path}/small"


def fill(folder):
    """Leaves no room, until the file that is answered is removed."""
    path = f"{folder}/filling"
    with open(path, "wb", buffering=0) as it:
        try:
            while it.write(bytes(4096)):
                pass
        except OSError:
            pass
    return path


def a_full_disk_keeps_the_dumps():
    """Neither a dump nor the end of a store takes a good one away; once there is room both do what they are for."""
    folder = small_disk(300)
    store = Store(folder)
    big = {f"many{it}.example": canonical("many") for it in range(4)}
    store.set(BEFORE)
    run_script(DUMP, f"{folder}/dump", str(store.port))
    store.set(big)
    filling = fill(folder)
    said = run_script(DUMP, f"{folder}/dump", str(store.port), status=1)
    assert "stays as it was" in said, said
    assert bytes_of(f"{folder}/dump") == dump_of(BEFORE)
    os.remove(filling)
    run_script(DUMP, f"{folder}/dump", str(store.port))
    assert bytes_of(f"{folder}/dump") == store.holds() == dump_of({**BEFORE, **big})
    assert bytes_of(f"{folder}/dump.1") == dump_of(BEFORE)
    store.set({f"more{it}.example": canonical("many") for it in range(4)})
    filling = fill(folder)
    assert store.end() == 1, store.said()
    assert bytes_of(f"{folder}/dump") == dump_of({**BEFORE, **big})
    # On a disk that is still full it starts.
    store = Store(folder)
    assert store.holds() == dump_of({**BEFORE, **big})
    os.remove(filling)
    assert store.end() == 0


def nothing_fetched_replaces_nothing():
    """Without a store, and of one that answers something else."""
    room = Room()
    store = Store(room.path)
    store.set(BEFORE)
    for number in (1, 2):
        run_script(DUMP, f"{room.path}/dump", str(store.port))
    assert store.end() == 0
    for place in (str(store.port), f"{room.path}/none"):
        said = run_script(DUMP, f"{room.path}/dump", place, status=1)
        assert "nothing was fetched" in said, said
    os.mkdir(f"{room.path}/bin")
    for text in ("exit 0", "printf torn", "printf '\\0\\0\\0\\011a\\0\\0\\0\\0\\0\\0\\0\\1'"):
        os.chmod(room.write("bin/bundled", f'#!/bin/sh\n[ "$1" = ask ] || exec {program()} "$@"\n{text}\n'.encode()), 0o755)
        env = {**os.environ, "PATH": f"{room.path}/bin:{os.environ['PATH']}"}
        said = run_script(DUMP, f"{room.path}/dump", str(store.port), status=1, env=env)
        assert "is not a whole dump" in said, said
    assert (room.read("dump"), room.read("dump.1")) == (dump_of(BEFORE), dump_of(BEFORE))


def one_store_for_one_dump():
    """Another waits until the first has ended, and begins with what it wrote. A dump by hand leaves what the end wrote."""
    room = Room()
    first = Store(room.path)
    first.set(BEFORE)
    found = []
    second = Beside("the second store", lambda: found.append(Store(room.path)))
    first.set(AFTER)
    second.thread.join(1)
    assert found == [], "two stores have one dump"
    assert first.end() == 0
    second.join()
    assert found[0].holds() == dump_of(AFTER)


def scripts_say_what_is_missing():
    """Each has a --help; without what it needs it says so, with status 2."""
    room = Room()
    for name in ("sh", "cat", "dirname"):
        os.symlink(f"/bin/{name}" if os.path.exists(f"/bin/{name}") else f"/usr/bin/{name}", f"{room.path}/{name}")
    for script in SCRIPTS:
        name = os.path.basename(script)
        ran = subprocess.run([script, "--help"], stdin=subprocess.DEVNULL, capture_output=True, text=True, timeout=SECONDS)
        assert (ran.returncode, ran.stderr) == (0, "") and ran.stdout.startswith(f"usage: {name} "), (script, ran)
        said = run_script(script, status=2)
        assert said.startswith(f"{name}: it takes ") and "--help" in said, (script, said)
        words = ["a", "8443"] if script in (LASTING, DUMP) else ["a", "b", "c", "d"]
        if name == "act":
            words = ["--port", "8443", "--out", f"{room.path}/a", "--every", "1", f"{room.path}/state", "true"]
        said = run_script(script, *words, status=2, cwd=room.path, env={"PATH": room.path})
        assert " is not found" in said, (script, said)


CHECKS = [a_signal_loses_nothing, a_killed_script_loses_nothing, a_killed_store_has_its_last_dump, a_killed_dump_leaves_whole_ones,
          a_torn_dump_is_not_loaded, a_start_without_a_whole_dump, a_full_disk_keeps_the_dumps, nothing_fetched_replaces_nothing,
          one_store_for_one_dump, scripts_say_what_is_missing]
NEEDS = {it: ["flock"] for it in CHECKS} | {a_full_disk_keeps_the_dumps: ["flock", "mount", *([] if os.geteuid() == 0 else ["rights of root"])],
                                           scripts_say_what_is_missing: ["openssl", "flock"]}
