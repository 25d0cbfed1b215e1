"""What examples/pem/act makes of a folder, when any part of it is killed at any step: what was withdrawn is trusted by nobody soon after.

In place of nginx there is a script that keeps the authorities with which it was told to run.
"""
import contextlib
import os
import signal
import subprocess
import threading
import time

from breaks_units import Store, environment, fill, run_script, small_disk
from checks import AFTERWARDS, ROOT, SECONDS, Room, bytes_of, canonical, part, pem_of, program, wait_until

PEM = f"{ROOT}/examples/pem"
# A document with two authorities, and one without any. (Without a sequence each replaces the other.)
TRUSTED, WITHDRAWN = canonical("rotation"), b'{"keys":[]}'
AUTHORITIES = pem_of(TRUSTED).count(b"BEGIN")

# A script in the place of a program: at a step what the check wants there is run, once.
STEPS = """#!/bin/sh
cd %(room)s
step() {
    if mv "at-$1" "was-$1" 2> /dev/null; then
        . "./was-$1"
    fi
}
"""
# The program itself. It makes no snapshot while a check holds it, and its process is named while it makes one.
BUNDLED = """[ "$1" = snapshot ] || exec %(program)s "$@"
while [ -e hold ]; do
    echo > holding
    /bin/sleep 0.02
done
step before-the-snapshot
%(program)s "$@" &
echo $! > snapshot.pid
step within-the-snapshot
wait $!
status=$?
step after-the-snapshot
exit $status
"""
# What nginx is told: it has the authorities of the file.
NGINX = """step before-the-reload
cp %(file)s seen.$$
step within-the-reload
mv seen.$$ seen
step after-the-reload
"""
OPENSSL = """step within-trust
exec %(openssl)s "$@"
"""
ACT = 'echo $$ > act.pid; exec %(pem)s/act --port %(port)s --out %(out)s --every 1 %(options)s state sh -c "echo \\$\\$ > trust.pid; exec %(pem)s/trust %(out)s a.example %(file)s nginx"'


class Follower(Room):
    """A store, and a loop that follows it, which is started again whenever it ends, as a unit does. A turn takes a tenth of a second."""

    def __init__(self, *, out=None, options=""):
        super().__init__()
        os.mkdir(f"{self.path}/bin")
        os.mkdir(f"{self.path}/store")
        folder = out or self.path
        find = lambda name: subprocess.run(["which", name], stdout=subprocess.PIPE, text=True, check=True).stdout.strip()
        self.words = {"room": self.path, "program": program(), "openssl": find("openssl"), "pem": PEM, "out": f"{folder}/bundles", "file": f"{folder}/a.pem",
                      "options": options}
        for name, text in (("bundled", BUNDLED), ("nginx", NGINX), ("openssl", OPENSSL)):
            os.chmod(self.write(f"bin/{name}", ((STEPS + text) % self.words).encode()), 0o755)
        os.chmod(self.write("bin/sleep", f"#!/bin/sh\nexec {find('sleep')} 0.1\n".encode()), 0o755)
        self.store = Store(f"{self.path}/store")
        self.is_over = False
        self.follower = None

    def start(self):
        self.thread = threading.Thread(target=self.follow, daemon=True)
        AFTERWARDS.callback(self.stop)
        self.thread.start()

    def follow(self):
        env = {**os.environ, "PATH": f"{self.path}/bin:{os.environ['PATH']}"}
        with open(f"{self.path}/said", "ab") as said:
            while not self.is_over:
                words = ["sh", "-c", ACT % {**self.words, "port": self.store.port}]
                self.follower = subprocess.Popen(words, cwd=self.path, env=env, stdin=subprocess.DEVNULL, stdout=said, stderr=said, start_new_session=True)
                self.follower.wait()
                time.sleep(0.1)

    def stop(self):
        self.is_over = True
        # (a loop that was killed may have left something that still runs, in a group of its own: its steps end by themselves)
        while self.thread.is_alive():
            if self.follower is not None:
                with contextlib.suppress(ProcessLookupError):
                    os.killpg(self.follower.pid, signal.SIGKILL)
            self.thread.join(0.1)

    def hold(self):
        """Stops the loop before its next snapshot."""
        with contextlib.suppress(FileNotFoundError):
            os.remove(f"{self.path}/holding")
        self.write("hold", b"")
        wait_until(lambda: os.path.exists(f"{self.path}/holding"), "the loop holds")

    def crash(self):
        os.kill(self.store.program_pid(), signal.SIGKILL)
        self.store.started.wait(SECONDS)

    def comes_back(self):
        """It was never dumped, so it is empty; and it is at another port, of which the loop hears when it is started anew."""
        self.store = Store(f"{self.path}/store")
        self.follower.kill()

    def set(self, document):
        self.store.set({"a.example": document})

    def seen(self):
        """With how many authorities the last run of the command was, but for that of nobody."""
        try:
            return self.read("seen").count(b"BEGIN") - 1
        except FileNotFoundError:
            return None

    def is_trusted(self):
        self.set(TRUSTED)
        wait_until(lambda: self.seen() == AUTHORITIES, "the trust domain is trusted")

    def is_refused(self, what):
        """That it is after so many seconds fails a check, and not that it takes some: the machine may be slow."""
        wait_until(lambda: self.seen() == 0, f"what was withdrawn is trusted by nobody: {what}")

    def said(self):
        return self.read("said").decode()

    def look(self, seconds, status):
        return run_script(f"{PEM}/act", "--max-age", str(seconds), f"{self.path}/state", status=status)


KILL = 'kill -9 "$(cat %s.pid)"\n'
ALL_AT_ONCE = 'kill -9 "$(cat act.pid)" "$(cat trust.pid)" $PPID $$\n'
# At which step something is killed, and what: each part at each step of its own, and of those below it.
ROWS = [
    ("before-the-snapshot", KILL % "act"), ("before-the-snapshot", "kill -9 $$\n"), ("after-the-snapshot", KILL % "act"),
    ("after-the-snapshot", 'kill -9 "$(cat act.pid)" $$\n'), ("within-trust", KILL % "act"), ("within-trust", KILL % "trust"),
    ("within-trust", "kill -9 $$\n"), ("before-the-reload", KILL % "act"), ("before-the-reload", KILL % "trust"),
    ("before-the-reload", "kill -9 $$\n"), ("within-the-reload", KILL % "act"), ("within-the-reload", "kill -9 $$\n"),
    ("within-the-reload", ALL_AT_ONCE), ("after-the-reload", KILL % "act"), ("after-the-reload", "exit 1\n"),
    *(("within-the-snapshot", f"{pause}kill -9 $!\n") for pause in ("", "/bin/sleep 0.001; ", "/bin/sleep 0.003; ", "/bin/sleep 0.006; ")),
]


def withdrawal_passes_each_kill():
    """Whatever is killed, at each step between a snapshot and the reload, once it has been withdrawn."""
    follower = Follower()
    follower.start()
    for step, does in ROWS:
        with part(step=step, does=does.strip()):
            follower.is_trusted()
            # (so that it is made in the turn that shows what was withdrawn)
            follower.hold()
            follower.write(f"at-{step}", does.encode())
            follower.set(WITHDRAWN)
            os.remove(f"{follower.path}/hold")
            wait_until(lambda: os.path.exists(f"{follower.path}/was-{step}"), "the step is made")
            follower.is_refused(step)
            os.remove(f"{follower.path}/was-{step}")
    return f", at {len(ROWS)} steps"


def a_folder_that_was_behind():
    """A loop that was away while something was withdrawn, whether or not somebody has shown it in the meantime."""
    follower = Follower()
    follower.start()
    for is_shown in (True, False):
        follower.is_over = False
        follower.is_trusted()
        follower.stop()
        follower.set(WITHDRAWN)
        if is_shown:
            run_script(program(), "snapshot", "--port", str(follower.store.port), "--out", follower.words["out"])
        time.sleep(0.3)
        assert follower.seen() == AUTHORITIES
        follower.is_over = False
        follower.start()
        follower.is_refused("it was away")


def a_command_that_fails_is_run_again():
    """It is told once, and STATE does not say that it was done."""
    follower = Follower()
    follower.start()
    follower.is_trusted()
    fails = f"#!/bin/sh\necho >> {follower.path}/tried\nexit 7\n".encode()
    works = follower.read("bin/nginx")
    put(follower, fails)
    follower.set(WITHDRAWN)
    wait_until(lambda: os.path.exists(f"{follower.path}/tried") and len(follower.read("tried")) > 3, "it is run again and again")
    told = [it for it in follower.said().splitlines() if "the command ended with status 7" in it]
    assert len(told) == 1, follower.said()
    wait_until(lambda: is_failure(follower), "the last success is too old")
    put(follower, works)
    follower.is_refused("the command works again")
    wait_until(lambda: "act: all is well again" in follower.said(), "that it is well is told")
    wait_until(lambda: not is_failure(follower), "the last success is new")


def put(follower, text):
    """Puts this in the place of nginx."""
    path = follower.write("bin/nginx.new", text)
    os.chmod(path, 0o755)
    os.rename(path, f"{follower.path}/bin/nginx")


def is_failure(follower, seconds=1):
    words = [f"{PEM}/act", "--max-age", str(seconds), f"{follower.path}/state"]
    return subprocess.run(words, capture_output=True, timeout=SECONDS).returncode == 1


def a_store_that_is_away():
    """What is current stays, and its age is told. A store that comes back is followed, whatever it comes back with."""
    follower = Follower()
    follower.start()
    follower.is_trusted()
    wait_until(lambda: not is_failure(follower, SECONDS), "it is done")
    follower.crash()
    wait_until(lambda: is_failure(follower), "the last success is too old")
    assert follower.seen() == AUTHORITIES and "act: no snapshot: fault 78" in follower.said()
    assert "seconds old" in follower.look(1, status=1)
    # It was never dumped: it is empty, and nobody is trusted.
    follower.comes_back()
    follower.is_refused("the store came back empty")


def a_guard_against_an_empty_store():
    """With --at-least a store that comes back empty changes nothing in what was made of the folder. That is told once, and the last
    success gets old. Once there is enough again it is followed."""
    follower = Follower(options="--at-least 2")
    follower.store.set({"b.example": TRUSTED})
    follower.start()
    follower.is_trusted()
    pem = follower.read("a.pem")
    told = lambda domains: follower.said().count(f"act: no snapshot: fewer than 2 domains: {domains}; kept snapshot-")
    follower.crash()
    follower.comes_back()
    for domains in range(2):
        if domains:
            follower.set(WITHDRAWN)
        wait_until(lambda: told(domains) == 1, "it is told")
        for _ in range(3):
            follower.hold()
            os.remove(f"{follower.path}/hold")
        assert (told(domains), follower.seen(), follower.read("a.pem")) == (1, AUTHORITIES, pem)
        wait_until(lambda: is_failure(follower), "the last success is too old")
    follower.store.set({"b.example": TRUSTED})
    follower.is_refused("there is enough again")
    wait_until(lambda: follower.said().endswith("act: all is well again\n"), "that it is well is told")


def a_full_disk_for_a_moment():
    """Neither the folder nor the file can be written. Once there is room, what was withdrawn is trusted by nobody."""
    folder = small_disk(600)
    follower = Follower(out=folder)
    follower.start()
    for number in range(2):
        follower.is_trusted()
        before = follower.said().count("act: ")
        filling = fill(folder)
        follower.set(WITHDRAWN)
        follower.store.set({f"big{number}.example": canonical("many")})
        wait_until(lambda: follower.said().count("act: ") > before, "the full disk is told")
        assert bytes_of(f"{folder}/a.pem").count(b"BEGIN") == 1 + AUTHORITIES
        os.remove(filling)
        follower.is_refused("there is room again")


def many_certificates():
    """1,100 of them with 64 descriptors; and none of them is lost, nor what is not one kept."""
    room = Room()
    os.makedirs(f"{room.path}/bundles/snapshot-1")
    os.symlink("snapshot-1", f"{room.path}/bundles/current")
    one = pem_of(TRUSTED).partition(b"-----END CERTIFICATE-----\n")
    one = one[0] + one[1]
    room.write("bundles/snapshot-1/map", b"")
    no_certificate = b"-----BEGIN CERTIFICATE-----\nAAAA\n-----END CERTIFICATE-----\n"
    room.write("bundles/snapshot-1/a.example.pem", one * 700 + no_certificate + one * 400)
    words = ["sh", "-c", f"ulimit -n 64; exec {PEM}/trust bundles a.example a.pem touch done"]
    said = run_script(*words, cwd=room.path)
    assert said == "trust: a.example has something that is not a certificate\n", said
    assert room.read("a.pem") == room.read("nobody.pem") + one * 1100 and os.path.exists(f"{room.path}/done")


def trust_never_leaves_a_file_that_is_refused():
    """Without a snapshot, or with one that is gone, the file stays; an empty nobody.pem is made anew."""
    room = Room()
    os.makedirs(f"{room.path}/bundles/snapshot-1")
    room.write("a.pem", b"as before")
    trust = lambda status: run_script(f"{PEM}/trust", "bundles", "a.example", "a.pem", "touch", "done", status=status, cwd=room.path)
    assert "bundles/current is not there" in trust(1)
    os.symlink("snapshot-2", f"{room.path}/bundles/current")
    assert "is not a snapshot, or not any more" in trust(1)
    assert room.read("a.pem") == b"as before" and not os.path.exists(f"{room.path}/done")
    os.remove(f"{room.path}/bundles/current")
    os.symlink("snapshot-1", f"{room.path}/bundles/current")
    room.write("bundles/snapshot-1/map", b"")
    room.write("nobody.pem", b"")
    trust(0)
    assert room.read("a.pem") == room.read("nobody.pem") and b"BEGIN CERTIFICATE" in room.read("a.pem")


def a_state_is_judged():
    """By a monitor: what is of after now, of another start of the machine, torn or not there. What is old is judged with the clock."""
    room = Room()
    state = f"{room.path}/state"
    boot = bytes_of("/proc/sys/kernel/random/boot_id").decode().strip().replace("-", "")
    other = {**environment(), "BOOT_ID": 32 * "0"}
    look = lambda status, **how: run_script(f"{PEM}/act", "--max-age", "60", state, status=status, **how)
    assert "tells of no success" in look(1)
    now, up = int(time.time()), int(bytes_of("/proc/uptime").split(b".")[0])
    for text, why in ((f"snapshot-1 {now} {boot} {up + 3600}\n", "seconds old"), (f"snapshot-1 {now} {32 * '0'} {up}\n", "has started"),
                      (f"snapshot-1 {now}\n", "no success"), (f"snapshot-1 {now} {boot}\n", "no success"), (f"snapshot-1 {now} {boot} x\n", "no success"),
                      (f"snapshot-1 {now} {boot} {str(up)[:-1]}", "no success"), ("", "no success"), ("snapshot-1\n", "no success")):
        with part(text=text):
            room.write("state", text.encode())
            assert why in look(1), look(1)
    room.write("state", f"snapshot-1 {now} {boot} {up}\n".encode())
    look(0)
    assert "has started" in look(1, env=other)


CHECKS = [withdrawal_passes_each_kill, a_folder_that_was_behind, a_command_that_fails_is_run_again, a_store_that_is_away,
          a_guard_against_an_empty_store, a_full_disk_for_a_moment, many_certificates, trust_never_leaves_a_file_that_is_refused,
          a_state_is_judged]
NEEDS = {it: ["openssl", "flock"] for it in CHECKS} | {a_full_disk_for_a_moment: ["openssl", "flock", "mount", *([] if os.geteuid() == 0 else ["rights of root"])]}
