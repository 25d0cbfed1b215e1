"""The units of docs/USING.md under a systemd of their own: in namespaces, with no other unit, and with folders that end with it.

Not every machine lets one run so; there it is left out, and the units are only judged, as gate/recipes_service.py does.
"""
import contextlib
import os
import re
import subprocess
import time

from checks import AFTERWARDS, ROOT, SECONDS, SHOWN, LeftOut, Room, canonical, wait_until
from recipe_rooms import BLOCKS
from recipes_tls import DEBIAN_PYTHON
from releases import made, tarball

SYSTEMD = "/lib/systemd/systemd"
# The hierarchy of control groups of version 2, of which it needs a part to itself: beside those of version 1, or the only one.
GROUPS = "/sys/fs/cgroup"
UNIFIED = f"{GROUPS}/unified" if os.path.isdir(f"{GROUPS}/unified") else GROUPS
TARGETS = ["basic", "default", "multi-user", "shutdown", "sockets", "sysinit", "timers"]
# Nobody who has something here, and the group of the page.
USER, GROUP = "60001", "hopslintel-writers"

NAMESPACES = ["--mount", "--pid", "--net", "--ipc", "--uts", "--cgroup"]
# What is said on a machine that does not let one make these, or mount there.
NOT_LET = re.compile(rb"not permitted|denied|Read-only file system")

# Run as the first process, over a folder of targets and the tarball of a release.
START = f"""set -e
ip link set lo up
mount -t proc proc /proc
mount -t tmpfs tmpfs /run
cp -a /etc /run/etc
rm -rf /run/etc/systemd
mkdir -p /run/etc/systemd/system
mount --bind /run/etc /etc
mount -t tmpfs tmpfs /opt
mkdir -p /opt/hopslintel/python /opt/hopslintel/documents
cp "$2" "$2.sha256" /opt/hopslintel
cp -r {ROOT}/clients/python/hopslintel /opt/hopslintel/python
chmod -R a+rX /opt/hopslintel
mount -t tmpfs tmpfs /usr/local
mount -t tmpfs tmpfs /var/lib
mount --bind "$1" /usr/lib/systemd/system
mount -t cgroup2 none {GROUPS}
export container=hopslintel
exec {SYSTEMD} --system --unit=default.target --log-target=null --show-status=no
"""


class Systemd:
    """A systemd that ends with the check."""

    def __init__(self):
        self.room = Room()
        self.group = f"{UNIFIED}/hopslintel-gate-{os.getpid()}"
        units = f"{self.room.path}/units"
        os.mkdir(units)
        for it in TARGETS:
            self.room.write(f"units/{it}.target", b"[Unit]\nDefaultDependencies=no\n")
        for it in (tarball(), f"{tarball()}.sha256"):
            self.room.write(it, made()[it])
        AFTERWARDS.callback(wait_until, self.remove_groups, "the control groups are gone")
        # A process of a control group of its own, and below it the first process of the namespaces.
        lines = ["set -e", f"mkdir {self.group}", f"echo $$ > {self.group}/cgroup.procs"]
        given = f"{self.room.write('start', START.encode())} {units} {self.room.path}/{tarball()}"
        lines.append(f"exec unshare --kill-child --fork {' '.join(NAMESPACES)} sh {given}")
        with open(f"{self.room.path}/errors", "wb") as errors:
            how = {"stdin": subprocess.DEVNULL, "stdout": errors, "stderr": errors, "start_new_session": True}
            self.started = subprocess.Popen(["sh", "-c", "\n".join(lines)], **how)
        AFTERWARDS.callback(self.end)
        self.wait_until_up()
        AFTERWARDS.push(self.tell)

    def tell(self, kind, _error, _trace):
        """If the check fails, how the units stand."""
        if kind:
            print(self.run("systemctl list-units --all --no-pager 'hopslintel*'; systemctl list-jobs --no-pager; ls -l /run/*.sock", status=None)[:2 * SHOWN])

    def remove_groups(self):
        """Whether they are gone: one that has a process is not removed."""
        for at, _, _ in os.walk(self.group, topdown=False):
            with contextlib.suppress(OSError):
                os.rmdir(at)
        return not os.path.exists(self.group)

    def wait_until_up(self):
        until = time.monotonic() + SECONDS
        while self.started.poll() is None and time.monotonic() < until:
            first = self.first_process()
            # (both are there only once it runs over its own folders)
            if first and all(os.path.exists(f"/proc/{first}/root/run/{it}") for it in ("etc/systemd/system", "systemd/private")):
                self.first = first
                return
            time.sleep(0.05)
        said = self.room.read("errors")
        assert NOT_LET.search(said), f"systemd has not started: {said!r}"
        raise LeftOut(f"this machine lets no systemd run in namespaces: {said[-200:]!r}")

    def first_process(self):
        with open(f"/proc/{self.started.pid}/task/{self.started.pid}/children", encoding="ascii") as it:
            return (it.read().split() or [None])[0]

    def end(self):
        self.started.kill()
        self.started.wait()

    def run(self, text, status=0, who=()):
        """What the text prints, after what the page says that recipes need."""
        script = f"cd {ROOT}\n{BLOCKS[''][0]}cd /opt/hopslintel\n{text}"
        words = ["nsenter", "--target", self.first, *NAMESPACES, *who, "sh", "-c", script]
        ran = subprocess.run(words, stdin=subprocess.DEVNULL, stdout=subprocess.PIPE, stderr=subprocess.STDOUT, text=True, timeout=2 * SECONDS)
        assert status is None or ran.returncode == status, (text, ran.returncode, ran.stdout)
        return ran.stdout

    def write_unit(self, name, *lines):
        """Writes a unit or a part of one, as whoever runs the machine would."""
        path = f"/etc/systemd/system/{name}"
        self.run(f"mkdir -p $(dirname {path}) && cat > {path} <<'END'\n" + "\n".join(lines) + "\nEND")

    def over(self, socket, words, status=0, groups="--clear-groups"):
        """What somebody says who asks over a socket: of the group of writers, or of no group."""
        who = ["setpriv", f"--reuid={USER}", f"--regid={USER}", groups]
        return self.run(f"exec {DEBIAN_PYTHON} -B python/hopslintel --socket /run/hopslintel-{socket}.sock {words}", status, who)

    def says(self, socket, words, wanted, groups="--clear-groups"):
        """The same, once the socket is there with its group: a start of the store is no promise of that."""
        wait_until(lambda: self.over(socket, words, None, groups) == wanted, f"{words} by the socket to {socket}")


def runs_under_systemd():
    """The page's commands, and then: who may write; that a crash brings back the last dump, and a stop and a start all."""
    systemd = Systemd()
    systemd.run(BLOCKS["A store as a service"][0])
    document = f"{ROOT}/gate/bundles/rotation.json"
    assert systemd.run("store map") == '{"trust_domains":{}}\n'
    assert systemd.run(f"store set a.example {document}") == "stored\n"
    private, inside = BLOCKS["Who may write"]
    systemd.run(private)
    assert systemd.run("store map", status=1).startswith("hopslintel: no connection")
    text = canonical("rotation").decode()
    assert systemd.run(inside) == f"all 1\nbundle a.example {text}\n"
    writers = f"--groups={systemd.run(f'getent group {GROUP}').split(':')[2]}"
    systemd.says("read", "get a.example", f"{text}\n")
    assert "given up 56" in systemd.over("read", "remove a.example", status=3, groups=writers)
    assert "Permission denied" in systemd.over("write", "get a.example", status=1)
    systemd.says("write", "get a.example", f"{text}\n", writers)
    assert systemd.over("write", "remove a.example", groups=writers) == "removed\n"
    survives_a_crash(systemd, writers)
    keeps_all_at_a_stop(systemd, writers)
    tells_another_service(systemd, writers)
    fails_and_is_told(systemd)


def survives_a_crash(systemd, writers):
    """What was removed before the timer's dump stays removed, and the sockets work again."""
    # (the first may be one that the timer began before the removal)
    systemd.run("systemctl start hopslintel-dump.service && systemctl start hopslintel-dump.service")
    systemd.run("kill -9 $(systemctl show --property MainPID --value hopslintel.service)")
    wait_until(lambda: systemd.over("read", "map", status=None) == '{"trust_domains":{}}\n', "it is up again")
    # (documents are read by whoever sets them)
    systemd.run("printf '{\"keys\":[],\"spiffe_sequence\":9}' > documents/b")
    systemd.says("write", "map", '{"trust_domains":{}}\n', writers)
    assert systemd.over("write", "set b.example documents/b", groups=writers) == "stored\n"


def keeps_all_at_a_stop(systemd, writers):
    """The dump at the stop has what was stored last."""
    systemd.run("printf '{\"keys\":[],\"spiffe_sequence\":10}' > documents/b")
    assert systemd.over("write", "set b.example documents/b", groups=writers) == "stored\n"
    systemd.run("systemctl stop hopslintel.service")
    assert "no connection" in systemd.over("read", "map", status=1)
    systemd.run("systemctl start hopslintel.service")
    systemd.says("read", "get b.example", '{"keys":[],"spiffe_sequence":10}\n')
    systemd.says("write", "get b.example", '{"keys":[],"spiffe_sequence":10}\n', writers)
    assert "hopslintel-dump.timer" in systemd.run("systemctl list-timers --no-pager")


def tells_another_service(systemd, writers):
    """A service that verifies by a file is told of each change, also after what tells it was killed."""
    unit, at = "hopslintel-trust@a.example.service", 'Environment="AT=--socket /run/hopslintel-read.sock"'
    reload = "ExecReload=/bin/cp /var/lib/hopslintel-trust/a.example.pem /run/seen"
    systemd.write_unit(f"{unit}.d/at.conf", "[Service]", at)
    systemd.write_unit("nginx.service", "[Service]", "Type=oneshot", "RemainAfterExit=yes", "ExecStart=/bin/true", reload)
    systemd.run(f"systemctl daemon-reload && systemctl start nginx.service {unit}")
    seen = lambda: int(systemd.run("cat /run/seen 2> /dev/null | grep -c BEGIN", status=None))
    set_to = lambda text: systemd.run(f"printf '%s' '{text}' > documents/a") + systemd.over("write", "set a.example documents/a", groups=writers)
    assert set_to(canonical("rotation").decode()) == "stored\n"
    wait_until(lambda: seen() == 3, "it has the authorities, and that of nobody", 2 * SECONDS)
    systemd.run(f"kill -9 $(systemctl show --property MainPID --value {unit})")
    assert set_to('{"keys":[]}') == "stored\n"
    wait_until(lambda: seen() == 1, "it has only that of nobody", 2 * SECONDS)
    # A monitor outside of the unit knows the start of the machine by /proc, which is hidden from the unit.
    look = "/usr/local/share/hopslintel/pem/act --max-age 60 /var/lib/hopslintel-trust/a.example.done"
    wait_until(lambda: systemd.run(look, status=None).startswith("snapshot-"), "its last success is new", 2 * SECONDS)


def fails_and_is_told(systemd):
    """A store whose dumps are all torn is failed after some starts, of which another unit hears; with a whole one it starts."""
    folder = "/var/lib/private/hopslintel"
    systemd.write_unit("hopslintel.service.d/told.conf", "[Unit]", "OnFailure=tell-me@%n.service")
    systemd.write_unit("tell-me@.service", "[Service]", "Type=oneshot", "ExecStart=/bin/sh -c 'echo %i > /run/told'")
    systemd.run(f"systemctl daemon-reload && systemctl stop hopslintel.service && cd {folder} && cp -p dump kept && head -c 20 kept > dump && : > dump.1")
    systemd.run("systemctl start hopslintel.service", status=None)
    wait_until(lambda: systemd.run("systemctl is-failed hopslintel.service", status=None) == "failed\n", "it is failed", 3 * SECONDS)
    wait_until(lambda: systemd.run("cat /run/told 2> /dev/null", status=None) == "hopslintel.service\n", "it is told")
    # (a client that comes meanwhile is let go, and does its socket no harm)
    systemd.run("exec python3 -B python/hopslintel --socket /run/hopslintel-read.sock map", status=1)
    systemd.run(f"mv {folder}/kept {folder}/dump.1 && systemctl reset-failed hopslintel.service && systemctl start hopslintel.service")
    systemd.says("read", "get b.example", '{"keys":[],"spiffe_sequence":10}\n')


CHECKS = {runs_under_systemd: [SYSTEMD, "git", "rt", "unshare", "nsenter", "setpriv", "ip", DEBIAN_PYTHON, f"{UNIFIED}/cgroup.procs",
                                *([] if os.geteuid() == 0 else ["rights of root"])]}
