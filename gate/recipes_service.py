"""The recipes of docs/USING.md that run a store as a service: the units of systemd, who may write, and cron."""
import os
import re
import shutil
import signal
import socket
import subprocess

from checks import BUNDLES, ROOT, SECONDS, Room, bytes_of, canonical, program, unused_port, wait_until
from recipe_rooms import BLOCKS, EXAMPLES, Shell, a_store
from recipes_tls import DEBIAN_PYTHON, Certificate, is_written, which

UNITS = f"{EXAMPLES}/systemd"
PROXY = "/lib/systemd/systemd-socket-proxyd"
# The most that `systemd-analyze security` may say of a service, in tenths: at 20 it still says OK.
EXPOSURE = 12
# Of the one that is of root, since it has another service reload.
EXPOSURE_OF_ROOT = {"hopslintel-trust@.service": 14}
# Two users who own nothing here, and a group.
USER, OTHER, GROUP = 60001, 60002, 60003


def unit_names():
    return sorted(it for it in os.listdir(UNITS) if it.endswith((".service", ".socket", ".timer")))


def unit_texts():
    """The units as they stand, but for the paths of the program, the scripts and the examples."""
    return {it: here(bytes_of(f"{UNITS}/{it}").decode()) for it in unit_names()}


def here(text):
    """The text with the paths of this repository."""
    for name, path in (("share/hopslintel/pem", f"{EXAMPLES}/pem"), ("share/hopslintel", f"{ROOT}/share/hopslintel"), ("bin", os.path.dirname(program()))):
        text = text.replace(f"/opt/hopslintel/{name}", path)
    return text


def value_of(unit, name):
    """What the unit says of a setting that it has once."""
    return re.search(rf"^{name}=(.*)$", unit_texts()[unit], re.M)[1]


def units_are_judged():
    """systemd takes each unit without a word, with the drop-in and without, and does not call the services exposed."""
    for is_private in (False, True):
        room = Room()
        for name, text in unit_texts().items():
            room.write(name, text.encode())
        for name in ("hopslintel.service", "hopslintel-dump.service") if is_private else ():
            os.mkdir(f"{room.path}/{name}.d")
            shutil.copy(f"{UNITS}/private.conf", f"{room.path}/{name}.d")
        paths = [f"{room.path}/{it}" for it in unit_names()]
        # (verify looks for manual pages by default)
        said = analyze("verify", "--man=no", *paths)
        assert said == "", said
        for path in paths:
            if path.endswith(".service"):
                limit = EXPOSURE_OF_ROOT.get(os.path.basename(path), EXPOSURE)
                analyze("security", "--offline=yes", f"--threshold={limit}", path)


def analyze(*words):
    ran = subprocess.run(["systemd-analyze", *words], capture_output=True, text=True, timeout=SECONDS)
    assert ran.returncode == 0, (words, ran.stdout[-2000:], ran.stderr)
    return ran.stdout + ran.stderr if words[0] == "verify" else ""


def a_unit_keeps_its_dump():
    """What the unit runs at the first start, at a stop and at the next start keeps what was stored; and so does the timer's dump."""
    room = Shell()
    for is_stopped in (True, False):
        server = room.start(f"exec {with_port(room, value_of('hopslintel.service', 'ExecStart'))}", stderr=subprocess.DEVNULL)
        room.variables["MAINPID"] = str(server.pid)
        room.run(with_port(room, shell_of("hopslintel.service", "ExecStartPost")))
        room.run("store set a.example documents/a.example.json" if is_stopped else "store remove a.example")
        if is_stopped:
            server.terminate()
        else:
            room.run(with_port(room, value_of("hopslintel-dump.service", "ExecStart")))
            os.killpg(server.pid, signal.SIGKILL)
        server.wait()
        assert room.run("bundled decode < dump").splitlines()[0] == ("all 1" if is_stopped else "all 0")
    assert room.run("bundled decode < dump.1").splitlines()[0] == "all 1"


def a_start_ends_with_the_program():
    """What the unit runs until the store answers ends if it never will."""
    room = Shell()
    room.write("dump", b"")
    server = room.start(f"exec {with_port(room, value_of('hopslintel.service', 'ExecStart'))}", stderr=subprocess.DEVNULL)
    room.variables["MAINPID"] = str(server.pid)
    assert server.wait(SECONDS) == 1
    room.run(with_port(room, shell_of("hopslintel.service", "ExecStartPost")), status=1)


def shell_of(unit, name):
    """What the unit has a shell run."""
    return re.fullmatch(r"/bin/sh -c '(.*)'", value_of(unit, name))[1]


def with_port(room, text):
    """The text with a port for reads that nobody else has; that for all is the room's."""
    room.read_port = getattr(room, "read_port", None) or str(unused_port())
    return text.replace("8444", room.read_port)


def only_a_group_writes():
    """The store in a network namespace of its own, and a socket in front of each port, as the units have them."""
    room = Shell()
    os.chmod(room.path, 0o755)
    room.write("dump", b"\0\0\0\x09a" + bytes(8))
    shutil.copytree(f"{ROOT}/clients/python/hopslintel", f"{room.path}/hopslintel", ignore=shutil.ignore_patterns("__pycache__"))
    lines = ["ip link set lo up", f"{with_port(room, value_of('hopslintel.service', 'ExecStart'))} &"]
    for name in ("write", "read"):
        proxy = with_port(room, value_of(f"hopslintel-{name}.service", "ExecStart"))
        lines.append(f"systemd-socket-activate -l {room.path}/{name}.sock {proxy} &")
    room.write("inside", "\n".join([*lines, "wait", ""]).replace("8443", room.port).encode())
    room.start("exec unshare --net sh inside", stdout=subprocess.DEVNULL, stderr=subprocess.DEVNULL)
    for name in ("write", "read"):
        path = f"{room.path}/{name}.sock"
        wait_until(lambda: os.path.exists(path), f"the socket to {name} is there")
        os.chmod(path, int(value_of(f"hopslintel-{name}.socket", "SocketMode"), 8))
    os.chown(f"{room.path}/write.sock", 0, GROUP)
    assert no_port_is_reached(room)
    writer, reader = Person(room, USER, [GROUP]), Person(room, OTHER, [])
    writer.says("store.set('a.example', {'keys': []})", "Stored()", at="write")
    reader.says("store.get('a.example')", "b'{\"keys\":[]}'", at="read")
    reader.says("store.get('a.example')", "PermissionError", at="write")
    for person in (writer, reader):
        person.says("store.remove('a.example')", "GivenUpError", at="read")
    writer.says("store.fetch_all()", "{'a.example': b'{\"keys\":[]}'}", at="write")


def no_port_is_reached(room):
    """Whether nobody outside of the namespace can connect to either port."""
    for port in (room.port, room.read_port):
        with socket.socket() as stream:
            if stream.connect_ex(("127.0.0.1", int(port))) == 0:
                return False
    return True


class Person:
    """Somebody of this user and these groups, with the client in Python."""

    # What an expression gives over a socket, or the names of the error and of what caused it. The store may not have begun to
    # listen when the socket is there.
    ASKS = """
import sys, time
from hopslintel import Client, DisconnectedError

until = time.monotonic() + float(sys.argv[3])
while True:
    try:
        with Client.connect_unix(sys.argv[1]) as store:
            print(repr(eval(sys.argv[2])))
        break
    except Exception as error:
        is_early = isinstance(error, DisconnectedError) and not isinstance(error.__cause__, PermissionError)
        if not is_early or time.monotonic() > until:
            print(type(error).__name__, type(error.__cause__).__name__)
            break
        time.sleep(0.1)
"""

    def __init__(self, room, user, groups):
        self.room = room
        self.who = {"user": user, "group": user, "extra_groups": groups}

    def says(self, expression, wanted, *, at):
        """The expression gives this, over the socket of this name."""
        words = [DEBIAN_PYTHON, "-B", "-c", self.ASKS, f"{self.room.path}/{at}.sock", expression, str(SECONDS)]
        ran = subprocess.run(words, cwd=self.room.path, capture_output=True, text=True, timeout=2 * SECONDS, **self.who)
        assert wanted in ran.stdout, (expression, at, ran.stdout, ran.stderr)


class Endpoints:
    """Bundle endpoints behind nginx: the documents in the folder `served`, over HTTPS, by an authority that curl is told of."""

    def __init__(self, room):
        self.room, self.port = room, unused_port()
        os.mkdir(f"{room.path}/served")
        # (nginx reads as another user)
        os.chmod(room.path, 0o755)
        Certificate(room, "endpoint", spiffe_id="spiffe://a.example/endpoint")
        room.variables["CURL_CA_BUNDLE"] = f"{room.path}/endpoint.pem"
        # (what is included by SSI has no declared length)
        room.write("endpoint.conf", f"""pid endpoint.pid; error_log stderr; events {{}}
            http {{ access_log asked; ssi on; ssi_types *; server {{ listen 127.0.0.1:{self.port} ssl; root {room.path}/served;
            ssl_certificate endpoint.pem; ssl_certificate_key endpoint.key; }} }}""".encode())
        room.start(f"{which('nginx')} -p {room.path} -c endpoint.conf -g 'daemon off;'", stdout=subprocess.DEVNULL, stderr=subprocess.DEVNULL)
        wait_until(lambda: is_written(f"{room.path}/endpoint.pid"), "nginx has started")

    def serve(self, name, text):
        os.replace(self.room.write("served.new", text), f"{self.room.path}/served/{name}")

    def url(self, name, scheme="https"):
        return f"{scheme}://localhost:{self.port}/{name}"

    def asked(self):
        """The documents that were asked for, in their order."""
        return re.findall(r"GET /(\S+)", self.room.read("asked").decode())


def fetches_over_https():
    """What is served over HTTPS, of at most 1 MiB, from an endpoint of the profile https_web whose certificate curl takes."""
    room = Shell()
    served, text = Endpoints(room), canonical("rotation")
    served.serve("good", text)
    served.serve("long", text + b" " * (1 << 20))
    lines = [f"c.example {served.url('good')} https_web", "# a note", f"d.example {served.url('none')} https_web"]
    lines += [f"e.example {served.url('good')} https_spiffe spiffe://e.example/s", f"l.example {served.url('long')} https_web"]
    lines += [f"p.example http://localhost:{served.port}/good https_web", f"f.example {served.url('good')} https_web"]
    room.write("list", "\n".join(lines).encode())
    fetch = f"{EXAMPLES}/cron/fetch list documents 2> faults"
    said = room.run(fetch)
    assert said == "d.example not fetched\nl.example not fetched\np.example not fetched\n", (said, room.read("faults"))
    found = {it: room.read(f"documents/{it}") for it in os.listdir(f"{room.path}/documents") if it[0] in "cdeflp"}
    assert found == {"c.example.json": text, "f.example.json": text}, sorted(found)
    room.variables["CURL_CA_BUNDLE"] = "/etc/ssl/certs/ca-certificates.crt"
    assert len(room.run(fetch).splitlines()) == 5


def refreshes_what_is_due():
    """Each domain when it is due; what is wrong is told once, and again only after it was well."""
    recipe = BLOCKS["Fill it over HTTPS"][0]
    room = a_store(is_filled=False)
    served = Endpoints(room)
    for name, document in (("a", "rotation"), ("b", "spire-default")):
        served.serve(name, bytes_of(f"{BUNDLES}/{document}.json"))
    names = ("a", "b", "d")
    room.write("list", "".join(f"{it}.example {served.url(it)} https_web\n" for it in names).encode())
    wrong = "d.example not fetched\n"
    said = room.run(recipe)
    assert said == wrong, (said, room.read("faults"))
    # (they are asked side by side)
    assert (sorted(served.asked()), room.get("a.example")) == (["a", "b", "d"], canonical("rotation"))
    assert room.run(recipe) == ""
    assert served.asked()[3:] == ["d"], "only what could not be fetched is due"
    served.serve("d", b'{"keys":[],"spiffe_sequence":3}')
    assert (room.run(recipe), room.get("d.example")) == ("", b'{"keys":[],"spiffe_sequence":3}')
    # An older one, once it is due.
    served.serve("d", b'{"keys":[],"spiffe_sequence":2}')
    assert room.run(recipe) == ""
    is_due(room, "d.example")
    assert room.run(recipe) == "d.example refused 31 3\n"
    is_due(room, "d.example")
    assert room.run(recipe) == ""
    served.serve("d", b'{"keys":[],"spiffe_sequence":4}')
    is_due(room, "d.example")
    assert room.run(recipe) == ""
    served.serve("d", b"{")
    is_due(room, "d.example")
    assert room.run(recipe) == wrong
    # Beside a run that has not ended nothing is done.
    is_due(room, "d.example")
    before = len(served.asked())
    assert room.run(f"flock lock {recipe.strip()}") == ""
    assert len(served.asked()) == before
    server_that_is_away(room, recipe)


def is_due(room, domain):
    """As if so much time had passed that the domain is due."""
    lines = room.read("due").decode()
    changed = re.sub(rf"^({re.escape(domain)} )\d+$", r"\g<1>1", lines, flags=re.M)
    assert changed != lines, lines
    room.write("due", changed.encode())


def server_that_is_away(room, recipe):
    """That there is no server is told once, too."""
    port = unused_port()
    away = recipe.replace("8443", str(port))
    told = f"refresh: fault 78\nrefresh: nobody listens at port {port}\n"
    is_due(room, "a.example")
    assert room.run(away) == told
    assert room.run(away) == ""
    assert room.run(recipe) == ""
    is_due(room, "a.example")
    assert room.run(away) == told


def cron_refreshes():
    """The crontab of the page under cron itself, in a mount namespace where it has no other: at the next minute all is set."""
    table = bytes_of(f"{EXAMPLES}/cron/crontab").decode()
    # (the page has it as it is installed)
    assert BLOCKS["Fill it over HTTPS"][1] in table.replace("/opt/hopslintel", "/usr/local")
    room = a_store(is_filled=False)
    room.write("list", b"a.example https://localhost/a https_spiffe spiffe://a.example/s\n")
    for name, target in (("bin/bundled", program()), ("share/hopslintel/cron", f"{EXAMPLES}/cron")):
        os.makedirs(os.path.dirname(f"{room.path}/opt/{name}"))
        os.symlink(target, f"{room.path}/opt/{name}")
    os.mkdir(f"{room.path}/crontabs")
    table = table.replace("/opt/hopslintel", f"{room.path}/opt").replace("/var/lib/hopslintel", room.path)
    os.chmod(room.write("crontabs/root", table.replace("8443", room.port).encode()), 0o600)
    empty = ["/etc/cron.d", "/etc/cron.hourly", "/etc/cron.daily"]
    lines = [f"mount -t tmpfs none {it}" for it in empty if os.path.isdir(it)]
    lines += [f"mount --bind {room.path}/crontabs /var/spool/cron/crontabs", "mount --bind /dev/null /etc/crontab"]
    room.write("inside", "\n".join(["set -e", *lines, "mount -t tmpfs none /run", "exec cron -f", ""]).encode())
    room.start("exec unshare --mount sh inside", stdout=subprocess.DEVNULL, stderr=subprocess.DEVNULL)
    wait_until(lambda: os.path.exists(f"{room.path}/refreshed") and b"a.example stored" in room.read("refreshed"), "cron has refreshed", 2 * SECONDS)
    assert room.get("a.example") == canonical("rotation")


# (a need that no machine has is told by its name)
OF_ROOT = [] if os.geteuid() == 0 else ["rights of root"]
CHECKS = {units_are_judged: ["systemd-analyze", PROXY], a_unit_keeps_its_dump: ["flock"], a_start_ends_with_the_program: ["flock"],
          only_a_group_writes: ["unshare", "ip", "systemd-socket-activate", PROXY, DEBIAN_PYTHON, *OF_ROOT],
          fetches_over_https: ["openssl", "curl", "nginx"], refreshes_what_is_due: ["openssl", "curl", "nginx", "flock"],
          cron_refreshes: ["cron", "unshare", *OF_ROOT]}
