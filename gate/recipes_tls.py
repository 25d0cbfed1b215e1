"""The recipes of docs/USING.md for programs that verify by the bundles: nginx, HAProxy, openssl and PyJWT.

openssl makes the certificates, so that their keys are here, and curl is the client of mutual TLS.
"""
import base64
import json
import os
import subprocess

from checks import ROOT, SECONDS, unused_port, wait_until
from recipe_rooms import BLOCKS, a_store, without_pause

# Where Debian installs PyJWT, and the Python that has it.
DEBIAN_PYTHON, PYJWT = "/usr/bin/python3", "/usr/lib/python3/dist-packages/jwt/__init__.py"
NEW_KEY = ["-newkey", "ec", "-pkeyopt", "ec_paramgen_curve:P-256", "-nodes"]
CONFIG = b"""[req]
distinguished_name = name
[name]
[authority]
basicConstraints = critical, CA:TRUE
keyUsage = critical, keyCertSign
subjectKeyIdentifier = hash
[leaf]
basicConstraints = CA:FALSE
keyUsage = critical, digitalSignature
subjectAltName = URI:%s, DNS:localhost
"""


def openssl(*words, given=None):
    ran = subprocess.run(["openssl", *words], input=given, capture_output=True, timeout=SECONDS)
    assert ran.returncode == 0, (words, ran)
    return ran.stdout


class Certificate:
    """A certificate and its key in a room, NAME.pem and NAME.key: of an authority, or of a workload with a SPIFFE ID. Its own
    authority if no other is given."""

    def __init__(self, room, name, *, spiffe_id=None, by=None):
        self.path = f"{room.path}/{name}"
        kind = "leaf" if spiffe_id else "authority"
        config = room.write(f"{name}.config", CONFIG % (spiffe_id or "spiffe://none").encode())
        made = ["-config", config, "-subj", f"/CN={name}", "-keyout", f"{self.path}.key"]
        if by is None:
            openssl("req", "-x509", *NEW_KEY, *made, "-extensions", kind, "-days", "2", "-out", f"{self.path}.pem")
        else:
            openssl("req", "-new", *NEW_KEY, *made, "-out", f"{self.path}.request")
            openssl("x509", "-req", "-in", f"{self.path}.request", "-CA", f"{by.path}.pem", "-CAkey", f"{by.path}.key", "-set_serial", "7",
                    "-days", "2", "-extfile", config, "-extensions", kind, "-out", f"{self.path}.pem")

    def entry(self):
        """The X.509 authority as an entry of a bundle document."""
        der = openssl("x509", "-in", f"{self.path}.pem", "-outform", "der")
        # The key ends with the two coordinates of its point.
        key = openssl("pkey", "-in", f"{self.path}.key", "-pubout", "-outform", "der")
        x, y = (base64.urlsafe_b64encode(it).rstrip(b"=").decode() for it in (key[-64:-32], key[-32:]))
        return {"use": "x509-svid", "kty": "EC", "crv": "P-256", "x": x, "y": y, "x5c": [base64.b64encode(der).decode()]}

    def follow_with(self, *above):
        """Puts the certificates of these authorities behind it, as a client sends them."""
        with open(f"{self.path}.pem", "ab") as it:
            for other in above:
                it.write(openssl("x509", "-in", f"{other.path}.pem"))
        return self


def document(*entries, sequence):
    return json.dumps({"keys": entries, "spiffe_sequence": sequence}).encode()


class Peers:
    """A store with the bundles of two trust domains, whose authorities are here, and a workload of each. That of the first
    has two authorities between itself and that of the bundle."""

    def __init__(self):
        self.room = room = a_store(is_filled=False)
        self.authority, self.other = Certificate(room, "a"), Certificate(room, "b")
        upper = Certificate(room, "upper", by=self.authority)
        lower = Certificate(room, "lower", by=upper)
        self.mine = Certificate(room, "svid", spiffe_id="spiffe://a.example/w", by=lower).follow_with(lower, upper)
        self.foreign = Certificate(room, "foreign", spiffe_id="spiffe://b.example/w", by=self.other)
        self.server = Certificate(room, "server", spiffe_id="spiffe://a.example/server", by=self.authority)
        room.write("server.both", b"".join(room.read(it) for it in ("server.pem", "server.key")))
        self.set("a.example", self.authority.entry(), sequence=1)
        self.set("b.example", self.other.entry(), sequence=1)

    def set(self, name, *entries, sequence):
        self.room.set({name: document(*entries, sequence=sequence)})

    def status(self, port, certificate):
        """The status of a request by mutual TLS: 000 if there is no reply."""
        words = ["curl", "-s", "-o", "/dev/null", "-w", "%{http_code}", "--cacert", f"{self.authority.path}.pem", "--max-time", str(SECONDS),
                 "--cert", f"{certificate.path}.pem", "--key", f"{certificate.path}.key", f"https://localhost:{port}/"]
        return subprocess.run(words, stdout=subprocess.PIPE, timeout=2 * SECONDS).stdout.decode()

    def follow(self, port, refused):
        """What a program at the port does, as the bundle of the first trust domain changes: a refused client gets this status."""
        is_trusted = lambda what: wait_until(lambda: self.status(port, self.mine) == "200", what)
        is_refused = lambda what: wait_until(lambda: self.status(port, self.mine) == refused, what)
        is_trusted("the client of the trust domain is served")
        assert self.status(port, self.foreign) == refused, "the client of another trust domain is served"
        self.set("a.example", sequence=2)
        is_refused("a domain that withdrew its authorities is refused")
        self.set("a.example", self.authority.entry(), sequence=3)
        is_trusted("it is served again")
        self.room.run("store remove a.example")
        is_refused("a domain that was removed is refused")
        broken = {**self.authority.entry(), "x5c": [base64.b64encode(b"no certificate").decode()]}
        self.set("a.example", broken, self.authority.entry(), sequence=4)
        is_trusted("it is served beside an authority that is not a certificate")
        self.set("a.example", broken, self.other.entry(), sequence=5)
        is_refused("with the authority of another it is refused")
        # (a process that still has the file of before may take the next connection)
        wait_until(lambda: self.status(port, self.foreign) == "200", "the client of the other is served")


def write_at_start(room):
    """The file as it is when the program starts."""
    room.run(BLOCKS["nginx"][1])


def nginx_follows():
    """Mutual TLS by nginx, whose client is refused once its trust domain has withdrawn its authorities, or is removed."""
    server, _, follow, _ = BLOCKS["nginx"]
    peers = Peers()
    room, port = peers.room, unused_port()
    write_at_start(room)
    server = server.replace("9443", f"127.0.0.1:{port}")
    room.write("nginx.conf", f"pid nginx.pid; error_log stderr; events {{}} http {{ access_log off; {server} }}".encode())
    room.write_program("nginx", f'#!/bin/sh\nexec {which("nginx")} -p {room.path} -c nginx.conf "$@"\n')
    running = room.start("nginx -g 'daemon off;'", stdout=subprocess.DEVNULL, stderr=subprocess.DEVNULL)
    wait_until(lambda: is_written(f"{room.path}/nginx.pid"), "nginx has started")
    room.start(without_pause(follow), stdout=subprocess.DEVNULL, stderr=subprocess.DEVNULL)
    peers.follow(port, "400")
    assert running.poll() is None


def haproxy_follows():
    """The same by HAProxy, which ends the handshake of one that it refuses."""
    server, follow = BLOCKS["HAProxy"]
    peers = Peers()
    room, port = peers.room, unused_port()
    write_at_start(room)
    top = "defaults\n    timeout client 60s\n    timeout server 60s\n    timeout connect 60s\n"
    room.write("haproxy.cfg", (top + server.replace("9443", str(port))).encode())
    running = room.start("exec haproxy -W -f haproxy.cfg -p haproxy.pid", stdout=subprocess.DEVNULL, stderr=subprocess.DEVNULL)
    wait_until(lambda: is_written(f"{room.path}/haproxy.pid"), "HAProxy has started")
    room.start(without_pause(follow), stdout=subprocess.DEVNULL, stderr=subprocess.DEVNULL)
    peers.follow(port, "000")
    assert running.poll() is None


def openssl_verifies():
    """The workload of a trust domain by its file, and not by that of another or of one without authorities."""
    recipe = BLOCKS["openssl"][0]
    peers = Peers()
    room = peers.room
    room.write("svid.pem", room.read("foreign.pem"))
    room.run(BLOCKS["nginx"][1].replace("a.example", "b.example"))
    assert room.run(recipe.replace("a.example", "b.example")) == "svid.pem: OK\n"
    room.run(BLOCKS["nginx"][1])
    assert "error 20 at 0 depth lookup" in room.run(recipe, status=2)
    peers.set("b.example", sequence=2)
    room.run(BLOCKS["nginx"][1].replace("a.example", "b.example"))
    assert "error 20 at 0 depth lookup" in room.run(recipe.replace("a.example", "b.example"), status=2)


def pyjwt_verifies():
    """Tokens by the authorities of the trust domain of their subject, and of no other."""
    room = a_store(is_filled=False)
    env = {**os.environ, "PYTHONPATH": f"{ROOT}/clients/python", "PYTHONDONTWRITEBYTECODE": "1"}
    ran = subprocess.run([DEBIAN_PYTHON, f"{ROOT}/gate/jwt_tokens.py", room.port], env=env, capture_output=True, timeout=SECONDS)
    assert ran.returncode == 0, ran.stderr.decode()


def which(name):
    """The path of a program that the machine has."""
    return subprocess.run(["sh", "-c", f"command -v {name}"], capture_output=True, text=True, check=True).stdout.strip()


def is_written(path):
    return os.path.exists(path) and os.path.getsize(path) > 0


CHECKS = {nginx_follows: ["openssl", "curl", "nginx", "flock"], haproxy_follows: ["openssl", "curl", "haproxy", "flock"], openssl_verifies: ["openssl", "flock"],
          pyjwt_verifies: [DEBIAN_PYTHON, PYJWT]}
