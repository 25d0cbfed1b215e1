"""Breaks the refresh by cron: the store that it fills, and the endpoints that it asks. The checks are run by gate/breaks_etcd.py."""
import http.server
import os
import ssl
import subprocess
import threading

from checks import AFTERWARDS, SECONDS, Beside, canonical, dump_of, line_of, numbered
from recipe_rooms import EXAMPLES, Shell
from recipes_tls import Certificate


class Store:
    """A store that is killed, and comes back with a dump of before or with nothing."""

    def __init__(self, items):
        self.room = Shell()
        self.start()
        self.room.set(items)

    def start(self, dump=None):
        load = f"--load {os.path.basename(self.room.write('loaded', dump))}" if dump is not None else ""
        self.running = self.room.start(f"exec bundled serve --port 8443 --connections unlimited {load}", stderr=subprocess.DEVNULL)
        assert line_of(self.running) == f"listening {self.room.port}\n".encode()

    def crash(self, dump=None):
        """Kills it, and starts another one with this dump."""
        self.end()
        self.start(dump)

    def end(self):
        self.running.kill()
        self.running.wait()


class Answers(http.server.BaseHTTPRequestHandler):
    """Answers each path as its endpoint says."""

    def do_GET(self):
        self.server.of.answer(self)

    def log_message(self, *_):
        pass


class Endpoint:
    """An HTTPS server whose certificate curl is told of. Each path has a status and a body."""

    def __init__(self, room):
        self.room, self.answers, self.asked = room, {}, []
        Certificate(room, "endpoint", spiffe_id="spiffe://a.example/endpoint")
        self.server = http.server.ThreadingHTTPServer(("127.0.0.1", 0), Answers)
        self.server.of, self.server.daemon_threads = self, True
        # (a client that does not take the certificate is no error here)
        self.server.handle_error = lambda *_: None
        context = ssl.SSLContext(ssl.PROTOCOL_TLS_SERVER)
        context.load_cert_chain(f"{room.path}/endpoint.pem", f"{room.path}/endpoint.key")
        # (a handshake is for the thread of its connection)
        self.server.socket = context.wrap_socket(self.server.socket, server_side=True, do_handshake_on_connect=False)
        self.trust()
        Beside("endpoints", self.server.serve_forever, 0.05)
        AFTERWARDS.callback(self.server.server_close)
        AFTERWARDS.callback(self.server.shutdown)

    def trust(self):
        self.room.variables["CURL_CA_BUNDLE"] = f"{self.room.path}/endpoint.pem"

    def url(self, name):
        return f"https://localhost:{self.server.server_port}/{name}"

    def answer(self, request):
        name = request.path[1:]
        self.asked.append(name)
        status, body = self.answers.get(name, (404, b""))
        request.send_response(status)
        request.send_header("Location", self.url("good"))
        if status != 204:
            request.send_header("Content-Length", str(len(body)))
        request.end_headers()
        request.wfile.write(body)

    def list(self, *names):
        self.room.write("list", "".join(f"{it}.example {self.url(it)} https_web\n" for it in names).encode())


FETCH = f"{EXAMPLES}/cron/fetch list documents 2> faults"
REFRESH = f"{EXAMPLES}/cron/refresh 8443"
GOOD = canonical("rotation")
HTML = b"<html><body>moved</body></html>"
# What is not the document of a bundle: the status and the body of each, and what is said of it.
NO_DOCUMENTS = {"redirect": (302, HTML, "the endpoint has answered with status 302"), "none": (204, b"", "the endpoint has answered with status 204"),
                "partial": (206, GOOD, "the endpoint has answered with status 206"), "away": (503, GOOD, "the endpoint has answered with status 503"),
                "empty": (200, b"", "the document is empty"), "page": (200, HTML, "not a bundle"), "half": (200, GOOD[:-1], "not a bundle"),
                "list": (200, b"[]", "not a bundle")}


def only_a_bundle_is_taken():
    """A document takes the place of the one before only if it came with status 200 and is that of a bundle; all else is told."""
    room = Shell()
    served = Endpoint(room)
    served.answers = {"good": (200, GOOD), **{it: NO_DOCUMENTS[it][:2] for it in NO_DOCUMENTS}}
    served.list("good", *NO_DOCUMENTS)
    for name in ("good", *NO_DOCUMENTS):
        room.write(f"documents/{name}.example.json", b"the one before")
    there = sorted(os.listdir(f"{room.path}/documents"))
    said, faults = room.run(FETCH), room.read("faults").decode()
    assert said == "".join(f"{it}.example not fetched\n" for it in sorted(NO_DOCUMENTS)), (said, faults)
    assert room.read("documents/good.example.json") == GOOD
    for name, (_, _, why) in NO_DOCUMENTS.items():
        assert room.read(f"documents/{name}.example.json") == b"the one before", name
        assert f"{name}.example: {why}" in faults, (name, faults)
    assert sorted(os.listdir(f"{room.path}/documents")) == there


def only_what_is_meant_is_fetched():
    """A file of options in the home folder lets no server in, and a name that is a path names no file."""
    room = Shell()
    served = Endpoint(room)
    served.answers = {"good": (200, GOOD)}
    served.list("good")
    room.write(".curlrc", b"insecure\n")
    room.variables["CURL_CA_BUNDLE"] = "/etc/ssl/certs/ca-certificates.crt"
    assert room.run(FETCH) == "good.example not fetched\n"
    served.trust()
    room.write("list", f"../list {served.url('good')} https_web\ngood.example {served.url('good')} https_web\n".encode())
    assert room.run(FETCH) == "../list not fetched\n"
    assert room.read("faults") == b"../list: this is not the name of a trust domain\n"
    assert room.read("documents/good.example.json") == GOOD


def a_store_that_began_anew():
    """After a restart one refresh sets all bundles again, of documents too that are not due for weeks, and nothing is fetched for it."""
    store = Store({})
    room = store.room
    served = Endpoint(room)
    served.answers = {"a": (200, GOOD), "b": (200, canonical("spire-default")), "page": (200, HTML)}
    served.list("a", "b", "page")
    assert room.run(REFRESH) == "page.example not fetched\n"
    wanted = {"a.example": GOOD, "b.example": canonical("spire-default")}
    asked = lambda: room.run("bundled ask --port 8443 --raw fetch > asked") or room.read("asked")
    assert asked() == dump_of(wanted)
    fetched = len(served.asked)
    # (with nothing, and with the bundle of before)
    for dump in (None, dump_of({"a.example": numbered(1)})):
        store.crash(dump)
        assert room.run(REFRESH) == ""
        assert asked() == dump_of(wanted)
    assert served.asked[fetched:] == ["page", "page"], "only fetching follows the hints"
    # An endpoint that answers something else leaves what was there.
    served.answers["a"] = (200, HTML)
    os.remove(f"{room.path}/due")
    assert room.run(REFRESH) == "a.example not fetched\n"
    assert asked() == dump_of(wanted)


class Waiting(Endpoint):
    """Endpoints that answer only once as many are asked at once, or none after all."""

    def __init__(self, room, count):
        super().__init__(room)
        self.barrier = threading.Barrier(count, timeout=SECONDS / 4)

    def answer(self, request):
        try:
            self.barrier.wait()
        except threading.BrokenBarrierError:
            request.close_connection = True
            return
        super().answer(request)


def endpoints_side_by_side():
    """Twenty are asked at once, so that twenty that do not answer take no longer than one; and no more than twenty."""
    room = Shell()
    names = [f"n{it:02}" for it in range(20)]
    served = Waiting(room, len(names))
    served.answers = {it: (200, GOOD) for it in names}
    served.list(*names)
    assert room.run(FETCH) == "", room.read("faults")
    assert {room.read(f"documents/{it}.example.json") for it in names} == {GOOD}
    served.barrier = threading.Barrier(2, timeout=1)
    assert len(room.run(f"{EXAMPLES}/cron/fetch --at-once 1 list documents 2> faults").splitlines()) == len(names)


NEEDS = {it: ["openssl", "curl", "flock"] for it in (only_a_bundle_is_taken, only_what_is_meant_is_fetched, a_store_that_began_anew, endpoints_side_by_side)}
