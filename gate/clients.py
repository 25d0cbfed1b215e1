#!/usr/bin/env python3
"""Runs the tests of the clients, and the exchanges that docs/FORMATS.md shows, over the built program.

usage: gate/clients.py   (over the program that rt ci or rt run has built in crates/bundled/out/)

Neither the tests nor the exchanges take what they expect from the program. What of them a machine has no program for, such
as go, is left out. go-spiffe is looked for in the folder that HOPSLINTEL_GO_SPIFFE names, into which .ci/go-spiffe has put it
with a Go that compiles it, and else among Debian's packages. The client in Go is tested by that Go too, since some of its files
are of newer ones only.
"""
import os
import re
import shutil
import subprocess
import sys
import tempfile
import unittest

sys.dont_write_bytecode = True

from checks import BUNDLES, ROOT, SHOWN, Told, bytes_of, program, run_words  # noqa: E402

SECONDS = 600
LETTERS = set(b"SARGFUVMC")
# Where Debian's packages of Go put their sources, and that of go-spiffe among them; and where its Go 1.24 stands.
GO_SOURCES, GO_SPIFFE, GO_ROOT = "usr/share/gocode", "github.com/spiffe/go-spiffe", "usr/lib/go-1.24"


class Exchanges(unittest.TestCase):
    def test_exchanges_of_the_docs(self):
        """In one session: what is sent, and what has to come back."""
        lines = re.findall(r"^    ([<>]) ([0-9a-f ]+)$", bytes_of(f"{ROOT}/docs/FORMATS.md").decode(), re.M)
        sent = [bytes.fromhex(line) for end, line in lines if end == ">"]
        wanted = b"".join(bytes.fromhex(line) for end, line in lines if end == "<")
        status, out, err = run_words("run", given=b"".join(sent))
        self.assertLessEqual(LETTERS, {request[4] for request in sent})
        self.assertEqual((status, out.hex(" "), err), (0, wanted.hex(" "), b""))


class InGo:
    """What is checked of the clients in Go, over the go of this machine and the one that came with go-spiffe."""

    def __init__(self, told):
        self.told = told

    def lacks(self, what, program):
        self.told.leaves_out(what, f"this machine has no {program}")

    def check(self, name, wrong):
        if wrong:
            self.told.fails(name, wrong[-SHOWN:])
        else:
            self.told.passes(name)

    def run(self):
        with tempfile.TemporaryDirectory(prefix="go-tests-") as home:
            self.env = {"HOME": home, **os.environ, "GOFLAGS": "", "GOTOOLCHAIN": "local", "CGO_ENABLED": "0"}
            if shutil.which("go"):
                self.is_formatted()
                self.is_vetted_and_tested("go", f"{ROOT}/clients/go")
            else:
                self.lacks("the client in Go", "go")
            unpacked = os.environ.get("HOPSLINTEL_GO_SPIFFE")
            if unpacked and os.path.isdir(f"{unpacked}/{GO_ROOT}"):
                self.env.update(GOROOT=f"{unpacked}/{GO_ROOT}", PATH=f"{unpacked}/{GO_ROOT}/bin:{os.environ['PATH']}")
                self.is_vetted_and_tested(os.path.basename(GO_ROOT), f"{ROOT}/clients/go")
            self.follows_for_go_spiffe(home, unpacked)

    def is_formatted(self):
        status, said = self.said("gofmt", "-l", f"{ROOT}/clients/go")
        self.check("gofmt", said or ("gofmt failed" if status else ""))

    def follows_for_go_spiffe(self, home, unpacked):
        """The module for go-spiffe, over the go-spiffe that Debian has as sources and without go.mod files."""
        folders = [f"{unpacked}/{GO_SOURCES}"] if unpacked else [*os.environ.get("GOPATH", "").split(":"), f"/{GO_SOURCES}"]
        found = [it for it in folders if os.path.isdir(f"{it}/src/{GO_SPIFFE}")]
        if not found or not (unpacked or shutil.which("go")):
            self.lacks("the source for go-spiffe", "go" if found else "go-spiffe")
            return
        # The two modules, as they would lie among those sources.
        folder = f"{home}/sources/src/hopslintel.example/hopslintel"
        shutil.copytree(f"{ROOT}/clients/go", folder, ignore=lambda at, names: [it for it in names if at == f"{ROOT}/clients/go" and it.endswith("_test.go")])
        self.env.update(GO111MODULE="off", GOPATH=f"{home}/sources:{found[0]}", BUNDLES=BUNDLES)
        self.is_vetted_and_tested("go-spiffe", f"{folder}/spiffe")

    def is_vetted_and_tested(self, name, folder):
        status, said = self.said("go", "vet", ".", cwd=folder)
        self.check(f"{name} vet", said or ("go vet failed" if status else ""))
        race = []
        if shutil.which("gcc"):
            race, self.env["CGO_ENABLED"] = ["-race"], "1"
        else:
            self.lacks(f"{name} test with the race detector", "gcc")
        status, said = self.said("go", "test", "-count=1", f"-timeout={SECONDS}s", "-v", *race, ".", cwd=folder)
        for test in re.findall(r"^--- PASS: (\w+)", said, re.M):
            self.told.passes(f"{name} {test}")
        if status or "--- SKIP" in said or "--- PASS" not in said:
            self.told.fails(f"{name} test", said[-SHOWN:])

    def said(self, *words, cwd=ROOT):
        """The status of a command, and what it says."""
        how = {"stdout": subprocess.PIPE, "stderr": subprocess.STDOUT, "stdin": subprocess.DEVNULL, "text": True}
        ran = subprocess.run(words, cwd=cwd, env=self.env, **how)
        return ran.returncode, ran.stdout


def main():
    os.environ["BUNDLED"] = program()
    sys.path.insert(0, f"{ROOT}/clients/python")
    load = unittest.defaultTestLoader
    told = Told()
    load.loadTestsFromTestCase(Exchanges).run(told)
    load.loadTestsFromName("test_hopslintel").run(told)
    InGo(told).run()
    return told.end()


if __name__ == "__main__":
    sys.exit(main())
