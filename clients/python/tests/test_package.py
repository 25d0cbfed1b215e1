"""What the package is to those who install it or copy its folder."""
import contextlib
import importlib
import os
import re
import shutil
import subprocess
import sys
import tempfile
import unittest
import zipfile

import hopslintel

from .support import PROGRAM, ROOT, served

HERE = f"{ROOT}/clients/python"
FOLDER = os.path.dirname(hopslintel.__file__)

# What has been public since there was a client: it stays.
PUBLIC = {
    "All", "Appended", "Client", "DisconnectedError", "Document", "Expect",
    "Expected", "Found", "GivenUp", "GivenUpError", "Held",
    "HopslintelError", "MAX_PAYLOAD", "Moved", "NoDomainError",
    "OutOfMemory", "ProtocolError", "Refused", "RefusedError", "Removed",
    "Reply", "Request", "Shut", "Stored", "Unchanged", "Version", "Worn",
    "bundle_map", "dump"}


def read(path):
    with open(path, encoding="utf-8") as file:
        return file.read()


def of_python(version):
    """The program's version as PEP 440 writes it: they differ between two
    releases."""
    return version.replace("-dev", ".dev0")


def python_that_builds():
    """A Python that has what pyproject.toml asks for: Debian's, or this."""
    for python in ["/usr/bin/python3", sys.executable]:
        words = [python, "-c", "import setuptools, wheel"]
        with contextlib.suppress(FileNotFoundError):
            ran = subprocess.run(words, stderr=subprocess.DEVNULL)
            if ran.returncode == 0:
                return python
    return None


class PackageTest(unittest.TestCase):
    def test_names(self):
        self.assertLessEqual(PUBLIC, set(hopslintel.__all__))
        for name in hopslintel.__all__:
            self.assertTrue(hasattr(hopslintel, name), name)

    def test_the_version_is_that_of_the_program(self):
        said = subprocess.run([PROGRAM, "--version"], check=True,
                              stdout=subprocess.PIPE).stdout.split()
        self.assertEqual(of_python(said[-1].decode()), hopslintel.__version__)

    def test_a_version_between_two_releases(self):
        self.assertEqual(of_python("1.2.0-dev"), "1.2.0.dev0")
        self.assertRegex(hopslintel.__version__, r"^\d+\.\d+\.\d+(\.dev0)?$")

    def test_each_file_names_its_license(self):
        for name in sorted(os.listdir(FOLDER)):
            if name.endswith(".py"):
                self.assertTrue(read(f"{FOLDER}/{name}").startswith(
                    "# SPDX-License-Identifier: Apache-2.0\n"), name)
        self.assertEqual(read(f"{HERE}/LICENSE"), read(f"{ROOT}/LICENSE"))

    def test_what_the_project_file_names(self):
        text = read(f"{HERE}/pyproject.toml")
        module, name = re.search(r'^hopslintel = "([\w.]+):(\w+)"$', text,
                                 re.M).groups()
        self.assertTrue(callable(getattr(importlib.import_module(module),
                                         name)))
        self.assertIn('dynamic = ["version"]', text)
        self.assertIn('license = {text = "Apache-2.0"}', text)
        for file in ["README.md", "LICENSE", "hopslintel/py.typed"]:
            self.assertTrue(os.path.isfile(f"{HERE}/{file}"), file)

    def test_a_copied_folder(self):
        """It can stand anywhere in a package of another name."""
        with tempfile.TemporaryDirectory() as folder:
            copy = f"{folder}/yours/vendored/hopslintel"
            shutil.copytree(FOLDER, copy)
            text = ("from yours.vendored.hopslintel import Client, aio\n"
                    "from yours.vendored.hopslintel.aio import Client\n"
                    "import sys\nassert 'hopslintel' not in sys.modules")
            for words in [["-c", text],
                          ["-m", "yours.vendored.hopslintel", "--help"]]:
                ran = subprocess.run([sys.executable, *words], cwd=folder,
                                     stdout=subprocess.PIPE,
                                     stderr=subprocess.PIPE, timeout=60)
                self.assertEqual((ran.returncode, ran.stderr), (0, b""))

    def test_a_wheel(self):
        """It is built without a network, of a copy: the build leaves files."""
        python = python_that_builds()
        if not python:
            self.skipTest("no Python here has setuptools and wheel")
        script = ("import sys\nfrom setuptools import build_meta\n"
                  "build_meta.build_wheel(sys.argv[1])")
        with tempfile.TemporaryDirectory() as folder:
            shutil.copytree(HERE, f"{folder}/copy", ignore=lambda *_: [
                "tests", "__pycache__"])
            ran = subprocess.run([python, "-c", script, folder],
                                 cwd=f"{folder}/copy", stdout=subprocess.PIPE,
                                 stderr=subprocess.STDOUT)
            self.assertEqual(ran.returncode, 0, ran.stdout.decode())
            version = hopslintel.__version__
            about = f"hopslintel-{version}"
            with zipfile.ZipFile(
                    f"{folder}/{about}-py3-none-any.whl") as wheel:
                names = set(wheel.namelist())
                about += ".dist-info"
                said = wheel.read(f"{about}/METADATA").decode().splitlines()
                commands = wheel.read(f"{about}/entry_points.txt").decode()
        modules = {f"hopslintel/{it}" for it in os.listdir(FOLDER)
                   if not it.startswith("__pycache__")}
        self.assertEqual({it for it in names if not it.startswith(about)},
                         modules)
        self.assertIn(f"{about}/LICENSE", names)
        for line in ["Name: hopslintel", f"Version: {version}",
                     "License: Apache-2.0", "Requires-Python: >=3.8"]:
            self.assertIn(line, said)
        self.assertIn("hopslintel = hopslintel.command_line:main", commands)


class TypesTest(unittest.TestCase):
    def test_mypy(self):
        """As a user of the package has it checked."""
        if not shutil.which("mypy"):
            self.skipTest("this machine has no mypy")
        with tempfile.TemporaryDirectory() as folder:
            ran = subprocess.run(
                ["mypy", "--strict", "--cache-dir", folder, FOLDER], cwd=HERE,
                stdout=subprocess.PIPE, stderr=subprocess.STDOUT)
        self.assertEqual(ran.returncode, 0, ran.stdout.decode())


class ReadmeTest(unittest.TestCase):
    """Each example in Python runs, over a server."""

    # A loop over `follow` ends after what comes first.
    BEFORE = (
        "import hopslintel\n"
        "follow = hopslintel.Client.follow\n"
        "def once(*words, **named):\n"
        "    yield next(follow(*words, **named))\n"
        "hopslintel.Client.follow = once\n")

    def examples(self):
        text = read(f"{HERE}/README.md")
        found = re.findall(r"^(?:    .*\n|\n(?=    ))+", text, re.M)
        blocks = [re.sub("^    ", "", block, flags=re.M) for block in found]
        return [block for block in blocks if "import " in block]

    def test_the_examples(self):
        said = []
        with served() as port:
            for text in self.examples():
                text = self.BEFORE + text.replace("8443", str(port))
                env = {**os.environ, "PYTHONPATH": HERE}
                ran = subprocess.run(
                    [sys.executable, "-B", "-c", text], env=env, timeout=60,
                    stdout=subprocess.PIPE, stderr=subprocess.PIPE)
                self.assertEqual((ran.returncode, ran.stderr), (0, b""), text)
                said.append(ran.stdout.decode().splitlines())
        bundle = '{"keys":[],"spiffe_sequence":7}'
        self.assertEqual(said, [
            [f"b'{bundle}'", "{'keys': [], 'spiffe_sequence': 7}",
             f"a.example b'{bundle}'", "b.example has no bundle"],
            # (from `sha256sum`)
            ["1 7887d11a94938926a716f3136a94c955"
             "543381731227b80f337db7686139d55c"],
            ["trust a.example 31"], [], ["['a.example']"],
            ["59", f"b'{{\"trust_domains\":{{\"a.example\":{bundle}}}}}\\n'",
             "0", "b''", "{'keys': []}"],
            ["None", "refused 30 NoDomain"]])
