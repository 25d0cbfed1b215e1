#!/usr/bin/env python3
"""Makes releases by ./release, and looks at what is in them and at what `install` makes of them.

usage: gate/releases.py   (over the program that rt ci or rt run has built in crates/bundled/out/)

Each is made in a copy of the repository, whose files as they stand are one commit there: so a change that is in no commit yet is
tried too, and nothing is left here.
"""
import functools
import glob
import hashlib
import os
import re
import shutil
import subprocess
import sys
import tarfile

sys.dont_write_bytecode = True

import examples  # noqa: E402
from checks import ROOT, SECONDS, Room, bytes_of, part, program, run_checks, version  # noqa: E402
from manual import man_of  # noqa: E402

# What ./release reads of the crates, and of the client in Python.
OF_PROGRAM, OF_PYTHON = "crates/command_line/src/building.rt", "clients/python/hopslintel/__init__.py"
# Whoever makes the commits: always the same, at the same time, and by no settings of this machine.
WHO = {f"GIT_{role}_{what}": value for role in ("AUTHOR", "COMMITTER") for what, value in
       (("NAME", "gate"), ("EMAIL", "gate@localhost"), ("DATE", "1764288000 +0000"))}
WHO.update(GIT_CONFIG_GLOBAL="/dev/null", GIT_CONFIG_SYSTEM="/dev/null")


def said_by(words, status=0, **how):
    """What a command prints on both outputs; it ends with this status."""
    how = {"stdin": subprocess.DEVNULL, "stdout": subprocess.PIPE, "stderr": subprocess.STDOUT, "text": True, "timeout": 5 * SECONDS, **how}
    ran = subprocess.run(words, **how)
    assert ran.returncode == status, (words, ran.returncode, ran.stdout)
    return ran.stdout


class Repository(Room):
    """A copy of the repository but for its crates, in one commit, with the program that is built."""

    def __init__(self):
        super().__init__()
        self.env = {**os.environ, **WHO, "TMPDIR": self.path}
        self.top = f"{self.path}/repository"
        for name in said_by(["git", "ls-files", "-z", "--cached", "--others", "--exclude-standard"], cwd=ROOT).split("\0"):
            if os.path.isfile(f"{ROOT}/{name}") and (name == OF_PROGRAM or not name.startswith("crates/")):
                self.take(f"{ROOT}/{name}", name)
        self.take(program(), "crates/bundled/out/bundled")
        self.git("init", "--quiet")
        self.commit()

    def take(self, path, name):
        os.makedirs(os.path.dirname(f"{self.top}/{name}"), exist_ok=True)
        shutil.copy(path, f"{self.top}/{name}")

    def git(self, *words):
        return said_by(["git", *words], cwd=self.top, env=self.env)

    def commit(self):
        self.git("add", "--all")
        self.git("commit", "--quiet", "--message", "as it stands")

    def change(self, name, pattern, text):
        """Puts a text in place of what stands in the file once."""
        changed, count = re.subn(pattern, lambda _: text, bytes_of(f"{self.top}/{name}").decode(), flags=re.M)
        assert count == 1, (name, pattern)
        self.write(f"repository/{name}", changed.encode())

    def set_version(self, of_program, of_python):
        self.change(OF_PROGRAM, r'\.version\("[^"]*"\)', f'.version("{of_program}")')
        self.change(OF_PYTHON, r'^__version__ = "[^"]*"', f'__version__ = "{of_python}"')

    def release(self, *words, **how):
        """What ./release says over the program that is built."""
        return said_by([sys.executable, f"{self.top}/release", "--built", *words], env=self.env, **how)


@functools.cache
def made(umask=0o022):
    """What a release of the files as they stand leaves, by name, for whoever makes it with this mask of modes."""
    repository = Repository()
    paths = repository.release("--dev", umask=umask).splitlines()
    found = {it: bytes_of(f"{repository.top}/out/{it}") for it in os.listdir(f"{repository.top}/out")}
    assert sorted(found) == sorted(os.path.basename(path) + end for path in paths for end in ("", ".sha256")), (paths, found.keys())
    assert repository.git("status", "--porcelain") == "" and sorted(os.listdir(repository.path)) == ["repository"]
    return found


def tarball():
    return next(it for it in made() if it.endswith(".tar.gz"))


def package():
    return next(it for it in made() if it.endswith(".deb"))


class Unpacked(Room):
    """A release that is unpacked, and the prefix into which it is installed."""

    def __init__(self):
        super().__init__()
        self.write("release.tar.gz", made()[tarball()])
        with tarfile.open(f"{self.path}/release.tar.gz") as tar:
            tar.extractall(self.path)
        self.folder = f"{self.path}/{tarball()[: -len('.tar.gz')]}"
        self.prefix = f"{self.path}/prefix"

    def install(self, prefix=None, status=0, options=(), **env):
        return said_by([f"{self.folder}/install", *options, prefix or self.prefix], status, env={**os.environ, **env})

    def names(self, top):
        """The files below a folder."""
        return {os.path.relpath(f"{at}/{name}", top) for at, _, names in os.walk(top) for name in names}


def the_same_files_give_the_same_bytes():
    """In another folder, at another time, and for somebody whose files nobody else may read."""
    assert made() == made(0o077)
    assert re.fullmatch(rf"hopslintel-{re.escape(version())}\+[0-9a-f]{{12}}-x86_64-linux\.tar\.gz", tarball()), tarball()


def sums_are_those_of_the_files():
    for name, text in made().items():
        if not name.endswith(".sha256"):
            assert made()[f"{name}.sha256"].decode() == f"{hashlib.sha256(text).hexdigest()}  {name}\n", name


def the_tarball_has_what_is_wanted():
    """The files of the repository, of root and with modes of their own, and no other; KIT names the kit and the commit."""
    room = Unpacked()
    with tarfile.open(f"{room.path}/release.tar.gz") as tar:
        members = tar.getmembers()
    assert all((it.uid, it.gid, it.uname, it.gname) == (0, 0, "root", "root") for it in members)
    assert {it.mode for it in members} == {0o644, 0o755}
    assert [it.name for it in members] == sorted((it.name for it in members), key=lambda it: it.split("/"))
    names = room.names(room.folder)
    assert {"KIT", "LICENSE", "install", "README.md", "SECURITY.md", "CONTRIBUTING.md", "gate/bundles/spire-default.json", "examples/race.events", "clients/go/go.mod", "clients/python/pyproject.toml", "examples/systemd/hopslintel.sysusers",
            "examples/etcd/publish", "docs/USING.md", "share/man/man1/bundled.1"} <= names, names
    assert not any(it.endswith(".pyc") for it in names)
    kit, commit = bytes_of(f"{room.folder}/KIT").decode().splitlines()
    assert kit == said_by(["rt", "version"]).strip() and commit.split()[1].startswith(tarball().split("+")[1].split("-")[0]), (kit, commit)
    assert bytes_of(f"{room.folder}/bin/bundled") == bytes_of(program())


def links_lead_somewhere():
    """Those of all pages, in the tarball and where they are installed."""
    room = Unpacked()
    room.install()
    for top, pages in ((room.folder, "*.md docs/*.md clients/*/*.md"), (f"{room.prefix}/share/doc/hopslintel", "*.md docs/*.md")):
        found = [page for pattern in pages.split() for page in glob.glob(f"{top}/{pattern}")]
        links = [(page, it) for page in found for it in re.findall(r"\]\(([^)#\s]+)", bytes_of(page).decode()) if "://" not in it]
        assert len(links) > 100, links
        dead = [it for it in links if not os.path.exists(f"{os.path.dirname(it[0])}/{it[1]}")]
        assert not dead, dead


def examples_run_from_the_tarball():
    """Those of the README and of the pages that continue it, at the top of a release that is unpacked."""
    room = Unpacked()
    found = examples.checks(room.folder)
    assert len(found) >= 7, found
    for name, check in found.items():
        with part(example=name):
            check()


def it_is_installed():
    """Twice, the second time over the first; the program runs, and units and examples name it by the prefix."""
    room = Unpacked()
    room.install()
    assert said_by([f"{room.prefix}/bin/bundled", "--version"]) == f"bundled {version()}\n"
    names = room.names(room.prefix)
    assert {"share/man/man1/bundled.1", "share/bash-completion/completions/bundled", "share/doc/hopslintel/docs/USING.md",
            "lib/systemd/system/hopslintel.service", "lib/sysusers.d/hopslintel.conf", "share/hopslintel/systemd/private.conf",
            "share/hopslintel/cron/refresh"} <= names, names
    unit = bytes_of(f"{room.prefix}/lib/systemd/system/hopslintel.service").decode()
    assert f"\nExecStart={room.prefix}/share/hopslintel/lasting dump " in unit and f"\nEnvironment=PATH={room.prefix}/bin:" in unit, unit
    named = [it for it in names if not it.startswith("share/doc/") and b"/opt/hopslintel" in bytes_of(f"{room.prefix}/{it}")]
    assert named == [], named
    scripts = ("lasting", "dump", "pem/act", "pem/trust", "etcd/publish")
    assert all(os.access(f"{room.prefix}/share/hopslintel/{it}", os.X_OK) for it in scripts)
    said = said_by([sys.executable, "-B", f"{room.prefix}/share/hopslintel/clients/python/hopslintel", "--help"])
    assert said.startswith("usage: "), said
    room.install()
    assert room.names(room.prefix) == names


def it_is_removed():
    """All of it, and nothing else; and of a release that had more, what this one has not."""
    room = Unpacked()
    listed = f"{room.prefix}/share/hopslintel/installed"
    assert "nothing was installed below this PREFIX" in room.install(status=1, options=["--uninstall"])
    room.install()
    room.write("prefix/share/hopslintel/cron/of-others", b"")
    room.write("prefix/share/hopslintel/cron/of-before", b"")
    with open(listed, "a", encoding="utf-8") as it:
        it.write("share/hopslintel/cron/of-before\n")
    room.install()
    assert not os.path.exists(f"{room.prefix}/share/hopslintel/cron/of-before")
    room.install(options=["--uninstall"])
    assert room.names(room.prefix) == {"share/hopslintel/cron/of-others"}
    assert not os.path.lexists(f"{room.prefix}/share/doc/hopslintel")


def it_is_installed_for_a_package():
    """Below DESTDIR, which no text names."""
    room = Unpacked()
    room.install("/usr/local/", DESTDIR=f"{room.path}/package")
    assert os.listdir(f"{room.path}/package") == ["usr"]
    unit = bytes_of(f"{room.path}/package/usr/local/lib/systemd/system/hopslintel-dump.service").decode()
    assert "\nExecStart=/usr/local/share/hopslintel/dump dump " in unit, unit


def install_refuses():
    """A prefix that no unit could name, and a place that can't be written."""
    room = Unpacked()
    room.write("file", b"")
    for prefix in ("prefix", "/", f"{room.path}/a b", f"{room.path}/%i"):
        assert "PREFIX has to begin with /" in room.install(prefix, status=2), prefix
    assert "could not be written: run install as somebody who may" in room.install(f"{room.path}/file/prefix", status=1)
    assert room.read("file") == b"" and not os.path.exists(room.prefix)


def man_shows_the_installed_page():
    room = Unpacked()
    room.install()
    assert "bundled serve [OPTIONS]\n" in man_of(f"{room.prefix}/share/man/man1/bundled.1")


# Prints what the completion of this file offers for the words of a line, the last of which is not whole.
COMPLETE = """. "$0"
COMP_WORDS=("$@") COMP_CWORD=$(($# - 1))
_bundled
echo "${COMPREPLY[*]}"
"""


def bash_completes_the_installed_program():
    """Commands, options of a command, and files where an option takes one."""
    room = Unpacked()
    room.install()
    room.write("dump", b"")
    os.mkdir(f"{room.path}/folder")
    rows = [("bundled se", "serve"), ("bundled serve --lo", "--load --log"), ("bundled serve --load du", "dump"),
            ("bundled serve --load=du", "dump"), ("bundled serve --workers ", ""), ("bundled serve --log --unt", "--until-eof"),
            ("bundled serve --log ch", "changes"), ("bundled serve --log=ch", "changes"),
            ("bundled snapshot --out fo", "folder"), ("bundled refresh --documents du", ""), ("bundled check du", "dump"),
            ("bundled diff dump du", "dump"), ("bundled explain --", "--help"), ("bundled help sn", "snapshot")]
    for line, wanted in rows:
        words = re.findall(r"=|[^ =]+|(?<= )$", line)
        said = said_by(["bash", "-c", COMPLETE, f"{room.prefix}/share/bash-completion/completions/bundled", *words], cwd=room.path)
        assert said == f"{wanted}\n", (line, words, said)


def the_package_has_what_is_wanted():
    """All that `install` puts below /usr, of root, as Debian wants it; and a version that Debian sorts before the release of that
    number."""
    room = Unpacked()
    path = room.write(package(), made()[package()])
    lines = [it.split(None, 5) for it in said_by(["dpkg-deb", "--contents", path]).splitlines()]
    assert {it[1] for it in lines} == {"root/root"}
    room.install("/usr", DESTDIR=f"{room.path}/package")
    names = {re.sub(r"(/man1/.*)", r"\1.gz", it) for it in room.names(f"{room.path}/package")}
    docs = "usr/share/doc/hopslintel"
    names = names - {f"{docs}/LICENSE", "usr/share/hopslintel/installed"} | {f"{docs}/copyright", f"{docs}/changelog.gz"}
    found = {os.path.relpath(it[5]) for it in lines if it[0][0] == "-"}
    assert found == names, found ^ names
    fields = dict(it.split(": ", 1) for it in said_by(["dpkg-deb", "--field", path]).splitlines() if not it.startswith(" "))
    assert (fields["Package"], fields["Architecture"]) == ("hopslintel", "amd64") and fields["Depends"].startswith("libc6 (>= 2."), fields
    if version().endswith("-dev"):
        said_by(["dpkg", "--compare-versions", fields["Version"], "lt", version().replace("-dev", "")])


def lintian_finds_no_error():
    room = Room()
    path = room.write(package(), made()[package()])
    said = said_by(["lintian", "--allow-root", "--fail-on", "error", path], env={**os.environ, "TMPDIR": room.path, "LANG": "C.UTF-8"})
    assert not re.search("^E: ", said, re.M), said


def the_package_is_installed_and_purged():
    """In a folder of its own: the users and groups that the units name are made, and with a purge all goes, the dumps too."""
    room = Room()
    path, top = room.write(package(), made()[package()]), f"{room.path}/system"
    for name in ("var/lib/dpkg/info", "var/lib/dpkg/updates", "var/lib/private/hopslintel", "etc"):
        os.makedirs(f"{top}/{name}")
    room.write("system/var/lib/dpkg/status", b"")
    room.write("system/var/lib/private/hopslintel/dump", b"")
    dpkg = lambda *words: said_by(["dpkg", f"--root={top}", f"--log={room.path}/log", "--force-script-chrootless", "--force-depends", *words])
    dpkg("--install", path)
    named = names_in_units(f"{top}/usr/lib/systemd/system")
    for kind, file in (("group", "group"), ("user", "passwd")):
        lines = room.read(f"system/etc/{file}").decode().splitlines() if named[kind] else []
        assert named[kind] <= {it.split(":")[0] for it in lines}, (named, lines)
    assert "hopslintel-writers" in named["group"], named
    assert said_by([f"{top}/usr/bin/bundled", "--version"]) == f"bundled {version()}\n"
    dpkg("--verify", "hopslintel")
    dpkg("--remove", "hopslintel")
    assert not os.path.exists(f"{top}/usr/bin/bundled") and os.path.exists(f"{top}/var/lib/private/hopslintel/dump")
    dpkg("--purge", "hopslintel")
    assert not os.path.exists(f"{top}/var/lib/private/hopslintel") and not os.path.exists(f"{top}/usr/share/hopslintel")


def names_in_units(folder):
    """The users and groups that the units name and that systemd does not make by itself."""
    named = {"user": set(), "group": set()}
    for name in os.listdir(folder):
        text = bytes_of(f"{folder}/{name}").decode()
        for key, value in re.findall(r"^(\w*(?:User|Group|Groups))=(.+)$", text, re.M):
            kind = "user" if key.endswith("User") and key != "DynamicUser" else "group"
            if key in ("User", "Group", "SocketUser", "SocketGroup", "SupplementaryGroups") and not (key in ("User", "Group") and "\nDynamicUser=yes\n" in text):
                named[kind].update(value.split())
    return {kind: found - {"root"} for kind, found in named.items()}


def no_release_is_made_of_what_is_not_one():
    """It says why, and leaves nothing."""
    repository = Repository()
    refused = lambda *words: repository.release(*words, status=1)
    repository.write("repository/new", b"")
    assert "not in a commit" in refused("--dev")
    os.remove(f"{repository.top}/new")
    repository.set_version("9.8.7", "9.8.6")
    repository.commit()
    assert "the client in Python says 9.8.6" in refused("--dev")
    repository.set_version("9.8.7-dev", "9.8.7.dev0")
    repository.commit()
    assert "9.8.7-dev is not the version of a release" in refused()
    repository.set_version("9.8.7", "9.8.7")
    repository.commit()
    assert "go.mod requires another version" in refused()
    repository.change("clients/go/spiffe/go.mod", r"hopslintel v\S+$", "hopslintel v9.8.7")
    repository.commit()
    assert "has no section '## 9.8.7 - ' with a date" in refused()
    repository.change("CHANGELOG.md", "^## Unreleased$", "## 9.8.7 - 2026-11-28")
    repository.commit()
    assert f"the program that is built says 'bundled {version()}', and the sources 9.8.7" in refused()
    assert not os.path.exists(f"{repository.top}/out")


OF_ALL = ["git", "rt"]
OF_PACKAGE = ["dpkg-deb", "strip"]
CHECKS = {the_same_files_give_the_same_bytes: [], sums_are_those_of_the_files: [], the_tarball_has_what_is_wanted: [],
          links_lead_somewhere: [], examples_run_from_the_tarball: ["bash", "xxd"], it_is_installed: [], it_is_removed: [],
          it_is_installed_for_a_package: [], install_refuses: [], man_shows_the_installed_page: ["man"],
          bash_completes_the_installed_program: ["bash"], the_package_has_what_is_wanted: OF_PACKAGE,
          lintian_finds_no_error: [*OF_PACKAGE, "lintian"],
          the_package_is_installed_and_purged: [*OF_PACKAGE, "systemd-sysusers", *([] if os.geteuid() == 0 else ["rights of root"])],
          no_release_is_made_of_what_is_not_one: []}


if __name__ == "__main__":
    sys.exit(run_checks(list(CHECKS), needs={check: [*OF_ALL, *needs] for check, needs in CHECKS.items()}))
