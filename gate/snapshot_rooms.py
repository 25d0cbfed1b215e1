"""What the checks of `snapshot` share: folders of snapshots, what stands in them, and the command over them."""
import os
import subprocess

from checks import SECONDS, Room, answers_with, bytes_of, dump_of, frame, line_of, named, pem_of, run_words, start

DUMP_OF_NONE = dump_of({})
# Refusals of a fetch-all: shard 1 was changed from revision 2 to 3, or was held at revision 2.
MOVED = b"\x29" + (1).to_bytes(4, "big") + (2).to_bytes(8, "big") + (3).to_bytes(8, "big")
HELD = b"\x2a" + (1).to_bytes(4, "big") + (2).to_bytes(8, "big")


def files_of(items):
    """What a snapshot of these names and documents has."""
    members = [b'"' + name.encode() + b'":' + text for name, text in sorted(items.items())]
    files = {"map": b'{"trust_domains":{' + b",".join(members) + b"}}\n"}
    for name, text in items.items():
        files |= {f"{name}.json": text, f"{name}.pem": pem_of(text)}
    return files


def read_folder(path):
    """The names of the files of a folder, with what they hold."""
    return {name: bytes_of(f"{path}/{name}") for name in os.listdir(path)}


def words_of(port, folder, *more):
    return ["snapshot", "--port", str(port), "--out", folder, *more]


def take(port, folder, *more):
    """One snapshot: the status, and what was said."""
    status, out, err = run_words(*words_of(port, folder, *more))
    return status, out.decode(), err.decode()


def shown(number, domains):
    return 0, f"shown snapshot-{number} domains {domains}\n", ""


def folder_names(folder):
    return sorted(os.listdir(folder))


def set_bundle(server, name, document):
    assert server.ask(named(b"S", name, document)) == frame(b"s")


def remove_bundle(server, name):
    assert server.ask(named(b"R", name)) == frame(b"d")


class Place(Room):
    """A folder for snapshots, and beside it something that must stay as it is."""

    def __init__(self):
        super().__init__()
        self.folder = f"{self.path}/out"
        os.mkdir(self.folder)
        self.write("beside", b"stays")

    def link(self, target, name):
        """Makes a link in the folder, in the place of one that is there."""
        os.symlink(target, f"{self.path}/link")
        os.rename(f"{self.path}/link", f"{self.folder}/{name}")

    def current(self):
        return read_folder(f"{self.folder}/current")

    def marks(self):
        """What changes if anything is done in the folder."""
        told = os.lstat(f"{self.folder}/current")
        return folder_names(self.folder), os.readlink(f"{self.folder}/current"), told.st_ino, told.st_mtime_ns, os.stat(self.folder).st_mtime_ns


class Turns:
    """The command with a pause of a second between turns. What it says is read line by line."""

    def __init__(self, port, folder, *more):
        how = {"stdin": subprocess.DEVNULL, "stdout": subprocess.PIPE, "stderr": subprocess.PIPE}
        self.started = start(*words_of(port, folder, "--every", "1", *more), **how)

    def shows(self, line):
        """Waits for this line on standard output."""
        found = line_of(self.started).decode()
        assert found == line + "\n", (found, line)

    def tells(self, line):
        """Waits for this line on standard error."""
        found = line_of(self.started, self.started.stderr).decode()
        assert found == line + "\n", (found, line)

    def io(self):
        """How many bytes it has read so far."""
        with open(f"/proc/{self.started.pid}/io", encoding="ascii") as it:
            return next(int(line.split()[1]) for line in it if line.startswith("rchar:"))

    def end(self):
        """Ends it as a service is ended; and nothing more has been said."""
        assert self.started.poll() is None, f"it has ended with {self.started.returncode}"
        self.started.terminate()
        rest = self.started.communicate(timeout=SECONDS)
        assert rest == (b"", b""), rest


def in_turn(replies):
    """Each connection is answered by the next of these, a reply for each request, and by the last one again."""
    left = list(replies)

    def serve(stream):
        answers_with(*(left.pop(0) if len(left) > 1 else left[0]))(stream)

    return serve
