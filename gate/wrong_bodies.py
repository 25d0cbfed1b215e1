#!/usr/bin/env python3
"""The wrong bodies: those in crates/NAME/must-fail, which rt ci tries, and those in crates/NAME/wrong-bodies, which are tried here.

usage: gate/wrong_bodies.py                fails unless each of them, in either folder, can be put into the code as it stands, and
                                           tells which crates have changed since those in wrong-bodies/ were all refused
       gate/wrong_bodies.py try [NAME..]   wants the prover to refuse each in wrong-bodies/, of all crates or of these
       gate/wrong_bodies.py changed        the same of the crates that have changed since

A crate whose wrong bodies were all refused gets a line in gate/wrong_bodies.sums: its name, and a checksum of its files.

Those that change different functions are put into the code together, and one check of the crate refuses them all: a function is
proved by itself, over the contracts of those that it calls, so the prover names each whose body is wrong. One that is not named so,
or that changes something beside a function, is tried by itself, by rt must-fail. Each crate begins with one check of the crate as
it stands, over what rt check kept, and as many crates are tried side by side as there are processors.
"""
import concurrent.futures
import hashlib
import os
import re
import shutil
import subprocess
import sys
import tempfile

sys.dont_write_bytecode = True

from copies import ROOT, copy_repository, linked  # noqa: E402

SUMS = f"{ROOT}/gate/wrong_bodies.sums"
PAIR = re.compile(r"^(file|old|new): ?(.*)$", re.M)
# The parts of a crate that a check reads.
PARTS = ("src", "specs", "proofs")
FUNCTION = re.compile(r"^( *)(?:pub(?:\([a-z]+\))? )?(?:const )?fn (\w+)")
METHODS_OF = re.compile(r"^impl(?:<[^{;]*?>)? (\w+)(?:<[^{;]*>)? \{", re.M)

# What a check says of a function that is not proved, and of a text that it can't read. (A function that only has no proof because
# it calls one that is not proved has not been looked at.)
NOT_PROVED = re.compile(r"^fn (\S+): (?:not proved|no proof(?!: it calls))", re.M)
UNREAD = re.compile(r"^\S+: error\[|^(?:\./)?(?:src|specs)/\S+: error|\berror\[[\w-]+\]", re.M)
# A proof file that names what a wrong body took away: a refusal that says little of the contract.
NAMES = re.compile(r"^(?:note: )?(?:\./)?proofs/(\S+?):.*(?:has no field|is not in scope|has no `|was not admitted)", re.M)
REFUSED = re.compile(r"^(?:rt: )?must-fail \S+/(\S+\.edit): refused, as it must be", re.M)


def edits_of(crate, folder="wrong-bodies"):
    path = f"{ROOT}/crates/{crate}/{folder}"
    return sorted(f"{path}/{it}" for it in os.listdir(path)) if os.path.isdir(path) else []


def text_of(crate, path, texts):
    """The text of a file of the crate, as it is in these texts or else in the repository."""
    if path not in texts:
        with open(f"{ROOT}/crates/{crate}/{path}", encoding="utf-8") as it:
            return it.read()
    return texts[path]


def applied(crate, edit, texts):
    """These texts of the crate's files by their paths with the edit in them too, and the functions that it changes, or None if
    it can't be put into them: each text that it replaces has to be once in the file that it names, one pair after the other, and
    to change. (Of a change beside a function, the function is None.)"""
    with open(edit, encoding="utf-8") as it:
        lines = PAIR.findall(it.read())
    texts, path, old, functions = dict(texts), "", None, []
    for word, said in lines:
        if word == "file":
            path = said
            texts[path] = text_of(crate, path, texts)
        elif word == "old":
            old = said
        elif texts.get(path, "").count(old) != 1 or old == said:
            return None
        else:
            functions.append((path, function_at(texts[path], texts[path].index(old))))
            texts[path] = texts[path].replace(old, said)
    return (texts, functions) if functions and edit.endswith(".edit") else None


def function_at(text, place):
    """The name of the function whose body has this place of the text, if one has."""
    for line in reversed(text[:place].split("\n")[:-1]):
        found = FUNCTION.match(line)
        if found:
            return found[2]
        if line.startswith("}"):
            return None
    return None


def edited(crate, edit):
    """The files of the crate that the edit changes, by their paths, each with its text then; None if it can't be put into them."""
    found = applied(crate, edit, {})
    return found and found[0]


def sum_of(crate):
    """A checksum of what a try of the crate's wrong bodies reads in its folder."""
    made = hashlib.sha256()
    for part in (*PARTS, "wrong-bodies"):
        for at, folders, names in os.walk(f"{ROOT}/crates/{crate}/{part}"):
            folders.sort()
            for name in sorted(names):
                with open(f"{at}/{name}", "rb") as it:
                    text = it.read()
                made.update(f"{os.path.relpath(f'{at}/{name}', ROOT)} {len(text)}\n".encode() + text)
    return made.hexdigest()


def sums():
    """The crates whose wrong bodies were all refused, each with the checksum of its files then."""
    if not os.path.isfile(SUMS):
        return {}
    with open(SUMS, encoding="utf-8") as it:
        return dict(line.split() for line in it)


def note_refused(crate, made):
    noted = {**sums(), crate: made}
    with open(SUMS, "w", encoding="utf-8") as it:
        it.writelines(f"{name} {noted[name]}\n" for name in sorted(noted) if edits_of(name))


def changed():
    noted = sums()
    return [it for it in crates_with_edits() if noted.get(it) != sum_of(it)]


def crates_with_edits():
    return sorted(it for it in os.listdir(f"{ROOT}/crates") if edits_of(it))


def groups_of(crate):
    """The crate's wrong bodies in groups that can be put into the code together, no two in one function: of each group the texts
    of the files, and the functions by edit. And those that have to be tried alone."""
    groups, alone = [], []
    for edit in edits_of(crate):
        found = applied(crate, edit, {})
        if not found or any(name is None for _, name in found[1]):
            alone.append(edit)
            continue
        for group in groups:
            taken = {it for functions in group[1].values() for it in functions}
            together = None if taken & set(found[1]) else applied(crate, edit, group[0])
            if together:
                group[0], group[1][edit] = together
                break
        else:
            groups.append([found[0], {edit: found[1]}])
    return groups, alone


class Room:
    """A copy of the repository in which the wrong bodies of a crate are tried, over one check of the crate as it stands."""

    def __init__(self, folder, crate):
        self.folder, self.crate = folder, crate
        self.own = f"{folder}/crates/{crate}"
        copy_repository(folder)

    def check(self):
        """The status of a check of the crate, and what it says."""
        how = {"stdin": subprocess.DEVNULL, "stdout": subprocess.PIPE, "stderr": subprocess.STDOUT, "errors": "replace"}
        ran = subprocess.run(["rt", "check", "--jobs", "1"], cwd=self.own, **how)
        return ran.returncode, ran.stdout

    def begin(self):
        """Checks the crate as it stands, and keeps what that proved. Answers whether it is proved."""
        status, said = self.check()
        if status:
            print(f"{self.crate}: it is not proved as it stands:\n{said[-2000:]}", flush=True)
            return False
        shutil.copytree(f"{self.own}/out/incremental", f"{self.folder}/kept", copy_function=linked)
        return True

    def refused(self, texts, functions):
        """Which of these edits, with the functions that each changes, a check of the crate with these texts refuses for sure."""
        were = {path: text_of(self.crate, path, {}) for path in texts}
        self.write(texts)
        status, said = self.check()
        self.write(were)
        shutil.rmtree(f"{self.own}/out/incremental")
        shutil.copytree(f"{self.folder}/kept", f"{self.own}/out/incremental", copy_function=linked)
        if status != 1 or UNREAD.search(said):
            return []
        bad, unclear = NOT_PROVED.findall(said), NAMES.findall(said)
        return [it for it, changes in functions.items() if any(is_named(self.crate, *one, bad, unclear) for one in changes)]

    def write(self, texts):
        for path, text in texts.items():
            with open(f"{self.own}/{path}", "w", encoding="utf-8") as it:
                it.write(text)

    def refused_alone(self, edits):
        """Which of these edits rt must-fail refuses, one by one."""
        os.makedirs(f"{self.own}/must-fail")
        for it in edits:
            shutil.copy(it, f"{self.own}/must-fail")
        how = {"stdin": subprocess.DEVNULL, "stdout": subprocess.PIPE, "stderr": subprocess.STDOUT, "errors": "replace"}
        said = subprocess.run(["rt", "must-fail", self.crate], cwd=self.folder, **{**how, "env": {**os.environ, "RT_JOBS": "1"}}).stdout
        for line in said.splitlines():
            if "must-fail" in line and not REFUSED.match(line):
                print(line, flush=True)
        names = REFUSED.findall(said)
        return [it for it in edits if os.path.basename(it) in names]


def is_named(crate, path, function, bad, unclear):
    """Whether this function of the file is one of those that are not proved, and for its meaning. (The prover names a method by
    the module of its type, which may be another one.)"""
    modules = re.sub(r"^src/|/mod\.rt$|\.rt$", "", path).replace("/", "::")
    start = f"{crate}::" if modules in ("lib", "main") else f"{crate}::{modules}::"
    methods = tuple(f"::{it}::{function}" for it in METHODS_OF.findall(text_of(crate, path, {})))
    named = any((it.startswith(start) and it.rpartition("::")[2] == function) or it.endswith(methods) for it in bad)
    return named and not any(f"/{function}/" in f"/{it}" for it in unclear)


def try_crate(crate):
    """How many of the crate's wrong bodies the prover refuses, and which it does not."""
    made, edits = sum_of(crate), edits_of(crate)
    groups, alone = groups_of(crate)
    with tempfile.TemporaryDirectory(prefix="wrong-bodies-") as folder:
        room = Room(folder, crate)
        if not room.begin():
            return 0, edits
        refused = [it for texts, functions in groups for it in room.refused(texts, functions)]
        alone += [it for _, functions in groups for it in functions if it not in refused]
        together = len(refused)
        refused += room.refused_alone(alone) if alone else []
    left = [it for it in edits if it not in refused]
    print(f"{crate}: {len(refused)} of {len(edits)} refused, {together} of them in {len(groups)} checks", flush=True)
    if not left:
        note_refused(crate, made)
    return len(refused), left


def try_all(crates):
    """Tries those of these crates, the ones with most to try first. Answers how many were refused, and how many not."""
    passed, left = 0, []
    with concurrent.futures.ThreadPoolExecutor(len(os.sched_getaffinity(0))) as pool:
        for refused, lacking in pool.map(try_crate, sorted(crates, key=lambda it: -len(edits_of(it)))):
            passed, left = passed + refused, left + lacking
    for it in left:
        print(f"{os.path.relpath(it, ROOT)}: FAILED: it was not refused", flush=True)
    return passed, len(left)


def apply_all():
    crates = sorted(os.listdir(f"{ROOT}/crates"))
    edits = [(crate, it) for crate in crates for folder in ("must-fail", "wrong-bodies") for it in edits_of(crate, folder)]
    bad = [it for crate, it in edits if not edited(crate, it)]
    for it in bad:
        print(f"{os.path.relpath(it, ROOT)}: FAILED: it cannot be applied")
    lacking = changed()
    if lacking:
        print(f"changed since their wrong bodies were last all refused (./check --wrong-bodies-all tries them): {' '.join(lacking)}")
    return len(edits) - len(bad), len(bad)


def main(words):
    crates = crates_with_edits()
    if words[:1] == ["try"] and all(it in crates for it in words[1:]):
        passed, failed = try_all(words[1:] or crates)
    elif words == ["changed"]:
        passed, failed = try_all(changed())
    elif not words:
        passed, failed = apply_all()
    else:
        print(__doc__, end="", file=sys.stderr)
        return 2
    print(f"{passed} passed, {failed} failed")
    return 1 if failed else 0


if __name__ == "__main__":
    sys.exit(main(sys.argv[1:]))
