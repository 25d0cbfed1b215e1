"""Copies of the repository to work in, since one rt at a time works in a crate and in those below it."""
import os
import shutil

ROOT = os.path.dirname(os.path.dirname(os.path.abspath(__file__)))
# Where rt keeps a crate's library, with a checksum of all that it is made of.
LIBRARY = "out/rlib"


def linked(one, other):
    """Copies a file by a link, if that can be: rt replaces such a file, and changes none."""
    try:
        return os.link(one, other)
    except OSError:
        return shutil.copy2(one, other)


def copy_repository(folder):
    """Copies the crates to this folder, with the libraries that are built of them and without all else that was made."""
    shutil.copytree(f"{ROOT}/crates", f"{folder}/crates", ignore=shutil.ignore_patterns("out", "must-fail", "wrong-bodies"))
    for name in ("crates.txt", "HANDLES"):
        shutil.copy(f"{ROOT}/{name}", folder)
    for crate in os.listdir(f"{ROOT}/crates"):
        share_library(crate, ROOT, folder)


def share_library(crate, one, other):
    """Puts the library of a crate that is built in one copy into another one, so that rt does not prove it again there."""
    built, wanted = (f"{it}/crates/{crate}/{LIBRARY}" for it in (one, other))
    if os.path.isfile(f"{built}/stamp"):
        shutil.rmtree(wanted, ignore_errors=True)
        shutil.copytree(built, wanted, copy_function=linked)
