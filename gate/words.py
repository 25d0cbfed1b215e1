#!/usr/bin/env python3
"""Finds phrases that a reader of the field would stumble over: in docs, and in comments of code and definitions. And names in the
code of the store that threads share by which a thread would wait: no call of it does.

usage: gate/words.py   (prints each place; the words to use instead stand in CONTRIBUTING.md)
"""
import os
import re
import sys

ROOT = os.path.dirname(os.path.dirname(os.path.abspath(__file__)))

# Each phrase, and what to say instead.
PHRASES = {
    r"\bpassed over\b": "ignored",
    r"\bat fault\b": "malformed",
    r"\b(want of memory|wants? memory|memory (is|may be|was) wanting)\b": "out of memory",
    r"\bthe greatest (byte )?first\b": "big-endian",
    r"\b(is|are) none\b": "is not a ..",
    r"\b(exactly|also|only|but) where\b": "if and only if, even if, only if",
    r"\b(un)?lawful\b": "valid",
    r"\bno such (number|request|text)\b": "not such a ..",
}
COMMENT = {".rt": re.compile(r"//[/!]?(.*)"), ".antt": re.compile(r"--(.*)")}
# Where no thread waits for another, and the names of locks and of what else waits.
NO_LOCKS = "crates/shard_store/"
LOCKS = re.compile(r"\b(\w*Mutex\w*|RwLock\w*|Condvar|Barrier|Once\w*|LazyLock|(try_)?lock|park\w*|Wait|wait\w*|mpsc)\b")
# The file that names the phrases, to say what is said instead.
GLOSSARY = "CONTRIBUTING.md"


def texts(file, line):
    """What of a line is text for a reader: all of a doc, without names of code; a comment of code."""
    kind = os.path.splitext(file)[1]
    if kind == ".md":
        return re.sub(r"`[^`]*`|\[[^\]]*\]\([^)]*\)", "", line)
    found = COMMENT[kind].search(line) if kind in COMMENT else None
    return re.sub(r"`[^`]*`", "", found[1]) if found else ""


def lock_in(file, line):
    """The name in a line of code by which a thread would wait for another, if there is one."""
    comment = COMMENT.get(os.path.splitext(file)[1]) if file.startswith(NO_LOCKS) else None
    found = comment and LOCKS.search(comment.sub("", line))
    return found and found[0]


def files():
    """The files with text, but for the glossary, and for the page that is made of texts of other files."""
    for at, folders, names in os.walk(ROOT):
        folders[:] = sorted(it for it in folders if it not in ("out", ".git"))
        for name in sorted(names):
            file = os.path.relpath(f"{at}/{name}", ROOT)
            if os.path.splitext(name)[1] in (".md", *COMMENT) and file not in (GLOSSARY, "docs/DEFINITIONS.md"):
                yield file


def main():
    bad = 0
    for file in files():
        with open(f"{ROOT}/{file}", encoding="utf-8") as it:
            for number, line in enumerate(it, 1):
                if lock := lock_in(file, line):
                    bad += 1
                    print(f"{file}:{number}: no call of this crate waits, and here is {lock}: {line.strip()[:120]}")
                for phrase, better in PHRASES.items():
                    if re.search(phrase, texts(file, line), re.I):
                        bad += 1
                        print(f"{file}:{number}: say '{better}': {line.strip()[:120]}")
    print(f"{0 if bad else 1} passed, {1 if bad else 0} failed")
    return 1 if bad else 0


if __name__ == "__main__":
    sys.exit(main())
