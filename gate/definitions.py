#!/usr/bin/env python3
"""Which definitions the public contracts rest on, to their ends: what a reader must believe.

usage: gate/definitions.py          fails unless docs/DEFINITIONS.md is the page that the sources give
       gate/definitions.py write    writes that page
       gate/definitions.py count    how many definitions, lines and words that are, crate by crate
       gate/definitions.py rest     the other definitions of specs/, which private contracts and proofs use

A definition is reached from the clauses of a function that the crate makes public, from what contracts see of a public
type, from the ghost items of a public trait, or from a definition that is reached; and the rule that holds between any two steps
of the store that threads share, and the kinds of step, are reached too: they are claimed, though no caller names them. What the prover checks is not to be
believed and is left out: lemmas, invariants of types, and that an implementation meets the laws of its trait. Lines are
counted without imports, comments and blanks; a word is a name or a sign, and 140 of them are read aloud in a minute.
"""
import os
import re
import sys

sys.dont_write_bytecode = True

ROOT = os.path.dirname(os.path.dirname(os.path.abspath(__file__)))
PAGE = f"{ROOT}/docs/DEFINITIONS.md"
A_MINUTE = 140
# Ghost items that are proofs, or that only the prover needs.
PROOFS = {"coded", "invariant", "answers_plainly", "laws", "from_gives", "is_clone", "is_infallible", "matches_eq", "matches_partial_cmp", "total"}
# Modules that no caller sees, by their crates, whose ghost items are claims all the same.
CLAIMS = {"shard_store": {"rule", "steps"}}
TOKEN = re.compile(r"[^\s(){}\[\],;]+")
START = re.compile(r"( *)(?:unfoldable )?(?:abbrev )?(?:pub )?(record |data )?([^\s:({]+)")
# An implementation of a trait: the trait's name, and the type's.
IMPL = re.compile(r"^impl\b[^{;]*?\b(\w+)(?:<[^{;]*>)? for (\w+)", re.M)
USE = re.compile(r"(?:ghost )?(?:pub )?use (Rattle\.[\w.+]+?)(?:\.\{([^}]*)\})?(?: as (\w+))?;?$", re.M)


def imports(text):
    """The names that a text imports, each with its module and its name there; and the modules that it names whole."""
    names, modules = {}, {}
    for path, listed, other in USE.findall(text):
        for name in filter(None, (it.strip() for it in listed.split(","))):
            name, _, second = name.partition(" as ")
            names[second or name] = path, name
        if not listed:
            modules[other or path.rpartition(".")[2]] = path
    return names, modules


def indent_of(line):
    return len(line) - len(line.lstrip())


class Module:
    """A file of definitions: each with its lines, the comment above it among them."""

    def __init__(self, crate, name, file):
        self.crate, self.name, self.path = crate, name, f"Rattle.{crate}.specs.{name}"
        with open(file, encoding="utf-8") as it:
            text = it.read()
        self.names, self.modules = imports(text)
        self.about, self.definitions, self.members = "", {}, {}
        # Of a definition that stands below a line `module _ (names) where`: that line, which the page shows before it.
        self.headings = {}
        self.read(text.split("\n"))

    def read(self, lines):
        # (the comment at the top of the file says what it is about)
        top = next((at for at, line in enumerate(lines) if not line.startswith("--")), len(lines))
        self.about = " ".join(it.strip("- ") for it in lines[:top])
        current, comment, record = None, [], -1
        heading, is_open = [], False
        for line in lines[top:]:
            bare = line.strip()
            if is_open or bare.startswith("module "):
                depth = indent_of(line)
                heading = [*heading, line] if is_open else [*(it for it in heading if indent_of(it) < depth), line]
                is_open, comment, record = not bare.endswith("where"), [], -1
            elif not bare or bare.startswith(("use ", "pub use ")):
                comment = []
            elif bare.startswith("--"):
                comment.append(line)
            else:
                indent = indent_of(line)
                is_inside = record >= 0 and indent > record
                found = None if is_inside else START.match(line)
                is_definition = re.match(r"unfoldable |abbrev |(pub )?(record|data) \S+ .*: ", bare)
                if found and re.match(r"(pub )?[^\s:]+ : ", bare):
                    # (a lemma)
                    current = None
                elif found and is_definition:
                    current = found[3]
                    record = indent if found[2] else -1
                    self.definitions[current] = []
                    self.headings[current] = heading if indent > 0 else []
                elif is_inside and (member := re.match(r" *(?:pub )?([^\s:]+) :", line)):
                    self.members.setdefault(member[1], current)
                if current is not None:
                    self.definitions[current] += comment + [line]
                comment = []

    def defines(self, name):
        return name if name in self.definitions else self.members.get(name)


def modules_of(crate):
    """The modules of specs/ in the order of its file Lib.antt, which is that of reading."""
    top = f"{ROOT}/crates/{crate}/specs"
    if not os.path.isfile(f"{top}/Lib.antt"):
        return []
    with open(f"{top}/Lib.antt", encoding="utf-8") as it:
        names = re.findall(r"^pub mod (\w+)", it.read(), re.M)
    return [Module(crate, it, f"{top}/{it}.antt") for it in names]


def crates():
    with open(f"{ROOT}/crates.txt", encoding="utf-8") as it:
        return [it for it in re.findall(r"^(\w+):", it.read(), re.M) if not it.endswith("_tests")]


def between_braces(text, at):
    """The text between the brace that opens here and the one that closes it."""
    depth = 0
    for end in range(at, len(text)):
        depth += (text[end] == "{") - (text[end] == "}")
        if not depth:
            return text[at + 1 : end]
    return ""


def text_of(file):
    with open(file, encoding="utf-8") as it:
        return it.read()


def opened(crate):
    """The modules that a library makes public, and the names that it hands out from others; None for a program."""
    top = f"{ROOT}/crates/{crate}/src"
    if not os.path.isfile(f"{top}/lib.rt"):
        return None
    lib = text_of(f"{top}/lib.rt")
    modules = set(re.findall(r"^pub mod (\w+);", lib, re.M))
    texts = [lib, *(text_of(f"{top}/{it}.rt") for it in modules)]
    used = [it for text in texts for it in re.findall(r"^pub use [\w:]*?(?:\{([^}]*)\}|(\w+));", text, re.M)]
    names = {it.strip() for many, one in used for it in [*many.split(","), one] if it.strip()}
    return modules, names


def sources(crate):
    """Yields the text of each module, with the names in it that are public; None if all are. The public names of a library are
    given with the types of others for which it has a public trait."""
    public = opened(crate)
    found = [f"{at}/{file}" for at, _, files in sorted(os.walk(f"{ROOT}/crates/{crate}/src")) for file in sorted(files) if file.endswith(".rt")]
    texts = {it: text_of(it) for it in found if "tests" not in os.path.relpath(it, ROOT)}
    own = {it for text in texts.values() for it in re.findall(r"^(?:pub(?:\(crate\))? )?(?:struct|enum|trait|type) (\w+)", text, re.M)}
    for file, text in texts.items():
        module = os.path.basename(file).removesuffix(".rt")
        is_open = not public or module in public[0] or module in CLAIMS.get(crate, ())
        of_others = {it for trait, it in IMPL.findall(text) if public and trait in public[1] and it not in own}
        yield text, None if is_open else public[1] | of_others


def contracts(text, public):
    """Yields each public function with its clauses, by their labels; and the ghost items of what is public."""
    private = set(re.findall(r"^(?:struct|enum|trait) (\w+)", text, re.M))
    parts = re.split(r"\n(?=(?:pub |impl|trait|struct|enum|fn)\b)", text)
    for part in parts:
        head = part.split("{")[0]
        owner = re.search(r"\bfor (\w+)", head) or re.match(r"(?:pub )?(?:impl(?:<[^>]*>)?|trait|struct|enum) (\w+)", head)
        owner = owner or re.match(r"pub (?:const )?(?:fn|type) (\w+)", head)
        if owner and (owner[1] in private or public is not None and owner[1] not in public):
            continue
        is_trait = part.startswith("pub trait")
        for found in re.finditer(r"^ *(pub )?(?:const )?fn (\w+)(.*?)(?:\n *\{\n|;\n|\n *\{\}|\{\n)", part, re.M | re.S):
            if found[1] or is_trait:
                clauses = {}
                for clause in re.finditer(r"\b(requires|ensures) ?(\w*) \{", found[0]):
                    label = clause[2] or clause[1]
                    clauses[label] = between_braces(found[0], clause.end() - 1)
                yield found[2], clauses
        for ghost in re.finditer(r"\bghost (?!use)(\w+)[^{;]*\{", part):
            if ghost[1] not in PROOFS or is_trait:
                yield f"ghost {ghost[1]}", {ghost[1]: between_braces(part, ghost.end() - 1)}


class Reach:
    """What texts reach, but nothing below the named facts."""

    def __init__(self, modules, facts=()):
        self.modules = {it.path: it for it in modules}
        self.facts, self.seen = facts, {}

    def text(self, text, names, modules, own=None):
        for token in TOKEN.findall(text):
            first, _, second = token.partition(".")
            if token in names or first in names:
                self.name(*names[token if token in names else first])
            elif first in modules:
                self.name(modules[first], second.partition(".")[0])
            elif own and own.defines(first):
                self.name(own.path, first)

    def name(self, path, name):
        module = self.modules.get(path)
        defined = module and module.defines(name)
        if defined and defined not in self.facts and (path, defined) not in self.seen:
            self.seen[path, defined] = None
            lines = [it for it in module.headings[defined] + module.definitions[defined] if not it.strip().startswith("--")]
            self.text("\n".join(lines), module.names, module.modules, module)


def reach_of(modules, crate="", function="", label="", facts=()):
    """What the contracts of all crates reach; or those of one crate, of one function, or one of its clauses."""
    reach = Reach(modules, facts)
    for text, public in (source for it in crates() if crate in ("", it) for source in sources(it)):
        names, named = imports(text)
        for name, clauses in contracts(text, public):
            for what, clause in clauses.items():
                if function in ("", name) and label in ("", what):
                    reach.text(clause, names, named)
    return reach


def code_of(lines):
    return [it for it in lines if it.strip() and not it.strip().startswith("--")]


def words_of(lines):
    return len(re.findall(r"[\w.'-]+|[^\s\w(){}\[\],;.:]+", "\n".join(code_of(lines))))


def totals(reach, crate=None):
    found = [reach.modules[path].definitions[name] for path, name in reach.seen if crate in (None, reach.modules[path].crate)]
    return len(found), sum(len(code_of(it)) for it in found), sum(map(words_of, found))


def count(modules):
    rows = ["| Crate | Definitions | Lines | Words |", "|---|---|---|---|"]
    all_lines, reach = 0, reach_of(modules)
    for crate in crates():
        many, lines, words = totals(reach, crate)
        all_lines += lines
        rows.append(f"| `{crate}` | {many} | {lines} | {words} |")
    rows.append(f"\n{all_lines} lines in all.")
    for what, *contract in HEADLINES:
        many, lines, words = totals(reach_of(modules, *contract))
        rows.append(f"{what}: {many} definitions, {lines} lines, {words} words, about {words / A_MINUTE:.0f} minutes to read aloud.")
    return rows


FACTS = ("bundle_eq", "appended")
HEADLINES = [
    ("The headline, which is the clause `linearized` of `run_events` with the plain map, and `bundle_eq` and `appended` as named facts", "step_core", "run_events", "linearized", FACTS),
    ("The same, with what these two stand on: keys, bundles, and canonical texts", "step_core", "run_events", "linearized"),
    ("The whole contract of `run_events`, with the machine, whose runs these are", "step_core", "run_events"),
    ("The promise to threads, which is the contract of `Store::fetch_all`, with the same two facts", "shard_store", "fetch_all", "", FACTS),
    ("The same, with what these two stand on", "shard_store", "fetch_all"),
]


def page(modules):
    """The page: every definition that is reached, in the order of reading, as it stands in its file."""
    out = [
        "# Definitions",
        "",
        "What the public contracts rest on, to the end, as it stands in the sources. `gate/definitions.py write` writes this page,",
        "and the gate compares it. How to read the notation says [PROOFS.md](PROOFS.md).",
        "",
        *count(modules),
    ]
    reach = reach_of(modules)
    for crate in crates():
        chosen = [it for it in modules if it.crate == crate and any((it.path, name) in reach.seen for name in it.definitions)]
        out += ["", f"## {crate}"] if chosen else []
        for module in chosen:
            out += ["", f"### {crate}: {module.name}", "", module.about, ""]
            last = []
            for name, lines in module.definitions.items():
                if (module.path, name) in reach.seen:
                    heading = module.headings[name]
                    out += [f"    {it}" for it in heading] if heading != last else []
                    out += [f"    {it}" for it in lines] + [""]
                    last = heading
            out.pop()
    return "\n".join(out) + "\n"


def main(words):
    modules = [module for crate in crates() for module in modules_of(crate)]
    if words == ["write"]:
        with open(PAGE, "w", encoding="utf-8") as it:
            it.write(page(modules))
    elif words == ["count"]:
        print("\n".join(count(modules)))
    elif words == ["rest"]:
        reach = reach_of(modules)
        for module in modules:
            rest = [name for name in module.definitions if (module.path, name) not in reach.seen]
            if rest:
                print(f"{module.crate}: {module.name}: {', '.join(rest)}")
    elif not words:
        with open(PAGE, encoding="utf-8") as it:
            is_same = it.read() == page(modules)
        print("docs/DEFINITIONS.md is as the sources give it" if is_same else "docs/DEFINITIONS.md differs: run gate/definitions.py write")
        print(f"{int(is_same)} passed, {int(not is_same)} failed")
        return int(not is_same)
    else:
        print(__doc__, end="", file=sys.stderr)
        return 2
    return 0


if __name__ == "__main__":
    sys.exit(main(sys.argv[1:]))
