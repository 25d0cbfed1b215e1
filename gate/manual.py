#!/usr/bin/env python3
"""The manual page and the completion for bash, made of what the program says of itself by --help.

usage: gate/manual.py          fails unless share/bundled.1 and share/bundled.bash-completion are what the program's help gives
       gate/manual.py write    writes them

(over the program that rt ci or rt run has built in crates/bundled/out/)

The statuses of the help have to be those of docs/FORMATS.md too.
"""
import itertools
import os
import re
import subprocess
import sys

sys.dont_write_bytecode = True

from checks import ROOT, SECONDS, bytes_of, run_checks, run_words  # noqa: E402

PAGE, COMPLETION = f"{ROOT}/share/bundled.1", f"{ROOT}/share/bundled.bash-completion"

# A row of a list in a help: an option, an argument or a command, and what is said of it, which may begin in the next line.
ROW = re.compile(r"(?:  |  -\w, |      )(--[\w-]+(?: <\w+>| \[<\w+>\])?|<\w+>|\[\w+\](?:\.\.\.)?|\w+)(?:  +(\S.*))?")
# Those that each command has.
OF_ALL = ("--help", "--version")


class Help:
    """What the program says of itself, or of a command: what it is for, how it is used, the rows of its lists, and the notes
    below them."""

    def __init__(self, *words):
        status, text, told = run_words(*words)
        assert (status, told) == (0, b""), (words, status, told)
        self.about, _, rest = text.decode().rstrip("\n").partition("\n\nUsage: ")
        self.usage, *blocks = rest.split("\n\n")
        self.rows = {"Commands": [], "Arguments": [], "Options": []}
        while blocks and blocks[0].partition(":\n")[0] in self.rows:
            heading, _, lines = blocks.pop(0).partition(":\n")
            self.rows[heading] = rows_of(lines.split("\n"))
        self.notes = "\n\n".join(blocks)


def rows_of(lines):
    """The rows of a list, each as what is named and what is said of it. A line that does not begin a row goes on with one."""
    rows = []
    for line in lines:
        found = ROW.fullmatch(line)
        if found:
            rows.append([found[1], found[2] or ""])
        else:
            rows[-1][1] = f"{rows[-1][1]} {line.strip()}".strip()
    return [(name, said) for name, said in rows if name not in OF_ALL]


def helps():
    """The help of the program, and by name that of each command but `help`."""
    whole = Help("help")
    return whole, {name: Help(name, "--help") for name, _ in whole.rows["Commands"] if name != "help"}


# The manual page.

TEMPLATE = r""".\" gate/manual.py writes this page, out of what the program says by --help.
.TH BUNDLED 1 "" Hopslintel
.SH NAME
bundled \- {about}
.SH SYNOPSIS
.nf
{usages}
.fi
.SH DESCRIPTION
{description}
.SH COMMANDS
{commands}
.SH EXIT STATUS
{statuses}
.SH SEE ALSO
{see_also}
"""

DESCRIPTION = """\
It serves the trust bundles of SPIFFE trust domains to the programs of a machine, asks a server for them, writes them as
files, and looks at dumps of them. It has a command for each of these. `bundled --help` and `bundled COMMAND --help` say
what stands here, and `bundled --version` says the version.

"""

SEE_ALSO = """\
Below `share/doc/hopslintel` of the prefix in which it is installed, and in its repository: `README.md`, `docs/USING.md`
with a recipe for each need, `docs/FORMATS.md` with all that goes in and out, and `docs/RELY-ON.md` with what it promises."""

# How troff writes characters that it would take for something else, or show as another one.
ESCAPES = str.maketrans({"\\": r"\e", "-": r"\-", "'": r"\(aq", "`": r"\(ga", "^": r"\(ha", "~": r"\(ti"})


def escaped(text):
    return re.sub(r"^\.", r"\&.", text.translate(ESCAPES), flags=re.M)


def prose(text):
    """Text whose lines may be broken anew. What stands between backticks is bold."""
    parts = re.split(r"`([^`\n]+)`", text)
    return "".join(rf"\fB{escaped(it)}\fR" if number % 2 else escaped(it) for number, it in enumerate(parts))


def paragraphs(text):
    """The text of a help: lines that begin with spaces stay as they are."""
    made = []
    for block in text.split("\n\n"):
        for is_fixed, lines in itertools.groupby(block.split("\n"), lambda line: line.startswith(" ")):
            lines = "\n".join(lines)
            made.append(f".PP\n.nf\n{escaped(lines)}\n.fi" if is_fixed else f".PP\n{prose(lines)}")
    return "\n".join(made)


def item(name, said):
    """A row of a list: what is named, and what is said of it. An option and a status are bold, and the name of a value is slanted."""
    word, space, value = name.partition(" ") if re.match("[-0-9]", name) else ("", "", name)
    named = rf"\fB{escaped(word)}\fR{space}" if word else ""
    return f".TP\n{named}" + re.sub(r"\w+", r"\\fI\g<0>\\fR", value) + f"\n{prose(said)}"


def of_command(command, frames):
    """What the page says of a command. (The frames are told of once, for the whole program.)"""
    rows = [item(*it) for it in command.rows["Arguments"] + command.rows["Options"]]
    notes = "The frames are those of DESCRIPTION." if command.notes == frames else command.notes
    return "\n".join([f'.SS "{escaped(command.usage)}"', f"{prose(command.about)}.", *rows, *([paragraphs(notes)] if notes else [])])


def statuses_of(notes):
    """The exit statuses by the help of the program, each with when it comes."""
    rows = re.findall(r"^  (\d)  (.*\n(?:     .*\n)*)", notes, re.M)
    return [(number, " ".join(said.split())) for number, said in rows]


def statuses_of_formats():
    """The exit statuses by docs/FORMATS.md, each with when it comes."""
    table = re.search(r"^\| Status \| When \|\n.*\n((?:\|.*\n)+)", bytes_of(f"{ROOT}/docs/FORMATS.md").decode(), re.M)
    return re.findall(r"^\| (\d) \| (.*) \|$", table[1], re.M)


def page():
    whole, commands = helps()
    frames = commands["run"].notes
    return TEMPLATE.format(
        about=escaped(whole.about[0].lower() + whole.about[1:]),
        usages="\n".join(re.sub(r"^bundled \w+", r"\\fB\g<0>\\fR", escaped(it.usage)) for it in commands.values()),
        description=paragraphs(DESCRIPTION + frames),
        commands="\n".join(of_command(it, frames) for it in commands.values()),
        statuses="\n".join(item(*it) for it in statuses_of(whole.notes)),
        see_also=paragraphs(SEE_ALSO),
    )


# The completion.

SCRIPT = r"""# Completion for bash: the commands of bundled, the options of each, and files where it takes one. gate/manual.py writes
# this, out of what the program says by --help.
_bundled() {{
    local current=${{COMP_WORDS[COMP_CWORD]}} before=${{COMP_WORDS[COMP_CWORD - 1]}} words=
    local -a kinds=()
    # (to bash the sign of --option=value is a word of its own)
    if [[ $current == = ]]; then
        current=
    elif [[ $before == = ]]; then
        before=${{COMP_WORDS[COMP_CWORD - 2]}}
    fi
    COMPREPLY=()
    case "$((COMP_CWORD == 1)) ${{COMP_WORDS[1]}} $before" in
        1*) words="{commands} help --help --version" ;;
        "0 help "*) words="{commands}" ;;
{cases}
    esac
    [[ ${{#kinds[@]}} == 0 ]] || compopt -o filenames 2> /dev/null
    mapfile -t COMPREPLY < <(compgen "${{kinds[@]}}" -W "$words" -- "$current")
}}
complete -F _bundled bundled
"""

# By what is called so in a help, the kind of file that bash offers in its place.
KINDS = {"FILE": "-f", "FOLDER": "-d", "OLD": "-f", "NEW": "-f", "PATH": "-f"}


def kind_of(value):
    """What bash is told to offer for a value of this name, if it is a file."""
    kind = KINDS.get(re.sub(r"\W", "", value))
    return f"kinds=({kind})" if kind else ""


def words_of(value, said, others):
    """What bash is told to offer for a value that is one of some words: these, and the other options too if none need stand there."""
    found = re.search(r"\[possible values: ([\w, -]+)\]", said)
    return f'words="{" ".join([*found[1].split(", "), *(others if value.startswith("[") else [])])}"' if found else ""


def cases_of(name, command):
    """The lines of the completion for a command: what comes after an option that takes a value, and what elsewhere."""
    options, taking = [option.partition(" ") for option, _ in command.rows["Options"]], {}
    every = [*(option for option, _, _ in options), "--help"]
    for (option, _, value), (_, said) in zip(options, command.rows["Options"]):
        if value:
            taking.setdefault(kind_of(value) or words_of(value, said, every) or "return", []).append(f'"0 {name} {option}"')
    lines = [f"{' | '.join(them)}) {kind} ;;" for kind, them in taking.items()]
    kind = "".join({kind_of(value): None for value, _ in command.rows["Arguments"]})
    words = f'words="{" ".join(every)}"'
    return [*lines, f'"0 {name} "*) {f"{kind} {words}".strip()} ;;']


def completion():
    whole, commands = helps()
    lines = [line for name, command in commands.items() for line in cases_of(name, command)]
    return SCRIPT.format(commands=" ".join(commands), cases="\n".join(f"        {it}" for it in lines))


# What is compared.

MADE = {PAGE: page, COMPLETION: completion}


def is_what_help_gives(path):
    found = bytes_of(path).decode() if os.path.isfile(path) else ""
    assert found == MADE[path](), f"{os.path.relpath(path, ROOT)} differs: run gate/manual.py write"


def the_statuses_are_those_of_the_formats():
    told = statuses_of(helps()[0].notes)
    assert told and told == statuses_of_formats(), told


def the_page_is_what_help_gives():
    is_what_help_gives(PAGE)


def the_completion_is_what_help_gives():
    is_what_help_gives(COMPLETION)


def man_of(path):
    """What man makes of a page, in the width of a terminal. It may not have a word against it."""
    env = {**os.environ, "LC_ALL": "C.UTF-8", "MANWIDTH": "80"}
    ran = subprocess.run(["man", "--warnings", "-l", path], env=env, capture_output=True, text=True, timeout=SECONDS)
    assert (ran.returncode, ran.stderr) == (0, ""), ran
    return ran.stdout


def man_has_no_warning():
    said = man_of(PAGE)
    assert all(re.search(rf"^{it}$", said, re.M) for it in ("NAME", "COMMANDS", "EXIT STATUS", "SEE ALSO")), said


def bash_takes_the_completion():
    ran = subprocess.run(["bash", "-n", COMPLETION], capture_output=True, text=True, timeout=SECONDS)
    assert (ran.returncode, ran.stderr) == (0, ""), ran


CHECKS = {the_statuses_are_those_of_the_formats: [], the_page_is_what_help_gives: [], the_completion_is_what_help_gives: [], man_has_no_warning: ["man"],
          bash_takes_the_completion: ["bash"]}


def write():
    for path, made in MADE.items():
        with open(path, "w", encoding="utf-8") as it:
            it.write(made())


def main(words):
    if words == ["write"]:
        write()
    elif words:
        print(__doc__, end="", file=sys.stderr)
        return 2
    return run_checks(list(CHECKS), needs=CHECKS)


if __name__ == "__main__":
    sys.exit(main(sys.argv[1:]))
