#!/usr/bin/env python3
"""tests/manual.sh [--program FILE]

The man page, docs/as2desk.1, and the completion for bash, deploy/as2desk.bash, against the program's own `--help`:

    made      tools/manual.py makes both anew, and they are what is committed
    refused   a help with a line that it can't understand, or that the sources don't have: nothing is written then
    page      groff, man and mandoc have nothing to say of it, and what they show has each line of each help
    shell     bash and shellcheck take the completion; what it offers for some lines, for each option, and for keys on
              a terminal
    values    the program takes each value that is offered, and no other

Prints a line for each; the status is 1 where one isn't as wanted. A tool that isn't installed is skipped, and that is
said. The program is ./as2desk, or the file that --program names. Takes some seconds.
"""
import argparse
import os
import pathlib
import pty
import re
import select
import shutil
import subprocess
import sys
import tempfile
import time

TOP = pathlib.Path(__file__).resolve().parent.parent
PAGE, COMPLETION = TOP / "docs/as2desk.1", TOP / "deploy/as2desk.bash"
GIVEN = "as2desk --agreements a.toml --store s.db "
FILES, FOLDERS = "(files)", "(folders)"
BY_KIND = {"FILE": FILES, "PATH": FILES, "FOLDER": FOLDERS, "FORMAT": "text json", "KIND": "out in", "S": "P R S W E"}

# An edit of what the program prints, and what is said then.
EDITS = {
    "an option spelled otherwise": ("s/^      --first <N> /      --first=<N>/", "not understood"),
    "an option told on two lines": (r"s/^      --log .*/&\n              and more/", "not understood"),
    "another title": ("s/^Commands:/Subcommands:/", "not understood"),
    "a title within the text": ("s/^Nothing is changed\\.$/Notes:/", "not understood"),
    "a usage with another value": ("s/^\\(Usage.*\\)<N>$/\\1<NUMBER>/", "not understood"),
    "a usage without options": ("s/^\\(Usage.*post\\) .OPTIONS.$/\\1/", "not understood"),
    "an option that need not be given": ("s/ --count <N>$//", "otherwise than"),
    "a command out of line": ("s/^  stop   /  stop /", "columns"),
    "a second example without a title": ("s/^Receipts go to one host alone:$/Receipts/", "not understood"),
    "an example of something else": ("s/^  as2desk \\(.*\\)stop$/  other \\1stop/", "not understood"),
    "exit statuses out of order": ("s/; 2 a faulty/; 4 a faulty/", "not understood"),
    "an option that is missing": ("/^      --moment /d", "otherwise than"),
    "an option that no source has": (r"s/^      --log  .*/&\n      --loud  Says more/", "otherwise than"),
    "a text that no source has": ("s/NotAStore/NotAFile/", "otherwise than"),
    "another default": (r"s/seconds \[default: 30\]/seconds [default: 31]/", "otherwise than"),
}

# Lines, and what is offered at their ends.
LINES = [
    ("as2desk --agreements a.toml --st", "--store --store-limit"),
    ("as2desk --agreements ", FILES),
    ("as2desk --store=s", FILES),
    ("as2desk --moment ", ""),
    ("as2desk s", "submit send show serve stop"),
    ("as2desk --agreements a.toml lis", "list"),
    (GIVEN + "list ", "out in"),
    (GIVEN + "list o", "out"),
    (GIVEN + "list out --state ", "P R S W E"),
    (GIVEN + "list --format json --", "--state --help"),
    (GIVEN + "list --format=j", "json"),
    (GIVEN + "list --format=", "text json"),
    (GIVEN + "list out ", ""),
    (GIVEN + "evidence 1 --out ", FOLDERS),
    (GIVEN + "evidence --r", "--received"),
    (GIVEN + "submit ", "--from --to"),
    (GIVEN + "submit --from A --to B ", FILES),
    (GIVEN + "submit ord", FILES),
    (GIVEN + "submit --from ", ""),
    (GIVEN + "run --listen 127.0.0.1:8080 --c", "--control"),
    (GIVEN + "run --listen 127.0.0.1:80", ""),
    (GIVEN + "run --control ", FILES),
    (GIVEN + "run --listen 127.0.0.1:8080 --r", "--receipts-to"),
    (GIVEN + "run --listen 127.0.0.1:8080 --receipts-to ", ""),
    (GIVEN + "serve --listen 127.0.0.1:8080 ", "--count"),
    (GIVEN + "post --log < ", FILES),
    (GIVEN + "fetch 1 >ord", FILES),
    (GIVEN + "list 2> errors.txt ", "out in"),
    (GIVEN + "resend ", ""),
    (GIVEN + "lst ", ""),
    (GIVEN + "lst --", ""),
]

# Keys on a terminal, and the line that a TAB behind them gives.
KEYS = [
    ("as2desk --agr", "as2desk --agreements "),
    ("as2desk --agreements agr", "as2desk --agreements agreements.toml "),
    ("as2desk --store=agr", "as2desk --store=agreements.toml "),
    ("as2desk --moment agr", "as2desk --moment agr"),
    ("./as2desk lis", "./as2desk list "),
    ("as2desk list o", "as2desk list out "),
    ("as2desk list --format=j", "as2desk list --format=json "),
    ("as2desk run --listen 127.0.0.1:8080 --co", "as2desk run --listen 127.0.0.1:8080 --control "),
    ("as2desk submit --from A --to B my", "as2desk submit --from A --to B my\\ order.edi "),
    ("as2desk evidence 1 --out d", "as2desk evidence 1 --out dispute/"),
    ("as2desk post <agr", "as2desk post <agreements.toml "),
    ("true; as2desk fetch 1 > do", "true; as2desk fetch 1 > document "),
]

# Plays lines, each in three arguments: the line, its words, and which of them the cursor is in.
PLAYER = r"""
source "$1"; shift
compopt() { asked=$2; }
while [[ $# -gt 0 ]]; do
    COMP_LINE=$1 COMP_POINT=${#1} COMP_CWORD=$3 asked=
    mapfile -t COMP_WORDS <<< "$2"
    _as2desk
    printf '%s\n' "$asked ${COMPREPLY[*]}"
    shift 3
done
"""

failed = False


def tell(good, what, *lines):
    """Prints whether something is as wanted, and the lines where it isn't."""
    global failed
    failed = failed or not good
    print("\n".join([f"{'ok   ' if good else 'WRONG'} {what}", *([] if good else lines)]), flush=True)


def run(*words, **more):
    return subprocess.run([str(it) for it in words], capture_output=True, text=True, check=False, timeout=600, **more)


def make(program, folder):
    return run(sys.executable, TOP / "tools/manual.py", "--program", program, "--to", folder)


def try_made(program, folder):
    made = make(program, folder)
    tell(made.returncode == 0, "tools/manual.py", made.stderr)
    for committed in (PAGE, COMPLETION):
        name = committed.relative_to(TOP)
        same = (folder / name).is_file() and (folder / name).read_bytes() == committed.read_bytes()
        tell(same, f"{name} is what it makes", "run python3 tools/manual.py, and look at what changed")


def try_refused(program, folder):
    """Edits of what the program prints."""
    double = folder / "edited"
    for what, (edit, said) in EDITS.items():
        double.write_text(f"#!/bin/sh\n'{program}' \"$@\" | sed '{edit}'\n", encoding="utf-8")
        double.chmod(0o755)
        made = make(double, folder / "none")
        good = made.returncode == 1 and said in made.stderr and made.stderr.count("\n") == 1
        tell(good and not (folder / "none").exists(), f"refused: {what}", f"{made}")


def helps(program):
    """What the program prints of itself and of each command, under their names."""
    found = {"": run(program, "--help").stdout}
    for name in re.findall(r"^  ([a-z]+)  ", found[""].partition("Options:")[0], re.M):
        found[name] = run(program, name, "--help").stdout
    return found


def try_readers():
    """What tools that read man pages say of it."""
    readers = {"groff": ["-man", "-Tutf8", "-ww", "-z"], "man": ["--warnings", "-l"], "mandoc": ["-Tlint", "-Wwarning"]}
    for name, words in readers.items():
        if not shutil.which(name) or name == "man" and run(name, "--version").returncode:
            print(f"skip  {name}: it isn't installed")
            continue
        ran = run(name, *words, PAGE, env={**os.environ, "MANWIDTH": "80", "LC_ALL": "C.UTF-8", "MANPAGER": "cat"})
        said = ran.stderr.splitlines() + (ran.stdout.splitlines() if name == "mandoc" else [])
        # the page has no date: it is made anew with each version
        said = [line for line in said if 'missing date, using ""' not in line]
        tell(not said and (name == "mandoc" or ran.returncode == 0), f"{name} takes the page", *said)


def plain(text):
    """A text without quotes, brackets of values, and what is blank more than once."""
    return " ".join(re.sub(r"['`<>\"]|\\$", "", text, flags=re.M).split())


def shown():
    """What is shown of each command, and under "" what is shown in all."""
    text = run("groff", "-man", "-Tascii", "-P-cbou", "-rLL=9999n", PAGE).stdout
    parts = re.split(r"^   ([a-z]+)\n", text, flags=re.M)
    last, ends = re.match(r"(.*?)^(EXIT STATUS\n.*)", parts[-1], re.M | re.S).groups()
    commands = dict(zip(parts[1::2], map(plain, [*parts[2:-1:2], last])))
    return {"": " ".join([plain(parts[0] + ends), *[f"{name} {it}" for name, it in commands.items()]]), **commands}


def told(text):
    """The things that a help tells: of each row its two columns, of each paragraph all of it."""
    for block in text.rstrip("\n").split("\n\n"):
        lines = block.split("\n")
        if lines[0].startswith("Exit status:"):
            yield from re.findall(r"\d ([^;]+?)[;.](?:\s|$)", block)
        elif lines[0].endswith(":"):
            yield from (part for line in lines[1:] for part in re.split(r"  +", line.strip()))
        elif not lines[0].startswith("Usage:"):
            yield " ".join(lines)


def try_page(helps_of):
    """Each help against what is shown of the page."""
    if not shutil.which("groff"):
        print("skip  what the page shows: groff isn't installed")
        return
    parts = shown()
    tell(list(parts) == list(helps_of), "the page has each command, in the order of the help", f"{list(parts)}")
    for name, text in helps_of.items():
        part = (parts.get(name, "") + (" Print help -h, --help" if name else "")).lower()
        absent = [it for it in told(text) if plain(it).lower() not in part]
        tell(not absent, f"the page has all of {f'{name} --help' if name else '--help'}", *absent)


def split(line):
    """The words of a line as bash gives them, and which is the last one."""
    words = [word for part in line.split() for word in re.findall(r"[=:]+|[<>]+|[^=:<>]+", part)]
    words += [""] if line.endswith(" ") else []
    return [line, "\n".join(words), str(len(words) - 1)]


def offered(lines):
    """What is offered for each of these lines."""
    ran = run("bash", "-c", PLAYER, "bash", COMPLETION, *[word for line in lines for word in split(line)])
    asked = {"default": FILES, "dirnames": FOLDERS}
    found = [line.split() for line in ran.stdout.splitlines()]
    return [" ".join(asked.get(word, word) for word in words) for words in found] + [ran.stderr]


def try_lines(cases):
    for (line, wanted), got in zip(cases, offered([line for line, _ in cases]) + [""] * len(cases)):
        tell(wanted == got, f"{line}| {wanted}".rstrip(), f"offered: {got}")


def options(text):
    """The options of a help, each with the kind of its value."""
    block = text.partition("\nOptions:\n")[2].partition("\n\n")[0]
    return re.findall(r"^  (?:-\w,|   ) (--[a-z-]+)(?: <([A-Z]+)>)?", block, re.M)


def lines_of(name, text):
    """Lines for each option of a help, and for its first value."""
    before = "as2desk " + (f"{name} " if name else "")
    yield before + "--", " ".join(word for word, _ in options(text))
    for word, kind in options(text):
        if kind:
            yield f"{before}{word} ", BY_KIND.get(kind, "")
    for kind in re.findall(r"^  <([A-Z]+)>", text, re.M):
        given = "".join(f"{word} x " for word in re.findall(r"(--[a-z]+) <", re.search(rf" {name}\b(.*)", text)[1]))
        yield before + given, BY_KIND.get(kind, "")


def try_options(helps_of):
    for name, text in helps_of.items():
        cases = list(lines_of(name, text))
        got = offered([line for line, _ in cases])
        wrong = [f"{line}| {wanted}; offered: {it}" for (line, wanted), it in zip(cases, got) if wanted != it]
        tell(not wrong and got[-1] == "", f"{len(cases)} lines of {name or 'the program'}", *wrong, got[-1])


class Terminal:
    """A bash at a terminal, in a folder with some files."""

    def __init__(self, folder):
        for name in ("agreements.toml", "my order.edi", "document"):
            (folder / name).touch()
        (folder / "dispute").mkdir()
        child, self.terminal = pty.fork()
        if child == 0:
            os.chdir(folder)
            words = {"PATH": os.environ["PATH"], "TERM": "dumb", "HOME": str(folder), "INPUTRC": "/dev/null"}
            os.execvpe("bash", ["bash", "--norc", "--noprofile", "-i"], words)
        self.child = child
        self.type(f"unset HISTFILE; source '{COMPLETION}'\n")
        self.type("bind -x '\"\\C-g\": echo \"[[[$READLINE_LINE]]]\"'; echo ready$((1 + 1))\n")
        self.read("ready2")

    def type(self, keys):
        os.write(self.terminal, keys.encode())

    def read(self, end):
        """All that is shown until this; less where nothing comes any more."""
        text, until = "", time.monotonic() + 30
        while end not in text and time.monotonic() < until:
            if select.select([self.terminal], [], [], 1)[0]:
                text += os.read(self.terminal, 4096).decode(errors="replace")
        return text

    def line(self, keys):
        """The line behind these keys and a TAB."""
        self.type(f"\x15{keys}\t\x07")
        found = re.search(r"\[\[\[(.*)\]\]\]", self.read("]]]"))
        return found[1] if found else None

    def end(self):
        self.type("\x15exit\n")
        os.waitpid(self.child, 0)
        os.close(self.terminal)


def try_keys(folder):
    folder.mkdir()
    terminal = Terminal(folder)
    for keys, wanted in KEYS:
        got = terminal.line(keys)
        tell(got == wanted, f"{keys}<TAB>", f"wanted {wanted!r}, got {got!r}")
    terminal.end()


def try_shell():
    for name, words in (("bash", ["-n"]), ("shellcheck", [])):
        if not shutil.which(name):
            print(f"skip  {name}: it isn't installed")
            continue
        ran = run(name, *words, COMPLETION)
        tell(ran.returncode == 0, f"{name} takes the completion", ran.stdout, ran.stderr)


def try_values(program, helps_of):
    """Each value that is offered for an option or by itself, and one that isn't."""
    begin = [program, "--agreements", TOP / "examples/agreements.toml", "--store", ":memory:"]
    lines = {"list ...": "KIND", "list out --state ...": "S"}
    for name, text in helps_of.items():
        if ("--format", "FORMAT") in options(text):
            lines[f"{name} --format ... {dict(list='out', show='1').get(name, '')}".rstrip()] = "FORMAT"
    for line, kind in lines.items():
        values = [*BY_KIND[kind].split(), "x"]
        ends = [run(*begin, *line.replace("...", value).split()).returncode for value in values]
        tell(ends[-1] == 2 and 2 not in ends[:-1], f"the program takes what is offered: {line}", f"statuses: {ends}")


def main():
    asked = argparse.ArgumentParser(description="Tries the man page and the completion for bash.")
    asked.add_argument("--program", default=str(TOP / "as2desk"))
    program = pathlib.Path(asked.parse_args().program).resolve()
    helps_of = helps(program)
    with tempfile.TemporaryDirectory() as name:
        folder = pathlib.Path(name)
        try_made(program, folder / "made")
        try_refused(program, folder)
        try_readers()
        try_page(helps_of)
        try_shell()
        try_lines([("as2desk ", " ".join(["--agreements --store", *list(helps_of)[1:]])), *LINES])
        try_options(helps_of)
        try_keys(folder / "keys")
    try_values(program, helps_of)
    return 1 if failed else 0


if __name__ == "__main__":
    sys.exit(main())
