"""Reads what the program prints for `--help` and for `COMMAND --help`. A line that isn't understood is a fault."""
import re
import subprocess
from collections import namedtuple

NAME = "as2desk"
OPTION = re.compile(r"  (?:(-[A-Za-z]), |    )(--[a-z][a-z-]*)(?: <([A-Z][^ >]*)>)?  +(\S.*)")
ARGUMENT = re.compile(r"  <([A-Z]+)>  +(\S.*)")
COMMAND = re.compile(r"  ([a-z]+)  +(\S.*)")
EXAMPLE = re.compile(rf"  ({NAME} \S.*)")
TITLE = re.compile(r"[A-Z][^:]* [^:]*:")
REQUIRED = re.compile(r"(--[a-z][a-z-]*) <[A-Z]+>")
STATUS = re.compile(r"([0-9]) (\S.*)")
STATUSES = "Exit status: "

Option = namedtuple("Option", "short long value text")  # a flag has no value
Argument = namedtuple("Argument", "value text")
# `required` are the options that must be given, `texts` the paragraphs below the options, `examples` the lines of each example behind what
# it is of, `whole` is all that is there.
Command = namedtuple("Command", "name about required options arguments texts examples whole")
Program = namedtuple("Program", "about required options commands texts statuses examples whole")


class Fault(Exception):
    """A help that isn't understood, or says something else than the sources."""


def printed(program, *words):
    """What the program prints for these words and `--help`."""
    ran = subprocess.run([program, *words, "--help"], capture_output=True, check=False, timeout=60, text=True)
    if ran.returncode:
        raise Fault(f"{' '.join([*words, '--help'])}: status {ran.returncode}, {ran.stderr.strip()}")
    return ran.stdout


class Help:
    """The blocks of a help, which blank lines part, taken one after the other."""

    def __init__(self, where, text):
        self.where, self.last = where, []
        if not text.isascii() or not text.endswith("\n") or re.search(r"[^ -~\n]| $", text, re.M):
            self.refuse("it isn't printable ASCII in whole lines, without blanks at their ends")
        self.blocks = [block.split("\n") for block in text[:-1].split("\n\n")]
        if any("" in block for block in self.blocks):
            self.refuse("a line is blank that parts no blocks")

    def refuse(self, what):
        raise Fault(f"{self.where}: {what}")

    def take(self):
        """The next block."""
        if not self.blocks:
            self.refuse("it ends too early")
        return self.blocks.pop(0)

    def line(self):
        """The next block, which is one line."""
        lines = self.take()
        if len(lines) != 1:
            self.refuse(f"not understood: {lines[1]!r}")
        return lines[0]

    def rows(self, title, shape):
        """The rows of the next block, which has that title. What is told of each begins in one column."""
        lines = self.take()
        found = [shape.fullmatch(line) for line in lines[1:]]
        columns = {row.start(row.re.groups) for row in found if row}
        for line, row in zip(lines, [lines[0] == title, *found]):
            if not row:
                self.refuse(f"not understood: {line!r}")
        if len(columns) != 1:
            self.refuse(f"the columns of {title!r} aren't in line")
        return [row.groups() for row in found]

    def begins(self, title):
        return bool(self.blocks) and self.blocks[0][0] == title

    def rest(self):
        """The paragraphs, the examples, and all of both as it stands there."""
        whole = "\n\n".join("\n".join(block) for block in self.blocks)
        texts = []
        while len(self.blocks) > 1 and not self.begins("Example:"):
            texts.append(self.paragraph())
        title = "Example:" if self.begins("Example:") else "Examples:"
        examples = [("", self.example(title))]
        while self.blocks:
            title = self.blocks[0][0]
            if not TITLE.fullmatch(title):
                self.refuse(f"not understood: {title!r}")
            examples.append((title, self.example(title)))
        return texts, examples, whole

    def example(self, title):
        """The lines of the next block, which has that title."""
        return [row[0] for row in self.rows(title, EXAMPLE)]

    def paragraph(self):
        """The next paragraph, as one line."""
        lines = self.take()
        for line in lines:
            if line.startswith(" ") or "  " in line or re.fullmatch(r"\w+:", line):
                self.refuse(f"not understood: {line!r}")
        return " ".join(lines)


def usage(name, required, options, arguments):
    """The words of a usage, behind those of the program, as they have to be."""
    is_free = any(it.long not in required and it.long not in ("--help", "--version") for it in options)
    given = [f"{it.long} <{it.value}>" for it in options if it.long in required]
    return [*name, *["[OPTIONS]"] * is_free, *given, *[f"<{it}>" for it in arguments]]


def options_of(said, line):
    """The options of the next block, and which of them that usage has."""
    options = [Option(*row) for row in said.rows("Options:", OPTION)]
    if len({it.long for it in options}) != len(options) or not any(it.long == "--help" for it in options):
        said.refuse("an option stands there twice, or '--help' doesn't")
    return options, [it for it in REQUIRED.findall(line) if it in {option.long for option in options}]


def need_usage(said, line, words):
    if line != " ".join(["Usage:", NAME, *words]):
        said.refuse(f"not understood: {line!r}; by the options it is {' '.join(words)!r}")


def command_of(program, name, about, before):
    """A command, as its own help tells it. `before` is what a usage has before its name."""
    said = Help(f"{name} --help", printed(program, name))
    if said.line() != about:
        said.refuse(f"it says otherwise what {name} does than the program's help")
    line = said.line()
    arguments = [Argument(*row) for row in said.rows("Arguments:", ARGUMENT)] if said.begins("Arguments:") else []
    options, required = options_of(said, line.partition(f" {name}")[2])
    need_usage(said, line, before + usage([name], required, options, [it.value for it in arguments]))
    return Command(name, about, required, options, arguments, *said.rest())


def statuses_of(said, text):
    """The exit statuses that the paragraph tells, each with what it means."""
    found = [STATUS.fullmatch(part) for part in text.removeprefix(STATUSES).removesuffix(".").split("; ")]
    if not text.endswith(".") or not all(found) or [row[1] for row in found] != [str(i) for i in range(len(found))]:
        said.refuse(f"not understood: {text!r}")
    return [row.groups() for row in found]


def program_of(program):
    """The whole command line, as the program tells it."""
    said = Help("--help", printed(program))
    about, line = said.line(), said.line()
    names = said.rows("Commands:", COMMAND)
    options, required = options_of(said, line)
    need_usage(said, line, usage([], required, options, ["COMMAND"]))
    texts, examples, whole = said.rest()
    statuses = [text for text in texts if text.startswith(STATUSES)]
    if len(statuses) != 1:
        said.refuse(f"no paragraph, or more than one, begins with {STATUSES!r}")
    before = usage([], required, [it for it in options if it.long in required], [])
    commands = [command_of(program, *row, before) for row in names]
    return Program(about, required, options, commands, [text for text in texts if text not in statuses],
                   statuses_of(said, statuses[0]), examples, whole)
