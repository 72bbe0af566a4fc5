"""The man page: what the program tells of its command line in roff, with the macros of man(7)."""
import re
import textwrap

from reading import NAME, Fault

LITERAL = re.compile(r"(?<!\w)'([^']+)'(?!\w)")
APOSTROPHE = re.compile(r"(?<=\w)'(?=\w)|(?<=s)'(?= )")
SENTENCE = re.compile(r"(?<=[.?!]) (?=[A-Z(\\])")  # in roff
INNER = "\0"  # a blank between quotes, where no sentence ends
EXAMPLE_WIDTH, WIDTH = 66, 78
SIGNS = {"\\": "\\e", "^": "\\(ha", "~": "\\(ti", "`": "\\(ga"}

HEAD = r""".\" Made by tools/manual.py from what 'as2desk --help' prints: don't change it by hand.
.TH AS2DESK 1 "" Nightorchard "User Commands"
.nr HY 0
.ad l
"""

# What no help tells. Each is text as in a help: what stands between quotes is said as it is spelled.
DESCRIPTION = [
    "A station takes documents from its partners over HTTP by AS2 (RFC 4130), and answers each with a receipt (an MDN, "
    "RFC 8098). It sends documents to them, and settles each by the receipt that comes back. A file of agreements has "
    "the station's names, its partners and their terms. All records are in one SQLite file, the store. Each command is "
    "done over these two: by itself, or by the station that runs over the store ('run').",
]
COMMANDS = [
    "Each stands behind 'as2desk' and the options above. Each has '--help' too, also without those: it prints what "
    "stands here of that command.",
]
FILES = [
    ("AGREEMENTS", "The file of '--agreements', in TOML. It is only read."),
    ("STORE", "The file of '--store', an SQLite database."),
    ("STORE-wal", "SQLite's log of the store, while something has that open. A clean end takes it away. Behind a crash "
     "it belongs to the store: the next command puts them together."),
    ("STORE.new STORE.new-wal", "A store that is being made, before it gets its name."),
    ("STORE.ctl", "The socket at which a station that runs can be asked, or a link to the one of '--control'."),
]
SEE_ALSO = ["docs/AGREEMENTS.md", "docs/OPERATING.md", "docs/PROFILE.md", "docs/QUESTIONS.md"]
SEE_ALSO_TEXT = (
    "They stand in the sources of Nightorchard: how agreements are written, how a station is operated, each format, "
    "answer and limit, and what is asked most."
)


def signs(text):
    """The text, so that roff prints each of its signs."""
    return "".join(SIGNS.get(it, it) for it in text)


def spelled(text):
    """The text as it is typed: its dashes are dashes of a keyboard, and so are its quotes."""
    return signs(text).replace("-", "\\-").replace("'", "\\(aq")


def bold(text):
    return f"\\fB{spelled(text)}\\fR"


def italic(text):
    return f"\\fI{spelled(text)}\\fR"


class Page:
    """The lines of the page. `names` are the commands, which are bold where a text quotes them."""

    def __init__(self, names):
        self.names, self.lines = names, []

    def literal(self, text):
        """What stood between quotes: options and commands are bold, all else stays between quotes."""
        if text.startswith("--") or text.split()[0] in self.names:
            return bold(text)
        return f"\\(oq{spelled(text)}\\(cq"

    def marked(self, text):
        """A text of a help, in roff."""
        parts = LITERAL.split(text)
        for part in parts[::2]:
            if "'" in APOSTROPHE.sub("", part):
                raise Fault(f"a quote has no end in {text!r}")
        return "".join(self.literal(part).replace(" ", INNER) if i % 2 else signs(part) for i, part in enumerate(parts))

    def add(self, *lines):
        self.lines += lines

    def text(self, text):
        """A text, each sentence on lines of its own, so that roff sees where it ends."""
        for sentence in SENTENCE.split(self.marked(text)):
            self.filled(sentence.replace(INNER, " "))

    def filled(self, text):
        """Words in roff, on lines none of which is taken for a macro."""
        lines = textwrap.wrap(text, WIDTH, break_long_words=False, break_on_hyphens=False)
        self.add(*[f"\\&{line}" if line[0] in ".'" else line for line in lines])

    def paragraphs(self, texts):
        """Texts, the first of which stands right below a title."""
        for i, text in enumerate(texts):
            self.add(*[".PP"] * (i > 0))
            self.text(text)

    def item(self, tag, text):
        self.add(".TP", tag)
        self.text(text)

    def options(self, options, ending):
        for it in options:
            names = ", ".join(bold(name) for name in (it.short, it.long) if name)
            self.item(names + (f" {italic(it.value)}" if it.value else ""), it.text + ending)

    def examples(self, examples):
        for title, lines in examples:
            if title:
                self.add(".PP")
                self.text(title)
            self.shell(lines)

    def shell(self, lines):
        """Lines of a shell. One that is too long is broken before its command."""
        self.add(".PP", ".RS 4", ".EX")
        for line in lines:
            words = line.split()
            at = next(i for i, word in enumerate(words) if word in self.names)
            broken = [" ".join([*words[:at], "\\"]), " ".join(["   ", *words[at:]])]
            self.add(*map(spelled, [line] if len(line) <= EXAMPLE_WIDTH else broken))
        self.add(".EE", ".RE")

    def synopsis(self, words):
        self.add(f".SY {NAME}")
        self.filled(" ".join(words))
        self.add(".YS")


def words_of(options, required):
    """Options as they stand in a synopsis; `--help` and `--version` are told by themselves."""
    for it in options:
        if it.long not in ("--help", "--version"):
            word = bold(it.long) + (f" {italic(it.value)}" if it.value else "")
            yield word if it.long in required else f"[{word}]"


def add_command(page, it):
    page.add(f".SS {it.name}")
    words = [*words_of(it.options, it.required), *[italic(argument.value) for argument in it.arguments]]
    if words:
        page.filled(" ".join([bold(it.name), *words]))
        page.add(".PP")
    page.text(f"{it.about}.")
    for argument in it.arguments:
        page.item(italic(argument.value), f"{argument.text}.")
    page.options([option for option in it.options if option.long != "--help"], ".")
    for text in it.texts:
        page.add(".PP")
        page.text(text)
    page.examples(it.examples)


def add_ends(page, program):
    """The sections behind the commands."""
    page.add(".SH EXIT STATUS")
    for status, meaning in program.statuses:
        page.item(bold(status), f"{meaning[0].upper()}{meaning[1:]}.")
    page.add(".SH FILES")
    for name, text in FILES:
        page.item(", ".join(italic(word) for word in name.split()), text)
    page.add(".SH EXAMPLES")
    page.text("Each command above has an example of its own, too.")
    page.examples(program.examples)
    page.add(".SH SEE ALSO")
    page.filled(", ".join(italic(name) for name in SEE_ALSO))
    page.add(".PP")
    page.text(SEE_ALSO_TEXT)


def page_of(top, program):
    """The whole page."""
    absent = [name for name in SEE_ALSO if not (top / name).is_file()]
    if absent:
        raise Fault(f"there is no {absent[0]}, to which the page refers")
    page = Page({it.name for it in program.commands})
    about = program.about
    page.add(".SH NAME")
    page.filled(f"{NAME} \\- {signs(about[0].lower() + about[1:])}")
    page.add(".SH SYNOPSIS")
    page.synopsis([*words_of(program.options, program.required), italic("COMMAND"), "[...]"])
    page.synopsis([f"[{italic('COMMAND')}]", bold("--help")])
    page.synopsis([bold("--version")])
    page.add(".SH DESCRIPTION")
    page.paragraphs([*DESCRIPTION, *program.texts])
    page.add(".SH OPTIONS")
    page.options(program.options, ".")
    page.add(".SH COMMANDS")
    page.paragraphs(COMMANDS)
    for it in program.commands:
        add_command(page, it)
    add_ends(page, program)
    return HEAD + "\n".join(page.lines) + "\n"
