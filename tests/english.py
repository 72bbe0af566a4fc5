"""Looks at the English of README.md and docs/*.md, and at what these documents name. tests/english.sh runs it.

It cuts the prose into sentences. Code blocks, headings and comments are no prose. Each list item and each table cell is prose of its own.
Code in backquotes counts as one word. It prints for each document how many sentences it has, their median and the longest one. The cells
of tables count for the longest one and not for the median: most are a word or two. In the documents of DONE a sentence may have at most
LONGEST words, and the median may be at most MEDIAN.

Then it looks for what is named and isn't there: files and folders of this repository, documents and headings that a link leads to, and
crates that aren't in crates.txt. It prints all that it finds, each with its file and line. The status is 1 where it finds anything.
`english.py [DOCUMENT...]` looks at these alone; with `--long` it prints the sentences over LONGEST words of the other documents too, and
passes them.
"""
import bisect
import pathlib
import re
import statistics
import sys

TOP = pathlib.Path(__file__).resolve().parent.parent
DONE = ["README.md", "docs/AGREEMENTS.md", "docs/ARCHITECTURE.md", "docs/DECISIONS.md", "docs/INTEGRATION.md", "docs/MEASURED.md", "docs/OPERATING.md",
        "docs/PROFILE.md", "docs/PROOFS.md", "docs/PROVED.md", "docs/QUESTIONS.md", "docs/SCRIPTS.md", "docs/THEOREM.md"]
LONGEST, MEDIAN = 35, 16
# the statement of the theorem: one sentence, which has to be the same wherever it stands
STATEMENT = "After any list of posts, desk commands, sending outcomes and clock moments, the tables and answers are"
FOLDERS = ("crates", "tests", "docs", "examples", "deploy", "tools", "bench")
WITHIN_CRATES = ("specs", "src", "proofs", "data", "must-fail")
SUFFIXES = ("antt", "rt", "sh", "py", "script", "texts", "md", "nginx", "service", "timer")
# what a build makes, so that a checkout needn't have it
MADE = re.compile(r"/out(/|$)")
# settings of OpenAS2, which docs/QUESTIONS.md names
NO_CRATES = {"as2_url", "as2_id", "as2_name", "as2_mdn_to", "as2_receipt_option", "as2_mdn_options"}

FENCE = re.compile(r"^ *```")
ITEM = re.compile(r"^ *(?:[-*+]|\d+\.) +")
HEADING = re.compile(r"^#+ +(.*?) *$")
CODE = re.compile(r"`([^`]+)`")
LINK = re.compile(r"\]\(([^)\s]+)\)")
SENTENCE_END = re.compile(r"[.!?][\"')\]*]*\s+(?=[\"'(\[*]*[A-Z0-9`_])")
CRATE = re.compile(r"(?<![\w.-])as2_\w+")


class Block:
    """Prose that stands together: a paragraph, a list item or a table cell. It knows the line of each of its characters."""

    def __init__(self, is_cell=False):
        self.text, self.starts, self.lines, self.is_cell = "", [], [], is_cell

    def add(self, number, text):
        self.starts.append(len(self.text))
        self.lines.append(number)
        self.text += text.strip() + " "

    def line_at(self, place):
        return self.lines[bisect.bisect_right(self.starts, place) - 1]

    def sentences(self):
        """Returns each sentence with the line that it begins in."""
        # what stands in backquotes ends no sentence
        plain = CODE.sub(lambda it: "`" + "x" * (len(it[0]) - 2) + "`", self.text)
        ends = [it.end() for it in SENTENCE_END.finditer(plain)]
        return [(self.line_at(begin), self.text[begin:end].strip()) for begin, end in zip([0, *ends], [*ends, len(self.text)])
                if words(self.text[begin:end])]


def words(sentence):
    """Returns how many words a sentence has. Code in backquotes is one, and so is a link's text with its target."""
    plain = LINK.sub("]", CODE.sub("code", sentence))
    return sum(1 for it in plain.split() if re.search(r"\w", it))


def blocks(text):
    """Returns the prose of a document, block by block."""
    found, block, in_code, in_comment = [], None, False, False
    for number, line in enumerate(text.split("\n"), 1):
        # an indented code block begins behind a blank line
        is_indented = line.startswith("    ") and block is None and not ITEM.match(line)
        if FENCE.match(line):
            in_code, block = not in_code, None
            continue
        if in_code:
            continue
        in_comment = in_comment or line.lstrip().startswith("<!--")
        if in_comment:
            in_comment, block = "-->" not in line, None
            continue
        line = re.sub(r"^ *> ?", "", line)
        if not line.strip() or HEADING.match(line) or line.startswith("!["):
            block = None
        elif line.lstrip().startswith("|"):
            block = None
            for cell in re.split(r"(?<!\\)\|", line.strip().strip("|")):
                if re.search(r"\w", cell):
                    found.append(Block(is_cell=True))
                    found[-1].add(number, cell)
        elif not is_indented:
            if block is None or ITEM.match(line):
                block = Block()
                found.append(block)
            block.add(number, ITEM.sub("", line))
    return found


def slug(heading):
    """Returns the anchor of a heading, as forges make it."""
    return re.sub(r"[^\w\- ]", "", heading.replace("`", "").lower()).replace(" ", "-")


def anchors(file):
    found, in_code = set(), False
    for line in file.read_text(encoding="utf-8").split("\n"):
        in_code ^= bool(FENCE.match(line))
        heading = HEADING.match(line)
        if heading and not in_code:
            found.add(slug(heading[1]))
    return found


def all_names():
    """Returns the names of all files of the repository, without what a build makes."""
    return {it.name for it in TOP.rglob("*") if not {".git", "out"} & set(it.relative_to(TOP).parts)}


def is_pattern(path):
    """Whether a path has a part that stands for others: `*`, `...`, or a word in capitals."""
    return bool(re.search(r"[*?{}$<>…]|\.\.|(^|/)[A-Z]+(/|$|\.)", re.sub(r"\w+\.md$|README|CHANGELOG|LICENSE", "", path)))


def exists(file):
    """Whether a file is there, or the module of that name."""
    return file.exists() or file.with_name(file.name + ".antt").exists()


def is_there(path, crates, names):
    """Whether what a word names is there. A word that names no path of this repository passes."""
    path = re.sub(r"[),.;:'\"]+$", "", path.removeprefix("./"))
    first = path.split("/")[0]
    if "//" in path or is_pattern(path) or MADE.search(path):
        return True
    if "/" not in path:
        return not re.fullmatch(rf"[\w-]+\.(?:{'|'.join(SUFFIXES)})", path) or path in names
    if first in FOLDERS:
        return exists(TOP / path)
    if first in crates:
        return exists(TOP / "crates" / path)
    if first in WITHIN_CRATES:
        return any(exists(TOP / "crates" / crate / path) for crate in crates)
    return True


def named(text):
    """Yields the line and each word that stands in backquotes or in a code block, and whether it stands in backquotes."""
    prose, in_code = [], False
    for number, line in enumerate(text.split("\n"), 1):
        if FENCE.match(line):
            in_code = not in_code
            prose.append("")
        elif in_code:
            prose.append("")
            yield from ((number, it, False) for it in line.split())
        else:
            prose.append(line)
    joined = "\n".join(prose)
    for code in re.finditer(r"`([^`]+)`", joined):
        number = joined.count("\n", 0, code.start()) + 1
        yield from ((number, it, True) for it in code[1].split())


def faults_of(document, crates, names):
    """Yields the line and what is named there and isn't."""
    file = TOP / document
    text = file.read_text(encoding="utf-8")
    for number, word, in_quotes in named(text):
        # in a code block a file may be one that the reader makes
        if (in_quotes or "/" in word) and not is_there(word, crates, names):
            yield number, f"`{word}` isn't there"
        for crate in CRATE.findall(word) if in_quotes else []:
            if crate not in crates and crate not in NO_CRATES:
                yield number, f"`{crate}` is no crate of crates.txt"
    for link in LINK.finditer(CODE.sub(lambda it: " " * len(it[0]), text)):
        number = text.count("\n", 0, link.start()) + 1
        target, _, anchor = link[1].partition("#")
        if re.match(r"\w+:", target):
            continue
        place = (file.parent / target).resolve() if target else file
        if not place.exists():
            yield number, f"the link {link[1]}: no such file"
        elif anchor and anchor not in anchors(place):
            yield number, f"the link {link[1]}: no such heading"


def english(document, show_long):
    """Prints a document's figures, and returns its faults."""
    text = (TOP / document).read_text(encoding="utf-8")
    found = [(number, it, words(it), block.is_cell) for block in blocks(text) for number, it in block.sentences()]
    running = [count for _, _, count, is_cell in found if not is_cell] or [0]
    longest = max(found, key=lambda it: it[2] * (not it[1].startswith(STATEMENT)), default=(0, "", 0, False))
    median = statistics.median(running)
    print(f"{document}: {len(running)} sentences and {len(found) - len(running)} in cells, median {median:g}, "
          f"longest {longest[2]} (line {longest[0]}), {sum(it[2] > LONGEST and not it[1].startswith(STATEMENT) for it in found)} over {LONGEST}")
    faults = []
    for number, sentence, count, _ in found:
        if count > LONGEST and not sentence.startswith(STATEMENT):
            fault = f"{document}:{number}: {count} words: {sentence}"
            if document in DONE:
                faults.append(fault)
            elif show_long:
                print(fault)
    if document in DONE and median > MEDIAN:
        faults.append(f"{document}: the median is {median:g} words, and {MEDIAN} at most are wanted")
    return faults


def statements(documents):
    """Returns a fault where the statement of the theorem isn't the same in all documents that have it."""
    found = {}
    for document in documents:
        for block in blocks((TOP / document).read_text(encoding="utf-8")):
            for number, sentence in block.sentences():
                if sentence.startswith(STATEMENT):
                    found.setdefault(" ".join(sentence.split()), f"{document}:{number}")
    return [f"{place}: another statement of the theorem: {it}" for it, place in found.items()] if len(found) > 1 else []


def main(arguments):
    show_long = "--long" in arguments
    chosen = [it for it in arguments if it != "--long"]
    documents = chosen or ["README.md", *sorted(str(it.relative_to(TOP)) for it in (TOP / "docs").glob("*.md"))]
    crates = {it.split(":")[0].strip() for it in (TOP / "crates.txt").read_text(encoding="utf-8").split("\n") if it.strip()}
    names, faults = all_names(), []
    for document in documents:
        faults += english(document, show_long)
        faults += [f"{document}:{number}: {it}" for number, it in faults_of(document, crates, names)]
    faults += statements(documents)
    for fault in faults:
        print(fault)
    return 1 if faults else 0


if __name__ == "__main__":
    sys.exit(main(sys.argv[1:]))
