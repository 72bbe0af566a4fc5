#!/usr/bin/env python3
"""Tries the outer ring of must-fail edits: `python3 tests/edits.py [CRATE ..]`, where CRATE may also be CRATE/EDIT.

A must-fail edit turns a body, and the check has to refuse it by a clause of its function. Those that tell most stand in
crates/CRATE/must-fail/, and `rt ci` tries each of them alone. All others stand in tests/edits/CRATE/, and this tries them. With
--all-rings it tries both rings, with --each it says what refused each edit.

It works in a copy of the repository, with what `rt` keeps there in the folders `out/`. Each crate is proved there first, the
lowest crate first, as far as `rt` doesn't find it proved. Then many edits are applied at
once, at most one a function, and one check tells of each: `not proved` or `no proof: expected answers in ..` where a clause of
the edited function is not met, and `no proof: it calls ..` where the function calls one that another edit has spoiled. Such an
edit waits for the next batch. Where a check stops before it tells of functions, its batch is tried in halves. An edit is tried
alone where its function is proved in a batch, and where it changes a constant. A proof that fails only because it names what the
edit took away tells nothing of a clause, so that such an edit doesn't count as refused.

Each crate has a control: an edit that means the same as before has to be found out as proved, or else nothing here is believed.

The last line of a crate, and of all, says how many edits were tried and refused, by how many checks, and how long it took. The
status is 1 where an edit or a control is not as it has to be. A line says which, and why."""
import argparse
import collections
import pathlib
import re
import resource
import shutil
import signal
import subprocess
import sys
import tempfile
import time

TOP = pathlib.Path(__file__).resolve().parent.parent
# What an edit came to. WAITS: its function calls one that is not proved, so that nothing is known of its own clauses.
REFUSED, WAITS, PROVED, NAME, BAD = "refused", "NOT REFUSED BY A CLAUSE", "NOT REFUSED", "REFUSED ONLY FOR A NAME", "BAD EDIT"
CONTROL = "(control)"
FUNCTION = re.compile(r"( *)(?:pub(?:\([^)]*\))? )?(?:(?:const|unsafe|final) )*fn (\w+)")
BLOCK = re.compile(r"(?:pub(?:\([^)]*\))? )?(?:unsafe )?(impl|trait)\b")
BODY = re.compile(r"^( *)\{\n", re.M)
HEAD = re.compile(r"\A( *)fn [^\n]*\{\n")
HEADER = re.compile(r".*?\b(?:impl|trait)\s+(?:[\w:]*?(\w+)\s+for\s+)?[&\s]*[\w:]*?(\w+)\b", re.S)
VERDICT = re.compile(r"([a-z]+) (\S+): ((?:proved|not proved|no proof|not stated).*)")
ERROR = re.compile(r"(?:\./)?proofs/(\S+)/\w+\.antt:\d+:\d+: error: (.*)")
# An error that says only that a proof names what is gone, and one that follows from another.
GONE = re.compile(r"has no field|is not in scope|has no `")
FOLLOWS = re.compile(r"was not admitted|was rejected, was not checked")


class Edit:
    """A change of texts: its name, and pairs of an old text and a new one, each with its file."""

    def __init__(self, crate, name, changes):
        self.crate, self.name, self.changes = crate, name, changes
        self.functions = frozenset()

    def applied(self, texts):
        """Returns these texts with the edit in them, or None where an old text doesn't stand there once."""
        made = dict(texts)
        for file, old, new in self.changes:
            if made.get(file, "").count(old) != 1:
                return None
            made[file] = made[file].replace(old, new)
        return made if made != texts else None


def read_edit(path):
    """Reads an edit as `rt` does."""
    file, old, changes = "", None, []
    for line in path.read_text(encoding="utf-8").split("\n"):
        if line.startswith("file: "):
            file = line[len("file: "):].strip()
        elif line.startswith("old: "):
            old = line[len("old: "):]
        elif line.startswith("new:") and old:
            changes.append((file, old, re.sub(r"\A ", "", line[len("new:"):])))
            old = None
    return Edit(path.parent.name, path.stem, changes)


class Function:
    """A function of a source: where its text stands, and how the check may print its name."""

    def __init__(self, begin, end, names):
        self.begin, self.end, self.names = begin, end, re.compile(names)


def owner_of(header):
    """Returns how the check prints the type of an `impl` or the trait, as a pattern."""
    plain, before = header, None
    while plain != before:
        plain, before = re.sub(r"<[^<>]*>", "", plain), plain
    of, name = HEADER.match(plain).groups()
    return f"{name}{of}\\w*::" if of else f"{name}::"


def names_of(crate, file, owner, name):
    """Returns a pattern of how the check prints a function and the closures in it; a method stands in the module of its type."""
    path = [it for it in file[len("src/"):-len(".rt")].split("/") if it not in ("lib", "main", "mod")]
    module = rf"{crate}::(?:\w+::)*" if owner else "".join(f"{it}::" for it in [crate, *path])
    return rf"{module}(?:{owner}{name}|(?:fn::{owner}|{owner}fn::){name}::.*)"


def functions_of(crate, file, text):
    """Returns the functions of a source, which is laid out by `rt fmt`: a body ends at the indentation of its `fn`."""
    lines, found, owner, place = text.splitlines(keepends=True), [], "", 0
    for at, line in enumerate(lines):
        if BLOCK.match(line):
            owner = owner_of(line)
        elif line.startswith("}"):
            owner = ""
        begins = FUNCTION.match(line)
        if begins:
            last = re.compile(begins[1] + r"(?:\}|\{\}|\{.*\}$|[^ ].*;$)")
            is_whole = line.rstrip().endswith(("}", ";"))
            end = at if is_whole else next((it for it in range(at, len(lines)) if last.match(lines[it])), at)
            names = names_of(crate, file, owner if begins[1] else "", begins[2])
            found.append(Function(place, place + sum(map(len, lines[at:end + 1])), names))
        place += len(line)
    return found


def around(functions, place):
    """Returns the innermost of the functions that this place is in, or None."""
    return next((it for it in reversed(functions) if it.begin <= place < it.end), None)


class Said:
    """What a check said."""

    def __init__(self, status, text):
        self.status, self.lines = status, text.split("\n")
        self.verdicts = {it[2]: it[3] for it in map(VERDICT.fullmatch, self.lines) if it}
        # (a message may go on in further lines, which begin with blanks)
        whole = re.sub(r"\n +", " ", text).split("\n")
        self.errors = collections.defaultdict(list)
        for it in filter(None, map(ERROR.match, whole)):
            self.errors[it[1]].append(it[2])
        logic = [it for it in self.lines if it.startswith("logic=")]
        self.told = bool(logic and self.verdicts) and status in (0, 1)
        self.is_proved = self.told and status == 0 and logic[-1].startswith("logic=proved")

    def of(self, name):
        """Returns what it says of a function: what it came to, and the words."""
        words = self.verdicts.get(name, "")
        if words.startswith("proved"):
            return PROVED, words
        if "it calls" in words or "it waits for" in words or not words:
            return WAITS, words
        if words.startswith("no proof: expected answers"):
            return REFUSED, words.split("; ")[-1]
        errors = [it for it in self.errors["/".join(name.split("::")[1:])] if not FOLLOWS.search(it)]
        real = [it for it in errors if not GONE.search(it)]
        return (REFUSED, real[0]) if real else (NAME, errors[0]) if errors else (WAITS, words)

    def of_any(self, names):
        """Returns what it says of the first of these functions that is refused, or else of one that waits, and so on."""
        said = [(*self.of(it), it) for it in sorted(names)]
        return next((it for kind in (REFUSED, NAME, WAITS, PROVED) for it in said if it[0] == kind), (PROVED, "", ""))

    def why(self):
        """Returns the first lines that tell why a check stopped."""
        return " | ".join([it for it in self.lines if "error" in it][:3] or self.lines[-3:])[:400]


class Crate:
    """A crate in the copy: its texts, what its own check proved, and the work that this kept."""

    def __init__(self, name, copy):
        self.name, self.folder, self.kept = name, copy / "crates" / name, copy / "kept"
        files = [it for part in ("src", "specs", "proofs") for it in (self.folder / part).rglob("*.*") if it.is_file()]
        self.texts = {str(it.relative_to(self.folder)): it.read_text(encoding="utf-8") for it in files}
        self.standing, self.checks, self.proved = self.texts, 0, set()

    def check(self):
        """Checks the crate as its files stand; once more where that was killed, most likely for memory."""
        how = {"stdin": subprocess.DEVNULL, "stdout": subprocess.PIPE, "stderr": subprocess.STDOUT, "errors": "replace"}
        for _ in range(2):
            ran = subprocess.run(["rt", "check"], cwd=self.folder, check=False, **how)
            if ran.returncode not in (-signal.SIGKILL, 128 + signal.SIGKILL):
                break
        return Said(ran.returncode, ran.stdout)

    def begin(self):
        """Proves the crate as it stands, and returns what the check said."""
        said = self.check()
        self.proved = {name for name, words in said.verdicts.items() if words.startswith("proved")}
        shutil.rmtree(self.kept, ignore_errors=True)
        shutil.copytree(self.folder / "out", self.kept, symlinks=True)
        return said

    def write(self, texts):
        """Writes what differs of these texts from the crate's as they stand in the copy."""
        for file in texts:
            if texts[file] != self.standing[file]:
                (self.folder / file).write_text(texts[file], encoding="utf-8")
        self.standing = texts

    def tried(self, edits):
        """Returns what a check says of the crate with these edits, and puts back what was there."""
        texts = self.texts
        for edit in edits:
            texts = edit.applied(texts)
        self.write(texts)
        said = self.check()
        self.checks += 1
        self.write(self.texts)
        shutil.rmtree(self.folder / "out")
        shutil.copytree(self.kept, self.folder / "out", symlinks=True)
        return said

    def functions_in(self, edit):
        """Returns the functions that an edit changes, as the check prints them; none where it changes something else."""
        names, texts = set(), self.texts
        for file, old, new in edit.changes:
            text = texts[file]
            found = around(functions_of(self.name, file, text), text.find(old)) if file.endswith(".rt") else None
            named = [it for it in self.proved if found and found.names.fullmatch(it)]
            if not named:
                return frozenset()
            names.update(named)
            texts = {**texts, file: text.replace(old, new)}
        return frozenset(names)

    def control(self, edits):
        """Returns an edit that means the same as before, of the shortest function with a clause that no other edit changes, or else of the
        shortest without one of its own, whose clauses stand in a trait; None where there is none."""
        taken, found = set().union(*(it.functions for it in edits)), []
        for file, source in self.texts.items():
            for it in functions_of(self.name, file, source) if file.endswith(".rt") else ():
                text = source[it.begin:it.end]
                names = {name for name in self.proved if it.names.fullmatch(name)}
                is_own = "ensures" in text
                body = (BODY if is_own else HEAD).search(text)
                if names and not names & taken and body:
                    found.append((not is_own, len(text), file, text, body.end(), body.group(1)))
        if not found:
            return None
        _, _, file, text, at, indent = min(found)
        made = Edit(self.name, CONTROL, [(file, text, f"{text[:at]}{indent}    let _ = ();\n{text[at:]}")])
        made.functions = self.functions_in(made)
        return made


def next_batch(waiting, texts):
    """Returns those of the edits that can be tried together: at most one a function, and each can be applied over the others."""
    batch, taken = [], set()
    for edit in waiting:
        made = edit.applied(texts)
        if made is not None and not edit.functions & taken:
            batch.append(edit)
            texts, taken = made, taken | edit.functions
    return batch


def alone(crate, edit):
    """Returns what an edit comes to by itself, and why."""
    said = crate.tried([edit])
    if said.is_proved:
        return PROVED, "the crate is still proved"
    if not said.told:
        return BAD, f"the check ended with status {said.status}: {said.why()}"
    # (what refuses a constant is a clause of any function)
    for kind in (REFUSED, NAME):
        for names in (edit.functions, crate.proved):
            found, words, name = said.of_any(names)
            if found == kind:
                return kind, f"{name}: {words}"
    return WAITS, said.why()


class Came(dict):
    """What each edit of a crate came to, by its name, and why. What isn't as it has to be is printed as soon as it is known."""

    def __init__(self, crate, says_each):
        super().__init__()
        self.crate, self.says_each = crate, says_each

    def tell(self, name, kind, why):
        self[name] = kind, why
        if self.says_each or kind != (PROVED if name == CONTROL else REFUSED):
            print(f"{self.crate}/{name}: {kind}: {why}", flush=True)


def together(crate, edits, came):
    """Tries edits in batches, and alone where a batch doesn't tell what one came to."""
    queue = collections.deque([it] for it in edits if not it.functions)
    waiting = [it for it in edits if it.functions]
    while waiting or queue:
        batch = next_batch(waiting, crate.texts) if waiting else queue.popleft()
        waiting = [it for it in waiting if it not in batch]
        if len(batch) == 1:
            came.tell(batch[0].name, *alone(crate, batch[0]))
            continue
        said = crate.tried(batch)
        if not said.told:
            half = len(batch) // 2
            queue.extend([batch[:half], batch[half:]])
            continue
        left = []
        for edit in batch:
            kind, words, name = said.of_any(edit.functions)
            if kind in (REFUSED, NAME) or kind == PROVED and edit.name == CONTROL:
                came.tell(edit.name, kind, f"{name}: {words}")
            else:
                left.append((edit, kind))
        masked = [edit for edit, kind in left if kind == WAITS and len(left) < len(batch)]
        waiting += masked
        queue.extend([edit] for edit, _ in left if edit not in masked)


def edits_for(name, wanted, all_rings):
    """Returns the edits of a crate: all of the outer ring or of both, or those that are named."""
    folders = [TOP / "tests" / "edits" / name, *([TOP / "crates" / name / "must-fail"] if all_rings else [])]
    edits = [read_edit(it) for folder in folders for it in sorted(folder.glob("*.edit"))]
    return [it for it in edits if name in wanted or f"{name}/{it.name}" in wanted]


def copied(names, to):
    """Copies what a check of these crates reads, and what earlier checks kept."""
    for file in ("crates.txt", "HANDLES"):
        shutil.copy(TOP / file, to / file)
    for name in names:
        for part in (TOP / "crates" / name).iterdir():
            if part.is_dir() and part.name != "must-fail":
                shutil.copytree(part, to / "crates" / name / part.name, symlinks=True)


def try_crate(crate, edits, count, says_each, is_first):
    """Tries the edits of a crate, prints what is to be said of them, and returns whether all is as it has to be."""
    said = crate.begin()
    if not said.is_proved:
        print(f"{crate.name}: it is not proved as it stands: {said.why()}", flush=True)
        return False
    came = Came(crate.name, says_each)
    fit = [it for it in edits if it.applied(crate.texts) is not None]
    for it in edits:
        if it in fit:
            it.functions = crate.functions_in(it)
        else:
            came.tell(it.name, BAD, "an old text of it doesn't stand in its file once, or nothing is changed")
    control = crate.control(fit)
    together(crate, fit + ([control] if control else []), came)
    if is_first and control and came[CONTROL][0] == PROVED:
        came.tell(CONTROL, *alone(crate, control))
    found_out = came.pop(CONTROL, ("",))[0] == PROVED
    if not found_out:
        print(f"{crate.name}: THE CONTROL WAS NOT FOUND OUT, or there is no function for one", flush=True)
    refused = sum(kind == REFUSED for kind, _ in came.values())
    count.update(tried=len(came), refused=refused, checks=crate.checks)
    return found_out and refused == len(came)


def now():
    """Returns the time of the clock, and that of the processors."""
    spent = resource.getrusage(resource.RUSAGE_CHILDREN)
    return time.monotonic(), spent.ru_utime + spent.ru_stime


def summary(name, count, began):
    """Prints the last line of a crate or of all: what was counted, and the time since it began."""
    wall, processors = (int(after - before) for before, after in zip(began, now()))
    said = f"{count['tried']} tried, {count['refused']} refused, {count['checks']} checks"
    print(f"{name}: {said}, {wall} s, {processors} s of processors", flush=True)


def main():
    words = argparse.ArgumentParser(description="Tries the outer ring of must-fail edits.")
    words.add_argument("names", nargs="*", metavar="CRATE", help="a crate, or CRATE/EDIT; none: every crate")
    words.add_argument("--all-rings", action="store_true", help="try the edits of must-fail/ too")
    words.add_argument("--each", action="store_true", help="print what refused each edit")
    given = words.parse_args()
    crates = re.findall(r"^(\w+)[^:\n#]*:", (TOP / "crates.txt").read_text(encoding="utf-8"), re.M)
    wanted = {name: edits_for(name, given.names or crates, given.all_rings) for name in crates}
    known = {it for name, edits in wanted.items() if edits for it in (name, *(f"{name}/{edit.name}" for edit in edits))}
    if set(given.names) - known:
        words.error(f"there are no such edits: {', '.join(sorted(set(given.names) - known))}")
    is_well, is_first, began, total = True, True, now(), collections.Counter()
    with tempfile.TemporaryDirectory(prefix="edits-") as folder:
        copied(crates, pathlib.Path(folder))
        for name, edits in wanted.items():
            if edits:
                count, start = collections.Counter(), now()
                is_well &= try_crate(Crate(name, pathlib.Path(folder)), edits, count, given.each, is_first)
                summary(name, count, start)
                is_first, total = False, total + count
    summary("all", total, began)
    return 0 if is_well else 1


sys.exit(main())
