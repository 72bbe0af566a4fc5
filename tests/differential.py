#!/usr/bin/env python3
"""Compares two kinds of records and the machine on random lists of events: `python3 tests/differential.py [SEED [LISTS]]`.

Each list is played over two stations at once, one with its records in SQLite and one with its records in lists, both in memory. What
they answer to each event and to each read has to be the same, byte by byte, and has to be what the machine of tests/machine/ answers:
an independent program in Python, written from the definitions. The program in tests/differential/ plays the lists; this writes them as
scripts (docs/SCRIPTS.md), each line with the answer of the machine, builds the program in a copy of the crates that it stands on, has it
play the lists, and tells what it found. The files of the program end in .rattle, since `rt ci` refuses a file .rt that belongs to no
crate; in the copy they end in .rt.

Where these crates stand proved in crates/*/out and no source is newer, the program is proved over them and built by `rt run`, and several
processes play the lists side by side. The proof takes about five minutes, and a list one or two milliseconds. The program then stays in
.git/differential, if .git is a folder, and is built anew where `rt` finds that something has changed. Where one of the crates isn't proved,
nor is the program: `rt try` builds it with checks, in a minute or two, and plays the lists one after the other, each in half a second or more.

The list of a seed is always the same. SEED (1 if not given) is the seed of the first list, and each further list has the next one; so
`differential.py 17 1` plays the list of seed 17 alone. LISTS is 10,000 if not given. A list has 5 to 40 events, with reads between
and behind them. Its words are few, so that events meet: posts with and without receipts, repeats, documents and their tries, documents
that are given up and sent anew, receipts that are posted or answered, receipts that are owed, and moments that mostly rise. The reads
show all that is kept of each entry.

    --control   takes one event over SQLite alone: that has to be found out, or the status is 1
    --control machine   the same of a changed machine, whose resends leave the tries that were used
    --answers   tells how often each answer came to each event, over SQLite alone
    --resends   tells what came of resends by the machine, and runs nothing; a whole run tells it too
    --write     prints the lists, and runs nothing
    --jobs N    how many processes play the lists of a proved program; if not given, one a processor, and at most 4

The last line says how many lists and lines were compared, how many lists differ, and how long it took. The first ten of these are
told with their seed. The status is 1 where a list differs, or where the program didn't get to the end."""
import argparse
import base64
import collections
import concurrent.futures
import dataclasses
import hashlib
import os
import pathlib
import random
import re
import shutil
import subprocess
import sys
import tempfile
import time

TOP = pathlib.Path(__file__).resolve().parent.parent
sys.path[:0] = [str(TOP / "tools"), str(TOP / "tests" / "machine")]
sys.dont_write_bytecode = True
import build  # tools/build.py: which crates stand on which, and whether they are proved
import lists as machine_lists  # tests/machine: plays a list over the machine
import machine

PROGRAM = "differential"
DATA = TOP / "crates" / "as2_script" / "data"
TEXTS = ["plain.texts", "station.texts", "alone.texts", "replies.texts"]
USES = (
    "script_lines script_player script_station as2_agreement as2_exchange as2_kept as2_lists as2_mdn as2_mic as2_records as2_station as2_text script_values "
    "sqlite"
)
LISTS_A_FILE = 20
SECONDS = 600
MOST_JOBS = 4

LAST_MOMENT = 253402300799
LAST_NUMBER = 999999999999
# How an event and a field spell the names. The last one of each is in no agreement.
PARTNERS = ["Buyer", "Depot", 'A "B" \\\\ C', "Nobody"]
IN_FIELDS = {'A "B" \\\\ C': '"A \\\\"B\\\\" \\\\\\\\ C"'}
ORGANIZATIONS = ["Supplier", "Maker", "Nobody"]
IDENTIFIERS = ["<m1@x>", "<m2@x>", "<m3@x>", "m1@x"]
# Contents, as a line spells them.
SHORT = {"3": b"aaa", "0": b"", "1": b"a", "abc": b"abc", "abd": b"abd", "b\\x00\\xff\\r\\n": b"b\0\xff\r\n"}
LONG = {"65536": b"a" * 65536, "65537": b"a" * 65537, "70000": b"a" * 70000, "{abc*22000}": b"abc" * 22000}
CONTENTS = SHORT | LONG
TOO_LONG = "1048577"
# The MIC of the text `receipt`.
RECEIPT_MIC = "kAFQmDzST7DWlj99KOF/cg=="
LATER = "Receipt-Delivery-Option: http://127.0.0.1:8082/mdn"
# What a post asks for, behind its names, identifier and content; the more common ones stand more often.
ASKS = [
    "", "", "", LATER, LATER, LATER, LATER,
    "Disposition-Notification-To:",
    "Receipt-Delivery-Option: http://127.0.0.1:8082/",
    "Receipt-Delivery-Option: later",
    "Disposition-Notification-Options:",
    "Disposition-Notification-Options: signed-receipt-micalg=optional, md5",
    "Disposition-Notification-Options: signed-receipt-micalg=optional, sha-256, sha1",
    "Disposition-Notification-Options: signed-receipt-micalg=required, sha-384",
    "Disposition-Notification-Options: signed-receipt-micalg=optional, sha-384",
    "Disposition-Notification-To: | Content-Encoding: gzip",
]
OTHERS = [
    "Content-Type: text/plain", "Content-Type:", "Content-Type: application/pkcs7-mime", "Content-Encoding: gzip",
    "AS2-Version: 2.0", "Message-ID:", f"{LATER} | Content-Type: application/pkcs7-mime", "AS2-From:", 'AS2-From: "Buyer',
    'AS2-From: "Buyer"', "Content-Type: text", "Content-Type: text/plain; name=", 'Content-Type: text/plain; name="a;\\\\"b"',
    "Content-Type: application/pkcs7-mime; smime-type=compressed-data", "Content-Type: multipart/signed; boundary=b",
    "Disposition-Notification-Options: signed-receipt-protocol=required, pkcs7-signature", "Disposition-Notification-Options: x",
    "Disposition-Notification-Options: signed-receipt-micalg=optional", "Content-Transfer-Encoding: 8BIT",
    "Disposition-Notification-Options: signed-receipt-micalg=maybe, md5", "Content-Type: text/plain; a b=c", f"{LATER} | {LATER}",
]
# What is changed in a receipt, beside the number and the MIC of its document.
CHANGES = [
    "; processed\\r\\n -> ; processed/warning: x\\r\\n",
    "; processed\\r\\n -> ; processed/error: x\\r\\n",
    "; processed\\r\\n -> ; failed/failure: y\\r\\n",
    "Received-content-MIC -> X-MIC",
    ", md5 -> , sha-999",
    "@station.example> -> @other.example>",
    "--as2-mdn-7-- -> --",
    "automatic-action/MDN-sent-automatically; -> MANUAL-ACTION / mdn-sent-manually;",
    "MDN-sent-automatically -> MDN-sent",
    "Original-Message-ID -> X-ID",
    "Disposition: -> Disposition: x\\r\\nDisposition:",
    "message/disposition-notification\\r\\n -> message/disposition-notification\\r\\nContent-Transfer-Encoding: base64\\r\\n",
    "message/disposition-notification -> text/plain",
    "\\r\\n -> \\n",
]
STATUSES = [200, 200, 200, 200, 202, 199, 299, 404, 500]
AGREEMENTS = ["without-supplier", "without-buyer", "without-depot"]


def in_field(name):
    """Returns how a field spells a name."""
    return IN_FIELDS.get(name, name)


class Writer:
    """Writes a list. It keeps what it needs to hit upon numbers that are given, and guesses these; a wrong guess does no harm."""

    def __init__(self, seed):
        self.random = random.Random(seed)
        self.first = self.random.choice([1] * 16 + [7, 7, LAST_NUMBER - 1, LAST_NUMBER])
        self.now = self.random.choice([1000] * 10 + [0, LAST_MOMENT - 100])
        self.lines = []
        # Lines of posts, keys of received documents, numbers of owed receipts, documents with partner and content, and begun ones.
        self.posts, self.keys, self.owed, self.documents, self.begun, self.begun_owed = [], [], [], [], [], []
        self.is_agreed = True
        # What is still to come of a document that is given up.
        self.steps = []
        # How seldom a content is long: under `rt try` the records in SQLite take a second for one.
        self.seldom = self.random.choice([10] + [200] * 9)

    def one_in(self, count):
        return self.random.randrange(count) == 0

    def moment(self):
        """Returns the moment of an event, which mostly isn't before the last one."""
        if self.one_in(25):
            return self.random.choice([0, LAST_MOMENT, self.random.randint(0, min(self.now + 100, LAST_MOMENT))])
        steps = [0, 0, 0, 0, 1, 5, 29, 30, 30, 31, 60, 60, 61, -1, -30]
        self.now = max(0, min(LAST_MOMENT, self.now + self.random.choice(steps)))
        return self.now

    def content(self):
        return self.random.choice(list(LONG if self.one_in(self.seldom) else SHORT))

    def any_of(self, names):
        """Returns a name; seldom the last, which is unknown, and the first more often than the others."""
        if self.one_in(20):
            return names[-1]
        return self.random.choice([names[0], *names[:-1]])

    def number(self, given, count):
        """Returns a number: one of those, or else one of so many from the first on, or one that isn't given."""
        if given and not self.one_in(8):
            return self.random.choice(given[-4:])
        if count and not self.one_in(8):
            return self.first + self.random.randrange(count)
        return self.random.choice([0, self.first - 1, self.first, self.first + count, 7, LAST_NUMBER, LAST_NUMBER + 1, 2**64 - 1])

    def event(self, text):
        self.lines.append(f"{self.moment()} {text}")

    def new_post(self):
        """Returns a post: its partner, its organization, its identifier, its content and what it asks for."""
        asks = self.random.choice(OTHERS if self.one_in(10) else ASKS)
        return [self.any_of(PARTNERS), self.any_of(ORGANIZATIONS), self.random.choice(IDENTIFIERS), self.content(), asks]

    def post(self):
        """Adds a post: a new one, or an earlier one again, perhaps with a change."""
        post = self.new_post()
        if self.posts and self.one_in(2):
            other, post = post, list(self.random.choice(self.posts))
            if self.one_in(3):
                at = self.random.randrange(len(post))
                post[at] = other[at]
        self.posts.append(post)
        partner, organization, identifier, content, asks = post
        fields = [f"AS2-From: {in_field(partner)}", f"AS2-To: {organization}", f"Message-ID: {identifier}"]
        asked = [asks] if asks else []
        names = [it.split(":")[0] for part in asked for it in part.split(" | ")]
        fields = [it for it in fields if it.split(":")[0] not in names]
        self.event(" | ".join(["post", content, *fields, *asked]))
        key = partner, organization, identifier.strip("<>")
        is_refused = not self.is_agreed or "Nobody" in key or "later" in asks or {"AS2-Version", "Message-ID", "AS2-From"} & set(names)
        if key not in self.keys and not is_refused:
            self.keys.append(key)
            if LATER in asks:
                self.owed.append(self.first + len(self.keys) - 1)

    def submit(self):
        organization, partner, content = self.any_of(ORGANIZATIONS), self.any_of(PARTNERS), self.content()
        if self.one_in(100):
            content = TOO_LONG
        self.event(f"submit | {organization} | {partner} | {content}")
        if "Nobody" not in (organization, partner) and content != TOO_LONG and self.is_agreed:
            self.documents.append((organization, partner, content))

    def begin(self):
        number = self.number([self.first + at for at in range(len(self.documents))], len(self.documents))
        self.event(f"begin {number}")
        if 0 <= number - self.first < len(self.documents):
            self.begun.append(number)

    def receipt_of(self, number):
        """Returns a receipt for the document of that number, as an event brings it: for the most part one that confirms it."""
        at = number - self.first
        organization, partner, content = self.documents[at] if 0 <= at < len(self.documents) else ("Supplier", "Buyer", "3")
        name, digest = self.random.choice([("md5", "md5")] * 3 + [("sha-256", "sha256")])
        mic = base64.b64encode(hashlib.new(digest, CONTENTS[content]).digest()).decode()
        if self.one_in(8):
            partner = self.random.choice(PARTNERS)
        if self.one_in(8):
            number = self.number([], len(self.documents))
        mic = self.random.choice([mic] * 6 + [RECEIPT_MIC])
        changes = [self.random.choice(CHANGES)] if self.one_in(3) else []
        changes += [f"{RECEIPT_MIC} -> {mic}", f", md5 -> , {name}", f"<out-1@ -> <out-{number}@"]
        fields = [f"AS2-From: {in_field(partner)}", f"AS2-To: {organization}"]
        return " | ".join(["receipt", *fields, *changes])

    def outcome(self):
        number = self.number(self.begun, len(self.documents))
        if self.one_in(4):
            return self.event(f"unanswered {number}")
        body = self.receipt_of(number) if not self.one_in(3) else self.random.choice(["empty", "empty", "abc", "0", self.content()])
        self.event(f"reply {number} {self.random.choice(STATUSES)} | {body}")

    def resend(self):
        self.event(f"resend {self.number(self.begun, len(self.documents))}")

    def give_up(self):
        """Has a document be given up and sent anew, in steps that stand among the other events: what is still to come of it, in order."""
        number = self.number([self.first + len(self.documents) - 1], len(self.documents))
        failed = [f"begin {number}", f"unanswered {number}", f"begin {number}", self.random.choice([f"unanswered {number}", "tick"])]
        overdue = [f"begin {number}", f"reply {number} 200 | empty", "tick"]
        receipt = self.receipt_of(number)
        behind = [f"post | {receipt}", f"post | {receipt}", f"begin {number}", f"reply {number} 200 | {receipt}", f"resend {number}", "tick"]
        self.steps = [*self.random.choice([failed, failed, overdue]), f"resend {number}", *self.random.sample(behind, 2)]
        self.begun.append(number)

    def go_on(self):
        """Adds the next step of the document that is given up, mostly when that is due."""
        self.now = min(LAST_MOMENT, self.now + self.random.choice([30, 60, 60, 61, 90]))
        self.lines.append(f"{self.now} {self.steps.pop(0)}")

    def begin_owed(self):
        number = self.number(self.owed, len(self.keys))
        self.event(f"begin-mdn {number}")
        if number in self.owed:
            self.begun_owed.append(number)

    def outcome_owed(self):
        number = self.number(self.begun_owed, len(self.keys))
        if self.one_in(3):
            return self.event(f"unanswered-mdn {number}")
        self.event(f"reply-mdn {number} {self.random.choice(STATUSES)} | {self.random.choice(['bare', 'empty', '3', 'receipt'])}")

    def posted_receipt(self):
        self.event(f"post | {self.receipt_of(self.number(self.begun, len(self.documents)))}")

    def tick(self):
        self.now = min(LAST_MOMENT, self.now + self.random.choice([0, 30, 60, 90]))
        self.event("tick")

    def agree(self):
        """Has what comes be under other agreements, or under the first ones again."""
        self.is_agreed = not self.is_agreed
        self.lines.append("under {%s}" % ("agreements" if self.is_agreed else self.random.choice(AGREEMENTS)))

    def add_event(self):
        kinds = {
            self.post: 20,
            self.submit: 16,
            self.begin: 20 if self.documents else 2,
            self.outcome: 20 if self.begun else 2,
            self.resend: 10 if self.begun else 1,
            self.give_up: 16 if self.documents and not self.steps else 0,
            self.go_on: 80 if self.steps else 0,
            self.begin_owed: 14 if self.owed else 1,
            self.outcome_owed: 14 if self.begun_owed else 1,
            self.posted_receipt: 10 if self.begun else 2,
            self.tick: 8,
            self.agree: 1 if self.is_agreed else 20,
        }
        self.random.choices(list(kinds), list(kinds.values()))[0]()

    def read(self):
        moment = self.random.choice([self.now, self.now, self.moment()])
        words = [
            f"next {moment}", f"outstanding {moment}", "list in", "list out", f"list out {self.random.choice('PRSWE')}",
            f"show {self.number([], len(self.documents))}", f"fetch {self.number([], len(self.keys))}", "numbers",
            f"document {self.number([], len(self.documents))}", f"received {self.number([], len(self.keys))}",
        ]
        self.lines.append(self.random.choice(words))

    def read_all(self):
        for moment in (0, self.now, LAST_MOMENT):
            self.lines += [f"next {moment}", f"outstanding {moment}"]
        self.lines += ["list in", "list out", *(f"list out {letter}" for letter in "PRSWE"), "numbers"]
        for words, count in (("show document", len(self.documents)), ("fetch received", len(self.keys))):
            self.lines += [f"{word} {self.first + at}" for word in words.split() for at in range(count + 1)]

    def write(self):
        """Writes the list, and returns its lines."""
        if self.first != 1:
            self.lines.append(f"text first {self.first}")
        for _ in range(self.random.randint(5, 40)):
            self.add_event()
            if self.one_in(4):
                self.read()
        self.read_all()
        return self.lines


def is_played(line):
    """Whether a line is answered."""
    return not line.startswith(("text ", "under "))


def is_event(line):
    return line[0].isdigit()


def texts():
    """Returns the texts that all lists use."""
    read = machine_lists.Texts()
    for name in TEXTS:
        read.read(DATA / name)
    return read


class List:
    """A list of a seed: its lines, each without an answer unless it is taken by SQLite alone."""

    SHARED = texts()

    def __init__(self, seed):
        self.seed = seed
        self.lines = Writer(seed).write()
        self.step, self.resends = machine.step, collections.Counter()

    def spoiled(self):
        """Has SQLite alone take in a document before all else."""
        begins = next(at for at, line in enumerate(self.lines) if is_event(line))
        self.lines.insert(begins, f"alone 1000 submit | Supplier | Buyer | 3 => submitted {self.first()}")

    def told_alone(self):
        """Has SQLite alone take each event, and tell its answer."""
        events = [f"alone {it} => ?" for it in self.lines if is_event(it)]
        self.lines = [*(it for it in self.lines if it.startswith("text ")), *events]

    def first(self):
        return self.lines[0].split()[-1] if self.lines[0].startswith("text first") else "1"

    def rows(self):
        return sum(map(is_played, self.lines))

    def answered(self):
        """Gives the lines as a script has them, each that is played with the answer of the machine."""
        played = machine_lists.Played(self.SHARED, self.step)
        for line in self.lines:
            answer = None if line.startswith("alone ") else played.answer(line)
            yield line if answer is None else f"{line} =>{' ' if answer else ''}{machine_lists.spelled(answer)}"
        self.resends = played.resends

    def text(self):
        return "".join(f"{line}\n" for line in [f"= {self.seed}", *self.answered()])


def without_tries_back(agreements, state, event):
    """A step of the machine, but that a resend leaves the tries that were used."""
    stepped = machine.step(agreements, state, event)
    if not isinstance(event, machine.Resend) or stepped[0] != machine.RESENT:
        return stepped
    resent, before = (machine.document(it, event.number) for it in (stepped[1], state))
    return stepped[0], machine.change_document(stepped[1], dataclasses.replace(resent, tries=before.tries))


def below():
    """Returns the crates that the program stands on, the lowest first."""
    uses = build.crates_of(TOP / "crates.txt")
    uses[PROGRAM] = [it for it in USES.split() if it in uses]
    return build.below(PROGRAM, uses)


def are_proved(crates):
    """Whether all of these stand proved in their folders out/, and no source is newer."""
    uses = build.crates_of(TOP / "crates.txt")
    return all(build.Task(it, uses, "").is_done() for it in crates)


def copied(folder, crates, parts):
    """Copies these parts of the crates, and the program, with a crates.txt of these alone."""
    shutil.copy(TOP / "HANDLES", folder / "HANDLES")
    for crate in crates:
        for part in parts:
            if (TOP / "crates" / crate / part).is_dir():
                build.link_tree(TOP / "crates" / crate / part, folder / "crates" / crate / part)
    source = folder / "crates" / PROGRAM / "src"
    source.mkdir(parents=True)
    for file in (TOP / "tests" / "differential").glob("*.rattle"):
        shutil.copy(file, source / f"{file.stem}.rt")
    listed = (TOP / "crates.txt").read_text(encoding="utf-8").splitlines(keepends=True)
    some = [it for it in listed if it.partition(":")[0].strip() in crates]
    (folder / "crates.txt").write_text("".join([*some, f"{PROGRAM}: {USES}\n"]), encoding="utf-8")


def files_of(lists):
    """Returns the lists of each file, by its name."""
    return {f"{at:05}": lists[at:at + LISTS_A_FILE] for at in range(0, len(lists), LISTS_A_FILE)}


def run_of(words, folder, **how):
    """Runs a command in a folder without input, and returns what came of it, with what it wrote."""
    how |= {"stdin": subprocess.DEVNULL, "capture_output": True, "text": True, "errors": "replace", "check": False}
    return subprocess.run(words, cwd=folder, **how)


def built(place, jobs):
    """Proves and builds the program, unless it was kept and `rt` finds nothing changed, and returns whether it stands."""
    made, git = place / "out", TOP / ".git"
    if (git / PROGRAM).is_dir():
        shutil.copytree(git / PROGRAM, made)
    run = run_of(["rt", "run", "--jobs", str(jobs)], place)
    if run.returncode != 0:
        print(f"rt run: status {run.returncode}: {(run.stdout + run.stderr)[-2000:]}", flush=True)
        return False
    if git.is_dir():
        shutil.copytree(made, git / PROGRAM, ignore=shutil.ignore_patterns("incremental", "*.o"), dirs_exist_ok=True)
    return True


def by_proved(folder, files, jobs):
    """Builds the program, and gives what it prints of each file in lists/ that it plays to the end, each in a process of its own."""
    place = folder / "crates" / PROGRAM
    if not built(place, jobs):
        return
    for name in TEXTS:
        shutil.copy(DATA / name, folder / "lists" / name)

    def play(name):
        try:
            run = run_of([place / "out" / PROGRAM, *TEXTS, name], folder / "lists", timeout=SECONDS)
        except subprocess.TimeoutExpired:
            return "", f"no end in {SECONDS} s"
        return run.stdout, f"status {run.returncode}: {run.stderr[-2000:]}"

    with concurrent.futures.ThreadPoolExecutor(jobs) as pool:
        for name, (printed, ended) in zip(files, pool.map(play, files)):
            if re.search("^all: ", printed, re.M):
                yield name, printed
            else:
                print(f"the lists from {files[name][0].seed} on were not played to the end: {ended}", flush=True)


def by_tried(folder):
    """Builds the program with checks and unproved, and gives what it prints of each file in lists/, as soon as it is played to the end."""
    words = ["rt", "try", "--seconds", str(SECONDS), "--cases", str(folder / "lists")]
    for name in TEXTS:
        words += ["--data", f"{name}={DATA / name}"]
    with tempfile.TemporaryFile("w+", errors="replace") as said:
        how = {"cwd": folder / "crates" / PROGRAM, "stdout": subprocess.PIPE, "stderr": said, "text": True, "errors": "replace"}
        with subprocess.Popen([*words, "--", *TEXTS, "{}"], **how) as run:
            printed = ""
            for line in run.stdout:
                if line.startswith("== "):
                    name, printed = line.split()[1], ""
                printed += line
                if line.startswith("all: "):
                    yield name, printed
        said.seek(0)
        if run.returncode != 0:
            print(f"rt try: status {run.returncode}: {said.read()[-2000:]}", flush=True)


def printed_of(files, jobs):
    """Plays the files, each by a run of its own, and gives what was printed of each that was played to the end."""
    with tempfile.TemporaryDirectory(prefix="differential-") as name:
        folder, crates = pathlib.Path(name), below()
        (folder / "lists").mkdir()
        for name, some in files.items():
            (folder / "lists" / name).write_text("".join(it.text() for it in some), encoding="utf-8")
        if are_proved(crates):
            copied(folder, crates, [*build.PARTS, "out/rlib"])
            yield from by_proved(folder, files, jobs)
        else:
            copied(folder, crates, build.PARTS)
            yield from by_tried(folder)


def differing(some, printed):
    """Returns the lists of a file that differ, each with its lines that do, and what was told of them."""
    lines = [(it, line) for it in some for line in [it.seed, *it.lines]]
    found = {}
    for number, told in re.findall(r"^[^\s:]*:(\d+): (.*)", printed, re.M):
        it, line = lines[int(number) - 1]
        found.setdefault(it, []).append(f"{line.split(' => ', 1)[0]}: {told}")
    return found


class Found(dict):
    """The lists that differ, each with its lines that do, and how many lists and lines were compared."""

    def __init__(self, lists, jobs, tells=False):
        super().__init__()
        self.lists, self.lines, self.wanted, began = 0, 0, len(lists), time.monotonic()
        files = files_of(lists)
        for name, printed in printed_of(files, jobs):
            rows = sum(it.rows() for it in files[name])
            if int(re.search(r"^all: (\d+) rows", printed, re.M)[1]) != rows:
                print(f"the lists from {files[name][0].seed} on were not read as they are written", flush=True)
                continue
            found = differing(files[name], printed)
            self.lists, self.lines = self.lists + len(files[name]), self.lines + rows
            for it in list(found)[:max(0, 10 - len(self))] if tells else ():
                print(f"the list of seed {it.seed} differs in {len(found[it])} lines, first in {found[it][0][:1000]}", flush=True)
            self.update(found)
            if tells and self.lists % 500 == 0 and self.lists < self.wanted:
                print(self.summary(began), flush=True)
        if tells:
            print(self.summary(began), flush=True)

    def summary(self, began):
        return f"{self.lists} of {self.wanted} lists, {self.lines} lines compared, {len(self)} differ, {int(time.monotonic() - began)} s"

    def is_whole(self):
        """Whether all lists were played."""
        return self.lists == self.wanted


def kind_of(line):
    """Returns what an event is, and what came of it, in few words."""
    event, answer = line.split(": wanted ?, answered ", 1)
    name = event.split()[2]
    if name == "post" and " | receipt | " in event:
        name = "post of a receipt"
    answer = re.sub(r"^(job|200 report|submitted|ticked (?!0)).*", r"\1", answer)
    return f"{name}: {answer}"


def answers(lists, jobs):
    """Tells how often each answer came to each event, and returns 0 if all lists were played."""
    for it in lists:
        it.told_alone()
    found = Found(lists, jobs)
    kinds = collections.Counter(kind_of(line) for lines in found.values() for line in lines)
    for kind, count in sorted(kinds.items()):
        print(f"{count:7} {kind[:150]}")
    return 0 if found.is_whole() else 1


def has_resent(it):
    """Whether the machine grants a resend in a list."""
    collections.deque(it.answered(), 0)
    return it.resends["resent"] > 0


def changed_lists(what):
    """Returns three lists, the second of which is spoiled or, of the kind `machine`, answered by a changed machine."""
    if what == "store":
        lists = [List(seed) for seed in (1, 2, 3)]
        lists[1].spoiled()
        return lists
    kinds = {is_granted: [it for it in map(List, range(1, 100)) if has_resent(it) is is_granted] for is_granted in (True, False)}
    kinds[True][0].step = without_tries_back
    return [kinds[False][0], kinds[True][0], kinds[False][1]]


def control(what, jobs):
    """Changes the second of three lists, and returns 0 if that one alone is found."""
    lists = changed_lists(what)
    found = Found(lists, jobs)
    is_well = found.is_whole() and list(found) == [lists[1]]
    print("the control was found out" if is_well else "THE CONTROL WAS NOT FOUND OUT", flush=True)
    return 0 if is_well else 1


def tell_resends(lists):
    """Tells what came of resends, by the machine."""
    for what, count in sorted(sum((it.resends for it in lists), collections.Counter()).items()):
        print(f"resends: {count:7} {what}", flush=True)


def compare(lists, jobs):
    """Compares on these lists, tells what differs, and returns 0 if nothing does."""
    found = Found(lists, jobs, tells=True)
    tell_resends(lists)
    return 0 if found.is_whole() and not found else 1


def main():
    words = argparse.ArgumentParser(description="Compares two kinds of records and the machine on random lists of events.")
    words.add_argument("seed", nargs="?", type=int, default=1, metavar="SEED", help="the seed of the first list")
    words.add_argument("lists", nargs="?", type=int, default=10000, metavar="LISTS", help="how many lists")
    kinds = {"nargs": "?", "const": "store", "choices": ["store", "machine"]}
    words.add_argument("--control", **kinds, help="spoil a list, or change the machine, which has to be found out")
    words.add_argument("--answers", action="store_true", help="tell how often each answer came")
    words.add_argument("--resends", action="store_true", help="tell what came of resends, and run nothing")
    words.add_argument("--write", action="store_true", help="print the lists, and run nothing")
    jobs = min(MOST_JOBS, len(os.sched_getaffinity(0)))
    words.add_argument("--jobs", type=int, default=jobs, metavar="N", help="how many processes play the lists of a proved program")
    given = words.parse_args()
    if given.jobs < 1:
        words.error("--jobs: at least 1")
    if given.control:
        return control(given.control, given.jobs)
    lists = [List(seed) for seed in range(given.seed, given.seed + given.lists)]
    if given.write:
        sys.stdout.write("".join(it.text() for it in lists))
        return 0
    if given.resends:
        collections.deque(map(has_resent, lists), 0)
        tell_resends(lists)
        return 0
    return answers(lists, given.jobs) if given.answers else compare(lists, given.jobs)


sys.exit(main())
