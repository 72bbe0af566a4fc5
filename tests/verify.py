#!/usr/bin/env python3
"""python3 tests/verify.py [--program FILE] [--seed N] [--flips N] [--changes N]

What `verify` says of stores that were changed by another hand, against readers of their own: SQLite's library, `hashlib`, and
the reader of receipts of tests/hostile/readers.py. The stores are those of tests/migration, migrated, and the same as stores that never
were, without sums of their pages.

First `sqlite3` changes a row: a content, a MIC, a receipt, a detail, how something waits, what waits, a counter. Then single bits of the file are
turned over. Each time the lines that `verify` prints are exactly those that are expected of what SQLite reads in the file; or the program
refuses the store, which it may always do; and what the change breaks is found. The status is 1 where something differs.
"""
import argparse
import base64
import hashlib
import itertools
import os
import pathlib
import random
import sqlite3
import subprocess
import sys
import tempfile

HERE = pathlib.Path(__file__).resolve().parent
TOP = HERE.parent
sys.path.insert(0, str(HERE / "hostile"))
import readers  # noqa: E402

# The codes of the tables, from 1, in the order of docs/PROFILE.md.
DETAILS = ["new", "sending", "awaiting", "retry", "processed", "no-receipt-asked", "warning", "no-mic", "unknown-mic", "not-processed",
           "error-modifier", "mic-differs", "tries-used", "overdue"]
BY_RECEIPT = {"processed", "warning", "no-mic", "unknown-mic", "not-processed", "error-modifier", "mic-differs"}
PROCESSED, IDLE = 6, 1
RUNNING, LAST, PENDING = 2, 3, 2
TO_SEND, TO_ANSWER, TO_HEAR, TO_END = 1, 2, 3, 4  # what is waited for
END_OF_NUMBERS = 1_000_000_000_000
DIGESTS = {"sha1": "sha1", "md5": "md5", "sha-256": "sha256"}
NAMED = ("store: NotAStore", "store: Disk", "store: Refused", "store: OtherVersion", "store: Memory")


class Unreadable(Exception):
    """SQLite itself can't read the file."""


def pieces(tables, box):
    """The contents of a box, by number."""
    contents = {}
    for number, content in tables.execute(f"SELECT number, bytes FROM {box}_piece ORDER BY number, position"):
        contents[number] = contents.get(number, b"") + content
    return contents


def received_findings(tables):
    """What is wrong with received documents."""
    contents = pieces(tables, "inbox2")
    for number, outcome, digest, mic in tables.execute("SELECT number, outcome, digest, mic FROM inbox2 ORDER BY number"):
        if outcome == PROCESSED and mic is None:
            yield f"received {number}: no MIC is kept"
        elif outcome != PROCESSED and mic is not None:
            yield f"received {number}: a MIC is kept, though it wasn't processed"
        elif mic is not None and base64.b64encode(hashlib.new(DIGESTS[digest], contents.get(number, b"")).digest()) != mic:
            yield f"received {number}: MIC differs"


def is_late(receipt):
    """Whether the MIC is by SHA-256, which stores of an earlier version didn't know."""
    mics = receipt[2]
    return len(mics) == 1 and mics[0].partition(b",")[2].strip().lower() in (b"sha-256", b"sha256")


def receipt_fault(identifier, detail, content, content_type, body, migrated):
    """What is wrong with the receipt that is kept of a document."""
    receipt = readers.receipt_in(content_type, body)
    if receipt is None:
        return "receipt can't be read"
    if receipt[0] != identifier:
        return "receipt is of another document"
    told = readers.verdict(receipt, content)[2:]
    unknown = readers.verdict((receipt[0], receipt[1], [b"x"]), content)[2:]
    return None if told == detail or migrated and is_late(receipt) and unknown == detail else "receipt says something else"


def sent_findings(tables):
    """What is wrong with documents that are sent."""
    contents = pieces(tables, "outbox")
    migrated = tables.execute("SELECT number FROM origin").fetchone()[0] != 0
    kept = {row[0]: row[1:] for row in tables.execute("SELECT number, content_type, body FROM evidence")}
    for number, identifier, tries, attempt, due, code in tables.execute(
            "SELECT number, identifier_value, tries, attempt, due, detail FROM outbox ORDER BY number"):
        detail, fault = DETAILS[code - 1], None
        if number not in kept:
            fault = "no receipt is kept" if detail in BY_RECEIPT else None
        elif detail not in BY_RECEIPT:
            fault = "a receipt is kept, and its detail is another's"
        elif attempt != IDLE or due is not None:
            fault = "settled, and still waited for"
        else:
            fault = receipt_fault(identifier, detail, contents.get(number, b""), *kept[number], migrated)
        if fault:
            yield f"sent {number}: {fault}"


def kind_of(detail, attempt):
    """What a document waits for."""
    if detail in ("new", "retry"):
        return TO_SEND
    if detail == "awaiting":
        return TO_HEAR
    return {RUNNING: TO_SEND, LAST: TO_END}.get(attempt) if detail == "sending" else None


def wanted_waits(tables):
    """The rows of what waits, by the entries."""
    for number, attempt, due, code in tables.execute("SELECT number, attempt, due, detail FROM outbox"):
        kind = kind_of(DETAILS[code - 1], attempt)
        if kind:
            yield kind * END_OF_NUMBERS + number, kind, number, due
    for number, mdn, attempt, due in tables.execute("SELECT number, mdn, attempt, due FROM inbox2"):
        if mdn == PENDING and attempt in (IDLE, RUNNING):
            yield TO_ANSWER * END_OF_NUMBERS + number, TO_ANSWER, number, due


def discrepancies(tables):
    """What is first told of the counters and of what waits."""
    counters = tables.execute("SELECT next_receipt, next_document FROM meta").fetchone()
    for word, box, counter in (("received", "inbox2", counters[0]), ("sent", "outbox", counters[1])):
        last = tables.execute(f"SELECT max(number) FROM {box}").fetchone()[0]
        if last is not None and last >= counter:
            yield f"{word} {last}: its number isn't below the counter"
            return
    wanted, kept = sorted(wanted_waits(tables)), tables.execute("SELECT place, kind, number, due FROM waiting ORDER BY place").fetchall()
    differ = [pair for pair in itertools.zip_longest(wanted, kept) if pair[0] != pair[1]]
    if differ:
        _, kind, number, _ = min((row for row in differ[0] if row), key=lambda row: row[0])
        yield f"{'received' if kind == TO_ANSWER else 'sent'} {number}: waits otherwise than it should"


def expected(store):
    """The lines that are to be printed of a store, by SQLite's own reading."""
    try:
        with sqlite3.connect(f"file:{store}?mode=ro&immutable=1", uri=True) as tables:
            received, sent = (tables.execute(f"SELECT count(*) FROM {box}").fetchone()[0] for box in ("inbox2", "outbox"))
            found = [*received_findings(tables), *sent_findings(tables), *discrepancies(tables)]
    except (sqlite3.Error, KeyError, IndexError, TypeError, AttributeError, ValueError) as error:
        raise Unreadable(error) from error
    return [*found, f"verified: {received} received, {sent} sent, {len(found)} findings"]


class Stores:
    """Stores to be changed, and what came of all."""

    def __init__(self, program, folder):
        self.program, self.folder, self.counts, self.wrong = program, folder, {}, 0
        self.texts = []
        for version in ("version-1", "version-2"):
            self.texts += self.made(version)

    def run(self, store, command):
        return subprocess.run([self.program, "--agreements", str(HERE / "migration" / "agreements.toml"), "--store", str(store), command],
                              capture_output=True, check=False, timeout=60)

    def made(self, version):
        """The text of a migrated store, and of one that never was."""
        store = self.folder / f"{version}.db"
        fill(store, (HERE / "migration" / f"{version}.sql").read_text(encoding="utf-8"))
        ran = self.run(store, "migrate")
        assert ran.returncode == 0, ran.stderr
        text = subprocess.run(["sqlite3", str(store), ".dump"], capture_output=True, check=True).stdout.decode()
        fresh = self.folder / f"{version}-fresh.db"
        fill(fresh, text)
        with sqlite3.connect(fresh) as tables:
            tables.execute("UPDATE origin SET number = 0")
            judge_anew(tables)
        tables.close()
        return [text, subprocess.run(["sqlite3", str(fresh), ".dump"], capture_output=True, check=True).stdout.decode()]

    def store(self, which):
        """A new store of that text."""
        store = self.folder / "changed.db"
        for file in (store, self.folder / "changed.db-wal"):
            file.unlink(missing_ok=True)
        fill(store, self.texts[which % len(self.texts)])
        return store

    def count(self, what):
        self.counts[what] = self.counts.get(what, 0) + 1

    def differ(self, what, text):
        self.wrong += 1
        print(f"WRONG {what}: {text}", flush=True)

    def judge(self, what, store, breaks=None):
        """Compares what is said of a store with what is expected; `breaks` tells whether something must be found."""
        try:
            wanted = expected(store)
        except Unreadable:
            wanted = None
        ran = self.run(store, "verify")
        printed, said = ran.stdout.decode("utf-8", "replace").splitlines(), ran.stderr.decode("utf-8", "replace").splitlines()
        if ran.returncode == 3 and said and said[0] in NAMED and not printed:
            self.count(f"refused, {said[0][7:]}")
            if breaks is False:
                self.differ(what, f"refused: {said[0]}")
        elif ran.returncode not in (0, 1) or ran.returncode != int(len(printed) > 1):
            self.differ(what, f"status {ran.returncode}, {printed[-1:]}, {said[:1]}")
        elif wanted is not None and printed != wanted:
            self.differ(what, f"wanted {wanted}, printed {printed}")
        else:
            self.count("found" if len(printed) > 1 else "nothing found")
            if breaks is not None and breaks != (len(printed) > 1):
                self.differ(what, f"{len(printed) - 1} findings")
            if wanted is None:
                self.count("read where SQLite reads nothing")


def fill(store, text):
    """Makes a store of its text by SQLite's own program."""
    subprocess.run(["sqlite3", str(store)], input=text.encode(), capture_output=True, check=True)


def judge_anew(tables):
    """Gives documents whose receipts came while SHA-256 wasn't known the details that they have where it is."""
    contents = pieces(tables, "outbox")
    for number, content_type, body in tables.execute("SELECT number, content_type, body FROM evidence").fetchall():
        detail = readers.verdict(readers.receipt_in(content_type, body), contents.get(number, b""))[2:]
        tables.execute("UPDATE outbox SET detail = ? WHERE number = ?", (DETAILS.index(detail) + 1, number))


def some(dice, tables, query):
    """One row of a query, or None where there is none."""
    rows = tables.execute(query).fetchall()
    return dice.choice(rows) if rows else None


def turned(dice, content):
    """The bytes with one bit turned over."""
    at = dice.randrange(len(content))
    return content[:at] + bytes([content[at] ^ 1 << dice.randrange(8)]) + content[at + 1:]


def change(dice, tables, kind):
    """Changes a row by that kind; whether `verify` must find it, or None where it need not."""
    if kind in ("a content", "a document"):
        box = "inbox2" if kind == "a content" else "outbox"
        where = "WHERE number IN (SELECT number FROM inbox2 WHERE mic IS NOT NULL)" if box == "inbox2" else \
            "WHERE number IN (SELECT number FROM outbox WHERE detail IN (5))"
        number, position, content = some(dice, tables, f"SELECT number, position, bytes FROM {box}_piece {where} AND length(bytes) > 0")
        tables.execute(f"UPDATE {box}_piece SET bytes = ? WHERE number = ? AND position = ?", (turned(dice, content), number, position))
        return True
    if kind == "a MIC":
        number, mic = some(dice, tables, "SELECT number, mic FROM inbox2 WHERE mic IS NOT NULL")
        tables.execute("UPDATE inbox2 SET mic = ? WHERE number = ?", (mic[:-2] + (b"B=" if mic[-2:] != b"B=" else b"C="), number))
        return True
    if kind == "a receipt":
        number, body = some(dice, tables, "SELECT number, body FROM evidence WHERE number IN (SELECT number FROM outbox WHERE detail = 5)")
        at = body.lower().index(b"received-content-mic")
        tables.execute("UPDATE evidence SET body = ? WHERE number = ?", (body[:at] + b"X" + body[at + 1:], number))
        return True
    if kind == "a receipt taken away":
        number, = some(dice, tables, "SELECT number FROM evidence")
        tables.execute("DELETE FROM evidence WHERE number = ?", (number,))
        return True
    if kind == "a detail":
        number, code = some(dice, tables, "SELECT number, detail FROM outbox WHERE number IN (SELECT number FROM evidence)")
        tables.execute("UPDATE outbox SET detail = ? WHERE number = ?", (code % 14 + 1, number))
        return None
    if kind == "an outcome":
        number, = some(dice, tables, "SELECT number FROM inbox2 WHERE mic IS NOT NULL")
        tables.execute("UPDATE inbox2 SET outcome = ? WHERE number = ?", (dice.randrange(1, 6), number))
        return True
    if kind == "a settled document waits":
        number, = some(dice, tables, "SELECT number FROM evidence")
        tables.execute("UPDATE outbox SET due = 7 WHERE number = ?", (number,))
        return True
    if kind == "a waiting row":
        place, = some(dice, tables, "SELECT place FROM waiting")
        tables.execute(*dice.choice([("DELETE FROM waiting WHERE place = ?", (place,)),
                                     ("UPDATE waiting SET due = coalesce(due, 0) + 1 WHERE place = ?", (place,)),
                                     ("UPDATE waiting SET kind = 5 - kind WHERE place = ?", (place,)),
                                     ("UPDATE waiting SET place = 4000000000999, number = 999 WHERE place = ?", (place,)),
                                     ("INSERT INTO waiting VALUES (?1 + 1000000, 1, 1000000, 7)", (place,))]))
        return True
    column, box = dice.choice([("next_receipt", "inbox2"), ("next_document", "outbox")])
    tables.execute(f"UPDATE meta SET {column} = (SELECT max(number) FROM {box}) - ?", (dice.randrange(3),))
    return True


KINDS = ("a content", "a document", "a MIC", "a receipt", "a receipt taken away", "a detail", "an outcome", "a settled document waits",
         "a waiting row", "a counter")


def main():
    words = argparse.ArgumentParser(description=__doc__.splitlines()[0])
    words.add_argument("--program", default=str(TOP / "as2desk"))
    words.add_argument("--seed", type=int, default=1)
    words.add_argument("--flips", type=int, default=200)
    words.add_argument("--changes", type=int, default=60)
    given = words.parse_args()
    dice = random.Random(given.seed)
    with tempfile.TemporaryDirectory(dir="/dev/shm" if os.access("/dev/shm", os.W_OK) else None) as folder:
        stores = Stores(os.path.abspath(given.program), pathlib.Path(folder))
        for which in range(len(stores.texts)):
            stores.judge(f"store {which} as it is", stores.store(which), breaks=False)
        for turn in range(given.changes):
            kind, store = KINDS[turn % len(KINDS)], stores.store(turn // len(KINDS))
            tables = sqlite3.connect(store)
            with tables:
                breaks = change(dice, tables, kind)
            tables.close()
            stores.judge(f"change {turn}, {kind}", store, breaks)
        for turn in range(given.flips):
            store = stores.store(turn)
            content = bytearray(store.read_bytes())
            at = dice.randrange(len(content))
            content[at] ^= 1 << dice.randrange(8)
            store.write_bytes(content)
            stores.judge(f"flip {turn}, byte {at}", store)
    told = ", ".join(f"{count} {what}" for what, count in sorted(stores.counts.items()))
    print(f"{len(stores.texts)} stores, {given.changes} changes, {given.flips} bits: {told}; {stores.wrong} differ")
    return 1 if stores.wrong else 0


if __name__ == "__main__":
    sys.exit(main())
