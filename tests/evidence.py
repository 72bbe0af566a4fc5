#!/usr/bin/env python3
"""python3 tests/evidence.py [--program FILE]

What `evidence` makes of each document of some stores, against readers of their own: SQLite's library, `hashlib`, `openssl`, and what
tests/verify.py expects of `verify`. The stores are those of tests/migration, migrated, and the same as stores that never were.

Each content and receipt is byte for byte what SQLite reads in the tables; the page says the names, the moments, the integrity checks and
what is found; and the commands on the page, run by a shell beside the files, print those checks and show the receipt's fields. Then
what has to be refused: nothing is made, and nothing of what stood there changes. The status is 1 where something differs.
"""
import argparse
import base64
import email.utils
import hashlib
import os
import pathlib
import sqlite3
import subprocess
import sys
import tempfile

import verify

DIGESTS = (("md5", "md5"), ("sha1", "sha1"), ("sha-256", "sha256"))
SENT = 3  # the code of a receipt that was given


class Differs(Exception):
    """Something isn't as it has to be."""


def need(holds, what):
    if not holds:
        raise Differs(what)


class Evidence:
    """Stores whose documents are proved, one after the other."""

    def __init__(self, program, folder):
        self.stores, self.folder, self.counts = verify.Stores(program, folder), folder, {}

    def run(self, store, *words):
        return subprocess.run([self.stores.program, "--agreements", str(verify.HERE / "migration" / "agreements.toml"), "--store", str(store),
                               "evidence", *words], capture_output=True, check=False, timeout=60)

    def count(self, what):
        self.counts[what] = self.counts.get(what, 0) + 1

    def made(self, store, stem, *words):
        """The files of a document, by their ends, where all that is printed of them is as it has to be."""
        place = pathlib.Path(tempfile.mkdtemp(dir=self.folder))
        ran = self.run(store, *words, "--out", str(place))
        names = sorted(it.name for it in place.iterdir())
        need(ran.returncode == 0 and not ran.stderr, f"{stem}: status {ran.returncode}, {ran.stderr}")
        need(sorted(ran.stdout.decode().splitlines()) == names, f"{stem}: printed {ran.stdout}, made {names}")
        files = {name.removeprefix(stem): (place / name).read_bytes() for name in names}
        again = self.run(store, *words, "--out", str(place))
        need(again.returncode == 1 and again.stderr.startswith(b"refused: CannotWrite\nhint: ") and not again.stdout, f"{stem}: again {again}")
        need({it.name.removeprefix(stem): it.read_bytes() for it in place.iterdir()} == files, f"{stem}: written over")
        return place, files

    def judge_page(self, place, stem, files, content, found):
        """Compares a page with the content, and with what its own commands print."""
        page = files[".txt"].decode("utf-8", "surrogateescape")
        checks = [base64.b64encode(hashlib.new(name, content).digest()).decode() for _, name in DIGESTS]
        for (name, _), check in zip(DIGESTS, checks):
            need(f"\nMIC by {name}: {check}\n" in page, f"{stem}: {name}")
        need(f"\nfound: {found or 'nothing that is kept contradicts itself'}\n" in page, f"{stem}: found")
        commands = [line for line in page.splitlines() if line.startswith("    ")]
        for command, check in zip(commands, checks):
            ran = subprocess.run(command, shell=True, cwd=place, capture_output=True, check=True)
            need(ran.stdout.decode().strip() == check, f"{stem}: {command}")
        need(len(commands) == 3 + (".receipt" in files and stem.startswith("sent")), f"{stem}: {len(commands)} commands")
        for command in commands[3:]:
            ran = subprocess.run(command, shell=True, cwd=place, capture_output=True, check=False)
            need(ran.stdout or "can't be read" in page, f"{stem}: {command}")
        return page

    def judge_sent(self, store, tables):
        """Each document that is sent."""
        contents, found = verify.pieces(tables, "outbox"), dict(it.split(": ", 1) for it in verify.sent_findings(tables))
        kept = {row[0]: row[1:] for row in tables.execute("SELECT number, moment, content_type, body FROM evidence")}
        for number, identifier, moment, detail in tables.execute("SELECT number, identifier, moment, detail FROM outbox ORDER BY number"):
            stem, content = f"sent-{number}", contents.get(number, b"")
            place, files = self.made(store, stem, str(number))
            need(files.get(".content") == content, f"{stem}: content")
            need(files.get(".receipt") == (kept[number][2] if number in kept else None), f"{stem}: receipt")
            page = self.judge_page(place, stem, files, content, found.get(f"sent {number}"))
            need(f"\nidentifier: {identifier.decode()}\n" in page, f"{stem}: identifier")
            need(f" {verify.DETAILS[detail - 1]}\n" in page, f"{stem}: detail")
            need(f"\nsubmitted: {email.utils.formatdate(moment, usegmt=True)}\n" in page, f"{stem}: submitted")
            if number in kept:
                need(f"\ncame: {email.utils.formatdate(kept[number][0], usegmt=True)}\n" in page, f"{stem}: came")
                self.count("sent with a receipt")
            else:
                self.count("sent without one")

    def judge_received(self, store, tables):
        """Each received document."""
        contents, found = verify.pieces(tables, "inbox2"), dict(it.split(": ", 1) for it in verify.received_findings(tables))
        rows = tables.execute("SELECT number, identifier, moment, outcome, mic, mdn FROM inbox2 ORDER BY number")
        for number, identifier, moment, outcome, mic, mdn in rows:
            stem, content = f"received-{number}", contents.get(number, b"")
            place, files = self.made(store, stem, "--received", str(number))
            need(files.get(".content") == content, f"{stem}: content")
            need((".receipt" in files) == (mdn == SENT), f"{stem}: receipt")
            page = self.judge_page(place, stem, files, content, found.get(f"received {number}"))
            need(f"\nidentifier: {identifier.decode()}\n" in page, f"{stem}: identifier")
            need(f"\nreceived: {email.utils.formatdate(moment, usegmt=True)}\n" in page, f"{stem}: received")
            need(("\noutcome: processed\n" in page) == (outcome == verify.PROCESSED), f"{stem}: outcome")
            if mdn == SENT:
                receipt = files[".receipt"]
                need(b"Original-Message-ID: " + identifier in receipt, f"{stem}: of another")
                need(mic is None or b"Received-content-MIC: " + mic in receipt, f"{stem}: another MIC")
                self.count("received with the receipt that was given")
            else:
                self.count("received without one")

    def judge_refused(self, store, tables):
        """What has to be refused: nothing is made, and nothing changes."""
        number, = tables.execute("SELECT CAST(min(number) AS TEXT) FROM outbox").fetchone()
        place = pathlib.Path(tempfile.mkdtemp(dir=self.folder))
        for what, words, line in (("no number", ("999999", "--out", str(place)), b"refused: NoSuchNumber\n"),
                                  ("none received", ("--received", "999999", "--out", str(place)), b"refused: NoSuchNumber\n"),
                                  ("no folder", (number, "--out", str(place / "none")), b"refused: CannotWrite\n"),
                                  ("a file for a folder", (number, "--out", str(store)), b"refused: CannotWrite\n")):
            ran = self.run(store, *words)
            need((ran.returncode, ran.stdout, ran.stderr) == (1, b"", line), f"{what}: {ran}")
            need(not list(place.iterdir()), f"{what}: something was made")
            self.count("refused")
        (place / f"sent-{number}.txt").symlink_to(place / "nowhere")
        ran = self.run(store, number, "--out", str(place))
        need(ran.returncode == 1 and [it.name for it in place.iterdir()] == [f"sent-{number}.txt"], f"a link to nothing: {ran}")
        received, = tables.execute("SELECT CAST(min(number) AS TEXT) FROM inbox2").fetchone()
        ran = subprocess.run(["sh", "-c", 'ulimit -f 0; trap "" XFSZ; exec "$@"', "sh", self.stores.program, "--agreements",
                              str(verify.HERE / "migration" / "agreements.toml"), "--store", str(store), "evidence", "--received", received, "--out", str(place)],
                             capture_output=True, check=False, timeout=60)
        need(ran.returncode != 0 and [it.name for it in place.iterdir()] == [f"sent-{number}.txt"], f"files of no length: {ran}")
        self.count("refused")
        self.count("refused")


def main():
    words = argparse.ArgumentParser(description=__doc__.splitlines()[0])
    words.add_argument("--program", default=str(verify.TOP / "as2desk"))
    given = words.parse_args()
    wrong = 0
    with tempfile.TemporaryDirectory(dir="/dev/shm" if os.access("/dev/shm", os.W_OK) else None) as folder:
        evidence = Evidence(os.path.abspath(given.program), pathlib.Path(folder))
        for which in range(len(evidence.stores.texts)):
            store = evidence.stores.store(which)
            tables = sqlite3.connect(f"file:{store}?mode=ro&immutable=1", uri=True)
            for judge in (lambda: evidence.judge_sent(store, tables), lambda: evidence.judge_received(store, tables), lambda: evidence.judge_refused(store, tables)):
                try:
                    judge()
                except Differs as differs:
                    wrong += 1
                    print(f"WRONG store {which}: {differs}", flush=True)
            tables.close()
        told = ", ".join(f"{count} {what}" for what, count in sorted(evidence.counts.items()))
        print(f"{len(evidence.stores.texts)} stores: {told}; {wrong} differ")
    return 1 if wrong else 0


if __name__ == "__main__":
    sys.exit(main())
