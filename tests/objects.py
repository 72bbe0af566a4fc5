#!/usr/bin/env python3
"""python3 tests/objects.py [--program FILE]

What `list`, `outstanding`, `show` and `verify` print with `--format json`, against `jq` and SQLite's library. The stores are those of
tests/verify.py, one of them with rows that were changed.

`jq` reads each line as an object, and writes the same bytes again with the members in order. Each object says what SQLite reads in the
tables of its entry, and the lines are as many as those for people, in the same order. The status is 1 where something differs.
"""
import argparse
import json
import os
import pathlib
import sqlite3
import subprocess
import sys
import tempfile

import verify

STATES = dict(zip(verify.DETAILS, "PRPRSWWWWEEEEE"))
RECEIPTS = ["none", "pending", "sent"]
MOMENT = "4000"


def need(holds, what):
    if not holds:
        raise AssertionError(what)


def text(cell):
    return cell.decode("ascii") if isinstance(cell, bytes) else cell


class Objects:
    """The commands over a store, for people and for programs."""

    def __init__(self, stores, store):
        self.stores, self.store, self.lines = stores, store, 0
        self.tables = sqlite3.connect(f"file:{store}?mode=ro&immutable=1", uri=True)

    def run(self, *words):
        return subprocess.run([self.stores.program, "--agreements", str(verify.HERE / "migration" / "agreements.toml"), "--store", str(self.store),
                               "--moment", MOMENT, *words], capture_output=True, check=False, timeout=60)

    def objects(self, *words):
        """The objects of a command, as jq reads them, and what is printed for people."""
        ran, plain = self.run(*words, "--format", "json"), self.run(*words)
        need((ran.returncode, ran.stderr) == (plain.returncode, plain.stderr), f"{words}: {ran}, {plain}")
        need(self.run(*words, "--format", "text").stdout == plain.stdout, f"{words}: the text is another")
        again = subprocess.run(["jq", "-cS", "."], input=ran.stdout, capture_output=True, check=True).stdout
        need(again == ran.stdout, f"{words}: jq writes {again}")
        objects = [json.loads(line) for line in ran.stdout.splitlines()]
        self.lines += len(objects)
        return objects, plain.stdout.decode().splitlines()

    def sent(self):
        """What SQLite says of each document that is sent: its object in a listing, and in full."""
        settled = {number: (moment, len(body)) for number, moment, body in self.tables.execute("SELECT number, moment, body FROM evidence")}
        for number, organization, partner, identifier, length, tries, due, code in self.tables.execute(
                "SELECT number, organization, partner, identifier, length, tries, due, detail FROM outbox ORDER BY number"):
            detail = verify.DETAILS[code - 1]
            both = {"box": "out", "detail": detail, "from": text(organization), "identifier": text(identifier), "number": number,
                    "state": STATES[detail], "to": text(partner), "tries": tries}
            receipt = {"length": settled[number][1], "moment": settled[number][0]} if number in settled else None
            yield {**both, "settled": number in settled}, {**both, "due": due, "length": length, "receipt": receipt}

    def received(self):
        """What SQLite says of each document that was received."""
        for number, sender, receiver, identifier, outcome, mdn in self.tables.execute(
                "SELECT number, sender, receiver, identifier, outcome, mdn FROM inbox2 ORDER BY number"):
            yield {"box": "in", "from": text(sender), "identifier": text(identifier), "number": number,
                   "processed": outcome == verify.PROCESSED, "receipt": RECEIPTS[mdn - 1], "to": text(receiver)}

    def compare(self):
        """Compares all that the commands say of the store."""
        sent = list(self.sent())
        objects, lines = self.objects("list", "out")
        need(objects == [row for row, _ in sent] and len(objects) == len(lines), f"list out: {objects}")
        for state in "PRSWE":
            objects, lines = self.objects("list", "out", "--state", state)
            need(objects == [row for row, _ in sent if row["state"] == state] and len(objects) == len(lines), f"list out {state}: {objects}")
        objects, lines = self.objects("list", "in")
        need(objects == list(self.received()) and len(objects) == len(lines), f"list in: {objects}")
        for row, whole in sent:
            objects, lines = self.objects("show", str(row["number"]))
            need(objects == [whole], f"show: {objects}, wanted {whole}")
        objects, lines = self.objects("outstanding")
        counts, due = objects[0], objects[1:]
        need([counts[name] for name in ("documents_not_sent", "documents_in_retry", "receipts_awaited", "documents_in_error", "receipts_to_send")]
             == [int(line.rpartition(" ")[2]) for line in lines[:5]] and len(counts) == 5, f"outstanding: {counts}, {lines[:5]}")
        rows = {row["number"]: row for row, _ in sent}
        need(due == [rows[int(line.split()[0])] for line in lines[5:]], f"outstanding: {due}")
        objects, lines = self.objects("verify")
        words = [f"{'received' if it['box'] == 'in' else 'sent'} {it['number']}: {it['fault']}" for it in objects[:-1]]
        last = objects[-1]
        need([*words, f"verified: {last['received']} received, {last['sent']} sent, {last['findings']} findings"] == lines, f"verify: {objects}")
        need(lines == verify.expected(self.store), f"verify: {lines}")
        need(self.objects("show", "999999999999") == ([], []), "show of no document")


def main():
    words = argparse.ArgumentParser(description=__doc__.splitlines()[0])
    words.add_argument("--program", default=str(verify.TOP / "as2desk"))
    given = words.parse_args()
    wrong = lines = 0
    with tempfile.TemporaryDirectory(dir="/dev/shm" if os.access("/dev/shm", os.W_OK) else None) as folder:
        stores = verify.Stores(os.path.abspath(given.program), pathlib.Path(folder))
        for which in range(len(stores.texts) + 1):
            store = stores.store(which)
            if which == len(stores.texts):
                with sqlite3.connect(store) as tables:
                    tables.execute("UPDATE inbox2 SET mic = NULL, digest = NULL")
                    tables.execute("UPDATE evidence SET body = x'00'")
                tables.close()
            objects = Objects(stores, store)
            try:
                objects.compare()
            except AssertionError as differs:
                wrong += 1
                print(f"WRONG store {which}: {differs}", flush=True)
            objects.tables.close()
            lines += objects.lines
    print(f"{len(stores.texts) + 1} stores, {lines} objects; {wrong} differ")
    return 1 if wrong else 0


if __name__ == "__main__":
    sys.exit(main())
