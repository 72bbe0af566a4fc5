"""What as2desk does where memory is refused: each allocation of a command is refused in turn, until a run has none refused.

    python3 tests/hostile/memory.py [--program FILE] [--jobs N] [--row NAME] [--control]

The rows are those that the station's request names, as commands over a store in a file: posts, documents that are handed in and sent, their
receipts, a moment that passes, agreements with a fault; and the commands that read, and `resend`. A library that stands before the C library's `malloc` (refuse.c) refuses one allocation, and for each tenth that one and all behind it. Of each run it is looked at that
- it ends by itself, and what isn't the row's own is told as want of memory (`Memory`, 503, a try without an answer), and as nothing else;
- each reply, and the store, are those of the row without the posts that were answered by 503, and of no others; what was cut off by the end
  may be in the store or not;
- a command that did not do its work left the tables as they were, or, of `send`, as a try that began or failed leaves them;
- behind a `send` another one with memory comes to the row's own end.

A line for each row has its counts. `--control` takes a post that is recorded for one that isn't, which has to be found out. The status is 1 where
something differs. It takes some forty processor minutes: a command over a store makes some ten thousand allocations, most of them to open it.
"""
import argparse
import concurrent.futures
import contextlib
import os
import pathlib
import random
import re
import shutil
import sqlite3
import subprocess
import sys
import threading

import expected
import mutations
from mutations import answer_of, content_of, receipt_post
from station import PATIENCE, STARTER, Desk, Differences, post_of, room

HERE = pathlib.Path(__file__).resolve().parent
ORDER = ("runs", "with the row's own answer", "answered by 503", "refused for want of memory", "tries without an answer", "cut off")
WANT = re.compile(rb"^(?:[a-z]+: Memory|connection: Memory|Error: .*[Mm]emory.*|.*out of memory.*)$", re.MULTILINE)
MOST = 1_000_000


def library(folder):
    """The library that refuses memory, built."""
    built = os.path.join(folder, "refuse.so")
    subprocess.run(["cc", "-O1", "-shared", "-fPIC", "-fno-builtin", "-o", built, str(HERE / "refuse.c")], check=True)
    return built


def tables(path):
    """All rows of all tables of a store, in some order of their own."""
    if not os.path.exists(path):
        return None
    with contextlib.closing(sqlite3.connect(f"file:{path}?immutable=1", uri=True)) as store:
        names = [name for (name,) in store.execute("SELECT name FROM sqlite_schema WHERE type = 'table' ORDER BY name")]
        return {name: sorted(store.execute(f"SELECT * FROM {name}").fetchall(), key=repr) for name in names}


OUT = "OUT"  # stands for the folder of a run's own


class Partner(mutations.Partner):
    """A partner that gives each document a good receipt, and takes each receipt."""

    def answer_to(self, text):
        found = re.search(rb"\r\nMessage-ID: <out-(\d+)@", text)
        return answer_of(int(found.group(1)), random.Random(1)) if found else b"HTTP/1.1 200 OK\r\nContent-Length: 0\r\n\r\n"


class Row:
    """A command over a store that earlier commands made."""

    def __init__(self, name, command, text=b"", before=(), moment=1000):
        self.name, self.command, self.text, self.before, self.moment = name, command, text, before, moment


def rows(partner):
    """The rows, by the names that the station's request gives them, and then those of the other commands."""
    submit = (("submit", "--from", "Supplier", "--to", "Buyer", "document"), b"", 1000)
    send, again = (("send", "--timeout", "5"), b"", 1000), (("send", "--timeout", "5"), b"", 1030)
    post, nobody = (("post",), post_of(b"m1"), 1000), (("change", "Buyer", "127.0.0.1:1"), b"", 0)
    awaited = [(("submit", "--from", "Supplier", "--to", "Depot", "document"), b"", 1000), send]
    later = post_of(b"m1").replace(b"Content-Length", b"Receipt-Delivery-Option: http://%s/mdn\r\nContent-Length" % partner.encode(), 1)
    receipt = receipt_post(1, random.Random(1))
    foreign = receipt.replace(b"AS2-From: Buyer", b"AS2-From: Depot")
    yield Row("plain_post", ("post",), post_of(b"m1"))
    yield Row("plain_post, in a store with an entry", ("post",), post_of(b"m2"), [post])
    yield Row("bad_names", ("post",), post_of(b"m1").replace(b"AS2-From: Buyer\r\n", b""))
    yield Row("repeat_and_conflict", ("post",), post_of(b"m1") + post_of(b"m1") + post_of(b"m1", b"abd") + post_of(b"m2"))
    yield Row("send_and_settle, handed in", *submit[:1])
    yield Row("send_and_settle", *send[:1], before=[submit])
    yield Row("awaited_then_overdue", ("tick",), before=awaited, moment=1060)
    yield Row("foreign_receipt", ("post",), foreign, [submit, nobody, send])
    yield Row("foreign_receipt, and then the partner's", ("post",), foreign + receipt, [submit, nobody, send])
    for fault in FAULTS:
        yield Row(f"agreement_faults, {fault}", ("check",), before=[((fault,), b"", 0)])
    yield Row("receipt_job, asked for", ("post",), later)
    yield Row("receipt_job", *send[:1], before=[(("post",), later, 1000)])
    for command in (("list", "in"), ("fetch", "1")):
        yield Row(" ".join(command), command, before=[post])
    for command in (("list", "out"), ("show", "1"), ("outstanding",)):
        yield Row(" ".join(command), command, before=[submit, send])
    for command in (("list", "out"), ("show", "1"), ("outstanding",)):
        yield Row(" ".join(command) + " in objects", (*command, "--format", "json"), before=[submit, send])
    yield Row("verify", ("verify",), before=[post, submit, send])
    yield Row("verify in objects", ("verify", "--format", "json"), before=[post, submit, send])
    yield Row("evidence", ("evidence", "1", "--out", OUT), before=[post, submit, send])
    yield Row("evidence --received", ("evidence", "--received", "1", "--out", OUT), before=[post, submit, send])
    yield Row("resend", ("resend", "1"), before=[submit, nobody, send, again], moment=2000)


# agreements with a fault, by what is changed in the example
FAULTS = {"no domain": ('domain = "station.example"\n', ""), "a name taken twice": ('name = "Depot"', 'name = "Buyer"'),
          "another word": ('receipt = "async"', 'receipt = "later"'), "no TOML": ("[[partner]]", "[[partner"), "no tries": ("max_tries = 2", "max_tries = 0")}


def change(desk, old, new):
    """Changes the agreements once."""
    with open(desk.path("agreements.toml"), encoding="utf-8") as file:
        text = file.read()
    with open(desk.path("agreements.toml"), "w", encoding="utf-8") as to:
        to.write(text.replace(old, new, 1))


class Played:
    """What a run came to: its status, what it wrote, how many allocations it made, the tables of its store then, and what a later one shows."""

    def __init__(self, ran, count, found, later, made):
        self.status, self.output, self.said = ran.returncode, ran.stdout, ran.stderr
        self.count, self.tables, self.later, self.made = count, found, later, made
        # a hint may be left out where memory is wanting
        self.faults = [line for line in self.said.splitlines() if not line.startswith(b"hint: ")]
        self.replies, at = [], 0
        while reply := expected.reply_in(self.output, at):
            self.replies.append((reply[0][0], self.output[at:reply[2]]))
            at = reply[2]
        self.is_cut = at < len(self.output)

    def is_as(self, other):
        mine, others = ((it.status, it.output, it.faults, it.tables, it.made) for it in (self, other))
        return mine == others


class Over:
    """A desk over a copy of its store."""

    def __init__(self, desk, store):
        self.desk, self.store = desk, store
        os.makedirs(desk.path(f"{store}-made"))
        if os.path.exists(desk.path(desk.store)):
            shutil.copy(desk.path(desk.store), desk.path(store))

    def run(self, *command, moment=5000, text=b"", **more):
        words = self.desk.words(*command, moment=moment)
        words[words.index(self.desk.store)] = self.store
        words = [f"{self.store}-made" if word == OUT else word for word in words]
        return subprocess.run(words, cwd=self.desk.folder, input=text, capture_output=True, timeout=PATIENCE, check=False, env={**os.environ, **more})

    def tables(self):
        """The tables of the store. Where a log is left, another command has a look before."""
        if os.path.exists(self.desk.path(self.store + "-wal")):
            self.run("list", "out")
        return tables(self.desk.path(self.store))

    def later(self):
        """What is listed once all is sent that is still to be."""
        self.run("send", "--timeout", "5")
        return [re.sub(rb"(?m)^( *\d+ [A-Z] ) ?\d+ ", rb"\1", self.run("list", box).stdout) for box in ("in", "out")]

    def made(self):
        """The files that were made, by their names."""
        folder = pathlib.Path(self.desk.path(f"{self.store}-made"))
        return {it.name: it.read_bytes() for it in folder.iterdir()}

    def end(self):
        shutil.rmtree(self.desk.path(f"{self.store}-made"))
        for name in os.listdir(self.desk.folder):
            if name.startswith(self.store):
                os.remove(self.desk.path(name))


class Rows:
    """Plays rows, with memory and without."""

    def __init__(self, program, folder, partner, differences):
        self.program, self.folder, self.differences = program, folder, differences
        self.library, self.partner, self.number, self.lock = library(folder), partner, 0, threading.Lock()

    def prepared(self, row):
        """A desk with the row's agreements and store, as they are before its command."""
        desk = Desk(self.program, os.path.join(self.folder, "row"), self.partner)
        change(desk, "127.0.0.1:8082", self.partner)
        with open(desk.path("document"), "wb") as to:
            to.write(content_of(1))
        for command, text, moment in row.before:
            if command[0] in FAULTS:
                change(desk, *FAULTS[command[0]])
            elif command[0] == "change":
                change(desk, self.partner, command[2])
            elif desk.run(*command, text=text, moment=moment)[0]:
                raise RuntimeError(f"{row.name}: {command}")
        return desk

    def play(self, desk, row, first=0, last=0, text=None):
        """Runs the row's command over a copy of the store, with these allocations refused."""
        with self.lock:
            self.number += 1
            over = Over(desk, f"{self.number}.db")
        told = desk.path(over.store + ".told")
        refused = {"LD_PRELOAD": self.library, "REFUSE_FIRST": str(first), "REFUSE_LAST": str(last), "REFUSE_TOLD": told}
        try:
            ran = over.run(*row.command, moment=row.moment, text=row.text if text is None else text, **refused)
            with open(told, encoding="ascii") as file:
                count = int(file.read())
            return Played(ran, count, over.tables(), over.later() if row.command[0] == "send" else None, over.made())
        finally:
            over.end()

    def row(self, row, jobs, is_control):
        """Refuses each allocation of the row's command in turn, alone and with all behind it."""
        desk = self.prepared(row)
        judge = Judge(self, desk, row)
        if is_control:
            judge.own.tables = judge.before
        for name, every, last in (("alone", 1, lambda first: first), ("and all behind it", 10, lambda first: MOST)):
            with concurrent.futures.ThreadPoolExecutor(jobs) as pool:
                played = pool.map(lambda first: judge.judge(first, self.play(desk, row, first, last(first))), range(1, judge.own.count + 1, every))
                counts = {}
                for what in played:
                    counts[what] = counts.get(what, 0) + 1
            print(f"ok    {row.name}, {name}: " + ", ".join(f"{count} {what}" for what, count in sorted(counts.items())), flush=True)
        shutil.rmtree(desk.folder)


class Judge:
    """What the runs of a row may come to."""

    def __init__(self, played, desk, row):
        self.played, self.desk, self.row, self.differences = played, desk, row, played.differences
        self.lock, self.lists = threading.Lock(), {}
        self.before, self.own = tables(desk.path(desk.store)), played.play(desk, row)
        self.opened = played.play(desk, Row("", ("post",))).tables
        self.posts = [b"POST " + post for post in row.text.split(b"POST ")[1:]]

    def of_posts(self, posts):
        """What those posts come to with memory."""
        text = b"".join(posts)
        with self.lock:
            if text not in self.lists:
                self.lists[text] = self.played.play(self.desk, self.row, text=text)
            return self.lists[text]

    def judge(self, first, played):
        """Looks at a run; what it came to, in a word."""
        self.differences.count("runs")
        if played.status not in (0, 1, 2, 3):
            what, wrong = "wrong", "it ended by a signal"
        elif played.is_as(self.own):
            what, wrong = "with the row's own answer", None
        elif self.row.command == ("post",):
            what, wrong = self.judge_posts(played)
        elif self.row.command[0] == "send":
            what, wrong = self.judge_send(played)
        else:
            what, wrong = self.judge_other(played)
        if wrong:
            self.differences.differ(f"{self.row.name}, allocation {first}: {wrong}", f"{played.status}, {played.output[-300:]!r}, {played.said[-300:]!r}")
        self.differences.count(what)
        return what

    def judge_other(self, played):
        """Nothing is done, or all."""
        if not WANT.search(played.said):
            return "wrong", "another fault than want of memory"
        if played.made and played.made != self.own.made:
            return "wrong", "a part of the files is made"
        wrong = "another state" if played.tables not in (self.before, self.opened, self.own.tables) else None
        return "refused for want of memory", wrong

    def judge_posts(self, played):
        """The replies and the store are those of the posts that weren't answered by 503."""
        taken = [post for post, reply in zip(self.posts, played.replies) if reply[0] != 503]
        replies = [reply for reply in played.replies if reply[0] != 503]
        is_refused, is_whole = len(replies) < len(played.replies), len(played.replies) == len(self.posts)
        wanted = self.of_posts(taken)
        states = [wanted.tables] if taken else [self.before, self.opened]
        if not is_whole:
            states.append(self.of_posts([*taken, self.posts[len(played.replies)]]).tables)
        wrong = None
        if replies != wanted.replies:
            wrong = "other replies than those of the posts without the refused ones"
        elif not is_refused and not WANT.search(played.said):
            wrong = "another fault than want of memory"
        elif played.tables not in states:
            wrong = "another state"
        return "answered by 503" if is_refused else "cut off" if played.output else "refused for want of memory", wrong

    def judge_send(self, played):
        """The try failed, or was not told to its end; with memory all is settled later."""
        is_failed = b": try failed\n" in played.output
        wrong = None
        if not is_failed and not WANT.search(played.said):
            wrong = "another fault than want of memory"
        elif played.tables not in (self.before, self.own.tables) and self.changed(played) - {"inbox2", "outbox", "waiting"}:
            wrong = "another state"
        elif played.later != self.own.later:
            wrong = f"another end later, {played.later}"
        return "tries without an answer" if is_failed else "refused for want of memory", wrong

    def changed(self, played):
        return {name for name in self.before if played.tables.get(name) != self.before[name]}


def main():
    parser = argparse.ArgumentParser(description=__doc__, formatter_class=argparse.RawDescriptionHelpFormatter)
    parser.add_argument("--program", default=STARTER)
    parser.add_argument("--jobs", type=int, default=min(4, os.cpu_count() or 1))
    parser.add_argument("--row")
    parser.add_argument("--control", action="store_true")
    asked = parser.parse_args()
    partner = Partner(1)
    partner.start()
    differences = Differences()
    with room() as folder:
        played = Rows(os.path.abspath(asked.program), folder, partner.name, differences)
        for row in rows(partner.name):
            if asked.row in (None, row.name) and (not asked.control or row.name == "plain_post"):
                played.row(row, asked.jobs, asked.control)
    status = differences.end(ORDER)
    if asked.control:
        return 0 if status else 1
    return status


if __name__ == "__main__":
    sys.exit(main())
