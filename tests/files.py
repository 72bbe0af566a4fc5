"""What as2desk leaves of files: kills, foreign files, damage. tests/files.sh runs it; docs/OPERATING.md has what it found.

Each section prints a line for what it counted; the status is 1 where one of them isn't as wanted. The program is ./as2desk, or
the file that --program names; --kills and --flips set how many there are (300).
"""
import argparse
import os
import random
import shutil
import signal
import sqlite3
import subprocess
import sys
import tempfile
import time

TOP = os.path.dirname(os.path.dirname(os.path.abspath(__file__)))
MARK = b"SQLite format 3\0"


class Desk:
    """The program, over stores in one folder."""

    def __init__(self, program, folder):
        self.program = program
        self.folder = folder
        with open(os.path.join(TOP, "examples", "plain-post.http"), "rb") as file:
            self.plain = file.read()

    def text(self, number):
        """The plain post, under an identifier of its own and with a content of its own length's bytes."""
        return self.plain.replace(b"<m1@x>", b"<m%d@x>" % number)

    def words(self, store, command="post"):
        agreements = os.path.join(TOP, "examples", "agreements.toml")
        return [self.program, "--agreements", agreements, "--store", store, "--moment", "1000", command]

    def start(self, store, number):
        """A post that goes on while we do something else."""
        run = subprocess.Popen(self.words(store), cwd=self.folder, stdin=subprocess.PIPE, stdout=subprocess.PIPE,
                               stderr=subprocess.PIPE)
        try:
            run.stdin.write(self.text(number))
            run.stdin.close()
        except BrokenPipeError:  # it has ended without reading
            pass
        return run

    def post(self, store, number):
        """Status, reply and what was said."""
        ran = subprocess.run(self.words(store), cwd=self.folder, input=self.text(number), capture_output=True, check=False)
        return ran.returncode, ran.stdout, ran.stderr.decode()

    def clear(self, store):
        for name in os.listdir(self.folder):
            if name.startswith(store):
                os.remove(os.path.join(self.folder, name))

    def path(self, name):
        return os.path.join(self.folder, name)


def texts(desk, store):
    """The bytes of the files whose names begin so."""
    found = {}
    for name in os.listdir(desk.folder):
        if name.startswith(store):
            with open(desk.path(name), "rb") as file:
                found[name] = file.read()
    return found


def difference(before, after):
    """How many bytes of one differ from the other's, or stand in one alone."""
    return sum(a != b for a, b in zip(before, after)) + abs(len(before) - len(after))


class Count:
    """What was counted, and whether it is as wanted."""

    def __init__(self):
        self.wrong = False

    def line(self, what, counts, wanted):
        good = wanted(counts)
        self.wrong = self.wrong or not good
        print(f"{'ok   ' if good else 'WRONG'} {what}: {', '.join(f'{n} {name}' for name, n in sorted(counts.items()))}", flush=True)


def killed(run, most):
    """Kills the post at some moment; its reply, as far as it had come, and whether it had ended."""
    time.sleep(random.random() * most)
    run.send_signal(signal.SIGKILL)
    reply = run.stdout.read()
    run.stdout.close()
    run.stderr.close()
    return reply, run.wait() == 0


def first_posts(desk, count, kills, most):
    """Kills of a first post: at the path stands no file, or a store that opens."""
    counts = {"without a file": 0, "opened": 0, "refused": 0}
    for _ in range(kills):
        desk.clear("first.db")
        killed(desk.start("first.db", 1), most)
        there = os.path.exists(desk.path("first.db"))
        status, _, _ = desk.post("first.db", 1)
        counts["refused" if status else "opened" if there else "without a file"] += 1
    count.line("kills of a first post", counts, lambda c: c["refused"] == 0)
    desk.clear("first.db")


def later_posts(desk, count, kills, most):
    """Kills of later posts: nothing answered is missing, and each repeat gets the same bytes."""
    counts = {"answered": 0, "unanswered": 0, "missing": 0}
    desk.clear("later.db")
    desk.post("later.db", 1)
    answered = {}
    for number in range(2, kills + 2):
        reply, ended = killed(desk.start("later.db", number), most)
        if ended:
            answered[number] = reply
        counts["answered" if ended else "unanswered"] += 1
    for number, reply in answered.items():
        if desk.post("later.db", number)[1] != reply:
            counts["missing"] += 1
    count.line("kills of later posts", counts, lambda c: c["missing"] == 0)
    desk.clear("later.db")


def foreign_files(desk, count):
    """Files without SQLite's mark, and databases of others: refused, and as they were."""
    rows = [("empty", b""), ("one byte", b"S"), ("a text", b"hello\n"), ("the mark cut", MARK[:15]), ("the mark in capitals", MARK.upper() + bytes(84)),
            ("zeros", bytes(4096)), ("noise", random.Random(1).randbytes(8192)), ("the mark behind", b" " + MARK + bytes(4079))]
    counts = {"unchanged": 0, "changed": 0, "taken": 0}
    for name, text in rows:
        with open(desk.path("foreign.db"), "wb") as file:
            file.write(text)
        status, _, said = desk.post("foreign.db", 1)
        with open(desk.path("foreign.db"), "rb") as file:
            same = file.read() == text
        alone = [n for n in os.listdir(desk.folder) if n.startswith("foreign.db")] == ["foreign.db"]
        taken = status != 3 or "NotAStore" not in said
        counts["taken" if taken else "unchanged" if same and alone else "changed"] += 1
        if taken or not (same and alone):
            print(f"      {name}: status {status}, {said.strip()!r}, same {same}, alone {alone}")
        desk.clear("foreign.db")
    count.line("files without the mark", counts, lambda c: c["unchanged"] == len(rows))
    other_database(desk, count)


def other_database(desk, count):
    """Databases of another program: one without a log stays as it is; what is written where there is one is told."""
    for name, mode, has_log in [("a journal", "DELETE", False), ("a log that was taken away", "WAL", False), ("a log", "WAL", True)]:
        base = sqlite3.connect(desk.path("base.db"))
        base.execute(f"PRAGMA journal_mode = {mode}")
        base.execute("CREATE TABLE note (id INTEGER PRIMARY KEY, title TEXT)")
        base.execute("INSERT INTO note VALUES (1, 'a')")
        base.commit()
        if not has_log:
            base.close()
        for ending in ("", "-wal") if has_log else ("",):
            shutil.copy(desk.path("base.db" + ending), desk.path("other.db" + ending))
        base.close()
        before = texts(desk, "other.db")
        status, _, said = desk.post("other.db", 1)
        after = texts(desk, "other.db")
        changed = {n: difference(before.get(n, b""), after.get(n, b"")) for n in before.keys() | after.keys()}
        rows = sqlite3.connect(desk.path("other.db")).execute("SELECT * FROM note").fetchall()
        count.line(f"another program's database with {name}: status {status}, {said.strip()}, bytes changed", changed,
                   lambda c: status == 3 and rows == [(1, "a")] and (has_log or not any(c.values())))
        desk.clear("other.db")
        desk.clear("base.db")


def clean_end(desk, count):
    """After a clean end the store is one file, and `sqlite3` reads every answered post from a copy of it."""
    desk.clear("clean.db")
    for number in range(1, 21):
        desk.post("clean.db", number)
    beside = [n for n in os.listdir(desk.folder) if n.startswith("clean.db") and n != "clean.db"]
    shutil.copy(desk.path("clean.db"), desk.path("copy.db"))
    try:
        rows = sqlite3.connect(desk.path("copy.db")).execute("SELECT COUNT(*) FROM inbox2").fetchone()[0]
    except sqlite3.Error:
        rows = 0
    count.line("a clean end", {"files beside the store": len(beside), "posts in a copy of 20": rows},
               lambda c: c["files beside the store"] == 0 and c["posts in a copy of 20"] == 20)
    desk.clear("clean.db")
    desk.clear("copy.db")


def flips(desk, count, number_of_flips):
    """Single-bit flips in the file of a store of 100 posts: refused at the next start, or each repeat has its old bytes. A wrong
    sum is Disk; a file whose mark is gone is no store."""
    desk.clear("flip.db")
    replies = {number: desk.post("flip.db", number)[1] for number in range(1, 101)}
    names = [n for n in os.listdir(desk.folder) if n.startswith("flip.db")]
    texts = {name: open(desk.path(name), "rb").read() for name in names}
    counts = {"store: Disk": 0, "store: NotAStore": 0, "as before": 0, "wrong": 0}
    dice = random.Random(2)
    for _ in range(number_of_flips):
        for name, text in texts.items():
            with open(desk.path(name), "wb") as file:
                file.write(text)
        bit = dice.randrange(8 * len(texts["flip.db"]))
        with open(desk.path("flip.db"), "r+b") as file:
            file.seek(bit // 8)
            file.write(bytes([texts["flip.db"][bit // 8] ^ 1 << bit % 8]))
        status, _, said = desk.post("flip.db", 1)
        if status == 3:
            counts[said.strip() if said.strip() in counts else "wrong"] += 1
        elif all(desk.post("flip.db", n)[1] == old for n, old in replies.items()):
            counts["as before"] += 1
        else:
            counts["wrong"] += 1
    count.line("single-bit flips", counts, lambda c: c["wrong"] == 0)
    desk.clear("flip.db")


def at_once(desk, count, pairs):
    """Two first posts at once: what was answered is there."""
    counts = {"both answered": 0, "one answered": 0, "none answered": 0, "missing": 0}
    names = ["none answered", "one answered", "both answered"]
    for _ in range(pairs):
        desk.clear("once.db")
        runs = {number: desk.start("once.db", number) for number in (1, 2)}
        replies = {number: run.stdout.read() for number, run in runs.items()}
        answered = {number for number, run in runs.items() if run.wait() == 0}
        for run in runs.values():
            run.stdout.close()
            run.stderr.close()
        counts[names[len(answered)]] += 1
        counts["missing"] += sum(desk.post("once.db", number)[1] != replies[number] for number in answered)
    count.line("two first posts at once", counts, lambda c: c["missing"] == 0 and c["none answered"] == 0)
    desk.clear("once.db")


def main():
    words = argparse.ArgumentParser(description=__doc__.splitlines()[0])
    words.add_argument("--program", default=os.path.join(TOP, "as2desk"))
    words.add_argument("--kills", type=int, default=300)
    words.add_argument("--flips", type=int, default=300)
    given = words.parse_args()
    count = Count()
    with tempfile.TemporaryDirectory() as folder:
        desk = Desk(os.path.abspath(given.program), folder)
        began = time.monotonic()
        desk.post("time.db", 1)
        most = 1.2 * (time.monotonic() - began)
        desk.clear("time.db")
        foreign_files(desk, count)
        clean_end(desk, count)
        first_posts(desk, count, given.kills, most)
        later_posts(desk, count, given.kills, most)
        at_once(desk, count, 50)
        flips(desk, count, given.flips)
    return 1 if count.wrong else 0


sys.exit(main())
