"""See stores.sh, which runs this."""
import os
import sqlite3
import statistics
import subprocess
import sys
import tempfile
import time

ENTRIES = 1_000
ROUNDS = 200


class Runs:
    """One build of the program over one store."""

    def __init__(self, name, program, store, top):
        self.name, self.program, self.store = name, program, store
        self.agreements = os.path.join(top, "examples", "agreements.toml")
        with open(os.path.join(top, "examples", "plain-post.http"), "rb") as file:
            self.plain = file.read()
        self.starts, self.posts = [], []

    def post(self, number):
        """Posts under that identifier; the seconds that it took."""
        text = self.plain.replace(b"<m1@x>", b"<m%d@x>" % number)
        words = [self.program, "--agreements", self.agreements, "--store", self.store, "--moment", "1000", "post"]
        began = time.perf_counter()
        subprocess.run(words, input=text, stdout=subprocess.DEVNULL, check=True)
        return time.perf_counter() - began

    def fill(self):
        for number in range(1, ENTRIES + 1):
            self.post(number)


def without_sums(store, other):
    """The same rows in a file without sums."""
    from_file, to_file = sqlite3.connect(store), sqlite3.connect(other)
    to_file.executescript("\n".join(from_file.iterdump()))
    from_file.close()
    to_file.close()


def main():
    top, program, *before = sys.argv[1:]
    with tempfile.TemporaryDirectory() as folder:
        path = lambda name: os.path.join(folder, name)
        runs = [Runs("in memory", program, ":memory:", top), Runs("with sums", program, path("sums.db"), top)]
        runs[1].fill()
        without_sums(path("sums.db"), path("plain.db"))
        runs.append(Runs("without sums", program, path("plain.db"), top))
        if before:
            runs.append(Runs("the other build", os.path.abspath(before[0]), path("before.db"), top))
            runs[-1].fill()
        for count in range(ROUNDS):
            for run in runs:
                run.starts.append(run.post(1 + count))
            for run in runs:
                run.posts.append(run.post(ENTRIES + 1 + count))
        base = statistics.median(runs[0].starts)
        print(f"{'over 1,000 entries':18} {'a start':>10} {'a second':>9} {'ratio':>6} {'a post':>10} {'a second':>9} {'ratio':>6}")
        for run in runs:
            start, post = statistics.median(run.starts), statistics.median(run.posts)
            print(f"{run.name:18} {start * 1000:7.2f} ms {1 / start:9.0f} {start / base:6.2f} {post * 1000:7.2f} ms {1 / post:9.0f} {post / base:6.2f}")
        print("bytes of the files:", ", ".join(f"{name} {os.path.getsize(path(name)):,}" for name in sorted(os.listdir(folder))))


main()
