"""The measuring part of migrate.sh: python3 migrate.py RELEASE PROGRAM AGREEMENTS FOLDER [COUNT COUNT]."""
import os
import shutil
import statistics
import subprocess
import sys
import time

from posts import write_posts

STORES = ((10_000, 3_000), (300, 1_048_576))
TURNS = 3
# A migration takes at most so many times what opening the file takes.
MOST = 3.0


def measured(words):
    """Returns the seconds that a command takes, and the most memory that it has, in MiB. What Python has itself, some 15 MiB, is the
    least that is told, since the command's process begins as Python's."""
    start = time.perf_counter()
    ran = subprocess.Popen(words, stdin=subprocess.DEVNULL, stdout=subprocess.DEVNULL, stderr=subprocess.DEVNULL)
    _, status, usage = os.wait4(ran.pid, 0)
    seconds = time.perf_counter() - start
    ran.returncode = os.waitstatus_to_exitcode(status)
    if ran.returncode:
        sys.exit(f"{' '.join(words[-2:])}: status {ran.returncode}")
    return seconds, usage.ru_maxrss / 1024


class Desk:
    """A program, over one store."""

    def __init__(self, program, agreements, store):
        self.words = [program, "--agreements", agreements, "--store", store, "--moment", "1000"]

    def measured(self, *command):
        return measured([*self.words, *command])

    def fill(self, posts, count):
        """Answers the posts in a file, as one stream."""
        with open(posts, "rb") as given:
            replies = subprocess.run([*self.words, "post"], stdin=given, stdout=subprocess.PIPE, check=True).stdout
        if replies.count(b"HTTP/1.1 200 OK\r\n") != count:
            sys.exit("not all posts were answered by 200")


def has_migrate(program):
    """Returns whether a program has the command."""
    told = subprocess.run([program, "--help"], stdout=subprocess.PIPE, check=True, text=True).stdout
    return any(line.split()[:1] == ["migrate"] for line in told.splitlines())


def middle(found):
    """Returns the middle seconds, and the middle memory."""
    return [statistics.median(it) for it in zip(*found)]


def show(what, found):
    seconds, memory = middle(found)
    print(f"  {what:32} {seconds * 1000:9.1f} ms {memory:8.1f} MiB")
    return seconds


def compare(release, program, agreements, folder, count, size):
    """Makes a store of so many posts, and prints what opening it and migrating it take."""
    made, turn, posts = f"{folder}/made.db", f"{folder}/turn.db", f"{folder}/posts"
    write_posts(posts, count, size)
    Desk(release, agreements, made).fill(posts, count)
    os.remove(posts)
    old, new, migrates = Desk(release, agreements, turn), Desk(program, agreements, turn), has_migrate(program)
    opened, migrated, opened_after = [], [], []
    for _ in range(TURNS):
        shutil.copy(made, turn)
        opened.append(old.measured("list", "in"))
        if migrates:
            migrated.append(new.measured("migrate"))
        opened_after.append(new.measured("list", "in"))
    print(f"{count:,} posts of {size:,} bytes: {os.path.getsize(made):,} bytes before, {os.path.getsize(turn):,} after")
    least = show("list in, release 0.5.0", opened)
    if migrates:
        ratio = show("migrate", migrated) / least
        print(f"  {'ratio':32} {ratio:9.2f} (at most {MOST})")
    else:
        print("  this program has no command migrate")
    show("list in, this program", opened_after)
    os.remove(made)
    os.remove(turn)


def main():
    release, program, agreements, folder = sys.argv[1:5]
    counts = [int(it) for it in sys.argv[5:7]] or [count for count, _ in STORES]
    for count, (_, size) in zip(counts, STORES):
        compare(release, program, agreements, folder, count, size)


if __name__ == "__main__":
    main()
