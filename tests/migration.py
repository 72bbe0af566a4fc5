"""Kills as2desk at random moments of `migrate` over a file, and looks for what the store promises of it: the file is one of the first
version, in which release 0.5.0 finds all that it had written, or one of the third with the same entries, in which the program finds
them; a migration that has printed its line is one of the third. Then it is migrated to the end, and all tables are compared with those
that the release had made. tests/migration.sh runs it: `migration.py RELEASE PROGRAM FOLDER`.

--kills sets how many there are (200), --posts how many posts the release takes first (10,000), --seed what is random. Prints a line
of counts; the status is 1 where something else is found.
"""
import argparse
import collections
import hashlib
import os
import pathlib
import random
import shutil
import signal
import sqlite3
import subprocess
import sys
import time

TOP = pathlib.Path(__file__).resolve().parents[1]
sys.path.insert(0, str(TOP / "bench"))
sys.dont_write_bytecode = True
from posts import write_posts  # bench/posts.py: the posts of the measurements

AGREEMENTS = str(TOP / "tests" / "migration" / "agreements.toml")
DONE = b"version 3\n"
SIZE = 300  # bytes of each post
DOCUMENTS = 60  # documents for partners
TRIES = {7: 1000, 20: 1040}  # behind so many of them all that are due are tried, at that moment: the first ones twice, and so in vain


class Wrong(Exception):
    """What a migration must not leave."""


def words(program, store, moment, *command):
    """Returns the words of a command."""
    return [program, "--agreements", AGREEMENTS, "--store", str(store), "--moment", str(moment), *command]


def run(program, store, *command, moment=5000, given=subprocess.DEVNULL):
    """Returns status, output and errors of a command."""
    ran = subprocess.run(words(program, store, moment, *command), stdin=given, capture_output=True, check=False)
    return ran.returncode, ran.stdout, ran.stderr


def clear(store):
    """Takes away a store's files."""
    for path in store.parent.glob(f"{store.name}*"):
        path.unlink()


def fill(release, store, count):
    """Has the release take posts and documents, and try some of these, which nobody takes."""
    posts, document = store.parent / "posts", store.parent / "document"
    write_posts(str(posts), count, SIZE)
    with open(posts, "rb") as given:
        status, replies, _ = run(release, store, "post", moment=1000, given=given)
    posts.unlink()
    if status or replies.count(b"HTTP/1.1 200 OK\r\n") != count:
        raise Wrong("the release didn't take all posts")
    document.write_bytes(b"abc")
    for number in range(1, DOCUMENTS + 1):
        run(release, store, "submit", "--from", "Supplier", "--to", "Buyer", str(document), moment=1000)
        if number in TRIES:
            run(release, store, "send", moment=TRIES[number])


def is_done(said, given):
    """Whether that is what a program says of a store that it has migrated, whose entries are as many as before."""
    status, output, errors = said
    counts = b"inbox %d, outbox %d\n" % (given.posts, DOCUMENTS)
    return (status, output) == (0, DONE) and errors in (b"", b"hint: entries before: %shint: entries after: %s" % (counts, counts))


def is_refused(said):
    """Whether that is what a program says of a store of another version."""
    status, output, errors = said
    return status == 3 and output == b"" and errors.startswith(b"store: OtherVersion\n")


def sight(program, store):
    """Returns all that a program lists of a store."""
    commands = [("list", "in"), ("list", "out"), ("outstanding",), ("show", "1"), ("fetch", "1")]
    return [run(program, store, *command) for command in commands]


def digest_of(connection, table):
    """Returns how many rows a table has, and a digest of all of them."""
    rows, digest = 0, hashlib.sha256()
    for row in connection.execute(f"SELECT * FROM {table} ORDER BY rowid"):
        rows, _ = rows + 1, digest.update(repr(row).encode())
    return rows, digest.hexdigest()


def tables(store, inbox):
    """Returns the tables of a closed store that a migration keeps; what was received is in the tables of that name."""
    connection = sqlite3.connect(f"file:{store}?mode=ro", uri=True)
    found = [digest_of(connection, it) for it in (inbox, f"{inbox}_piece", "outbox", "outbox_piece", "evidence", "waiting")]
    meta = connection.execute("SELECT kind, next_receipt, next_document FROM meta").fetchall()
    connection.close()
    return meta, found


def check_whole(store, made):
    """The tables of a store that is migrated and closed are those that the release had made, and those of the third version."""
    if tables(store, "inbox2") != made:
        raise Wrong("the tables have other rows")
    connection = sqlite3.connect(f"file:{store}?mode=ro", uri=True)
    (next_receipt,) = connection.execute("SELECT next_receipt FROM meta").fetchone()
    later = [connection.execute(f"SELECT * FROM {it}").fetchall() for it in ("origin", "resent", "inbox", "inbox_piece")]
    version = connection.execute("SELECT version FROM meta").fetchall()
    connection.close()
    if version != [(3,)] or later != [[(next_receipt,)], [], [], []]:
        raise Wrong(f"the version is {version}, and the tables beside the entries have {later}")


def version_of(release, program, store, seen):
    """Returns the version of a store that was left: the first, in which the release finds what it had written, or the third, in which
    the program does; each refuses the other's."""
    later = run(program, store, "list", "in")
    if later[0] == 0:
        if sight(program, store) != seen:
            raise Wrong("the program finds something else in a store of the third version")
        return 3
    if not is_refused(later):
        raise Wrong(f"the program says {later}")
    if sight(release, store) != seen:
        raise Wrong("the release finds something else in a store of the first version")
    return 1


def killed(program, store, wait):
    """Kills a migration after so many seconds; whether it had said its line, and whether it had ended by itself."""
    ran = subprocess.Popen(words(program, store, 5000, "migrate"), stdin=subprocess.DEVNULL, stdout=subprocess.PIPE, stderr=subprocess.PIPE)
    time.sleep(wait)
    ran.send_signal(signal.SIGKILL)
    output, _ = ran.communicate()
    if output not in (b"", DONE):
        raise Wrong(f"the migration says {output}")
    return output != b"", ran.returncode == 0


def kill(given, made, turn, wait, counts):
    """Kills a migration of a copy, and looks at what it leaves, and at what a further one makes of that. Whether it was killed."""
    clear(turn)
    shutil.copy(made.store, turn)
    is_told, has_ended = killed(given.program, turn, wait)
    version = version_of(given.release, given.program, turn, made.seen)
    if is_told and version != 3:
        raise Wrong("a migration that was told is undone")
    if not has_ended:
        counts[f"left in version {version}" + (", told" if is_told else "")] += 1
    again = run(given.program, turn, "migrate")
    if not (is_done(again, given) if version == 1 else is_refused(again)):
        raise Wrong(f"a further migration says {again}")
    if sight(given.program, turn) != made.seen:
        raise Wrong("the program finds something else in the end")
    check_whole(turn, made.tables)
    return not has_ended


Made = collections.namedtuple("Made", "store seen tables")


def made_by(given):
    """Has the release make the store."""
    store = given.folder / "made.db"
    fill(given.release, store, given.posts)
    return Made(store, sight(given.release, store), tables(store, "inbox"))


def lasting(given, made, turn):
    """How long a migration takes that nobody kills, in seconds: the longest of three."""
    longest = 0.0
    for _ in range(3):
        clear(turn)
        shutil.copy(made.store, turn)
        began = time.monotonic()
        said = run(given.program, turn, "migrate")
        longest = max(longest, time.monotonic() - began)
        if not is_done(said, given):
            raise Wrong(f"the migration says {said}")
        check_whole(turn, made.tables)
    return longest


def main():
    of_line = argparse.ArgumentParser(description=__doc__.splitlines()[0])
    of_line.add_argument("release", type=os.path.abspath)
    of_line.add_argument("program", type=os.path.abspath)
    of_line.add_argument("folder", type=lambda it: pathlib.Path(it).resolve())
    of_line.add_argument("--kills", type=int, default=200)
    of_line.add_argument("--posts", type=int, default=10_000)
    of_line.add_argument("--seed", type=int, default=1)
    given = of_line.parse_args()
    random.seed(given.seed)
    made, turn = made_by(given), given.folder / "turn.db"
    most = 1.1 * lasting(given, made, turn)
    counts, wrong, hits = collections.Counter(), 0, 0
    while hits < given.kills:
        try:
            is_hit = kill(given, made, turn, random.random() * most, counts)
        except Wrong as found:
            is_hit, wrong = True, wrong + 1
            print(f"      {found}", flush=True)
        # a run that had ended by then is no kill, and the next ones are killed sooner
        hits, most = hits + is_hit, most * (1.01 if is_hit else 0.97)
    told = ", ".join(f"{n} {name}" for name, n in sorted(counts.items()))
    print(f"{'WRONG' if wrong else 'ok   '} {hits} kills of a migration of {given.posts} posts: {told}, {wrong} wrong", flush=True)
    return 1 if wrong else 0


if __name__ == "__main__":
    sys.exit(main())
