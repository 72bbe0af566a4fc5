#!/usr/bin/env python3
"""python3 tests/migration/check.py PROGRAM STORE [VERSION]

Compares what a program says over a store, and what the store's tables hold, with what release 0.5.0 said over the store that it had
made. VERSION 1 is the store of version-1.sql; VERSION 2 is that of version-2.sql, whose texts are those of version-1/ with those of
version-2/ in their place or beside them. The store itself is left alone: all is done over copies of it. The status is 1 where
something differs.

A store is made of its text by SQLite's own program. A test of a program that migrates has it do so between the two:

    sqlite3 station.db < tests/migration/version-1.sql
    PROGRAM --agreements tests/migration/agreements.toml --store station.db migrate
    python3 tests/migration/check.py PROGRAM station.db

Tried with release 0.5.0, which has no `migrate`, so without the line between: it opens the file that sqlite3 wrote (that file has no sums
of its pages, and is taken as it is), and all is the same. The file of version-2.sql it refuses: `store: OtherVersion`.
"""
import contextlib
import hashlib
import lzma
import os
import pathlib
import shutil
import socketserver
import sqlite3
import subprocess
import sys
import tempfile
import threading

HERE = pathlib.Path(__file__).resolve().parent
# The moment at which the store is asked: some things are due then, and some are not.
NOW = 2040
# Contents longer than this are shown by their digest.
LONG = 1000


class Wrong(Exception):
    """The program ended with another status than 0."""


def words(program, store, moment, *command):
    """Returns the words of a command."""
    return [program, "--agreements", str(HERE / "agreements.toml"), "--store", str(store), "--moment", str(moment), *command]


def run(program, store, moment, *command, text=b""):
    """Returns what a command prints."""
    ran = subprocess.run(words(program, store, moment, *command), input=text, capture_output=True, check=False, timeout=60)
    if ran.returncode:
        raise Wrong(f"{' '.join(command)}: status {ran.returncode}, {ran.stderr.decode().strip()}")
    return ran.stdout


class Partner(socketserver.ThreadingTCPServer):
    """The one partner, at an address of its own. It keeps each request, and answers it by the bytes that `answer` returns for its
    identifier. For None it says nothing, sets `is_silent`, and waits until the connection is cut."""

    daemon_threads = True
    allow_reuse_address = True

    def __init__(self, answer):
        super().__init__(("127.0.52.1", 8052), Exchange)
        self.answer, self.requests, self.is_silent = answer, [], threading.Event()

    @contextlib.contextmanager
    def listening(self):
        """Listens for as long as the block runs."""
        thread = threading.Thread(target=self.serve_forever, args=(0.05,))
        thread.start()
        try:
            yield self
        finally:
            self.shutdown()
            thread.join()
            self.server_close()


class Exchange(socketserver.StreamRequestHandler):
    """One connection."""

    def handle(self):
        head = b""
        while not head.endswith(b"\r\n\r\n"):
            head += self.rfile.readline()
        fields = dict(line.split(b": ", 1) for line in head.split(b"\r\n")[1:-2])
        body = self.rfile.read(int(fields[b"Content-Length"]))
        self.server.requests.append(head + body)
        answer = self.server.answer(fields[b"Message-ID"].decode())
        if answer is None:
            self.server.is_silent.set()
            self.rfile.read()
        else:
            self.wfile.write(answer)


@contextlib.contextmanager
def copied(store):
    """A copy of a store, with the log that may lie beside it."""
    with tempfile.TemporaryDirectory() as folder:
        shutil.copy(store, f"{folder}/copy.db")
        if os.path.exists(f"{store}-wal"):
            shutil.copy(f"{store}-wal", f"{folder}/copy.db-wal")
        yield f"{folder}/copy.db"


def digest(content):
    """Returns a content's length and digest, as a line."""
    return b"%d bytes, sha256 %s\n" % (len(content), hashlib.sha256(content).hexdigest().encode())


def short(request):
    """Returns a request, with a long content's digest in place of it."""
    head, content = request.split(b"\r\n\r\n", 1)
    return request if len(content) <= LONG else head + b"\r\n\r\n" + digest(content)


def lists(program, store, name=""):
    """Returns the three lists, by their names."""
    asked = (("list", "in"), ("list", "out"), ("outstanding",))
    return {"-".join(command) + name: run(program, store, NOW, *command) for command in asked}


def numbers(listing):
    """Returns the numbers in a listing."""
    return [line.split()[0].decode() for line in listing.splitlines()]


def texts(program, store, posts):
    """Returns what a program says over a store, by name: lists, each document, each content's digest; then the replies to the
    posts, one after the other, and the lists behind them; and, without the posts, what `send` and `tick` do, and the requests
    that reach a partner who answers each by 200 and nothing."""
    with copied(store) as path:
        said = lists(program, path)
        for number in numbers(said["list-out"]):
            said[f"show-{number}"] = run(program, path, NOW, "show", number)
        for number in numbers(said["list-in"]):
            said[f"fetch-{number}"] = digest(run(program, path, NOW, "fetch", number))
    with copied(store) as path:
        for name in sorted(posts):
            said[f"posts/{name}.reply"] = run(program, path, NOW, "post", text=posts[name])
        said |= lists(program, path, "-behind-posts")
    taken = Partner(lambda identifier: b"HTTP/1.1 200 OK\r\nContent-Length: 0\r\n\r\n")
    with copied(store) as path, taken.listening():
        said["send"] = run(program, path, NOW, "send")
        said["tick"] = run(program, path, NOW, "tick")
        said |= lists(program, path, "-behind-send")
    return said | {f"sent/{place:02}.http": short(request) for place, request in enumerate(taken.requests, 1)}


def kept(version):
    """Returns the posts of a version, and the texts that are wanted, by name. Long posts are packed by xz."""
    posts, wanted = {}, {}
    for number in range(1, version + 1):
        folder = HERE / f"version-{number}"
        for path in filter(pathlib.Path.is_file, folder.rglob("*")):
            name = str(path.relative_to(folder))
            if name.endswith(".http.xz"):
                posts[path.name[:-8]] = lzma.decompress(path.read_bytes())
            elif name.startswith("posts/") and name.endswith(".http"):
                posts[path.stem] = path.read_bytes()
            else:
                wanted[name] = path.read_bytes()
    return posts, wanted


def rows(connection):
    """Returns the rows of the tables, by table. What was received stands in `inbox` and `inbox_piece`, or in `inbox2` and
    `inbox2_piece`: the columns are the same, and both are taken as one. `origin` is the next receipt's number before a migration,
    and stays behind it. `resent` has no row."""
    has = [name for name, in connection.execute("SELECT name FROM sqlite_master WHERE type = 'table'")]
    found = {"meta": connection.execute("SELECT kind, next_receipt, next_document FROM meta").fetchall()}
    found["origin"] = connection.execute("SELECT * FROM origin" if "origin" in has else "SELECT next_receipt FROM meta").fetchall()
    found["resent"] = connection.execute("SELECT * FROM resent").fetchall() if "resent" in has else []
    for name in ("inbox", "inbox_piece", "outbox", "outbox_piece", "evidence", "waiting"):
        both = [it for it in (name, name.replace("inbox", "inbox2")) if it in has]
        found[name] = sorted((row for it in both for row in connection.execute(f"SELECT * FROM {it}")), key=lambda row: row[:2])
    return found


def tables(store):
    """Returns the rows of a store's file."""
    with copied(store) as path, contextlib.closing(sqlite3.connect(path)) as connection:
        return rows(connection)


def tables_of_text(path):
    """Returns the rows of a store that is SQL text."""
    with contextlib.closing(sqlite3.connect(":memory:")) as connection:
        connection.executescript(path.read_text())
        return rows(connection)


def main():
    program, store = os.path.abspath(sys.argv[1]), sys.argv[2]
    version = int(sys.argv[3]) if len(sys.argv) > 3 else 1
    posts, wanted = kept(version)
    in_text, in_file = tables_of_text(HERE / f"version-{version}.sql"), tables(store)
    differ = [name for name in in_text if in_text[name] != in_file[name]]
    for name in differ:
        print(f"WRONG table {name}")
    try:
        found = texts(program, store, posts)
    except Wrong as fault:
        print(f"WRONG {fault}")
        return 1
    for name in sorted(wanted.keys() | found.keys()):
        if wanted.get(name) != found.get(name):
            differ.append(name)
            print(f"WRONG {name}\n  wanted {wanted.get(name)}\n  found  {found.get(name)}")
    print(f"{len(in_text)} tables and {len(wanted)} texts, {len(differ)} differ")
    return 1 if differ else 0


if __name__ == "__main__":
    sys.exit(main())
