"""What as2desk does with files that mean harm: agreements that are huge, binary or nested deep, input without end, folders that can't be
written, links, fifos and folders in place of files, standard streams that are shut or full, a full disk, and stores that were damaged.

Each run ends in time, by itself, with a status that docs/OPERATING.md lists and, where that is 1 or 3, with a line that names the
refusal; or its answer is right. What is answered is recorded.

    python3 tests/hostile/files.py [--program FILE] [--seed N] [--stores N]

1,000 stores take some 2 minutes. For the full disk a small one is mounted where that may be done; else the size of files is limited.
A line that begins with KNOWN tells of today's behaviour where another is wanted. The last line has the counts; the status is 1 where
something differs.
"""
import argparse
import contextlib
import os
import random
import re
import resource
import shutil
import signal
import socket
import subprocess
import sys
import tempfile
import threading
import time

import expected
import readers
from station import EXAMPLE, STARTER, Desk, Differences, post_of, room

ORDER = ("runs", "refused", "answered", "stopped by the time limit", "stores damaged", "posts answered", "lost")
PATIENCE = 20
NOBODY = 65534
MEMORY_LIMIT = 64 * 1024  # KiB, of agreements
LOG_STEPS = 2 * 262_144
NAMED = re.compile(rb"^(refused|agreements|store): [A-Z][A-Za-z]+( [a-z_]+)?$", re.M)
MEBIBYTE = 1 << 20
# what a path that can't be opened is told to be, in PROFILE's words
NO_FOLDER = "the folder that it stands in isn't there"
NO_RIGHT = "there is no right to read and write it and its folder"
NO_FILE = "what stands there is no file of its own: a folder, a link to nothing, or a file with two names"
JOURNAL = "SQLite left a journal beside it; open it with sqlite3 first"


class Runner:
    """Runs commands of the program, and looks at how each one ends."""

    def __init__(self, desk, differences):
        self.desk, self.differences, self.is_told = desk, differences, True

    def run(self, what, *command, text=b"", store=None, agreements="agreements.toml", known=None, **more):
        """Status, standard output and standard error; `wait` stands for a status where it had to be stopped."""
        words = [self.desk.program, "--agreements", agreements, "--store", store or self.desk.store, "--moment", "1000", *command]
        streams = {"stdout": subprocess.PIPE, "stderr": subprocess.PIPE, **more}
        streams |= {} if "stdin" in streams else {"input": text}
        try:
            ran = subprocess.run(words, cwd=self.desk.folder, timeout=PATIENCE if known is None else 3, check=False, **streams)
            found = ran.returncode, ran.stdout or b"", ran.stderr or b""
        except subprocess.TimeoutExpired:
            found = "wait", b"", b""
        self.judge(what, found, known, is_heard=more.get("stderr") in (None, subprocess.PIPE) and self.is_told)
        return found

    def judge(self, what, found, known, is_heard=True):
        """Counts a run, and tells one that ended as none may."""
        status, _, said = found
        self.differences.count("runs")
        self.differences.count({0: "answered", "wait": "stopped by the time limit"}.get(status, "refused"))
        if status == "wait" and known:
            self.differences.tell_known(f"{what}: {known}")
        elif status not in (0, 1, 2, 3):
            self.differences.differ(f"{what}: how it ended", f"{status}, {said[:300]!r}")
        elif status in (1, 3) and is_heard and not NAMED.search(said):
            self.differences.differ(f"{what}: no refusal is named", f"{status}, {said[:300]!r}")

    def want(self, what, status, said, *command, hint=None, **more):
        """A run whose status and first line on standard error are known before, and the second, if a hint is wanted."""
        found = self.run(what, *command, **more)
        lines = found[2].decode("utf-8", "replace").split("\n")
        if found[0] != "wait":
            self.differences.expect(what, (found[0], lines[0]), (status, said))
            if hint is not None:
                self.differences.expect(f"{what}: the hint", lines[1:], [f"hint: {hint}", ""])
        return found


def replies_of(output):
    """The replies that the bytes are made of, told as expected.py does, and whether nothing else stands there."""
    replies, at = [], 0
    while reply := expected.reply_in(output, at):
        replies.append(reply[0])
        at = reply[2]
    return replies, at == len(output)


# a process so small that its own memory, which a child's peak begins with, doesn't count
MEASURE = ("import os, sys; null = os.open('/dev/null', os.O_RDWR); "
           "run = os.posix_spawn(sys.argv[1], sys.argv[1:], os.environ, file_actions=[(os.POSIX_SPAWN_DUP2, null, n) for n in (0, 1, 2)]); "
           "_, status, used = os.wait4(run, 0); print(os.waitstatus_to_exitcode(status), used.ru_maxrss)")


def peak_of(words, folder):
    """Status and peak of memory in KiB of a command."""
    ran = subprocess.run([sys.executable, "-S", "-c", MEASURE, *words], cwd=folder, capture_output=True, timeout=3 * PATIENCE, check=True)
    return tuple(map(int, ran.stdout.split()))


def write(desk, name, content):
    with open(desk.path(name), "wb") as to:
        to.write(content)
    return name


def agreements(runner, dice):
    """Files of agreements that are too long, or are none."""
    desk, example = runner.desk, EXAMPLE.encode()
    with open(desk.path("sparse.toml"), "wb") as to:
        to.truncate(100_000_000)
    huge = write(desk, "huge.toml", example + b"# x\n" * 25_000_000)
    for what, name in (("agreements of 100 MB", huge), ("agreements of 100 MB of zeros", "sparse.toml"),
                       ("agreements of a byte too many", write(desk, "long.toml", example + b"#" * (2 * MEBIBYTE + 1 - len(example))))):
        runner.want(what, 1, "refused: CannotRead", "check", agreements=name)
    os.remove(desk.path(huge))
    most = runner.run("agreements of 2 MiB", "check", agreements=write(desk, "most.toml", example + b"#" * (2 * MEBIBYTE - len(example))))
    runner.differences.expect("agreements of 2 MiB: the status", most[0], 0)
    for what, line in (("dotted tables", b"a%d.b.c.d.e = 1\n"), ("tables in a line", b"a%d = {" + b".".join([b"a"] * 60) + b" = 1}\n")):
        lines = b"".join(line % turn for turn in range((2 * MEBIBYTE - len(example)) // (len(line) + 5)))
        status, peak = peak_of(desk.words("check")[:2] + [write(desk, "dotted.toml", lines + example), "--store", "none.db", "check"], desk.folder)
        runner.differences.count("runs")
        runner.differences.expect(f"{what}: the status", status in (0, 1), True)
        if peak > MEMORY_LIMIT:
            runner.differences.tell_known(f"agreements of {len(lines + example):,} bytes of {what} take {peak // 1024} MiB of memory")
    binary(runner, example, dice)
    nested(runner, example)


def binary(runner, example, dice):
    """Bytes that are no text."""
    rows = [("noise", dice.randbytes(5000)), ("much noise", dice.randbytes(MEBIBYTE)), ("a NUL behind", example + b"\0"), ("zeros", bytes(5000)),
            ("a byte that is no UTF-8", example.replace(b"Buyer", b"Buy\xff", 1)), ("half a character", example + b"# \xe2\x82"),
            ("UTF-16", EXAMPLE.encode("utf-16")), ("a lone CR", b"x = 1\r" + example), ("an escape", b"\x1b[2J" + example)]
    for what, text in rows:
        runner.want(f"agreements: {what}", 1, "agreements: NotToml", "check", agreements=write(runner.desk, "binary.toml", text))
    for turn in range(200):
        text = bytearray(example)
        for _ in range(dice.choice((1, 2, 8))):
            text[dice.randrange(len(text))] = dice.randrange(256)
        runner.run(f"agreements with changed bytes, {turn}", "check", agreements=write(runner.desk, "binary.toml", bytes(text)))


def nested(runner, example, deep=10_000):
    """Arrays and tables in one another, closed and not."""
    rows = [("arrays", b"x = " + b"[" * deep + b"]" * deep), ("arrays that are never closed", b"x = " + b"[" * deep),
            ("tables", b"x = " + b"{a = " * deep + b"1" + b"}" * deep), ("tables that are never closed", b"x = " + b"{a = " * deep),
            ("arrays of tables", b"x = " + b"[{a = " * deep + b"1" + b"}]" * deep),
            ("a dotted key", b".".join([b"a"] * deep) + b" = 1"), ("a table's dotted name", b"[" + b".".join([b"a"] * deep) + b"]\nx = 1"),
            ("an array's dotted name", b"[[" + b".".join([b"a"] * deep) + b"]]\nx = 1"), ("partners", b"partner = " + b"[" * deep + b"]" * deep),
            ("quotes", b"x = " + b'"""' * deep)]
    for what, text in rows:
        behind = what.endswith("name")
        whole = example + text + b"\n" if behind else text + b"\n" + example
        runner.run(f"agreements: {what}, {deep} deep", "check", agreements=write(runner.desk, "nested.toml", whole))


def endless(runner):
    """Standard input without end: `post` ends it."""
    rows = [("zeros", b"\0", 400), ("empty lines", b"\r\n", 400), ("a head without end", b"POST /as2 HTTP/1.1\r\nX: " + b"y" * 20_000, 400),
            ("fields without end", b"POST /as2 HTTP/1.1\r\n" + b"X: y\r\n" * 4000, 400),
            ("chunks without end", b"POST /as2 HTTP/1.1\r\nTransfer-Encoding: chunked\r\n\r\n" + b"10000\r\n" + (b"y" * 65536 + b"\r\n10000\r\n") * 16, 413)]
    for what, begin, status in rows:
        run = subprocess.Popen(runner.desk.words("post"), cwd=runner.desk.folder, stdin=subprocess.PIPE, stdout=subprocess.PIPE, stderr=subprocess.PIPE)
        threading.Thread(target=feed, args=(run.stdin, begin), daemon=True).start()
        found = ended(run)
        runner.judge(f"endless {what}", found, None)
        runner.differences.expect(f"endless {what}", (found[0], found[2], [reply[0] for reply in replies_of(found[1])[0]]), (1, b"refused: BadFraming\n", [status]))
    many_requests(runner)


def feed(pipe, begin):
    """Writes that again and again until nobody reads."""
    with contextlib.suppress(OSError, ValueError):
        while True:
            pipe.write(begin)
            pipe.flush()


def ended(run):
    """Status, output and what is said of a process that is waited for."""
    try:
        output, said = run.stdout.read(), run.stderr.read()
        return run.wait(PATIENCE), output, said
    except subprocess.TimeoutExpired:
        run.kill()
        return "wait", b"", b""


def many_requests(runner, reads=100_000):
    """A request for each read, until as many reads were made as one stream may have."""
    run = subprocess.Popen(runner.desk.words("post"), cwd=runner.desk.folder, stdin=subprocess.PIPE, stdout=subprocess.PIPE, stderr=subprocess.PIPE, bufsize=0)
    request, replies, end = b"GET /as2 HTTP/1.1\r\n\r\n", 0, time.monotonic() + 120
    with contextlib.suppress(BrokenPipeError):
        while replies <= reads and time.monotonic() < end:
            run.stdin.write(request)
            reply = os.read(run.stdout.fileno(), 65536)
            if not reply:
                break
            replies += 1
    with contextlib.suppress(BrokenPipeError):
        run.stdin.close()
    status, _, said = ended(run)
    runner.judge("requests without end", (status, b"", said), None)
    runner.differences.expect("requests without end", (status, said, replies), (1, b"refused: TooLong\n", reads))


def paths(runner):
    """Links, fifos, devices and folders in place of a store, and beside it."""
    desk, path = runner.desk, runner.desk.path
    os.mkdir(path("folder"))
    os.symlink("nothing", path("to-nothing.db"))
    os.symlink("to-itself.db", path("to-itself.db"))
    os.symlink("folder", path("to-folder.db"))
    os.mkfifo(path("fifo.db"))
    runner.run("a good store", "post", text=post_of(b"good"), store="good.db")
    os.symlink("good.db", path("to-good.db"))
    os.link(path("good.db"), path("second.db"))
    for name in ("folder", "to-nothing.db", "to-itself.db", "to-folder.db"):
        runner.want(f"a store that is {name}", 3, "store: Refused", "list", "in", hint=NO_FILE, store=name)
    for name in ("absent/x.db", "good.db/x.db"):
        runner.want(f"a store that is {name}", 3, "store: Refused", "list", "in", hint=NO_FOLDER, store=name)
    # (of a store that is there the kit tells only that it can't be opened: the file system is asked why)
    runner.want("a store that is second.db", 3, "store: Refused", "list", "in", hint=NO_FILE, store="second.db")
    os.remove(path("second.db"))
    write(runner.desk, "good.db-journal", b"journal")
    runner.want("a store with a journal of SQLite's", 3, "store: Refused", "list", "in", hint=JOURNAL, store="good.db")
    os.remove(path("good.db-journal"))
    write(runner.desk, "fresh.db.new-journal", b"journal")
    runner.want("a draft with a journal of SQLite's", 3, "store: Refused", "list", "in", hint=JOURNAL, store="fresh.db")
    os.remove(path("fresh.db.new-journal"))
    runner.run("a store behind a link", "list", "in", store="to-good.db")
    runner.run("a store with a long name", "list", "in", store="x" * 300)
    runner.run("a store with a long path", "list", "in", store="x/" * 3000)
    for name in ("fifo.db", "/dev/null", "/dev/zero", "/dev/full", "/dev/tty"):
        runner.want(f"a store that is {name}", 3, "store: NotAStore", "list", "in", store=name)
    words = [desk.program, "--agreements", "agreements.toml", "--store", "", "--moment", "1000", "list", "in"]
    found = subprocess.run(words, cwd=desk.folder, capture_output=True, timeout=PATIENCE, check=False)
    runner.differences.expect('--store ""', found.returncode, 2)
    beside(runner)
    old_log(runner)


def old_log(runner):
    """A log whose store is gone, and a store made anew beside it: nothing of the log may be taken for the new store's."""
    desk, desk.store = runner.desk, "old.db"
    run = subprocess.Popen(desk.words("post"), cwd=desk.folder, stdin=subprocess.PIPE, stdout=subprocess.PIPE, stderr=subprocess.PIPE, bufsize=0)
    run.stdin.write(post_of(b"old"))
    os.read(run.stdout.fileno(), 65536)
    run.kill()
    run.wait()
    os.remove(desk.path("old.db"))
    words = desk.words("post")[:-1] + ["--first", "5000", "post"]
    ran = subprocess.run(words, cwd=desk.folder, input=post_of(b"new"), capture_output=True, timeout=PATIENCE, check=False)
    found = ran.returncode, ran.stdout, ran.stderr
    runner.judge("a new store beside an old log", found, None)
    runner.differences.expect("a new store beside an old log", found, (3, b"", b"store: Refused\nhint: the file isn't there, but a log of it is; nothing was made\n"))
    runner.differences.expect("a new store beside an old log: nothing is made", os.path.exists(desk.path("old.db")), False)
    copied_back(runner)
    desk.store = "station.db"


def copied_back(runner):
    """A copy of before, put back beside the log of what came later."""
    desk, desk.store = runner.desk, "back.db"
    for turn in range(3):
        desk.run("post", text=post_of(b"before-%d" % turn))
    shutil.copy(desk.path("back.db"), desk.path("copy-of-it"))
    for turn in range(3):
        desk.run("post", text=post_of(b"between-%d" % turn, bytes(20_000)))
    run = subprocess.Popen(desk.words("post"), cwd=desk.folder, stdin=subprocess.PIPE, stdout=subprocess.PIPE, stderr=subprocess.PIPE, bufsize=0)
    run.stdin.write(post_of(b"later"))
    os.read(run.stdout.fileno(), 65536)
    run.kill()
    run.wait()
    shutil.copy(desk.path("copy-of-it"), desk.path("back.db"))
    found = runner.run("a copy put back beside the old log", "list", "in")
    if found[0]:
        runner.differences.tell_known(f"a copy that is put back beside the old log: {found[2].decode().strip()}; a way back that OPERATING tells is wanted")
    else:
        runner.differences.expect("a copy put back beside the old log: what it has", found[1].count(b"<before-"), 3)


def great_store(runner, documents=64):
    """What it takes to open a store of many great documents."""
    desk, desk.store = runner.desk, "great.db"
    found = runner.run("a great store", "post", text=b"".join(post_of(b"great-%d" % turn, bytes(MEBIBYTE)) for turn in range(documents)))
    runner.differences.expect("a great store", [reply[0] for reply in replies_of(found[1])[0]], [200] * documents)
    began = time.monotonic()
    status, peak = peak_of(desk.words("list", "in"), desk.folder)
    seconds, size = time.monotonic() - began, os.path.getsize(desk.path("great.db")) // MEBIBYTE
    runner.differences.expect("a great store: the status", status, 0)
    if peak // 1024 > size:
        print(f"      to open a store of {size} MiB takes {peak // 1024} MiB of memory and {seconds:.2f} s", flush=True)
    desk.store = "station.db"


def store_limit(runner, limit=2):
    """Stores that grow up to `--store-limit`, by documents of one size each: what the files take then, what is refused, and what goes on."""
    desk, differences = runner.desk, runner.differences
    for length in (0, 500, 2_100, 3_000, 4_100, 10_000, 100_000):
        desk.store = f"limited-{length}.db"
        what, posts = f"documents of {length} bytes up to {limit} MiB", limit * MEBIBYTE // (length + 512) + 2
        text = b"".join(post_of(b"up-%d" % turn, bytes(length)) for turn in range(posts)) + post_of(b"up-0", bytes(length))
        found = runner.run(what, "--store-limit", str(limit), "post", text=text)
        replies = [reply[0] for reply in replies_of(found[1])[0]]
        taken = replies[:-1].count(200)
        differences.expect(f"{what}: the replies", (found[0], replies), (0, [200] * taken + [503] * (posts - taken) + [200]))
        hints = f"hint: replies with status 503: {posts - taken}\nhint: documents refused by --store-limit {limit}: {posts - taken}\n"
        differences.expect(f"{what}: the hints", found[2].decode(), hints)
        size = os.path.getsize(desk.path(desk.store))
        differences.expect(f"{what}: the file has no more", size <= limit * MEBIBYTE, True)
        listed = runner.run(f"{what}: list in", "list", "in")[1].count(b"\n")
        differences.expect(f"{what}: what is recorded", listed, taken)
        write(desk, "great.edi", bytes(MEBIBYTE))
        fits = size + MEBIBYTE + MEBIBYTE // 32 + 2304 + 512 <= limit * MEBIBYTE
        runner.want(f"{what}: a great document", *((0, "") if fits else (3, "store: Disk")), "--store-limit", str(limit), "submit", "--from", "Supplier", "--to",
                    "Buyer", "great.edi")
        runner.want(f"{what}: without the limit", 0, "", "submit", "--from", "Supplier", "--to", "Buyer", "great.edi")
        print(f"      {what}: {taken} taken, {100 * size // (limit * MEBIBYTE)} of 100 parts of it used", flush=True)
    desk.store = "station.db"


def beside(runner):
    """Things that stand where the store's log, its journal or its first file is to be."""
    makers = {"a folder": os.mkdir, "a fifo": os.mkfifo, "a link to nothing": lambda path: os.symlink("nowhere", path),
              "a link to itself": lambda path: os.symlink(os.path.basename(path), path), "noise": lambda path: write_noise(path)}
    for ending in ("-wal", "-journal", "-shm", ".new", ".new-wal"):
        for what, make in makers.items():
            for is_there in (True, False):
                runner.desk.store = f"beside{ending}-{what.replace(' ', '-')}-{is_there}.db"
                path = runner.desk.path(runner.desk.store)
                if is_there:
                    shutil.copy(runner.desk.path("good.db"), path)
                make(path + ending)
                name = f"{what} as FILE{ending}, {'with' if is_there else 'without'} a store"
                found = runner.run(name, "post", text=post_of(b"beside"), known="it is waited for")
                recorded(runner, name, found, b"beside")
    runner.desk.store = "station.db"


def write_noise(path):
    with open(path, "wb") as to:
        to.write(random.Random(1).randbytes(8192))


def recorded(runner, what, found, name):
    """A post that was answered stands in the store."""
    if found[0] != 0 or not found[1].startswith(b"HTTP/1.1 200 "):
        return
    runner.differences.count("posts answered")
    listed = runner.run(f"{what}, afterwards", "list", "in")
    if name not in listed[1]:
        runner.differences.count("lost")
        runner.differences.differ(f"{what}: an answered post is gone", repr(listed))


def inputs(runner):
    """Fifos, devices, links and folders in place of agreements and of documents."""
    path = runner.desk.path
    os.mkfifo(path("fifo"))
    os.symlink("nothing", path("to-nothing"))
    os.symlink("to-itself", path("to-itself"))
    for name in ("folder", "to-nothing", "to-itself", "absent", "agreements.toml/x"):
        runner.want(f"agreements that are {name}", 1, "refused: CannotRead", "check", agreements=name)
        runner.want(f"a document that is {name}", 1, "refused: CannotRead", "submit", "--from", "Supplier", "--to", "Buyer", name)
    for name in ("fifo", "/dev/zero", "/dev/null", "/dev/full"):
        runner.want(f"agreements that are {name}", 1, "refused: CannotRead", "check", agreements=name)
        runner.want(f"a document that is {name}", 1, "refused: CannotRead", "submit", "--from", "Supplier", "--to", "Buyer", name)


def rights(runner):
    """A folder and files that may not be written or read, as a user without rights."""
    if os.geteuid():
        more = {}
    else:
        more = {"user": NOBODY, "group": NOBODY, "extra_groups": []}
        os.chmod(runner.desk.folder, 0o755)
    folder = runner.desk.path("shut")
    os.mkdir(folder)
    shutil.copy(runner.desk.path("good.db"), os.path.join(folder, "there.db"))
    for what, mode, file_mode in (("a folder that may only be read", 0o555, 0o666), ("a file that may only be read", 0o777, 0o444),
                                  ("a file that may not be read", 0o777, 0o000), ("a folder that may not be entered", 0o000, 0o666)):
        os.chmod(os.path.join(folder, "there.db"), file_mode)
        os.chmod(folder, mode)
        for command in (["list", "in"], ["post"], ["tick"]):
            runner.want(f"{what}: {command[0]}", 3, "store: Refused", *command, hint=NO_RIGHT, store="shut/there.db", text=post_of(b"shut") if command == ["post"] else b"", **more)
        if mode != 0o777:
            runner.want(f"{what}: a new store", 3, "store: Refused", "tick", hint=NO_RIGHT, store="shut/new.db", **more)
        os.chmod(folder, 0o755)
    write(runner.desk, "secret.toml", EXAMPLE.encode())
    os.chmod(runner.desk.path("secret.toml"), 0o000)
    runner.want("agreements that may not be read", 1, "refused: CannotRead", "check", agreements="secret.toml", **more)


STREAMS = [("standard output shut", ">&-"), ("standard error shut", "2>&-"), ("standard input shut", "<&-"), ("all of them shut", "<&- >&- 2>&-"),
           ("a full standard output", ">/dev/full"), ("a full standard error", "2>/dev/full"), ("both full", ">/dev/full 2>/dev/full"),
           ("a pipe that nobody reads", "| true"), ("standard output and input shut", "<&- >&-"), ("standard output and error shut", ">&- 2>&-"),
           ("standard input and error shut", "<&- 2>&-")]


def streams(runner):
    """Standard streams that are shut or full: what was done stays, and the store is whole."""
    desk = runner.desk
    desk.store = "streams.db"
    write(desk, "order", b"an order")
    runner.run("a store for streams", "post", text=post_of(b"first"))
    commands = [["check"], ["list", "in"], ["list", "out"], ["outstanding"], ["fetch", "1"], ["show", "1"], ["tick"], ["post"], ["send"], ["migrate"],
                ["submit", "--from", "Supplier", "--to", "Buyer", "order"], ["serve", "--listen", "192.0.2.1:1", "--count", "1"], ["--help"], ["fetch", "99"]]
    write(desk, "input", post_of(b"streamed"))
    for what, redirect in STREAMS:
        for command in commands:
            words = " ".join(f"'{word}'" for word in desk.words(*command))
            given = "" if "<&-" in redirect else "<input"
            script = f"{{ {words} {given} {redirect if redirect[0] != '|' else ''}; echo $? >status; }} {redirect if redirect[0] == '|' else ''}"
            if redirect[0] == "|":
                script = f"{{ sleep 0.05; {words} {given}; echo $? >status; }} | true"
            stream_run(runner, f"{what}: {command[0]}", script, redirect, command)
    for what, redirect in STREAMS:
        if redirect[0] != "|":
            served_streams(runner, what, redirect)
    listed = runner.run("the store behind the streams", "list", "in")
    runner.differences.expect("the store behind the streams", (listed[0], b"<first@x>" in listed[1]), (0, True))
    desk.store = "station.db"


def served_streams(runner, what, redirect):
    """`serve` of one connection with such streams: what it answers is recorded. Its port is found before, since it can't tell it."""
    with socket.create_server(("127.0.0.1", 0)) as listener:
        address = listener.getsockname()
    words = runner.desk.words("serve", "--listen", "%s:%d" % address, "--count", "1", "--timeout", "5")
    script = "exec " + " ".join(f"'{word}'" for word in words) + " " + redirect
    run = subprocess.Popen(["sh", "-c", script], cwd=runner.desk.folder, stdin=subprocess.DEVNULL, stdout=subprocess.PIPE, stderr=subprocess.PIPE)
    what, name, output, end = f"{what}: serve", b"served-with-%d" % address[1], None, time.monotonic() + PATIENCE
    while output is None and run.poll() is None and time.monotonic() < end:
        output = output_to(address, post_of(name))
        time.sleep(0.02)
    found = ended(run)
    runner.judge(what, found, None, is_heard="2>" not in redirect)
    runner.differences.count("posts answered", bool(output))
    if output and name not in runner.run(f"{what}, afterwards", "list", "in")[1]:
        runner.differences.count("lost")
        runner.differences.differ(f"{what}: an answered post is gone")
    replies, is_all = replies_of(output or b"")
    runner.differences.expect(f"{what}: the reply", (is_all, [reply[0] for reply in replies]), (True, [200]))


def stream_run(runner, what, script, redirect, command):
    """One command by the shell; its status lies in a file."""
    with contextlib.suppress(FileNotFoundError):
        os.remove(runner.desk.path("status"))
    try:
        ran = subprocess.run(["sh", "-c", script], cwd=runner.desk.folder, stdin=subprocess.DEVNULL, capture_output=True, timeout=PATIENCE, check=False)
        for _ in range(200):
            if os.path.exists(runner.desk.path("status")) and os.path.getsize(runner.desk.path("status")):
                break
            time.sleep(0.02)
        with open(runner.desk.path("status"), encoding="ascii") as status:
            found = int(status.read()), ran.stdout, ran.stderr
    except (subprocess.TimeoutExpired, FileNotFoundError):
        found = "wait", b"", b""
    runner.judge(what, found, None, is_heard="2>" not in redirect and command != ["--help"])
    silent = ("full standard output", "pipe that nobody")
    prints = command[0] in ("check", "outstanding", "tick", "submit") or command in (["list", "in"], ["fetch", "1"], ["show", "1"])
    if any(word in what for word in silent) and prints and b"No" not in found[2]:
        runner.differences.expect(f"{what}: it is told", (found[0], found[2]), (1, b"refused: CannotWrite\n"))


@contextlib.contextmanager
def small_disk(folder, size):
    """A disk of so many bytes there; yields whether it could be mounted."""
    os.mkdir(folder)
    mounted = subprocess.run(["mount", "-t", "tmpfs", "-o", f"size={size}", "none", folder], capture_output=True, check=False).returncode == 0
    try:
        yield mounted
    finally:
        if mounted:
            subprocess.run(["umount", folder], check=False)


def full_disk(runner, size=2 * MEBIBYTE):
    """Posts until the disk is full; then every command; then with room again."""
    folder = runner.desk.path("disk")
    with small_disk(folder, size) as mounted:
        desk = Desk(runner.desk.program, folder)
        limited = Runner(desk, runner.differences)
        more = {} if mounted else {"preexec_fn": lambda: resource.setrlimit(resource.RLIMIT_FSIZE, (size, size)), "restore_signals": False}
        print(f"ok    the full disk is {'one that was mounted' if mounted else 'a limit for the size of a file, since none may be mounted'}", flush=True)
        write(desk, "filler", b"x" * (size // 4))
        write(desk, "order", b"an order")
        answered = fill(limited, more, size)
        while_full(limited, answered, more)
        if mounted:
            behind_clean_end(limited, answered)
            served_full(limited, answered)
        with contextlib.suppress(FileNotFoundError):
            os.remove(desk.path("filler"))
        found = limited.run("a post with room again", "post", text=post_of(b"room"), **({} if mounted else more))
        if mounted:
            runner.differences.expect("a post with room again", replies_of(found[1])[0][:1] and replies_of(found[1])[0][0][0], 200)
        listed = limited.run("list in, with room again", "list", "in")
        check_answered(limited, "with room again", answered, listed)


def fill(runner, more, size):
    """Posts one process after the other until one isn't answered by 200; the names of those that were."""
    answered = []
    for turn in range(3 * size // 100_000):
        name = b"full-%d" % turn
        found = runner.run(f"filling the disk, {turn}", "post", text=post_of(name, bytes(100_000)), **more)
        replies = replies_of(found[1])[0]
        if found[0] != 0 or not replies or replies[0][0] != 200:
            runner.differences.expect("the full disk", (found[0], found[2], [reply[:2] for reply in replies]) in (
                (3, b"store: Disk\n", []), (0, b"hint: replies with status 503: 1\n", [(503, "store fault")])), True)
            print(f"ok    full behind {len(answered)} posts: status {found[0]}, {found[2].decode().strip()}, {[reply[:2] for reply in replies]}", flush=True)
            return answered
        answered.append(name)
    runner.differences.differ("the disk never gets full")
    return answered


def behind_clean_end(runner, answered):
    """A clean end with some room, and then a disk without any: what only reads."""
    os.remove(runner.desk.path("filler"))
    runner.run("a clean end before the disk is full", "tick")
    while_full(runner, answered, {})
    # the log grows by 256 KiB at a time: so much room it has to find again
    write(runner.desk, "filler", b"x" * LOG_STEPS)


def output_to(address, post):
    """What comes back for a post; None where there is no connection."""
    with contextlib.suppress(OSError), socket.create_connection(address, timeout=PATIENCE) as link:
        link.sendall(post)
        link.shutdown(socket.SHUT_WR)
        with link.makefile("rb") as output:
            return output.read()
    return None


def post_to(address, post):
    """The first reply to a post; None where there is none."""
    reply = expected.reply_in(output_to(address, post) or b"", 0)
    return reply and reply[0]


def served_full(runner, answered, posts=6):
    """`serve` while the disk gets full, and when there is room again."""
    differences, names = runner.differences, [b"served-%d" % turn for turn in range(posts)]
    server = runner.desk.serve(posts + 2, 5)
    found = [post_to(server.address, post_of(name, bytes(100_000))) for name in names]
    write_all(runner.desk.path("rest"))
    found.append(post_to(server.address, post_of(b"served-none", bytes(100_000))))
    os.remove(runner.desk.path("rest"))
    os.remove(runner.desk.path("filler"))
    found.append(post_to(server.address, post_of(b"served-room")))
    status, ends, _ = server.finish()
    answered += [name for name, reply in zip([*names, b"served-none", b"served-room"], found) if reply and reply[0] == 200]
    differences.expect("serve on a full disk", (status, set(ends)), (0, {"Closed"}))
    differences.expect("serve on a full disk: the replies", {reply and reply[:2] for reply in found} <= {(200, None), (503, "store fault")}, True)
    refused = sum(bool(reply) and reply[0] == 503 for reply in found)
    told = [int(line.split(":")[-1]) for line in server.said if line.startswith("hint: replies with status 503: ")]
    differences.expect("serve on a full disk: how many replies of 503 it tells", sum(told), refused)
    if found[-1] and found[-1][0] == 503:
        differences.tell_known("serve answers 503 with room on the disk again; that it ends with `store: Disk` and status 3 is wanted")


def faults_of_the_disk(runner, most=60):
    """`serve` while the nth call of the system that syncs, or that writes to a file, fails, by `strace`: what was answered by 200 is recorded,
    and where the fault has shut the file `serve` ends with it behind the connection in which it came."""
    if not shutil.which("strace"):
        print("no strace: no faults of the disk are tried", flush=True)
        return
    runner.desk.store, ended, went_on = "faults.db", 0, 0
    for call in ("fdatasync", "pwrite64"):
        for turn in range(1, most):
            for name in os.listdir(runner.desk.folder):
                if name.startswith("faults.db"):
                    os.remove(runner.desk.path(name))
            runner.desk.run("post", text=post_of(b"before"))
            status, said, replies = served_with_a_fault(runner.desk, f"{call}:error=EIO:when={turn}")
            refused = [reply == 503 for reply in replies]
            what = f"serve, {call} {turn} fails"
            if status == 3:
                ended += bool(replies)
                runner.differences.expect(f"{what}: how it ends", (said[-1:], replies == [] or replies[-1] == 503), (["store: Disk"], True))
            else:
                went_on += any(refused)
                runner.differences.expect(f"{what}: how it ends", (status, set(replies) <= {200, 503}, len(replies)), (0, True, 3))
            listed = runner.run(f"{what}, afterwards", "list", "in")[1]
            lost = [turn for turn, reply in enumerate(replies) if reply == 200 and b"<fault-%d@x>" % turn not in listed]
            runner.differences.count("lost", len(lost))
            runner.differences.count("posts answered", replies.count(200))
            runner.differences.expect(f"{what}: what was answered is recorded", lost, [])
    print(f"ok    {2 * (most - 1)} faults of the disk: {ended} times serve ended behind a 503, {went_on} times it went on", flush=True)
    runner.desk.store = "station.db"


def served_with_a_fault(desk, fault, posts=3):
    """`serve` under that fault: its status, what it said, and the statuses of its replies."""
    words = ["strace", "-f", "-o", "/dev/null", "-e", "trace=" + fault.split(":")[0], "-e", "inject=" + fault,
             *desk.words("serve", "--listen", "127.0.0.1:0", "--count", str(posts), "--timeout", "5")]
    run = subprocess.Popen(words, cwd=desk.folder, stdin=subprocess.DEVNULL, stdout=subprocess.PIPE, stderr=subprocess.PIPE)
    first, replies = run.stderr.readline().decode(), []
    if first.startswith("listening: "):
        host, port = first[len("listening: "):].strip().rsplit(":", 1)
        for turn in range(posts):
            reply = post_to((host, int(port)), post_of(b"fault-%d" % turn))
            if reply is None:
                break
            replies.append(reply[0])
    _, said = run.communicate(timeout=PATIENCE)
    return run.returncode, [line for line in (first + said.decode()).splitlines() if line.startswith("store: ")], replies


def while_full(runner, answered, more):
    """The commands on a full disk: those that read give what is there, those that write are refused."""
    write_all(runner.desk.path("rest"))
    submit = ["submit", "--from", "Supplier", "--to", "Buyer", "order"]
    for turn, command in enumerate((["list", "in"], ["outstanding"], submit, ["post"], ["tick"], ["send"], ["list", "out"], ["fetch", "1"], ["list", "in"])):
        found = runner.run(f"a full disk: {command[0]}, {turn}", *command, text=post_of(b"on-a-full-disk", bytes(50_000)) if command == ["post"] else b"", **more)
        if command == ["list", "in"] and found[0] == 0:
            check_answered(runner, "on the full disk", answered, found)
        if command[0] in ("list", "outstanding", "fetch") and found[0] != 0:
            runner.differences.tell_known(f"on a full disk `{' '.join(command)}` ends with {found[2].decode().strip()!r}, status {found[0]}, since it begins a log")
        if command == ["post"] and found[1].startswith(b"HTTP/1.1 200"):
            answered.append(b"on-a-full-disk")
        if command[0] == "submit" and found[0] == 0:
            runner.differences.tell_known("a submit on the full disk found room")
    empty = [name for name in os.listdir(runner.desk.folder) if name.endswith("-wal") and not os.path.getsize(runner.desk.path(name))]
    runner.differences.expect("empty logs that are left on a full disk", empty, [])
    os.remove(runner.desk.path("rest"))


def write_all(path):
    """A file that takes all the room that is left (at most 64 MiB)."""
    with contextlib.suppress(OSError), open(path, "wb", buffering=0) as to:
        for piece in (65536, 4096, 512, 1):
            with contextlib.suppress(OSError):
                for _ in range(1024):
                    to.write(b"x" * piece)


def check_answered(runner, what, answered, listed):
    missing = [name for name in answered if b"<%s@x>" % name not in listed[1]]
    runner.differences.count("posts answered", len(answered) if what == "with room again" else 0)
    runner.differences.count("lost", len(missing))
    runner.differences.expect(f"{what}: what was answered is there", missing, [])


class Real:
    """A store with all kinds of entries, closed (one file) or killed (with its log), and what the commands say of it."""

    def __init__(self, runner, is_killed):
        self.desk, self.name = runner.desk, "killed" if is_killed else "closed"
        self.desk.store = f"{self.name}.db"
        write(self.desk, "order", b"an order")
        self.desk.run("submit", "--from", "Supplier", "--to", "Buyer", "order")
        self.desk.run("submit", "--from", "Supplier", "--to", "Depot", "order")
        self.desk.run("send")
        posts = [post_of(b"real-%d" % turn, b"%d" % turn * (turn * turn * 90)) for turn in range(24)]
        run = subprocess.Popen(self.desk.words("post"), cwd=self.desk.folder, stdin=subprocess.PIPE, stdout=subprocess.PIPE, stderr=subprocess.PIPE, bufsize=0)
        output = b""
        for post in posts:
            run.stdin.write(post)
            while len(replies_of(output)[0]) <= posts.index(post):
                output += os.read(run.stdout.fileno(), 65536)
        run.send_signal(signal.SIGKILL) if is_killed else run.stdin.close()
        run.wait()
        self.files = {name[len(self.desk.store):]: self.bytes_of(name) for name in os.listdir(self.desk.folder) if name.startswith(self.desk.store)}
        self.incoming, self.outgoing = (self.desk.run("list", kind)[1] for kind in ("in", "out"))
        self.contents = [readers.request_in(post).body for post in posts]

    def bytes_of(self, name):
        with open(self.desk.path(name), "rb") as file:
            return file.read()

    def lay(self, name, files):
        """Writes the files of a store under another name."""
        for old in os.listdir(self.desk.folder):
            if old.startswith(name):
                os.remove(self.desk.path(old))
        for ending, text in files.items():
            write(self.desk, name + ending, text)


def damaged(files, dice):
    """The files with random bytes changed or one of them cut; and what was done."""
    files, ending = dict(files), dice.choice(sorted(files))
    text = bytearray(files[ending])
    kind = dice.choice(("bytes", "bytes", "bytes", "a cut", "a page", "bytes behind"))
    if kind == "bytes":
        for _ in range(dice.choice((1, 1, 2, 8, 64))):
            at = dice.randrange(len(text)) if dice.randrange(4) else dice.randrange(min(len(text), 120))
            text[at] ^= dice.randrange(1, 256)
    elif kind == "a cut":
        del text[dice.randrange(len(text)):]
    elif kind == "a page":
        at, size = dice.randrange(len(text) // 4096) * 4096, dice.choice((4096, 512))
        text[at:at + size] = dice.choice((bytes(size), dice.randbytes(size)))
    else:
        text += dice.randbytes(dice.choice((1, 100, 4096, 40960)))
    files[ending] = bytes(text)
    return files, f"{kind} of FILE{ending}"


def is_prefix(part, whole):
    """Whether those lines are the first ones of the whole."""
    return whole.startswith(part) and (not part or part.endswith(b"\n"))


def stores(runner, count, dice):
    """Damaged stores: refused, or the answers are those of before, of a log's first part at least; and a new post is recorded."""
    reals, tally, gone, differences = [Real(runner, False), Real(runner, True)], {}, 0, runner.differences
    runner.desk.store = "damaged.db"
    for turn in range(count):
        real = reals[turn % 2]
        files, how = damaged(real.files, dice)
        real.lay("damaged.db", files)
        what = f"store {turn}, {real.name}, {how}"
        incoming = runner.run(f"{what}: list in", "list", "in")
        outgoing = runner.run(f"{what}: list out", "list", "out")
        differences.count("stores damaged")
        end = incoming[2].decode().split("\n")[0] if incoming[0] else "as before" if incoming[1] == real.incoming else "an earlier state"
        if incoming[0] == 0:
            is_right = incoming[1] == real.incoming or real.name == "killed" and is_prefix(incoming[1], real.incoming)
            is_right = is_right and outgoing[:2] == (0, real.outgoing)
            gone += real.incoming.count(b"\n") - incoming[1].count(b"\n") if is_right else 0
            if not is_right:
                end = "another answer"
                (differences.tell_known if "a page" in how else differences.differ)(f"{what}: another answer")
        tally[end] = tally.get(end, 0) + 1
        name = b"after-%d" % turn
        recorded(runner, what, runner.run(f"{what}: post", "post", text=post_of(name)), name)
        number = dice.randrange(1, len(real.contents) + 1)
        content = runner.run(f"{what}: fetch", "fetch", str(number))
        if content[0] == 0 and content[1] != real.contents[number - 1] and incoming[1].count(b"\n") >= number:
            (differences.tell_known if "a page" in how else differences.differ)(f"{what}: fetch {number} gives another content")
    runner.desk.store = "station.db"
    if gone:
        differences.tell_known(f"of {count} damaged stores {tally.get('an earlier state', 0)} with a damaged log are read as an earlier state, and nothing tells: "
                               f"{gone} posts that were answered before the damage are gone there")
    print(f"ok    {count} damaged stores: {', '.join(f'{number} {end}' for end, number in sorted(tally.items()))}", flush=True)


def main():
    words = argparse.ArgumentParser(description=__doc__.splitlines()[0])
    words.add_argument("--program", default=STARTER)
    words.add_argument("--seed", type=int, default=1)
    words.add_argument("--stores", type=int, default=1000)
    given = words.parse_args()
    differences, began, dice = Differences(), time.monotonic(), random.Random(given.seed)
    with room() as folder, tempfile.TemporaryDirectory() as shared:
        os.chmod(shared, 0o755)
        program = shutil.copy(os.path.abspath(given.program), shared) if given.program != STARTER else STARTER
        runner = Runner(Desk(program, folder), differences)
        for section, more in ((agreements, [dice]), (endless, []), (paths, []), (inputs, []), (rights, []), (streams, []), (full_disk, []),
                              (faults_of_the_disk, []), (great_store, []), (store_limit, []), (stores, [given.stores, dice])):
            begun = time.monotonic()
            section(runner, *more)
            print(f"ok    {section.__name__.replace('_', ' ')}: {time.monotonic() - begun:.1f} s", flush=True)
    print(f"{time.monotonic() - began:.0f} seconds, seed {given.seed}")
    return differences.end(ORDER)


if __name__ == "__main__":
    sys.exit(main())
