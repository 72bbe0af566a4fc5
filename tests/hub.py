#!/usr/bin/env python3
"""Plays many connections over a hub and the station in random order, and looks what each is told: `python3 tests/hub.py [SEED [SCHEDULES]]`.

A schedule has up to twenty places and up to forty connections, each opened at a place, closed and the place given again. Real requests
come from them, cut anywhere: posts that the agreements accept, with and without receipts, by length or in chunks, identifiers that
repeat, others that the station answers with an error, HEAD and GET, other paths, last requests with bytes behind them, and bytes that
no request begins with. In any order there are rounds over random lists of places, also places that nobody has and places named twice,
rounds that are lost, parts of replies that go, closes, and moments.

Each request that a kept round answers is given to `serve_stream` over a second store, in the order in which they were answered, with
just its own bytes; and what went to the connection, with what is still to go, has to be these replies, byte by byte. Beside that it is
held that the room for bytes, the requests that wait, those that a round asks, and the connections that are done are the ones that they
have to be by what came and went; that nothing goes, nothing is asked of the station and nothing is forgotten in a lost round; that at
the end `serve_stream` writes nothing for what came and has no reply; and that both stores list the same entries then.

The program in tests/hub/ plays the schedules; this writes them, builds the program in a copy of the crates that it stands on, and tells
what it found. The files of the program end in .rattle, since `rt ci` refuses a file .rt that belongs to no crate; in the copy they end in
.rt. One file is of its proof, and is handed on likewise. Where these crates stand proved in crates/*/out and no source is newer, the program is proved over them and built by `rt run`, and
several processes play side by side. It then stays in .git/hub_driver, if .git is a folder. Where one of the crates isn't proved, nor is
the program: `rt try` builds it with checks, and plays in one process, many times slower.

The schedule of a seed is always the same. SEED (1 if not given) is the seed of the first, and each further one has the next; so
`hub.py 17 1` plays that of seed 17 alone. SCHEDULES is 10,000 if not given.

    --control   has the desk answer requests with the replies to those before, in one of three schedules: that has to be found out, and
                nothing else, or the status is 1
    --write     prints the schedules, and runs nothing
    --tried     uses `rt try` also where the crates are proved
    --jobs N    how many processes play a proved program; if not given, one a processor, and at most 4

The last line says how many schedules, connections, requests and lost rounds were compared, how many schedules differ, and how long it
took. The first ten of these are told with their seed and the step. The status is 1 where one differs, or wasn't played to its end."""
import argparse
import concurrent.futures
import os
import pathlib
import random
import re
import shutil
import subprocess
import sys
import tempfile
import time

TOP = pathlib.Path(__file__).resolve().parent.parent
sys.path[:0] = [str(TOP / "tools")]
sys.dont_write_bytecode = True
import build  # tools/build.py: which crates stand on which, and whether they are proved

PROGRAM = "hub_driver"
AGREEMENTS = TOP / "examples" / "agreements.toml"
USES = (
    "as2_text as2_names as2_media as2_mic as2_mdn as2_agreement as2_exchange as2_posts as2_views as2_records as2_lists as2_kept as2_station as2_messages "
    "as2_http as2_hub as2_front sqlite"
)
SCHEDULES_A_FILE = 50
MOST_PLACES, MOST_CONNECTIONS = 20, 40
SECONDS = 600
MOST_JOBS = 4

OPEN, LAST, REFUSED = "open", "last", "refused"
NAMES = ["Buyer", "Buyer", "Buyer", "Depot", '"A \\"B\\" \\\\ C"', "Nobody"]
ORGANIZATIONS = ["Supplier"] * 8 + ["Maker"]
TYPES = ["application/edi-x12"] * 6 + ["text/plain", "multipart/report", "application/pkcs7-mime"]
LATER = "Receipt-Delivery-Option: http://127.0.0.1:8082/mdn"
ASKED = "Disposition-Notification-To: a@x"
# What a post asks for; the more common ones stand more often.
ASKS = [
    [], [], [ASKED], [ASKED], [ASKED, "Disposition-Notification-Options: signed-receipt-micalg=optional, sha1"],
    [ASKED, "Disposition-Notification-Options: signed-receipt-micalg=optional, md5"], [ASKED, LATER], [ASKED, LATER],
    [ASKED, "Disposition-Notification-Options: signed-receipt-micalg=optional, sha-256, sha1"],
    [ASKED, "Disposition-Notification-Options: signed-receipt-micalg=required, sha-384"], [ASKED, "Receipt-Delivery-Option: later"],
]
LINE = b"UNH+1+ORDERS:D:96A:UN'"


def joined(lines, body=b""):
    """Returns a head of these lines, and a body."""
    return "".join(f"{line}\r\n" for line in [*lines, ""]).encode() + body


class Requests:
    """Writes the requests of connections."""

    def __init__(self, chance, identifiers):
        self.random = chance
        # Few, so that some meet, also of several connections.
        self.identifiers = [f"<m{number}@x>" for number in range(identifiers)]

    def content(self):
        size = self.random.choice([0, 1, 3, 40, 40, 200, 200, self.random.randrange(1500)])
        if self.random.randrange(300) == 0:
            size = self.random.choice([65_536, 65_537, 70_000])
        return (LINE * (size // len(LINE) + 1))[:size]

    def chunks(self, body):
        """Returns the body in chunks, some with extensions or with trailers behind them."""
        pieces = []
        while body:
            size = self.random.randint(1, max(1, min(len(body), 300)))
            extension = self.random.choice(["", "", "", ";a=b"])
            number = self.random.choice(["%x", "%X", "0%x"]) % size
            pieces.append(f"{number}{extension}\r\n".encode() + body[:size] + b"\r\n")
            body = body[size:]
        trailer = self.random.choice(["", "", "", "X-Trailer: 1\r\n"])
        return b"".join(pieces) + f"0\r\n{trailer}\r\n".encode()

    def framed(self, lines, body):
        """Returns a request of these lines and this body, and whether it is in chunks."""
        if self.random.randrange(3) == 0:
            return joined([*lines, self.random.choice(["Transfer-Encoding: chunked", "transfer-encoding:  CHUNKED "])], self.chunks(body))
        return joined([*lines, f"Content-Length: {len(body)}"], body)

    def fields(self):
        """Returns the fields of a post, in any order, mostly of one that the agreements accept."""
        lines = [
            f"AS2-From: {self.random.choice(NAMES)}", f"AS2-To: {self.random.choice(ORGANIZATIONS)}",
            f"Message-ID: {self.random.choice(self.identifiers)}", f"Content-Type: {self.random.choice(TYPES)}",
            *self.random.choice(ASKS),
        ]
        if self.random.randrange(20) == 0:
            lines.pop(self.random.randrange(len(lines)))
        lines += self.random.choice([[], ["AS2-Version: 1.0"], ["Host: 127.0.0.1:8080"], ["X-Long: " + "y" * self.random.randrange(300)]])
        self.random.shuffle(lines)
        return lines

    def post(self):
        path = "/as2" if self.random.randrange(15) else self.random.choice(["/", "/as2/", "/other"])
        return self.framed([f"POST {path} HTTP/1.1", *self.fields()], self.content())

    def look(self):
        """Returns a request of another method, mostly without a body."""
        method = self.random.choice(["GET", "HEAD", "HEAD", "PUT", "OPTIONS"])
        lines = [f"{method} {self.random.choice(['/as2', '/as2', '/'])} HTTP/1.1", "Host: x"]
        return joined(lines) if self.random.randrange(3) else self.framed(lines, self.content())

    def last(self):
        """Returns a request behind which none is read."""
        body = self.content()
        kinds = [
            ["POST /as2 HTTP/1.0", *self.fields(), f"Content-Length: {len(body)}"],
            ["POST /as2 HTTP/1.1", "Connection: close", *self.fields(), f"Content-Length: {len(body)}"],
            ["POST /as2 HTTP/1.1", "connection: Keep-Alive, CLOSE", *self.fields(), f"Content-Length: {len(body)}"],
            ["HEAD /as2 HTTP/1.0", f"Content-Length: {len(body)}"],
        ]
        return joined(self.random.choice(kinds), body)

    def refused(self):
        """Returns bytes that no request begins with."""
        post = ["POST /as2 HTTP/1.1", *self.fields()]
        noise = bytes(self.random.randrange(256) for _ in range(self.random.randrange(200)))
        kinds = [
            b"nonsense\r\n\r\n", b"GET\r\n\r\n", b"x" + noise.replace(b"\n", b"") + b"\r\n\r\n", b"POST /as2 HTTP/2.0\r\n\r\n",
            joined([*post, "No colon"]), joined(post), joined([*post, "Content-Length: 3", "Content-Length: 3"], b"abc"),
            joined([*post, "Content-Length: -1"]), joined([*post, "Content-Length: 1048577"]), joined([*post, "Content-Length: x"]),
            joined([*post, "Content-Length: 5", "Transfer-Encoding: chunked"], b"0\r\n\r\n"),
            joined([*post, "Transfer-Encoding: gzip, chunked"]), joined([*post, "Transfer-Encoding: chunked"], b"3\r\nabcd\r\n0\r\n\r\n"),
            joined([*post, "Transfer-Encoding: chunked"], b"zz\r\n"), joined([*post, "Transfer-Encoding: chunked"], b"100001\r\n"),
            joined(["POST /as2 HTTP/1.0", "Transfer-Encoding: chunked"], b"0\r\n\r\n"), joined(["HEAD /as2 HTTP/1.1", "Content-Length: x"]),
        ]
        if self.random.randrange(40) == 0:
            kinds = [joined([*post, "X-Long: " + "y" * 17_000, "Content-Length: 0"])]
        return self.random.choice(kinds)

    def blanks(self):
        """Returns the ends of lines that may stand before a request."""
        return self.random.choice([b""] * 8 + [b"\r\n", b"\n", b"\r\n\r\n"])

    def connection(self):
        """Returns the bytes of a connection, and of each request its kind and where it ends."""
        text, requests = b"", []
        for _ in range(self.random.choice([1, 1, 2, 3, 5])):
            text += self.blanks() + (self.post() if self.random.randrange(5) else self.look())
            requests.append((OPEN, len(text)))
        ending = self.random.randrange(6)
        if ending == 0:
            text += self.blanks() + self.last()
            requests.append((LAST, len(text)))
            text += self.random.choice([b"", b"more", self.post(), self.refused()])
        elif ending == 1:
            text += self.blanks() + self.refused()
            text += self.random.choice([b"", b"more", self.post()])
            requests.append((REFUSED, len(text)))
        elif ending == 2:
            post = self.post()
            text += post[:self.random.randrange(len(post))]
        return text, requests


class Schedule:
    """The schedule of a seed: the bounds, the connections, and the steps."""

    def __init__(self, seed):
        self.seed, self.random, self.swaps = seed, random.Random(seed), False
        self.places = self.random.choice([1, 2, 2, 3, 3, 5, 8, MOST_PLACES])
        self.is_tight = self.random.randrange(4) == 0
        count = min(MOST_CONNECTIONS, self.places + self.random.randrange(2 * self.places + 1))
        requests = Requests(self.random, self.random.choice([1, 3, 10, 100]))
        self.connections = [requests.connection() for _ in range(count)]
        self.way = self.random.choice(["taken", "played", "called"])
        # The records in SQLite take longer.
        self.records = self.random.choice(["SQLite", "lists", "lists", "lists"])
        # How many places there are, how many bytes of one and of all connections may wait, and how many requests a round answers.
        one, most = (2_000, 4_000 + 500 * self.places) if self.is_tight else (200_000, 2_000_000)
        self.bounds = [self.places, one, most, self.random.choice([1, 2, 3, 20, 20, 0 if self.random.randrange(20) == 0 else 7])]
        self.steps = list(self.stepped())

    def some_places(self):
        """Returns a list of places, of which some may be no places, or stand there twice."""
        found = self.random.sample(range(self.places), k=self.places)
        if self.random.randrange(2):
            found = self.random.choices(found, k=self.random.randint(0, self.places + 2))
        if self.random.randrange(8) == 0:
            found.insert(self.random.randrange(len(found) + 1), self.places + self.random.randrange(3))
        return " ".join(map(str, found))

    def size(self):
        """Returns how many bytes come or go."""
        most = 500 if self.is_tight else self.random.choice([3, 100, 1000, 10_000, 200_000])
        return self.random.randint(0 if self.random.randrange(20) == 0 else 1, most)

    def stepped(self):
        """Gives the steps. Those of a place whose connection has no more bytes are rarer, as are closes where there are some."""
        at, opened, left = {}, 0, {}
        step = {"opens": 12, "comes": 40, "turns": 12, "loses": 10, "goes": 20, "closes": 4, "moment": 1}
        for _ in range(40 + 16 * len(self.connections)):
            verb = self.random.choices(list(step), list(step.values()))[0]
            place = self.random.randrange(self.places + (self.random.randrange(30) == 0))
            if verb == "opens":
                if place not in at and place < self.places:
                    if opened == len(self.connections):
                        continue
                    at[place], opened = opened, opened + 1
                    left[at[place]] = len(self.connections[at[place]][0])
                yield f"opens {place} {at.get(place, 0)}"
            elif verb == "closes":
                if place in at and left[at[place]] > 0 and self.random.randrange(8):
                    continue
                at.pop(place, None)
                yield f"closes {place}"
            elif verb == "comes":
                size = self.size()
                if place in at and left[at[place]] <= 0 and self.random.randrange(4):
                    continue
                if place in at:
                    left[at[place]] -= size
                yield f"comes {place} {size}"
            elif verb == "goes":
                yield f"goes {place} {self.size()}"
            elif verb == "moment":
                yield f"moment {self.random.randrange(1, 100_000)}"
            else:
                yield f"{verb} {self.some_places()}".rstrip()

    def text(self):
        """Returns the schedule as the program reads it."""
        head = [self.records, self.way, "swaps" if self.swaps else "plain", *self.bounds, len(self.connections)]
        parts = [" ".join(map(str, head)).encode() + b"\n"]
        for text, requests in self.connections:
            words = [str(len(text)), *(f"{kind} {end}" for kind, end in requests)]
            parts += [" ".join(words).encode() + b"\n", text, b"\n"]
        parts += [f"{step}\n".encode() for step in self.steps]
        body = b"".join(parts)
        return f"{self.seed} {len(body)}\n".encode() + body + b"\n"


def below():
    """Returns the crates that the program stands on, the lowest first."""
    uses = build.crates_of(TOP / "crates.txt")
    uses[PROGRAM] = [it for it in USES.split() if it in uses]
    return build.below(PROGRAM, uses)


def are_proved(crates):
    """Whether all of these stand proved in their folders out/, and no source is newer."""
    uses = build.crates_of(TOP / "crates.txt")
    return all(build.Task(it, uses, "").is_done() for it in crates)


def copied(folder, crates, parts):
    """Copies these parts of the crates, and the program, with a crates.txt of these alone."""
    shutil.copy(TOP / "HANDLES", folder / "HANDLES")
    for crate in crates:
        for part in parts:
            if (TOP / "crates" / crate / part).is_dir():
                build.link_tree(TOP / "crates" / crate / part, folder / "crates" / crate / part)
    source = folder / "crates" / PROGRAM / "src"
    source.mkdir(parents=True)
    for file in (TOP / "tests" / "hub").glob("*.rattle"):
        shutil.copy(file, source / f"{file.stem}.rt")
    proof = folder / "crates" / PROGRAM / "proofs" / "second" / "Second" / "serve"
    proof.mkdir(parents=True)
    text = (TOP / "tests" / "hub" / "second.proof").read_text(encoding="utf-8")
    (proof / "Invariants.antt").write_text(text.replace("PROGRAM", PROGRAM), encoding="utf-8")
    listed = (TOP / "crates.txt").read_text(encoding="utf-8").splitlines(keepends=True)
    some = [it for it in listed if it.partition(":")[0].strip() in crates]
    (folder / "crates.txt").write_text("".join([*some, f"{PROGRAM}: {USES}\n"]), encoding="utf-8")


def run_of(words, folder, **how):
    """Runs a command in a folder without input, and returns what came of it, with what it wrote."""
    how |= {"stdin": subprocess.DEVNULL, "capture_output": True, "text": True, "errors": "replace", "check": False}
    return subprocess.run(words, cwd=folder, **how)


def built(place, jobs):
    """Proves and builds the program, unless it was kept and `rt` finds nothing changed, and returns whether it stands."""
    made, git = place / "out", TOP / ".git"
    if (git / PROGRAM).is_dir():
        shutil.copytree(git / PROGRAM, made)
    # it plays nothing here: behind the agreements no file is named
    run = run_of(["rt", "run", "--jobs", str(jobs), "--", str(AGREEMENTS)], place)
    if run.returncode != 0:
        print(f"rt run: status {run.returncode}: {(run.stdout + run.stderr)[-2000:]}", flush=True)
        return False
    if git.is_dir():
        shutil.copytree(made, git / PROGRAM, ignore=shutil.ignore_patterns("incremental", "*.o"), dirs_exist_ok=True)
    return True


def by_proved(folder, names, jobs):
    """Builds the program, and gives what it prints of each file in schedules/, each in a process of its own."""
    place = folder / "crates" / PROGRAM
    if not built(place, jobs):
        return

    def play(name):
        try:
            run = run_of([place / "out" / PROGRAM, AGREEMENTS, name], folder / "schedules", timeout=SECONDS)
        except subprocess.TimeoutExpired:
            return "", f"no end in {SECONDS} s"
        return run.stdout, f"status {run.returncode}: {run.stderr[-2000:]}"

    with concurrent.futures.ThreadPoolExecutor(jobs) as pool:
        for name, (printed, ended) in zip(names, pool.map(play, names)):
            if not re.search("^all: ", printed, re.M):
                print(f"the schedules from {int(name)} on were not played to the end: {ended}", flush=True)
            yield printed


def by_tried(folder):
    """Builds the program with checks and unproved, and gives what it prints of each file in schedules/, as soon as it is played to the end."""
    words = ["rt", "try", "--seconds", str(SECONDS), "--cases", str(folder / "schedules"), "--data", f"agreements.toml={AGREEMENTS}"]
    with tempfile.TemporaryFile("w+", errors="replace") as said:
        how = {"cwd": folder / "crates" / PROGRAM, "stdout": subprocess.PIPE, "stderr": said, "text": True, "errors": "replace"}
        with subprocess.Popen([*words, "--", "agreements.toml", "{}"], **how) as run:
            printed = ""
            for line in run.stdout:
                printed = line if line.startswith("== ") else printed + line
                if line.startswith("all: "):
                    yield printed
        said.seek(0)
        if run.returncode != 0:
            print(f"rt try: status {run.returncode}: {said.read()[-2000:]}", flush=True)


def printed_of(schedules, jobs, is_tried):
    """Plays the schedules, so many a file, and gives what was printed of each file."""
    with tempfile.TemporaryDirectory(prefix="hub-") as name:
        folder, crates, names = pathlib.Path(name), below(), []
        (folder / "schedules").mkdir()
        some = None
        for count, it in enumerate(schedules):
            if count % SCHEDULES_A_FILE == 0:
                names.append(f"{it.seed:09}")
            with open(folder / "schedules" / names[-1], "ab") as some:
                some.write(it.text())
        if are_proved(crates) and not is_tried:
            copied(folder, crates, [*build.PARTS, "out/rlib"])
            yield from by_proved(folder, names, jobs)
        else:
            copied(folder, crates, build.PARTS)
            yield from by_tried(folder)


class Found:
    """What was found: the schedules that differ, and how much was compared."""

    def __init__(self, schedules, wanted, how, tells=False):
        self.wanted, self.schedules, self.counts, self.differing = wanted, 0, [0, 0, 0], {}
        self.began = time.monotonic()
        for printed in printed_of(schedules, *how):
            self.take(printed, tells)
            if tells and self.schedules < wanted:
                print(self.summary(), flush=True)
        if tells:
            print(self.summary(), flush=True)

    def take(self, printed, tells):
        """Takes in what was printed of a file."""
        for seed, told in re.findall(r"^(\d+): (.*)", printed, re.M):
            self.schedules += 1
            counts = re.fullmatch(r"(\d+) connections, (\d+) requests, (\d+) lost rounds", told)
            if counts:
                self.counts = [one + int(more) for one, more in zip(self.counts, counts.groups())]
                continue
            if tells and len(self.differing) < 10:
                print(f"the schedule of seed {seed}: {told}", flush=True)
            self.differing[int(seed)] = told

    def summary(self):
        connections, requests, lost = self.counts
        return (
            f"{self.schedules} of {self.wanted} schedules, {connections} connections, {requests} requests, {lost} lost rounds compared, "
            f"{len(self.differing)} differ, {int(time.monotonic() - self.began)} s"
        )

    def is_whole(self):
        """Whether all schedules were played."""
        return self.schedules == self.wanted


def control(how):
    """Spoils the second of three schedules, and returns 0 if that one alone is found."""
    schedules = [it for it in map(Schedule, range(1, 100)) if it.places == MOST_PLACES][:3]
    schedules[1].swaps = True
    found = Found(schedules, 3, how)
    is_well = found.is_whole() and list(found.differing) == [schedules[1].seed]
    print("the control was found out" if is_well else f"THE CONTROL WAS NOT FOUND OUT: {found.differing}", flush=True)
    return 0 if is_well else 1


def main():
    words = argparse.ArgumentParser(description="Plays many connections over a hub and the station in random order.")
    words.add_argument("seed", nargs="?", type=int, default=1, metavar="SEED", help="the seed of the first schedule")
    words.add_argument("schedules", nargs="?", type=int, default=10000, metavar="SCHEDULES", help="how many schedules")
    words.add_argument("--control", action="store_true", help="spoil a schedule, which has to be found out")
    words.add_argument("--write", action="store_true", help="print the schedules, and run nothing")
    words.add_argument("--tried", action="store_true", help="use `rt try` also where the crates are proved")
    jobs = min(MOST_JOBS, len(os.sched_getaffinity(0)))
    words.add_argument("--jobs", type=int, default=jobs, metavar="N", help="how many processes play a proved program")
    given = words.parse_args()
    if given.jobs < 1:
        words.error("--jobs: at least 1")
    how = given.jobs, given.tried
    if given.control:
        return control(how)
    schedules = map(Schedule, range(given.seed, given.seed + given.schedules))
    if given.write:
        for it in schedules:
            sys.stdout.buffer.write(it.text())
        return 0
    found = Found(schedules, given.schedules, how, tells=True)
    return 0 if found.is_whole() and not found.differing else 1


sys.exit(main())
