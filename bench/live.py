"""The measuring part of live.sh: python3 live.py PEER POSTERS AGREEMENTS FOLDER [OPTIONS]."""
import argparse
import os
import pathlib
import re
import socket
import statistics
import subprocess
import sys
import time

from posts import HEAD, without_store

TOP = pathlib.Path(__file__).resolve().parent.parent
sys.path[:0] = [str(TOP / "tests" / "live")]
from crowds import Crowd, at_place  # connections that post side by side

SIZE = 3_000
PATIENCE = 600  # seconds that anything may take
LEAST, MOST_KIB = 0.6, 32 * 1024  # of the C program's posts at 64 connections; of memory at connections that do nothing
HERTZ = os.sysconf("SC_CLK_TCK")


def built():
    """The program that was proved and built here, or the release."""
    subprocess.run([TOP / "as2desk", "--version"], stdout=subprocess.DEVNULL, check=True)
    return next(path for path in (TOP / "crates/as2desk/out/as2desk", TOP / "dist/as2desk") if path.exists())


def posts_of(count):
    """So many posts, each under an identifier of its own."""
    body = (b"UNH+1+ORDERS:D:96A:UN'" * (SIZE // 22 + 1))[:SIZE]
    return [(number, HEAD.format(number=number, framing=f"Content-Length: {SIZE}").encode() + body) for number in range(count)]


class Server:
    """A process that listens, and says where on standard error: `run` or `serve`."""

    def __init__(self, given, *words):
        base = [given.program, "--agreements", given.agreements, "--store", f"{given.folder}/store", "--moment", "1000"]
        self.base, said = base, f"{given.folder}/said"
        with open(said, "wb") as to:
            self.process = subprocess.Popen([*base, *words, "--listen", "127.0.0.1:0", "--idle", "600"], stdin=subprocess.DEVNULL, stdout=to, stderr=to)
        end = time.monotonic() + PATIENCE
        while not (found := re.search(rb"^listening: \S+:(\d+)\n", read(said), re.M)):
            if self.process.poll() is not None or time.monotonic() > end:
                self.process.kill()
                sys.exit(f"{words[0]}: {read(said).decode()}")
            time.sleep(0.01)
        self.address = "127.0.0.1", int(found.group(1))

    def seconds(self):
        """The seconds of a processor that it used."""
        fields = read(f"/proc/{self.process.pid}/stat").rsplit(b")", 1)[1].split()
        return (int(fields[11]) + int(fields[12])) / HERTZ

    def kib(self):
        return int(re.search(rb"VmRSS:\s+(\d+)", read(f"/proc/{self.process.pid}/status")).group(1))

    def descriptors(self):
        return len(os.listdir(f"/proc/{self.process.pid}/fd"))

    def end(self):
        """Ends it; how many posts it had recorded."""
        if self.process.poll() is None:
            subprocess.run([*self.base, "stop"], check=False, stderr=subprocess.DEVNULL)
        self.process.wait(PATIENCE)
        return subprocess.run([*self.base, "list", "in"], stdout=subprocess.PIPE, check=True).stdout.count(b"\n")


def read(path):
    with open(path, "rb") as file:
        return file.read()


def crowd(given, address, connections, posts, what):
    """The seconds that the posts take over so many connections, and the time that one of a hundred passes: by `posters.c`, which takes less of
    a processor than what is measured."""
    words = [given.posters, str(address[1]), str(connections), str(len(posts)), str(SIZE)]
    done = subprocess.run(words, stdout=subprocess.PIPE, timeout=PATIENCE, check=False)
    if done.returncode:
        sys.exit(f"{what}: {connections} connections that post didn't come to their end")
    seconds, late = done.stdout.split()
    return float(seconds), float(late)


def served(given, posts, connections, *words):
    """The same by a program that listens; of its time also the share that it had a processor for."""
    without_store(given.folder)
    server = Server(given, *words)
    used = server.seconds()
    seconds, late = crowd(given, server.address, connections, posts, words[0])
    share = (server.seconds() - used) / seconds
    if server.end() != len(posts):
        sys.exit(f"{words[0]}: not all posts are recorded")
    return seconds, late, share


def peer_stream(given, posts):
    """The seconds of the C program over a stream from a file."""
    without_store(given.folder)
    with open(f"{given.folder}/posts", "wb") as to:
        to.writelines(text for _, text in posts)
    with open(f"{given.folder}/posts", "rb") as stream, open(f"{given.folder}/replies", "wb") as replies:
        began = time.perf_counter()
        subprocess.run([given.peer, f"{given.folder}/store"], stdin=stream, stdout=replies, check=True)
        return time.perf_counter() - began, float("nan"), float("nan")


def peer_connection(given, posts):
    """The seconds of the C program over one connection."""
    without_store(given.folder)
    with socket.create_server(("127.0.0.1", 0)) as listener:
        with Crowd(listener.getsockname(), 1, posts) as posters:
            link, _ = listener.accept()
            link.setsockopt(socket.IPPROTO_TCP, socket.TCP_NODELAY, 1)
            with link, subprocess.Popen([given.peer, f"{given.folder}/store"], stdin=link, stdout=link) as process:
                link.close()
                posters.connect(PATIENCE)
                seconds = posters.run(PATIENCE)
                done, late = len(posters.replies), at_place(posters.times, 0.99)
                posters.end()
                process.wait(PATIENCE)
    if done != len(posts):
        sys.exit(f"peer: of {len(posts)} posts {done} were answered")
    return seconds, late, float("nan")


def idle(given):
    """The memory of `run` with no connection, with so many that do nothing, and once each has posted."""
    without_store(given.folder)
    server = Server(given, "run")
    none, first = server.kib(), server.descriptors()
    with Crowd(server.address, given.idle, posts_of(given.idle)) as posters:
        posters.connect(PATIENCE)
        end = time.monotonic() + PATIENCE
        while server.descriptors() < first + given.idle and time.monotonic() < end:
            time.sleep(0.05)
        there, kib = server.descriptors() - first, server.kib()
        posters.run(PATIENCE)
        behind = server.kib()
    server.end()
    print(f"{there:,} connections that do nothing: {kib:,} KiB (at most {MOST_KIB:,} wanted), without them {none:,}; once each has posted "
          f"{behind:,}, of which {given.idle * SIZE // 1024:,} are the documents")


def measure(given):
    """Prints the posts a second of each, and their ratios."""
    posts = posts_of(given.posts)
    ways = {"peer, a stream from a file": lambda: peer_stream(given, posts), "peer, 1 connection": lambda: peer_connection(given, posts),
            "serve, 1 connection": lambda: served(given, posts, 1, "serve", "--count", "1")}
    for count in given.connections:
        ways[f"run, {count:,} connection{'s' * (count > 1)}"] = lambda count=count: served(given, posts, count, "run")
    found = {name: [] for name in ways}
    for _ in range(given.rounds):
        for name, way in ways.items():
            found[name].append(way())
    middle = {name: [statistics.median(column) for column in zip(*times)] for name, times in found.items()}
    rates = {name: given.posts / seconds for name, (seconds, _, _) in middle.items()}
    stream, serve = rates["peer, a stream from a file"], rates["serve, 1 connection"]
    print(f"{given.posts:,} posts of {SIZE:,} bytes, each recorded before it is answered; the middle of {given.rounds} rounds")
    print(f"{'':28} {'a second':>9} {'of peer':>8} {'of serve':>9} {'99th percentile':>16} {'of a processor':>15}")
    for name, (_, late, share) in middle.items():
        wanted = f"  (at least {LEAST} of peer wanted)" if name == "run, 64 connections" else ""
        parts = ["" if value != value else text for value, text in ((late, f"{late * 1000:.1f} ms"), (share, f"{share:.0%}"))]
        print(f"{name:28} {rates[name]:9,.0f} {rates[name] / stream:8.2f} {rates[name] / serve:9.2f} {parts[0]:>16} {parts[1]:>15}{wanted}", flush=True)


def main():
    words = argparse.ArgumentParser(description=__doc__)
    for name in ("peer", "posters", "agreements", "folder"):
        words.add_argument(name)
    words.add_argument("--program", type=os.path.abspath)
    words.add_argument("--posts", type=int, default=4_000)
    words.add_argument("--rounds", type=int, default=3)
    words.add_argument("--connections", type=int, nargs="*", default=[1, 16, 64, 1_000])
    words.add_argument("--idle", type=int, default=1_000)
    given = words.parse_args()
    given.program = str(given.program or built())
    measure(given)
    idle(given)


main()
