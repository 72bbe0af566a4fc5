#!/usr/bin/env python3
"""No peer holds the port: what `as2desk serve` and `send` do with a peer that is slow, deaf or silent, with `--timeout 1`.

A single wait for a peer ends after 1 second, and a connection as a whole after 10. Each peer's connection ends within that, and the
next connection is served. Prints a line for each peer, with the seconds that its connection took; the status is 1 where one isn't
as wanted. Takes some 15 seconds. The program is ./as2desk, or the file that the argument names.
"""
import os
import socket
import subprocess
import sys
import tempfile
import threading
import time

TOP = os.path.dirname(os.path.dirname(os.path.abspath(__file__)))
WAIT, WHOLE = 1, 10
# what a machine under load may add, in seconds
SLACK = 3

AGREEMENTS = """
domain = "station.example"
[[organization]]
name = "Supplier"
[[partner]]
name = "Buyer"
url = "http://%s/as2"
receipt = "sync"
digest = "sha1"
content_type = "application/edi-x12"
max_tries = 2
retry_seconds = 30
overdue_seconds = 60
"""

with open(os.path.join(TOP, "examples", "plain-post.http"), "rb") as file:
    POST = file.read()

failed = False
told = 0


def tell(what, seconds, least, most, wrong=None):
    global failed, told
    told += 1
    if wrong is None and not least - 0.05 <= seconds <= most + SLACK:
        wrong = "wanted %d to %d seconds" % (least, most)
    failed = failed or wrong is not None
    print("%-5s %5.1f s  %s%s" % ("ok" if wrong is None else "WRONG", seconds, what, "" if wrong is None else ": " + wrong), flush=True)


class Desk:
    """The program, over one store and its agreements in a folder of their own."""

    def __init__(self, program, folder, partner="127.0.0.1:1"):
        self.program = program
        self.folder = folder
        os.mkdir(folder)
        with open(os.path.join(folder, "agreements.toml"), "w") as agreements:
            agreements.write(AGREEMENTS % partner)
        with open(os.path.join(folder, "order"), "wb") as order:
            order.write(b"abc")

    def words(self, *command):
        return [self.program, "--agreements", "agreements.toml", "--store", "station.db", "--moment", "1000", *command]

    def run(self, *command):
        return subprocess.run(self.words(*command), cwd=self.folder, stdin=subprocess.DEVNULL, capture_output=True, check=True).stdout.decode()


class Server:
    """`serve` of two connections: a peer's, and the next one."""

    def __init__(self, desk, waits):
        words = desk.words("serve", "--listen", "127.0.0.1:0", "--count", "2", *waits)
        self.run = subprocess.Popen(words, cwd=desk.folder, stdin=subprocess.DEVNULL, stdout=subprocess.PIPE, stderr=subprocess.PIPE, text=True)
        line = self.run.stderr.readline()
        assert line.startswith("listening: "), line
        host, port = line[len("listening: "):].strip().rsplit(":", 1)
        self.address = (host, int(port))
        # a line of each reply comes there: unread, a pipe holds 64 KiB of them, and then the program waits
        threading.Thread(target=self.run.stderr.read, daemon=True).start()

    def is_served(self):
        """Whether the plain post is answered with 200."""
        with socket.create_connection(self.address, timeout=WAIT + SLACK) as client:
            client.sendall(POST)
            client.shutdown(socket.SHUT_WR)
            with client.makefile("rb") as reply:
                return reply.read().startswith(b"HTTP/1.1 200 OK\r\n")

    def ends(self):
        """How its connections ended, as it tells."""
        lines = self.run.stdout.read().splitlines()
        self.run.wait(timeout=WHOLE + SLACK)
        return [line[len("connection: "):] for line in lines if line.startswith("connection: ")]


def silent(client):
    """Until the other side ends the connection."""
    client.recv(1)


def byte_by_byte(client):
    """A byte of the post every half second, until the connection is ended."""
    client.settimeout(WAIT / 2)
    for byte in POST:
        client.send(bytes([byte]))
        try:
            client.recv(1)
            return
        except socket.timeout:
            pass


def kept_open(client):
    """A post, and then nothing until the connection is ended."""
    client.sendall(POST)
    while client.recv(65536):
        pass


def deaf(client):
    """Requests without end, and no reply is read."""
    client.settimeout(WAIT / 2)
    requests = b"GET /as2 HTTP/1.1\r\nHost: x\r\n\r\n" * 1000
    rest = requests
    while True:
        try:
            rest = rest[client.send(rest):] or requests
        except socket.timeout:
            pass


def serving(desk, what, peer, least, most, end, waits=("--timeout", str(WAIT))):
    """How long the peer's connection lasts; then the next is served."""
    server = Server(desk, waits)
    client = socket.socket()
    # of the replies that nobody reads little fits
    client.setsockopt(socket.SOL_SOCKET, socket.SO_RCVBUF, 4096)
    client.connect(server.address)
    began = time.monotonic()
    try:
        peer(client)
    except ConnectionError:
        pass
    seconds = time.monotonic() - began
    served = server.is_served()
    ends = server.ends()
    client.close()
    wrong = None
    if not served:
        wrong = "the next connection isn't served"
    elif ends != [end, "Closed"]:
        wrong = "the ends are " + ", ".join(ends)
    tell("serve, " + what, seconds, least, most, wrong)


def mute(partner):
    """Accepts, and says nothing."""
    connection, _ = partner.accept()
    connection.recv(65536)
    time.sleep(WHOLE + SLACK)


def slow(partner):
    """Answers a byte every half second."""
    connection, _ = partner.accept()
    try:
        connection.recv(65536)
        for byte in b"HTTP/1.1 200 OK\r\nX: " + b"x" * 1000:
            connection.send(bytes([byte]))
            time.sleep(WAIT / 2)
    except ConnectionError:
        pass


def full(partner):
    """Accepts nobody, and no more connections wait there."""
    address = partner.getsockname()
    waiting = [socket.socket() for _ in range(8)]
    for client in waiting:
        client.setblocking(False)
        client.connect_ex(address)
    time.sleep(WHOLE + SLACK)


def sending(program, folder, what, partner, least, most):
    """How long a try lasts with that partner."""
    with socket.socket() as listener:
        listener.bind(("127.0.0.1", 0))
        listener.listen(0)
        threading.Thread(target=partner, args=(listener,), daemon=True).start()
        time.sleep(0.2)
        desk = Desk(program, folder, "%s:%d" % listener.getsockname())
        desk.run("submit", "--from", "Supplier", "--to", "Buyer", "order")
        began = time.monotonic()
        said = desk.run("send", "--timeout", str(WAIT))
        seconds = time.monotonic() - began
    tell("send, " + what, seconds, least, most, None if said == "document 1: try failed\n" else "it says " + said)


def main():
    program = os.path.abspath(sys.argv[1]) if len(sys.argv) > 1 else os.path.join(TOP, "as2desk")
    subprocess.run([program, "--version"], stdout=subprocess.DEVNULL, check=False)
    with tempfile.TemporaryDirectory() as top:
        folder = lambda name: os.path.join(top, name)
        cases = [
            lambda: serving(Desk(program, folder("a")), "a peer that is silent", silent, WAIT, WAIT, "ReadFault"),
            lambda: serving(Desk(program, folder("b")), "a peer that sends a byte every half second", byte_by_byte, WHOLE, WHOLE, "ReadFault"),
            lambda: serving(Desk(program, folder("c")), "a peer that reads no reply", deaf, WAIT, WHOLE, "WriteFault"),
            lambda: serving(Desk(program, folder("g")), "a peer that keeps its connection open behind a post, with --idle 1", kept_open, 1, 1, "Closed",
                            ("--idle", "1")),
            lambda: serving(Desk(program, folder("h")), "a peer that keeps its connection open behind a post", kept_open, 2, 2, "Closed", ()),
            lambda: sending(program, folder("d"), "a partner that accepts and says nothing", mute, WAIT, WAIT),
            lambda: sending(program, folder("e"), "a partner that answers a byte every half second", slow, WHOLE, WHOLE),
            lambda: sending(program, folder("f"), "a partner that accepts nobody", full, WAIT, WAIT),
        ]
        if "--serve" in sys.argv:  # `serve` alone
            cases = cases[:5]
        threads = [threading.Thread(target=case) for case in cases]
        for thread in threads:
            thread.start()
        for thread in threads:
            thread.join()
    # a case that broke off has told nothing
    sys.stdout.flush()
    os._exit(1 if failed or told < len(cases) else 0)


main()
