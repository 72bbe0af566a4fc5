"""See sending.sh, which runs this."""
import base64
import hashlib
import multiprocessing
import os
import re
import shutil
import socket
import sqlite3
import subprocess
import sys
import tempfile
import threading
import time

CONTENT = b"ISA*00*" + b"x" * 2_993
MIC = base64.b64encode(hashlib.sha1(CONTENT).digest())

RECEIPT = (
    b"--b\r\nContent-Type: text/plain\r\n\r\nreceived\r\n--b\r\nContent-Type: message/disposition-notification\r\n\r\n"
    b"Original-Message-ID: %s\r\nDisposition: automatic-action/MDN-sent-automatically; processed\r\n"
    b"Received-content-MIC: " + MIC + b", sha1\r\n\r\n--b--\r\n"
)
ANSWER = (
    b"HTTP/1.1 200 OK\r\nAS2-From: Buyer\r\nAS2-To: Supplier\r\n"
    b'Content-Type: multipart/report; report-type=disposition-notification; boundary="b"\r\nContent-Length: %d\r\n\r\n%s'
)
POST = (
    b"POST /as2 HTTP/1.1\r\nHost: 127.0.0.1\r\nConnection: close\r\nAS2-Version: 1.0\r\nAS2-From: Buyer\r\nAS2-To: Supplier\r\n"
    b"Message-ID: <m%d@x>\r\nContent-Type: application/edi-x12\r\nDisposition-Notification-To: a@x\r\nContent-Length: %d\r\n\r\n%s"
)


def partner(listener):
    """Answers each connection's request with its receipt."""
    while True:
        connection, _ = listener.accept()
        with connection:
            request = b""
            while not request.endswith(CONTENT):
                request += connection.recv(65536)
            identifier = re.search(rb"Message-ID: (<[^>]*>)", request).group(1)
            receipt = RECEIPT % identifier
            connection.sendall(ANSWER % (len(receipt), receipt))


class Desk:
    """The program over a store in a folder."""

    def __init__(self, program, top, folder, port):
        self.program, self.folder = program, folder
        with open(os.path.join(top, "examples", "agreements.toml")) as file:
            agreements = file.read().replace("127.0.0.1:8081", "127.0.0.1:%d" % port)
        with open(os.path.join(folder, "agreements.toml"), "w") as file:
            file.write(agreements)
        with open(os.path.join(folder, "order"), "wb") as file:
            file.write(CONTENT)

    def words(self, store, *command):
        return [self.program, "--agreements", "agreements.toml", "--store", store, "--moment", "1000", *command]

    def run(self, store, *command, before=()):
        words = [*before, *self.words(store, *command)]
        return subprocess.run(words, cwd=self.folder, stdin=subprocess.DEVNULL, stdout=subprocess.PIPE, stderr=subprocess.DEVNULL, check=True).stdout

    def path(self, name):
        return os.path.join(self.folder, name)


def copies(desk, store, other, count):
    """A store of so many documents that are to be sent: those of a store with one, over and over."""
    desk.run(store, "submit", "--from", "Supplier", "--to", "Buyer", "order")
    one, many = sqlite3.connect(desk.path(store)), sqlite3.connect(desk.path(other))
    many.executescript("\n".join(one.iterdump()))
    one.close()
    numbers = "WITH RECURSIVE n (i) AS (SELECT 2 UNION ALL SELECT i + 1 FROM n WHERE i < %d)" % count
    value = "CAST('out-' || i || '@station.example' AS BLOB)"
    spelled = "CAST('<out-' || i || '@station.example>' AS BLOB)"
    many.executescript(f"""
        BEGIN;
        {numbers} INSERT INTO outbox SELECT i, organization, partner, {value}, {spelled}, length, moment, tries, attempt, due, detail
            FROM n, outbox WHERE number = 1;
        {numbers} INSERT INTO outbox_piece SELECT i, position, bytes FROM n, outbox_piece WHERE number = 1;
        {numbers} INSERT INTO waiting SELECT place + i - 1, kind, i, due FROM n, waiting WHERE number = 1;
        UPDATE meta SET next_document = {count + 1};
        COMMIT;""")
    many.close()


def syncs(desk, trace, work):
    """How often the program syncs in that work, where `strace` is there."""
    if not shutil.which("strace"):
        return None
    work(("strace", "-f", "-e", "trace=fsync,fdatasync", "-o", desk.path(trace)))
    with open(desk.path(trace)) as file:
        return sum("sync(" in line for line in file)


def bare(desk, count):
    """The seconds of so many writes, each synced, into a file that has that length before."""
    file = os.open(desk.path("bare"), os.O_RDWR | os.O_CREAT)
    os.write(file, bytes(4096) * (count + 1))
    os.fsync(file)
    began = time.perf_counter()
    for number in range(count):
        os.pwrite(file, b"x" * 4096, 4096 * number)
        os.fdatasync(file)
    seconds = time.perf_counter() - began
    os.close(file)
    return seconds


def send(desk, store, count, before=()):
    began = time.perf_counter()
    said = desk.run(store, "send", before=before)
    seconds = time.perf_counter() - began
    if said.count(b"settled S processed\n") != count:
        sys.exit("not all documents were settled: %r" % said[:1000])
    return seconds


def serve(desk, store, count, before=()):
    words = [*before, *desk.words(store, "serve", "--listen", "127.0.0.1:0", "--count", str(count))]
    run = subprocess.Popen(words, cwd=desk.folder, stdin=subprocess.DEVNULL, stdout=subprocess.PIPE, stderr=subprocess.PIPE, text=True)
    port = int(run.stderr.readline().rsplit(":", 1)[1])
    # a line for each reply
    threading.Thread(target=run.stderr.read, daemon=True).start()
    began = time.perf_counter()
    for number in range(count):
        with socket.create_connection(("127.0.0.1", port)) as client:
            client.sendall(POST % (number, len(CONTENT), CONTENT))
            with client.makefile("rb") as reply:
                if not reply.read().startswith(b"HTTP/1.1 200 OK\r\n"):
                    sys.exit("post %d isn't answered" % number)
    seconds = time.perf_counter() - began
    run.stdout.read()
    run.wait()
    return seconds


def row(name, count, seconds, synced, alone):
    print(f"{name:24} {seconds:8.2f} s {count / seconds:8.0f} a second", end="")
    print("" if synced is None else f" {synced:7,} syncs, alone {alone:6.2f} s: {alone / seconds:4.0%}")


def main():
    top, program, *numbers = sys.argv[1:]
    count, documents = [int(number) for number in numbers] + [1_000, 100_000][len(numbers):]
    with tempfile.TemporaryDirectory() as folder, socket.socket() as listener:
        listener.bind(("127.0.0.1", 0))
        listener.listen(16)
        desk = Desk(program, top, folder, listener.getsockname()[1])
        answering = multiprocessing.Process(target=partner, args=(listener,), daemon=True)
        answering.start()

        print(f"a store in a file, documents of {len(CONTENT):,} bytes, a connection for each")
        copies(desk, "one.db", "due.db", count)
        shutil.copy(desk.path("due.db"), desk.path("traced.db"))
        sent = send(desk, "due.db", count)
        sent_syncs = syncs(desk, "send.trace", lambda before: send(desk, "traced.db", count, before))
        row(f"{count:,} documents sent", count, sent, sent_syncs, sent_syncs and bare(desk, sent_syncs))
        served = serve(desk, "in.db", count)
        served_syncs = syncs(desk, "serve.trace", lambda before: serve(desk, "traced-in.db", count, before))
        row(f"{count:,} connections served", count, served, served_syncs, served_syncs and bare(desk, served_syncs))
        answering.terminate()

        copies(desk, "first.db", "many.db", documents)
        began = time.perf_counter()
        words = desk.words("many.db", "list", "out")
        run = subprocess.Popen(words, cwd=folder, stdin=subprocess.DEVNULL, stdout=subprocess.PIPE)
        lines = sum(chunk.count(b"\n") for chunk in iter(lambda: run.stdout.read(65536), b""))
        _, status, used = os.wait4(run.pid, 0)
        seconds = time.perf_counter() - began
        if (status, lines) != (0, documents):
            sys.exit(f"list out: status {status}, {lines} lines")
        size = os.path.getsize(desk.path("many.db"))
        print(f"list out of {documents:,}: {seconds:.2f} s, {used.ru_maxrss / 1024:,.0f} MB held, over a file of {size / 1e6:,.0f} MB")


main()
