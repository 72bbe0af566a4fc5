#!/usr/bin/env python3
"""What `as2desk send --timeout 1` hints at, for each way in which a partner over a socket can fail; where faulty agreements have their
fault; and what `serve` says of its replies. Prints a line for each; the status is 1 where one isn't as wanted. Takes some 15 seconds. The program is ./as2desk, or the file that
the argument names.
"""
import os
import socket
import struct
import subprocess
import sys
import tempfile
import threading
import time

TOP = os.path.dirname(os.path.dirname(os.path.abspath(__file__)))
HEAD = b"HTTP/1.1 %s\r\nContent-Length: %d\r\n%s\r\n%s"

AGREEMENTS = """domain = "station.example"
[[organization]]
name = "Supplier"
[[partner]]
name = "Buyer"
url = "http://%s/as2"
receipt = "sync"
digest = "sha1"
content_type = "application/edi-x12"
max_tries = 2
retry_seconds = 30
overdue_seconds = 60
"""

failed = False


def tell(what, wanted, got):
    global failed
    failed = failed or wanted != got
    print("ok    %s" % what if wanted == got else "WRONG %s: wanted %r, got %r" % (what, wanted, got), flush=True)


def answer(status, fields=b"", body=b""):
    """A partner that reads a request, gives this answer, and waits for the end."""
    def peer(stream):
        stream.recv(1 << 20)
        stream.sendall(HEAD % (status, len(body), fields, body))
        stream.recv(1)
    return peer


def silent(stream):
    while stream.recv(1 << 16):
        pass


def dripping(stream):
    stream.recv(1 << 20)
    for _ in range(40):
        stream.sendall(b"H")
        time.sleep(0.5)


def reset(stream):
    stream.recv(1 << 20)
    stream.setsockopt(socket.SOL_SOCKET, socket.SO_LINGER, struct.pack("ii", 1, 0))


def cut(stream):
    stream.recv(1 << 20)
    stream.sendall(b"HTTP/1.1 200 OK\r\nContent-Length: 9\r\n\r\nabc")


def served(peer, listener):
    stream, _ = listener.accept()
    try:
        with stream:
            peer(stream)
    except OSError:
        pass


def hint(program, folder, url, peer=None, listener=None):
    """What `send` writes on both outputs, to a partner at that address."""
    with open(os.path.join(folder, "agreements.toml"), "w") as file:
        file.write(AGREEMENTS % url)
    store = os.path.join(folder, "station.db")
    if os.path.exists(store):
        os.remove(store)
    words = [program, "--agreements", os.path.join(folder, "agreements.toml"), "--store", store]
    subprocess.run([*words, "submit", "--from", "Supplier", "--to", "Buyer", os.path.join(TOP, "examples", "order.edi")], check=True, stdout=subprocess.DEVNULL)
    if peer:
        threading.Thread(target=served, args=(peer, listener), daemon=True).start()
    ran = subprocess.run([*words, "send", "--timeout", "1"], capture_output=True, text=True)
    return ran.stdout + ran.stderr


PEERS = [
    ("a silent partner", silent, "no byte for 1 s"),
    ("a partner that answers a byte at a time", dripping, "no whole answer in 10 s"),
    ("a partner that resets the connection", reset, "the connection broke"),
    ("an answer that is cut", cut, "no whole answer of HTTP"),
    ("no HTTP", lambda stream: (stream.recv(1 << 20), stream.sendall(b"220 mail\r\n\r\n")), "no whole answer of HTTP"),
    ("an answer that refuses", answer(b"403 Forbidden", b"Content-Type: text/plain\r\n", b"no"), "status 403"),
    ("a page", answer(b"200 OK", b"Content-Type: text/html\r\n", b"<p>"), "the answer is no receipt: no report"),
    ("a signed receipt", answer(b"200 OK", b"Content-Type: multipart/signed; boundary=x\r\n", b"--x--"), "the answer is no receipt: multipart/signed"),
]

GOOD = AGREEMENTS % "h"
FAULTS = [
    ("a quote is missing", GOOD.replace('name = "Buyer"', 'name = "Buyer'), "NotToml", "line 5"),
    ("a word in capital letters", GOOD.replace('"sync"', '"Sync"'), "WrongKind receipt", 'partner 1, "Buyer"'),
    ("a name twice", GOOD.replace('"Buyer"', '"Supplier"'), "NameTwice", 'partner 1, "Supplier"'),
    ("a name that doesn't print", GOOD.replace('"Supplier"', '"a\\u001b\\u00e9"'), "BadName", 'organization 1, "a\\x1b\\xc3\\xa9"'),
    ("a partner without a name", GOOD.replace('name = "Buyer"\n', ""), "Missing name", "partner 1"),
    ("no domain", GOOD.replace("domain", "# domain"), "Missing domain", None),
]


def replies(program):
    """What `serve` says on standard error of two connections: one of two posts, and one of something else."""
    words = [program, "--agreements", os.path.join(TOP, "examples", "agreements.toml"), "--store", ":memory:", "--moment", "1000"]
    with open(os.path.join(TOP, "examples", "plain-post.http"), "rb") as file:
        post = file.read()
    with subprocess.Popen([*words, "serve", "--listen", "127.0.0.1:0", "--count", "2"], stdout=subprocess.DEVNULL, stderr=subprocess.PIPE, text=True) as run:
        port = int(run.stderr.readline().rsplit(":", 1)[1])
        for request in (post * 2, b"no request\r\n\r\n"):
            with socket.create_connection(("127.0.0.1", port), timeout=20) as client:
                client.sendall(request)
                client.shutdown(socket.SHUT_WR)
                while client.recv(1 << 16):
                    pass
        return run.stderr.read()


def main():
    program = os.path.abspath(sys.argv[1]) if len(sys.argv) > 1 else os.path.join(TOP, "as2desk")
    with tempfile.TemporaryDirectory() as folder:
        said = "document 1: try failed\nhint: document 1: %s\n"
        tell("nobody listens", said % "connection refused", hint(program, folder, "127.0.0.1:1"))
        tell("no such host", said % "the host isn't known", hint(program, folder, "no-such-host.invalid"))
        for what, peer, wanted in PEERS:
            with socket.create_server(("127.0.0.1", 0)) as listener:
                tell(what, said % wanted, hint(program, folder, "127.0.0.1:%d" % listener.getsockname()[1], peer, listener))
        for what, text, fault, place in FAULTS:
            path = os.path.join(folder, "faulty.toml")
            with open(path, "w") as file:
                file.write(text)
            ran = subprocess.run([program, "--agreements", path, "--store", ":memory:", "check"], capture_output=True, text=True)
            tell(what, "agreements: %s\n" % fault + ("hint: %s\n" % place if place else ""), ran.stderr)
        absent = os.path.join(folder, "absent.toml")
        ran = subprocess.run([program, "--agreements", absent, "--store", ":memory:", "check"], capture_output=True, text=True)
        tell("agreements that are absent", 'refused: CannotRead\nhint: file "%s"\n' % absent, ran.stderr)
    said = "reply: 1000 Buyer Supplier <m1@x> 200\n" * 2 + "reply: 1000 - - - 400\n"
    tell("replies are noted", said, replies(program))
    return 1 if failed else 0


if __name__ == "__main__":
    sys.exit(main())
