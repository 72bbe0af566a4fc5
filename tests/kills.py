"""Kills as2desk at random moments of post, send and serve over a file, and looks for what the theorem across restarts excludes
(docs/THEOREM.md): what was answered is there, of what was not at most the event under way, and all goes on from there. Prints a
line of counts for each command; the status is 1 where something is found that is excluded. tests/kills.sh runs it.

The program is ./as2desk, or the file that --program names; --kills sets how many there are (1000), --seed what is random.
"""
import argparse
import base64
import collections
import hashlib
import os
import random
import re
import signal
import socket
import subprocess
import sys
import tempfile
import threading
import time

TOP = os.path.dirname(os.path.dirname(os.path.abspath(__file__)))
STORE_LIMIT = 25  # rounds over one store, so that its listing stays short
POSTS = 3  # posts in one stream, or connections of one server
RETRY = 30  # seconds until a document is tried again

PARTNER = """[[partner]]
name = "{}"
url = "http://127.0.0.1:{}/as2"
receipt = "sync"
digest = "sha1"
content_type = "application/edi-x12"
max_tries = 2
retry_seconds = {}
overdue_seconds = 60
"""


class Wrong(Exception):
    """What the theorem excludes."""


class Station:
    """A station of the program: its agreements and its store."""

    def __init__(self, program, folder, name, partner, port):
        self.program, self.folder, self.name, self.store = program, folder, name, f"{name}.db"
        with open(os.path.join(folder, f"{name}.toml"), "w", encoding="ascii") as file:
            file.write(f'domain = "{name.lower()}.example"\n[[organization]]\nname = "{name}"\n{PARTNER.format(partner, port, RETRY)}')

    def words(self, moment, *command):
        return [self.program, "--agreements", f"{self.name}.toml", "--store", self.store, "--moment", str(moment), *command]

    def start(self, moment, *command):
        return subprocess.Popen(self.words(moment, *command), cwd=self.folder, stdin=subprocess.PIPE, stdout=subprocess.PIPE, stderr=subprocess.PIPE)

    def run(self, moment, *command, text=b""):
        """What is printed; a store that doesn't open is wrong."""
        ran = subprocess.run(self.words(moment, *command), cwd=self.folder, input=text, capture_output=True, check=False)
        if ran.returncode:
            raise Wrong(f"{command[0]}: status {ran.returncode}, {ran.stderr.decode().strip()}")
        return ran.stdout

    def clear(self):
        for name in os.listdir(self.folder):
            if name.startswith(self.store):
                os.remove(os.path.join(self.folder, name))


def end(run, wait):
    """Kills what runs after so many seconds; its output, and whether it had ended by itself."""
    time.sleep(wait)
    run.send_signal(signal.SIGKILL)
    output = run.stdout.read()
    run.stdout.close()
    run.stderr.close()
    return output, run.wait() == 0


def whole_replies(output):
    """The whole replies that the bytes begin with."""
    replies = []
    while True:
        head = output.find(b"\r\n\r\n")
        found = re.search(rb"\r\nContent-Length: (\d+)\r\n", output[:head + 2]) if head >= 0 else None
        if not found or len(output) < head + 4 + int(found.group(1)):
            return replies
        last = head + 4 + int(found.group(1))
        replies.append(output[:last])
        output = output[last:]


def post_of(number):
    """A post of Buyer under an identifier and with a content of its own, which asks for a receipt."""
    content = b"content of %d" % number
    return (b"POST /as2 HTTP/1.1\r\nHost: station\r\nAS2-Version: 1.0\r\nAS2-From: Buyer\r\nAS2-To: Supplier\r\nMessage-ID: <m%d@buyer.example>\r\n"
            b"Content-Type: application/edi-x12\r\nDisposition-Notification-To: as2@buyer.example\r\nContent-Length: %d\r\n\r\n%s"
            % (number, len(content), content))


def check_posts(station, numbers, replies, counts):
    """Those that were answered are there, of the others at most the first; and all are answered, the former as before."""
    listed = station.run(1000, "list", "in").decode()
    there = [number for number in numbers if f"<m{number}@buyer.example>" in listed]
    if there not in (numbers[:len(replies)], numbers[:len(replies) + 1]):
        raise Wrong(f"of {len(replies)} answered posts of {numbers} these are there: {there}")
    again = [whole_replies(station.run(1000, "post", text=post_of(number))) for number in numbers]
    if any(len(got) != 1 or not got[0].startswith(b"HTTP/1.1 200 ") for got in again) or [got[0] for got in again[:len(replies)]] != replies:
        raise Wrong(f"posts of {numbers} are answered otherwise after the stop")
    counts["posts answered"] += len(replies)
    counts["posts recorded without an answer"] += len(there) - len(replies)


def kill_posts(station, _partner, wait, number, counts):
    """A stream of posts is killed: at its end, or while the next post is awaited."""
    numbers = list(range(number, number + POSTS))
    run = station.start(1000, "post")
    try:
        run.stdin.write(b"".join(map(post_of, numbers)))
        run.stdin.flush()
        if random.random() < 0.5:
            run.stdin.close()
    except BrokenPipeError:
        pass
    output, ended = end(run, wait)
    check_posts(station, numbers, whole_replies(output), counts)
    return not ended


def exchange(port, text, seconds):
    """What a server answers, as far as it comes."""
    output = b""
    try:
        with socket.create_connection(("127.0.0.1", port), timeout=seconds) as link:
            link.sendall(text)
            link.shutdown(socket.SHUT_WR)
            while piece := link.recv(65536):
                output += piece
    except OSError:
        pass
    return output


def kill_server(station, _partner, wait, number, counts):
    """A server is killed while it is posted to, by one connection after the other."""
    numbers = list(range(number, number + POSTS))
    run = station.start(1000, "serve", "--listen", "127.0.0.1:0", "--count", str(POSTS))
    run.stdin.close()
    killer = subprocess.Popen(["sh", "-c", f"sleep {wait:.6f}; kill -9 {run.pid}"], stderr=subprocess.DEVNULL)
    port = re.match(rb"listening: 127\.0\.0\.1:(\d+)\n", run.stderr.readline())
    replies = []
    for each in numbers if port else []:
        got = whole_replies(exchange(int(port.group(1)), post_of(each), 5))
        if len(got) != 1:
            break
        replies += got
    killer.wait()
    _, ended = end(run, 0)
    check_posts(station, numbers, replies, counts)
    return not ended


def shown(station, number):
    """State, detail and tries of a document."""
    text = station.run(1000, "show", str(number)).decode()
    state, detail = re.search(r"^state: (\S) (\S+)$", text, re.M).groups()
    return state, detail, int(re.search(r"^tries: (\d+)$", text, re.M).group(1))


class Partner(threading.Thread):
    """Buyer, who answers each document with its receipt, and remembers the identifiers of those that came."""

    def __init__(self):
        super().__init__(daemon=True)
        self.came = set()
        self.listener = socket.create_server(("127.0.0.1", 0))
        self.port = self.listener.getsockname()[1]

    def run(self):
        while True:
            link, _ = self.listener.accept()
            with link:
                try:
                    self.answer(link)
                except OSError:  # the sender was killed
                    pass

    def answer(self, link):
        text = b""
        while b"\r\n\r\n" not in text or len(text) < text.find(b"\r\n\r\n") + 4 + int(re.search(rb"\r\nContent-Length: (\d+)\r\n", text).group(1)):
            piece = link.recv(65536)
            if not piece:
                return
            text += piece
        identifier = re.search(rb"\r\nMessage-ID: (\S+)\r\n", text).group(1)
        self.came.add(identifier.decode())
        mic = base64.b64encode(hashlib.sha1(text[text.find(b"\r\n\r\n") + 4:]).digest())
        body = (b"--part\r\nContent-Type: text/plain\r\n\r\nIt came.\r\n--part\r\nContent-Type: message/disposition-notification\r\n\r\n"
                b"Original-Message-ID: %s\r\nDisposition: automatic-action/MDN-sent-automatically; processed\r\nReceived-Content-MIC: %s, sha1\r\n\r\n"
                b"--part--\r\n" % (identifier, mic))
        link.sendall(b"HTTP/1.1 200 OK\r\nAS2-Version: 1.0\r\nAS2-From: Buyer\r\nAS2-To: Supplier\r\n"
                     b'Content-Type: multipart/report; report-type=disposition-notification; boundary="part"\r\nContent-Length: %d\r\n\r\n%s' % (len(body), body))


def kill_sender(station, partner, wait, number, counts):
    """The sending of a document is killed; then it is sent again, and its receipt settles it."""
    moment = 1000 + 10 * RETRY * number
    with open(os.path.join(station.folder, "document"), "wb") as file:
        file.write(b"document %d" % number)
    document = int(station.run(moment, "submit", "--from", "Supplier", "--to", "Buyer", "document"))
    name = f"<out-{document}@supplier.example>"
    partner.came.discard(name)  # a new store numbers anew
    run = station.start(moment, "send")
    run.stdin.close()
    output, ended = end(run, wait)
    came, now = name in partner.came, shown(station, document)
    counts[f"documents {now[1]}"] += 1
    if b"document %d: settled S processed\n" % document in output:
        wanted = [("S", "processed", 1)]
    else:
        wanted = [("R", "sending", 1), ("S", "processed", 1) if came else ("P", "new", 0)]
    if now not in wanted:
        raise Wrong(f"document {document}: {now}, which had come: {came}, told: {output}")
    station.run(moment + RETRY, "send")
    if shown(station, document)[:2] != ("S", "processed"):
        raise Wrong(f"document {document} isn't settled once it is sent again: {shown(station, document)}")
    return not ended


def section(what, kill, station, partner, kills, most):
    """So many kills, each at some moment; a run that had ended by then is none, and the next ones are killed sooner. Whether nothing is wrong."""
    counts, wrong, killed, at = collections.Counter(), 0, 0, 0
    while killed < kills:
        if at % STORE_LIMIT == 0:
            station.clear()
        try:
            is_hit = kill(station, partner, random.random() * most, POSTS * at + 1, counts)
        except Wrong as found:
            is_hit, wrong = True, wrong + 1
            print(f"      {found}")
            station.clear()
        killed, at, most = killed + is_hit, at + 1, most * (1.03 if is_hit else 0.96)
    print(f"{'WRONG' if wrong else 'ok   '} {kills} kills of {what}: {', '.join(f'{n} {name}' for name, n in sorted(counts.items()))}, {wrong} excluded", flush=True)
    return wrong == 0


def lasting(station, *command, text=b""):
    """How long the command takes, in seconds."""
    began = time.monotonic()
    station.run(1000, *command, text=text)
    return time.monotonic() - began


def main():
    words = argparse.ArgumentParser(description=__doc__.splitlines()[0])
    words.add_argument("--program", default=os.path.join(TOP, "as2desk"))
    words.add_argument("--kills", type=int, default=1000)
    words.add_argument("--seed", type=int, default=1)
    given = words.parse_args()
    random.seed(given.seed)
    with tempfile.TemporaryDirectory() as folder:
        partner = Partner()
        partner.start()
        station = Station(os.path.abspath(given.program), folder, "Supplier", "Buyer", partner.port)
        most = 1.2 * max(lasting(station, "post", text=b"".join(map(post_of, range(1, POSTS + 1)))) for _ in range(3))
        posts, sends = given.kills * 2 // 5, given.kills * 3 // 10
        fine = [section("post", kill_posts, station, partner, posts, most), section("send", kill_sender, station, partner, sends, most),
                section("serve", kill_server, station, partner, given.kills - posts - sends, 1.5 * most)]
    return 0 if all(fine) else 1


sys.exit(main())
