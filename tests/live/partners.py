"""Partners that a station sends to, by one thread: each listens, keeps what came over each connection, and answers in its own way. Used by
the cases of live.py that send, and by bench/live_sending.py."""
import asyncio
import base64
import collections
import hashlib
import re
import socket
import threading
import time

DOCUMENT = re.compile(rb"\r\nMessage-ID: <out-(\d+)@station\.example>\r\n")
NAMED = re.compile(rb"\r\nOriginal-Message-ID: <([^>]*)>\r\n")
LENGTH = re.compile(rb"\r\nContent-Length: (\d+)\r\n")
REPORT = b'multipart/report; report-type=disposition-notification; boundary="b"'
ANSWER = b"HTTP/1.1 200 OK\r\nAS2-Version: 1.0\r\nAS2-From: %s\r\nAS2-To: Supplier\r\nContent-Type: %s\r\nContent-Length: %d\r\n\r\n%s"
EMPTY = b"HTTP/1.1 200 OK\r\nContent-Length: 0\r\n\r\n"
POST = (b"POST /as2 HTTP/1.1\r\nHost: x\r\nAS2-Version: 1.0\r\nAS2-From: %s\r\nAS2-To: Supplier\r\nMessage-ID: <r%d@partner.example>\r\n"
        b"Content-Type: %s\r\nContent-Length: %d\r\n\r\n%s")
SECOND = 1.0  # between two bytes of a slow answer
WHILE = 0.05  # seconds
AGREED = """
[[partner]]
name = "{name}"
url = "http://127.0.0.1:{port}/as2"
receipt = "{receipt}"
digest = "sha1"
content_type = "application/edi-x12"
max_tries = {tries}
retry_seconds = {retry}
overdue_seconds = {overdue}
"""


def report_of(number, content, disposition=b"processed"):
    """The receipt for a document: its digest is computed here, over what came."""
    mic = base64.b64encode(hashlib.sha1(content).digest())
    return (b"--b\r\nContent-Type: text/plain\r\n\r\nIt came.\r\n--b\r\nContent-Type: message/disposition-notification\r\n\r\n"
            b"Original-Message-ID: <out-%d@station.example>\r\nDisposition: automatic-action/MDN-sent-automatically; %s\r\n"
            b"Received-content-MIC: %s, sha1\r\n\r\n--b--\r\n" % (number, disposition, mic))


def posted_report(name, number, content, disposition=b"processed"):
    """The same, as a post of its own."""
    report = report_of(number, content, disposition)
    return POST % (name.encode(), number, REPORT, len(report), report)


class Try:
    """What a partner saw of a try: when its first byte came, what came, how much was answered, and how the station ended it."""

    __slots__ = ("came", "head", "content", "is_answered", "ended")

    def __init__(self, came, head, content):
        self.came, self.head, self.content, self.is_answered, self.ended = came, head, content, False, None

    def is_taken(self):
        """The whole answer was written, and the station closed its side once it had read it."""
        return self.is_answered and self.ended == "closed"


class Caller(asyncio.Protocol):
    """A connection of the station's to a partner."""

    def __init__(self, partner):
        self.partner, self.text, self.tried, self.first, self.link = partner, bytearray(), None, None, None

    def connection_made(self, link):
        self.link = link
        self.partner.callers.add(self)
        self.partner.open += 1
        self.partner.links += 1
        self.partner.most = max(self.partner.most, self.partner.open)

    def data_received(self, piece):
        self.first = self.first or time.monotonic()
        self.text += piece
        head = self.text.find(b"\r\n\r\n") + 4
        if self.tried is None and head >= 4 and len(self.text) >= head + int(LENGTH.search(self.text).group(1)):
            self.tried = Try(self.first, bytes(self.text[:head]), bytes(self.text[head:]))
            self.partner.keep(self.tried)
            self.partner.way(self)

    def connection_lost(self, fault):
        self.partner.callers.discard(self)
        self.partner.open -= 1
        if self.tried:
            self.tried.ended = "reset" if fault else "closed"

    def answer(self, text):
        """Writes the last bytes of the answer."""
        if not self.link.is_closing():
            self.link.write(text)
            self.tried.is_answered = True

    def receipt(self):
        """The answer with the receipt."""
        report = report_of(int(DOCUMENT.search(self.tried.head).group(1)), self.tried.content)
        return ANSWER % (self.partner.name.encode(), REPORT, len(report), report)

    def drip(self, text):
        """Writes that text, a byte a second."""
        if self.link.is_closing():
            return
        if len(text) == 1:
            self.answer(text)
            return
        self.link.write(text[:1])
        asyncio.get_running_loop().call_later(SECOND, self.drip, text[1:])


def at_once(caller):
    """Answers with the receipt."""
    caller.answer(caller.receipt())


def never(_):
    """Answers nothing."""


def bare(caller):
    """Answers by 200, and no receipt."""
    caller.answer(EMPTY)


def soon(caller):
    """Answers with the receipt a while later, so that some links are open at any moment."""
    asyncio.get_running_loop().call_later(WHILE, lambda: caller.answer(caller.receipt()))


def slowly(caller):
    """Answers a byte a second: its last bytes alone, or the whole answer to a document of such a number, which takes minutes."""
    text = caller.receipt()
    if int(DOCUMENT.search(caller.tried.head).group(1)) % 200 != 50:
        caller.link.write(text[:-5])
        text = text[-5:]
    caller.drip(text)


class Partner:
    """A partner, who listens unless it has no way to answer; and what it saw of each document or receipt."""

    def __init__(self, name, way, receipt="sync", tries=2, retry=1, overdue=86_400):
        self.name, self.way, self.port = name, way, 0
        self.listen()
        self.tries_agreed = tries
        self.agreed = AGREED.format(name=name, port=self.port, receipt=receipt, tries=tries, retry=retry, overdue=overdue)
        self.tries, self.most, self.links = collections.defaultdict(list), 0, 0

    def listen(self):
        """Listens, or has a port of its own at which nobody does; the same port again where it had one."""
        self.socket = socket.create_server(("127.0.0.1", self.port)) if self.way else socket.socket()
        if not self.way:
            self.socket.bind(("127.0.0.1", self.port))
        self.port, self.open, self.callers = self.socket.getsockname()[1], 0, set()

    def keep(self, tried):
        """Keeps a try: under the document's number, or the identifier that a receipt names."""
        found = DOCUMENT.search(tried.head)
        self.tries[int(found.group(1)) if found else NAMED.search(tried.content).group(1).decode()].append(tried)

    def hang_up(self):
        """Closes each connection. The thread of its partners calls it."""
        for caller in list(self.callers):
            caller.link.close()

    def first(self, number):
        """When the first byte of a document came; None where none has."""
        seen = self.tries.get(number)
        return seen[0].came if seen else None


class Partners(threading.Thread):
    """Those partners, by one thread, until it is left."""

    def __init__(self, *partners):
        super().__init__(daemon=True)
        self.partners, self.loop, self.there = partners, asyncio.new_event_loop(), threading.Event()

    def run(self):
        asyncio.set_event_loop(self.loop)
        for partner in self.partners:
            if partner.way:
                self.loop.run_until_complete(self.loop.create_server(lambda partner=partner: Caller(partner), sock=partner.socket))
        self.loop.call_soon(self.there.set)
        self.loop.run_forever()

    def has_done(self, work):
        """Has the thread do that."""
        self.loop.call_soon_threadsafe(work)

    def __enter__(self):
        self.start()
        self.there.wait()
        return self

    def __exit__(self, *_):
        self.loop.call_soon_threadsafe(self.loop.stop)
        self.join()
        for partner in self.partners:
            partner.socket.close()


class Deaf:
    """An address that listens and accepts nobody, and whose queue is full: no connection to it comes about."""

    def __init__(self):
        self.socket = socket.socket()
        self.socket.bind(("127.0.0.1", 0))
        self.socket.listen(0)
        self.port, self.links = self.socket.getsockname()[1], []
        for _ in range(4):
            link = socket.socket()
            link.setblocking(False)
            link.connect_ex(("127.0.0.1", self.port))
            self.links.append(link)

    def close(self):
        for link in [*self.links, self.socket]:
            link.close()
