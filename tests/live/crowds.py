"""Many connections to a station by one thread, each of which posts, reads the reply, and posts again. Used by the cases of live.py, and by
bench/live.py."""
import re
import select
import socket
import struct
import time

LENGTH = re.compile(rb"\r\nContent-Length: (\d+)\r\n")
READS, WRITES = select.EPOLLIN, select.EPOLLIN | select.EPOLLOUT


def whole_reply(text):
    """How long the reply is that the bytes begin with; None where it isn't whole."""
    head = text.find(b"\r\n\r\n")
    found = LENGTH.search(text, 0, head + 2) if head >= 0 else None
    if not found:
        return None
    end = head + 4 + int(found.group(1))
    return end if end <= len(text) else None


def status_of(reply):
    return int(reply[9:12])


def reset(link):
    """Ends a connection by a reset."""
    link.setsockopt(socket.SOL_SOCKET, socket.SO_LINGER, struct.pack("ii", 1, 0))
    link.close()


class Link:
    """A connection, the request that is under way, and what came of its reply."""

    __slots__ = ("socket", "name", "rest", "came", "began", "is_open", "writes")

    def __init__(self, address):
        self.socket = socket.socket()
        self.socket.setblocking(False)
        self.socket.setsockopt(socket.IPPROTO_TCP, socket.TCP_NODELAY, 1)
        self.name, self.rest, self.came, self.began, self.is_open, self.writes = None, b"", b"", 0.0, False, True
        self.socket.connect_ex(address)


class Crowd:
    """So many connections. `requests` gives names and requests; a connection that gets none stays open, and does nothing more."""

    def __init__(self, address, count, requests, is_kept=False):
        self.requests, self.is_kept = iter(requests), is_kept
        self.replies, self.times, self.cut, self.refused = {}, [], [], 0
        self.poll, self.links, self.busy = select.epoll(), {}, 0
        for _ in range(count):
            link = Link(address)
            self.links[link.socket.fileno()] = link
            self.poll.register(link.socket, WRITES)

    def connect(self, patience):
        """Waits until all are connected; how many are."""
        end = time.monotonic() + patience
        while not all(link.is_open for link in self.links.values()) and time.monotonic() < end:
            for number, mask in self.poll.poll(0.1):
                link = self.links[number]
                if link.socket.getsockopt(socket.SOL_SOCKET, socket.SO_ERROR):
                    self.drop(number)
                elif mask & select.EPOLLOUT and not link.is_open:
                    link.is_open = True
                    self.watch(number, link)
        return len(self.links)

    def drop(self, number):
        """Lets a connection go that has ended."""
        link = self.links.pop(number)
        self.poll.unregister(number)
        link.socket.close()
        if link.name is None:
            self.refused += not link.is_open
        else:
            self.busy -= 1
            self.cut.append(link.name)

    def begin(self, number, link):
        """Has a connection make the next request, if there is one."""
        link.name, link.rest = next(self.requests, (None, b""))
        if link.name is not None:
            self.busy += 1
            link.came, link.began = b"", time.perf_counter()
            self.write(number, link)

    def watch(self, number, link):
        """Has the system tell of what is waited for alone."""
        if link.writes != bool(link.rest):
            link.writes = bool(link.rest)
            self.poll.modify(number, WRITES if link.writes else READS)

    def write(self, number, link):
        try:
            link.rest = link.rest[link.socket.send(link.rest):]
        except BlockingIOError:
            pass
        except OSError:
            return self.drop(number)
        return self.watch(number, link)

    def read(self, number, link):
        """Reads what came; where the reply is whole, the next request begins."""
        try:
            piece = link.socket.recv(65536)
        except BlockingIOError:
            return
        except OSError:
            piece = b""
        link.came += piece
        if not piece:
            self.drop(number)
        elif (end := whole_reply(link.came)) is not None and link.name is not None:
            self.times.append(time.perf_counter() - link.began)
            self.replies[link.name] = link.came[:end] if self.is_kept else status_of(link.came)
            self.busy -= 1
            self.begin(number, link)

    def run(self, seconds):
        """Has them post until the requests are used up, all are cut, or so many seconds are over; the seconds that it took."""
        began = time.perf_counter()
        for number, link in list(self.links.items()):
            link.is_open = True
            if link.name is None:
                self.begin(number, link)
        while self.busy and time.perf_counter() - began < seconds:
            for number, mask in self.poll.poll(0.1):
                link = self.links.get(number)
                if link and mask & select.EPOLLOUT and link.rest:
                    self.write(number, link)
                if number in self.links and mask & ~select.EPOLLOUT:
                    self.read(number, link)
        return time.perf_counter() - began

    def run_on(self, quiet):
        """The same, until no reply has come for so many seconds."""
        before = -1
        while self.busy != 0 or before < 0:
            before = len(self.replies)
            self.run(quiet)
            if len(self.replies) == before:
                return

    def end(self):
        """Ends those that are left, and what they have under way with them."""
        for number in list(self.links):
            self.drop(number)
        self.poll.close()

    def __enter__(self):
        return self

    def __exit__(self, *_):
        self.end()


def at_place(times, share):
    """The time that so great a share of them doesn't pass."""
    ordered = sorted(times)
    return ordered[min(len(ordered) - 1, int(len(ordered) * share))] if ordered else float("nan")
