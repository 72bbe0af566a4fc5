"""Clients that pipeline beside honest ones: a case of live.py, used by bench/turns.py too."""
import select
import socket
import time

from crowds import READS, WRITES, at_place, status_of, whole_reply
from many import room_for
from running import STOPPED, Running
from slow import beside, halt
from station import Desk, post_of

ASKED = b"GET / HTTP/1.1\r\nHost: x\r\n\r\n" * 2_000  # what a pipelining client sends, over and over
SETTLED = 0.5  # seconds after which such clients are at work, once each has sent something
IN_TIME = 2  # seconds in which an honest post is to be answered, besides the slack
MISSED = 2  # posts without an answer after which no more are made
FEWEST = 5  # posts that are made, however long they take


class Pipeline:
    """A connection that makes requests without an end."""

    __slots__ = ("socket", "rest", "has_sent")

    def __init__(self, address):
        self.socket, self.rest, self.has_sent = socket.socket(), ASKED, False
        self.socket.setblocking(False)
        self.socket.connect_ex(address)

    def send(self):
        """Sends once; False if the connection has ended."""
        try:
            self.rest = self.rest[self.socket.send(self.rest):] or ASKED
            self.has_sent = True
        except BlockingIOError:
            pass
        except OSError:
            return False
        return True

    def read(self):
        """Reads replies, and throws them away; False if the connection has ended."""
        try:
            return self.socket.recv(1 << 20) != b""
        except BlockingIOError:
            return True
        except OSError:
            return False


class Pipelines:
    """So many such connections, each of which is made anew when it ends."""

    def __init__(self, address, count, reads):
        self.address, self.watched = address, WRITES if reads else select.EPOLLOUT
        self.poll, self.links = select.epoll(), {}
        for _ in range(count):
            self.add()

    def add(self):
        link = Pipeline(self.address)
        self.links[link.socket.fileno()] = link
        self.poll.register(link.socket, self.watched)

    def move(self):
        """Sends and reads where that can be done."""
        for number, mask in self.poll.poll(0.1):
            link = self.links[number]
            goes_on = not mask & READS or link.read()
            if goes_on and mask & select.EPOLLOUT:
                goes_on = link.send()
            if not goes_on or mask & select.EPOLLHUP:
                self.poll.unregister(number)
                self.links.pop(number).socket.close()
                self.add()

    def are_at_work(self):
        """Whether each has sent something."""
        return all(link.has_sent for link in self.links.values())


def pipeline(address, count, reads, ready):
    """So many clients that pipeline, and read the replies or none, until the process is ended."""
    room_for(count + 100)
    pipelines = Pipelines(address, count, reads)
    while not pipelines.are_at_work():
        pipelines.move()
    end = time.monotonic() + SETTLED
    while True:
        pipelines.move()
        if time.monotonic() > end:
            ready.set()


class Poster:
    """An honest client that posts over one connection, or over a new one each time. It gives up a post after `most` seconds."""

    def __init__(self, address, most, is_kept=False):
        self.address, self.most, self.is_kept, self.link = address, most, is_kept, None

    def close(self):
        if self.link:
            self.link.close()
            self.link = None

    def reply(self, text, end):
        """The reply to a request; None if none came by then."""
        if not self.link:
            self.link = socket.create_connection(self.address, timeout=self.most)
        self.link.settimeout(self.most)
        self.link.sendall(text)
        came = b""
        while whole_reply(came) is None:
            self.link.settimeout(max(0.001, end - time.perf_counter()))
            piece = self.link.recv(65536)
            if not piece:
                return None
            came += piece
        return came

    def post(self, text):
        """The seconds that a post took, and the status of its answer; None if there was none."""
        began = time.perf_counter()
        try:
            reply = self.reply(text, began + self.most)
        except OSError:
            reply = None
        if reply is None or not self.is_kept:
            self.close()
        return time.perf_counter() - began, reply and status_of(reply)


class Waits:
    """How long honest posts waited, and how many of them had no answer or another than 200. Of these each counts as `most` seconds."""

    def __init__(self, most):
        self.most, self.times, self.missed = most, [], 0

    def add(self, seconds, status):
        self.missed += status != 200
        self.times.append(seconds if status == 200 else max(seconds, self.most))

    def middle(self):
        return at_place(self.times, 0.5)

    def are_in_time(self, most):
        """Whether all were answered, and none waited for longer than so many seconds."""
        return self.missed == 0 and max(self.times) <= most

    def told(self):
        """The middle one and the longest, in words."""
        missed = f", {self.missed} of {len(self.times)} not answered" if self.missed else ""
        return f"{1000 * self.middle():.0f} and {1000 * max(self.times):.0f} ms{missed}"


def joined(parts):
    """The waits of several posters together."""
    whole = Waits(parts[0].most)
    for part in parts:
        whole.times += part.times
        whole.missed += part.missed
    return whole


def waits_of(poster, name, seconds, content=b"abc"):
    """The waits of honest posts under that name, which are made for so many seconds."""
    waits, end = Waits(poster.most), time.monotonic() + seconds
    while waits.missed < MISSED and (time.monotonic() < end or len(waits.times) < FEWEST):
        waits.add(*poster.post(post_of(b"%s-%d" % (name, len(waits.times)), content)))
    poster.close()
    return waits


def among(station, given, count, reads):
    """The waits beside so many pipelining clients: over new connections, and over one that is kept."""
    process = beside(pipeline, station.address, count, reads)
    found = []
    for is_kept in (False, True):
        name = b"among-%d-%d-%d" % (count, reads, is_kept)
        found.append(waits_of(Poster(station.address, given.unanswered, is_kept), name, given.seconds))
    halt(process)
    return found


def pipelining(given, folder, differences):
    """Clients that pipeline, and read the replies or don't: each honest post beside them is answered in time."""
    told = []
    for count in given.pipelining:
        for reads in (True, False):
            what = f"{count} that {'read' if reads else 'do not read'}"
            with Running(Desk(given.program, f"{folder}-{count}-{reads}")) as station:
                found = among(station, given, count, reads)
                differences.expect(f"pipelining: it stops, beside {what}", station.stop(), STOPPED)
            for waits, how in zip(found, ("new connections", "one that is kept")):
                about = f"{what}, {how}: {waits.told()}"
                differences.expect(f"pipelining: in time beside {about}", waits.are_in_time(IN_TIME + given.slack), True)
                told.append(about)
    return "the middle and the longest wait beside " + "; ".join(told)
