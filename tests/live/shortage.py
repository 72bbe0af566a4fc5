"""Cases of live.py: peers that leave a station no room for bytes, no descriptor, or no seat at its control socket, beside honest ones."""
import heapq
import itertools
import resource
import select
import socket
import threading
import time

from crowds import READS, WRITES
from doors import OPENING
from many import FEW, HEAD, Waiting, room_for
from running import Running, until
from slow import GREAT, beside, halt
from station import Desk
from turns import ASKED, IN_TIME, Poster, joined, waits_of
import running

PACE = 1.0  # seconds between two bytes of a slow body or a slow demand
AGAIN = 1.0  # seconds after which a peer that was cut comes again
BODY = HEAD + b"Content-Length: %d\r\n\r\n" % GREAT + bytes(GREAT - 1_000)  # what a slow body sends at once
CALM = 2 * GREAT  # so few bytes move in half a second once a station has no room
SIZES = (3_000, 700_000)  # of honest documents
MIDDLE = 0.75  # seconds that half of the honest posts may wait at most beside slow bodies, on a slow machine too
DEMAND = OPENING + (2_000_000).to_bytes(4, "big")  # the head of a demand that never becomes whole
EXTENDED = (b"1;" + b"e" * 1_000 + b"\r\nx\r\n") * 1_000  # chunks of a byte, with long extensions: a MB
SEATS = 16  # of the control socket
REQUEST = ASKED[:ASKED.index(b"\r\n\r\n") + 4]


class Holders:
    """Peers that send nearly all of a great document, and then a byte a second. Those that are cut come again, or stay away."""

    def __init__(self, address, count, again):
        self.address, self.again, self.moved = address, again, 0
        self.poll, self.links, self.due = select.epoll(), {}, [(0, number) for number in range(count)]

    def connect(self):
        """Has those connect whose time has come."""
        while self.due and self.due[0][0] <= time.monotonic():
            heapq.heappop(self.due)
            link = socket.socket()
            link.setblocking(False)
            link.connect_ex(self.address)
            self.links[link.fileno()] = [link, 0]
            self.poll.register(link, select.EPOLLOUT)

    def drop(self, number):
        self.links.pop(number)[0].close()
        if self.again:
            heapq.heappush(self.due, (time.monotonic() + AGAIN, number))

    def send(self, number, text):
        """Sends of that text what goes, and answers how much did."""
        try:
            return self.links[number][0].send(text)
        except BlockingIOError:
            return 0
        except OSError:
            self.drop(number)
            return 0

    def fill(self, view):
        """Sends of the bodies what can be sent at once."""
        for number, _ in self.poll.poll(0.1):
            sent = self.send(number, view[self.links[number][1]:])
            self.moved += sent
            if number in self.links:
                self.links[number][1] += sent
                if self.links[number][1] == len(view):
                    self.poll.modify(number, 0)

    def drip(self):
        """Sends a byte of each body of which all else went."""
        for number in list(self.links):
            if self.links[number][1] == len(BODY):
                self.send(number, b"x")


def hold(address, count, again, ready):
    """So many slow bodies, until the process is ended. They are ready once hardly anything moves any more."""
    room_for(count + 100)
    holders, view = Holders(address, count, again), memoryview(BODY)
    looked = dripped = began = time.monotonic()
    while True:
        holders.connect()
        holders.fill(view)
        now = time.monotonic()
        if now > dripped + PACE:
            dripped = now
            holders.drip()
        if now > looked + 0.5:
            if holders.moved < CALM or now > began + 10:
                ready.set()
            looked, holders.moved = now, 0


def side_by_side(station, given, size, name):
    """The waits of honest posters of documents of that size, side by side."""
    all_waits, content = [], bytes(size)

    def work(number):
        all_waits.append(waits_of(Poster(station.address, given.unanswered), b"%s-%d" % (name, number), given.seconds, content))

    threads = [threading.Thread(target=work, args=(number,)) for number in range(given.honest)]
    for thread in threads:
        thread.start()
    for thread in threads:
        thread.join()
    return joined(all_waits)


def bodies(given, folder, differences):
    """Slow bodies that fill the room for bytes: small and great honest documents beside them are answered in time."""
    told = []
    for again in (False, True):
        what = f"{given.bodies} that {'come again' if again else 'stay away'} once cut"
        with Running(Desk(given.program, f"{folder}-{again}")) as station:
            process = beside(hold, station.address, given.bodies, again)
            for size in SIZES:
                waits = side_by_side(station, given, size, b"size-%d" % size)
                about = f"{size} bytes beside {what}: {waits.told()}"
                differences.expect(f"bodies: in time, {about}", waits.are_in_time(IN_TIME + given.slack), True)
                differences.expect(f"bodies: the middle one, {about}", waits.middle() <= MIDDLE, True)
                told.append(about)
            halt(process)
            gave = sum(b"to give room" in line for line in station.lines())
            differences.expect("bodies: its memory has a bound", station.kib("VmHWM") <= 450 * 1024, True)
            told.append(f"{gave} gave room, peak {station.kib('VmHWM')} KiB")
    return f"{given.honest} honest posters, the middle and the longest wait: " + "; ".join(told)


class Idlers:
    """Peers that send a text once, and then nothing. Those that are let go come again a while later."""

    def __init__(self, address, count, text):
        self.address, self.text = address, text
        self.poll, self.links, self.due = select.epoll(), {}, [0] * count

    def connect(self):
        """Has those connect whose time has come."""
        while self.due and self.due[0] <= time.monotonic():
            heapq.heappop(self.due)
            link = socket.socket()
            link.setblocking(False)
            link.connect_ex(self.address)
            self.links[link.fileno()] = link
            self.poll.register(link, WRITES if self.text else READS)

    def has_gone(self, number, mask):
        """Sends the text of a peer once it is connected, and reads what comes. Whether the peer was let go."""
        try:
            if mask & select.EPOLLOUT:
                self.links[number].send(self.text)
                self.poll.modify(number, READS)
            return bool(mask & ~select.EPOLLOUT) and not self.links[number].recv(65536)
        except BlockingIOError:
            return False
        except OSError:
            return True

    def turn(self):
        self.connect()
        for number, mask in self.poll.poll(0.1):
            if self.has_gone(number, mask):
                self.links.pop(number).close()
                heapq.heappush(self.due, time.monotonic() + AGAIN)


def idle(address, count, text, ready):
    """So many idle peers, until the process is ended."""
    room_for(count + 100)
    idlers, began = Idlers(address, count, text), time.monotonic()
    while True:
        idlers.turn()
        if time.monotonic() > began + 0.3:
            ready.set()


def descriptors(given, folder, differences):
    """A station that has few descriptors, and idle peers that take them all: honest posts and a command are done in time."""
    told, most = [], IN_TIME + 1 + given.slack
    for text, what in ((b"", "say nothing"), (REQUEST, "made a request")):
        with Running(Desk(given.program, f"{folder}-{len(text)}")) as station:
            resource.prlimit(station.pid, resource.RLIMIT_NOFILE, (FEW, FEW))
            process = beside(idle, station.address, given.idle, text)
            asked = Waiting(station.desk, "outstanding")
            waits = waits_of(Poster(station.address, given.unanswered), b"idle", given.seconds)
            status = asked.ended(most)
            halt(process)
            asked.join(running.PATIENCE)
            about = f"{given.idle} that {what}: {waits.told()}"
            differences.expect(f"descriptors: posts are answered in time beside {about}", waits.are_in_time(most), True)
            differences.expect(f"descriptors: a command is done in time beside {given.idle} that {what}", status, 0)
            differences.expect("descriptors: it goes on", until(lambda: station.descriptors() < FEW, IN_TIME + given.slack), True)
        told.append(f"{about}, a command {asked.seconds:.1f} s")
    return f"{FEW} descriptors, the middle and the longest wait beside " + "; ".join(told)


def whisper(path, count, ready):
    """So many clients of a control socket that send a byte of a demand a second, until the process is ended. Those that are cut come again."""
    links = {}
    for turn in itertools.count():
        for place in range(count):
            try:
                if place not in links:
                    links[place] = 0, socket.socket(socket.AF_UNIX)
                    links[place][1].connect(path)
                    links[place][1].setblocking(False)
                at, link = links[place]
                link.send(DEMAND[at:at + 1] or b"\0")
                links[place] = at + 1, link
            except OSError:
                links.pop(place)[1].close()
        if turn > 1:
            ready.set()
        time.sleep(PACE)


def askers(given, folder, differences):
    """Slow clients at all seats of the control socket: a command and `stop` are done in time beside them."""
    desk, told = Desk(given.program, folder), []
    with Running(desk) as station:
        process = beside(whisper, desk.path(desk.store + ".ctl"), SEATS)
        for words in (("list", "in"), ("stop",)):
            asked = Waiting(desk, *words)
            differences.expect(f"askers: `{' '.join(words)}` is done in {given.asked:g} s", asked.ended(given.asked + given.slack), 0)
            told.append(f"`{' '.join(words)}` " + ("isn't done" if asked.is_alive() else f"took {asked.seconds:.1f} s"))
        halt(process)
        differences.expect("askers: it stops", until(lambda: not station.is_running(), 10 + given.slack), True)
    return f"beside {SEATS} that send a byte a second " + ", ".join(told)


def flood(station, text):
    """Sends that text over and over until nothing more is taken; whether the connection is then ended or answered in time."""
    link = socket.create_connection(station.address, timeout=IN_TIME)
    try:
        link.sendall(HEAD + b"Transfer-Encoding: chunked\r\n\r\n")
        for _ in range(20):
            link.sendall(text)
    except OSError:
        pass
    try:
        link.recv(65536)
    except socket.timeout:
        return False
    except OSError:
        pass
    return True


def extensions(given, folder, differences):
    """A body whose extensions of chunks pass the bytes that one connection may hold: it is over with it, and with nobody else."""
    began = HEAD + b"Content-Length: 3\r\n\r\na"
    with Running(Desk(given.program, folder)) as station:
        honest = [socket.create_connection(station.address, timeout=running.PATIENCE) for _ in range(3)]
        for link in honest:
            link.sendall(began)
        time.sleep(0.5)  # theirs began first
        is_over = flood(station, EXTENDED)
        time.sleep(IN_TIME + given.slack)
        answered = 0
        for link in honest:
            try:
                link.sendall(b"bc")
                answered += link.recv(65536).startswith(b"HTTP/1.1 200")
            except OSError:
                pass
        differences.expect("extensions: it is over with the one that sends them", is_over, True)
        differences.expect("extensions: those whose requests began before are answered", answered, len(honest))
    return f"{answered} of {len(honest)} others are answered"
