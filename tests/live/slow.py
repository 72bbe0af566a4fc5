"""Cases of live.py: slow and greedy peers beside honest ones."""
import itertools
import multiprocessing
import select
import socket
import time

from crowds import Crowd, at_place
from many import HEAD, LOOKS, MOST_BUSY, PATIENT, half_closed, numbered, room_for
from running import STOPPED, Running
from station import Desk, post_of
import running

PAUSE = 0.5  # seconds between two bytes of a slow peer
STUCK = 0.5  # of the slack: so long a peer that doesn't read could send nothing more, and is taken to be stuck
MOST = 2  # times what the honest ones wait without slow ones
GREAT = 1_048_576
READER = post_of(b"r" * 900)  # its reply is long too


def connected(address, count, text):
    """So many connections, each behind that text."""
    links = []
    for _ in range(count):
        link = socket.create_connection(address, timeout=running.PATIENCE)
        link.sendall(text)
        links.append(link)
    return links


def deaf(address):
    """A peer that makes requests, and reads no reply."""
    link = socket.socket()
    link.setsockopt(socket.SOL_SOCKET, socket.SO_RCVBUF, 4096)
    link.settimeout(running.PATIENCE)
    link.connect(address)
    link.setblocking(False)
    return link


def fill(links, quiet):
    """Has the deaf peers make requests until nothing more is taken from them for so many seconds."""
    rests, moved = {link.fileno(): (link, READER) for link in links}, time.monotonic()
    poll = select.poll()
    for link in links:
        poll.register(link, select.POLLOUT)
    while links and time.monotonic() < moved + quiet:
        for number, _ in poll.poll(100):
            link, rest = rests[number]
            try:
                rests[number] = link, rest[link.send(rest):] or READER * 10
                moved = time.monotonic()
            except BlockingIOError:
                pass


def annoy(address, count, quiet, ready):
    """Slow peers, so many of each kind and a fifth of that who don't read, until the process is ended."""
    heads = connected(address, count, HEAD + b"X: ")
    bodies = connected(address, count, HEAD + b"Content-Length: 1000000\r\n\r\n")
    readers = [deaf(address) for _ in range(count // 5)]
    fill(readers, quiet)
    ready.set()
    for _ in itertools.count():
        time.sleep(PAUSE)
        for link in heads + bodies:
            try:
                link.send(b"x")
            except OSError:
                pass


def beside(work, *words):
    """Starts a process of such peers, and waits until they are all there."""
    ready = multiprocessing.Event()
    process = multiprocessing.Process(target=work, args=(*words, ready), daemon=True)
    process.start()
    if not ready.wait(10 * running.PATIENCE):
        raise RuntimeError("the slow peers aren't there")
    return process


def halt(process):
    process.kill()
    process.join()


def waited(station, given, differences, name):
    """How long honest posters wait for each reply."""
    posts = ((number, text) for number, text in numbered(name, 1_000_000, bytes(3000)))
    with Crowd(station.address, given.honest, posts) as posters:
        posters.run(given.seconds)
        differences.expect("slow: the honest ones are answered by 200", set(posters.replies.values()), {200})
        differences.expect("slow: none of them is cut", posters.cut, [])
        return posters.times


def slow(given, folder, differences):
    """Slow heads, slow bodies and peers that don't read beside honest posters: the times of these with them and without them."""
    desk, ratios, told = Desk(given.program, folder), [], []
    room_for(3 * given.slow + 200)
    with Running(desk, *PATIENT) as station:
        first = station.descriptors()
        waited(station, given, differences, b"warm")
        for turn in range(given.rounds):
            alone = waited(station, given, differences, b"alone-%d" % turn)
            process = beside(annoy, station.address, given.slow, STUCK * given.slack)
            there = station.descriptors() - first
            differences.expect("slow: slow ones alone don't keep it busy", station.used_in(LOOKS) <= LOOKS * MOST_BUSY, True)
            among = waited(station, given, differences, b"among-%d" % turn)
            still = station.descriptors() - first
            halt(process)
            differences.expect("slow: the slow ones are there all the time", min(there, still) >= 2 * given.slow + given.slow // 5, True)
            differences.expect("slow: they are let go", station.has_descriptors(first), True)
            ratios.append(at_place(among, 0.99) / at_place(alone, 0.99))
            told.append(f"{1000 * at_place(alone, 0.99):.1f} and {1000 * at_place(among, 0.99):.1f} ms")
        peak = station.kib("VmHWM")
        differences.expect("slow: odd lines", station.odd_lines(), [])
        differences.expect("slow: it stops", station.stop(), STOPPED)
    ratio = sorted(ratios)[len(ratios) // 2]
    differences.expect(f"slow: the honest ones wait at most {MOST} times as long", ratio <= MOST, True)
    return (f"{given.honest} honest posters, their 99th percentile without and with {2 * given.slow + given.slow // 5} slow ones: {', '.join(told)}; "
            f"the middle ratio {ratio:.2f} (at most {MOST}), peak {peak} KiB")


def hoard(address, count, ready):
    """Greedy peers, so many, who stop a byte before the end of a document of the greatest size, and connect anew when they are cut."""
    text = HEAD + b"Content-Length: %d\r\n\r\n" % GREAT + bytes(GREAT - 1)
    links, began, asked = {}, time.monotonic(), select.poll()
    for _ in itertools.count():
        while len(links) < count:
            link = socket.socket()
            link.setblocking(False)
            link.connect_ex(address)
            links[link.fileno()] = link, text
            asked.register(link, select.POLLOUT)
        for number, mask in asked.poll(100):
            link, rest = links[number]
            try:
                rest = rest[link.send(rest):]
            except BlockingIOError:
                pass
            except OSError:
                asked.unregister(number)
                links.pop(number)[0].close()
                continue
            links[number] = link, rest
            if not rest:
                asked.modify(number, 0)
        if time.monotonic() > began + 2:
            ready.set()


def greedy(given, folder, differences):
    """Peers that hold more bytes than a station takes in: honest ones are served beside them, and its memory has a bound."""
    desk, longest = Desk(given.program, folder), 0.0
    with Running(desk, *PATIENT) as station:
        process = beside(hoard, station.address, given.greedy)
        for number in range(given.turns):
            began = time.monotonic()
            differences.expect("greedy: an honest post", half_closed(station, post_of(b"honest-%d" % number)), ([200], b""))
            longest = max(longest, time.monotonic() - began)
        halt(process)
        room = sum(b"to give room" in line for line in station.lines())
        peak = station.kib("VmHWM")
        differences.expect("greedy: the honest ones wait", longest <= 5 + given.slack, True)
        differences.expect("greedy: it stops", station.stop(), STOPPED)
    differences.expect("greedy: memory", peak <= 400 * 1024, True)
    return f"beside {given.greedy} that hold 1 MiB each, {given.turns} honest ones waited {longest:.2f} s at most, {room} gave room, peak {peak} KiB"
