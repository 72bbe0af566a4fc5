"""Cases of live.py: a thousand connections at once, connections that break, and a station that has no descriptor or no place left."""
import re
import resource
import socket
import threading
import time

from crowds import Crowd, reset, status_of, whole_reply
from running import STOPPED, Running, left_behind, until
from station import Desk, post_of
import running

HEAD = b"POST /as2 HTTP/1.1\r\nHost: x\r\nAS2-From: Buyer\r\nAS2-To: Supplier\r\nMessage-ID: <broken@x>\r\n"
PLACES = 1000  # connections that a station serves at once
FEW = 64  # descriptors
PATIENT = ("--timeout", "600", "--idle", "600")  # a station that waits long for peers
LOOKS = 2  # seconds for which it is looked at
MOST_BUSY = 0.25  # of a processor, of a station that nobody gives work


def numbered(name, count, content=b"abc"):
    """So many posts under that name and a number."""
    for number in range(count):
        yield number, post_of(b"%s-%d" % (name, number), content)


def recorded(desk, name):
    """The numbers of the posts of that name that `list in` has, in order."""
    status, output, said = desk.run("list", "in", patience=running.PATIENCE)
    if status:
        raise RuntimeError(f"list in: status {status}, {said.decode()}")
    return sorted(int(number) for number in re.findall(rb"<%s-(\d+)@x>" % name, output))


def crowd(given, folder, differences):
    """A thousand connections at once, each of which posts a document: all are answered by 200, and all are recorded."""
    desk, count = Desk(given.program, folder), given.connections
    with Running(desk, *PATIENT) as station:
        first = station.descriptors()
        with Crowd(station.address, count, numbered(b"crowd", count, bytes(3000))) as posters:
            differences.expect("crowd: connected", posters.connect(running.PATIENCE), count)
            until(lambda: station.descriptors() >= first + min(count, PLACES))
            together = station.descriptors() - first
            seconds = posters.run(running.PATIENCE)
            statuses = list(posters.replies.values())
            longest = max(posters.times, default=0)
        differences.expect("crowd: connected at once", together >= min(count, PLACES), True)
        differences.expect("crowd: answered by 200", (statuses.count(200), len(statuses)), (count, count))
        differences.expect("crowd: all are recorded, through the station", recorded(desk, b"crowd"), list(range(count)))
        differences.expect("crowd: a line for each", sum(b" 200 processed" in line for line in station.lines()), count)
        differences.expect("crowd: odd lines", station.odd_lines(), [])
        peak = station.kib("VmHWM")
        differences.expect("crowd: it stops", station.stop(), STOPPED)
    differences.expect("crowd: all are recorded, without it", recorded(desk, b"crowd"), list(range(count)))
    return (f"{count} connections, {together} at once, {statuses.count(200)} answered by 200 in {seconds:.2f} s, the last after {longest:.2f} s, "
            f"peak {peak} KiB")


def heard(link):
    """What comes until the other side ends the connection."""
    link.settimeout(running.PATIENCE)
    text = b""
    try:
        while piece := link.recv(65536):
            text += piece
    except ConnectionError:
        pass
    return text


def replies_in(text):
    """The statuses of the whole replies, and what stands behind them."""
    statuses = []
    while (end := whole_reply(text)) is not None:
        statuses.append(status_of(text))
        text = text[end:]
    return statuses, text


def half_closed(station, text):
    """What is answered to a peer that shuts its side right behind that text."""
    with socket.create_connection(station.address, timeout=running.PATIENCE) as link:
        link.sendall(text)
        link.shutdown(socket.SHUT_WR)
        return replies_in(heard(link))


def break_off(station, text, reads=0):
    """A peer that resets its connection behind that text, or once it has read so many bytes of replies."""
    link = socket.socket()
    link.setsockopt(socket.SOL_SOCKET, socket.SO_RCVBUF, 4096)
    link.settimeout(running.PATIENCE)
    link.connect(station.address)
    link.sendall(text)
    if reads:
        link.recv(reads)
    reset(link)


def broken(given, folder, differences):
    """Resets in a head, in a body and in a reply, and half-closes: whole requests are answered, and nothing is left of the connections."""
    desk, turns = Desk(given.program, folder), given.turns
    posts = [text for _, text in numbered(b"pipelined", 30)]
    with Running(desk) as station:
        first = station.descriptors()
        for turn in range(turns):
            break_off(station, HEAD[:turn % len(HEAD)])
            break_off(station, HEAD + b"Content-Length: 1000\r\n\r\n" + b"x" * (turn % 1000))
            break_off(station, b"".join(posts), reads=1 + turn)
            whole = half_closed(station, post_of(b"half-%d" % turn))
            differences.expect(f"broken: half-closed behind a post, turn {turn}", whole, ([200], b""))
            several = half_closed(station, b"".join(posts[:3]) + HEAD[:turn % len(HEAD)])
            differences.expect(f"broken: half-closed behind three posts and a cut head, turn {turn}", several, ([200] * 3, b""))
            cut = half_closed(station, HEAD + b"Content-Length: 1000\r\n\r\n" + b"x" * (turn % 1000))
            differences.expect(f"broken: half-closed in a body, turn {turn}", cut, ([], b""))
            differences.expect("broken: half-closed at once", half_closed(station, b""), ([], b""))
        differences.expect("broken: it lets the connections go", station.has_descriptors(first), True)
        differences.expect("broken: odd lines", station.odd_lines(), [])
        differences.expect("broken: those answered are recorded", recorded(desk, b"half"), list(range(turns)))
        differences.expect("broken: it stops", station.stop(), STOPPED)
    differences.expect("broken: what lies beside the store", left_behind(desk), [])
    return f"{3 * turns} resets, {4 * turns} half-closes, {turns} posts behind which a peer shut its side, all answered"


def room_for(count):
    """Sees that this process may have so many descriptors."""
    soft, hard = resource.getrlimit(resource.RLIMIT_NOFILE)
    if soft < count:
        resource.setrlimit(resource.RLIMIT_NOFILE, (min(count, hard), hard))


def crowded(given, folder, differences, most, count, limit=None):
    """A station that serves no more than `most` at once, and `count` that connect: those it has are answered, the others once there is
    room, as is a command; and it doesn't spin. Where its places are taken, connections that wait for a request give way. What of a
    processor it used meanwhile."""
    what, desk = f"{most} of {count}" if limit is None else f"{limit} descriptors", Desk(given.program, folder)
    with Running(desk, *PATIENT) as station:
        if limit:
            resource.prlimit(station.pid, resource.RLIMIT_NOFILE, (limit, limit))
        first = station.descriptors()
        with Crowd(station.address, count, numbered(b"full", count)) as posters:
            posters.run_on(2 + given.slack)
            served = len(posters.replies)
            used, is_full = station.used_in(LOOKS), station.descriptors() - first
            asked = Waiting(desk, "outstanding")
            time.sleep(given.slack)  # it has connected by then
            for number in [number for number, link in posters.links.items() if link.name is None]:
                posters.drop(number)
            posters.run(running.PATIENCE)
            statuses = list(posters.replies.values())
        differences.expect(f"{what}: served while others wait", most // 2 <= served <= (most if limit else count) and is_full <= (limit or most + 1), True)
        differences.expect(f"{what}: it doesn't spin", used <= LOOKS * MOST_BUSY, True)
        differences.expect(f"{what}: all are answered in the end", (statuses.count(200), len(posters.cut)), (count, 0))
        differences.expect(f"{what}: a command that came meanwhile is done", asked.ended(10 + given.slack), 0)
        differences.expect(f"{what}: the next is served", half_closed(station, post_of(b"next")), ([200], b""))
        differences.expect(f"{what}: all are recorded", len(recorded(desk, b"full")), count)
        differences.expect(f"{what}: it stops", station.stop(), STOPPED)
    return f"{what}: {served} served at once, {count} in the end, {used:.2f} s of a processor in {LOOKS} s, a command meanwhile took {asked.seconds:.1f} s"


class Waiting(threading.Thread):
    """A command that is given while other things are done."""

    def __init__(self, desk, *words):
        super().__init__(daemon=True)
        self.desk, self.words, self.status, self.seconds = desk, words, None, float("nan")
        self.start()

    def run(self):
        began = time.monotonic()
        try:
            self.status, self.output, self.said = self.desk.run(*self.words, patience=running.PATIENCE)
        except Exception as fault:  # it is told as the status
            self.status = repr(fault)
        self.seconds = time.monotonic() - began

    def ended(self, patience):
        """Its status once it has ended; `hang` where it hasn't by then."""
        self.join(patience)
        return "hang" if self.is_alive() else self.status


def full(given, folder, differences):
    """No descriptor left, and no place left: see `crowded`."""
    room_for(PLACES + 500)
    told = [crowded(given, f"{folder}/descriptors", differences, FEW, FEW + 40, limit=FEW)]
    if given.connections >= PLACES:
        told.append(crowded(given, f"{folder}/places", differences, PLACES, PLACES + 50))
    return "; ".join(told)
