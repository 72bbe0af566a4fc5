"""Cases of live.py: two stations and the paths of the control socket; and who comes to it."""
import os
import random
import socket
import stat
import subprocess
import sys
import time

from many import PATIENT, Waiting, half_closed, recorded
from running import STOPPED, Running, left_behind, until
from station import Desk, post_of
import running

SEATS = 50  # connections to the control socket that say nothing
OPENING = b"as2desk 1\n"
RUNS = (1, b"", b"refused: StationRuns\n")
TAKEN, NOT_MADE, NO_SOCKET = (
    (1, b"", b"hint: %s\nrefused: CannotListen\n" % hint)
    for hint in (b"another program listens at that address", b"the control socket can't be made", b"what stands at the control socket's path is none"))
# as another user: connects to each path, sends the bytes of the first word, and prints how often it was connected and how many bytes were answered
INTRUDER = """
import os, socket, sys, time
frame, seconds, paths = bytes.fromhex(sys.argv[1]), float(sys.argv[2]), sys.argv[3:]
os.setgroups([]); os.setgid(65534); os.setuid(65534)
end, links, answered = time.monotonic() + seconds, 0, 0
while True:
    for path in paths:
        link = socket.socket(socket.AF_UNIX)
        link.settimeout(1)
        try:
            link.connect(path)
            links += 1
            link.sendall(frame)
            answered += len(link.recv(65536))
        except OSError:
            pass
        link.close()
    if time.monotonic() > end:
        break
print(links, answered)
"""


def field(text):
    return len(text).to_bytes(4, "big") + text


def frame_of(digest, *words, content=b""):
    """The frame of a demand, as crates/as2_control has it."""
    body = field(digest) + field(content) + b"".join(field(word.encode()) for word in words)
    return OPENING + field(body)


def listing_frame(desk):
    """A demand for `list in` under the desk's agreements."""
    ran = subprocess.run(["sha256sum", desk.path("agreements.toml")], capture_output=True, check=True)
    return frame_of(bytes.fromhex(ran.stdout[:64].decode()), *desk.words("list", "in"))


def mode_of(path):
    found = os.lstat(path)
    return stat.S_ISSOCK(found.st_mode), stat.S_IMODE(found.st_mode), found.st_uid


def second(given, folder, differences):
    """A second station over the store is refused, with its own control path too; of two that start at once one runs."""
    desk = Desk(given.program, folder)
    with Running(desk) as station:
        for words in (("--listen", "127.0.0.1:0"), ("--listen", "127.0.0.1:0", "--control", desk.path("own.ctl"))):
            ran = desk.run("run", *words, patience=running.PATIENCE)
            differences.expect(f"two: run {words[2:]} over a store that has a station", ran, RUNS)
        taken = Desk(given.program, f"{folder}-taken")
        ran = taken.run("run", "--listen", "%s:%d" % station.address, patience=running.PATIENCE)
        differences.expect("two: an address that is taken", ran, TAKEN)
        differences.expect("two: what lies beside that store", left_behind(taken), [])
        differences.expect("two: the first goes on", half_closed(station, post_of(b"first")), ([200], b""))
        differences.expect("two: it stops", station.stop(), STOPPED)
    differences.expect("two: what lies beside the store", left_behind(desk), [])
    at_once(desk, differences)


def at_once(desk, differences):
    """Two stations that start at the same moment: one runs, and the other says why it doesn't."""
    words = desk.words("run", "--listen", "127.0.0.1:0")
    both = [subprocess.Popen(words, cwd=desk.folder, stdin=subprocess.DEVNULL, stderr=subprocess.PIPE) for _ in range(2)]
    try:
        until(lambda: any(run.poll() is not None for run in both))
        ended = [run for run in both if run.poll() is not None]
        said = b"".join(run.stderr.read() for run in ended)
        differences.expect("two: of two that start at once one ends", len(ended), 1)
        differences.expect("two: and says why", said.startswith((b"refused: StationRuns", b"store: Refused")), True)
        differences.expect("two: the other one can be stopped", until(lambda: desk.run("stop")[0] == 0), True)
        differences.expect("two: and ends", [run.wait(running.PATIENCE) for run in both if run not in ended], [0] * (2 - len(ended)))
    finally:
        for run in both:
            run.kill()
            run.wait()
            run.stderr.close()


def elsewhere(given, folder, differences):
    """A control socket of another path: the commands find it by the link beside the store, also from elsewhere and behind a crash."""
    desk, path, link = Desk(given.program, folder), f"{folder}/elsewhere/own.socket", f"{folder}/station.db.ctl"
    os.mkdir(f"{folder}/elsewhere")
    for turn in range(2):
        with Running(desk, "--control", path if turn else "elsewhere/own.socket") as station:
            differences.expect("two: --control: the socket", mode_of(path), (True, 0o600, os.getuid()))
            differences.expect("two: --control: the link", (os.path.islink(link), os.path.realpath(link)), (True, os.path.realpath(path)))
            half_closed(station, post_of(b"elsewhere-%d" % turn))
            differences.expect("two: --control: a command is done", recorded(desk, b"elsewhere"), list(range(turn + 1)))
            differences.expect("two: --control: by the station", sum(b"command list 0" in line for line in station.lines()), 1)
            if turn:
                differences.expect("two: --control: it stops", station.stop(), STOPPED)
        if not turn:  # the link of a station that was killed is left
            differences.expect("two: --control: without the station", recorded(desk, b"elsewhere"), [0])
            with Running(desk):
                differences.expect("two: without --control again", mode_of(link), (True, 0o600, os.getuid()))
    differences.expect("two: --control: what is left", (left_behind(desk), os.listdir(f"{folder}/elsewhere")), ([], []))


def barred(given, folder, differences):
    """Paths at which no control socket can be made: the station doesn't begin, what stands there stays, and the store is closed."""
    for number, (path, content) in enumerate((("kept", b"kept"), ("missing/own.socket", None), ("x" * 120, None), ("station.db", None))):
        desk = Desk(given.program, f"{folder}-{number}")
        if content:
            with open(desk.path(path), "wb") as to:
                to.write(content)
        ran = desk.run("run", "--listen", "127.0.0.1:0", "--control", desk.path(path), patience=running.PATIENCE)
        differences.expect(f"two: --control {path}", ran, NO_SOCKET if path in ("kept", "station.db") else NOT_MADE)
        differences.expect(f"two: --control {path}: what lies beside the store", left_behind(desk), [])
        if content:
            with open(desk.path(path), "rb") as there:
                differences.expect(f"two: --control {path}: what stands there", there.read(), content)
        differences.expect(f"two: --control {path}: the store opens", desk.run("list", "in"), (0, b"", b""))
    deep = Desk(given.program, folder + "-deep/" + "d" * 60 + "/" + "e" * 40)
    differences.expect("two: a path of a store that is too long", deep.run("run", "--listen", "127.0.0.1:0", patience=running.PATIENCE), NOT_MADE)
    with Running(deep, "--control", folder + "-deep/own") as station:
        half_closed(station, post_of(b"deep-0"))
        differences.expect("two: a long path and --control: a command is done", (recorded(deep, b"deep"), station.stop()), ([0], STOPPED))


def shared(given, folder, differences):
    """Two stores and one control path: no command over the one store is done over the other."""
    one, other = (Desk(given.program, f"{folder}-{name}") for name in ("one", "other"))
    path = folder + "-shared"
    with Running(one, "--control", path) as station:
        half_closed(station, post_of(b"shared-1"))
        try:
            with Running(other, "--control", path):
                differences.expect("two: one control path of two stores: what the first store has", recorded(one, b"shared"), [1])
        except RuntimeError:
            pass  # it didn't begin, which is as good
        differences.expect("two: one control path of two stores: the first goes on", half_closed(station, post_of(b"shared-2")), ([200], b""))
    with Running(other, "--control", path):
        differences.expect("two: a link that is left, to another store's station: what the store has", recorded(one, b"shared"), [1, 2])


def two(given, folder, differences):
    """A second station, and other paths of the control socket."""
    for part in (second, elsewhere, barred, shared):
        part(given, f"{folder}-{part.__name__}", differences)
    return "a second station is refused, a socket elsewhere is found, and where none can be made nothing begins"


def intruder(desk, seconds, *paths):
    """Another user, who tries to connect for so many seconds."""
    words = [sys.executable, "-c", INTRUDER, listing_frame(desk).hex(), str(seconds), *paths]
    return subprocess.Popen(words, stdin=subprocess.DEVNULL, stdout=subprocess.PIPE, stderr=subprocess.PIPE)


def told_by(run):
    """How often it was connected, and how many bytes were answered."""
    output, said = run.communicate(timeout=running.PATIENCE)
    return tuple(map(int, output.split())) if output else said


def others(desk, given, differences):
    """Another user can't connect, neither while the station runs nor while it starts."""
    if os.getuid() != 0:
        return "not tried as another user, who is root's to be"
    path = desk.path(desk.store + ".ctl")
    with Running(desk) as station:
        differences.expect("control: its mode", mode_of(path), (True, 0o600, 0))
        differences.expect("control: another user connects", told_by(intruder(desk, 0, path)), (0, 0))
        os.chmod(path, 0o666)
        links, answered = told_by(intruder(desk, 0, path))
        differences.expect("control: another user would be found out", (links, answered > 0), (1, True))
        differences.expect("control: it stops", station.stop(), STOPPED)
    umask, links = os.umask(0), 0
    try:
        for _ in range(given.turns // 5):
            run = intruder(desk, 1 + given.slack, path, path + ".new")
            time.sleep(0.3)
            with Running(desk):
                found = told_by(run)
                differences.expect("control: another user is answered while it starts", found[1], 0)
                links += found[0]
    finally:
        os.umask(umask)
    return f"another user is refused, and was sent away {links} times in {given.turns // 5} starts with umask 0"


def garbage(desk, given):
    """Bytes that are no demand, each with whether the other side is shut behind it."""
    dice, good = random.Random(given.seed), listing_frame(desk)
    yield from (b"", b"\0", b"\n", b"GET / HTTP/1.1\r\n\r\n", b"as2desk 2\n" + good[10:], OPENING, OPENING[:5], good[:-1], good[:20], good + b"x",
                OPENING + b"\xff\xff\xff\xff", OPENING + b"\xff" * 100_000, OPENING + (2_097_153).to_bytes(4, "big") + bytes(1000), 
                OPENING + (2_097_152).to_bytes(4, "big") + bytes(2_097_152), OPENING + bytes(4), OPENING + field(field(b"x")),
                OPENING + field(field(bytes(32))), OPENING + field(field(bytes(32)) + b"\xff\xff\xff\xff"), good.replace(b"list", b"li\xfft"),
                frame_of(bytes(32)), frame_of(bytes(32), *["w"] * 256), frame_of(bytes(32), *["w"] * 257))
    for _ in range(given.turns):
        at = dice.randrange(len(good))
        yield good[:at] + dice.choice((b"", b"\0", b"\xff", dice.randbytes(4))) + good[at + dice.randrange(5):]


def thrown(desk, text, shuts):
    """What is answered to bytes on the control socket; None where it is left open."""
    with socket.socket(socket.AF_UNIX) as link:
        link.settimeout(0.2)
        link.connect(desk.path(desk.store + ".ctl"))
        try:
            link.sendall(text)
            if shuts:
                link.shutdown(socket.SHUT_WR)
            return link.recv(65536)
        except socket.timeout:
            return None
        except OSError:
            return b""


def rubbish(desk, station, given, differences):
    """Garbage ends its connection and nothing else: a command and a post are done beside it."""
    counts = {"answered": 0, "ended": 0, "left open": 0}
    for number, text in enumerate(garbage(desk, given)):
        for shuts in (False, True):
            found = thrown(desk, text, shuts)
            counts["left open" if found is None else "answered" if found else "ended"] += 1
        if number % 10 == 0:
            differences.expect("control: a post beside garbage", half_closed(station, post_of(b"beside")), ([200], b""))
    differences.expect("control: a command behind garbage", desk.run("show", "1", patience=running.PATIENCE), (1, b"", b"refused: NoSuchNumber\n"))
    differences.expect("control: it runs", station.is_running(), True)
    return f"garbage: {', '.join(f'{count} {name}' for name, count in counts.items())}"


def silent(desk, station, given, differences):
    """Connections to the control socket that say nothing, or begin and stop: posts are answered beside them, and a command in the end."""
    links = []
    for number in range(SEATS):
        link = socket.socket(socket.AF_UNIX)
        link.connect(desk.path(desk.store + ".ctl"))
        link.sendall(OPENING[:number % 11])
        links.append(link)
    asked = Waiting(desk, "outstanding")
    began = time.monotonic()
    differences.expect("control: a post beside silent ones", half_closed(station, post_of(b"silent")), ([200], b""))
    differences.expect("control: in time", time.monotonic() - began <= 2 + given.slack, True)
    differences.expect("control: silent ones don't make it spin", station.used_in(2) <= 0.5, True)
    asked.join(2 + given.slack)
    was_held = asked.is_alive()
    for link in links:
        link.close()
    differences.expect("control: a command behind silent ones", asked.ended(running.PATIENCE), 0)
    return f"behind {SEATS} silent ones a command " + ("waited until they were gone" if was_held else f"took {asked.seconds:.1f} s")


def gone(desk, station, given, differences):
    """Commands whose process is killed before they are answered, and one whose output nobody reads for a while."""
    for turn in range(given.turns):
        run = subprocess.Popen(desk.words("list", "in"), cwd=desk.folder, stdin=subprocess.DEVNULL, stdout=subprocess.DEVNULL, stderr=subprocess.DEVNULL)
        time.sleep(0.002 * (turn % 20))
        run.kill()
        run.wait()
    differences.expect("control: behind commands that were killed", desk.run("outstanding", patience=running.PATIENCE)[0], 0)
    differences.expect("control: it runs", station.is_running(), True)


def control(given, folder, differences):
    """The control socket: whose it is, and what else comes to it than commands."""
    desk = Desk(given.program, folder)
    told = [others(desk, given, differences)]
    with Running(desk, *PATIENT) as station:
        first = station.descriptors()
        half_closed(station, post_of(b"first"))
        told += [rubbish(desk, station, given, differences), silent(desk, station, given, differences)]
        gone(desk, station, given, differences)
        differences.expect("control: it lets the connections go", station.has_descriptors(first), True)
        differences.expect("control: odd lines", station.odd_lines(), [])
        differences.expect("control: it stops", station.stop(), STOPPED)
    differences.expect("control: what lies beside the store", left_behind(desk), [])
    return "; ".join(told)
