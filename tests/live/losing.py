"""Case of live.py: a disk that gets full while many post at once, so that what a turn has recorded can't be committed."""
import contextlib
import os
import re
import socket
import subprocess

from many import heard, recorded, replies_in
from running import STOPPED, Running, until
from station import Desk, post_of
import running

DISK = 4 * 1_048_576  # bytes
ROOM = 150_000  # that are left as the disk gets full: some posts fit
POSTERS = 16  # connections that post at the same moment
TURNS = 6  # such moments on the full disk
CONTENT = 30_000  # bytes
LINE = re.compile(rb" <lost-(\d+)@x> (\d+)( processed)?$")


@contextlib.contextmanager
def small_disk(folder):
    """A small disk of its own there; yields whether one could be mounted."""
    os.makedirs(folder)
    mounted = not subprocess.run(["mount", "-t", "tmpfs", "-o", f"size={DISK}", "none", folder], capture_output=True, check=False).returncode
    try:
        yield mounted
    finally:
        if mounted:
            subprocess.run(["umount", folder], check=False)


def fill(folder):
    """Takes all room of the disk but a little."""
    free = os.statvfs(folder)
    with open(os.path.join(folder, "filler"), "wb") as filler:
        filler.write(bytes(max(0, free.f_bavail * free.f_bsize - ROOM)))


def at_once(station, numbers):
    """Posts under these numbers, each over a connection of its own, all sent before any is read: what each was answered, None where its
    connection was closed without a byte."""
    links = [(number, socket.create_connection(station.address, timeout=running.PATIENCE)) for number in numbers]
    for number, link in links:
        link.sendall(post_of(b"lost-%d" % number, bytes(CONTENT)))
    found = {}
    for number, link in links:
        with link, contextlib.suppress(OSError):
            link.shutdown(socket.SHUT_WR)
            statuses, rest = replies_in(heard(link))
            found[number] = None if not statuses and not rest else (statuses + ["cut"] * bool(rest))[0]
        found.setdefault(number, None)
    return found


def told(station, status):
    """The numbers of the posts of which the station said that they got that status."""
    lines = (LINE.search(line) for line in station.lines())
    return {int(line.group(1)) for line in lines if line and int(line.group(2)) == status}


def lost(given, folder, differences):
    """A disk gets full while many post at once. Whoever was told 200 is recorded, whoever wasn't answered was told nothing, and no line says
    otherwise. With room again all goes on."""
    disk = os.path.join(folder, "disk")
    with small_disk(disk) as mounted:
        if not mounted:
            return "left out: no disk may be mounted here"
        desk, answers = Desk(given.program, disk), {}
        with Running(desk, "--timeout", "600") as station:
            answers.update(at_once(station, range(POSTERS)))
            differences.expect("lost: with room", set(answers.values()), {200})
            fill(disk)
            for turn in range(1, TURNS + 1):
                answers.update(at_once(station, range(turn * POSTERS, (turn + 1) * POSTERS)))
            differences.expect("lost: each is answered by 200 or 503, or not at all", set(answers.values()) <= {200, 503, None}, True)
            unheard = [number for number, status in answers.items() if status is None]
            if unheard:
                differences.expect("lost: it says so", any(b" store lost" in line for line in station.lines()), True)
            os.remove(os.path.join(disk, "filler"))
            again = (TURNS + 1) * POSTERS
            differences.expect("lost: with room again", until(lambda: at_once(station, [again])[again] == 200), True)
            answers[again] = 200
            answers.update(at_once(station, range(again + 1, again + POSTERS)))
            taken = {number for number, status in answers.items() if status == 200}
            differences.expect("lost: the last are answered", set(range(again, again + POSTERS)) <= taken, True)
            found = set(recorded(desk, b"lost"))
            differences.expect("lost: what was answered is recorded", taken - found, set())
            differences.expect("lost: nothing that was refused is", {number for number in found if answers[number] == 503}, set())
            differences.expect("lost: no line says more than was answered", told(station, 200) - taken, set())
            differences.expect("lost: the records agree", desk.run("verify")[0], 0)
            differences.expect("lost: it stops", station.stop(), STOPPED)
        differences.expect("lost: what was answered is recorded, without it", taken - set(recorded(desk, b"lost")), set())
    refused = sum(status == 503 for status in answers.values())
    return f"{len(answers)} posts, {len(taken)} answered by 200, {refused} by 503, {len(unheard)} not at all, all of the first recorded"
