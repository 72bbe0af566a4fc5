"""Case of live.py: a station under load for some minutes, and its memory."""
import itertools
import time

from crowds import Crowd, at_place
from many import HEAD, break_off, half_closed, numbered
from running import STOPPED, Running
from station import Desk, post_of
import running

DOCUMENTS = 50  # that are posted over and over, so that the store doesn't grow
POSTERS = 32
ROUND = 1.0  # seconds of posts between two rounds of other things
SHARE, MORE = 1.1, 2048  # what may be grown: by a tenth, and by so many KiB
COMMANDS = [("list", "in"), ("outstanding",), ("fetch", "1"), ("verify",), ("show", "1"), ("tick",), ("list", "out", "--format", "json")]


def repeats():
    """The same documents without end; they are answered as at first, and nothing is recorded."""
    posts = [text for _, text in numbered(b"memory", DOCUMENTS, bytes(3000))]
    for number in itertools.count():
        yield number, posts[number % DOCUMENTS]


def others(desk, station, turn):
    """What else happens at a station: commands, resets, half-closes, and requests that it refuses."""
    desk.run(*COMMANDS[turn % len(COMMANDS)], patience=running.PATIENCE)
    for number in range(5):
        break_off(station, HEAD[:20 * number])
        break_off(station, HEAD + b"Content-Length: 100000\r\n\r\n" + bytes(number * 10_000))
        break_off(station, post_of(b"memory-0", bytes(3000)) * 20, reads=10)
        half_closed(station, HEAD + b"Content-Length: x\r\n\r\n")
        half_closed(station, post_of(b"memory-%d" % number, b"another content"))
        half_closed(station, b"GET /as2 HTTP/1.1\r\nHost: x\r\n\r\n")


def loaded(desk, station, given, differences, seconds):
    """That load for so many seconds: how many posts were answered, and what memory it had in the end."""
    end, answered, times = time.monotonic() + seconds, 0, []
    for turn in itertools.count():
        with Crowd(station.address, POSTERS, repeats()) as posters:
            posters.run(min(ROUND, max(0.1, end - time.monotonic())))
            differences.expect("memory: answered otherwise than by 200", set(posters.replies.values()) <= {200}, True)
            answered, times = answered + len(posters.replies), posters.times
        others(desk, station, turn)
        if time.monotonic() > end and turn + 1 >= len(COMMANDS):
            return answered, at_place(times, 0.5), station.kib()


def memory(given, folder, differences):
    """Some minutes of load that records nothing: behind a tenth of them it gets no more memory."""
    desk = Desk(given.program, folder)
    with Running(desk) as station:
        with Crowd(station.address, 1, numbered(b"memory", DOCUMENTS, bytes(3000))) as posters:
            posters.run(running.PATIENCE)
        first, (_, _, warm) = station.kib(), loaded(desk, station, given, differences, 6 * given.minutes)
        descriptors = station.descriptors()
        answered, middle, end = loaded(desk, station, given, differences, 54 * given.minutes)
        differences.expect("memory: it didn't grow", end <= warm * SHARE + MORE, True)
        differences.expect("memory: descriptors", station.has_descriptors(descriptors), True)
        differences.expect("memory: it stops", station.stop(), STOPPED)
    return (f"{answered} posts in {given.minutes:g} minutes, {first} KiB at first, {warm} behind a tenth of it, {end} in the end; "
            f"a post in {1000 * middle:.1f} ms")
