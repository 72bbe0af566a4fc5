"""Cases of live.py: how a station stops, what is refused beside it, and what it says on standard error."""
import datetime
import os
import socket
import subprocess
import time

from many import HEAD, PATIENT, Waiting, half_closed, heard, recorded, replies_in
from running import STOPPED, Running, left_behind, until
from station import Desk, post_of
import running

STOP = 10  # seconds that what is under way gets
STOPS = 20  # stops with a command right behind them
REFUSED = (1, b"", b"refused: NoStation\n")
OTHER = (1, b"", b"refused: OtherAgreements\n")
RUNS = (1, b"", b"refused: StationRuns\n")
AGAINST = [("send",), ("serve", "--listen", "127.0.0.1:0", "--count", "1"), ("run", "--listen", "127.0.0.1:0"), ("migrate",), ("post",)]
THROUGH = [("submit", "--from", "Supplier", "--to", "Buyer", "agreements.toml"), ("list", "in"), ("show", "1"), ("outstanding",), ("fetch", "1"),
           ("tick",), ("verify",), ("evidence", "1"), ("resend", "1")]
ODD = [b"\x1b[31mred", b"a\tb", b"\x7f", b"\xff\xfe", "é".encode(), b"a b", b'"', b"\\", b"x" * 2000, b"%s%n", b"\x07", b"a\rb"]
LONG = [100, 400, 470, 500, 900]  # bytes of identifiers that are taken; the fields of ODD aren't, and so no line of theirs gets long


def others_agreements(desk, differences):
    """Other agreements, by a byte, by their partners, or none at all."""
    with open(desk.path("agreements.toml"), "rb") as file:
        text = file.read()
    named = desk.path("agreements.toml"), desk.path("kept.toml")
    os.rename(*named)
    for what, content in (("a byte more", text + b"\n"), ("no partner", text.replace(b"Buyer", b"Bauer")), ("no TOML", b"=")):
        with open(named[0], "wb") as to:
            to.write(content)
        for words in THROUGH:
            differences.expect(f"stop: other agreements, {what}: {' '.join(words)}", desk.run(*words), OTHER)
    os.rename(*reversed(named))
    differences.expect("stop: nothing was made", [name for name in os.listdir(desk.folder) if name.startswith("sent-")], [])


def refusals(given, folder, differences):
    """What is refused while a station runs, and what is where none does."""
    desk = Desk(given.program, folder)
    differences.expect("stop: without a store", desk.run("stop"), REFUSED)
    differences.expect("stop: makes no store", os.path.exists(desk.path(desk.store)), False)
    with Running(desk) as station:
        for words in AGAINST:
            differences.expect(f"stop: {words[0]} while a station runs", desk.run(*words, patience=running.PATIENCE), RUNS)
        others_agreements(desk, differences)
        differences.expect("stop: the station goes on", half_closed(station, post_of(b"on")), ([200], b""))
        differences.expect("stop: it stops", station.stop(), STOPPED)
    for what in ("behind it", "once more"):
        differences.expect(f"stop: {what}", desk.run("stop"), REFUSED)
    with Running(desk) as station:
        station.kill()
        differences.expect("stop: of a station that was killed", desk.run("stop"), REFUSED)
        differences.expect("stop: a command behind a kill", recorded(desk, b"none"), [])


def quick(given, folder, differences):
    """A stop with connections that have nothing under way, and a reply that is still read: it doesn't wait."""
    desk = Desk(given.program, folder)
    with Running(desk, *PATIENT) as station:
        links = [socket.create_connection(station.address) for _ in range(5)]
        links[0].sendall(post_of(b"kept"))
        until(lambda: b"<kept@x> 200" in station.text())
        began = time.monotonic()
        differences.expect("stop: beside connections that are kept", station.stop(), STOPPED)
        seconds = time.monotonic() - began
        differences.expect("stop: and it doesn't wait for them", seconds <= 2 + given.slack, True)
        differences.expect("stop: what they got", [replies_in(heard(link)) for link in links], [([200], b"")] + [([], b"")] * 4)
        for link in links:
            link.close()
    differences.expect("stop: what lies beside the store", left_behind(desk), [])
    return seconds


def under_way(given, folder, differences):
    """A stop amid requests that come slowly: one is whole in time and is answered, another isn't, and is cut after ten seconds."""
    desk = Desk(given.program, folder)
    with Running(desk, *PATIENT) as station:
        text = post_of(b"whole", b"x" * 100)
        whole, never = (socket.create_connection(station.address) for _ in range(2))
        whole.sendall(text[:-50])
        never.sendall(HEAD + b"Content-Length: 100\r\n\r\n")
        time.sleep(0.5 + given.slack / 2)
        began, stops = time.monotonic(), [Waiting(desk, "stop"), Waiting(desk, "stop")]
        for at in range(50, 0, -10):
            time.sleep(0.6)
            whole.sendall(text[-at:len(text) - at + 10])
            never.sendall(b"x")
        differences.expect("stop: a request that comes slowly is answered", replies_in(heard(whole)), ([200], b""))
        differences.expect("stop: nobody connects any more", connects(station.address), False)
        heard(never)
        statuses = [stop.ended(STOP + given.slack + 5) for stop in stops], station.process.wait(running.PATIENCE)
        seconds = time.monotonic() - began
        differences.expect("stop: the statuses of two stops and of the station", statuses, ([0, 0], 0))
        differences.expect("stop: after ten seconds", STOP - 1 <= seconds <= STOP + 2 + given.slack, True)
        for link in (whole, never):
            link.close()
    differences.expect("stop: what lies beside the store", left_behind(desk), [])
    differences.expect("stop: what is recorded", desk.run("list", "in")[1].count(b"<whole@x>"), 1)
    return seconds


def connects(address):
    try:
        socket.create_connection(address, timeout=1).close()
        return True
    except OSError:
        return False


def behind(given, folder, differences):
    """Commands right behind a stop find the store's file free."""
    desk = Desk(given.program, folder)
    begin = f"'{desk.program}' --moment 1200 --agreements agreements.toml --store {desk.store}"
    for number in range(STOPS):
        with Running(desk) as station:
            half_closed(station, post_of(b"at%d" % number))
            ran = subprocess.run(["sh", "-c", f"{begin} stop && {begin} list in"], cwd=desk.folder, stdin=subprocess.DEVNULL, capture_output=True,
                                 timeout=running.PATIENCE, check=False)
            differences.expect(f"stop: a command right behind it, {number}", (ran.returncode, ran.stdout.count(b"\n"), ran.stderr), (0, number + 1, b""))
            station.process.wait(running.PATIENCE)


def stop(given, folder, differences):
    """`stop`, and what is refused while a station runs."""
    refusals(given, f"{folder}-refusals", differences)
    behind(given, f"{folder}-behind", differences)
    at_once, later = quick(given, f"{folder}-quick", differences), under_way(given, f"{folder}-under-way", differences)
    return f"beside connections that are kept it takes {at_once:.1f} s, amid a slow request {later:.1f} s"


def unread(given, folder, differences):
    """Standard error that is full, shut, or a pipe whose reader has gone: the station goes on."""
    for what, begin in (("full", "exec 2> /dev/full"), ("shut", "exec 2>&-"), ("a pipe that nobody has", "exec 2> pipe")):
        desk = Desk(given.program, f"{folder}-{what[0]}")
        port = free_port()
        words = " ".join(f"'{word}'" for word in desk.words("run", "--listen", f"127.0.0.1:{port}"))
        os.mkfifo(desk.path("pipe"))
        reader = os.open(desk.path("pipe"), os.O_RDONLY | os.O_NONBLOCK)
        process = subprocess.Popen(["sh", "-c", f"{begin}; exec {words}"], cwd=desk.folder, stdin=subprocess.DEVNULL)
        time.sleep(0.2)
        os.close(reader)
        try:
            until(lambda: connects(("127.0.0.1", port)))
            station = type("Address", (), {"address": ("127.0.0.1", port)})
            found = [half_closed(station, post_of(b"unread-%d" % number)) for number in range(5)]
            differences.expect(f"lines: standard error is {what}: posts", found, [([200], b"")] * 5)
            differences.expect(f"lines: standard error is {what}: it stops", (desk.run("stop"), process.wait(running.PATIENCE)), STOPPED)
        finally:
            process.kill()
            process.wait()


def free_port():
    with socket.create_server(("127.0.0.1", 0)) as listener:
        return listener.getsockname()[1]


def ticks(given, folder, differences):
    """A document whose last try was cut: the station gives it up by itself once its time is over, and says so."""
    with socket.create_server(("127.0.0.1", 0)) as listener:
        desk = Desk(given.program, folder, "127.0.0.1:%d" % listener.getsockname()[1])
        desk.run("submit", "--from", "Supplier", "--to", "Buyer", "agreements.toml")
        for moment in (1000, 1030):
            send = subprocess.Popen(desk.words("send", moment=moment), cwd=desk.folder, stdin=subprocess.DEVNULL)
            link, _ = listener.accept()
            link.recv(1)
            send.kill()
            send.wait()
            link.close()
    with Running(desk, moment=1059) as station:
        differences.expect("lines: what isn't over yet isn't given up", until(lambda: b" tick " in station.text(), 2), False)
        differences.expect("lines: it stops before", station.stop(), STOPPED)
    with Running(desk, moment=1060) as station:
        until(lambda: b" tick " in station.text(), 2 + given.slack)
        differences.expect("lines: a tick", sum(line.endswith(b"Z tick 1 given up") for line in station.lines()), 1)
        differences.expect("lines: what it gave up", b"\nstate: E tries-used\n" in desk.run("show", "1")[1], True)
        differences.expect("lines: it stops behind a tick", station.stop(), STOPPED)


def by_the_clock(given, folder, differences):
    """Without `--moment` the lines have the moments of the clock."""
    desk = Desk(given.program, folder)
    with Running(desk, moment=None) as station:
        half_closed(station, post_of(b"clock"))
        said = next((line for line in station.lines() if b"<clock@x>" in line), b"").split(b" ")[0].decode()
        told = datetime.datetime.fromisoformat(said.replace("Z", "+00:00") or "1970-01-01T00:00:00+00:00").timestamp()
        differences.expect("lines: the clock", abs(told - time.time()) <= 2 + given.slack, True)
        differences.expect("lines: it stops by the clock", station.stop(), STOPPED)


def lines(given, folder, differences):
    """What it says: a line for each thing, each behind its moment; no byte that doesn't print, and none without end."""
    desk = Desk(given.program, folder)
    with Running(desk) as station:
        half_closed(station, post_of(b"m1"))
        half_closed(station, post_of(b"m1").replace(b"AS2-From: Buyer", b"AS2-From: Nobody"))
        half_closed(station, b"GET /as2 HTTP/1.1\r\nHost: x\r\n\r\n")
        desk.run("list", "in")
        desk.run("show", "999")
        said = b"\n".join(station.lines())
        for wanted in (rb"1970-01-01T00:16:40Z post Buyer -> Supplier <m1@x> 200 processed", rb"post Nobody -> Supplier <m1@x> 403", rb"request - 405",
                       rb"command list 0", rb"command show 1"):
            differences.expect(f"lines: {wanted.decode()}", wanted in said, True)
        for odd in ODD:
            for field in (b"AS2-From: Buyer", b"AS2-To: Supplier", b"Message-ID: <m1@x>", b"POST /as2", b"Content-Type: application/edi-x12"):
                half_closed(station, post_of(b"m1").replace(field, field[:field.find(b" ") + 1] + odd))
        for size in LONG:
            half_closed(station, post_of(b"l" * size))
        # an identifier that isn't cut leaves no room for the status
        cut = [line[:60] for line in station.lines() if b" post Buyer -> Supplier <lll" in line and not line.endswith(b" 200 processed")]
        differences.expect("lines: a long identifier leaves the status in its line", cut, [])
        differences.expect("lines: a line for each of them", sum(b"<lll" in line for line in station.lines()), len(LONG))
        differences.expect("lines: odd lines", station.odd_lines(), [])
        count, longest = len(station.lines()), max(map(len, station.lines()))
        differences.expect("lines: it stops", station.stop(), STOPPED)
    for part in (unread, ticks, by_the_clock):
        part(given, f"{folder}-{part.__name__}", differences)
    return f"{count} lines, the longest of {longest} bytes; where they can't be written it goes on"
