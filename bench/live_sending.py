"""The measuring part of live_sending.sh: python3 live_sending.py FOLDER [OPTIONS]."""
import argparse
import multiprocessing
import os
import pathlib
import shutil
import sqlite3
import statistics
import subprocess
import sys
import time

TOP = pathlib.Path(__file__).resolve().parent.parent
sys.path[:0] = [str(TOP / "tests" / "live"), str(TOP / "tests" / "hostile")]
sys.dont_write_bytecode = True
from crowds import at_place
from partners import Partner, Partners, at_once, soon
from running import Running, until
from sending import OF_HOST, Office
import running

SIZE = 3_000
HOSTS = 4  # ports of the partner: 16 links go to each, and so 64 in all
LEAST, MOST = 3, 50  # times what `send` sends; milliseconds to the first byte


def built():
    """The program that was proved and built here, or the release."""
    subprocess.run([TOP / "as2desk", "--version"], stdout=subprocess.DEVNULL, check=True)
    return next(path for path in (TOP / "crates/as2desk/out/as2desk", TOP / "dist/as2desk") if path.exists())


def done(desk, *command):
    """What a command prints that has to go well."""
    status, output, said = desk.run(*command)
    if status:
        sys.exit(f"{command[0]}: status {status}, {said.decode()}")
    return output


def due(desk, partners, count):
    """Makes `due.db`, a store of so many documents that are due: those of a store with one for each partner, over and over."""
    with open(desk.path("order"), "wb") as to:
        to.write(b"x" * SIZE)
    for partner in partners:
        done(desk, "submit", "--from", "Supplier", "--to", partner.name, "order")
    one, many, few = sqlite3.connect(desk.path(desk.store)), sqlite3.connect(desk.path("due.db")), len(partners)
    many.executescript("\n".join(one.iterdump()))  # its pages have no room for sums, which SQLite wouldn't write
    one.close()
    numbers = f"WITH RECURSIVE n (i) AS (SELECT {few + 1} UNION ALL SELECT i + 1 FROM n WHERE i < {count})"
    first = f"number = (i - 1) % {few} + 1"
    value, spelled = "CAST('out-' || i || '@station.example' AS BLOB)", "CAST('<out-' || i || '@station.example>' AS BLOB)"
    many.executescript(f"""
        BEGIN;
        {numbers} INSERT INTO outbox SELECT i, organization, partner, {value}, {spelled}, length, moment, tries, attempt, due, detail
            FROM n JOIN outbox ON {first};
        {numbers} INSERT INTO outbox_piece SELECT i, position, bytes FROM n JOIN outbox_piece ON {first};
        {numbers} INSERT INTO waiting SELECT (SELECT max(place) FROM waiting) + i - {few}, kind, i, due FROM n JOIN waiting ON {first};
        UPDATE meta SET next_document = {count + 1};
        COMMIT;""")
    many.close()


def again(desk):
    """A new store with the same documents."""
    for name in os.listdir(desk.folder):
        if name.startswith("station.db"):
            os.remove(desk.path(name))
    shutil.copy(desk.path("due.db"), desk.path(desk.store))


def settled(desk, count):
    """Whether so many documents are settled."""
    return done(desk, "list", "out", "--state", "S").count(b"\n") == count


def sent(desk, count):
    """The seconds that `send` takes for them."""
    again(desk)
    began = time.perf_counter()
    done(desk, "send")
    seconds = time.perf_counter() - began
    if not settled(desk, count):
        sys.exit("send: not all documents are settled")
    return seconds, float("nan"), float("nan")


def ran(desk, count):
    """The seconds that `run` takes for them, from its start; the share of them that it had a processor for, and the links that were open
    at once, at some moment in the middle."""
    again(desk)
    began, most = time.perf_counter(), []
    with Running(desk, moment=None) as station:
        begun, used = time.perf_counter() - began, station.seconds()
        until(lambda: most.append(station.descriptors()) or station.text().count(b": settled S processed\n") == count)
        seconds = time.perf_counter() - began
        share = (station.seconds() - used) / (seconds - begun)
        links = statistics.median(most) - station.descriptors()
        station.stop()
    if not settled(desk, count):
        sys.exit("run: not all documents are settled")
    return seconds, share, links


def rates(given, way, what, hosts):
    """Prints the documents a second of each, to a partner who answers in that way at so many ports, and their ratio."""
    partners = [Partner(f"Partner{number}", way) for number in range(hosts)]
    desk = Office(given.program, f"{given.folder}/{way.__name__}-{hosts}", *partners)
    due(desk, partners, given.documents)
    serving = multiprocessing.Process(target=Partners(*partners).run, daemon=True)
    serving.start()
    found = {"send": [], "run": []}
    for _ in range(given.rounds):
        for name, work in (("send", sent), ("run", ran)):
            found[name].append(work(desk, given.documents))
    serving.kill()
    serving.join()
    middle = {name: [statistics.median(column) for column in zip(*rounds)] for name, rounds in found.items()}
    told = {name: given.documents / seconds for name, (seconds, _, _) in middle.items()}
    _, share, links = middle["run"]
    print(f"{given.documents:,} documents of {SIZE:,} bytes to a partner who answers {what}: `send` {told['send']:,.0f} a second, "
          f"`run` over {hosts * OF_HOST} links {told['run']:,.0f}, {told['run'] / told['send']:.1f} times that (at least {LEAST} wanted at 64); "
          f"{share:.0%} of a processor, {links:.0f} links open in the middle", flush=True)


def latency(given):
    """Prints how long a document takes from `submit` to the first byte at the partner, of a station that has nothing else to do: from the
    start of the command, and from its demand at the socket."""
    prompt = Partner("Prompt", at_once)
    desk, times = Office(given.program, f"{given.folder}/latency", prompt), {"its start": [], "its demand": []}
    with open(desk.path("order"), "wb") as to:
        to.write(bytes(SIZE))
    ways = {"its start": lambda: int(done(desk, "submit", "--from", "Supplier", "--to", "Prompt", "order")),
            "its demand": lambda: desk.submit(prompt, bytes(SIZE))}
    with Partners(prompt), Running(desk, moment=None) as station:
        for turn in range(given.latencies + 1):
            for name, way in ways.items():
                began = time.monotonic()
                number = way()
                if not until(lambda: prompt.first(number)):
                    sys.exit("latency: a document doesn't come")
                if turn:
                    times[name].append(prompt.first(number) - began)
                time.sleep(0.02)
        station.stop()
    for name, each in times.items():
        print(f"from `submit`, {name}, to the first byte at the partner: the middle {1000 * at_place(each, 0.5):.1f} ms, the 99th percentile "
              f"{1000 * at_place(each, 0.99):.1f} ms (at most {MOST} wanted), of {len(each)}", flush=True)


def main():
    words = argparse.ArgumentParser(description=__doc__)
    words.add_argument("folder")
    words.add_argument("--program", type=os.path.abspath)
    words.add_argument("--documents", type=int, default=4_000)
    words.add_argument("--rounds", type=int, default=3)
    words.add_argument("--latencies", type=int, default=300)
    given = words.parse_args()
    given.program = str(given.program or built())
    running.PATIENCE = 600
    latency(given)
    for way, what in ((at_once, "at once"), (soon, "after 50 ms")):
        for hosts in (HOSTS, 1):
            rates(given, way, what, hosts)


main()
