"""Case of live.py: what `run` and `serve` answer to the same requests, and curl and http.client."""
import contextlib
import http.client
import pathlib
import random
import shutil
import subprocess

from mutations import exchange, mutated, request_of
from peers import FRAMED, TAKEN
from running import STOPPED, Running
from station import EXAMPLE, Desk, post_of
import running

CORPUS = pathlib.Path(__file__).resolve().parent.parent / "corpus"
PLAIN_TYPE = "application/edi-x12"


def requests(given):
    """What is sent on a connection each, with a name: the corpus, its requests in turn on one, what two readers frame otherwise, and mutated ones."""
    corpus = sorted(CORPUS.glob("*.http"))
    yield from ((path.stem, path.read_bytes()) for path in corpus)
    yield "all of the corpus", b"".join(path.read_bytes() for path in corpus)
    yield from ((what, text + post_of(b"smuggled")) for what, text, _ in FRAMED)
    yield from ((what, text + post_of(b"behind")) for what, text in TAKEN)
    yield "a hundred posts", b"".join(post_of(b"hundred-%d" % number) for number in range(100))
    yield "a great document", post_of(b"great", bytes(1_048_576))
    yield "a greater document", post_of(b"greater", bytes(1_048_577))
    yield "nothing", b""
    dice = random.Random(given.seed)
    for number in range(given.mutated):
        yield f"mutated, {number}", mutated(request_of(number, dice), dice)


@contextlib.contextmanager
def served(desk, count):
    """`serve` of so many connections."""
    server = desk.serve(count, 20)
    try:
        yield server
    finally:
        server.stop()


def compare(given, live, direct, differences):
    """Sends each request to a station that runs and to one that serves; how many there were."""
    asked, same = list(requests(given)), 0
    with Running(live, "--timeout", "20", "--idle", "20") as station, served(direct, len(asked)) as server:
        for what, text in asked:
            found, wanted = (exchange(address, text, running.PATIENCE) for address in (station.address, server.address))
            same += found == wanted
            if found != wanted:
                show = lambda told: f"{told[0][-600:]!r}, {told[1]}"
                differences.differ(f"replies: {what}", f"request {text[:300]!r}; `serve` {show(wanted)}; `run` {show(found)}")
            if len(differences.found) > 20:
                break
        clients(station, differences)
        differences.expect("replies: odd lines", station.odd_lines(), [])
        differences.expect("replies: it stops", station.stop(), STOPPED)
    return same, len(asked)


def by_curl(station, differences):
    """curl posts, twice over one connection, with the word Expect, and in chunks."""
    url, head = "http://%s:%d/as2" % station.address, ["AS2-Version: 1.0", "AS2-From: Buyer", "AS2-To: Supplier", f"Content-Type: {PLAIN_TYPE}",
                                                      "Disposition-Notification-To: a@x"]
    fields = [word for line in head for word in ("-H", line)]
    for number, more in enumerate(([], ["-H", "Expect: 100-continue"], ["-H", "Transfer-Encoding: chunked"], ["--http1.0"], [url])):
        words = ["curl", "--silent", "--max-time", str(running.PATIENCE), "--data-binary", "@-", *fields, "-H", f"Message-ID: <by-curl-{number}@x>",
                 "--write-out", "%{http_code} ", *more, url]
        ran = subprocess.run(words, input=b"abc" * 1000, capture_output=True, check=False)
        times = 1 + (more == [url])
        differences.expect(f"replies: curl {more}", (ran.returncode, ran.stdout.count(b"; processed\r\n"), ran.stdout.count(b"200 ")), (0, times, times))


def by_http_client(station, differences):
    """http.client posts, by length and in chunks, over one connection."""
    client = http.client.HTTPConnection(*station.address, timeout=running.PATIENCE)
    for number in range(4):
        head = {"AS2-Version": "1.0", "AS2-From": "Buyer", "AS2-To": "Supplier", "Message-ID": f"<by-client-{number}@x>", "Content-Type": PLAIN_TYPE,
                "Disposition-Notification-To": "a@x"}
        client.request("POST", "/as2", b"abc" if number % 2 else iter([b"a", b"bc"]), head, encode_chunked=not number % 2)
        answer = client.getresponse()
        differences.expect(f"replies: http.client {number}", (answer.status, b"; processed\r\n" in answer.read()), (200, True))
    client.close()


def clients(station, differences):
    if shutil.which("curl"):
        by_curl(station, differences)
    else:
        print("      curl isn't here, and isn't tried")
    by_http_client(station, differences)


def listed(desk):
    """What `list in` has, but for what curl and http.client posted."""
    return [line for line in desk.run("list", "in", patience=running.PATIENCE)[1].split(b"\n") if b"<by-" not in line]


def replies(given, folder, differences):
    """The same requests to `run` and to `serve`: the same replies, byte for byte, and the same listing behind them."""
    told = []
    for name, agreements in (("corpus", (CORPUS / "agreements.toml").read_text()), ("example", EXAMPLE)):
        live, direct = (Desk(given.program, f"{folder}/{name}-{kind}") for kind in ("live", "direct"))
        for desk in (live, direct):
            with open(desk.path("agreements.toml"), "w", encoding="utf-8") as to:
                to.write(agreements)
        same, count = compare(given, live, direct, differences)
        differences.expect(f"replies: {name}: what is recorded", listed(live) == listed(direct), True)
        told.append(f"{same} of {count} replies are the same under the agreements of the {name}")
    return "; ".join(told)
