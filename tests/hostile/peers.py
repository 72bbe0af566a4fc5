"""Hostile clients of `serve`, as `slowhttptest` makes them and others: slow, silent, deaf, half-closed, reset, a thousand of them, and
requests that two readers of HTTP would frame otherwise. Behind each comes an honest client. Used by sockets.py."""
import asyncio
import random
import signal
import socket
import struct
import subprocess
import threading
import time

import expected
from station import SLACK, Desk, post_of

WAIT, TIMES = 1, 10  # a single wait, and how many of it a connection as a whole may last
IDLE = 2  # the wait for what comes behind a reply, where no other is given
MEMORY_LIMIT = 32 * 1024  # KiB
CROWD = 1000
HEAD = b"POST /as2 HTTP/1.1\r\nHost: x\r\nAS2-From: Buyer\r\nAS2-To: Supplier\r\nMessage-ID: <hostile@x>\r\n"
SMUGGLED = post_of(b"smuggled")


def drip(link, pieces, pause):
    """Writes each piece after a pause, until the other side ends the connection; what it had answered."""
    link.settimeout(pause)
    for piece in pieces:
        try:
            link.sendall(piece)
            text = link.recv(65536)
            return text
        except socket.timeout:
            pass
    return rest(link)


def rest(link, patience=3 * TIMES):
    """What comes until the end."""
    link.settimeout(patience)
    text = b""
    try:
        while piece := link.recv(65536):
            text += piece
    except ConnectionError:
        pass
    return text


def slow_head(link):
    return drip(link, [HEAD] + [b"X-%d: y\r\n" % turn for turn in range(50)], WAIT / 2)


def slow_body(link):
    return drip(link, [HEAD + b"Content-Length: 1000\r\n\r\n"] + [b"x"] * 1000, WAIT / 2)


def slow_chunks(link):
    return drip(link, [HEAD + b"Transfer-Encoding: chunked\r\n\r\n"] + [b"1\r\nx\r\n"] * 1000, WAIT / 2)


def byte_a_second(link):
    return drip(link, [bytes([byte]) for byte in post_of(b"slow")], 1)


def slow_read(link):
    """Requests without end, and a byte of the replies every half second."""
    requests = b"GET /as2 HTTP/1.1\r\nHost: x\r\n\r\n" * 1000
    left, began = requests, time.monotonic()
    link.settimeout(WAIT / 2)
    while time.monotonic() - began < 3 * TIMES:
        try:
            left = left[link.send(left):] or requests
        except socket.timeout:
            link.recv(1)
    return b""


def silence(link):
    return rest(link)


def kept_open(link):
    link.sendall(post_of(b"kept"))
    return rest(link)


def half_closed(text):
    """Shuts its writing side behind that text."""
    def peer(link):
        link.sendall(text)
        link.shutdown(socket.SHUT_WR)
        return rest(link)
    return peer


def reset(text):
    """Resets the connection behind that text."""
    def peer(link):
        link.sendall(text)
        link.setsockopt(socket.SOL_SOCKET, socket.SO_LINGER, struct.pack("ii", 1, 0))
        link.close()
        return b""
    return peer


# what the client does, the seconds of a single wait, how its connection may end, and the status of its reply
HOLDERS = [
    ("slow heads", slow_head, WAIT, ["ReadFault"], None),
    ("a slow body", slow_body, WAIT, ["ReadFault"], None),
    ("slow chunks", slow_chunks, WAIT, ["ReadFault"], None),
    ("slow reads", slow_read, WAIT, ["WriteFault"], None),
    ("silence", silence, WAIT, ["ReadFault"], None),
    ("a byte a second", byte_a_second, 2, ["ReadFault"], None),
    ("a connection that is kept open", kept_open, 30, ["Closed"], 200),
    ("half-closed at once", half_closed(b""), WAIT, ["Closed"], None),
    ("half-closed in the head", half_closed(HEAD), WAIT, ["Truncated"], None),
    ("half-closed in the body", half_closed(HEAD + b"Content-Length: 9\r\n\r\nab"), WAIT, ["Truncated"], None),
    ("half-closed in a chunk", half_closed(HEAD + b"Transfer-Encoding: chunked\r\n\r\n9\r\nab"), WAIT, ["Truncated"], None),
    ("half-closed behind a post", half_closed(post_of(b"whole")), WAIT, ["Closed"], 200),
    ("reset at once", reset(b""), WAIT, ["ReadFault", "Closed"], None),
    ("reset in the head", reset(HEAD), WAIT, ["ReadFault"], None),
    ("reset in the body", reset(HEAD + b"Content-Length: 9\r\n\r\nab"), WAIT, ["ReadFault"], None),
    ("reset behind a post", reset(post_of(b"reset")), WAIT, ["ReadFault", "WriteFault", "Closed"], None),
]


def honest(address, name=b"honest", patience=60):
    """Whether a post is answered by its receipt, and the seconds until then."""
    began = time.monotonic()
    try:
        with socket.create_connection(address, timeout=patience) as link:
            link.sendall(post_of(name))
            link.shutdown(socket.SHUT_WR)
            reply = expected.reply_in(rest(link, patience), 0)
    except OSError:
        reply = None
    return bool(reply and reply[0][0] == 200 and reply[0][2]), time.monotonic() - began


def small_link(address):
    """A connection that takes in little of what isn't read."""
    link = socket.socket()
    link.setsockopt(socket.SOL_SOCKET, socket.SO_RCVBUF, 4096)
    link.settimeout(60)
    link.connect(address)
    return link


def held(desk, differences, what, peer, wait, ends, status):
    """A hostile client, and an honest one that connects behind it."""
    server = desk.serve(3, wait)
    link, replies = small_link(server.address), []
    def act():
        try:
            replies.append(peer(link))
        except OSError:
            replies.append(b"")
    acting = threading.Thread(target=act, daemon=True)
    acting.start()
    time.sleep(0.1)
    is_served, seconds = honest(server.address)
    acting.join(60)
    link.close()
    peak = server.peak()
    is_served = is_served and honest(server.address)[0]
    code, found, _ = server.finish()
    reply = expected.reply_in(replies[0], 0) if replies and replies[0] else None
    differences.expect(f"{what}: the honest client is served", is_served, True)
    differences.expect(f"{what}: within the bound", seconds <= (IDLE if peer is kept_open else TIMES * wait) + SLACK, True)
    differences.expect(f"{what}: the reply", (reply[0][0] if reply else None, bool(replies and replies[0])), (status, status is not None))
    differences.expect(f"{what}: the ends", (code, len(found), found[0] in ends if found else None, found[-1:]), (0, 3, True, ["Closed"]))
    differences.expect(f"{what}: memory", peak <= MEMORY_LIMIT, True)
    differences.count("hostile clients")
    print(f"ok    {what}: the next client was answered after {seconds:.1f} s, {found[:1]}", flush=True)


def with_fields(fields, body=b"abc", line=b"POST /as2 HTTP/1.1", end=b"\r\n"):
    head = HEAD.split(b"\r\n", 1)[1]
    return line + b"\r\n" + head + fields + end + b"\r\n" + body


def chunk_text(body):
    return with_fields(b"Transfer-Encoding: chunked", body)


BAD_LENGTH, BAD_HEAD, BAD_CHUNK, NO_CODING, TOO_LARGE = (
    [(400, "bad Content-Length")], [(400, "bad request head")], [(400, "bad chunk")], [(501, "transfer coding not supported")], [(413, "body too large")])
CODED = b"3\r\nabc\r\n0\r\n\r\n"
# a request with another behind it, and the replies
FRAMED = [
    ("two equal lengths", with_fields(b"Content-Length: 3\r\nContent-Length: 3"), BAD_LENGTH),
    ("two lengths", with_fields(b"Content-Length: 3\r\nContent-Length: 300"), BAD_LENGTH),
    *((f"the length {text!r}", with_fields(b"Content-Length: " + text), BAD_LENGTH)
      for text in (b"3, 3", b"+3", b"-3", b"0x3", b"3 3", b"", b"3;", b"3\xb2", b"3e1")),
    ("a length and a coding", with_fields(b"Content-Length: 3\r\nTransfer-Encoding: chunked", CODED), BAD_LENGTH),
    ("a coding and a length", with_fields(b"Transfer-Encoding: chunked\r\nContent-Length: 13", CODED), BAD_LENGTH),
    ("a coding and a length of 0", with_fields(b"Transfer-Encoding: chunked\r\nContent-Length: 0", CODED), BAD_LENGTH),
    ("chunked twice", with_fields(b"Transfer-Encoding: chunked\r\nTransfer-Encoding: chunked", CODED), NO_CODING),
    *((f"the coding {text!r}", with_fields(b"Transfer-Encoding: " + text, CODED), NO_CODING)
      for text in (b"gzip, chunked", b"chunked, identity", b"chunked, chunked", b"identity", b"xchunked", b'"chunked"', b"chunked;x=y", b"", b"chunked,")),
    ("a coding in version 1.0", with_fields(b"Transfer-Encoding: chunked", CODED, b"POST /as2 HTTP/1.0"), NO_CODING),
    ("a coding beside a length, in version 1.0", with_fields(b"Content-Length: 3\r\nTransfer-Encoding: chunked", CODED, b"POST /as2 HTTP/1.0"), NO_CODING),
    ("a blank before the colon", with_fields(b"Transfer-Encoding : chunked", CODED), BAD_HEAD),
    ("a blank before the length's colon", with_fields(b"Content-Length : 3"), BAD_HEAD),
    ("a folded coding", with_fields(b"Transfer-Encoding:\r\n chunked", CODED), BAD_HEAD),
    ("a folded length", with_fields(b"Content-Length:\r\n\t3"), BAD_HEAD),
    ("a vertical tab before the coding", with_fields(b"Transfer-Encoding: \x0bchunked", CODED), BAD_HEAD),
    ("a CR in a value", with_fields(b"X: a\rContent-Length: 3\r\nContent-Length: 3"), BAD_HEAD),
    ("a CR as a line end", with_fields(b"Content-Length: 3", end=b"\r"), BAD_HEAD),
    ("CR alone as each line end", with_fields(b"Content-Length: 3").replace(b"\r\n", b"\r"), BAD_HEAD),
    ("two CR before an LF", with_fields(b"X: y\r\r\nContent-Length: 3"), BAD_HEAD),
    *((f"a NUL in the {what}", with_fields(b"Content-Length: 3").replace(old, new, 1), BAD_HEAD)
      for what, old, new in (("value", b"Buyer", b"Buy\0er"), ("field name", b"Host", b"Ho\0st"), ("target", b"/as2", b"/as2\0"),
                             ("method", b"POST", b"PO\0ST"), ("version", b"1.1", b"1.\0"), ("length", b"3\r", b"3\0\r"))),
    ("a NUL before all", b"\0" + with_fields(b"Content-Length: 3"), BAD_HEAD),
    ("a blank before all", b" " + with_fields(b"Content-Length: 3"), BAD_HEAD),
    ("two blanks in the first line", with_fields(b"Content-Length: 3", line=b"POST  /as2 HTTP/1.1"), BAD_HEAD),
    ("version 2.0", b"PRI * HTTP/2.0\r\n\r\nSM\r\n\r\n", BAD_HEAD),
    ("version 1.2", with_fields(b"Content-Length: 3", line=b"POST /as2 HTTP/1.2"), BAD_HEAD),
    ("a line without a colon", with_fields(b"Content-Length 3"), BAD_HEAD),
    ("65 fields", with_fields(b"".join(b"X-%d: y\r\n" % turn for turn in range(60)) + b"Content-Length: 3"), BAD_HEAD),
    ("a head of more than 16,384 bytes", with_fields(b"X: " + b"y" * 16_384 + b"\r\nContent-Length: 3"), BAD_HEAD),
    *((f"the chunk {text!r}", chunk_text(text + b"0\r\n\r\n"), BAD_CHUNK)
      for text in (b"3 x\r\nabc\r\n", b"0x3\r\nabc\r\n", b"+3\r\nabc\r\n", b"-3\r\nabc\r\n", b"g\r\n", b"3\nabc\r\n", b"3\r\nabc\n", b"3\r\nabcd\r\n",
                   b"3\r\nabc", b"3\rabc\r\n", b"\x003\r\nabc\r\n", b"3\0\r\nabc\r\n", b"fffffffffffffffff\r\n")),
    ("a chunk line of more than 1,024 bytes", chunk_text(b"3;" + b"x" * 1030 + b"\r\nabc\r\n0\r\n\r\n"), BAD_CHUNK),
    ("a trailer of more than 16,384 bytes", chunk_text(b"0\r\n" + b"X: y\r\n" * 3000 + b"\r\n"), BAD_CHUNK),
    ("a chunk of 2 to the 64 less 1", chunk_text(b"ffffffffffffffff\r\nabc\r\n0\r\n\r\n"), TOO_LARGE),
    ("a length of 1,048,577", with_fields(b"Content-Length: 1048577"), TOO_LARGE),
    ("a length of twenty digits", with_fields(b"Content-Length: 99999999999999999999"), TOO_LARGE),
    ("no length", with_fields(b"X: y"), [(411, "length required")]),
]
# these are framed as RFC 9112 has it, and the request behind them is answered too
TAKEN = [
    ("LF alone as each line end", with_fields(b"Content-Length: 3").replace(b"\r\n", b"\n")),
    ("a coding in capitals", with_fields(b"Transfer-Encoding: CHUNKED", CODED)),
    ("another field with an underscore", with_fields(b"Transfer_Encoding: chunked\r\nContent-Length: 3")),
    ("a trailer with a length", chunk_text(b"3\r\nabc\r\n0\r\nContent-Length: 300\r\n\r\n")),
    ("empty lines before it", b"\r\n\r\n\n" + with_fields(b"Content-Length: 3")),
]


def framing(desk, differences):
    """Requests that two readers would frame otherwise: each is refused, and what stands behind it isn't taken."""
    server = desk.serve(len(FRAMED) + len(TAKEN) + 1, WAIT)
    for what, text, wanted in FRAMED:
        link = socket.create_connection(server.address, timeout=20)
        output = half_closed(text + SMUGGLED)(link)
        link.close()
        found, closes, ends = expected.reply_in(output, 0) or (None, False, 0)
        differences.expect(f"{what}: the reply", (found and found[:2], closes, output[ends:]), (*wanted, True, b""))
        differences.count("requests refused", bool(found))
    for what, text in TAKEN:
        link = socket.create_connection(server.address, timeout=20)
        output = half_closed(text + post_of(b"behind"))(link)
        link.close()
        first = expected.reply_in(output, 0)
        second = first and expected.reply_in(output, first[2])
        differences.expect(f"{what}: both are answered", [reply and reply[0][0] in (200, 409) for reply in (first, second)], [True, True])
    peak = server.peak()
    differences.expect("framing: an honest client is served", honest(server.address)[0], True)
    status, ends, _ = server.finish()
    differences.expect("framing: the ends", (status, ends), (0, ["BadFraming"] * len(FRAMED) + ["Closed"] * (len(TAKEN) + 1)))
    differences.expect("framing: memory", peak <= MEMORY_LIMIT, True)
    listed = desk.run("list", "in")[1].decode()
    differences.expect("nothing smuggled is recorded", "smuggled" in listed, False)
    print(f"ok    {len(FRAMED)} requests that are framed in two ways, {len(TAKEN)} that aren't, peak {peak} KiB", flush=True)


def great(desk, differences):
    """Documents of the greatest size, by length, in great chunks and in chunks of a byte, many on one connection."""
    server, content, chunks = desk.serve(2, 30), bytes(1_048_576), b"1\r\nx\r\n" * 1_048_576 + b"0\r\n\r\n"
    link = socket.create_connection(server.address, timeout=60)
    texts = [post_of(b"great-%d" % turn, content) for turn in range(8)] + [chunk_text(chunks), chunk_text(b"100000\r\n" + content + b"\r\n0\r\n\r\n")]
    writing = threading.Thread(target=lambda: (link.sendall(b"".join(texts)), link.shutdown(socket.SHUT_WR)), daemon=True)
    writing.start()
    output, at, statuses = rest(link, 60), 0, []
    while reply := expected.reply_in(output, at):
        statuses.append(reply[0][0])
        at = reply[2]
    link.close()
    peak = server.peak()
    differences.expect("great documents: the replies", statuses, [200] * 9 + [409])
    differences.expect("great documents: an honest client is served", honest(server.address)[0], True)
    differences.expect("great documents: memory", peak <= MEMORY_LIMIT, True)
    differences.expect("great documents: the ends", server.finish()[:2], (0, ["Closed", "Closed"]))
    print(f"ok    {len(texts)} documents of the greatest size, peak {peak} KiB", flush=True)


def one_by_one(desk, differences):
    """A thousand connections one after the other, cut, reset or full of noise; every hundredth is followed by an honest client."""
    server, dice, longest = desk.serve(CROWD + CROWD // 100, WAIT), random.Random(1), 0.0
    for turn in range(CROWD):
        link = socket.create_connection(server.address, timeout=20)
        text = dice.choice((b"", HEAD, b"\0" * 100, dice.randbytes(300), b"\r\n" * 50, post_of(b"one-%d" % turn)))
        try:
            (reset(text) if turn % 2 else half_closed(text))(link)
        except OSError:
            pass
        link.close()
        differences.count("connections reset", turn % 2)
        if turn % 100 == 99:
            peak = server.peak()
            is_served, seconds = honest(server.address, b"honest-%d" % turn)
            longest = max(longest, seconds)
            differences.expect("one by one: an honest client is served", is_served, True)
    status, ends, _ = server.finish()
    differences.expect("one by one: the ends", (status, len(ends)), (0, CROWD + CROWD // 100))
    differences.expect("one by one: within the bound", longest <= TIMES * WAIT + SLACK, True)
    differences.expect("one by one: memory", peak <= MEMORY_LIMIT, True)
    print(f"ok    {CROWD} connections one by one, an honest client waited {longest:.2f} s at most, peak {peak} KiB", flush=True)


async def crowd_post(address, turn):
    """The status that a post of the crowd gets; None where it is refused or cut."""
    try:
        reader, writer = await asyncio.wait_for(asyncio.open_connection(*address), 60)
        writer.write(post_of(b"crowd-%d" % turn))
        writer.write_eof()
        output = await asyncio.wait_for(reader.read(-1), 60)
        writer.close()
    except (OSError, asyncio.TimeoutError):
        return None
    reply = expected.reply_in(output, 0)
    return reply and reply[0][0]


async def crowd_posts(address):
    return await asyncio.gather(*(crowd_post(address, turn) for turn in range(CROWD)))


def at_once(desk, differences):
    """A thousand connections at once, while a silent one is served: each is answered, or refused."""
    server = desk.serve(CROWD + 2, WAIT)
    quiet = socket.create_connection(server.address)
    began = time.monotonic()
    statuses = asyncio.run(crowd_posts(server.address))
    seconds = time.monotonic() - began
    peak, answered = server.peak(), statuses.count(200)
    differences.expect("at once: answered or refused", {status for status in statuses} <= {200, None}, True)
    differences.expect("at once: some are answered", answered > 0, True)
    is_served, waited = honest(server.address)
    quiet.close()
    differences.expect("at once: an honest client is served", is_served and waited <= TIMES * WAIT + SLACK, True)
    differences.expect("at once: memory", peak <= MEMORY_LIMIT, True)
    differences.expect("at once: it goes on", answered < CROWD or server.finish()[0] == 0, True)
    server.stop()
    listed = desk.run("list", "in", patience=60)[1].decode().count("<crowd-")
    differences.expect("at once: each answered one is recorded", listed >= answered, True)
    differences.count("lost", max(0, answered - listed))
    print(f"ok    {CROWD} connections at once: {answered} answered, {statuses.count(None)} refused, in {seconds:.1f} s, peak {peak} KiB", flush=True)


def held_in_turn(desk, differences, count=5):
    """Silent connections before an honest client: each has its whole wait."""
    server = desk.serve(count + 1, WAIT)
    links = [socket.create_connection(server.address) for _ in range(count)]
    is_served, seconds = honest(server.address)
    differences.expect("silent ones in turn: the honest client is served", is_served, True)
    differences.expect("silent ones in turn: within the bound", seconds <= count * TIMES * WAIT + SLACK, True)
    differences.expect("silent ones in turn: the ends", server.finish()[:2], (0, ["ReadFault"] * count + ["Closed"]))
    for link in links:
        link.close()
    differences.count("hostile clients", count)
    if seconds > count * WAIT / 2:
        differences.tell_known(f"{count} silent connections hold up an honest client for {seconds:.1f} s with --timeout {WAIT}: each its whole wait, "
                               "one after the other, so what many cost has no bound but their number")


def interrupt(process):
    """Stops a process and lets it go on, which interrupts what it waits for."""
    process.send_signal(signal.SIGSTOP)
    time.sleep(0.2)
    process.send_signal(signal.SIGCONT)


def interrupted(desk, differences):
    """`serve` is stopped and goes on, while it waits for a connection, and while it waits for a request."""
    server = desk.serve(3, 5)
    time.sleep(0.2)
    interrupt(server.process)
    replies = [honest(server.address, b"accepted")[0]]
    link = socket.create_connection(server.address, timeout=20)
    time.sleep(0.3)
    interrupt(server.process)
    try:
        replies.append(bool(half_closed(post_of(b"interrupted"))(link)))
    except OSError:
        replies.append(False)
    link.close()
    served, _ = honest(server.address)
    status, ends, _ = server.finish()
    differences.count("stops and goes on", 2)
    differences.expect("stopped and going on: each client is served", (replies, served, status, ends), ([True, True], True, 0, ["Closed"] * 3))


def late_answer(listener):
    """A partner who thinks for a second, and then answers by nothing at all."""
    link, _ = listener.accept()
    link.recv(65536)
    time.sleep(1)
    try:
        link.sendall(b"HTTP/1.1 200 OK\r\nContent-Length: 0\r\n\r\n")
        link.close()
    except OSError:
        pass


def interrupted_send(desk, differences):
    """`send` is stopped and goes on, while it waits for an answer."""
    with socket.create_server(("127.0.0.1", 0)) as listener:
        desk = Desk(desk.program, desk.folder, "127.0.0.1:%d" % listener.getsockname()[1])
        threading.Thread(target=late_answer, args=(listener,), daemon=True).start()
        desk.run("submit", "--from", "Supplier", "--to", "Buyer", "agreements.toml")
        run = subprocess.Popen(desk.words("send", "--timeout", "5"), cwd=desk.folder, stdin=subprocess.DEVNULL, stdout=subprocess.PIPE, stderr=subprocess.PIPE)
        time.sleep(0.4)
        interrupt(run)
        output, said = run.communicate(timeout=60)
    differences.count("stops and goes on")
    differences.expect("send, stopped and going on", (run.returncode, output), (0, b"document 1: try failed\n"))
    differences.expect("send, stopped and going on: the partner is heard", b"no receipt" in said, True)


FLOODS = [
    ("a head without end", b"HTTP/1.1 200 OK\r\n", b"X: y\r\n"),
    ("a field without end", b"HTTP/1.1 200 OK\r\nX: ", b"y" * 1000),
    ("empty lines without end", b"", b"\r\n"),
    ("a body without end", b"HTTP/1.1 200 OK\r\n\r\n", b"y" * 1000),
    ("a body longer than it may be", b"HTTP/1.1 200 OK\r\nContent-Length: 99999999999\r\n\r\n", b"y" * 1000),
    ("chunks without end", b"HTTP/1.1 200 OK\r\nTransfer-Encoding: chunked\r\n\r\n", b"5\r\nhello\r\n"),
    ("a chunk without end", b"HTTP/1.1 200 OK\r\nTransfer-Encoding: chunked\r\n\r\nffffffffff\r\n", b"y" * 1000),
    ("a trailer without end", b"HTTP/1.1 200 OK\r\nTransfer-Encoding: chunked\r\n\r\n0\r\n", b"X: y\r\n"),
    ("interim answers without end", b"", b"HTTP/1.1 100 Continue\r\n\r\n"),
    ("zeros without end", b"", b"\0" * 1000),
]


def flood(listener):
    """A partner who answers the documents in turn by what has no end."""
    for _, begin, again in FLOODS:
        link, _ = listener.accept()
        with link:
            link.settimeout(3 * TIMES)
            try:
                link.recv(65536)
                link.sendall(begin)
                while True:
                    link.sendall(again * 100)
            except OSError:
                pass


def flooded_send(desk, differences):
    """Answers without end: each try fails in time, and within the memory."""
    with socket.create_server(("127.0.0.1", 0)) as listener:
        desk = Desk(desk.program, desk.folder, "127.0.0.1:%d" % listener.getsockname()[1])
        threading.Thread(target=flood, args=(listener,), daemon=True).start()
        for _ in FLOODS:
            desk.run("submit", "--from", "Supplier", "--to", "Buyer", "agreements.toml")
        began = time.monotonic()
        run = subprocess.Popen(desk.words("send", "--timeout", str(WAIT)), cwd=desk.folder, stdin=subprocess.DEVNULL, stdout=subprocess.PIPE, stderr=subprocess.PIPE)
        peak = 0
        for line in run.stdout:
            with open(f"/proc/{run.pid}/status", encoding="ascii") as status:
                peak = max([peak, *(int(field.split()[1]) for field in status if field.startswith("VmHWM:"))])
            differences.expect("answers without end", line.endswith(b": try failed\n"), True)
            differences.count("answers without end")
        seconds = time.monotonic() - began
        differences.expect("answers without end: the status", run.wait(), 0)
        run.stdout.close()
        run.stderr.close()
    differences.expect("answers without end: all", differences.counts.get("answers without end"), len(FLOODS))
    differences.expect("answers without end: in time", seconds <= TIMES * WAIT * len(FLOODS) + SLACK, True)
    differences.expect("answers without end: memory", peak <= MEMORY_LIMIT, True)
    print(f"ok    {len(FLOODS)} answers without end, in {seconds:.1f} s, peak {peak} KiB", flush=True)


def peers(program, folder, differences):
    """All of them, those that wait at the same time."""
    desk = lambda name: Desk(program, f"{folder}/{name.replace(' ', '-')}")
    threads = [threading.Thread(target=held, args=(desk(row[0]), differences, *row)) for row in HOLDERS]
    threads.append(threading.Thread(target=held_in_turn, args=(desk("in turn"), differences)))
    threads += [threading.Thread(target=case, args=(desk(case.__name__), differences)) for case in (interrupted, interrupted_send, flooded_send)]
    for thread in threads:
        thread.start()
    for thread in threads:
        thread.join()
    for case in (framing, great, one_by_one, at_once):
        case(desk(case.__name__), differences)
