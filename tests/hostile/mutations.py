"""Mutated requests to `serve` and mutated receipts in answers to `send`, by a seeded generator. What the program answers, records and
calls settled is compared with the model of expected.py and the readers of readers.py. Used by sockets.py."""
import base64
import collections
import hashlib
import random
import re
import shutil
import socket
import sqlite3
import threading

import expected
import readers
from station import Desk, post_of

DOCUMENTS = 400  # documents of one store that receipts may name
BATCH = 2000  # connections of one server
REPORT_TYPE = b'Content-Type: multipart/report; report-type=disposition-notification; boundary="part-of-it"\r\n'
PIECES = (b"\r", b"\n", b"\r\n", b"\0", b"\r\n\r\n", b"\n\n", b"\t", b" ", b"\x7f", b"\x80", b"\xff", b'"', b"\\", b";", b",", b":", b"/", b"=", b"<", b">", b"-",
          b"--", b"Content-Length: 3\r\n", b"Content-Length: 0\r\n", b"Content-Length: 99999999999999999999\r\n", b"Transfer-Encoding: chunked\r\n",
          b"Transfer-Encoding: gzip\r\n", b"Connection: close\r\n", b"AS2-From: Depot\r\n", b"AS2-To: Supplier\r\n", b"AS2-Version: 1.1\r\n",
          b"Message-ID: <other@x>\r\n", b"Content-Type: text/plain\r\n", b"Content-Transfer-Encoding: base64\r\n", b"Content-Encoding: identity\r\n",
          b"Disposition-Notification-To: z\r\n", b"Receipt-Delivery-Option: http://127.0.0.1:1/x\r\n", b"0\r\n\r\n", b"3;x=y\r\nabc\r\n", b"ffffffffffffffff\r\n",
          b"--part-of-it\r\n", b"--part-of-it--\r\n", b"Disposition: automatic-action/MDN-sent-automatically; processed\r\n", b"/error: x", b"/warning: x",
          b"sha-256", b"md5", b"required", b"optional", b"HTTP/1.0", b"HTTP/1.1 100 Continue\r\n\r\n", b"HEAD", b"GET", b" 200 ", b"204")


# a word of a request or of a receipt, and what may stand in its place
WORDS = ((b"processed", (b"processed/error: x", b"processed/warning: x", b"Processed", b"failed", b"failed/failure: x", b"processed/ERROR", b"processed /",
                         b"processed/x")),
         (b"sha1", (b"SHA-1", b"md5", b"sha256", b"sha-384", b"", b"sha1, sha1")), (b"sha-256", (b"sha256", b"SHA-256", b"sha512")),
         (b" 200 OK", (b" 204 No Content", b" 299 x", b" 300 x", b" 199 x", b" 500 x", b" 202", b" 200")), (b"Buyer", (b"Depot", b'"Buyer"', b"Nobody", b"buyer")),
         (b"HTTP/1.1", (b"HTTP/1.0", b"HTTP/1.2", b"http/1.1")), (b"automatic-action", (b"Manual-Action", b"automatic")),
         (b"optional", (b"required", b"OPTIONAL", b"maybe")), (b"message/disposition-notification", (
             b"message/disposition-notification; x=y", b"Message/Disposition-Notification", b"text/plain", b"message/delivery-status")),
         (b"application/edi-x12", (b"application/pkcs7-mime", b"application/pkcs7-mime; smime-type=compressed-data", b"multipart/signed; boundary=b",
                                   b"text/plain; charset=x")),
         (b"Original-Message-ID", (b"original-message-id", b"X", b"Original-Recipient")), (b"Received-Content-MIC", (b"received-content-mic", b"X")),
         (b"disposition-notification;", (b"DISPOSITION-NOTIFICATION;", b"delivery-status;")), (b'"part-of-it"', (b"part-of-it", b'"part-of-it "', b'"part"', b'""')),
         (b"Content-Type: message", (b"Content-Transfer-Encoding: base64\r\nContent-Type: message", b"Content-Transfer-Encoding: 7BIT\r\nContent-Type:\r\n message")),
         (b"\r\n", (b"\n",)), (b"POST", (b"HEAD", b"GET", b"post")), (b"/as2", (b"/", b"/as2?x=y", b"http://127.0.0.1/as2")), (b"@", (b"\t@", b"")),
         (b": ", (b":", b":\t ")))


def content_of(number):
    return b"content of document %d" % number


def mic_text(number, digest="sha1"):
    return base64.b64encode(hashlib.new(digest.replace("-", ""), content_of(number)).digest()) + b", " + digest.encode()


def receipt_body(number, dice):
    """A good receipt for that document."""
    digest = dice.choice(("sha1", "sha1", "sha1", "md5", "sha-256"))
    return (b"--part-of-it\r\nContent-Type: text/plain\r\n\r\nIt came.\r\n\r\n--part-of-it\r\nContent-Type: message/disposition-notification\r\n\r\n"
            b"Reporting-UA: another\r\nFinal-Recipient: rfc822; Buyer\r\nOriginal-Message-ID: <out-%d@station.example>\r\n"
            b"Disposition: automatic-action/MDN-sent-automatically; processed\r\nReceived-Content-MIC: %s\r\n\r\n--part-of-it--\r\n"
            % (number, mic_text(number, digest)))


def chunked(content, size):
    pieces = [content[at:at + size] for at in range(0, len(content), size)]
    return b"".join(b"%x\r\n%s\r\n" % (len(piece), piece) for piece in [*pieces, b""])


def in_chunks(text, size):
    """A message with a length, chunked."""
    head, body = text.split(b"\r\n\r\n", 1)
    return re.sub(rb"Content-Length: \d+", b"Transfer-Encoding: chunked", head) + b"\r\n\r\n" + chunked(body, size)


def receipt_post(number, dice):
    body = receipt_body(number, dice)
    return (b"POST /as2 HTTP/1.1\r\nHost: 127.0.0.1\r\nAS2-Version: 1.0\r\nAS2-From: Buyer\r\nAS2-To: Supplier\r\nMessage-ID: <receipt-%d@buyer.example>\r\n%s"
            b"Content-Length: %d\r\n\r\n%s" % (number, REPORT_TYPE, len(body), body))


def answer_of(number, dice):
    """Buyer's answer to a document: a good receipt, by its length, in chunks or to the end."""
    body = receipt_body(number, dice)
    head = b"HTTP/1.1 200 OK\r\nAS2-Version: 1.0\r\nAS2-From: Buyer\r\nAS2-To: Supplier\r\nMessage-ID: <r%d@buyer.example>\r\n%s" % (number, REPORT_TYPE)
    whole = head + b"Content-Length: %d\r\n\r\n" % len(body) + body
    return dice.choice((whole, whole, in_chunks(whole, 100), head + b"\r\n" + body))


def request_of(number, dice):
    """A request of the corpus, with an identifier or a document of that number."""
    kind, plain = dice.randrange(6), post_of(b"hostile-%d" % number, b"document %d" % (number % 7))
    if kind == 0:
        return receipt_post(number % DOCUMENTS + 1, dice)
    if kind == 1:
        return plain.replace(b"signed-receipt-micalg=optional, sha1",
                             b"signed-receipt-protocol=optional, pkcs7-signature; signed-receipt-micalg=optional, sha-256, sha1")
    if kind == 2:
        later = b"Receipt-Delivery-Option: http://127.0.0.1:1/receipts\r\nContent-Length"
        return plain.replace(b"AS2-From: Buyer", b"AS2-From: Depot").replace(b"Content-Length", later)
    if kind == 3:
        return in_chunks(plain, dice.randrange(1, 8))
    if kind == 4:
        return plain.replace(b"AS2-From: Buyer", b'AS2-From: "A \\"B\\" \\\\ C"') + plain.replace(b"hostile", b"second")
    return plain


def changed_bytes(text, dice):
    """A change of single bytes, or of a range of them."""
    at = dice.randrange(len(text) + 1)
    size = dice.choice((1, 1, 1, 2, 4, 16, 64))
    kind = dice.randrange(7)
    if kind == 0 and at < len(text):
        return text[:at] + bytes([text[at] ^ 1 << dice.randrange(8)]) + text[at + 1:]
    if kind == 1:
        return text[:at] + bytes([dice.randrange(256)]) + text[at + 1:]
    if kind == 2:
        return text[:at] + text[at + size:]
    if kind == 3:
        return text[:at] + text[at:at + size] * dice.choice((2, 3, 20)) + text[at + size:]
    if kind == 4:
        return text[:at] + text[at:at + size].swapcase() + text[at + size:]
    if kind == 5 and dice.randrange(20) == 0:
        return text[:at] + bytes([dice.choice(b"x \t\r\n;0")]) * dice.choice((70, 128, 300, 1024, 17000)) + text[at:]
    return text[:at] + dice.choice(PIECES) + text[at + dice.choice((0, 0, size)):]


def changed_lines(text, dice):
    """A change of whole lines, a cut, or another message's tail."""
    lines = text.split(b"\r\n")
    first, second = dice.randrange(len(lines)), dice.randrange(len(lines))
    kind = dice.randrange(7)
    if kind == 0:
        del lines[first]
    elif kind == 1:
        lines.insert(second, lines[first])
    elif kind == 2:
        lines[first], lines[second] = lines[second], lines[first]
    elif kind == 3:
        lines.insert(first, dice.choice(PIECES).rstrip(b"\r\n"))
    elif kind == 4:
        lines[first] += b"\n" + lines.pop(second) if len(lines) > 1 and second > first else b"\r "
    elif kind == 5:
        return text[:dice.randrange(len(text) + 1)]
    else:
        return re.sub(rb"\d+", lambda found: dice.choice((found.group(), b"%d" % dice.choice((0, 1, 2, 65536, 1 << 63)))), text)
    return b"\r\n".join(lines)


def changed_words(text, dice):
    """Another word in the place of one that stands there: once, or everywhere."""
    word, others = dice.choice([row for row in WORDS if row[0] in text] or [(b"", (b"x",))])
    return text.replace(word, dice.choice(others), dice.choice((1, 1, -1)))


def mutated(text, dice):
    """The text with one change or a few; sometimes with none."""
    for _ in range(dice.choice((0, 1, 1, 1, 1, 1, 2, 2, 3, 6))):
        text = dice.choice((changed_bytes, changed_bytes, changed_lines, changed_words))(text or b"\r\n", dice)
    return text


def exchange(address, text, patience=20):
    """What comes back for a whole input, and how it ended."""
    output = b""
    try:
        with socket.create_connection(address, timeout=patience) as link:
            link.sendall(text)
            link.shutdown(socket.SHUT_WR)
            while piece := link.recv(65536):
                output += piece
    except socket.timeout:
        return output, "hang"
    except OSError:
        return output, "reset"
    return output, "whole"


def submitted(program, folder):
    """A store with documents of which none was tried."""
    desk = Desk(program, folder)
    for number in range(1, DOCUMENTS + 1):
        with open(desk.path("document"), "wb") as to:
            to.write(content_of(number))
        status, output, said = desk.run("submit", "--from", "Supplier", "--to", "Buyer", "document")
        if (status, output) != (0, b"%d\n" % number):
            raise RuntimeError(f"submit: {status} {said}")
    return desk


def details_of(desk):
    """State and detail of each document, by `list out`."""
    listed = desk.run("list", "out")[1].decode()
    return {int(line[:12]): f"{line[13]} {line[20:36].strip()}" for line in listed.splitlines()}


class Requests:
    """Mutated requests to one server after the other."""

    def __init__(self, program, folder, template, seed, differences, verdict=readers.verdict):
        self.program, self.folder, self.template, self.differences = program, folder, template, differences
        self.dice, self.sent, self.peak, self.verdict = random.Random(seed), 0, 0, verdict
        self.statuses, self.before = collections.Counter(), collections.deque(maxlen=50)

    def batch(self, count):
        """So many mutated requests, each on a connection of its own, and then an honest one."""
        desk = Desk(self.program, self.folder)
        shutil.copy(self.template, desk.path(desk.store))
        model = expected.Model({number: content_of(number) for number in range(1, DOCUMENTS + 1)})
        server = desk.serve(count + 1, 5)
        wanted = []
        for turn in range(count + 1):
            text = self.text(self.sent + turn) if turn < count else post_of(b"honest")
            if turn == count:
                self.peak = max(self.peak, server.peak())
            replies, end = expected.replies_to(model, text)
            wanted.append((text, replies, end))
            output, how = exchange(server.address, text)
            self.compare(text, output, how, replies)
            if not server.is_running() and turn < count:
                self.differences.differ("serve ended by itself", f"status {server.process.returncode} after {text!r}")
                return
        self.sent += count
        self.differences.count("requests mutated", count)
        self.end_of(desk, server, model, wanted)

    def text(self, number):
        """A mutated request; sometimes one that was sent a little before, as it was or with another change."""
        kind = self.dice.randrange(12)
        if kind < 2 and self.before:
            text = self.dice.choice(self.before)
            return text if kind else mutated(text, self.dice)
        self.before.append(mutated(request_of(number, self.dice), self.dice))
        return self.before[-1]

    def compare(self, text, output, how, wanted):
        """What came back, with the model's replies: all of them, or those before a reset."""
        self.differences.count("answers cut by a reset", how == "reset")
        if how == "hang":
            self.differences.differ("a hang", repr(text))
        at = 0
        for count, reply in enumerate(wanted):
            found = expected.reply_in(output, at, reply.is_bare)
            told = (reply.status, None, None) if reply.is_bare else reply.told()
            if not found and how == "reset":
                return
            if not found or found[0] != told or found[1] != (reply.line in expected.FRAMING):
                self.differences.differ("a reply", f"to request {count + 1} of {text!r}: wanted {told}, found {found and found[0]}, {output[at:at + 2000]!r}")
                return
            self.statuses[reply.status] += 1
            at = found[2]
        if at != len(output):
            self.differences.differ("bytes behind the replies", f"to {text!r}: {output[at:]!r}")

    def end_of(self, desk, server, model, wanted):
        """How the connections ended, what was said of replies, and what is recorded."""
        expect = self.differences.expect
        status, ends, said = server.finish()
        expect("the status of serve", status, 0)
        for (text, _, end), found in zip(wanted, ends):
            expect(f"how the connection of {text!r} ended", found, end)
        expect("lines of replies", [int(line.rsplit(" ", 1)[1]) for line in said], [reply.status for _, replies, _ in wanted for reply in replies])
        self.recorded(desk, model)
        details = details_of(desk)
        for number in range(1, DOCUMENTS + 1):
            found = details.get(number)
            self.differences.count("documents settled by a post", found == "S processed")
            expect(f"document {number}", found, self.told_of(number, model))
            if found == "S processed" and number not in model.confirmed:
                self.differences.count("successes that email doesn't read")
                self.differences.differ(f"document {number} counts as a success, and email doesn't read one")

    def told_of(self, number, model):
        """The detail by the reader; a control may have another one."""
        detail = model.details.get(number, "R retry")
        return detail if self.verdict is readers.verdict or number not in model.details else self.verdict(detail)

    def recorded(self, desk, model):
        """Each entry that was answered stands in the file, with its identifier, content and MIC; and no other."""
        base = sqlite3.connect(desk.path(desk.store))
        pieces = collections.defaultdict(bytes)
        for number, piece in base.execute("SELECT number, bytes FROM inbox2_piece ORDER BY number, position"):
            pieces[number] += piece
        rows = {number: (bytes(identifier), bytes(kind), pieces[number], bytes(mic).decode() if mic is not None else None)
                for number, identifier, kind, mic in base.execute("SELECT number, identifier, content_type, mic FROM inbox2")}
        base.close()
        kept = {number: (identifier, kind, content, mic and mic.split(",")[0]) for number, (identifier, kind, content, _, _, mic) in model.inbox.values()}
        self.differences.count("posts recorded", len(kept))
        for number in kept.keys() | rows.keys():
            if rows.get(number) != kept.get(number):
                self.differences.count("lost")
                self.differences.differ(f"the record {number}", f"wanted {kept.get(number)}, found {rows.get(number)}")


class Partner(threading.Thread):
    """Buyer, who gives each document a mutated answer, and keeps it."""

    def __init__(self, seed):
        super().__init__(daemon=True)
        self.dice, self.answers, self.listener = random.Random(seed), {}, socket.create_server(("127.0.0.1", 0))
        self.name = "127.0.0.1:%d" % self.listener.getsockname()[1]

    def run(self):
        while True:
            link, _ = self.listener.accept()
            with link:
                try:
                    link.settimeout(10)
                    self.answer(link)
                except OSError:  # the sender has had enough
                    pass

    def answer(self, link):
        text = b""
        while b"\r\n\r\n" not in text or len(text) < text.find(b"\r\n\r\n") + 4 + int(re.search(rb"\r\nContent-Length: (\d+)\r\n", text).group(1)):
            piece = link.recv(65536)
            if not piece:
                return
            text += piece
        link.sendall(self.answer_to(text))
        link.shutdown(socket.SHUT_WR)
        link.recv(1)

    def answer_to(self, text):
        number = int(re.search(rb"\r\nMessage-ID: <out-(\d+)@", text).group(1))
        self.answers[number] = mutated(answer_of(number, self.dice), self.dice)
        return self.answers[number]


def detail_by(answer, number, verdict):
    """State and detail of a document after that answer, by the readers; and whether `email` confirms a success."""
    read = readers.answer_in(answer)
    if read is None or not 200 <= int(read.first[1]) <= 299:
        return "R retry", False
    names = [readers.name_of(read.once(name)) for name in (b"as2-from", b"as2-to")]
    kind = read.once(b"content-type")
    receipt = readers.receipt_in(kind, read.body) if kind is not None else None
    if names != [b"Buyer", b"Supplier"] or receipt is None or receipt[0] != b"out-%d@station.example" % number:
        return "R retry", False
    confirmed = readers.confirms(kind, read.body, receipt[0], content_of(number))
    return verdict(receipt, content_of(number)), confirmed


class Answers:
    """Mutated answers to `send`."""

    def __init__(self, program, folder, template, seed, differences, verdict=readers.verdict):
        self.partner = Partner(seed)
        self.partner.start()
        self.desk = Desk(program, folder, self.partner.name)
        self.template, self.differences, self.verdict = template, differences, verdict
        self.details = collections.Counter()

    def batch(self):
        """One answer to each document of a store."""
        shutil.copy(self.template, self.desk.path(self.desk.store))
        self.partner.answers.clear()
        status, output, said = self.desk.run("send", "--timeout", "5", patience=300)
        self.differences.expect("the status of send", status, 0)
        lines = output.decode().splitlines()
        self.differences.expect("lines of send", len(lines), DOCUMENTS)
        details = details_of(self.desk)
        for number, line in enumerate(lines, 1):
            answer = self.partner.answers.get(number, b"")
            wanted, confirmed = detail_by(answer, number, self.verdict)
            told = "try failed" if wanted == "R retry" else "settled " + wanted
            self.differences.expect(f"the answer {answer!r} to document {number}", (line, details.get(number)), (f"document {number}: {told}", wanted))
            self.details[details.get(number)] += 1
            if details.get(number) == "S processed":
                self.differences.count("documents settled by an answer")
                if not confirmed:
                    self.differences.count("successes that email doesn't read")
                    self.differences.differ("a success that email doesn't read", repr(answer))
        self.differences.count("answers mutated", len(lines))
