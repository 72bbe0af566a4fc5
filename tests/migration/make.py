#!/usr/bin/env python3
"""python3 tests/migration/make.py PROGRAM

Has release 0.5.0 make a store of version 1, and writes it and what that program says over it to this folder. PROGRAM is the release,
which `tests/migration/release.sh FILE` unpacks.

No row of version 1 is written by hand: each comes of a command of that program, as an operator would give it. Moments are given, so
each run writes the same bytes. The store has

- received documents of each of the six outcomes, under SHA-1, under MD5 and without a MIC, with contents of 0, 3, 65,536 and 65,537
  bytes, by a length and in chunks; among them posts that list SHA-256, which the release doesn't know: a later program does, and has
  to answer them as they were answered;
- receipts owed that are pending, in a try, in the last try, between tries, sent, given up, and sent and queued again by a repeat;
- documents of all 14 details. Those that a receipt settled have it as evidence.

Numbers begin at 101, so that entries that are numbered anew are seen. SQL texts have a statement in each line, and a `;` nowhere else.

version-2.sql is the same store as it would stand in version 2, with a little more: see `version_2`.
"""
import base64
import hashlib
import lzma
import os
import pathlib
import re
import shutil
import signal
import sqlite3
import subprocess
import sys
import tempfile

from check import HERE, LONG, NOW, Partner, run, texts, words

FIRST = 101
ORDER = b"UNH+1+ORDERS:D:96A:UN'"
PIECE = 65_536

# ---- what the partner answers


def mic(digest, content):
    """Returns the value of a field `Received-content-MIC`."""
    return f"{base64.b64encode(hashlib.new(digest.replace('-', ''), content).digest()).decode()}, {digest}"


def receipt(identifier, disposition, field=None):
    """Returns the type and the body of a receipt for the document of that identifier, with a MIC or without."""
    field = f"Received-content-MIC: {field}\r\n" if field else ""
    body = (
        "--cut\r\nContent-Type: text/plain\r\n\r\nThe document came.\r\n\r\n"
        "--cut\r\nContent-Type: message/disposition-notification\r\n\r\nReporting-UA: partner\r\n"
        f"Original-Message-ID: {identifier}\r\nDisposition: automatic-action/MDN-sent-automatically; {disposition}\r\n{field}"
        "\r\n--cut--\r\n"
    )
    return 'multipart/report; report-type=disposition-notification; boundary="cut"', body.encode()


def answered(status, *fields, body=b""):
    """Returns an answer."""
    return "\r\n".join([f"HTTP/1.1 {status}", *fields, f"Content-Length: {len(body)}", "", ""]).encode() + body


TAKEN = answered("200 OK")
FAILED = answered("500 Internal Server Error")
SILENT = None


def told(disposition, field=None):
    """Returns what makes an answer with a receipt, of a document's identifier and names."""

    def answer(identifier, sender, receiver):
        kind, body = receipt(identifier, disposition, field)
        return answered("200 OK", f"AS2-From: {sender}", f"AS2-To: {receiver}", f"Content-Type: {kind}", body=body)

    return answer


# ---- what is sent: the moment of its submission, the detail that it has in the end, to whom, its content, the answers to its tries
QUOTED = r'"A \"B\" \\ C"'
BIG = (ORDER * PIECE)[: PIECE + 1]
DOCUMENTS = [
    (1000, "processed", "Buyer", b"abc", [told("processed", mic("sha1", b"abc"))]),
    (1000, "processed", "Mill", b"", [told("processed", mic("md5", b""))]),
    (1000, "warning", "Buyer", b"abc", [told("processed/warning: duplicate-document", mic("sha1", b"abc"))]),
    (1000, "no-mic", "Buyer", b"abc", [told("processed")]),
    # a later program knows this digest; the receipt came before, and the detail stays
    (1000, "unknown-mic", "Buyer", b"abc", [told("processed", mic("sha-256", b"abc"))]),
    (1000, "unknown-mic", "Buyer", b"abc", [told("processed", mic("sha-256", b"abd"))]),
    (1000, "unknown-mic", "Mill", b"abc", [told("processed", mic("sha-512", b"abc"))]),
    (1000, "not-processed", "Buyer", b"abc", [told("failed/failure: unsupported format")]),
    (1000, "error-modifier", "Buyer", b"abc", [told("processed/error: authentication-failed")]),
    (1000, "mic-differs", "Buyer", b"abc", [told("processed", mic("sha1", b"abd"))]),
    (1000, "no-receipt-asked", QUOTED, b"abc", [TAKEN]),
    (1000, "processed", "Buyer", b"abc", [FAILED, told("processed", mic("sha1", b"abc"))]),
    (1000, "tries-used", "Buyer", b"abc", [FAILED, FAILED]),
    # the last try was cut off, and `tick` gave it up
    (1000, "tries-used", "Buyer", b"abc", [FAILED, SILENT]),
    (1000, "overdue", "Depot", b"abc", [TAKEN]),
    # its receipt came by a post: see LATE
    (1000, "processed", "Depot", ORDER, [TAKEN]),
    (1000, "mic-differs", "Depot", ORDER, [TAKEN]),
    # the last try was cut off, and no `tick` came behind it
    (1970, "sending", "Buyer", b"abc", [FAILED, SILENT]),
    (2000, "retry", "Buyer", BIG, [FAILED]),
    (2000, "awaiting", "Depot", b"abc", [TAKEN]),
    (2000, "sending", "Buyer", b"abc", [SILENT]),
    (2020, "retry", "Mill", b"", [FAILED]),
    # these two are never sent
    (2030, "new", "Buyer", ORDER, []),
    (2030, "new", QUOTED, b"", []),
]
# Receipts that come by a post: the moment, the document's place in DOCUMENTS, and what they say. One comes while it is awaited, one when
# it is overdue.
LATE = [
    (1050, 15, "processed", mic("sha1", ORDER)),
    (1095, 16, "processed", mic("sha1", ORDER + b"x")),
]

# ---- what is received: the moment, a name, from whom, its own fields, its content, the answers to the tries of its receipt
ASKED = "Disposition-Notification-To: as2@partner.example"
SHA1 = (ASKED, "Disposition-Notification-Options: signed-receipt-micalg=optional, sha1")
LATER = (*SHA1, "Receipt-Delivery-Option: http://127.0.52.1:8052/receipts?of=depot")


def asks(digests, fields=(ASKED,)):
    """Returns the fields of a post that asks for one of these digests."""
    return (*(it for it in fields if "Options" not in it), f"Disposition-Notification-Options: signed-receipt-micalg={digests}")


def typed(kind, fields=SHA1):
    """Returns the fields of a post of that content type."""
    return (*fields, f"Content-Type: {kind}")


ENVELOPED = "application/pkcs7-mime; smime-type=enveloped-data; name=smime.p7m"
COMPRESSED = "application/pkcs7-mime; smime-type=compressed-data"
SIGNED = 'multipart/signed; protocol="application/pkcs7-signature"; boundary=cut'
POSTS = [
    (1000, "plain", "Buyer", SHA1, b"abc", []),
    (1000, "empty-md5", "Buyer", asks("optional, md5"), b"", []),
    (1000, "one-piece", "Mill", (*SHA1, "Transfer-Encoding: chunked"), BIG[:PIECE], []),
    (1000, "two-pieces", "Mill", asks("optional, md5, sha1"), BIG, []),
    (1000, "enveloped", "Buyer", typed(ENVELOPED), b"\x30\x80\x06", []),
    (1000, "compressed", "Buyer", typed(COMPRESSED), b"\x30\x80\x06", []),
    (1000, "signed", "Buyer", typed(SIGNED), b"--cut--\r\n", []),
    (1000, "encoded", "Buyer", (*SHA1, "Content-Transfer-Encoding: base64"), b"YWJj", []),
    (1000, "sha-256-required", "Buyer", asks("required, sha-256"), b"abc", []),
    (1000, "sha-256-and-sha1", "Buyer", asks("optional, sha-256, sha1"), b"abc", []),
    (1000, "sha-256-alone", "Buyer", asks("optional, sha-256"), b"abc", []),
    (1000, "sha-256-or-md5-required", "Mill", asks("required, sha-256, md5"), b"\x00\xff\n", []),
    (1000, "none-asked", "Mill", (), ORDER, []),
    (1000, "none-asked-signed", "Mill", typed(SIGNED, ()), b"--cut--\r\n", []),
    (1000, "quoted", QUOTED, (*SHA1, 'AS2-To: "Supplier 2"', "Message-ID: no brackets@x", "Content-Type:"), b"abc", []),
    # the identifier of the first post, from another partner
    (1000, "same-identifier", "Depot", (*SHA1, "Message-ID: <plain@x>"), b"abc", []),
    (1000, "sent", "Depot", LATER, b"abc", [TAKEN]),
    (1000, "sent-and-repeated", "Depot", LATER, b"abc", [TAKEN]),
    (1000, "given-up", "Depot", asks("optional, md5", LATER), b"", [FAILED, FAILED]),
    (1000, "sent-of-a-failure", "Depot", typed(ENVELOPED, LATER), b"\x30\x80\x06", [FAILED, TAKEN]),
    (1970, "in-its-last-try", "Depot", LATER, b"abc", [FAILED, SILENT]),
    (2000, "failed-once", "Depot", typed(COMPRESSED, LATER), b"\x30\x80\x06", [FAILED]),
    (2000, "in-a-try", "Depot", LATER, ORDER, [SILENT]),
    (2020, "not-due", "Depot", LATER, b"abc", [FAILED]),
    # these receipts are never sent
    (2030, "pending-sha-256-required", "Depot", asks("required, sha-256", LATER), b"abc", []),
    (2030, "pending-sha-256-and-md5", "Depot", asks("optional, sha-256, md5", LATER), b"abc", []),
    (2030, "pending-signed", "Depot", typed(SIGNED, LATER), b"--cut--\r\n", []),
]
# Posts that come a second time: the moment, and the name.
REPEATED = [(1050, "plain"), (2030, "sent-and-repeated")]
# The moments at which `send` runs, and those at which `tick` does.
SENDS, TICKS = (1000, 1030, 1970, 2000, 2020), (1090,)


def chunked(content, size=10_000):
    """Returns a content in chunks."""
    pieces = [content[at : at + size] for at in range(0, len(content), size)]
    return b"".join(b"%x\r\n%s\r\n" % (len(piece), piece) for piece in [*pieces, b""])


def request(name, sender, fields, content):
    """Returns a post. A field among `fields` stands in place of the one that each post has; an empty one is left out."""
    named = dict(field.split(":", 1) for field in fields)
    usual = {
        "Host": " 127.0.0.1:8080", "AS2-Version": " 1.0", "AS2-From": f" {sender}", "AS2-To": " Supplier", "Message-ID": f" <{name}@x>",
        "Content-Type": " application/edi-x12",
    }  # fmt: skip
    if "Transfer-Encoding" in named:
        content = chunked(content)
    else:
        usual["Content-Length"] = f" {len(content)}"
    lines = [f"{field}:{value}" for field, value in (usual | named).items() if value]
    return "\r\n".join(["POST /as2 HTTP/1.1", *lines, "", ""]).encode() + content


def receipt_post(name, sender, number, disposition, field):
    """Returns the post of a receipt for the document of that number."""
    kind, body = receipt(f"<out-{number}@station.example>", disposition, field)
    return request(name, sender, [f"Content-Type: {kind}"], body)


# ---- the commands


class Station:
    """The release over one store, and the partner that it sends to."""

    def __init__(self, program, folder):
        self.program, self.store, self.folder = program, f"{folder}/station.db", folder
        self.answers = {}
        self.replies = {}

    def answer(self, identifier):
        """Returns what the partner answers to the next try under that identifier; `send` tries nothing more often than planned."""
        return self.answers[identifier].pop(0)

    def run(self, moment, *command, text=b""):
        first = () if os.path.exists(self.store) else ("--first", str(FIRST))
        return run(self.program, self.store, moment, *first, *command, text=text)

    def submit(self, moment, number, partner, content, answers):
        """Hands a document in, and plans the answers to its tries."""
        path = pathlib.Path(self.folder, "document")
        path.write_bytes(content)
        got = self.run(moment, "submit", "--from", "Supplier", "--to", partner, str(path))
        assert int(got) == number, got
        identifier = f"<out-{number}@station.example>"
        whole = [it(identifier, partner, "Supplier") if callable(it) else it for it in answers]
        self.answers[identifier] = whole

    def post(self, moment, name, text):
        """Posts, and looks that a repeat gets the bytes of the first reply, but for the field `Date`."""
        reply = self.run(moment, "post", text=text)
        assert without_date(self.replies.setdefault(name, reply)) == without_date(reply), name
        return reply

    def send(self, moment, partner):
        """Runs `send` until all that is due has had its try. Where the partner is silent, `send` is killed (`kill -9`), as an operator may
        kill it. Only so does a document stay `sending`, and a receipt in a try: a `send` that ends by itself closes each try. What was
        begun is recorded before the partner hears of it."""
        while True:
            partner.is_silent.clear()
            ran = subprocess.Popen(words(self.program, self.store, moment, "send"), stdout=subprocess.DEVNULL, stderr=subprocess.DEVNULL)
            while ran.poll() is None and not partner.is_silent.wait(0.02):
                pass
            if not partner.is_silent.is_set():
                assert ran.returncode == 0
                return
            ran.send_signal(signal.SIGKILL)
            ran.wait()


def without_date(reply):
    """Returns a reply without its field `Date`, which is of the moment."""
    return b"".join(line for line in reply.splitlines(True) if not line.startswith(b"Date:"))


def posts():
    """Returns the posts that are tried over the finished store, by name. They go in the order of their names.

    Only such are there as any later program has to answer alike. A post that was recorded under one digest and asks for another one now
    isn't: today that is 409, and a repeat once digests of earlier entries aren't compared."""
    found = {}
    for place, (_, name, sender, fields, content, _) in enumerate(POSTS):
        found[f"{FIRST + place}-{name}"] = request(name, sender, fields, content)
    other = {
        "content": request("sha-256-and-sha1", "Buyer", asks("optional, sha-256, sha1"), b"abd"),
        "content-not-processed": request("sha-256-required", "Buyer", asks("required, sha-256"), b"abd"),
        "type": request("plain", "Buyer", typed("text/plain"), b"abc"),
        "no-receipt": request("plain", "Buyer", (), b"abc"),
        "address": request("sent", "Depot", (*SHA1, "Receipt-Delivery-Option: http://127.0.52.1:8052/elsewhere"), b"abc"),
    }
    # a document that listed no SHA-256, and now does: a repeat, since what was taken of the list is the same
    found["another-list"] = request("plain", "Buyer", asks("optional, sha-256, sha1"), b"abc")
    found |= {f"conflict-{name}": post for name, post in other.items()}
    # a receipt for each document, from its partner: what was never begun isn't there
    for place, (_, detail, partner, content, _) in enumerate(DOCUMENTS):
        number = FIRST + place
        found[f"receipt-{number}-{detail}"] = receipt_post(f"r{number}", partner, number, "processed", mic("sha1", content))
    found["receipt-other-partner"] = receipt_post("r", "Mill", FIRST, "processed", mic("sha1", b"abc"))
    return found


def fill(station):
    """Gives the commands, in the order of their moments: of one moment first documents, then posts, receipts, `send` and `tick`."""
    events = []
    for place, (moment, _, partner, content, answers) in enumerate(DOCUMENTS):
        events.append((moment, 0, lambda m, a=(FIRST + place, partner, content, answers): station.submit(m, *a)))
    for place, (moment, name, sender, fields, content, answers) in enumerate(POSTS):
        station.answers[f"<mdn-{FIRST + place}@station.example>"] = list(answers)
        events.append((moment, 1, lambda m, a=(name, request(name, sender, fields, content)): station.post(m, *a)))
    for moment, name in REPEATED:
        again = next(request(*it[1:5]) for it in POSTS if it[1] == name)
        events.append((moment, 2, lambda m, a=(name, again): station.post(m, *a)))
    for moment, place, disposition, field in LATE:
        text = receipt_post(f"late-{place}", DOCUMENTS[place][2], FIRST + place, disposition, field)
        events.append((moment, 2, lambda m, a=(f"late-{place}", text): station.post(m, *a)))
    partner = Partner(station.answer)
    events += [(moment, 3, lambda m: station.send(m, partner)) for moment in SENDS]
    events += [(moment, 4, lambda m: station.run(m, "tick")) for moment in TICKS]
    with partner.listening():
        for moment, _, command in sorted(events, key=lambda it: it[:2]):
            command(moment)
    assert not any(station.answers.values()), "a try that was planned wasn't made"


def look(store):
    """Looks that the store has what it is for. The codes are those of docs/PROFILE.md."""
    connection = sqlite3.connect(f"file:{store}?mode=ro", uri=True)

    def found(what):
        return set(connection.execute(f"SELECT DISTINCT {what}"))

    assert found("detail FROM outbox") == {(code,) for code in range(1, 15)}
    assert found("outcome FROM inbox") == {(code,) for code in range(1, 7)}
    assert found("digest FROM inbox") == {("sha1",), ("md5",), (None,)}
    assert {(length,) for length in (0, 3, PIECE, PIECE + 1)} <= found("length FROM inbox")
    # receipts that aren't asked for and those that are sent; those owed that are idle, in a try, in the last try, given up
    assert found("mdn, attempt FROM inbox") == {(1, 1), (3, 1), (2, 1), (2, 2), (2, 3), (2, 4)}
    # idle ones were never tried, or between two tries
    assert found("tries FROM inbox WHERE mdn = 2 AND attempt = 1") == {(0,), (1,)}
    connection.close()


# ---- the store as a text


def literal(value):
    """Returns a value as SQL has it."""
    if value is None:
        return "NULL"
    if isinstance(value, bytes):
        return f"x'{value.hex()}'"
    return f"'{value}'" if isinstance(value, str) else str(value)


def dump(store):
    """Returns the statements that make a store's tables, in the order in which they were made, and then those that fill them."""
    connection = sqlite3.connect(f"file:{store}?mode=ro", uri=True)
    made = connection.execute("SELECT type, name, sql FROM sqlite_master WHERE sql IS NOT NULL ORDER BY rowid").fetchall()
    found = [sql for _, _, sql in made]
    for _, name, _ in filter(lambda it: it[0] == "table", made):
        for row in connection.execute(f"SELECT * FROM {name} ORDER BY rowid"):
            found.append(f"INSERT INTO {name} VALUES ({', '.join(map(literal, row))})")
    connection.close()
    return found


def build(path, statements):
    """Makes a file of a store's statements."""
    connection = sqlite3.connect(path)
    connection.executescript(";\n".join(["BEGIN", *statements, "COMMIT"]))
    connection.close()


def write_sql(name, statements):
    """Writes statements, one in each line."""
    (HERE / name).write_text("".join(f"{it};\n" for it in statements), encoding="ascii")


def write(name, said, tried):
    """Writes what was said, and the posts that were tried, to a folder, in place of what lies there. Long posts are packed."""
    shutil.rmtree(HERE / name, ignore_errors=True)
    for post, text in tried.items():
        said |= {f"posts/{post}.http": text} if len(text) <= LONG else {f"posts/{post}.http.xz": lzma.compress(text)}
    for text in said:
        path = HERE / name / text
        path.parent.mkdir(parents=True, exist_ok=True)
        path.write_bytes(said[text])


# ---- version 2

BEHIND = FIRST + len(POSTS)
MORE = FIRST + len(DOCUMENTS)


def add_more(station):
    """Adds two documents without a receipt, one that was begun and one that wasn't, and an entry of the inbox. The moment is an earlier
    one, at which nothing else is due."""
    partner = Partner(station.answer)
    with partner.listening():
        station.submit(1500, MORE, "Buyer", b"abc", [FAILED])
        station.send(1500, partner)
        station.submit(1500, MORE + 1, "Buyer", b"abc", [])
    station.post(1500, "behind-the-origin", request("behind-the-origin", "Buyer", asks("optional, sha-256"), b"abc"))


def more_posts():
    """Returns the posts that are tried over the store of version 2 besides."""
    name = "behind-the-origin"
    found = {f"{BEHIND}-{name}": request(name, "Buyer", asks("optional, sha-256"), b"abc")}
    # behind the origin digests are compared: no repeat
    found["conflict-digest"] = request(name, "Buyer", SHA1, b"abc")
    for number, detail in ((MORE, "retry"), (MORE + 1, "new")):
        found[f"receipt-{number}-{detail}"] = receipt_post(f"r{number}", "Buyer", number, "processed", mic("sha1", b"abc"))
    return found


def sha_256(text):
    """Returns a text with the MIC of `abc` under SHA-256 in place of the one under SHA-1: a reply, or a statement."""
    (old, _), (new, _) = (mic(digest, b"abc").split(", ") for digest in ("sha1", "sha-256"))
    if isinstance(text, str):
        return text.replace("'sha1'", "'sha-256'").replace(old.encode().hex(), new.encode().hex())
    longer = text.replace(f"{old}, sha1".encode(), f"{new}, sha-256".encode())
    length = re.search(rb"Content-Length: (\d+)", text)[1]
    return longer.replace(length, b"%d" % (int(length) + len(longer) - len(text)), 1)


def version_2(statements):
    """Returns the statements of a store of version 1 as version 2 would have them: what was received stands in `inbox2` and
    `inbox2_piece`, `inbox` and `inbox_piece` are empty, and `origin` has the number below which all was recorded under version 1. The
    entry behind it is one under SHA-256.

    Nobody has such files: no release makes version 2, and none will. This is for tests alone, of a migration that reads it."""

    def moved(it):
        return re.sub(r"\binbox(_piece)?\b", r"inbox2\1", it)

    made = [it for it in statements if it.startswith("CREATE")]
    new = [moved(it) for it in made if it.startswith("CREATE TABLE inbox")]
    new = [it.replace("digest = 'md5'", "digest = 'md5' OR digest = 'sha-256'") for it in new]
    filled = [moved(it) for it in statements if it.startswith("INSERT")]
    filled = [sha_256(it) if it.startswith(f"INSERT INTO inbox2 VALUES ({BEHIND},") else it for it in filled]
    filled = [it.replace("'as2-station', 1,", "'as2-station', 2,") for it in filled]
    return [*made, *new, "CREATE TABLE origin (number INTEGER NOT NULL) STRICT", *filled, f"INSERT INTO origin VALUES ({BEHIND})"]


def write_version_2(program, folder, said, tried):
    """Writes the store of version 2, and what differs in what has to be said over it. The release can't open it. So it makes the same
    store in version 1, and says what it says over that; only the two replies that SHA-256 changes are written by hand."""
    station = Station(program, folder)
    build(station.store, (HERE / "version-1.sql").read_text().split(";\n")[:-1])
    add_more(station)
    write_sql("version-2.sql", version_2(dump(station.store)))
    more = more_posts()
    now = texts(program, station.store, tried | more)
    first = f"posts/{BEHIND}-behind-the-origin.reply"
    now |= {first: sha_256(now[first]), "posts/conflict-digest.reply": said["posts/conflict-content.reply"]}
    assert said.keys() <= now.keys()
    write("version-2", {name: text for name, text in now.items() if said.get(name) != text}, more)


def main():
    program = os.path.abspath(sys.argv[1])
    version = subprocess.run([program, "--version"], capture_output=True, check=True, text=True).stdout
    assert version == "as2desk 0.5.0\n", version
    with tempfile.TemporaryDirectory() as folder:
        station = Station(program, folder)
        fill(station)
        listed = station.run(NOW, "list", "out").decode().splitlines()
        details = [line.split()[4] for line in listed]
        assert details == [it[1] for it in DOCUMENTS], details
        look(station.store)
        write_sql("version-1.sql", dump(station.store))
        tried = posts()
        said = texts(program, station.store, tried)
        for place, (_, name, *_) in enumerate(POSTS):
            assert without_date(said[f"posts/{FIRST + place}-{name}.reply"]) == without_date(station.replies[name]), name
        write("version-1", dict(said), tried)
    with tempfile.TemporaryDirectory() as folder:
        write_version_2(program, folder, said, tried)


if __name__ == "__main__":
    main()
