#!/usr/bin/env python3
"""Has `as2desk send` post to Python's own `http.server`, which answers with receipts that Python's `email` writes, and compares what arrived
and what the station makes of the answers: receipts with the right digest, in chunks, under MD5 and SHA-256, with another digest, without
one, of an error, an answer of another status, one without a receipt, one that is cut short, and a partner who isn't there. Then it has
the station post a receipt of its own, and reads it with `email`. Prints a line for each; the status is 1 where one differs. The program
is ./as2desk, or the file that the argument names."""

import base64
import email
import email.policy
import hashlib
import http.server
import os
import pathlib
import subprocess
import sys
import tempfile
import threading
from email.message import Message
from email.mime.message import MIMEMessage
from email.mime.multipart import MIMEMultipart
from email.mime.text import MIMEText

TOP = pathlib.Path(__file__).resolve().parents[2]
CONTENT = b"UNB+UNOA:1+SENDER+RECEIVER'\r\n\x00\xff"
PROCESSED = "automatic-action/MDN-sent-automatically; processed"
failed = False


def expect(what, found, wanted):
    global failed
    if found == wanted:
        print("same     " + what)
    else:
        failed = True
        print("differs  %s: found %r, wanted %r" % (what, found, wanted))


def mic(digest="sha1", content=CONTENT):
    return "%s, %s" % (base64.b64encode(hashlib.new(digest.replace("-", ""), content).digest()).decode(), digest)


def receipt(identifier, disposition, digest):
    """The report, as `email` writes it: its `Content-Type`, and its body."""
    told = Message()
    told["Reporting-UA"] = "Python"
    told["Original-Recipient"] = told["Final-Recipient"] = "rfc822; Buyer"
    told["Original-Message-ID"] = identifier
    told["Disposition"] = disposition
    if digest is not None:
        told["Received-Content-MIC"] = digest
    report = MIMEMultipart("report", report_type="disposition-notification")
    report.attach(MIMEText("The document was received.\n"))
    report.attach(MIMEMessage(told, "disposition-notification"))
    text = report.as_bytes(policy=email.policy.HTTP)
    return report["Content-Type"], text.split(b"\r\n\r\n", 1)[1]


# what is answered: the version of HTTP, the status, the disposition (or none: no receipt) and the digest; what `send` says
ANSWERS = [
    ("processed", "HTTP/1.1", 200, PROCESSED, mic(), "settled S processed"),
    ("processed, over HTTP/1.0", "HTTP/1.0", 200, PROCESSED, mic(), "settled S processed"),
    ("processed, in chunks", "HTTP/1.1", 200, PROCESSED, mic(), "settled S processed"),
    ("processed, under MD5", "HTTP/1.1", 200, PROCESSED, mic("md5"), "settled S processed"),
    ("processed, under SHA-256", "HTTP/1.1", 200, PROCESSED, mic("sha-256"), "settled S processed"),
    ("processed, under SHA-256 by its other name", "HTTP/1.1", 200, PROCESSED, mic("sha256"), "settled S processed"),
    ("another digest", "HTTP/1.1", 200, PROCESSED, mic(content=b"other"), "settled E mic-differs"),
    ("no digest", "HTTP/1.1", 200, PROCESSED, None, "settled W no-mic"),
    ("a digest that isn't known", "HTTP/1.1", 200, PROCESSED, mic("sha512"), "settled W unknown-mic"),
    ("a warning", "HTTP/1.1", 200, PROCESSED + "/warning: x", mic(), "settled W warning"),
    ("an error", "HTTP/1.1", 200, PROCESSED + "/error: authentication-failed", None, "settled E error-modifier"),
    ("a failure", "HTTP/1.1", 200, "automatic-action/MDN-sent-automatically; failed/failure: unsupported format", None, "settled E not-processed"),
    ("another status", "HTTP/1.1", 500, PROCESSED, mic(), "try failed"),
    ("no receipt", "HTTP/1.1", 200, None, None, "try failed"),
    ("an answer that is cut short", "HTTP/1.1", 200, PROCESSED, mic(), "try failed"),
]


def chunked(content, size=100):
    """The content in chunks of so many bytes."""
    pieces = [content[at : at + size] for at in range(0, len(content), size)]
    return b"".join(b"%x\r\n%s\r\n" % (len(piece), piece) for piece in [*pieces, b""])


class Partner(http.server.BaseHTTPRequestHandler):
    """Keeps what is posted, and answers document N as ANSWERS has it."""

    def do_POST(self):
        body = self.rfile.read(int(self.headers["Content-Length"]))
        self.server.posted.append((self.path, self.headers, body))
        if self.headers.get_content_type() == "multipart/report":
            self.send_response(200)
            self.send_header("Content-Length", "0")
            self.end_headers()
            return
        identifier = self.headers["Message-ID"]
        number = int(identifier[len("<out-"):].split("@")[0])
        name, version, status, disposition, digest, _ = ANSWERS[number - 1]
        content_type, answer = receipt(identifier, disposition, digest) if disposition else ("text/plain", b"thanks")
        self.protocol_version = version
        self.send_response(status)
        self.send_header("AS2-Version", "1.0")
        self.send_header("AS2-From", "Buyer")
        self.send_header("AS2-To", "Supplier")
        self.send_header("Message-ID", "<receipt-%d@partner.example>" % number)
        self.send_header("Content-Type", content_type)
        if "chunks" in name:
            self.send_header("Transfer-Encoding", "chunked")
            answer = chunked(answer)
        elif version == "HTTP/1.1":
            self.send_header("Content-Length", str(len(answer) + ("cut" in name)))
        self.end_headers()
        self.wfile.write(answer)
        self.close_connection = True

    def log_message(self, *words):
        pass


def main():
    program = os.path.abspath(sys.argv[1]) if len(sys.argv) > 1 else str(TOP / "as2desk")
    partner = http.server.HTTPServer(("127.0.0.1", 0), Partner)
    partner.posted = []
    threading.Thread(target=partner.serve_forever, daemon=True).start()
    authority = "127.0.0.1:%d" % partner.server_port
    with tempfile.TemporaryDirectory() as folder:
        agreements = (TOP / "examples" / "agreements.toml").read_text().replace("127.0.0.1:8081/as2", authority + "/in?box=1")
        pathlib.Path(folder, "agreements.toml").write_text(agreements)
        pathlib.Path(folder, "order").write_bytes(CONTENT)

        def run(*command, moment=1000, text=b""):
            words = [program, "--agreements", "agreements.toml", "--store", "station.db", "--moment", str(moment), *command]
            return subprocess.run(words, cwd=folder, input=text, capture_output=True, check=True).stdout

        for number in range(1, len(ANSWERS) + 1):
            expect("submit", run("submit", "--from", "Supplier", "--to", "Buyer", "order"), b"%d\n" % number)
        said = run("send").decode().splitlines()
        expect("lines of send", len(said), len(ANSWERS))
        for number, (answer, line) in enumerate(zip(ANSWERS, said), 1):
            expect(answer[0], line, "document %d: %s" % (number, answer[5]))
        expect("requests", len(partner.posted), len(ANSWERS))
        for number, (path, fields, body) in enumerate(partner.posted, 1):
            wanted = [
                ("Host", authority),
                ("Connection", "close"),
                ("AS2-Version", "1.0"),
                ("AS2-From", "Supplier"),
                ("AS2-To", "Buyer"),
                ("Message-ID", "<out-%d@station.example>" % number),
                ("Content-Type", "application/edi-x12"),
                ("Content-Transfer-Encoding", "binary"),
                ("Disposition-Notification-To", "as2@station.example"),
                ("Disposition-Notification-Options", "signed-receipt-micalg=optional, sha1"),
                ("Content-Length", str(len(CONTENT))),
            ]
            if (path, fields.items(), body) != ("/in?box=1", wanted, CONTENT):
                expect("the request of document %d" % number, (path, fields.items(), body), ("/in?box=1", wanted, CONTENT))

        # the tries that failed, once more, with nobody there; then their tries are used up
        retried = [number for number, answer in enumerate(ANSWERS, 1) if answer[5] == "try failed"]
        nobody = agreements.replace(authority, "127.0.0.1:9")
        pathlib.Path(folder, "agreements.toml").write_text(nobody)
        expect("nobody there", run("send", moment=1030).decode(), "".join("document %d: try failed\n" % number for number in retried))
        expect("their tries are used up", run("list", "out", "--state", "E").decode().count("tries-used"), len(retried))
        pathlib.Path(folder, "agreements.toml").write_text(agreements)

        # a receipt that is asked for by a post of its own
        plain = (TOP / "examples" / "plain-post.http").read_bytes()
        later = b"Receipt-Delivery-Option: http://%s/receipts\r\n" % authority.encode()
        reply = run("post", text=plain.replace(b"Content-Length", later + b"Content-Length"))
        expect("a receipt is asked for later", reply.split(b"\r\n", 1)[0], b"HTTP/1.1 202 Accepted")
        del partner.posted[:]
        expect("its receipt", run("send"), b"receipt 1: delivered\n")
        ((path, fields, body),) = partner.posted
        report = email.message_from_bytes(b"Content-Type: %s\r\n\r\n" % fields["Content-Type"].encode() + body, policy=email.policy.HTTP)
        (told,) = report.get_payload()[1].get_payload()
        expect("where it goes", path, "/receipts")
        expect("from whom to whom", (fields["AS2-From"], fields["AS2-To"]), ("Supplier", "Buyer"))
        expect("what it names", told["Original-Message-ID"], "<m1@x>")
        expect("what became of it", told["Disposition"], PROCESSED)
        expect("its digest", told["Received-content-MIC"], mic(content=b"abc"))
    sys.exit(1 if failed else 0)


main()
