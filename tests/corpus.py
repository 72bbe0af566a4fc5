#!/usr/bin/env python3
"""Posts each request of corpus/ to a new store in memory and compares the reply with corpus/expected.tsv: its status, and the
line of text that is its body, or the report, or nothing. A report is read by Python's own `email` parser, and its MIC compared
with the digest of the posted content that `hashlib` gives. The status is 1 where a reply differs.

The requests of curl and of Python are what these programs sent, byte for byte; those of RFC 4130 stand in its appendix A (as
printed, with folded fields, and unfolded); the others are shaped after the products whose names they have, and were not
captured from them. as2-lib is the AS2 library of phase4's makers: phase4 itself speaks AS4."""

import base64
import email
import email.policy
import hashlib
import http.client
import io
import pathlib
import subprocess
import sys

HERE = pathlib.Path(__file__).resolve().parent
CORPUS = HERE / "corpus"
COMMAND = [str(HERE.parent / "as2desk"), "--agreements", str(CORPUS / "agreements.toml"), "--store", ":memory:", "--moment", "1000", "post"]
PHRASES = {"200": "OK", "202": "Accepted", "400": "Bad Request", "404": "Not Found", "501": "Not Implemented"}


def expect(what, found, wanted):
    if found != wanted:
        raise AssertionError("%s: found %r, wanted %r" % (what, found, wanted))


class Bytes:
    """A socket to http.client, which gives these bytes."""

    def __init__(self, data):
        self.data = data

    def makefile(self, mode):
        return io.BytesIO(self.data)


def content_of(request):
    """Returns the content that a request carries, by its length or chunked, as http.client reads it of an answer."""
    answer = http.client.HTTPResponse(Bytes(b"HTTP/1.1 200 OK\r\n" + request.split(b"\r\n", 1)[1]))
    answer.begin()
    return answer.read()


def check_report(rest, request, outcome, digest):
    """Compares the fields of a report with the request that it answers."""
    head, content = request.split(b"\r\n\r\n", 1)[0], content_of(request)
    asked = email.message_from_bytes(head.split(b"\r\n", 1)[1], policy=email.policy.compat32)
    reply = email.message_from_bytes(rest, policy=email.policy.HTTP)
    expect("defects", reply.defects, [])
    expect("type", reply.get_content_type(), "multipart/report")
    notification = reply.get_payload(1)
    expect("notification", notification.get_content_type(), "message/disposition-notification")
    fields = notification.get_payload(0)
    expect("Original-Message-ID", str(fields["Original-Message-ID"]), asked["Message-ID"])
    expect("Disposition", str(fields["Disposition"]), "automatic-action/MDN-sent-automatically; " + outcome)
    mic = None if digest is None else base64.b64encode(hashlib.new(digest.replace("-", ""), content).digest()).decode() + ", " + digest
    expect("MIC", fields["Received-content-MIC"], mic)


def check(reply, request, status, answer, outcome=None, digest=None):
    line, rest = reply.split(b"\r\n", 1)
    expect("status", line.decode(), "HTTP/1.1 %s %s" % (status, PHRASES[status]))
    if answer == "report":
        check_report(rest, request, outcome, digest)
        return
    body = rest.split(b"\r\n\r\n", 1)[1].decode()
    expect("body", body, "" if answer == "nothing" else answer + "\n")


def main():
    rows = [line.split("\t") for line in (CORPUS / "expected.tsv").read_text().splitlines()]
    expect("files", sorted(it.stem for it in CORPUS.glob("*.http")), sorted(row[0] for row in rows))
    failed = 0
    for name, *wanted in rows:
        request = (CORPUS / (name + ".http")).read_bytes()
        done = subprocess.run(COMMAND, input=request, stdout=subprocess.PIPE, stderr=subprocess.PIPE)
        try:
            check(done.stdout, request, *wanted)
            print("ok    ", name)
        except (AssertionError, ValueError, IndexError) as why:
            failed += 1
            print("FAILED", name, why)
    print("%d posts, %d differ" % (len(rows), failed))
    return 1 if failed else 0


if __name__ == "__main__":
    sys.exit(main())
