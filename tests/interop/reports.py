#!/usr/bin/env python3
"""Reads the reports that as2desk writes with Python's own `email` parser, for each outcome and each digest, and compares
their parts and fields with what was posted. Prints a line for each post; the status is 1 where a reader disagrees."""

import base64
import email
import email.policy
import hashlib
import pathlib
import subprocess
import sys

TOP = pathlib.Path(__file__).resolve().parents[2]
OPTIONS = ["--agreements", str(TOP / "examples" / "agreements.toml"), "--store", ":memory:", "--first", "42", "--moment", "1000", "post"]
PARTNER = '"A \\"B\\" \\\\ C"'
CONTENT = b"UNB+UNOA:1+SENDER+RECEIVER'\r\n\x00\xff"
IDENTIFIER = "<a.b+c=d@x.example>"

PLAIN = "application/edi-x12"
POSTS = [
    # name, content type, further fields, options, content, outcome, digest
    ("processed under SHA-1", PLAIN, [], "signed-receipt-micalg=optional, sha1", CONTENT, "processed", "sha1"),
    ("processed under MD5", PLAIN, [], "signed-receipt-micalg=optional, md5", CONTENT, "processed", "md5"),
    ("processed under SHA-256", PLAIN, [], "signed-receipt-micalg=optional, sha-256, sha1", CONTENT, "processed", "sha-256"),
    ("SHA-256 by its other name", PLAIN, [], "signed-receipt-micalg=required, sha-384, SHA256", CONTENT, "processed", "sha-256"),
    ("SHA-256 behind another digest", PLAIN, [], "signed-receipt-micalg=optional, sha1, sha-256", CONTENT, "processed", "sha1"),
    ("an empty content under MD5", PLAIN, [], "signed-receipt-micalg=required, md5", b"", "processed", "md5"),
    ("no options", PLAIN, [], None, CONTENT, "processed", "sha1"),
    ("enveloped", "application/pkcs7-mime; smime-type=enveloped-data", [], None, CONTENT, "processed/error: decryption-failed", None),
    ("compressed", "application/pkcs7-mime; smime-type=compressed-data", [], None, CONTENT, "processed/error: decompression-failed", None),
    ("signed", 'multipart/signed; protocol="application/pkcs7-signature"; micalg=sha1; boundary="b"', [], None, CONTENT, "processed/error: authentication-failed", None),
    ("an encoded content", PLAIN, ["Content-Encoding: gzip"], None, CONTENT, "failed/failure: unsupported format", None),
    ("a signed receipt required", PLAIN, [], "signed-receipt-protocol=required, pkcs7-signature", CONTENT, "failed/failure: unsupported format", None),
    ("an unknown digest required", PLAIN, [], "signed-receipt-micalg=required, sha-384", CONTENT, "failed/failure: unsupported MIC-algorithms", None),
]


def post(content_type, fields, options, content):
    head = ["POST /as2 HTTP/1.1", "AS2-From: " + PARTNER, "AS2-To: Supplier", "Message-ID: " + IDENTIFIER, "Content-Type: " + content_type,
            "Disposition-Notification-To: a@x", *fields]
    if options is not None:
        head.append("Disposition-Notification-Options: " + options)
    head.append("Content-Length: %d" % len(content))
    request = "\r\n".join(head).encode() + b"\r\n\r\n" + content
    return subprocess.run([str(TOP / "as2desk"), *OPTIONS], input=request, stdout=subprocess.PIPE, check=True).stdout


def expect(what, found, wanted):
    if found != wanted:
        raise AssertionError("%s: found %r, wanted %r" % (what, found, wanted))


def check(reply, content, outcome, digest):
    status, rest = reply.split(b"\r\n", 1)
    expect("status", status, b"HTTP/1.1 200 OK")
    report = email.message_from_bytes(rest, policy=email.policy.HTTP)
    head, body = rest.split(b"\r\n\r\n", 1)
    expect("defects", report.defects, [])
    expect("length", int(report["Content-Length"]), len(body))
    expect("AS2-Version", report["AS2-Version"], "1.0")
    expect("AS2-From", report["AS2-From"], "Supplier")
    expect("AS2-To", report["AS2-To"], PARTNER)
    expect("Message-ID", str(report["Message-ID"]), "<mdn-42@station.example>")
    expect("type", report.get_content_type(), "multipart/report")
    expect("report type", report.get_param("report-type"), "disposition-notification")
    expect("boundary", report.get_boundary(), "as2-mdn-42")
    first, second = report.get_payload()
    expect("type of the first part", first.get_content_type(), "text/plain")
    expect("text", first.get_payload(decode=True), ("Receipt 42 for the message named below.\r\nOutcome: %s\r\n" % outcome).encode())
    expect("type of the second part", second.get_content_type(), "message/disposition-notification")
    # the parser takes the fields of a message/* part for those of a message in it
    (notification,) = second.get_payload()
    wanted = [
        ("Reporting-UA", "as2-station"),
        ("Final-Recipient", "rfc822; Supplier"),
        ("Original-Message-ID", IDENTIFIER),
        ("Disposition", "automatic-action/MDN-sent-automatically; " + outcome),
    ]
    if digest is not None:
        mic = base64.b64encode(hashlib.new(digest.replace("-", ""), content).digest()).decode()
        wanted.append(("Received-content-MIC", "%s, %s" % (mic, digest)))
    expect("fields", [(name, str(value)) for name, value in notification.items()], wanted)
    expect("text behind the fields", notification.get_payload(), "")


failed = False
for name, content_type, fields, options, content, outcome, digest in POSTS:
    try:
        check(post(content_type, fields, options, content), content, outcome, digest)
        print("same     " + name)
    except AssertionError as fault:
        failed = True
        print("differs  %s: %s" % (name, fault))
sys.exit(1 if failed else 0)
