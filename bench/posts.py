"""The posts that streams.py, chunks.py and profile.py give to the programs, and the commands that take them."""
import os

HEAD = (
    "POST /as2 HTTP/1.1\r\nHost: 127.0.0.1:8080\r\nAS2-Version: 1.0\r\nAS2-From: Buyer\r\nAS2-To: Supplier\r\n"
    "Message-ID: <m{number}@x>\r\nContent-Type: application/edi-x12\r\nDisposition-Notification-To: a@x\r\n"
    "Disposition-Notification-Options: signed-receipt-micalg=optional, sha1\r\n{framing}\r\n\r\n"
)


def chunked(body, size):
    """Returns the body in chunks of so many bytes."""
    pieces = (body[at : at + size] for at in range(0, len(body), size))
    return b"".join(b"%x\r\n%s\r\n" % (len(piece), piece) for piece in pieces) + b"0\r\n\r\n"


def write_posts(path, count, size, chunk=None):
    """Writes posts with identifiers of their own, one after the other: by their length, or in chunks of so many bytes."""
    body = (b"UNH+1+ORDERS:D:96A:UN'" * (size // 22 + 1))[:size]
    framing = "Transfer-Encoding: chunked" if chunk else f"Content-Length: {size}"
    framed = chunked(body, chunk) if chunk else body
    with open(path, "wb") as posts:
        for number in range(count):
            posts.write(HEAD.format(number=number, framing=framing).encode())
            posts.write(framed)


def commands(program, peer, agreements, store):
    """Returns the two programs' words, over a store."""
    return {
        "as2desk": [program, "--agreements", agreements, "--store", store, "--moment", "1000", "post"],
        "peer": [peer, store],
    }


def without_store(folder):
    """Takes away what the last run left."""
    for name in os.listdir(folder):
        if name.startswith("store"):
            os.remove(f"{folder}/{name}")
