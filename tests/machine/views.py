"""What is shown of a state of the machine: what is due and next, listings, counts and entries. See machine.py, of which this is a part."""
import readings
from machine import PROCESSED, STATE_OF, document, is_due, is_settled, received

# ---- as2_exchange: Due

def is_due_document(m, d):
    may_begin = d.detail in ("new", "retry") or d.detail == "sending" and d.attempt == "running"
    return may_begin and is_due(m, d.due)


def is_due_receipt(m, e):
    return e.mdn == "pending" and e.attempt in ("idle", "running") and is_due(m, e.due)


def next_of(s, m):
    """Returns what is to be sent next: the due receipt of the least number, else such a document, else None."""
    receipts = [e.number for e in s.inbox if is_due_receipt(m, e)]
    documents = [d.number for d in s.outbox if is_due_document(m, d)]
    if receipts:
        return "receipt", min(receipts)
    return ("document", min(documents)) if documents else None


# ---- as2_views: Layout, Texts, Counting

def from_to(sender, receiver):
    return readings.spelling(sender) + b" -> " + readings.spelling(receiver)


def out_line(d):
    kept_mark = "R" if is_settled(d) else "-"
    row = f"{d.number:>12} {STATE_OF[d.detail]} {d.tries:>2} {kept_mark} {d.detail:<16} "
    return row.encode() + from_to(d.organization, d.partner) + b"\n"


def list_out(s, state):
    return b"".join(out_line(d) for d in s.outbox if state in (None, STATE_OF[d.detail]))


def in_line(e):
    processed_mark = "S" if e.posted.outcome == PROCESSED else "E"
    mdn_mark = {"unasked": "-", "pending": "P", "sent": "S"}[e.mdn]
    row = f"{e.number:>12} {processed_mark} {mdn_mark} "
    return row.encode() + from_to(e.posted.sender, e.posted.receiver) + b" " + e.posted.id + b"\n"


def list_in(s):
    return b"".join(map(in_line, s.inbox))


def counts_of(s):
    """Returns the five counts of what is outstanding."""
    states = [STATE_OF[d.detail] for d in s.outbox]
    details = [d.detail for d in s.outbox]
    return (
        details.count("new"), states.count("R"), details.count("awaiting"), states.count("E"),
        sum(e.mdn == "pending" for e in s.inbox),
    )


def outstanding(s, m):
    words = "documents not sent", "documents in retry", "receipts awaited", "documents in error", "receipts to send"
    counts = "".join(f"{word}: {count}\n" for word, count in zip(words, counts_of(s)))
    under_way = [d for d in s.outbox if d.detail in ("new", "sending", "retry", "awaiting") and is_due(m, d.due)]
    return counts.encode() + b"".join(map(out_line, under_way))


def evidence_text(evidence):
    return b"-" if evidence is None else b"R at %d, %d bytes" % (evidence.moment, len(evidence.body))


def show(s, n):
    """Returns what is known of a document, if there is one."""
    d = document(s, n)
    if d is None:
        return None
    shown = {
        "number": b"%d" % d.number,
        "state": f"{STATE_OF[d.detail]} {d.detail}".encode(),
        "tries": b"%d" % d.tries,
        "due": b"-" if d.due is None else b"%d" % d.due,
        "from": readings.spelling(d.organization),
        "to": readings.spelling(d.partner),
        "identifier": d.id,
        "content": b"%d bytes" % len(d.content),
        "receipt": evidence_text(d.evidence),
    }
    return b"".join(name.encode() + b": " + value + b"\n" for name, value in shown.items())


def fetch(s, n):
    e = received(s, n)
    return None if e is None else e.posted.content
