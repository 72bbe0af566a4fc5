"""The exchange machine, as an independent program in Python: what each event is answered, and what it leaves.

It is written from what docs/PROFILE.md tells of the station and from the definitions in crates/*/specs/*.antt, and nothing in it is
taken from the program. Each function bears the name of its definition; the part above the functions names the file. What it reads of
heads and bodies is in readings.py, what is shown of a state in views.py, and how a line of a script tells an event in lists.py.
tests/differential.py plays its lists over this too.

A state is never changed: each event makes the next one. A text is bytes, a moment a number of seconds since 1970, and what isn't there
is None. A new store knows all three digests, and no list migrates one; so versions aren't here."""
import dataclasses
import tomllib
from dataclasses import dataclass, replace

import readings

# ---- as2_agreement: Agreements, Partners

@dataclass(frozen=True)
class Partner:
    name: bytes
    url: bytes
    # `none`, `sync` or `async`
    receipt: str
    digest: str
    content_type: bytes
    max_tries: int
    retry_seconds: int
    overdue_seconds: int


@dataclass(frozen=True)
class Agreements:
    domain: bytes
    return_url: bytes
    organizations: frozenset
    partners: dict

    @staticmethod
    def read(text):
        """Returns the agreements that a text has, which has to be in order."""
        table = tomllib.loads(text)
        partners = [Partner(**{key: as_bytes(key, value) for key, value in it.items()}) for it in table["partner"]]
        names = frozenset(it["name"].encode() for it in table["organization"])
        return Agreements(table["domain"].encode(), table["return_url"].encode(), names, {it.name: it for it in partners})

    def is_organization(self, name):
        return name in self.organizations

    def partner_of(self, name):
        return self.partners.get(name)


def as_bytes(key, value):
    return value.encode() if key in ("name", "url", "content_type") else value


# ---- as2_exchange: State

END_OF_NUMBERS = 1_000_000_000_000
CONTENT_LIMIT = 1_048_576


@dataclass(frozen=True)
class Posted:
    """A posted document, and what was made of it."""
    sender: bytes
    receiver: bytes
    id: bytes
    content_type: bytes
    content: bytes
    outcome: bytes
    # `none`, `sync` or `async`, and for the last one the address as spelled
    how: tuple[str, bytes]
    # the digest and the MIC of a processed document
    mic: tuple[str, bytes] | None


@dataclass(frozen=True)
class InEntry:
    """A received entry: its document, and its receipt, which is `unasked`, `pending` or `sent`."""
    number: int
    posted: Posted
    moment: int
    mdn: str
    due: int | None
    tries: int = 0
    # `idle`, `running`, `last` or, for receipts alone, `used`
    attempt: str = "idle"


@dataclass(frozen=True)
class Evidence:
    moment: int
    content_type: bytes
    body: bytes


@dataclass(frozen=True)
class OutEntry:
    """A document to a partner."""
    number: int
    organization: bytes
    partner: bytes
    id: bytes
    content: bytes
    moment: int
    due: int | None
    begun: bool = False
    tries: int = 0
    attempt: str = "idle"
    detail: str = "new"
    evidence: Evidence | None = None


@dataclass(frozen=True)
class State:
    """What was received and what is sent, both in order of number, and the two next numbers."""
    next_in: int
    next_out: int
    inbox: tuple[InEntry, ...] = ()
    outbox: tuple[OutEntry, ...] = ()
    origin: int = 0


def empty(first):
    return State(first, first)


def document(s, n):
    return next((d for d in s.outbox if d.number == n), None)


def document_named(s, value):
    return next((d for d in s.outbox if readings.value_of(d.id) == value), None)


def received(s, n):
    return next((e for e in s.inbox if e.number == n), None)


def key_of(p):
    return p.sender, p.receiver, readings.value_of(p.id)


def received_as(s, p):
    return next((e for e in s.inbox if key_of(e.posted) == key_of(p)), None)


def change_document(s, changed):
    return replace(s, outbox=tuple(changed if d.number == changed.number else d for d in s.outbox))


def change_received(s, changed):
    return replace(s, inbox=tuple(changed if e.number == changed.number else e for e in s.inbox))


def is_settled(d):
    return d.evidence is not None


# ---- as2_exchange: Events

@dataclass(frozen=True)
class Post:
    head: list
    body: bytes
    moment: int


@dataclass(frozen=True)
class Submit:
    organization: bytes
    partner: bytes
    content: bytes
    moment: int


@dataclass(frozen=True)
class Begin:
    number: int
    moment: int


@dataclass(frozen=True)
class Reply:
    """An answer to a try; where none came there is None in its place."""
    status: int
    head: list
    body: bytes


@dataclass(frozen=True)
class Outcome:
    number: int
    got: Reply | None
    moment: int


@dataclass(frozen=True)
class Resend:
    number: int
    moment: int


@dataclass(frozen=True)
class BeginMdn:
    number: int
    moment: int


@dataclass(frozen=True)
class OutcomeMdn:
    number: int
    got: Reply | None
    moment: int


@dataclass(frozen=True)
class Tick:
    moment: int


@dataclass(frozen=True)
class ReportOut:
    """A receipt that the station writes."""
    number: int
    domain: bytes
    organization: bytes
    partner: bytes
    original_id: bytes
    outcome: bytes
    mic: tuple[str, bytes] | None


@dataclass(frozen=True)
class Http:
    """The answer to a post: a status, and nothing, a line or a report."""
    status: int
    body: object = None


@dataclass(frozen=True)
class Job:
    authority: bytes
    content: bytes


@dataclass(frozen=True)
class Said:
    """Any other answer: a word, and perhaps what it is of."""
    word: str
    of: object = None


def refused(reason):
    return Said("refused", reason)


DELIVERED, TRY_FAILED, ALREADY_SETTLED, RESENT = Said("delivered"), Said("try failed"), Said("already settled"), Said("resent")

# ---- as2_exchange: Lines

STATUS_OF = {
    b"bad AS2 names": 400,
    b"bad AS2-Version": 400,
    b"unknown AS2 names": 403,
    b"bad Content-Type": 400,
    b"unreadable receipt": 400,
    b"no such message": 404,
    b"bad Message-ID": 400,
    b"bad receipt request": 400,
    b"message identifier used before": 409,
}


def refusal(line):
    """Returns the answer that a line is; one that tells an outcome has the status 400."""
    return Http(STATUS_OF.get(line, 400), line)


# ---- as2_mdn: Details

STATE_OF = {
    "new": "P", "sending": "R", "awaiting": "P", "retry": "R", "processed": "S", "no-receipt-asked": "W", "warning": "W", "no-mic": "W",
    "unknown-mic": "W", "not-processed": "E", "error-modifier": "E", "mic-differs": "E", "tries-used": "E", "overdue": "E",
}

# ---- as2_mdn: Outcomes

PROCESSED = b"processed"
OUTCOME_OF_KIND = {
    "enveloped": b"processed/error: decryption-failed",
    "compressed": b"processed/error: decompression-failed",
    "signed": b"processed/error: authentication-failed",
}


def outcome_of(kind, is_encoding_refused, ask):
    """Returns what becomes of a document: the first line that fits."""
    if kind in OUTCOME_OF_KIND:
        return OUTCOME_OF_KIND[kind]
    if is_encoding_refused or ask.other_required:
        return b"failed/failure: unsupported format"
    if ask.digests_required and not readings.first_known_of(ask.digests):
        return b"failed/failure: unsupported MIC-algorithms"
    return PROCESSED


def report_mic(outcome, ask, content):
    if outcome != PROCESSED:
        return None
    alg = readings.first_known_of(ask.digests) or "sha1"
    return alg, readings.mic(alg, content)


# ---- as2_mdn: Reports

def report_line(start, value):
    return start + value + b"\r\n"


def mic_line(mic):
    return b"" if mic is None else report_line(b"Received-content-MIC: ", mic[1] + b", " + mic[0].encode())


def explanation_text(out):
    return (
        b"Content-Type: text/plain\r\n\r\n" + b"Receipt %d for the message named below.\r\n" % out.number
        + report_line(b"Outcome: ", out.outcome)
    )


def notification_text(out):
    return (
        b"Content-Type: message/disposition-notification\r\n\r\n" + b"Reporting-UA: as2-station\r\n"
        + report_line(b"Final-Recipient: rfc822; ", readings.spelling(out.organization))
        + report_line(b"Original-Message-ID: ", out.original_id)
        + report_line(b"Disposition: automatic-action/MDN-sent-automatically; ", out.outcome) + mic_line(out.mic)
    )


def report_text(out):
    boundary = b"--as2-mdn-%d" % out.number
    return (
        boundary + b"\r\n" + explanation_text(out) + b"\r\n" + boundary + b"\r\n" + notification_text(out) + b"\r\n" + boundary + b"--\r\n"
    )


def head_fields(out):
    return (
        b"AS2-Version: 1.0\r\n" + report_line(b"AS2-From: ", readings.spelling(out.organization))
        + report_line(b"AS2-To: ", readings.spelling(out.partner))
        + report_line(b"Message-ID: ", b"<mdn-%d@%s>" % (out.number, out.domain))
        + b'Content-Type: multipart/report; report-type=disposition-notification; boundary="as2-mdn-%d"\r\n' % out.number
        + b"Content-Length: %d\r\n" % len(report_text(out))
    )


# ---- as2_exchange: Jobs

def out_id(A, n):
    return b"<out-%d@%s>" % (n, A.domain)


def opening(address):
    return report_line(b"POST ", address[1] + b" HTTP/1.1") + report_line(b"Host: ", address[0]) + b"Connection: close\r\n"


def asking_fields(A, p):
    if p.receipt == "none":
        return b""
    asked = report_line(b"Disposition-Notification-To: as2@", A.domain) + report_line(
        b"Disposition-Notification-Options: signed-receipt-micalg=optional, ", p.digest.encode()
    )
    return asked + (report_line(b"Receipt-Delivery-Option: ", A.return_url) if p.receipt == "async" else b"")


def document_fields(A, p, d):
    return (
        b"AS2-Version: 1.0\r\n" + report_line(b"AS2-From: ", readings.spelling(d.organization))
        + report_line(b"AS2-To: ", readings.spelling(p.name)) + report_line(b"Message-ID: ", d.id)
        + report_line(b"Content-Type: ", p.content_type) + b"Content-Transfer-Encoding: binary\r\n" + asking_fields(A, p)
        + b"Content-Length: %d\r\n" % len(d.content)
    )


def document_job(A, p, d):
    address = readings.url_of(p.url)
    return Job(address[0], opening(address) + document_fields(A, p, d) + b"\r\n" + d.content)


def receipt_job(url, out):
    address = readings.url_of(url)
    return Job(address[0], opening(address) + head_fields(out) + b"\r\n" + report_text(out))


# ---- as2_exchange: Readings and Posts

@dataclass(frozen=True)
class ReceivedReceipt:
    """A receipt as it came: under these names, with this content type and body."""
    sender: bytes
    receiver: bytes
    receipt: readings.Receipt
    content_type: bytes
    body: bytes


def name_in(field, head):
    text = readings.only(readings.values(field, head))
    return None if text is None else readings.name_reading(text)


def names_of(head):
    """Returns the AS2 names of a head, sender and then receiver, where both stand once and can be read."""
    names = name_in(b"as2-from", head), name_in(b"as2-to", head)
    return None if None in names else names


def version_fits(head):
    texts = readings.values(b"as2-version", head)
    is_known = len(texts) == 1 and len(texts[0]) == 3 and texts[0].startswith(b"1.") and texts[0][2:].isdigit()
    return not texts or is_known


def type_of(head):
    """Returns the media type of a head and its text; nothing said is `application/octet-stream`."""
    text = readings.only(readings.values(b"content-type", head) or [b"application/octet-stream"])
    media = None if text is None else readings.media_reading(text)
    return None if media is None else (media, text)


def are_refused(is_known, texts):
    return len(texts) > 1 or len(texts) == 1 and not is_known(texts[0])


def encoding_refused(head):
    codings = readings.values(b"content-encoding", head)
    encodings = readings.values(b"content-transfer-encoding", head)
    return are_refused(readings.is_plain_encoding, encodings) or are_refused(lambda it: readings.is_word(it, b"identity"), codings)


def posted(names, identifier, media, head, content, ask):
    became = outcome_of(readings.kind_of(media[0]), encoding_refused(head), ask)
    return Posted(*names, identifier, media[1], content, became, (ask.how, ask.url), report_mic(became, ask, content))


def report_posted(names, media, body):
    receipt = readings.report_in(media[0], body)
    return b"unreadable receipt" if receipt is None else ReceivedReceipt(*names, receipt, media[1], body)


def document_posted(names, media, head, body):
    text = readings.only(readings.values(b"message-id", head))
    identifier = None if text is None else readings.id_reading(text)
    if identifier is None:
        return b"bad Message-ID"
    ask = readings.ask_of(head)
    return b"bad receipt request" if ask is None else posted(names, identifier, media, head, body, ask)


def reading(A, head, body):
    """Returns what a post is: the line that refuses it, a receipt or a document. The first line of the table of answers that fits."""
    names = names_of(head)
    if names is None:
        return b"bad AS2 names"
    if not version_fits(head):
        return b"bad AS2-Version"
    if not (A.is_organization(names[1]) and A.partner_of(names[0])):
        return b"unknown AS2 names"
    media = type_of(head)
    if media is None:
        return b"bad Content-Type"
    is_report = readings.kind_of(media[0]) == "report"
    return report_posted(names, media, body) if is_report else document_posted(names, media, head, body)


def same_result(p, q):
    return p.outcome == q.outcome and p.mic == q.mic


def same_post(p, q):
    """Whether the same was posted, the spelling of the identifier and of an address too."""
    return all(getattr(p, it) == getattr(q, it) for it in ("sender", "receiver", "id", "content_type", "content", "how"))


def repeats(origin, n, p, q):
    return same_post(p, q) and (n < origin or same_result(p, q))


# ---- as2_exchange: Receipts

def bears(r, d):
    """Whether a receipt is for the document: under its names exchanged, and it names an identifier of the same value."""
    names = r.receiver, r.sender, readings.value_of(r.receipt.original_id)
    return names == (d.organization, d.partner, readings.value_of(d.id))


def is_delivery(got):
    return got is not None and 200 <= got.status < 300


def receipt_in(head, body):
    names, media = names_of(head), type_of(head)
    receipt = None if None in (names, media) else readings.report_in(media[0], body)
    return None if receipt is None else ReceivedReceipt(*names, receipt, media[1], body)


def receipt_in_answer(got):
    return receipt_in(got.head, got.body) if is_delivery(got) else None


# ---- as2_exchange: Tries

def agreed(A, organization, partner, entry, act):
    """Refuses where the agreements lack the organization or the partner."""
    if not A.is_organization(organization):
        return refused("UnknownOrganization"), entry
    p = A.partner_of(partner)
    return (refused("UnknownPartner"), entry) if p is None else act(p)


def is_early(m, due):
    return due is not None and m < due


def is_due(m, due):
    return due is not None and due <= m


# ---- as2_exchange: Documents

def settled(m, r, d):
    """Returns the document once this receipt has settled it, which closes an open try."""
    detail = readings.verdict(r.receipt, d.content)
    return replace(d, attempt="idle", due=None, detail=detail, evidence=Evidence(m, r.content_type, r.body))


def begun(A, m, d):
    """A try of a document begins."""
    def act(p):
        if is_settled(d):
            return refused("AllSettled"), d
        if p.max_tries <= d.tries:
            return refused("TriesUsed"), d
        if d.detail in ("awaiting", "overdue", "no-receipt-asked") or is_early(m, d.due):
            return refused("NotDue"), d
        attempt = "last" if p.max_tries <= d.tries + 1 else "running"
        tried = replace(d, begun=True, tries=d.tries + 1, attempt=attempt, due=m + p.retry_seconds, detail="sending")
        return document_job(A, p, d), tried
    return agreed(A, d.organization, d.partner, d, act)


def failed_try(p, m, d):
    if d.attempt == "last":
        return TRY_FAILED, replace(d, attempt="idle", due=None, detail="tries-used")
    return TRY_FAILED, replace(d, attempt="idle", due=m + p.retry_seconds, detail="retry")


def delivered(p, m, d):
    """Returns what comes of an answer of success that brought no receipt for the document."""
    if p.receipt == "async":
        return DELIVERED, replace(d, attempt="idle", due=m + p.overdue_seconds, detail="awaiting")
    if p.receipt == "none":
        return DELIVERED, replace(d, attempt="idle", due=None, detail="no-receipt-asked")
    return failed_try(p, m, d)


def closed(A, got, m, d):
    """The outcome of a document's try."""
    def act(p):
        if is_settled(d):
            return ALREADY_SETTLED, d
        if d.attempt == "idle":
            return refused("NoOpenTry"), d
        r = receipt_in_answer(got)
        if r is not None and bears(r, d):
            return Said("settled", readings.verdict(r.receipt, d.content)), settled(m, r, d)
        return delivered(p, m, d) if is_delivery(got) else failed_try(p, m, d)
    return agreed(A, d.organization, d.partner, d, act)


def queued_anew(m, d):
    """Returns the document, to be sent from this moment on, with all tries left. Once begun, it stays so."""
    return replace(d, tries=0, attempt="idle", due=m, detail="new")


def resent(A, m, d):
    """A document that failed is to be sent anew."""
    def act(_):
        if is_settled(d):
            return refused("AllSettled"), d
        if STATE_OF[d.detail] != "E":
            return refused("NotDue"), d
        return RESENT, queued_anew(m, d)
    return agreed(A, d.organization, d.partner, d, act)


def passes_at(m, d):
    """Returns what a document passes into at this moment, where it does."""
    if not is_due(m, d.due):
        return None
    if d.detail == "sending" and d.attempt == "last":
        return "tries-used"
    return "overdue" if d.detail == "awaiting" else None


def tick(m, s):
    into = [passes_at(m, d) for d in s.outbox]
    passed = tuple(replace(d, due=None, detail=detail) if detail else d for d, detail in zip(s.outbox, into))
    return Said("ticked", sum(map(bool, into))), replace(s, outbox=passed)


def settle(s, m, r):
    """A posted receipt settles its document, if that was begun and nothing has settled it."""
    d = document_named(s, readings.value_of(r.receipt.original_id))
    if d is None or not (bears(r, d) and d.begun):
        return refusal(b"no such message"), s
    return Http(200), s if is_settled(d) else change_document(s, settled(m, r, d))


def submit(A, s, event):
    """A document is taken in, under the next number; none is left: None."""
    if not A.is_organization(event.organization):
        return refused("UnknownOrganization"), s
    if A.partner_of(event.partner) is None:
        return refused("UnknownPartner"), s
    if len(event.content) > CONTENT_LIMIT:
        return refused("TooLarge"), s
    n = s.next_out
    if n >= END_OF_NUMBERS:
        return None
    d = OutEntry(n, event.organization, event.partner, out_id(A, n), event.content, event.moment, event.moment)
    return Said("submitted", n), replace(s, outbox=(*s.outbox, d), next_out=n + 1)


# ---- as2_exchange: Recording

def report(A, n, p):
    return ReportOut(n, A.domain, p.receiver, p.sender, p.id, p.outcome, p.mic)


def answer_to(A, n, p):
    if p.how[0] == "sync":
        return Http(200, report(A, n, p))
    if p.how[0] == "async":
        return Http(202)
    return Http(200) if p.outcome == PROCESSED else refusal(p.outcome)


def requeued(m, e):
    return replace(e, mdn="pending", tries=0, attempt="idle", due=m)


def requeued_by_repeat(m, e):
    is_done_with = e.mdn == "sent" or e.attempt in ("last", "used")
    return requeued(m, e) if e.posted.how[0] == "async" and is_done_with else e


def first_entry(n, m, p):
    mdn = {"none": "unasked", "sync": "sent", "async": "pending"}[p.how[0]]
    return InEntry(n, p, m, mdn, m if p.how[0] == "async" else None)


def record_post(A, s, m, p):
    """A posted document is a repeat, a clash or new; no number is left: None."""
    e, n = received_as(s, p), s.next_in
    if e is not None and repeats(s.origin, e.number, e.posted, p):
        return answer_to(A, e.number, e.posted), change_received(s, requeued_by_repeat(m, e))
    if e is not None:
        return refusal(b"message identifier used before"), s
    if n >= END_OF_NUMBERS:
        return None
    return answer_to(A, n, p), replace(s, inbox=(*s.inbox, first_entry(n, m, p)), next_in=n + 1)


# ---- as2_exchange: OwedReceipts

def mdn_begun(A, m, e):
    """A try of a receipt begins."""
    def act(p):
        if e.mdn != "pending":
            return refused("AllSettled"), e
        if p.max_tries <= e.tries:
            return refused("TriesUsed"), e
        if is_early(m, e.due):
            return refused("NotDue"), e
        is_last = p.max_tries <= e.tries + 1
        rest = {"attempt": "last", "due": None} if is_last else {"attempt": "running", "due": m + p.retry_seconds}
        return receipt_job(e.posted.how[1], report(A, e.number, e.posted)), replace(e, tries=e.tries + 1, **rest)
    return agreed(A, e.posted.receiver, e.posted.sender, e, act)


def mdn_closed(A, got, m, e):
    """The outcome of a receipt's try."""
    def act(p):
        if e.mdn != "pending":
            return ALREADY_SETTLED, e
        if e.attempt in ("idle", "used"):
            return refused("NoOpenTry"), e
        if is_delivery(got):
            return DELIVERED, replace(e, mdn="sent", attempt="idle", due=None)
        if e.attempt == "last":
            return TRY_FAILED, replace(e, attempt="used", due=None)
        return TRY_FAILED, replace(e, attempt="idle", due=m + p.retry_seconds)
    return agreed(A, e.posted.receiver, e.posted.sender, e, act)


# ---- as2_exchange: Step

def on_document(s, n, act):
    d = document(s, n)
    if d is None:
        return refused("NoSuchNumber"), s
    answer, changed = act(d)
    return answer, change_document(s, changed)


def on_received(s, n, act):
    e = received(s, n)
    if e is None:
        return refused("NoSuchNumber"), s
    answer, changed = act(e)
    return answer, change_received(s, changed)


def post(A, s, m, read):
    if isinstance(read, ReceivedReceipt):
        return settle(s, m, read)
    return record_post(A, s, m, read) if isinstance(read, Posted) else (refusal(read), s)


def step(A, s, event):
    """Returns what an event answers and what it leaves; None where the number that it needs is used up."""
    m = event.moment
    match event:
        case Post(head, body):
            return post(A, s, m, reading(A, head, body))
        case Submit():
            return submit(A, s, event)
        case Begin(n):
            return on_document(s, n, lambda d: begun(A, m, d))
        case Outcome(n, got):
            return on_document(s, n, lambda d: closed(A, got, m, d))
        case Resend(n):
            return on_document(s, n, lambda d: resent(A, m, d))
        case BeginMdn(n):
            return on_received(s, n, lambda e: mdn_begun(A, m, e))
        case OutcomeMdn(n, got):
            return on_received(s, n, lambda e: mdn_closed(A, got, m, e))
        case Tick():
            return tick(m, s)
