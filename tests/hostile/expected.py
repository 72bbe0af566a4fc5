"""What the station answers to a request, by the tables of docs/PROFILE.md: a model of its inbox and of its documents, without any
program. Used by mutations.py, which compares it with what `serve` answers."""
import base64
import hashlib
import re

import readers

ORGANIZATIONS = (b"Supplier",)
PARTNERS = (b"Buyer", b"Depot", b'A "B" \\ C')
PHRASES = {200: "OK", 202: "Accepted", 400: "Bad Request", 403: "Forbidden", 404: "Not Found", 405: "Method Not Allowed", 409: "Conflict",
           411: "Length Required", 413: "Payload Too Large", 501: "Not Implemented", 503: "Service Unavailable"}
FRAMING = {"bad request head": 400, "bad Content-Length": 400, "bad chunk": 400, "length required": 411, "body too large": 413,
           "transfer coding not supported": 501}
OUTCOMES = {"encrypted": "processed/error: decryption-failed", "compressed": "processed/error: decompression-failed",
            "signed": "processed/error: authentication-failed", "format": "failed/failure: unsupported format",
            "digests": "failed/failure: unsupported MIC-algorithms", "processed": "processed"}
PARTS = ("disposition-notification-to", "disposition-notification-options", "receipt-delivery-option")
ADDRESS = re.compile(rb"(?i:http)://[0-9A-Za-z.-]{1,253}(?::([1-9][0-9]{0,4}))?(?:/[!\"$-~]*)?")


def is_address(value):
    found = ADDRESS.fullmatch(value)
    return found is not None and len(value) <= 1024 and int(found.group(1) or 1) <= 65535


def options_of(text):
    """The parameters of the options by name, as an importance and values; None where they can't be read."""
    options = {}
    for part in text.split(b";"):
        if not part.strip(b" \t"):
            continue
        name, mark, rest = part.partition(b"=")
        importance, *values = [value.strip(b" \t") for value in rest.split(b",")]
        name = name.strip(b" \t")
        if not mark or not re.fullmatch(readers.TYPE_TOKEN, name) or importance.lower() not in (b"required", b"optional"):
            return None
        if not values or not all(values) or name.lower() in options:
            return None
        options[name.lower()] = importance.lower() == b"required", values
    return options


def asked_for(request):
    """How a receipt is asked for (`none`, `answer` or an address), the digests, and whether they or another thing are required; or None."""
    to, options, address = (request.values(name.encode()) for name in PARTS)
    if not to:
        return "none", [], False, False
    if max(len(to), len(options), len(address)) > 1:
        return None
    read = options_of(options[0]) if options else {}
    if read is None or address and not is_address(address[0]):
        return None
    required, digests = read.get(b"signed-receipt-micalg", (False, []))
    other = any(needed for name, (needed, _) in read.items() if name != b"signed-receipt-micalg")
    return (address[0] if address else "answer"), digests, required, other


def is_encoded(request):
    """Whether the content is under a coding that isn't taken."""
    transfer, coding = request.values(b"content-transfer-encoding"), request.values(b"content-encoding")
    return (len(transfer) > 1 or len(coding) > 1 or any(value.lower() not in (b"7bit", b"8bit", b"binary") for value in transfer)
            or any(value.lower() != b"identity" for value in coding))


def outcome_of(kind, request, ask):
    """The text of what becomes of a document."""
    name, parameters = kind
    if name in (b"application/pkcs7-mime", b"application/x-pkcs7-mime"):
        form = parameters.get(b"smime-type", b"").lower()
        return OUTCOMES[{b"compressed-data": "compressed", b"signed-data": "signed"}.get(form, "encrypted")]
    if name == b"multipart/signed":
        return OUTCOMES["signed"]
    _, digests, required, other = ask
    if is_encoded(request) or other:
        return OUTCOMES["format"]
    if required and not any(digest.lower() in readers.DIGESTS for digest in digests):
        return OUTCOMES["digests"]
    return OUTCOMES["processed"]


def mic_of(digests, content):
    """The MIC under the first known digest, else under SHA-1."""
    known = next((readers.DIGESTS[digest.lower()] for digest in digests if digest.lower() in readers.DIGESTS), "sha1")
    text = base64.b64encode(hashlib.new(known, content).digest()).decode()
    return f"{text}, {'sha-256' if known == 'sha256' else known}"


class Reply:
    """Status, line (or None), and of a report its number, identifier, outcome and MIC."""

    def __init__(self, status, line=None, report=None, is_bare=False):
        self.status, self.line, self.report, self.is_bare = status, line, report, is_bare

    def told(self):
        return self.status, self.line, self.report


class Model:
    """The inbox by key, and the documents that were begun by number: their content and their detail."""

    def __init__(self, documents):
        self.inbox, self.next, self.documents = {}, 1, dict(documents)
        self.details, self.confirmed = {}, set()

    def answer(self, request):
        """The reply to a whole request, by the first line that fits."""
        if request.first[0] != b"POST":
            return Reply(405, "only POST")
        if request.first[1] != b"/as2":
            return Reply(404, "no such path")
        sender, receiver = (readers.name_of(request.once(name)) for name in (b"as2-from", b"as2-to"))
        if sender is None or receiver is None:
            return Reply(400, "bad AS2 names")
        versions = request.values(b"as2-version")
        if versions and (len(versions) > 1 or not re.fullmatch(rb"1\.[0-9]", versions[0])):
            return Reply(400, "bad AS2-Version")
        if receiver not in ORGANIZATIONS or sender not in PARTNERS:
            return Reply(403, "unknown AS2 names")
        types = request.values(b"content-type") or [b"application/octet-stream"]
        kind = readers.media_type(types[0]) if len(types) == 1 else None
        if kind is None:
            return Reply(400, "bad Content-Type")
        if readers.is_report(kind):
            return self.receipt(sender, types[0], request.body)
        return self.document(sender, receiver, types[0], kind, request)

    def receipt(self, sender, content_type, body):
        """A receipt by a post; the documents are all Buyer's."""
        receipt = readers.receipt_in(content_type, body)
        if receipt is None:
            return Reply(400, "unreadable receipt")
        named = re.fullmatch(rb"out-([1-9][0-9]*)@station\.example", receipt[0])
        number = int(named.group(1)[:9]) if named else 0
        if sender != b"Buyer" or number not in self.documents or named.group(1) != b"%d" % number:
            return Reply(404, "no such message")
        if number not in self.details:
            self.details[number] = readers.verdict(receipt, self.documents[number])
            if readers.confirms(content_type, body, receipt[0], self.documents[number]):
                self.confirmed.add(number)
        return Reply(200)

    def document(self, sender, receiver, spelled, kind, request):
        """A document: recorded, repeated, or in conflict."""
        identifier = request.once(b"message-id")
        value = readers.identifier_value(identifier)
        if value is None:
            return Reply(400, "bad Message-ID")
        ask = asked_for(request)
        if ask is None:
            return Reply(400, "bad receipt request")
        outcome = outcome_of(kind, request, ask)
        mic = mic_of(ask[1], request.body) if outcome == "processed" else None
        entry = identifier, spelled, request.body, outcome, ask[0], mic
        key = sender, receiver, value
        if key in self.inbox:
            number, kept = self.inbox[key]
            return self.reply(number, entry) if kept == entry else Reply(409, "message identifier used before")
        self.inbox[key] = self.next, entry
        self.next += 1
        return self.reply(self.next - 1, entry)

    @staticmethod
    def reply(number, entry):
        identifier, _, _, outcome, how, mic = entry
        if how == "answer":
            return Reply(200, None, (number, identifier, outcome, mic))
        if how != "none":
            return Reply(202)
        return Reply(200) if outcome == "processed" else Reply(400, outcome)


def replies_to(model, text):
    """The replies to a whole input, and how its stream ends."""
    replies, at = [], 0
    while True:
        try:
            request = readers.request_in(text, at)
        except readers.Ends as end:
            return replies, str(end)
        except readers.Refused as refused:
            return [*replies, Reply(FRAMING[str(refused)], str(refused), is_bare=refused.is_bare)], "BadFraming"
        reply = model.answer(request)
        reply.is_bare = request.first[0] == b"HEAD"
        replies.append(reply)
        closes = any(value.strip(b" \t").lower() == b"close" for field in request.values(b"connection") for value in field.split(b","))
        if closes or request.first[2] == b"0":
            return replies, "Closed"
        at = request.ends


def reply_in(text, at, is_bare=False):
    """The reply that begins there, read strictly: what `told` gives, whether it says that the connection ends, and where it ends; or None."""
    found = re.compile(rb"HTTP/1\.1 ([0-9]{3}) ([^\r\n]*)\r\nDate: [A-Z][a-z]{2}, [0-9]{2} [A-Z][a-z]{2} [0-9]{4} [0-9:]{8} GMT\r\n"
                       rb"(Connection: close\r\n)?(Allow: POST\r\n)?((?:[!-9;-~]+: [^\r\n]*\r\n)*)\r\n").match(text, at)
    status = int(found.group(1)) if found else 0
    length = re.search(rb"^Content-Length: ([0-9]+)\r$", found.group(5), re.M) if found else None
    if not length or PHRASES.get(status) != found.group(2).decode() or (status == 405) != (found.group(4) is not None):
        return None
    body = b"" if is_bare else text[found.end():found.end() + int(length.group(1))]
    if not is_bare and len(body) < int(length.group(1)):
        return None
    ends = found.end() + len(body)
    if found.group(5).startswith(b"AS2-Version: 1.0\r\n"):
        report = report_told(found.group(5), body)
        return report and ((status, None, report), found.group(3) is not None, ends)
    fields = b"Content-Type: text/plain\r\nContent-Length: %d\r\n" % len(body) if body else b"Content-Length: 0\r\n"
    if not is_bare and found.group(5) != fields or body and not body.endswith(b"\n"):
        return None
    return (status, body[:-1].decode("latin-1") if body else None, None), found.group(3) is not None, ends


def report_told(fields, body):
    """Number, identifier, outcome and MIC of a report whose every byte is as the profile has it; or None."""
    number = re.search(rb"^Message-ID: <mdn-([1-9][0-9]*)@station\.example>\r$", fields, re.M)
    told = re.search(rb"^Original-Message-ID: ([^\r\n]*)\r\nDisposition: automatic-action/MDN-sent-automatically; ([^\r\n]*)\r\n"
                     rb"(?:Received-content-MIC: ([^\r\n]*)\r\n)?\r\n", body, re.M)
    if not number or not told:
        return None
    number, (identifier, outcome, mic) = number.group(1), told.groups()
    line = b"Received-content-MIC: " + mic + b"\r\n" if mic else b""
    whole = (b"--as2-mdn-%s\r\nContent-Type: text/plain\r\n\r\nReceipt %s for the message named below.\r\nOutcome: %s\r\n\r\n--as2-mdn-%s\r\n"
             b"Content-Type: message/disposition-notification\r\n\r\nReporting-UA: as2-station\r\nFinal-Recipient: rfc822; Supplier\r\n"
             b"Original-Message-ID: %s\r\nDisposition: automatic-action/MDN-sent-automatically; %s\r\n%s\r\n--as2-mdn-%s--\r\n"
             % (number, number, outcome, number, identifier, outcome, line, number))
    return (int(number), identifier, outcome.decode(), mic.decode() if mic else None) if whole == body else None
