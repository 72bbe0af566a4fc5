"""Independent readers, written from docs/PROFILE.md alone: of requests and answers of HTTP, and of receipts. `verdict` says by the
profile what a receipt makes of a document; `confirms` asks Python's own `email` whether it is a success. Used by mutations.py."""
import base64
import email
import email.policy
import hashlib
import re

HEAD_LIMIT, FIELD_LIMIT, BODY_LIMIT = 16_384, 64, 1_048_576
TOKEN = rb"[!#$%&'*+\-.^_`|~0-9A-Za-z]+"
REQUEST_LINE = re.compile(rb"(" + TOKEN + rb") ([!-~\x80-\xff]+) HTTP/1\.([01])\r?\n")
STATUS_LINE = re.compile(rb"HTTP/1\.([01]) ([0-9]{3})(?: [\t -~\x80-\xff]*)?\r?\n")
FIELD_LINE = re.compile(rb"(" + TOKEN + rb"):[ \t]*([\t -~\x80-\xff]*?)[ \t]*\r?\n")
TYPE_TOKEN = rb"[!#$%&'*+\-.^_`{|}~0-9A-Za-z]+"
SPACE = rb"(?:[ \t]|\r?\n)*"
TYPE = re.compile(SPACE + rb"(" + TYPE_TOKEN + rb")/(" + TYPE_TOKEN + rb")" + SPACE)
PARAMETER = re.compile(SPACE + rb"(" + TYPE_TOKEN + rb")" + SPACE + rb"=" + SPACE +
                       rb'(?:"((?:\\[^\r\n]|[^"\\\r\n])*)"|([^;"\r\n \t](?:[^;"\r\n]*[^;"\r\n \t])?))' + SPACE + rb"(?:;|\Z)")
NOTHING = re.compile(SPACE + rb"(?:;|\Z)")
NAME = re.compile(rb'(?:[!#-\[\]-~]{1,128}|"((?:[ !#-\[\]-~]|\\["\\]){1,128})")')
DIGESTS = {b"sha1": "sha1", b"sha-1": "sha1", b"md5": "md5", b"sha-256": "sha256", b"sha256": "sha256"}
MODES = ((b"manual-action", b"automatic-action"), (b"mdn-sent-manually", b"mdn-sent-automatically"))


class Ends(Exception):
    """The input holds no whole message: `Closed` or `Truncated`."""


class Refused(Exception):
    """A message that is refused, with the line that says why; and whether its head was read and is that of a HEAD."""

    is_bare = False


def trimmed(text):
    """Without blanks and line ends at its ends; a CR that no LF follows stays."""
    return re.sub(rb"(?:[ \t]|\r?\n)*\Z", b"", re.sub(rb"\A(?:[ \t]|\r?\n)*", b"", text))


class Message:
    """The first line of a head, its fields, and later the body; `ends` is where the next one begins."""

    def __init__(self, first, fields, ends):
        self.first, self.fields, self.ends, self.body = first, fields, ends, b""

    def values(self, name):
        return [value for field, value in self.fields if field == name]

    def once(self, name):
        """The one value; None where there is none or more than one."""
        values = self.values(name)
        return values[0] if len(values) == 1 else None


def is_unicode(target):
    """Whether httparse takes the target; it takes UTF-8 alone."""
    try:
        return bool(target.decode())
    except UnicodeDecodeError:
        return False


def head_in(text, at, line):
    """The head that begins there, whose first line matches that pattern."""
    begin = at
    while begin < len(text) and text[begin] in b"\r\n":
        begin += 1
    found = re.compile(rb"\n\r?\n").search(text, begin, at + HEAD_LIMIT)
    if not found:
        if len(text) - at < HEAD_LIMIT:
            raise Ends("Closed" if begin == len(text) else "Truncated")
        raise Refused("bad request head")
    head = text[begin:found.end()]
    first = line.match(head)
    if not first or not is_unicode(first.group(2)):
        raise Refused("bad request head")
    fields, place = [], first.end()
    while head[place:] not in (b"\n", b"\r\n"):
        field = FIELD_LINE.match(head, place)
        if not field or len(fields) == FIELD_LIMIT:
            raise Refused("bad request head")
        fields.append((field.group(1).lower(), field.group(2)))
        place = field.end()
    return Message(first.groups(), fields, found.end())


def chunks_in(text, at):
    """The bytes of a chunked body that begins there, and where it ends."""
    parts, total = [], 0
    while True:
        end = text.find(b"\r\n", at, at + 1024)
        line = text[at:end] if end >= 0 else text[at:at + 1024]
        if end < 0:
            if len(line) < 1023 and re.fullmatch(rb"[0-9A-Fa-f]{0,16}(?:[ \t]*(?:;[^\r\n]*)?)?\r?", line):
                raise Ends("Truncated")
            raise Refused("bad chunk")
        size = re.fullmatch(rb"([0-9A-Fa-f]{1,16})[ \t]*(?:;[^\r\n]*)?", line)
        if not size:
            raise Refused("bad chunk")
        size, at = int(size.group(1), 16), end + 2
        total += size
        if total > BODY_LIMIT:
            raise Refused("body too large")
        if size == 0:
            break
        parts.append(text[at:at + size])
        behind = text[at + size:at + size + 2]
        if not b"\r\n".startswith(behind):
            raise Refused("bad chunk")
        if len(behind) < 2:
            raise Ends("Truncated")
        at += size + 2
    return b"".join(parts), trailer_end(text, at)


def trailer_end(text, at):
    """Where the trailer that begins there ends."""
    found = re.compile(rb"\A\r?\n|\n\r?\n").search(text[at:at + HEAD_LIMIT])
    if not found:
        if len(text) - at < HEAD_LIMIT:
            raise Ends("Truncated")
        raise Refused("bad chunk")
    return at + found.end()


def is_coded(message):
    """Whether the body is chunked; a coding that isn't taken is refused."""
    codings = message.values(b"transfer-encoding")
    if not codings:
        return False
    if len(codings) > 1 or codings[0].lower() != b"chunked" or message.first[-1 if len(message.first) == 3 else 0] != b"1":
        raise Refused("transfer coding not supported")
    if message.values(b"content-length"):
        raise Refused("bad Content-Length")
    return True


def length_of(message):
    """The length that the head says, or None."""
    lengths = message.values(b"content-length")
    if not lengths:
        return None
    if len(lengths) > 1 or not re.fullmatch(rb"[0-9]+", lengths[0]):
        raise Refused("bad Content-Length")
    if int(lengths[0].lstrip(b"0")[:9] or b"0") > BODY_LIMIT:
        raise Refused("body too large")
    return int(lengths[0])


def request_in(text, at=0):
    """The request that begins there, whole; `Ends` or `Refused` where there is none."""
    request = head_in(text, at, REQUEST_LINE)
    try:
        return with_body(request, text)
    except Refused as refused:
        refused.is_bare = request.first[0] == b"HEAD"
        raise


def with_body(request, text):
    """The request whose head was read, with its body."""
    if is_coded(request):
        request.body, request.ends = chunks_in(text, request.ends)
        return request
    length = length_of(request)
    if length is None:
        if request.first[0] == b"POST":
            raise Refused("length required")
        return request
    request.body = text[request.ends:request.ends + length]
    if len(request.body) < length:
        raise Ends("Truncated")
    request.ends += length
    return request


def answer_in(text):
    """The answer to a request that was sent, or None where it is no answer."""
    try:
        answer = head_in(text, 0, STATUS_LINE)
        status = int(answer.first[1])
        if status < 200:
            return None
        if is_coded(answer):
            if status not in (204, 304):
                answer.body, answer.ends = chunks_in(text, answer.ends)
            return answer
        if status in (204, 304):
            return answer
        length = length_of(answer)
        rest = text[answer.ends:]
        if (len(rest) < length) if length is not None else len(rest) > BODY_LIMIT:
            return None
        answer.body = rest if length is None else rest[:length]
        return answer
    except (Ends, Refused):
        return None


def name_of(value):
    """The AS2 name that a field spells, or None."""
    found = NAME.fullmatch(value) if value is not None else None
    if not found:
        return None
    return value if found.group(1) is None else re.sub(rb"\\(.)", rb"\1", found.group(1))


def media_type(value):
    """The type in small letters and its parameters, or None."""
    first, mark, rest = value.partition(b";")
    found = TYPE.fullmatch(first)
    if not found:
        return None
    parameters, at, count = {}, 0, 0
    while mark and at <= len(rest):
        nothing, parameter = NOTHING.match(rest, at), PARAMETER.match(rest, at)
        if not nothing and not parameter or parameter and not nothing and count == 8:
            return None
        if not nothing:
            count += 1
            quoted, plain = parameter.group(2), parameter.group(3)
            parameters.setdefault(parameter.group(1).lower(), plain if quoted is None else quoted)
        ended = (nothing or parameter)
        at = ended.end()
        if not ended.group().endswith(b";"):
            break
    return found.group(1).lower() + b"/" + found.group(2).lower(), parameters


def is_report(kind):
    return kind is not None and kind[0] == b"multipart/report" and kind[1].get(b"report-type", b"").lower() == b"disposition-notification"


def boundary_of(kind):
    value = kind[1].get(b"boundary", b"")
    return value if re.fullmatch(rb"[ -\[\]-~]{1,70}", value) and not value.endswith(b" ") else None


def lines_of(text):
    """Each line as where it begins, where its text ends, and where the next one begins."""
    at = 0
    while at < len(text):
        feed = text.find(b"\n", at)
        following = len(text) if feed < 0 else feed + 1
        stop = following if feed < 0 else feed - (feed > at and text[feed - 1:feed] == b"\r")
        yield at, stop, following
        at = following


def two_parts(body, boundary):
    """The texts of the first two parts, or None."""
    marks = []
    for begin, stop, following in lines_of(body):
        text = body[begin:stop].rstrip(b" \t")
        if text == b"--" + boundary + b"--":
            marks.append((begin, following))
            break
        if text == b"--" + boundary:
            marks.append((begin, following))
    else:
        return None
    if len(marks) < 3:
        return None
    parts = [body[marks[n][1]:marks[n + 1][0]] for n in (0, 1)]
    return [re.sub(rb"\r?\n\Z", b"", part) for part in parts]


def split_part(text):
    """Head and content of a part."""
    for begin, stop, following in lines_of(text):
        if begin == stop and following > stop:
            return text[:begin], text[following:]
    return text, b""


def fields_in(text):
    """The fields of a part, as pairs of a name in small letters and a value."""
    fields, is_field = [], False
    for begin, stop, following in lines_of(text):
        line = text[begin:following]
        if line[:1] in (b" ", b"\t"):
            if is_field:
                fields[-1][1] += line
            continue
        found = re.match(rb"([!-9;-~]+):", line)
        is_field = found is not None
        if found:
            fields.append([found.group(1).lower(), line[found.end():]])
    return [(name, trimmed(value)) for name, value in fields]


def identifier_value(field):
    """The value of a message identifier, or None."""
    if field is None:
        return None
    text = field.strip(b" \t")
    value = text[1:-1] if len(text) >= 2 and text[:1] == b"<" and text[-1:] == b">" else text
    return value if re.fullmatch(rb"[ -~]{1,998}", value) else None


def disposition(value):
    """Type and modifier (empty where there is none), or None."""
    modes, mark, rest = value.partition(b";")
    action, slash, sending = modes.partition(b"/")
    if not mark or not slash or trimmed(action).lower() not in MODES[0] or trimmed(sending).lower() not in MODES[1]:
        return None
    kind, _, modifier = rest.partition(b"/")
    return (trimmed(kind), trimmed(modifier)) if trimmed(kind) else None


def receipt_in(content_type, body):
    """What a receipt tells: the identifier's value, type and modifier, and the fields of its MIC; None where it is none."""
    kind = media_type(content_type) if content_type is not None else None
    boundary = boundary_of(kind) if is_report(kind) else None
    parts = two_parts(body, boundary) if boundary else None
    if not parts:
        return None
    head, content = split_part(parts[1])
    head, told = fields_in(head), fields_in(content)
    types = [media_type(value) for name, value in head if name == b"content-type"]
    codings = [value.lower() for name, value in head if name == b"content-transfer-encoding"]
    if len(types) != 1 or types[0] is None or types[0][0] != b"message/disposition-notification":
        return None
    if len(codings) > 1 or codings and codings[0] not in (b"7bit", b"8bit", b"binary"):
        return None
    names = [value for name, value in told if name == b"original-message-id"]
    says = [value for name, value in told if name == b"disposition"]
    if len(names) != 1 or len(says) != 1 or identifier_value(names[0]) is None or disposition(says[0]) is None:
        return None
    return identifier_value(names[0]), disposition(says[0]), [value for name, value in told if name == b"received-content-mic"]


def same_digest(values, content):
    """Of MIC fields: True or False where a known digest is or isn't the content's, None where there is none to compare."""
    text, mark, digest = values[0].partition(b",") if len(values) == 1 else (b"", b"", b"")
    known = DIGESTS.get(trimmed(digest).lower())
    if not mark or not trimmed(text) or known is None:
        return None
    return trimmed(text) == base64.b64encode(hashlib.new(known, content).digest())


def verdict(receipt, content):
    """State and detail that a receipt gives to a document with that content."""
    _, (kind, modifier), mics = receipt
    same = same_digest(mics, content)
    if kind.lower() != b"processed":
        return "E not-processed"
    if modifier.lower().startswith((b"error", b"failure")):
        return "E error-modifier"
    if same is False:
        return "E mic-differs"
    if modifier:
        return "W warning"
    if not mics:
        return "W no-mic"
    return "S processed" if same else "W unknown-mic"


def fields_alone(text):
    """Without the lines that are neither fields, nor delimiters, nor empty: `email` stops at such a line, and the profile skips it."""
    kept, is_field = [], False
    for line in text.replace(b"\r\n", b"\n").split(b"\n"):
        is_field = bool(re.match(rb"[!-9;-~]+:", line)) or is_field and line[:1] in (b" ", b"\t")
        kept += [line] if is_field or not line or line.startswith(b"--") else []
    return b"\n".join(kept)


def told_by_email(part):
    """The fields of a notification, as `email` reads them; empty lines among them are taken out before."""
    _, _, content = part.as_bytes().partition(b"\n\n")
    lines = [line for line in fields_alone(content).split(b"\n") if line]
    return email.message_from_bytes(b"\n".join(lines))


def confirms(content_type, body, identifier, content):
    """Whether `email` reads a receipt that says processed, names the document, and has its content's digest."""
    text = b"Content-Type: " + content_type + b"\r\n\r\n" + fields_alone(body)
    report = email.message_from_bytes(text, policy=email.policy.compat32)
    parts = report.get_payload()
    if report.get_content_type() != "multipart/report" or not isinstance(parts, list) or len(parts) < 2:
        return False
    if parts[1].get_content_type() != "message/disposition-notification":
        return False
    told = told_by_email(parts[1])
    says = str(told["Disposition"] or "").lower().partition(";")[2].strip()
    text, _, digest = str(told["Received-Content-MIC"] or "").partition(",")
    known = DIGESTS.get(digest.strip().lower().encode("utf-8", "replace"))
    if known is None or says.rstrip("/ \t\r\n") != "processed":
        return False
    named = str(told["Original-Message-ID"] or "").strip(" \t").encode("utf-8", "replace")
    return identifier_value(named) == identifier and text.strip() == base64.b64encode(hashlib.new(known, content).digest()).decode()
