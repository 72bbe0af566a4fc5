"""What is read from heads and bodies, by the grammars that docs/PROFILE.md tells. See machine.py, of which this is a part.

Each function bears the name of the definition in crates/*/specs/*.antt that it is another writing of; the part above the functions
names the file. A text is bytes. What can't be read is None: which fault it has, no answer of the station tells."""
import base64
import dataclasses
import hashlib
import re

# ---- as2_names: Blanks, Trim, Names, Identifiers, Heads

BLANKS = b" \t"
NAME_LIMIT = 128
ID_LIMIT = 998


def without_blanks(text):
    return text.strip(BLANKS)


def trimmed(text):
    """Returns the text without the blanks and line ends at its ends. A CR that no LF follows is neither."""
    return re.sub(rb"\A(?:[ \t\n]|\r\n)+|(?:[ \t\n]|\r\n)+\Z", b"", text)


def is_word(text, word):
    """Whether both are the same, whatever the case of ASCII letters."""
    return text.lower() == word.lower()


def cut_at(mark, text):
    """Returns what stands before the first mark and behind it, or None."""
    before, found, behind = text.partition(mark)
    return (before, behind) if found else None


def is_printable(text):
    return all(32 <= byte <= 126 for byte in text)


def is_atomic(name):
    return re.fullmatch(rb"[!#-\[\]-~]+", name) is not None


def spelling(name):
    return name if is_atomic(name) else b'"' + re.sub(rb'(["\\])', rb"\\\1", name) + b'"'


def name_reading(text):
    """Returns the AS2 name that a text spells: as itself, or between quotes."""
    if is_atomic(text):
        return text if len(text) <= NAME_LIMIT else None
    units = re.fullmatch(rb'"((?:[ !#-\[\]-~]|\\["\\])*)"', text)
    name = re.sub(rb'\\(["\\])', rb"\1", units[1]) if units else b""
    return name if 1 <= len(name) <= NAME_LIMIT else None


def value_of(identifier):
    """Returns an identifier without one surrounding pair of angle brackets."""
    is_bracketed = len(identifier) >= 2 and identifier.startswith(b"<") and identifier.endswith(b">")
    return identifier[1:-1] if is_bracketed else identifier


def is_identifier(text):
    is_bare = without_blanks(text) == text
    return is_bare and 1 <= len(value_of(text)) <= ID_LIMIT and is_printable(text)


def id_reading(field):
    text = without_blanks(field)
    return text if is_identifier(text) else None


def values(name, head):
    """Returns the values, in order, of the fields of a name in lower case. A head is a list of such names, each with its value."""
    return [value for field, value in head if field == name]


def only(texts):
    return texts[0] if len(texts) == 1 else None


# ---- as2_media: Cuts, Values, Parameters, MediaTypes, Kinds

TOKEN = rb"[!#$%&'*+\-.0-9A-Z^_`a-z{|}~]+"
MOST_PARAMETERS = 8


@dataclasses.dataclass(frozen=True)
class Media:
    essence: tuple[bytes, bytes]
    parameters: tuple[tuple[bytes, bytes], ...]


def is_token(text):
    return re.fullmatch(TOKEN, text) is not None


def segments(text):
    """Returns the texts between each `;` outside quotes."""
    pieces, start, place = [], 0, "outside"
    for at, byte in enumerate(text):
        if place == "outside" and byte == ord(";"):
            pieces.append(text[start:at])
            start = at + 1
        elif place == "outside":
            place = "quoted" if byte == ord('"') else "outside"
        elif place == "escaped":
            place = "quoted"
        else:
            place = {ord("\\"): "escaped", ord('"'): "outside"}.get(byte, "quoted")
    return [*pieces, text[start:]]


def spelled_value(text):
    """Returns the value that a text without blanks at its ends spells: as itself, or between quotes, backslashes and all."""
    quoted = re.fullmatch(rb'"((?:[^"\\\r\n]|\\[^\r\n])*)"', text)
    if quoted:
        return quoted[1]
    return text if re.fullmatch(rb'[^;"\r\n]+', text) else None


def parameter(text):
    cut = cut_at(b"=", text)
    if cut is None or not is_token(trimmed(cut[0])):
        return None
    value = spelled_value(trimmed(cut[1]))
    return None if value is None else (trimmed(cut[0]), value)


def media_reading(text):
    before, _, behind = text.partition(b";")
    essence = cut_at(b"/", trimmed(before))
    if essence is None or not (is_token(essence[0]) and is_token(essence[1])):
        return None
    given = [parameter(it) for it in segments(behind) if trimmed(it)]
    if None in given or len(given) > MOST_PARAMETERS:
        return None
    return Media(essence, tuple(given))


def first_value(wanted, media):
    return next((value for name, value in media.parameters if is_word(name, wanted)), None)


def media_is_type(type_name, subtype, media):
    return is_word(media.essence[0], type_name) and is_word(media.essence[1], subtype)


def says(name, word, media):
    value = first_value(name, media)
    return value is not None and is_word(value, word)


def secured(media):
    if says(b"smime-type", b"compressed-data", media):
        return "compressed"
    return "signed" if says(b"smime-type", b"signed-data", media) else "enveloped"


def kind_of(media):
    if media_is_type(b"application", b"pkcs7-mime", media) or media_is_type(b"application", b"x-pkcs7-mime", media):
        return secured(media)
    if media_is_type(b"multipart", b"signed", media):
        return "signed"
    is_report = media_is_type(b"multipart", b"report", media) and says(b"report-type", b"disposition-notification", media)
    return "report" if is_report else "document"


def boundary_of(media):
    text = first_value(b"boundary", media) or b""
    is_boundary = 1 <= len(text) <= 70 and is_printable(text) and b"\\" not in text and not text.endswith(b" ")
    return text if is_boundary else None


# ---- as2_parts: Lines, Fields, Parts

def lines(text):
    return re.findall(rb"[^\n]*\n|[^\n]+", text)


def without_line_end(text):
    return re.sub(rb"\r?\n\Z", b"", text)


def is_delimiter(boundary, line):
    text = without_line_end(line)
    return text.startswith(b"--" + boundary) and not text[len(boundary) + 2:].strip(BLANKS)


def is_closing(boundary, line):
    return is_delimiter(boundary + b"--", line)


def part_of(section):
    """Returns the head and the content of a part between two marks: the line end before the second belongs to that."""
    text = lines(without_line_end(b"".join(section)))
    at = next((at for at, line in enumerate(text) if line in (b"\n", b"\r\n")), len(text))
    return b"".join(text[:at]), b"".join(text[at + 1:])


def second_part(boundary, body):
    """Returns the second of a body's two parts. Delimiters count before the first closing line, and that has to be there."""
    text = lines(body)
    closing = next((at for at, line in enumerate(text) if is_closing(boundary, line)), None)
    if closing is None:
        return None
    marks = [at for at, line in enumerate(text[:closing]) if is_delimiter(boundary, line)]
    return part_of(text[marks[1] + 1:[*marks, closing][2]]) if len(marks) >= 2 else None


def fields(text):
    """Returns the fields of a text. A line that begins with a blank goes on with the line before."""
    found = [re.fullmatch(rb"([!-9;-~]+):(.*)", line, re.S) for line in re.split(rb"(?<=\n)(?![ \t])", text)]
    return [(it[1], trimmed(it[2])) for it in found if it]


def field_values(name, text):
    return [value for field, value in fields(text) if is_word(field, name)]


# ---- as2_mic: Algs, Mic, Field

NAMES_OF_DIGESTS = {b"sha1": "sha1", b"sha-1": "sha1", b"md5": "md5", b"sha-256": "sha-256", b"sha256": "sha-256"}
HASHES = {"sha1": hashlib.sha1, "md5": hashlib.md5, "sha-256": hashlib.sha256}


def alg_named(name):
    return NAMES_OF_DIGESTS.get(name.lower())


def first_known_of(listed):
    """Returns the first known digest of a list that is cut at its commas."""
    return next(filter(None, (alg_named(without_blanks(name)) for name in listed.split(b","))), None)


def mic(alg, content):
    return base64.b64encode(HASHES[alg](content).digest())


def mic_field(text):
    """Returns the MIC and the name of its digest, neither empty."""
    cut = cut_at(b",", text)
    given = tuple(map(trimmed, cut)) if cut else (b"", b"")
    return given if all(given) else None


# ---- as2_mdn: Dispositions, ReportReading, Verdicts

@dataclasses.dataclass(frozen=True)
class Disposition:
    type_name: bytes
    modifier: bytes


@dataclasses.dataclass(frozen=True)
class Receipt:
    original_id: bytes
    disposition: Disposition
    # `missing`, `unreadable`, or the MIC and the name of its digest
    mic: object


def is_plain_encoding(text):
    return text.lower() in (b"7bit", b"8bit", b"binary")


def disposition_reading(value):
    """Returns the disposition that a value has: `action/sending; type`, or that and `/modifier`."""
    modes, semicolon, typed = value.partition(b";")
    action, slash, sending = modes.partition(b"/")
    is_mode = trimmed(action).lower() in (b"manual-action", b"automatic-action")
    is_sent = trimmed(sending).lower() in (b"mdn-sent-manually", b"mdn-sent-automatically")
    if not (semicolon and slash and is_mode and is_sent):
        return None
    type_name, _, modifier = typed.partition(b"/")
    return Disposition(trimmed(type_name), trimmed(modifier)) if trimmed(type_name) else None


def mic_once(texts):
    if not texts:
        return "missing"
    return "unreadable" if len(texts) > 1 else mic_field(texts[0]) or "unreadable"


def content_reading(content):
    """Returns the receipt that the content of a notification tells."""
    original_id = only(field_values(b"original-message-id", content))
    given = only(field_values(b"disposition", content))
    disposition = None if given is None else disposition_reading(given)
    if original_id is None or not is_identifier(original_id) or disposition is None:
        return None
    return Receipt(original_id, disposition, mic_once(field_values(b"received-content-mic", content)))


def is_notification_head(head):
    type_name = only(field_values(b"content-type", head))
    media = None if type_name is None else media_reading(type_name)
    encodings = field_values(b"content-transfer-encoding", head)
    is_unencoded = not encodings or len(encodings) == 1 and is_plain_encoding(encodings[0])
    return media is not None and media_is_type(b"message", b"disposition-notification", media) and is_unencoded


def report_in(media, body):
    """Returns the receipt that a body of that media type is."""
    boundary = boundary_of(media)
    if kind_of(media) != "report" or boundary is None:
        return None
    part = second_part(boundary, body)
    return content_reading(part[1]) if part and is_notification_head(part[0]) else None


def compared(given, content):
    """Returns `same`, `differs` or `unknown`, or None where no MIC is given."""
    if given == "missing":
        return None
    alg = None if given == "unreadable" else alg_named(given[1])
    if alg is None:
        return "unknown"
    return "same" if given[0] == mic(alg, content) else "differs"


def verdict(receipt, content):
    """Returns what a receipt says of a content: the first line that fits."""
    modifier, found = receipt.disposition.modifier.lower(), compared(receipt.mic, content)
    if not is_word(receipt.disposition.type_name, b"processed"):
        return "not-processed"
    if modifier.startswith((b"error", b"failure")):
        return "error-modifier"
    if found == "differs":
        return "mic-differs"
    if modifier:
        return "warning"
    return {None: "no-mic", "unknown": "unknown-mic", "same": "processed"}[found]


# ---- as2_text: Addresses, ReceiptOptions, ReceiptRequests

@dataclasses.dataclass(frozen=True)
class Option:
    name: bytes
    is_required: bool
    values: bytes


@dataclasses.dataclass(frozen=True)
class Request:
    """What the sender of a message asks of its receipt: `none`, `sync` or `async` to the address as spelled."""
    how: str = "none"
    url: bytes = b""
    digests: bytes = b""
    digests_required: bool = False
    other_required: bool = False


def url_of(text):
    """Returns the authority and the target of an address."""
    form = rb"(?i:http://)([A-Za-z0-9.\-]{1,253}(?::([1-9][0-9]{0,4}))?)(/[!\"$-~]*)?"
    found = re.fullmatch(form, text) if len(text) <= 1024 else None
    if not found or int(found[2] or 80) > 65535:
        return None
    return found[1], found[3] or b"/"


def option_of(parameter_text):
    """Returns the option that a parameter is: `name=importance, value, value..`."""
    cut = cut_at(b"=", parameter_text)
    behind = cut_at(b",", cut[1]) if cut else None
    if behind is None:
        return None
    name, importance = without_blanks(cut[0]), without_blanks(behind[0]).lower()
    are_values = all(without_blanks(it) for it in behind[1].split(b","))
    if not is_token(name) or importance not in (b"required", b"optional") or not are_values:
        return None
    return Option(name.lower(), importance == b"required", without_blanks(behind[1]))


def options_reading(text):
    """Returns the options that a field says; None where one can't be read, or a name stands there twice."""
    options = [option_of(it) for it in text.split(b";") if without_blanks(it)]
    if None in options or len({it.name for it in options}) < len(options):
        return None
    return options


def asked_by(how, url, options):
    digests = next((it for it in options if it.name == b"signed-receipt-micalg"), Option(b"", False, b""))
    others = any(it.is_required for it in options if it is not digests)
    return Request(how, url, digests.values, digests.is_required, others)


def ask_of(head):
    """Returns what a head asks of its receipt."""
    names = (b"disposition-notification-to", b"disposition-notification-options", b"receipt-delivery-option")
    to, options, delivery = (values(name, head) for name in names)
    if not to:
        return Request()
    if max(map(len, (to, options, delivery))) > 1:
        return None
    read = options_reading(options[0] if options else b"")
    if read is None or delivery and url_of(delivery[0]) is None:
        return None
    return asked_by("async", delivery[0], read) if delivery else asked_by("sync", b"", read)
