"""Plays the lines of a list over the machine, and tells each answer as docs/SCRIPTS.md says. See machine.py."""
import collections
import re

import machine
import views

# ---- texts, as a script spells them

ENDS = {">": "\\r\\n", "|": "\\n", ".": ""}
LETTERS = {"r": "\r", "n": "\n", "t": "\t", "s": " "}
SPELLINGS = {13: "\\r", 10: "\\n", 9: "\\t", 92: "\\\\", 123: "\\{"}


def bytes_of(text):
    """Returns the bytes that a text spells."""
    def piece(found):
        return chr(int(found[1][1:], 16)) if len(found[1]) == 3 else LETTERS.get(found[1], found[1])
    return re.sub(r"\\(x[0-9a-f]{2}|.)", piece, text).encode("latin-1")


def spelled(text):
    """Returns the spelling of bytes, in which a long run of the letters of contents is told by its length."""
    spelling = "".join(SPELLINGS.get(it) or (chr(it) if 32 <= it <= 126 else f"\\x{it:02x}") for it in text)
    for letters in ("a", "abc"):
        spelling = re.sub(f"(?:{letters}){{1000,}}", lambda run: f"{{{letters}*{len(run[0]) // len(letters)}}}", spelling)
    return spelling


def lines_of(text):
    """Returns the lines of a script, each with the text that stands behind it, without empty ones and comments."""
    lines = []
    for line in text.splitlines():
        if line[:1] in ENDS:
            is_first = re.fullmatch(r"text [^ ]+", lines[-1]) is not None
            lines[-1] += (" " if is_first else "") + line[2:] + ENDS[line[0]]
        elif line and not line.startswith("#"):
            lines.append(line)
    return lines


def changed(text, changes):
    """Returns the text with these changes in it."""
    for old, new in changes:
        text = text.replace(old, new)
    return text


class Texts(dict):
    """The texts that scripts give a name to, each by its name, as they are spelled."""

    def expanded(self, text):
        """Returns a text with what its signs in braces stand for. A brace behind a backslash begins no sign."""
        return re.sub(r"(?<!\\)\{([^}]*)\}", lambda sign: self.of_sign(sign[1]), text)

    def of_sign(self, sign):
        name, _, word = sign.partition(" ")
        if sign in self:
            return self[sign]
        if word and name in self:
            return self[name].replace("%", word)
        text, _, count = sign.rpartition("*")
        text = self.get(text, text)
        return "".join(text.replace("#", str(at)) for at in range(int(count))) if "#" in text else text * int(count)

    def read(self, path):
        """Takes the lines of a file of texts."""
        for line in lines_of(path.read_text(encoding="utf-8")):
            self.take(line)

    def take(self, line):
        """Gives a text the name that a line says."""
        verb, _, rest = self.expanded(line).partition(" ")
        name, _, text = rest.partition(" ")
        if verb == "change":
            other, *changes = text.split(" | ")
            text = changed(self[other], [it.split(" -> ", 1) for it in changes])
        self[name] = text


# ---- events

class Brought:
    """What a line brings: its words, its fields and the changes in its body."""

    def __init__(self, line):
        self.words, self.fields, self.changes = [], [], []
        for part in line.split(" | "):
            if " -> " in part:
                self.changes.append(part.split(" -> ", 1))
            elif ":" in part:
                name, _, value = part.partition(":")
                self.fields.append((name, value.strip()))
            else:
                self.words.append(part.strip())


def head_of(texts, brought):
    """Returns a head: the plain fields of the body that is brought, those of the line in their place, and its others."""
    body = brought.words[1] if len(brought.words) > 1 else ""
    plain = Brought(texts.get(f"{body}-fields", texts.get("post-fields", ""))).fields
    given = dict(reversed(brought.fields))
    head = [(name, given.get(name, value)) for name, value in plain]
    head += [it for it in brought.fields if it[0] not in dict(plain)]
    return [(name.lower().encode(), bytes_of(value).strip(b" \t")) for name, value in head if value]


def body_at(texts, brought, place):
    """Returns a body: so many letters, the text of a name, or a text, with its changes."""
    word = brought.words[place] if len(brought.words) > place else ""
    if word.isdigit():
        return b"a" * int(word)
    return bytes_of(changed(texts.get(word, word), brought.changes))


def reply_of(texts, brought, status):
    """Returns what came of a try: None, where no status is told."""
    if not status:
        return None
    return machine.Reply(int(status[0]), head_of(texts, brought), body_at(texts, brought, 1))


def event_of(texts, line):
    """Returns the event that a line tells."""
    brought = Brought(line)
    moment, name, *rest = brought.words[0].split()
    moment = int(moment)
    if name == "post":
        return machine.Post(head_of(texts, brought), body_at(texts, brought, 1), moment)
    if name == "submit":
        return machine.Submit(bytes_of(brought.words[1]), bytes_of(brought.words[2]), body_at(texts, brought, 3), moment)
    if name == "tick":
        return machine.Tick(moment)
    number, status = int(rest[0]), rest[1:]
    if name in ("reply", "unanswered"):
        return machine.Outcome(number, reply_of(texts, brought, status), moment)
    if name in ("reply-mdn", "unanswered-mdn"):
        return machine.OutcomeMdn(number, reply_of(texts, brought, status), moment)
    return {"begin": machine.Begin, "resend": machine.Resend, "begin-mdn": machine.BeginMdn}[name](number, moment)


# ---- answers

def mic_told(mic):
    return b"-" if mic is None else mic[1] + b", " + mic[0].encode()


def report_told(out):
    """Returns what a line tells of a report; that its bytes are those of the text of reports, the program compares."""
    names = b"> from %s to %s on %s: " % (out.organization, out.partner, out.original_id)
    return b"report <mdn-%d@%s" % (out.number, out.domain) + names + out.outcome + b"; " + mic_told(out.mic)


def http_told(answer):
    if answer.body is None:
        return b"%d" % answer.status
    body = answer.body if isinstance(answer.body, bytes) else report_told(answer.body)
    return b"%d " % answer.status + body


def said(answer):
    """Returns what is said to an event, as a line tells it."""
    if answer is None:
        return b"fault Full"
    if isinstance(answer, machine.Http):
        return http_told(answer)
    if isinstance(answer, machine.Job):
        return b"job " + answer.authority + b"\r\n" + answer.content
    return answer.word.encode() if answer.of is None else f"{answer.word} {answer.of}".encode()


# ---- entries

def due_told(due):
    return b"not due" if due is None else b"due %d" % due


def tries_told(entry):
    return b"tries %d, %s, " % (entry.tries, entry.attempt.encode()) + due_told(entry.due)


def how_told(how):
    return {"none": b"no receipt", "sync": b"receipt at once", "async": b"receipt to " + how[1]}[how[0]]


def received_told(e):
    """Returns all of a received entry but its content."""
    p = e.posted
    parts = [
        b"%d %s -> %s %s" % (e.number, p.sender, p.receiver, p.id), p.content_type, b"%d bytes at %d" % (len(p.content), e.moment),
        p.outcome, how_told(p.how), b"MIC " + mic_told(p.mic), e.mdn.encode(), tries_told(e),
    ]
    return b"; ".join(parts)


def evidence_told(evidence):
    if evidence is None:
        return b"no receipt"
    return b"receipt at %d, %s\r\n" % (evidence.moment, evidence.content_type) + evidence.body


def document_told(d):
    """Returns all of a document to a partner."""
    parts = [
        b"%d %s -> %s %s" % (d.number, d.organization, d.partner, d.id), b"at %d" % d.moment, d.detail.encode(),
        b"begun" if d.begun else b"not begun", tries_told(d), b"%d bytes" % len(d.content),
    ]
    return b"; ".join(parts) + b"\r\n" + d.content + b"\r\n" + evidence_told(d.evidence)


def numbers_told(s):
    return b"%d %d" % (s.next_in, s.next_out)


def or_nothing(told, found):
    return b"nothing" if found is None else told(found)


def next_told(found):
    return b"%s %d" % (found[0].encode(), found[1])


# ---- lists

class Played:
    """A machine that the lines of a list are played over, and what came of its resends."""

    def __init__(self, texts, step=machine.step):
        self.texts, self.step = Texts(texts), step
        self.agreements, self.state = None, None
        self.resends = collections.Counter()

    def begin(self):
        """Has the machine and its agreements begin where there are none yet."""
        if self.agreements is None:
            self.agree("{agreements}")
        if self.state is None:
            self.state = machine.empty(int(self.texts.get("first", "1")))

    def agree(self, text):
        self.agreements = machine.Agreements.read(bytes_of(self.texts.expanded(text)).decode())

    def take(self, line):
        """Takes an event, and returns what is said to it."""
        event, before = event_of(self.texts, line), self.state
        stepped = self.step(self.agreements, before, event)
        answer = None if stepped is None else stepped[0]
        if stepped is not None:
            self.state = stepped[1]
        self.count(event, answer, before)
        return said(answer)

    def count(self, event, answer, before):
        """Counts what a resend was answered, and the documents that a receipt settled before the new try."""
        if isinstance(event, machine.Resend):
            self.resends[said(answer).decode()] += 1
        for old, new in zip(before.outbox, self.state.outbox):
            if old.begun and old.detail == "new" and new.evidence:
                self.resends[f"settled before the new try: {new.detail}"] += 1
            elif old.begun and old.detail == "new" and isinstance(event, machine.Outcome) and event.number == old.number:
                self.resends[f"outcome of the old try: {said(answer).decode()}"] += 1

    def shown(self, verb, rest):
        """Returns what is shown of the state."""
        s = self.state
        if verb == "list":
            return views.list_in(s) if rest == "in" else views.list_out(s, rest[4:] or None)
        if verb == "numbers":
            return numbers_told(s)
        number = int(rest)
        return {
            "next": lambda: or_nothing(next_told, views.next_of(s, number)),
            "outstanding": lambda: views.outstanding(s, number),
            "show": lambda: or_nothing(bytes, views.show(s, number)),
            "fetch": lambda: or_nothing(bytes, views.fetch(s, number)),
            "received": lambda: or_nothing(received_told, machine.received(s, number)),
            "document": lambda: or_nothing(document_told, machine.document(s, number)),
        }[verb]()

    def answer(self, line):
        """Plays a line, and returns what is answered; None where none is."""
        verb, _, rest = line.partition(" ")
        if verb == "text":
            return self.texts.take(line)
        if verb == "under":
            return self.agree(rest)
        self.begin()
        line = self.texts.expanded(line)
        verb, _, rest = line.partition(" ")
        return self.take(line) if verb.isdigit() else self.shown(verb, rest)
