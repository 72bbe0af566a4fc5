"""Cases of live.py: a station that runs sends what is due by itself. Documents to four partners of whom none is prompt; documents and receipts
that wait beside one that doesn't; and how a station stops that is sending."""
import collections
import hashlib
import re
import socket
import threading
import time

from crowds import Crowd, at_place
from doors import frame_of
from many import PATIENT, half_closed
from partners import Deaf, Partner, Partners, at_once, bare, never, posted_report, slowly, soon
from running import STOPPED, Running, until
from station import Desk, post_of
import running

LISTED = re.compile(rb"^ *(\d+) (\S) +(\d+) ([R-]) (\S+) +Supplier -> (\S+)$", re.M)
SAID = re.compile(rb"^\S+ sent document (\d+): (.*)$", re.M)
OUTSTANDING = re.compile(rb"^([a-z ]+): (\d+)$", re.M)
OF_HOST, FOR_RECEIPTS = 16, 32  # links to one host and port, and for receipts
HALF_AN_HOUR = 1800
POSTERS = 16
STOP = 10  # seconds that what is under way gets
BESIDE = 1  # second that an honest document may wait longer beside others that don't end
SILENT = 20  # posts that ask for a receipt at a silent address


def content_of(number):
    return b"content of %d, " % number * 60


class Office(Desk):
    """A desk that has agreements with these partners, and goes by the clock."""

    def __init__(self, program, folder, *partners):
        super().__init__(program, folder)
        self.agree(*partners)

    def agree(self, *partners):
        text = 'domain = "station.example"\nreturn_url = "http://127.0.0.1:1/as2"\n[[organization]]\nname = "Supplier"\n'
        text = (text + "".join(partner.agreed for partner in partners)).encode()
        self.digest = hashlib.sha256(text).digest()
        with open(self.path("agreements.toml"), "wb") as to:
            to.write(text)

    def words(self, *command, moment=None):
        return [self.program, "--agreements", "agreements.toml", "--store", self.store, *(() if moment is None else ("--moment", str(moment))), *command]

    def run(self, *command, moment=None, text=b"", patience=None):
        return super().run(*command, moment=moment, text=text, patience=patience or running.PATIENCE)

    def ask(self, *command, content=b""):
        """Asks the station for a command at its socket: the status, and what it printed."""
        with socket.socket(socket.AF_UNIX) as link:
            link.settimeout(running.PATIENCE)
            link.connect(self.path(self.store + ".ctl"))
            link.sendall(frame_of(self.digest, *self.words(*command), content=content))
            text = b""
            while len(text) < 14 or len(text) < 14 + int.from_bytes(text[10:14], "big"):
                piece = link.recv(65536)
                if not piece:
                    raise ConnectionError("the station ended without an answer")
                text += piece
        end = 23 + int.from_bytes(text[19:23], "big")
        return text[18], text[23:end]

    def submit(self, partner, content):
        """Hands a document in at the socket; its number."""
        status, output = self.ask("submit", "--from", "Supplier", "--to", partner.name, "order", content=content)
        if status:
            raise RuntimeError(f"submit: status {status}")
        return int(output)

    def stand(self):
        """How each document stands: its state, its tries, whether a receipt is kept, the detail and the partner."""
        status, output, said = self.run("list", "out")
        if status:
            raise RuntimeError(f"list out: status {status}, {said.decode()}")
        return {int(number): (state.decode(), int(tries), kept.decode(), detail.decode(), name.decode())
                for number, state, tries, kept, detail, name in LISTED.findall(output)}

    def outstanding(self):
        return {name.decode(): int(count) for name, count in OUTSTANDING.findall(self.ask("outstanding")[1])}

    def is_done(self):
        """Nothing is to be sent any more."""
        counts = self.outstanding()
        return not (counts["documents not sent"] or counts["documents in retry"] or counts["receipts to send"])


def by_number(station):
    """What was said of the tries of each document, in order."""
    said = collections.defaultdict(list)
    for number, what in SAID.findall(station.text()):
        said[int(number)].append(what.decode())
    return said


def few(found):
    """Some of those that are found, for a message."""
    return dict(list(found.items())[:5])


def same(differences, what, found, wanted):
    """Compares two tables, and tells some of the rows that differ."""
    keys = [key for key in {**wanted, **found} if found.get(key) != wanted.get(key)]
    differences.expect(f"{what} ({len(keys)} differ)", few({key: found.get(key) for key in keys}), few({key: wanted.get(key) for key in keys}))


class Four:
    """Four partners, and who gets which document: one refuses each connection, one takes documents and posts their receipts much later,
    one of a hundred documents goes to one that hangs, over one link at a time once it is known to, and one to one that answers a byte a second."""

    def __init__(self):
        self.hangs = Partner("Hangs", never, tries=2, retry=8)
        self.refuses = Partner("Refuses", None, tries=3, retry=1)
        self.slow = Partner("Slow", slowly, tries=2, retry=35)
        self.posts = Partner("Posts", bare, receipt="async", tries=2, retry=8, overdue=900)
        self.all = self.hangs, self.refuses, self.slow, self.posts

    def partner_of(self, number):
        at = number % 100
        return self.slow if at == 50 else self.hangs if at == 5 else self.refuses if at % 2 else self.posts

    def posted(self, number):
        """The receipt that is posted for a document, and how that settles it; None where none is posted."""
        content, at = content_of(number), number % 20
        if at == 0:
            return None, ("E", 1, "-", "overdue")
        if at == 2:
            return posted_report("Posts", number, content + b"x"), ("E", 1, "R", "mic-differs")
        if at == 4:
            return posted_report("Posts", number, content, b"failed/failure: x"), ("E", 1, "R", "not-processed")
        return posted_report("Posts", number, content), ("S", 1, "R", "processed")

    def stands(self, number):
        """How a document stands in the end, by what its partner saw."""
        partner = self.partner_of(number)
        seen = partner.tries.get(number, [])
        if partner is self.posts:
            return *(self.posted(number)[1] if seen and seen[-1].is_taken() else ("E", 2, "-", "tries-used")), partner.name
        taken = next((at for at, tried in enumerate(seen, 1) if tried.is_taken()), None)
        return *(("S", taken, "R", "processed") if taken else ("E", partner.tries_agreed, "-", "tries-used")), partner.name


def look_at_tries(four, count, said, differences):
    """No document was tried once more than is agreed, each try had its bytes, and each its line."""
    over, other, lines = {}, {}, {}
    for number in range(1, count + 1):
        partner = four.partner_of(number)
        seen = partner.tries.get(number, [])
        wanted = four.stands(number)[1]
        if len(seen) > partner.tries_agreed or (partner.way and len(seen) != wanted):
            over[number] = partner.name, len(seen), wanted
        if any(tried.content != content_of(number) or tried.head != seen[0].head for tried in seen):
            other[number] = partner.name
        if len(said.get(number, [])) != wanted:
            lines[number] = partner.name, said.get(number), wanted
    for what, found in (("tries that its partner saw", over), ("tries with other bytes", other), ("lines of its tries", lines)):
        differences.expect(f"sending: documents with other {what} ({len(found)})", few(found), {})
    for partner in (four.hangs, four.slow):  # a prompt one may see a new link before the end of an old one
        differences.expect(f"sending: links to {partner.name} at once", partner.most <= OF_HOST, True)


def begin_all(desk, four, given, differences):
    """A station that is handed all documents while it sends, until it has made each try; how long it took to take them in, and in all."""
    with Running(desk, "--timeout", "3", moment=None) as station:
        began = time.monotonic()
        numbers = [desk.submit(four.partner_of(number), content_of(number)) for number in range(1, given.documents + 1)]
        took = time.monotonic() - began
        differences.expect("sending: the numbers of the documents", numbers == list(range(1, given.documents + 1)), True)
        rounds = 2 + given.documents // 100 / OF_HOST  # of the slow one's documents, each of which takes two tries
        patience = running.PATIENCE + 100 * rounds + 2 * 5 * given.documents * 0.01
        differences.expect("sending: all tries are made", until(desk.is_done, patience), True)
        whole, used = time.monotonic() - began, station.seconds()
        differences.expect("sending: odd lines", station.odd_lines(), [])
        look_at_tries(four, given.documents, by_number(station), differences)
        differences.expect("sending: it stops", station.stop(), STOPPED)
    return took, whole, used


def post_all(desk, four, given, differences):
    """A station that begins half an hour of clock later: what awaited its receipt is overdue. Then the receipts are posted, some of them twice."""
    later = [number for number in range(1, given.documents + 1) if four.partner_of(number) is four.posts]
    with Running(desk, *PATIENT, moment=int(time.time()) + HALF_AN_HOUR) as station:
        told = b" tick %d given up" % len(later)
        differences.expect("sending: all that awaited a receipt is overdue", until(lambda: told in station.text()), True)
        texts = [(number, four.posted(number)[0]) for number in later]
        again = [(-number, text) for number, text in texts[::7]]
        with Crowd(station.address, POSTERS, [pair for pair in texts + again if pair[1]]) as posters:
            posters.run(10 * running.PATIENCE)
            differences.expect("sending: receipts that come late are answered by", set(posters.replies.values()), {200})
            count = len(posters.replies)
        differences.expect("sending: it stops once the receipts came", station.stop(), STOPPED)
    return count


def sending(given, folder, differences):
    """Documents to four partners over sockets: one hangs, one refuses, one answers a byte a second, and one posts its receipts when the station
    has begun anew, at a moment half an hour later. Each stands in the end as is computed from what the partners saw."""
    four = Four()
    desk = Office(given.program, folder, *four.all)
    with Partners(*four.all):
        took, whole, used = begin_all(desk, four, given, differences)
        count = post_all(desk, four, given, differences)
        found = desk.stand()
        same(differences, "sending: how documents stand", found, {number: four.stands(number) for number in range(1, given.documents + 1)})
        status, output, said = desk.run("verify")
        differences.expect("sending: verify", (status, output.endswith(b", 0 findings\n"), said), (0, True, b""))
    ends = collections.Counter((name, f"{state} {detail}") for state, _, _, detail, name in found.values())
    return (f"{given.documents} documents, taken in in {took:.0f} s and tried in {whole:.0f} ({used:.0f} s of a processor), {count} receipts posted later; "
            f"links at once {', '.join(f'{partner.most} to {partner.name}' for partner in four.all if partner.way)}; "
            f"{', '.join(f'{count} {name} {how}' for (name, how), count in sorted(ends.items()))}")


def asks_at(name, port):
    """A post of Prompt that asks for its receipt at that port."""
    field = b"Receipt-Delivery-Option: http://127.0.0.1:%d/receipts\r\nContent-Length" % port
    return post_of(name).replace(b"Content-Length", field).replace(b"AS2-From: Buyer", b"AS2-From: Prompt")


def comes(desk, partner, content):
    """Hands a document in, and waits until its first byte comes to the partner: how long that took; nan where it doesn't."""
    began = time.monotonic()
    number = desk.submit(partner, content)
    return partner.first(number) - began if until(lambda: partner.first(number)) else float("nan")


def several(desk, partner, count):
    """The longest that such a document took of so many."""
    return max(comes(desk, partner, b"prompt %d" % turn) for turn in range(count))


def beside(given, folder, differences, name, port, holder=None):
    """So many posts that ask for receipts at a silent address: an honest document and honest receipts go out beside them. How long the
    document took without them and with them."""
    prompt, receipts = Partner("Prompt", at_once, tries=9), Partner("Receipts", bare)
    desk = Office(given.program, f"{folder}-{name}", prompt)
    with Partners(prompt, receipts, *([holder] if holder else [])), Running(desk, moment=None) as station:
        alone = several(desk, prompt, 5)
        for number in range(SILENT):
            differences.expect(f"silent: {name}: a post", half_closed(station, asks_at(b"silent-%d" % number, port)), ([202], b""))
        among = several(desk, prompt, 5)
        for number in range(5):
            half_closed(station, asks_at(b"heard-%d" % number, receipts.port))
        heard = until(lambda: len(receipts.tries) == 5, BESIDE + given.slack)
        differences.expect(f"silent: {name}: honest receipts go out beside them", heard, True)
        differences.expect(f"silent: {name}: an honest document waits at most a second longer", among <= alone + BESIDE + given.slack, True)
        if holder:
            differences.expect(f"silent: {name}: links at once", holder.most, OF_HOST)
        differences.expect(f"silent: {name}: odd lines", station.odd_lines(), [])
    return f"{name} {1000 * alone:.0f} and {1000 * among:.0f} ms"


def silent(given, folder, differences):
    """Twenty posts ask for receipts at an address that accepts nobody, or that accepts and answers nothing; and twenty documents are due for
    a partner that hangs. An honest document goes out at once beside them."""
    deaf, hangs = Deaf(), Partner("Hangs", never)
    try:
        told = [beside(given, folder, differences, "deaf", deaf.port), beside(given, folder, differences, "hangs", hangs.port, hangs)]
    finally:
        deaf.close()
    told += [hanging(given, folder, differences), freed(given, folder, differences)]
    return f"the longest that an honest document took to its first byte, without and with silent ones: {', '.join(told)}"


def hanging(given, folder, differences):
    """So many documents for a partner that hangs: it holds 16 links, others' documents go out beside it, and the station isn't kept busy."""
    prompt, hangs = Partner("Prompt", at_once), Partner("Hangs", never, retry=3600)
    desk = Office(given.program, f"{folder}-documents", prompt, hangs)
    with Partners(prompt, hangs), Running(desk, "--timeout", "600", moment=None) as station:
        alone = several(desk, prompt, 5)
        for number in range(given.waiting):
            desk.submit(hangs, b"hangs %d" % number)
        differences.expect("silent: links to a partner that hangs", until(lambda: hangs.open == OF_HOST), True)
        among = several(desk, prompt, 5)
        differences.expect("silent: an honest document waits at most a second longer", among <= alone + BESIDE + given.slack, True)
        share = station.used_in(5) / 5
        differences.expect("silent: links to a partner that hangs, at most", hangs.most, OF_HOST)
        differences.expect("silent: what waits for a link doesn't keep the station busy", share <= 0.25, True)
    return f"{given.waiting} documents for one that hangs {1000 * alone:.0f} and {1000 * among:.0f} ms, {share:.0%} of a processor meanwhile"


def links(given, folder, differences):
    """Documents that wait while their partner hangs: once it answers, those that wait keep all links to it at work."""
    partner, count, seen = Partner("Soon", never, tries=9, retry=3600), given.waiting // 3, []
    desk, partners = Office(given.program, folder, partner), Partners(partner)
    with partners, Running(desk, *PATIENT, moment=None) as station:
        for number in range(count):
            desk.submit(partner, b"links %d" % number)
        differences.expect("links: all that may be are open", until(lambda: partner.open == OF_HOST), True)
        time.sleep(2)
        differences.expect("links: at most so many are open", partner.most, OF_HOST)
        partner.way, began = soon, time.monotonic()
        partners.has_done(partner.hang_up)
        # those of the links that were cut wait for an hour
        is_over = lambda: seen.append(partner.open) or station.text().count(b": settled S processed\n") >= count - 2 * OF_HOST
        differences.expect("links: those that waited are sent", until(is_over, 2 * running.PATIENCE), True)
        seconds, mean = time.monotonic() - began, sum(seen) / len(seen)
        differences.expect("links: a third of them at the least is open while documents wait", mean >= OF_HOST / 3, True)
        differences.expect("links: it stops", station.stop(), STOPPED)
    return f"{count - 2 * OF_HOST} documents that had waited were sent in {seconds:.1f} s over {mean:.1f} of {OF_HOST} links in the mean"


def freed(given, folder, differences):
    """Links for receipts that are all taken by two who hang: once one of these hangs up, a receipt that waited for a link goes out."""
    one, other, prompt, receipts = Partner("One", never), Partner("Other", never), Partner("Prompt", at_once, retry=600), Partner("Receipts", bare)
    desk = Office(given.program, f"{folder}-freed", prompt)
    partners = Partners(one, other, prompt, receipts)
    with partners, Running(desk, *PATIENT, moment=None) as station:
        for number in range(OF_HOST):
            for silent_one in (one, other):
                half_closed(station, asks_at(b"%d-%d" % (number, silent_one.port), silent_one.port))
        differences.expect("silent: links for receipts", until(lambda: one.open + other.open == FOR_RECEIPTS), True)
        half_closed(station, asks_at(b"freed", receipts.port))
        time.sleep(1 + given.slack / 3)
        differences.expect("silent: receipts beyond those links", receipts.links, 0)
        began = time.monotonic()
        partners.has_done(one.hang_up)
        until(lambda: receipts.tries, max(running.PATIENCE, 40))
        seconds = time.monotonic() - began
        differences.expect("silent: a receipt waits for a link that was freed at most so long", seconds <= BESIDE + given.slack, True)
    return f"a receipt behind {FOR_RECEIPTS} that hang {seconds:.1f} s once 16 of them ended"


def unlisted(desk, gone, hangs, waiting):
    """Documents of a partner who isn't in the agreements of the next station: some before so many that wait for a link to another, and some
    behind them."""
    with Partners(hangs), Running(desk, "--timeout", "600", moment=None):
        first = [desk.submit(gone, b"gone %d" % number) for number in range(3)]
        for number in range(waiting):
            desk.submit(hangs, b"hangs %d" % number)
        last = [desk.submit(gone, b"gone too %d" % number) for number in range(3)]
        until(lambda: all(stood[3] == "retry" for number, stood in desk.stand().items() if number in first + last))
    return first + last


def refusals(given, folder, differences, waiting):
    """Documents of a partner who isn't in the agreements any more, and so many that wait for a link to another: those behind go out, and each
    of them has a line a minute at most. Beside so many that not all can be kept they may have none."""
    gone, prompt = Partner("Gone", None, tries=9), Partner("Prompt", at_once)
    desk = Office(given.program, f"{folder}-{waiting}", gone, prompt, hangs := Partner("Hangs", never, retry=3600))
    numbers = unlisted(desk, gone, hangs, waiting)
    hangs.listen()
    desk.agree(prompt, hangs)
    with Partners(prompt, hangs), Running(desk, "--timeout", "600", moment=None) as station:
        longest = several(desk, prompt, 5)
        differences.expect(f"gone: {waiting} waiting: those behind go out", longest <= BESIDE + given.slack, True)
        time.sleep(given.watch)
        said = by_number(station)
        most = 1 + int(given.watch // 60)
        least = 0 if waiting else 1
        lines = {number: len(said[number]) for number in numbers if not least <= len(said[number]) <= most}
        differences.expect(f"gone: {waiting} waiting: lines of a document in {given.watch:g} s, at most {most}", lines, {})
        other = {line for number in numbers for line in said[number]} - {"refused: UnknownPartner"}
        differences.expect(f"gone: {waiting} waiting: what else they say", other, set())
        ran, status = station.stop()
        differences.expect(f"gone: {waiting} waiting: it stops", (ran, status), STOPPED)
    return (f"{max(len(said[number]) for number in numbers)} lines of a document with {waiting} others that wait for a link, those behind out in "
            f"{1000 * longest:.0f} ms")


def gone(given, folder, differences):
    """Documents of a partner who isn't in the agreements any more: see `refusals`."""
    return f"in {given.watch:g} s {refusals(given, folder, differences, 0)}; {refusals(given, folder, differences, given.waiting)}"


def receipts_to(given, folder, differences):
    """With `--receipts-to` a receipt goes to those hosts alone; for another address the try has failed without a connection, and is told."""
    prompt = Partner("Prompt", at_once, tries=3)
    named, barred = Partner("Named", bare), Partner("Barred", bare)
    desk = Office(given.program, folder, prompt)
    where = f"as2.partner.example, 127.0.0.1:{named.port},localhost:1"
    with Partners(prompt, named, barred), Running(desk, "--receipts-to", where, moment=None) as station:
        half_closed(station, asks_at(b"named", named.port))
        half_closed(station, asks_at(b"barred", barred.port))
        line = b" sent receipt 2: 127.0.0.1:%d isn't among '--receipts-to'\n" % barred.port
        differences.expect("receipts-to: each try is told", until(lambda: station.text().count(line) == 3), True)
        differences.expect("receipts-to: the receipt that may go", until(lambda: b" sent receipt 1: delivered\n" in station.text()), True)
        differences.expect("receipts-to: each try failed", until(lambda: station.text().count(b" sent receipt 2: try failed\n") == 3), True)
        differences.expect("receipts-to: a document goes anywhere", comes(desk, prompt, b"abc") >= 0, True)
        time.sleep(3)
        differences.expect("receipts-to: no try beyond those agreed", station.text().count(line), 3)
        differences.expect("receipts-to: connections", (named.links, barred.links, prompt.links), (1, 0, 1))
        differences.expect("receipts-to: what is outstanding", desk.outstanding()["receipts to send"], 1)
        differences.expect("receipts-to: odd lines", station.odd_lines(), [])
        differences.expect("receipts-to: it stops", station.stop(), STOPPED)
    with Partners(), Running(desk, "--receipts-to", "127.0.0.1", moment=None) as station:
        half_closed(station, asks_at(b"again", prompt.port))
        differences.expect("receipts-to: a host with any port", until(lambda: b" sent receipt 3: try failed\n" in station.text()), True)
        differences.expect("receipts-to: it is let through", b"isn't among" in station.text(), False)
    return "one address let through, another one never connected to in 3 tries"


def halts(given, folder, differences):
    """`stop` while links are open: within ten seconds it ends with status 0, and what was under way is tried again by the next station."""
    hangs, prompt = Partner("Hangs", never, tries=9, retry=15), Partner("Slow", slowly, retry=60)
    desk = Office(given.program, folder, hangs, prompt)
    with Partners(hangs, prompt):
        with Running(desk, *PATIENT, moment=None) as station:
            ends, hung = desk.submit(prompt, b"ends"), [desk.submit(hangs, b"hangs %d" % number) for number in range(20)]
            until(lambda: hangs.open == OF_HOST and prompt.first(ends))
            seen, began = set(hangs.tries), time.monotonic()
            differences.expect("halts: it stops", station.stop(), STOPPED)
            seconds = time.monotonic() - began
        differences.expect("halts: within ten seconds", seconds <= STOP + given.slack, True)
        differences.expect("halts: nothing begins meanwhile", len(hangs.tries) <= OF_HOST, True)
        stood = desk.stand()
        differences.expect("halts: what ended meanwhile", stood[ends][:4], ("S", 1, "R", "processed"))
        differences.expect("halts: what was under way", {stood[number][3] for number in hung if number in seen} <= {"sending", "retry"}, True)
        hangs.way = at_once
        with Running(desk, moment=None) as station:
            differences.expect("halts: all are tried again", until(desk.is_done), True)
            began = time.monotonic()
            differences.expect("halts: it stops once nothing is under way", station.stop(), STOPPED)
            quick = time.monotonic() - began
        differences.expect("halts: and at once", quick <= 2 + given.slack, True)
        stood = {number: how[:4] for number, how in desk.stand().items() if number in hung}
        wanted = {number: ("S", len(hangs.tries[number]), "R", "processed") for number in hung}
        same(differences, "halts: how they stand then", stood, wanted)
    return f"with {len(seen)} links open it took {seconds:.1f} s, with none {quick:.1f} s"


def latency(given, folder, differences):
    """From the start of `submit` to the first byte at the partner, where the station has nothing else to do."""
    prompt = Partner("Prompt", at_once)
    desk, times = Office(given.program, folder, prompt), []
    with open(desk.path("order"), "wb") as to:
        to.write(bytes(3000))
    with Partners(prompt), Running(desk, moment=None) as station:
        comes(desk, prompt, b"the first")
        for _ in range(given.latencies):
            began = time.monotonic()
            number = int(desk.run("submit", "--from", "Supplier", "--to", "Prompt", "order")[1])
            until(lambda: prompt.first(number))
            times.append(prompt.first(number) - began)
        differences.expect("latency: it stops", station.stop(), STOPPED)
    late = 1000 * at_place(times, 0.99)
    differences.expect(f"latency: the 99th percentile is at most {given.milliseconds:g} ms", late <= given.milliseconds, True)
    return f"{given.latencies} documents, the middle {1000 * at_place(times, 0.5):.1f} ms, the 99th percentile {late:.1f} ms"
