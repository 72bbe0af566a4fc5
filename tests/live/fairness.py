"""A case of live.py: partners that hang don't hold up another one. Used by bench/links.py too."""
import asyncio
import os
import shutil
import sqlite3
import time

from many import half_closed
from partners import Partner, Partners, at_once, bare, never
from running import STOPPED, Running, until
from sending import Office, asks_at
import running

TIMEOUT = 5  # seconds; the station's `--timeout`
OF_HOST, OF_ALL, FOR_RECEIPTS = 16, 64, 32  # links to one host and port, in all, and for receipts
KNOWN = 1  # second that one may be held up by those that are known to hang
RECEIPTS = 100  # receipts for each host that hangs
EARLY = 6  # documents whose answers come shortly before their next try


def multiply(path, copy, few, count):
    """Makes a store with so many documents that are due, out of one with the first few: those over and over."""
    one, many = sqlite3.connect(path), sqlite3.connect(copy)
    many.executescript("\n".join(one.iterdump()))  # its pages have no room for sums, which SQLite wouldn't write
    one.close()
    numbers = f"WITH RECURSIVE n (i) AS (SELECT {few + 1} UNION ALL SELECT i + 1 FROM n WHERE i < {count})"
    first = f"number = (i - 1) % {few} + 1"
    value, spelled = "CAST('out-' || i || '@station.example' AS BLOB)", "CAST('<out-' || i || '@station.example>' AS BLOB)"
    many.executescript(f"""
        BEGIN;
        {numbers} INSERT INTO outbox SELECT i, organization, partner, {value}, {spelled}, length, moment, tries, attempt, due, detail
            FROM n JOIN outbox ON {first};
        {numbers} INSERT INTO outbox_piece SELECT i, position, bytes FROM n JOIN outbox_piece ON {first};
        {numbers} INSERT INTO waiting SELECT (SELECT max(place) FROM waiting) + i - {few}, kind, i, due FROM n JOIN waiting ON {first};
        UPDATE meta SET next_document = {count + 1};
        COMMIT;""")
    many.close()


def prepare(desk, hung, documents):
    """Gives the desk a store with so many documents for each of these partners."""
    with open(desk.path("order"), "wb") as to:
        to.write(b"hangs")
    for partner in hung:
        status, _, said = desk.run("submit", "--from", "Supplier", "--to", partner.name, "order")
        if status:
            raise RuntimeError(f"submit: status {status}, {said.decode()}")
    if documents > 1 and hung:
        multiply(desk.path(desk.store), desk.path("many.db"), len(hung), documents * len(hung))
        for name in os.listdir(desk.folder):
            if name.startswith(desk.store):
                os.remove(desk.path(name))
        shutil.move(desk.path("many.db"), desk.path(desk.store))


def held(desk, partner, number):
    """Seconds from its submission to the first byte of a document at its partner; nan if it doesn't come."""
    began = time.monotonic()
    number = desk.submit(partner, b"prompt %d" % number)
    return partner.first(number) - began if until(lambda: partner.first(number)) else float("nan")


def posted(station, partner, name):
    """The same of a receipt, from the post that asks for it at its partner."""
    began = time.monotonic()
    half_closed(station, asks_at(name, partner.port))
    key = f"{name.decode()}@x"
    return partner.tries[key][0].came - began if until(lambda: partner.tries.get(key)) else float("nan")


def measure(program, folder, count, documents):
    """Seconds that a document is held up beside so many partners that hang, with so many documents each: as they are found to hang, and once
    they are known to; then the share of a processor that the station has meanwhile, and the links to those that hang."""
    prompt = Partner("Prompt", at_once, retry=600)
    hung = [Partner(f"Hangs{number}", never, tries=9, retry=3600) for number in range(count)]
    desk = Office(program, folder, prompt, *hung)
    prepare(desk, hung, documents)
    with Partners(prompt, *hung), Running(desk, "--timeout", str(TIMEOUT), moment=None) as station:
        most = min(OF_ALL, count * min(documents, OF_HOST))
        until(lambda: sum(partner.open for partner in hung) == most, TIMEOUT)
        first = held(desk, prompt, 0)
        time.sleep(2 * TIMEOUT)
        later = max(held(desk, prompt, 1 + number) for number in range(5))
        share, links = station.used_in(TIMEOUT) / TIMEOUT, sum(partner.open for partner in hung)
        status = station.stop()
    return first, later, share, links, status


def documents_beside(given, folder, differences):
    """A document goes out beside partners that hang."""
    name = f"hung: {given.hung} partners with {given.waiting} documents each"
    first, later, share, links, status = measure(given.program, f"{folder}-documents", given.hung, given.waiting)
    differences.expect(f"{name}: one is held up by one time limit at most", first <= TIMEOUT + 1 + given.slack, True)
    differences.expect(f"{name}: once they are known to hang, by nothing", later <= KNOWN + given.slack, True)
    differences.expect(f"{name}: one link to each that is known to hang, at most", links <= given.hung, True)
    differences.expect(f"{name}: what waits doesn't keep the station busy", share <= 0.25, True)
    differences.expect(f"{name}: it stops", status, STOPPED)
    return f"a document beside {given.hung} that hang with {given.waiting} each {first:.1f} s, later {later:.2f} s, {share:.0%} of a processor meanwhile"


def receipts_beside(given, folder, differences):
    """A receipt goes out beside hosts that hang."""
    prompt, receipts = Partner("Prompt", at_once, tries=9, retry=3600), Partner("Receipts", bare)
    hung = [Partner(f"Hangs{number}", never) for number in range(given.hung)]
    desk = Office(given.program, f"{folder}-receipts", prompt)
    with Partners(prompt, receipts, *hung), Running(desk, "--timeout", str(TIMEOUT), moment=None) as station:
        for number in range(RECEIPTS):
            for partner in hung:
                half_closed(station, asks_at(b"%d-%d" % (partner.port, number), partner.port))
        first = posted(station, receipts, b"first")
        time.sleep(2 * TIMEOUT)
        later = max(posted(station, receipts, b"later-%d" % number) for number in range(3))
        differences.expect("hung: links for receipts at once, at most", sum(partner.most for partner in hung) <= 2 * FOR_RECEIPTS, True)
        differences.expect("hung: a receipt is held up by one time limit at most", first <= TIMEOUT + 1 + given.slack, True)
        differences.expect("hung: and by nothing once they are known to hang", later <= KNOWN + given.slack, True)
        differences.expect("hung: it stops", station.stop(), STOPPED)
    return f"a receipt {first:.1f} s, later {later:.2f} s"


def just_before(caller):
    """Answers with the receipt shortly before a second is over."""
    asyncio.get_running_loop().call_later(0.9, lambda: caller.answer(caller.receipt()))


def cut_off(given, folder, differences):
    """With `retry_seconds = 1`, tries begin late in a second and are answered within one: none is cut off before."""
    late = Partner("Late", just_before, tries=9, retry=1)
    desk = Office(given.program, f"{folder}-cut", late)
    with Partners(late), Running(desk, moment=None) as station:
        numbers = []
        for _ in range(EARLY):
            time.sleep((1.5 - time.time() % 1) % 1)
            numbers.append(desk.submit(late, b"late"))
            time.sleep(0.2)
        differences.expect("hung: tries that are answered in time are settled", until(desk.is_done), True)
        tries = {number: len(late.tries[number]) for number in numbers if len(late.tries[number]) != 1}
        differences.expect("hung: documents with more tries than one", tries, {})
        differences.expect("hung: it stops", station.stop(), STOPPED)
    return f"{EARLY - len(tries)} of {EARLY} tries weren't cut off within their second"


def returns(given, folder, differences):
    """A partner that was known to hang has all its links again once it answers."""
    back = Partner("Back", never, tries=9, retry=3600)
    desk, partners, count = Office(given.program, f"{folder}-back", back), Partners(back), 400
    prepare(desk, [back], count)
    with partners, Running(desk, "--timeout", "2", moment=None) as station:
        until(lambda: back.links > OF_HOST)
        time.sleep(3)
        differences.expect("hung: links to one that is known to hang", back.open <= 1, True)
        back.way = at_once
        partners.has_done(back.hang_up)
        began, cut = time.monotonic(), len(back.tries)
        is_over = lambda: station.text().count(b": settled S processed\n") >= count - cut - 1
        differences.expect("hung: once it answers, all that waited is sent", until(is_over), True)
        seconds = time.monotonic() - began
        differences.expect("hung: it stops", station.stop(), STOPPED)
    return f"{count - cut} documents of one that answers again in {seconds:.1f} s"


def hung(given, folder, differences):
    """Partners that hang, with many documents or receipts each, don't hold up others: only one link goes to each that is known to."""
    told = [documents_beside(given, folder, differences), receipts_beside(given, folder, differences), returns(given, folder, differences),
            cut_off(given, folder, differences)]
    return "; ".join(told)
