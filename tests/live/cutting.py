"""Case of live.py: a station is killed while it sends; what was under way is tried again, and all is settled in the end."""
import collections
import itertools
import os
import random
import re
import threading
import time

from many import PATIENT, half_closed
from partners import Partner, Partners, at_once, bare, posted_report, soon
from running import STOPPED, Running, left_behind, until
from sending import Office, asks_at, few
import running

STORE_KILLS = 25  # kills over one store
LEAST = 0.2  # seconds within which a kill comes, if not later
WARM = 60  # documents by which it is measured how long it takes to send some
IN = re.compile(rb"^ *\d+ (\S) (\S) .*<([^>]*)>$", re.M)


def until_cut(work, differences):
    """Does the work over and over, until the station is gone."""
    for number in itertools.count():
        try:
            work(number)
        except OSError:
            return
        except Exception as fault:  # told, since nobody waits for what a thread raises
            differences.differ("sending-kills: a command or a post under load", repr(fault))
            return


class Cutting:
    """A store, the station over it, its partners, what was handed in and answered, and what the partners saw."""

    def __init__(self, given, folder, differences):
        self.given, self.differences, self.dice = given, differences, random.Random(given.seed)
        self.counts, self.folder, self.stores, self.most, self.station = collections.Counter(), folder, 0, LEAST, None

    def begin(self):
        """A new store, and partners who have seen nothing."""
        agreed = {"tries": 99, "retry": 1}
        self.prompt, self.soon = Partner("Prompt", at_once, **agreed), Partner("Soon", soon, **agreed)
        self.later, self.receipts = Partner("Later", bare, receipt="async", **agreed), Partner("Receipts", bare)
        self.desk = Office(self.given.program, f"{self.folder}-{self.stores}", self.prompt, self.soon, self.later)
        self.handed, self.answered, self.posted, self.kills = {}, set(), set(), 0
        self.stores += 1
        return Partners(self.prompt, self.soon, self.later, self.receipts)

    def start(self):
        """Begins a station, once the partners have seen the end of the links of the one before."""
        partners = self.prompt, self.soon, self.later, self.receipts
        self.differences.expect("sending-kills: links end with a station", until(lambda: not any(partner.open for partner in partners)), True)
        self.station = Running(self.desk, *PATIENT, moment=None)

    def hand_in(self, number):
        """Hands a document in to each in turn."""
        partner = (self.prompt, self.soon, self.later)[number % 3]
        content = b"%d of kill %d, " % (number, self.kills) * 100
        self.handed[self.desk.submit(partner, content)] = partner.name, content

    def post(self, number):
        """Posts a document, the receipt for which is to come to an address."""
        name = b"cut-%d-%d" % (self.kills, number)
        if half_closed(self.station, asks_at(name, self.receipts.port))[0] == [202]:
            self.answered.add(name.decode() + "@x")

    def post_receipts(self, _):
        """Posts the receipts for the documents that came to Later, each until it is answered by 200."""
        for number in sorted(set(self.later.tries) - self.posted):
            text = posted_report("Later", number, self.later.tries[number][0].content)
            statuses, _ = half_closed(self.station, text)
            if statuses:
                self.differences.expect("sending-kills: a receipt is answered by", statuses, [200])
                self.posted.add(number)
        time.sleep(0.02)
        if not self.station.is_running():
            raise OSError

    def turn(self):
        """A station under load that is killed at some moment."""
        self.start()
        workers = [threading.Thread(target=until_cut, args=(work, self.differences), daemon=True) for work in (self.hand_in, self.post, self.post_receipts)]
        for worker in workers:
            worker.start()
        time.sleep(self.dice.random() * self.most)
        self.counts["links open at a kill"] += sum(partner.open for partner in (self.prompt, self.soon, self.later, self.receipts))
        self.station.kill()
        self.kills += 1
        for worker in workers:
            worker.join()
        if self.dice.random() < 0.2:
            self.kill_a_start()

    def kill_a_start(self):
        """Kills a station at some moment of its start."""
        station = Running(self.desk, *PATIENT, moment=None, waits=False)
        time.sleep(self.dice.random() * LEAST)
        station.kill()
        self.counts["kills of starts"] += 1

    def measure(self):
        """How long some documents take to be sent; a kill comes within that time."""
        self.start()
        began = time.monotonic()
        for number in range(WARM):
            self.hand_in(number)
        until(lambda: len(self.prompt.tries) + len(self.soon.tries) >= WARM * 2 // 3)
        self.most = max(LEAST, time.monotonic() - began)
        self.station.kill()

    def settle(self):
        """A station that isn't killed: all is settled by it."""
        self.start()
        worker = threading.Thread(target=until_cut, args=(self.post_receipts, self.differences), daemon=True)
        worker.start()
        is_settled = lambda: self.desk.is_done() and not self.desk.outstanding()["receipts awaited"]
        self.differences.expect("sending-kills: all is sent, and no receipt awaited", until(is_settled, 3 * running.PATIENCE), True)
        self.differences.expect("sending-kills: it stops", self.station.stop(), STOPPED)
        worker.join()
        self.differences.expect("sending-kills: what lies beside the store", left_behind(self.desk), [])
        status, output, said = self.desk.run("verify")
        self.differences.expect("sending-kills: verify", (status, output.endswith(b", 0 findings\n"), said), (0, True, b""))
        self.check_documents(self.desk.stand())
        self.check_receipts()

    def check_documents(self, stand):
        """Each is settled; its partner saw no try that wasn't recorded before, none more than is agreed, and the same bytes each time."""
        partners = {partner.name: partner for partner in (self.prompt, self.soon, self.later)}
        lost = {number: name for number, (name, _) in self.handed.items() if stand.get(number, "")[4:] != (name,)}
        unsettled, uncounted, other = {}, {}, {}
        for number, (state, tries, kept, detail, name) in stand.items():
            seen = partners[name].tries.get(number, [])
            if (state, kept, detail) != ("S", "R", "processed"):
                unsettled[number] = state, detail, name
            if not 1 <= len(seen) <= tries <= 99:
                uncounted[number] = len(seen), tries, name
            content = self.handed.get(number, (name, seen[0].content if seen else b""))[1]
            if any(tried.content != content or tried.head != seen[0].head for tried in seen):
                other[number] = name
            self.counts["tries beyond the first"] += len(seen) - 1
        for what, found in (("lost", lost), ("not settled", unsettled), ("with tries that aren't counted", uncounted), ("with other bytes", other)):
            self.differences.expect(f"sending-kills: documents {what} ({len(found)})", few(found), {})
        self.differences.expect("sending-kills: documents that nobody was told of", len(stand) - len(self.handed) <= self.kills + 1, True)
        self.counts["documents"] += len(stand)

    def check_receipts(self):
        """Each post that was answered is there, and its receipt was delivered, as often as is agreed at most."""
        there = {name.decode(): (state + stage).decode() for state, stage, name in IN.findall(self.desk.run("list", "in")[1])}
        wrong = {name: there.get(name) for name in self.answered if there.get(name) != "SS"}
        self.differences.expect(f"sending-kills: answered posts whose receipt isn't delivered ({len(wrong)})", few(wrong), {})
        wrong = {name: len(self.receipts.tries.get(name, [])) for name in there if not 1 <= len(self.receipts.tries.get(name, [])) <= 99}
        self.differences.expect(f"sending-kills: posts with so many receipts ({len(wrong)})", few(wrong), {})
        self.counts["posts"] += len(there)


def sending_kills(given, folder, differences):
    """So many kills while a station is handed documents, is posted to, and sends: no document that it took is lost, none is tried more often
    than is agreed or without a record of it, and all is settled once it isn't killed any more."""
    cutting = Cutting(given, folder, differences)
    try:
        for first in range(0, given.kills, STORE_KILLS):
            with cutting.begin():
                if first == 0:
                    cutting.measure()
                for _ in range(first, min(given.kills, first + STORE_KILLS)):
                    cutting.turn()
                cutting.settle()
            if len(differences.found) > 20:
                break
    finally:
        if cutting.station:
            cutting.station.kill()
    return f"{given.kills} kills: {', '.join(f'{count} {name}' for name, count in sorted(cutting.counts.items()))}"
