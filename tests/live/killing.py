"""Case of live.py: a station is killed under load, while it starts and while it stops."""
import collections
import os
import random
import threading
import time

from crowds import Crowd, status_of
from many import PATIENT, Waiting, recorded
from running import STOPPED, Running, left_behind
from station import Desk, post_of
import running

STORE_KILLS = 25  # kills over one store, so that its listing stays short
POSTERS = 8
LEAST = 0.2  # seconds within which a kill comes, if not later


class Killing:
    """A store, the station over it, and what was answered."""

    def __init__(self, given, folder, differences):
        self.given, self.differences, self.dice = given, differences, random.Random(given.seed)
        self.desk, self.station, self.counts, self.most = Desk(given.program, folder), None, collections.Counter(), None
        self.answered, self.asked, self.stops = {}, 0, False

    def start(self):
        began = time.monotonic()
        self.station = Running(self.desk, *PATIENT)
        self.lasts = time.monotonic() - began

    def begin_anew(self):
        """Stops the station, looks through the store, and begins another."""
        if self.station:
            self.differences.expect("kills: it stops", self.station.stop(), STOPPED)
            self.differences.expect("kills: what lies beside the store", left_behind(self.desk), [])
            self.look_through("without it")
        for name in os.listdir(self.desk.folder):
            if name.startswith(self.desk.store):
                os.remove(self.desk.path(name))
        self.answered, self.asked = {}, 0
        self.start()
        if self.most is None:  # so long that some posts are answered by then
            with Crowd(self.station.address, POSTERS, [(-number, post_of(b"first-%d" % number)) for number in range(5 * POSTERS)]) as posters:
                self.most = max(LEAST, posters.run(running.PATIENCE))

    def look_through(self, how):
        status, output, said = self.desk.run("verify", patience=running.PATIENCE)
        self.differences.expect(f"kills: verify, {how}", (status, output.endswith(b", 0 findings\n"), said), (0, True, b""))

    def posts(self):
        """Posts without end, each under the next number."""
        while True:
            self.asked += 1
            yield self.asked, post_of(b"kill-%d" % self.asked, b"content of %d" % self.asked)

    def kill_under_load(self):
        """Kills it at some moment while posters are at it; what was answered, and whether it was under load."""
        wait, self.stops = self.dice.random() * self.most, self.dice.random() < 0.1
        with Crowd(self.station.address, POSTERS, self.posts(), is_kept=True) as posters:
            killer = threading.Timer(wait, self.station.kill)
            killer.start()
            stopping = Waiting(self.desk, "stop") if self.stops else None
            posters.run(running.PATIENCE)
            killer.join()
            posters.run_on(0.2)
            under_way = len(posters.cut)
            self.answered.update(posters.replies)
            self.counts["posts answered"] += len(posters.replies)
        if stopping:
            self.differences.expect("kills: `stop` of a station that is killed ends", stopping.ended(running.PATIENCE) != "hang", True)
            self.counts["kills amid stops"] += 1
        return posters.replies, under_way

    def kill_a_start(self):
        """Kills a station at some moment of its start."""
        station = Running(self.desk, *PATIENT, waits=False)
        time.sleep(self.dice.random() * self.lasts)
        station.kill()
        self.counts["kills of starts"] += 1

    def check(self, replies, under_way):
        """What was answered is there, and of what wasn't at most what was under way; all are answered, the former as before."""
        there = set(recorded(self.desk, b"kill"))
        lost = sorted(set(self.answered) - there)
        self.differences.expect("kills: answered posts that are lost", lost, [])
        self.differences.expect("kills: answered otherwise than by 200", {status_of(reply) for reply in replies.values()} <= {200}, True)
        self.differences.expect("kills: recorded, and not answered", len(there - set(self.answered)) <= under_way, True)
        self.counts["posts recorded without an answer"] += len(there - set(self.answered))
        self.look_through("through the station")
        with Crowd(self.station.address, POSTERS, [(number, post_of(b"kill-%d" % number, b"content of %d" % number))
                                                   for number in sorted(set(replies) | there - set(self.answered))], is_kept=True) as again:
            again.run(running.PATIENCE)
            other = [number for number, reply in replies.items() if again.replies.get(number) != reply]
        self.differences.expect("kills: answered otherwise when they are posted again", other, [])
        self.answered.update(again.replies)

    def turn(self, at):
        """One kill, and the start behind it."""
        if at % STORE_KILLS == 0:
            self.begin_anew()
        replies, under_way = self.kill_under_load()
        if not self.stops:  # it may have stopped before the kill, and then nothing is left
            self.differences.expect("kills: a socket is left", os.path.exists(self.desk.path(self.desk.store + ".ctl")), True)
        if self.dice.random() < 0.2:
            self.kill_a_start()
        if self.dice.random() < 0.2:
            self.look_through("beside a socket that is left")
        self.start()
        self.check(replies, under_way)


def kills(given, folder, differences):
    """So many kills under load: what was answered is there after each, the next start takes the socket over, and `verify` finds nothing."""
    killing = Killing(given, folder, differences)
    try:
        for at in range(given.kills):
            killing.turn(at)
            if len(differences.found) > 20:
                break
        killing.begin_anew()
        differences.expect("kills: it stops", killing.station.stop(), STOPPED)
    finally:
        if killing.station:
            killing.station.kill()
    return f"{given.kills} kills: {', '.join(f'{count} {name}' for name, count in sorted(killing.counts.items()))}"
