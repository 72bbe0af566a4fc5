"""A station under load while its syncs fail: what it is asked, and what it owes from which place of the trace on. Used by power.py."""
import collections
import concurrent.futures
import os
import struct
import subprocess
import threading
import time

from many import half_closed
from partners import DOCUMENT, Partner, Partners, at_once
from running import Running, until
from sending import Office, asks_at
from station import post_of
from traces import Record

AFTER = 6  # turns after the last failed sync
MOST = 400  # turns at most
PATIENCE = 20  # seconds within which every request is answered in the end
PAUSE = 0.02  # seconds between two attempts
STOP = 40  # turns between two stops
BIG = 60_000  # bytes of some documents: the log gets full during the load
SERVED = 100_000  # connections of `serve`

# What the station owes from a place of the trace (`mark`) on. The kinds are `post`, an identifier with its content; `submit`, a number with its
# content; `tried`, a number with the tries that were begun; and `settled`, a number with its state.
Owed = collections.namedtuple("Owed", "mark kind key value")


class Watched(Office):
    """A desk whose program runs with the shim."""

    def __init__(self, program, folder, shim, *partners):
        super().__init__(program, folder, *partners)
        self.shim, self.trace, self.count, self.own = shim, folder + ".trace", folder + ".count", self.program
        with open(self.count, "wb") as file:
            file.write(bytes(8))

    def fails(self, syncs, how):
        """Makes these syncs fail in that way. A script starts the program with the shim."""
        names = {"LD_PRELOAD": self.shim, "POWER_STORE": os.path.join(os.path.realpath(self.folder), self.store), "POWER_TRACE": self.trace,
                 "POWER_COUNT": self.count, "POWER_FAILS": ",".join(map(str, syncs)), "POWER_HOW": how}
        self.program = self.folder + ".sh"
        with open(self.program, "w", encoding="ascii") as script:
            script.write("#!/bin/sh\nexport " + " ".join(f"{name}='{value}'" for name, value in names.items()) + f"\nexec '{self.own}' \"$@\"\n")
        os.chmod(self.program, 0o755)

    def mark(self):
        """The length of the trace."""
        return os.stat(self.trace).st_size if os.path.exists(self.trace) else 0

    def syncs(self):
        """The number of syncs so far."""
        with open(self.count, "rb") as file:
            return struct.unpack("<q", file.read(8))[0]


class Load:
    """Requests to a station, most of them one after the other, until some turns after its last failed sync; and what it owes."""

    def __init__(self, program, folder, shim, syncs, how):
        self.partner = Partner("Buyer", self.answer, tries=50, retry=1)
        self.desk, self.last, self.owed, self.seen = Watched(program, folder, shim, self.partner), max(syncs), [], collections.Counter()
        self.desk.fails(syncs, how)
        self.is_over, self.stops = False, syncs[0] % 2 == 0  # every other load stops the station now and then

    def answer(self, caller):
        """How the partner answers: with the receipt, at once. The try that it sees must be on record."""
        found = DOCUMENT.search(caller.tried.head)
        if found and not self.is_over:
            number = int(found.group(1))
            self.seen[number] += 1
            self.owe("tried", number, self.seen[number])
        if found:
            at_once(caller)
        else:
            caller.answer(b"HTTP/1.1 200 OK\r\nContent-Length: 0\r\n\r\n")

    def owe(self, kind, key, value):
        self.owed.append(Owed(self.desk.mark(), kind, key, value))

    def until_done(self, what, work):
        """Repeats a request until it returns something else than None. Returns that."""
        end = time.monotonic() + PATIENCE
        while time.monotonic() < end:
            found = work()
            if found is not None:
                return found
            time.sleep(PAUSE)
        raise TimeoutError(f"{what} isn't answered in {PATIENCE} s")

    def request(self, turn, part=0):
        """The identifier, the content and the text of a post. It asks for a receipt in the answer, for none, or for one that is sent later."""
        name, kind = b"power-%d-%d" % (turn, part), turn % 4
        content = b"content of %d and %d, " % (turn, part) * (BIG // 20 if turn % 5 == 2 else 3)
        text = post_of(name, content)
        if kind == 1:
            text = b"\r\n".join(line for line in text.split(b"\r\n") if not line.startswith(b"Disposition"))
        elif kind == 2:
            text, content = asks_at(name, self.partner.port).replace(b"AS2-From: Prompt", b"AS2-From: Buyer"), b"abc"
        return f"<{name.decode()}@x>", content, text

    def post(self, turn, part=0):
        """Posts a document until it is answered with 200 or 202."""
        identifier, content, text = self.request(turn, part)
        self.until_done(identifier, lambda: self.posted(text))
        self.owe("post", identifier, content)

    def submit(self, turn):
        """Submits a document until it has a number."""
        content = b"order of turn %d, " % turn * 40
        self.owe("submit", self.until_done(f"submit {turn}", lambda: self.submitted(content)), content)

    def turn(self, at):
        """Makes the next request."""
        if at % 5 == 3:
            self.submit(at)
        else:
            self.post(at)

    def run(self):
        """Runs the load. Returns the record, and what is owed."""
        with Partners(self.partner):
            try:
                at, left = 0, AFTER
                while left and at < MOST:
                    self.turn(at)
                    at, left = at + 1, left - (self.desk.syncs() >= self.last)
                self.end()
            finally:
                self.is_over = True
                self.leave()
        record = Record(self.desk.trace)
        return record, [one._replace(mark=record.answered(one.mark)) for one in self.owed]

    def end(self):
        """Called before the power is lost."""

    def leave(self):
        """Ends the processes."""


class Commands(Load):
    """`post` and `submit`, one process for each request."""

    def posted(self, text):
        _, output, _ = self.desk.run("post", text=text)
        return True if output.startswith((b"HTTP/1.1 200", b"HTTP/1.1 202")) else None

    def submitted(self, content):
        with open(self.desk.path("order"), "wb") as file:
            file.write(content)
        _, output, _ = self.desk.run("submit", "--from", "Supplier", "--to", "Buyer", "order")
        return int(output) if output.strip() else None


class Sends(Commands):
    """`submit` and `send`, and sometimes `post`."""

    def turn(self, at):
        if at % 3 == 2:
            self.post(at)
        self.submit(at)
        _, output, _ = self.desk.run("send")
        for line in output.decode().splitlines():
            if line.startswith("document ") and line.endswith(": settled S processed"):
                self.owe("settled", int(line.split()[1].rstrip(":")), "S")


class Runs(Load):
    """`run`, started again whenever it has ended."""

    station = None

    def __init__(self, *given):
        super().__init__(*given)
        self.lock = threading.Lock()

    def there(self):
        """The station, once it listens; None if it ended at once because its store couldn't be opened."""
        with self.lock:
            if self.station is None or not self.station.is_running():
                try:
                    self.station = Running(self.desk, "--timeout", "60", "--idle", "60", moment=None)
                except RuntimeError:
                    self.station = None
            return self.station

    def posted(self, text):
        station = self.there()
        try:
            statuses = half_closed(station, text)[0] if station else []
        except OSError:
            return None
        return True if statuses in ([200], [202]) else None

    def asked(self, *command, content=b""):
        """What the station prints for a command; None if it refuses."""
        try:
            status, output = self.desk.ask(*command, content=content) if self.there() else (1, b"")
        except OSError:
            return None
        return None if status else output

    def submitted(self, content):
        output = self.asked("submit", "--from", "Supplier", "--to", "Buyer", "order", content=content)
        return None if output is None else int(output)

    def stop(self):
        """Stops the station if it runs. It is started again for the next request."""
        self.asked("stop")
        if self.station:
            self.station.process.wait(PATIENCE)

    def turn(self, at):
        if self.stops and at % STOP == STOP - 1:
            self.stop()
        if at % 6 != 5:
            return super().turn(at)
        with concurrent.futures.ThreadPoolExecutor(3) as posters:
            return list(posters.map(self.post, [at] * 3, range(3)))

    def is_settled(self):
        """Whether all documents are settled. From then on the station owes that."""
        output = self.asked("list", "out")
        lines = [line.split() for line in output.decode().splitlines()] if output else []
        settled = [int(words[0]) for words in lines if words[1] == "S"]
        if len(settled) == len(lines):
            for number in settled:
                self.owe("settled", number, "S")
        return output is not None and len(settled) == len(lines)

    def end(self):
        until(self.is_settled, 3)

    def leave(self):
        if self.station:
            self.station.kill()


class Serves(Load):
    """`serve`, started again whenever it has ended."""

    process = address = None

    def there(self):
        """The address; None if it ended at once because its store couldn't be opened."""
        if self.process is None or self.process.poll() is not None:
            self.leave()
            words = self.desk.words("serve", "--listen", "127.0.0.1:0", "--count", str(SERVED))
            with open(self.desk.path("said.txt"), "wb") as said:
                self.process = subprocess.Popen(words, cwd=self.desk.folder, stdin=subprocess.DEVNULL, stdout=subprocess.DEVNULL, stderr=said)
            until(lambda: self.said() or self.process.poll() is not None, PATIENCE)
            self.address = self.said()
        return self.address

    def said(self):
        """The address in its first line; None if there is no such line yet."""
        with open(self.desk.path("said.txt"), "rb") as said:
            line = said.readline().decode()
        if not line.startswith("listening: ") or not line.endswith("\n"):
            return None
        host, port = line[len("listening: "):].strip().rsplit(":", 1)
        return host, int(port)

    def posted(self, text):
        where = collections.namedtuple("Where", "address")(self.there())
        try:
            statuses = half_closed(where, text)[0] if where.address else []
        except OSError:
            return None
        return True if statuses in ([200], [202]) else None

    def turn(self, at):
        self.post(at)

    def leave(self):
        if self.process and self.process.poll() is None:
            self.process.kill()
        if self.process:
            self.process.wait()
