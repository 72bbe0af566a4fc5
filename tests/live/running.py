"""A station that runs: `as2desk run` over the store of a desk, what it says, what it takes of the machine, and how it ends. Used by the
cases of live.py."""
import os
import re
import signal
import subprocess
import time

PATIENCE = 60  # the longest that is waited for anything, in seconds; live.py sets another where one is given
HERTZ = os.sysconf("SC_CLK_TCK")
STAMPED = re.compile(rb"\d{4}-\d\d-\d\dT\d\d:\d\d:\d\dZ [ -~]{1,512}")


class Running:
    """A station over the store of that desk, at that moment; without one by the clock."""

    def __init__(self, desk, *words, moment=1000, waits=True):
        self.desk, self.said = desk, desk.path("said.txt")
        line = desk.words("run", "--listen", "127.0.0.1:0", *words, moment=moment)
        if moment is None and "--moment" in line:
            at = line.index("--moment")
            del line[at:at + 2]
        with open(self.said, "wb") as said, open(desk.path("told.txt"), "wb") as told:
            self.process = subprocess.Popen(line, cwd=desk.folder, stdin=subprocess.DEVNULL, stdout=told, stderr=said)
        self.pid, self.address = self.process.pid, None
        if waits:
            try:
                self.address = self.listening()
            except BaseException:
                self.kill()
                raise

    def listening(self):
        """The address that it says it listens on."""
        end = time.monotonic() + PATIENCE
        while time.monotonic() < end:
            ended = self.process.poll() is not None
            found = re.search(rb"^listening: (\S+):(\d+)\n", self.text(), re.M)
            if found:
                return found.group(1).decode(), int(found.group(2))
            if ended:
                raise RuntimeError(f"run ended with status {self.process.returncode}: {self.text().decode()}")
            time.sleep(0.005)
        raise RuntimeError("run doesn't say where it listens")

    def text(self):
        """All that it said on standard error."""
        with open(self.said, "rb") as said:
            return said.read()

    def lines(self):
        """The lines behind the first, which says where it listens."""
        return self.text().split(b"\n")[1:-1]

    def odd_lines(self):
        """Those that don't begin with a moment, have a byte that doesn't print, or have no end."""
        return [line for line in self.lines() if not STAMPED.fullmatch(line)]

    def is_running(self):
        return self.process.poll() is None

    def descriptors(self):
        return len(os.listdir(f"/proc/{self.pid}/fd"))

    def has_descriptors(self, most):
        """Waits until it has no more descriptors than that; whether it came to that."""
        return until(lambda: self.descriptors() <= most)

    def seconds(self):
        """The seconds of a processor that it has used."""
        with open(f"/proc/{self.pid}/stat", encoding="ascii") as stat:
            fields = stat.read().rsplit(")", 1)[1].split()
        return (int(fields[11]) + int(fields[12])) / HERTZ

    def used_in(self, wait):
        """The seconds of a processor that it uses in so many seconds."""
        before = self.seconds()
        time.sleep(wait)
        return self.seconds() - before

    def kib(self, field="VmRSS"):
        """The memory that it has, in KiB."""
        with open(f"/proc/{self.pid}/status", encoding="ascii") as status:
            return next(int(line.split()[1]) for line in status if line.startswith(field + ":"))

    def kill(self):
        """Kills it, as a crash does."""
        if self.is_running():
            self.process.send_signal(signal.SIGKILL)
        return self.process.wait()

    def stop(self):
        """Stops it: what the command came to, and the station's status; `hang` where it doesn't end."""
        ran = self.desk.run("stop", patience=PATIENCE)
        try:
            return ran, self.process.wait(PATIENCE)
        except subprocess.TimeoutExpired:
            self.kill()
            return ran, "hang"

    def __enter__(self):
        return self

    def __exit__(self, *_):
        self.kill()


STOPPED = ((0, b"", b""), 0)


def until(is_so, wait=None):
    """Waits until it is so, or for so many seconds; whether it is."""
    end = time.monotonic() + (PATIENCE if wait is None else wait)
    while not is_so():
        if time.monotonic() > end:
            return False
        time.sleep(0.02)
    return True


def left_behind(desk):
    """What lies beside the store, and hasn't to once it is closed: a log, a socket, a draft."""
    return sorted(name for name in os.listdir(desk.folder) if name.startswith(desk.store + "-") or name.startswith(desk.store + "."))
