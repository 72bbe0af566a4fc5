"""The program over a folder of its own: its commands, and `serve` with what it says. Used by sockets.py and files.py."""
import os
import subprocess
import tempfile
import threading

TOP = os.path.dirname(os.path.dirname(os.path.dirname(os.path.abspath(__file__))))
STARTER = os.path.join(TOP, "as2desk")
# the seconds that a machine under load may add to any wait
SLACK = 3
# the longest that a command may take that waits for nobody, in seconds
PATIENCE = 60

with open(os.path.join(TOP, "examples", "agreements.toml"), encoding="utf-8") as file:
    EXAMPLE = file.read()
with open(os.path.join(TOP, "examples", "plain-post.http"), "rb") as file:
    PLAIN = file.read()


def room():
    """A folder for stores: in memory where the machine has such a one, since a sync of a disk takes most of the time."""
    memory = "/dev/shm"
    return tempfile.TemporaryDirectory(prefix="hostile-", dir=memory if os.access(memory, os.W_OK) else None)


def post_of(name, content=b"abc"):
    """The plain post under another identifier and with another content."""
    head = PLAIN[:-3].replace(b"<m1@x>", b"<%s@x>" % name)
    return head.replace(b"Content-Length: 3", b"Content-Length: %d" % len(content)) + content


class Differences:
    """What differs from what is wanted, what is known to, and the counts of all."""

    def __init__(self):
        self.found, self.known, self.counts, self.lock = [], [], {}, threading.Lock()

    def count(self, what, by=1):
        with self.lock:
            self.counts[what] = self.counts.get(what, 0) + by

    def differ(self, what, text=""):
        """A difference: it is printed, and the command's status will be 1."""
        with self.lock:
            self.found.append(what)
            print(f"WRONG {what}" + (f": {text}" if text else ""), flush=True)

    def expect(self, what, found, wanted):
        if found != wanted:
            self.differ(what, f"wanted {wanted!r}, found {found!r}")
        return found == wanted

    def tell_known(self, text):
        """Today's behaviour, where another is wanted: it is printed, and is no difference."""
        with self.lock:
            if text in self.known:
                return
            self.known.append(text)
            print(f"KNOWN: {text}", flush=True)

    def end(self, order):
        """Prints the last line, with the counts in that order; the status of the command."""
        parts = [f"{self.counts.get(name, 0)} {name}" for name in order]
        print(f"{', '.join(parts)}, {len(self.known)} known, {len(self.found)} differ", flush=True)
        return 1 if self.found else 0


class Desk:
    """The program, over agreements and stores in a folder."""

    def __init__(self, program, folder, partner="127.0.0.1:1"):
        self.program, self.folder, self.store = os.path.abspath(program), folder, "station.db"
        os.makedirs(folder, exist_ok=True)
        with open(self.path("agreements.toml"), "w", encoding="utf-8") as to:
            to.write(EXAMPLE.replace("127.0.0.1:8081", partner))

    def path(self, name):
        return os.path.join(self.folder, name)

    def words(self, *command, moment=1000):
        return [self.program, "--agreements", "agreements.toml", "--store", self.store, "--moment", str(moment), *command]

    def run(self, *command, moment=1000, text=b"", patience=PATIENCE):
        """Status, standard output and standard error of a command that has to end in time."""
        ran = subprocess.run(self.words(*command, moment=moment), cwd=self.folder, input=text, capture_output=True, timeout=patience, check=False)
        return ran.returncode, ran.stdout, ran.stderr

    def serve(self, count, timeout):
        return Server(self, count, timeout)


class Server:
    """`serve` of so many connections, and all that it says."""

    def __init__(self, desk, count, timeout):
        words = desk.words("serve", "--listen", "127.0.0.1:0", "--count", str(count), "--timeout", str(timeout))
        self.process = subprocess.Popen(words, cwd=desk.folder, stdin=subprocess.DEVNULL, stdout=subprocess.PIPE, stderr=subprocess.PIPE)
        line = self.process.stderr.readline().decode()
        if not line.startswith("listening: "):
            raise RuntimeError("serve says " + line)
        host, port = line[len("listening: "):].strip().rsplit(":", 1)
        self.address, self.told, self.said = (host, int(port)), [], []
        # unread, a pipe holds 64 KiB of lines, and then the program waits
        self.readers = [threading.Thread(target=self.keep, args=kept, daemon=True)
                        for kept in ((self.process.stdout, self.told), (self.process.stderr, self.said))]
        for reader in self.readers:
            reader.start()

    @staticmethod
    def keep(pipe, lines):
        for line in pipe:
            lines.append(line.decode("latin-1").rstrip("\n"))
        pipe.close()

    def is_running(self):
        return self.process.poll() is None

    def peak(self):
        """The most memory that it had, in KiB; 0 where it has ended."""
        try:
            with open(f"/proc/{self.process.pid}/status", encoding="ascii") as status:
                return next((int(line.split()[1]) for line in status if line.startswith("VmHWM:")), 0)
        except OSError:
            return 0

    def finish(self, patience=PATIENCE):
        """Waits for its end: the status (or `hang`), how its connections ended, and its lines of replies."""
        try:
            status = self.process.wait(patience)
        except subprocess.TimeoutExpired:
            self.process.kill()
            self.process.wait()
            status = "hang"
        for reader in self.readers:
            reader.join()
        ends = [line[len("connection: "):] for line in self.told if line.startswith("connection: ")]
        return status, ends, [line for line in self.said if line.startswith("reply: ")]

    def stop(self):
        if self.is_running():
            self.process.kill()
        return self.finish()
