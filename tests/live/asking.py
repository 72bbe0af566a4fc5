"""Case of live.py: each command with a station and without one, over two copies of one store: the same output, errors, status and files."""
import contextlib
import os
import shlex
import shutil
import sqlite3
import subprocess

from running import STOPPED, Running, left_behind
from station import Desk, post_of
import running

GREATEST = MIB = 1_048_576
FILES = {"order": b"abc", "other": b"another order\r\n", "empty": b"", "greatest": b"g" * GREATEST, "too-large": b"t" * (GREATEST + 1),
         "half": b"h" * 600_000, "not.toml": b"domain = \n", "great.toml": b"#" * 2_100_000}
SUBMIT = "submit --from Supplier --to Buyer"
LATER = b"Receipt-Delivery-Option: http://127.0.0.1:1/x\r\nContent-Length"
RECEIPT = (b"--b\r\nContent-Type: text/plain\r\n\r\nreceived\r\n--b\r\nContent-Type: message/disposition-notification\r\n\r\n"
           b"Original-Message-ID: <out-%d@station.example>\r\nDisposition: automatic-action/MDN-sent-automatically; processed\r\n"
           b"Received-content-MIC: qZk+NkcGgWq6PiVxeFDCbJzQ2J0=, sha1\r\n\r\n--b--\r\n")
RECEIPT_HEAD = (b"POST /as2 HTTP/1.1\r\nHost: x\r\nAS2-Version: 1.0\r\nAS2-From: Buyer\r\nAS2-To: Supplier\r\nMessage-ID: <r%d@x>\r\n"
                b'Content-Type: multipart/report; report-type=disposition-notification; boundary="b"\r\nContent-Length: %d\r\n\r\n')
SIGNED = b"Content-Type: multipart/signed; boundary=b"

def commands_in(text):
    """The commands of a text, each the words of a shell, with a bar behind it."""
    return [tuple(shlex.split(part)) for part in text.replace("\n", " ").replace("SUBMIT", SUBMIT).split("|")]


# commands whose words ask for nothing that can be done, or for help alone
FAULTY = commands_in(r"""
    | nonsense | --help | --version | help list | submit | submit --from Supplier | submit --from Supplier order | SUBMIT | SUBMIT order other
    | SUBMIT --what order | submit --from '' --to Buyer order | submit --from '"Supplier' --to Buyer order | list | list sideways | list in out | list --help
    | list out --state X | list out --format xml | show | show x | show 0 | show -1 | show 1000000000000 | show 1 2 | show 1 --format x | outstanding 1
    | outstanding --format | fetch | fetch x | fetch 1 2 | tick 1 | tick --x | verify 1 | verify --format xml | evidence | evidence x | evidence 1 --out
    | evidence 1 2 | resend | resend x | resend 1 2 | stop now | stop --help | run | run --listen | run --help | check | check 1""")
READING = commands_in("""
    list in | list out | list in --format json | list out --format json | list in --state E | list out --state P | list out --state R | list out --state S
    | list out --state W | list out --state E | list out --state E --format json | outstanding | outstanding --format json | show 1 | show 2 | show 3 | show 4
    | show 5 | show 6 | show 7 | show 8 | show 1 --format json | show 3 --format json | show 999 | show 999 --format json | fetch 1 | fetch 2 | fetch 3
    | fetch 4 | fetch 5 | fetch 999 | verify | verify --format json""")
CHANGING = commands_in(r"""
    SUBMIT order | SUBMIT empty | SUBMIT greatest | SUBMIT too-large | SUBMIT missing | SUBMIT . | SUBMIT folder/missing | SUBMIT locked | SUBMIT pipe
    | submit --from Nobody --to Buyer order | submit --from Supplier --to Nobody order | submit --from Nobody --to Nobody missing
    | submit --from Nobody --to Buyer too-large | submit --from Supplier --to '"A \"B\" \\ C"' other | submit --from Supplier --to Depot agreements.toml
    | resend 1 | resend 1 | resend 2 | resend 3 | resend 6 | resend 999 | tick | tick""")
EVIDENCE = commands_in("""
    evidence 1 --out proofs | evidence 3 --out proofs | evidence 3 --out proofs | evidence 999 --out proofs | evidence 2 --out missing
    | evidence 2 --out order | evidence 2 | evidence --received 1 --out proofs | evidence --received 3 --out proofs
    | evidence --received 999 --out proofs | evidence --received 2""")
# options that stand before the command
BEFORE = commands_in("""
    --moment x list in | --moment 5000000 outstanding | --moment 253402300800 tick | --store-limit x list in | --store-limit 0 list in
    | --store-limit 1 SUBMIT order | --store-limit 1 SUBMIT half | --store-limit 1048576 SUBMIT half | --first 0 list in | --first 77 SUBMIT order""")
# commands whose streams can't be written, are shut or are one; paths that are spelled otherwise; from elsewhere; `$other` has no agreements and no store
LINES = r"""
$desk evidence 5 --out proofs > /dev/full
$desk evidence 5 --out proofs >&-
$desk tick >&-
$desk resend 999 2>&-
$desk resend 5 > /dev/full
$desk list in --state E 2>&1
$desk list out 2>&1
$desk evidence 3 --out proofs 2>&1
$desk evidence 999 --out missing 2>&1
$desk show 999 2>&1
$desk --store-limit 1 submit --from Supplier --to Buyer half 2>&1
$desk submit --from Supplier --to Buyer too-large 2>&1
$desk submit --from Supplier --to Buyer agreements.toml
$desk submit --from Supplier --to Buyer /dev/null
$desk submit --from Supplier --to Buyer /dev/stdin < order
$desk submit --from Supplier --to Buyer "$(printf 'a\377b')"
umask 077; $desk evidence --received 5 --out proofs
$other --agreements ./agreements.toml --store ./station.db list in
$other --agreements agreements.toml --store link.db list in
$other --agreements agreements.toml --store "$PWD/station.db" list out
cp agreements.toml same.toml && $other --agreements same.toml --store station.db list out
cd proofs && $other --agreements ../agreements.toml --store ../station.db submit --from Supplier --to Buyer ../order
cd proofs && $other --agreements ../agreements.toml --store ../station.db evidence 2
$other --agreements missing.toml --store station.db list in
$other --agreements proofs --store station.db list in
$other --agreements great.toml --store station.db list in
$other --agreements agreements.toml list in
$other --store station.db list in
$other --agreements agreements.toml --store :memory: list in
$other --agreements agreements.toml --store :memory: stop
$other --agreements agreements.toml --store folder/none.db list in
""".split("\n")[1:-1]
STREAMS = ["> /dev/full", ">&-", "2>&-", "2> /dev/full", "<&-"]
STREAMED = ["list in", "list out --state E", "show 1", "fetch 2", "outstanding", "verify", "submit --from Supplier --to Buyer order"]


def receipt(number):
    body = RECEIPT % number
    return RECEIPT_HEAD % (number, len(body)) + body


def template(program, folder):
    """A store whose entries stand in many ways."""
    desk = Desk(program, folder)
    posts = [post_of(b"one"), post_of(b"two", b"x" * 100_000), post_of(b"signed").replace(b"Content-Type: application/edi-x12", SIGNED),
             post_of(b"later").replace(b"AS2-From: Buyer", b"AS2-From: Depot").replace(b"Content-Length", LATER),
             post_of(b"none").replace(b"Disposition-Notification-To: a@x\r\n", b"")]
    given = [("post", b"".join(posts), 1000)]
    for name, content in FILES.items():
        with open(desk.path(name), "wb") as to:
            to.write(content)
    given += [(f"submit --from Supplier --to {partner} order", b"", 1000) for partner in ("Buyer", "Buyer", "Buyer", "Depot", "Buyer", "Buyer")]
    given += [("send", b"", 1000), ("post", receipt(3), 1010), ("send", b"", 1040), (f"{SUBMIT} order", b"", 1100), (f"{SUBMIT} other", b"", 1100)]
    for words, text, moment in given:
        status, _, said = desk.run(*words.split(), moment=moment, text=text, patience=running.PATIENCE)
        if status:
            raise RuntimeError(f"{words}: status {status}, {said.decode()}")
    return desk


def copied(program, folder, made):
    """A desk with the same files."""
    shutil.copytree(made.folder, folder)
    desk = Desk(program, folder)
    os.mkdir(desk.path("proofs"))
    os.mkfifo(desk.path("pipe"))
    with open(desk.path("locked"), "wb"):
        os.chmod(desk.path("locked"), 0)
    os.symlink(desk.store, desk.path("link.db"))
    return desk


def files_of(desk):
    """The files of a desk that commands make or read: their bytes and their modes."""
    found = {}
    for top, _, names in os.walk(desk.folder):
        for name in names:
            path = os.path.join(top, name)
            if os.path.isfile(path) and not name.startswith(desk.store) and name not in ("said.txt", "told.txt", "link.db"):
                with open(path, "rb") as file:
                    found[os.path.relpath(path, desk.folder)] = file.read(), os.stat(path).st_mode
    return found


def dump(desk):
    """All that the tables have."""
    with contextlib.closing(sqlite3.connect(desk.path(desk.store))) as store:
        store.text_factory = bytes
        names = [name for name, in store.execute("SELECT name FROM sqlite_master WHERE type = 'table' ORDER BY name")]
        return {name: sorted(store.execute(f"SELECT * FROM \"{name.decode()}\""), key=repr) for name in names}


class Pair:
    """A desk with a station, and one without."""

    def __init__(self, live, direct, differences):
        self.live, self.direct, self.differences, self.tried = live, direct, differences, 0

    def same(self, what, found, wanted):
        self.tried += 1
        if found != wanted:
            show = lambda told: tuple(part[:600] if isinstance(part, bytes) else part for part in told) if isinstance(told, tuple) else told
            self.differences.differ(f"commands: {what}", f"without a station {show(wanted)!r}, with one {show(found)!r}")

    def command(self, *words, moment=1200):
        """A command, and the files that it made."""
        told = [desk.run(*words, moment=moment, patience=running.PATIENCE) for desk in (self.live, self.direct)]
        self.same(" ".join(words), *told)

    def line(self, text):
        """A line of the shell in which `$desk` begins a command, and `$other` one that lacks the agreements and the store."""
        told = []
        for desk in (self.live, self.direct):
            begin = f"other='{desk.program} --moment 1200'\ndesk=\"$other --agreements agreements.toml --store {desk.store}\"\n"
            ran = subprocess.run(["sh", "-c", begin + text], cwd=desk.folder, stdin=subprocess.DEVNULL, capture_output=True, timeout=running.PATIENCE,
                                 check=False)
            told.append((ran.returncode, ran.stdout, ran.stderr))
        self.same(text, *told)

    def files(self, what):
        self.same(f"files made by {what}", *(files_of(desk) for desk in (self.live, self.direct)))


def ask_all(pair):
    """All commands, with a station and without one."""
    for words in [*READING, *FAULTY, *CHANGING, *READING, *BEFORE]:
        pair.command(*words)
    for words in EVIDENCE:
        pair.command(*words)
        pair.files(" ".join(words))
    for moment in (1200, 1500, 99_999_999):
        for words in (("tick",), ("outstanding",), ("list", "out"), ("resend", "4"), ("show", "4")):
            pair.command(*words, moment=moment)
    for line in [*(f"$desk {command} {streams}" for command in STREAMED for streams in STREAMS), *LINES]:
        pair.line(line)
        pair.files(line)
    for words in READING:
        pair.command(*words)


def limited(given, folder, made, differences):
    """A document for which `--store-limit` leaves room beside the store's file and not beside its log too, which a station that runs has. Over
    the same files a command says the same without a station. Once the station has stopped, no log is left, and there is room."""
    live, direct = (copied(given.program, f"{folder}/{name}", made) for name in ("live-limit", "direct-limit"))
    pair = Pair(live, direct, differences)
    limit = (os.path.getsize(made.path(made.store)) + 700_000) // MIB + 1
    last = f"--store-limit {limit} SUBMIT half"
    with Running(live) as station:
        for words in commands_in("SUBMIT order | SUBMIT other"):
            pair.command(*words)
        for end in ("", "-wal"):
            shutil.copy(live.path(live.store + end), direct.path(direct.store + end))
        differences.expect("commands: files near the limit", os.path.getsize(live.path(live.store + "-wal")) > 0, True)
        for words in commands_in(last):
            pair.command(*words)
        differences.expect("commands: it stops behind a limit", station.stop(), STOPPED)
    for words in commands_in(last):
        pair.command(*words)
    pair.same("the tables at the limit", dump(live), dump(direct))
    return pair.tried


def commands(given, folder, differences):
    """Each command with a station and without one, over copies of one store."""
    made = template(given.program, f"{folder}/made")
    direct, live = (copied(given.program, f"{folder}/{name}", made) for name in ("direct", "live"))
    pair = Pair(live, direct, differences)
    with Running(live) as station:
        ask_all(pair)
        differences.expect("commands: odd lines", station.odd_lines(), [])
        forwarded = sum(b" command " in line for line in station.lines())
        differences.expect("commands: it stops", station.stop(), STOPPED)
    differences.expect("commands: what lies beside the store", left_behind(live), [])
    pair.same("the tables at the end", dump(live), dump(direct))
    pair.tried += limited(given, folder, made, differences)
    return f"{pair.tried} commands and files compared, of which {forwarded} commands went through the station"
