"""Kills examples/take-out.sh, hand-in.sh and send-orders.sh at each of their steps, has each step fail, runs them again, and looks that each
document came out, and in, once.

A step is a call of mv, rm, mkdir, sync or the program. A script of that name, earlier on the path, counts the calls. At the call whose
turn it is it kills the whole round before or after the call (`before`, `after`), or the round's script alone (`alone`: the call outlives it). Or
the call fails: nothing is done (`fails`), or it is done and the answer is lost (`lost`). What came out is taken away after each run.

Beside the rounds of hand-in.sh somebody submits documents by hand: none, of other bytes, or of the bytes of one of the files. In the end
each file has to lie in `sent` under the number of a document of its bytes, no two under one, and no other document may be there.
`at the step` has the document submitted by hand amid the round. `again` kills the run that goes on after a stop.

Then: what was found of 0.17.1 (a full store, a document by hand, the next round), a disk that is full at each size (where one may be
mounted), what a round costs, and stores that are put back. Prints a line for each; the status is 1 if anything is wrong.
tests/folders.sh runs it. `folders.py [PROGRAM [EXAMPLES]]`: EXAMPLES is a folder with the three scripts, examples/ without.
"""
import itertools
import json
import os
import pathlib
import re
import shutil
import signal
import subprocess
import sys
import tempfile
import time

TOP = pathlib.Path(__file__).resolve().parent.parent
PROGRAM = os.path.abspath(sys.argv[1]) if len(sys.argv) > 1 else str(TOP / "as2desk")
EXAMPLES = pathlib.Path(sys.argv[2] if len(sys.argv) > 2 else TOP / "examples").resolve()
# The round is a session of its own, so its script leads its group.
STEP = """#!/bin/sh
read -r calls < calls
calls=$((calls + 1))
echo "$calls" > calls
echo %s "$*" >> words
read -r _ _ _ _ group _ < /proc/$$/stat
[ "$calls" = "$AT" ] || exec %s "$@"
case $HOW in
    before) kill -9 "-$group" ;;
    after) %s "$@"; kill -9 "-$group" ;;
    alone) kill -9 "$group"; exec %s "$@" ;;
    fails) exit 3 ;;
    lost) %s "$@" > lost 2>&1; exit 3 ;;
    amid) eval "$BY_HAND" > byhand; exec %s "$@" ;;
esac
"""
HOWS = ["before", "after", "alone", "fails", "lost"]
POST = "POST /as2 HTTP/1.1\r\nAS2-From: %s\r\nAS2-To: Supplier\r\nMessage-ID: <m%s@x>\r\nContent-Type: application/edi-x12\r\nContent-Length: %d\r\n\r\n%s"
TERMS = (TOP / "examples" / "agreements.toml").read_text().replace("retry_seconds = 30", "retry_seconds = 1").replace("max_tries = 2", "max_tries = 9")
BUYER = str(TOP / "examples" / "buyer.toml")
# The call of a round of hand-in.sh, over a store that is there, with which it submits its first file: it makes its folders, lists, notes what it
# begins with (three calls) and moves the file (one call, and two that sync it) before.
SUBMIT = 9
# Two files have the same bytes, as a standing order has; one is too large for any document.
FILES = {"-order a.edi": b"order", "order *.edi": b"order"}
LARGE = "too large.edi"


def desk(agreements, store, *words, **options):
    return subprocess.run([PROGRAM, "--agreements", agreements, "--store", store, *words], check=True, stdout=subprocess.PIPE, text=True, **options).stdout


def run(words, at=0, how="", **more):
    """Runs a script, with that fault at that call, and returns its status, how many calls there were, and the words of those of the program."""
    pathlib.Path("calls").write_text("0\n")
    pathlib.Path("words").write_text("")
    environment = dict(os.environ, PATH=os.path.abspath("steps") + ":" + os.environ["PATH"], AT=str(at), HOW=how, **more)
    with open("said", "w") as said:
        status = subprocess.run(words, env=environment, stdout=said, stderr=said, start_new_session=True).returncode
    calls = [line.split(" ", 5)[5] for line in pathlib.Path("words").read_text().splitlines() if line.startswith("desk ")]
    return status, int(pathlib.Path("calls").read_text() or 0), calls


def each_step(what, one, hows):
    """Has a fault of each kind at each step, and returns how many goes there were, and whether all were good."""
    goes, bad = 0, []
    for how in hows:
        at, made = 0, 0
        while made >= at:  # otherwise it came to its end before that call
            at += 1
            good, made = one(f"{what.replace(' ', '-')}-{how}-{at}", at, how)
            goes += 1
            if not good:
                bad.append(f"{how} {at}")
    print(f"{'WRONG' if bad else 'ok   '} {what}: {goes} goes", *([f"{len(bad)} bad:"] + bad if bad else []), flush=True)
    return goes, not bad


def tell(what, good, *more):
    print(f"{'ok   ' if good else 'WRONG'} {what}", *more, flush=True)
    return good


# take-out.sh


def take_words(name, store=None):
    return [str(EXAMPLES / "take-out.sh"), name + ".toml", store or name + ".db", name, os.path.abspath("steps/desk")]


def post(name, documents, store=None):
    desk(name + ".toml", store or name + ".db", "post", input="".join(POST % (partner, i, len(text), text) for partner, i, text in documents))


def take_away(name):
    """What lies in the folders of the partners, which is taken away."""
    found = []
    for file in sorted(pathlib.Path(name).glob("[!.]*/[!.]*")):
        found.append((file.parent.name, file.name, file.read_text()))
        file.unlink()
    return found


def take_out(name, at, how):
    """Whether each document came out once, and how many calls there were."""
    pathlib.Path(name + ".toml").write_text(TERMS)
    post(name, [(partner, i, str(i)) for i, partner in enumerate(["Buyer", "Depot", "Buyer"])])
    found, made = [], None
    for turn in [at, 0, 0]:
        status, calls, _ = run(take_words(name), turn, how)
        made = made or calls
        found += take_away(name)
    return status == 0 and sorted(found) == [("Buyer", "1", "0"), ("Buyer", "3", "2"), ("Depot", "2", "1")], made


def take_out_more():
    """What comes later, what it costs, and stores and notes that aren't what they were."""
    good, name = True, "taken"
    pathlib.Path(name + ".toml").write_text(TERMS)
    post(name, [("Buyer", i, str(i)) for i in range(3)])
    first = run(take_words(name))[0], len(take_away(name))
    shutil.copy(name + ".db", "older.db")
    post(name, [("Buyer", 3, "3")])
    good &= tell("take-out, a document that comes later", first == (0, 3) and run(take_words(name))[0] == 0 and take_away(name) == [("Buyer", "4", "3")])
    status, _, calls = run(take_words(name))
    good &= tell("take-out, an empty round", status == 0 and calls == ["fetch 5"], f"questions: {calls}")
    # An older copy: the documents that come after it get numbers that were given before.
    for many in (0, 1, 2):
        shutil.copy("older.db", "older.db.new")
        os.rename("older.db.new", name + ".db")
        if many:
            post(name, [("Buyer", f"n{i}", "n") for i in range(many)])
        status, said = run(take_words(name))[0], pathlib.Path("said").read_text()
        good &= tell(f"take-out, an older copy and {many} that came", status == 2 and "an older copy is in place" in said and not take_away(name), said.strip())
    pathlib.Path(name, ".taken").write_text("3 -\n")
    good &= tell("take-out, its number put right", run(take_words(name))[0] == 0 and take_away(name) == [("Buyer", "4", "n"), ("Buyer", "5", "n")])
    # A copy with greater numbers.
    script = subprocess.run(["sqlite3", "older.db", ".dump"], check=True, stdout=subprocess.PIPE).stdout
    for known in (3, 5):
        pathlib.Path("raised.db").unlink(missing_ok=True)
        subprocess.run(["sqlite3", "raised.db"], input=script + b"UPDATE meta SET next_document = 100, next_receipt = 100;", check=True)
        os.rename("raised.db", name + ".db")
        if known == 3:
            pathlib.Path(name, ".taken").write_text("3 Buyer\n")
            quiet = run(take_words(name))[0] == 0
        else:
            quiet = run(take_words(name))[0] == 2
        post(name, [("Buyer", "r", "r")])
        good &= tell(f"take-out, greater numbers after {known}", quiet and run(take_words(name))[0] == 0 and take_away(name) == [("Buyer", "100", "r")])
        run(take_words(name))
        post(name, [("Buyer", "r2", "r")])
        good &= tell("take-out, the next one", run(take_words(name))[0] == 0 and take_away(name) == [("Buyer", "101", "r")])
        pathlib.Path(name, ".taken").write_text("5 Buyer x <y>\n")
    for text in ("", "x\n", "3 ../x\n"):
        pathlib.Path(name, ".taken").write_text(text)
        good &= tell(f"take-out, .taken is {text!r}", run(take_words(name))[0] == 2 and not take_away(name))
    pathlib.Path(name, "Buyer", "7").write_text("x")
    pathlib.Path(name, ".taken").unlink()
    good &= tell("take-out, .taken is gone", run(take_words(name))[0] == 2)
    return good


# hand-in.sh


class HandIn:
    """A folder that is handed in, to a store of its own."""

    def __init__(self, name, files=FILES, large=True, base="."):
        self.name, self.files, self.large, self.by_hand = name, files, large, []
        self.agreements, self.store = name + ".toml", os.path.join(base, name + ".db")
        pathlib.Path(self.agreements).write_text(TERMS)
        os.mkdir(name)
        for file, content in files.items():
            pathlib.Path(name, file).write_bytes(content)
        if large:
            with open(pathlib.Path(name, LARGE), "wb") as file:
                file.truncate(1 << 21)
        self.words = [str(EXAMPLES / "hand-in.sh"), self.agreements, self.store, "Supplier", "Buyer", name, os.path.abspath("steps/desk")]

    def submit(self, content, lock=True):
        """Submits a document by hand, a while ago by its clock; under the lock, since a command may have outlived its round."""
        if content is not None:
            pathlib.Path("hand.edi").write_bytes(content)
            words = [PROGRAM, "--agreements", self.agreements, "--store", self.store, "--moment", str(int(time.time()) - 100), "submit", "--from", "Supplier",
                     "--to", "Buyer", "hand.edi"]
            lock = ["flock", "-w", "60", os.path.join(os.path.dirname(self.store), "station.lock")] if lock else []
            subprocess.run([*lock, *words], check=True, stdout=subprocess.DEVNULL)
            self.by_hand.append(content)

    def good(self):
        """Whether each file was handed in once, and nothing else but what was by hand."""
        folder, documents = pathlib.Path(self.name), {}
        for line in desk(self.agreements, self.store, "list", "out", "--format", "json").splitlines():
            number = json.loads(line)["number"]
            shutil.rmtree("page", ignore_errors=True)
            os.mkdir("page")
            desk(self.agreements, self.store, "evidence", str(number), "--out", "page")
            documents[str(number)] = pathlib.Path("page", f"sent-{number}.content").read_bytes()
        sent = {file.name.split("-", 1)[1]: file for file in (folder / "sent").iterdir()}
        rest = dict(documents)
        for name, content in self.files.items():
            if name not in sent or sent[name].read_bytes() != content or rest.pop(sent[name].name.split("-", 1)[0], None) != content:
                return False
        left = [file.name for file in folder.rglob("[!.]*") if file.is_file() and file.parent.name not in ("sent", "refused")]
        refused = [file.name for file in (folder / "refused").iterdir()]
        return (len(sent) == len(self.files) and sorted(rest.values()) == sorted(self.by_hand) and not left
                and refused == [LARGE] * self.large and not os.path.exists(self.store + ".begun") and not os.path.exists(self.store + ".look"))


def hand_in(content, station=False, first=None):
    """A go over a folder, with documents of that content submitted by hand; `first` is the fault of a run before, at its first `submit`."""
    def go(name, at, how):
        it = HandIn(name, large=content is None)
        running = start(it.agreements, it.store) if station else None
        try:
            it.submit(content)
            more = {}
            if how == "amid":
                pathlib.Path("hand.edi").write_bytes(content)
                more = {"BY_HAND": f"{PROGRAM} --agreements {it.agreements} --store {it.store} --moment 1000 submit --from Supplier --to Buyer hand.edi"}
            if first:
                run(it.words, SUBMIT, first)
                it.submit(content)
            status, made, _ = run(it.words, at, how, **more)
            if how == "amid" and made >= at:
                it.by_hand.append(content)
            it.submit(content)
            for _ in range(2):
                status = run(it.words)[0]
                if status == 0 or status == 1 and it.large:  # the refused file makes it 1
                    break
            it.submit(content)
            return run(it.words)[0] == 0 and status <= 1 and it.good(), made
        finally:
            if running:
                desk(it.agreements, it.store, "stop")
                running.wait()
            for file in pathlib.Path(".").glob(name + "*.db*"):
                file.unlink() if not file.is_dir() else shutil.rmtree(file)
    return go


def start(agreements, store):
    """A station that runs over the store, and sends nothing that arrives."""
    with open("lines.txt", "w") as lines:
        running = subprocess.Popen([PROGRAM, "--agreements", agreements, "--store", store, "run", "--listen", "127.0.0.1:0"], stderr=lines)
    while "store open" not in pathlib.Path("lines.txt").read_text():
        if running.poll() is not None:
            sys.exit("folders: " + pathlib.Path("lines.txt").read_text())
        time.sleep(0.02)
    return running


def the_issue():
    """A store that is full for one document, a document by hand, and the next round."""
    it = HandIn("issue", {"a.edi": b"a" * 1000000}, large=False)
    it.submit(b"before")
    limited = os.path.abspath("limited")
    pathlib.Path(limited).write_text(f'#!/bin/sh\nexec {PROGRAM} --store-limit 1 "$@"\n')
    os.chmod(limited, 0o755)
    full = run(it.words[:-1] + [limited])[0]
    was = full == 3 and os.path.exists(it.store + ".begun")
    it.submit(b"by hand")
    status = run(it.words)[0]
    return tell("hand-in, a full store and a document by hand", was and status == 0 and it.good(), os.listdir("issue/sent"))


def full_disks():
    """A disk with less room in each go, for the store and what is noted beside it; then there is room again."""
    os.mkdir("small")
    if subprocess.run(["mount", "-t", "tmpfs", "-o", "size=3m", "none", "small"], capture_output=True).returncode != 0:
        print("skip  hand-in, a full disk: none may be mounted")
        return True
    bad, goes, faults = [], 0, 0
    try:
        for room in [0, 4, 8, 12, 16, 20, 24, 32, 48, 64, 96, 128, 192, 256, 260, 264, 268, 272, 280, 300, 400, 600, 800]:
            it = HandIn(f"full-{room}", dict(FILES, **{"order d.edi": b"d" * 100000}), large=False, base="small")
            it.submit(b"before")
            free = os.statvfs("small").f_bavail * os.statvfs("small").f_frsize
            with open("small/filler", "wb") as filler:
                filler.write(b"x" * max(0, free - room * 1024))
            faults += run(it.words)[0] != 0
            run(it.words)
            os.unlink("small/filler")
            it.submit(b"order")
            status = run(it.words)[0]
            goes += 1
            if status != 0 or not it.good():
                bad.append(room)
            for file in pathlib.Path("small").iterdir():
                file.unlink() if file.is_file() or file.is_symlink() else shutil.rmtree(file)
    finally:
        subprocess.run(["umount", "small"])
    return tell(f"hand-in, a full disk: {goes} goes, {faults} with a fault", not bad and faults > 5, *bad)


def full_notes():
    """No room for one of the notes alone."""
    good = True
    for note, content in itertools.product(("begun", "last"), (None, b"order")):
        it = HandIn(f"note-{note}-{content}", large=False)
        it.submit(content)
        os.symlink("/dev/full", it.store + f".{note}.new")
        status = run(it.words)[0]
        it.submit(content)
        os.unlink(it.store + f".{note}.new")
        good &= tell(f"hand-in, no room for .{note}, {content}", status != 0 and run(it.words)[0] == 0 and it.good())
    for text in ("", "1\n", "hand-in 2\n4\n"):
        it = HandIn(f"cut-{len(text)}", large=False)
        pathlib.Path(it.store + ".begun").write_text(text)
        good &= tell(f"hand-in, .begun is {text!r}", run(it.words)[0] == 2 and not os.path.exists(it.store))
    return good


def costs():
    """How many questions a round asks."""
    it, good = HandIn("costs", large=False), True
    for file in it.files:
        os.rename(f"costs/{file}", "aside-" + file)
    good &= tell("hand-in, an empty folder", run(it.words)[::2] == (0, []) and not os.path.exists(it.store))
    for file in it.files:
        os.rename("aside-" + file, f"costs/{file}")
        status, _, calls = run(it.words)
        good &= tell("hand-in, a folder with a file", status == 0 and len(calls) == 1 and calls[0].split()[2] == "submit", f"questions: {len(calls)}")
    good &= tell("hand-in, the folder is empty again", run(it.words)[::2] == (0, []) and it.good())
    pathlib.Path(it.store + ".last").unlink(missing_ok=True)
    pathlib.Path("costs/more.edi").write_bytes(b"more")
    it.files = dict(it.files, **{"more.edi": b"more"})
    status, _, calls = run(it.words)
    good &= tell("hand-in, its note is lost", status == 0 and [call.split()[2] if call.startswith("--moment") else call for call in calls] == ["list out", "submit"] and it.good())
    return good


def put_back():
    """An older copy is put back amid a hand-in: nothing is decided. It goes on with greater numbers: the document after the gap is found. It goes on
    with the numbers that it has: that is told."""
    good = True
    it = HandIn("back", {"a.edi": b"a"}, large=False)
    it.submit(b"before")
    shutil.copy(it.store, "copy.db")
    run(it.words, SUBMIT, "after")
    os.rename("copy.db", it.store)
    good &= tell("hand-in, another store amid a hand-in", os.path.exists(it.store + ".begun") and run(it.words)[0] == 2 and os.path.exists("back/begun/a.edi"),
                 pathlib.Path("said").read_text().strip())
    it = HandIn("gap", {"a.edi": b"a"}, large=False)
    it.submit(b"before")
    run(it.words)
    script = subprocess.run(["sqlite3", it.store, ".dump"], check=True, stdout=subprocess.PIPE).stdout
    subprocess.run(["sqlite3", "gap.new"], input=script + b"UPDATE meta SET next_document = 100, next_receipt = 100;", check=True)
    os.rename("gap.new", it.store)
    pathlib.Path("gap/b.edi").write_bytes(b"b")
    it.files = dict(it.files, **{"b.edi": b"b"})
    run(it.words, SUBMIT, "after")
    good &= tell("hand-in, greater numbers amid a hand-in", run(it.words)[0] == 0 and it.good(), os.listdir("gap/sent"))
    it = HandIn("lower", {"a.edi": b"a"}, large=False)
    it.submit(b"before")
    shutil.copy(it.store, "copy.db")
    run(it.words)
    os.rename("copy.db", it.store)
    pathlib.Path("lower/b.edi").write_bytes(b"b")
    status, said = run(it.words)[0], pathlib.Path("said").read_text()
    good &= tell("hand-in, lower numbers", status == 1 and "document 2 was handed in after document 2" in said and len(os.listdir("lower/sent")) == 2)
    return good


def names():
    """Names that are no file to hand in, and names that are there."""
    it = HandIn("names", {"a.edi": b"a"}, large=False)
    folder = pathlib.Path("names")
    for name, content in {"line\nfeed": b"x", "x" * 243: b"x", "b.part": b"x", ".c": b"x", "d.tmp": b"x"}.items():
        (folder / name).write_bytes(content)
    os.symlink("a.edi", folder / "link")
    status = run(it.words)[0]
    left = sorted(file.name for file in folder.iterdir() if not file.is_dir())
    good = tell("hand-in, names that are left alone", status == 1 and left == sorted(["line\nfeed", "x" * 243, "b.part", ".c", "d.tmp", "link"]))
    (folder / "sent" / "2-a.edi").write_bytes(b"older")
    for name in left:
        (folder / name).unlink()
    (folder / "a.edi").write_bytes(b"a again")
    status = run(it.words)[0]
    there = {file.name: file.read_bytes() for file in (folder / "sent").iterdir()}
    return good & tell("hand-in, a name that is there", status == 0 and there == {"1-a.edi": b"a", "2-a.edi": b"a again", "2-a.edi.~1~": b"older"})


def asked_wrongly():
    """Names that are spelled wrongly, a partner that isn't known and agreements with a fault: each is put right, and the file is handed in."""
    it, good = HandIn("wrong", {"a.edi": b"a"}, large=False), True
    it.submit(b"before")
    status = run([*it.words[:4], "BOLT CO", *it.words[5:]])[0]
    good &= tell("hand-in, a name without its quotes", status == 2 and os.path.exists("wrong/a.edi") and not os.path.exists(it.store + ".begun"))
    pathlib.Path(it.agreements).write_text("x")
    status = run(it.words)[0]
    good &= tell("hand-in, faulty agreements", status == 1 and os.path.exists("wrong/a.edi") and not os.path.exists(it.store + ".begun"))
    pathlib.Path(it.agreements).write_text(TERMS)
    status = run([*it.words[:4], "Nobody", *it.words[5:]])[0]
    good &= tell("hand-in, an unknown partner", status == 1 and os.path.exists("wrong/refused/a.edi"))
    pathlib.Path("wrong/a.edi").write_bytes(b"a")
    pathlib.Path("wrong/refused/a.edi").unlink(missing_ok=True)
    # a name may be spelled with quotes that it doesn't need, and be looked for so after a stop
    it.words[3:5] = '"Supplier"', '"Buyer"'
    run(it.words, SUBMIT, "after")
    return good & tell("hand-in, names in quotes", run(it.words)[0] == 0 and it.good())


def three_at_once():
    """Rounds over one folder, side by side, and documents by hand meanwhile."""
    it = HandIn("beside", {f"{i}.edi": b"%d" % (i % 3) for i in range(12)}, large=False)
    running = start(it.agreements, it.store)
    environment = dict(os.environ, PATH=os.path.abspath("steps") + ":" + os.environ["PATH"], AT="0", HOW="")
    rounds = [subprocess.Popen(it.words, env=environment, stderr=subprocess.DEVNULL) for _ in range(3)]
    for _ in range(10):
        it.submit(b"1", lock=False)
    ended = [one.wait() for one in rounds]
    desk(it.agreements, it.store, "stop")
    running.wait()
    return tell("hand-in, three rounds at once and documents by hand", ended == [0, 0, 0] and it.good())


# send-orders.sh


def send_orders(name, at, how, url):
    """Whether each file came in once and is done, and how many calls there were."""
    store = name + ".db"
    pathlib.Path(name + ".toml").write_text(re.sub(r'(name = "Buyer"\n(?:#.*\n)*url = )".*"', rf'\1"{url}"', TERMS).replace('"station.example"', f'"{name}.example"'))
    os.mkdir(name)
    for i in range(2):
        pathlib.Path(name, f"{i}.edi").write_text(f"order {i}")
    words = [str(EXAMPLES / "send-orders.sh"), name + ".toml", store, "Supplier", "Buyer", name, os.path.abspath("steps/desk")]
    made = run(words, at, how)[1]
    for _ in range(10):
        status = run(words)[0]
        done = sorted(file.read_text() for file in pathlib.Path(name, "done").glob("*"))
        if len(done) == 2:
            break
        time.sleep(0.5)  # a try that was cut off is due again in a second
    return status == 0 and done == ["order 0", "order 1"] and desk(name + ".toml", store, "list", "out").count("\n") == 2, made


def main():
    # (in memory, if that may be: each step is synced)
    folder = tempfile.mkdtemp(dir="/dev/shm" if os.access("/dev/shm", os.W_OK) else None)
    os.chdir(folder)
    os.mkdir("steps")
    for step in ["mv", "rm", "mkdir", "sync", "desk"]:
        real = PROGRAM if step == "desk" else shutil.which(step)
        with open("steps/" + step, "w") as file:
            file.write(STEP % (step, real, real, real, real, real))
        os.chmod("steps/" + step, 0o755)
    buyer = start(BUYER, "buyer.db")
    try:
        url = re.search("^listening: (.*)$", pathlib.Path("lines.txt").read_text(), re.M)[1]
        good = the_issue()
        good &= costs()
        good &= names()
        good &= full_notes()
        good &= full_disks()
        good &= put_back()
        good &= asked_wrongly()
        good &= three_at_once()
        good &= take_out_more()
        for what, content, hows in [("none", None, HOWS[:2]), ("another", b"else", HOWS[:2]), ("the same", b"order", HOWS)]:
            good &= each_step(f"hand-in, by hand {what}", hand_in(content), hows)[1]
        good &= each_step("hand-in, by hand at the step", hand_in(b"order"), ["amid"])[1]
        good &= each_step("hand-in, over a station", hand_in(b"order", station=True), HOWS[:2])[1]
        for first in ["before", "after"]:
            good &= each_step(f"hand-in, again {first} its submit", hand_in(b"order", first=first), ["before", "after"])[1]
        good &= each_step("take-out", take_out, HOWS)[1]
        goes, sent = each_step("send-orders", lambda *which: send_orders(*which, f"http://{url}/as2"), ["before", "after"])
        came = desk(BUYER, "buyer.db", "list", "in").count("\n")
        good &= tell("at the partner:", came == 2 * goes, f"{came} of {2 * goes}")
        return 0 if good and sent else 1
    finally:
        if buyer.poll() is None:
            subprocess.run([PROGRAM, "--agreements", BUYER, "--store", "buyer.db", "stop"])
            buyer.wait()
        os.chdir("/")
        shutil.rmtree(folder)


if __name__ == "__main__":
    sys.exit(main())
