"""What a store holds after a loss of power, read by the program's own commands and by SQLite, and what is missing of what the station owes. Used by
power.py."""
import collections
import json
import os
import random
import shutil
import sqlite3
import subprocess

from traces import lay_out, mixes

PATIENCE = 60  # seconds that a command may take
CONTENT = {
    "post": "SELECT identifier, bytes FROM inbox2 LEFT JOIN inbox2_piece USING (number) ORDER BY number, position",
    "submit": "SELECT outbox.number, bytes FROM outbox LEFT JOIN outbox_piece USING (number) ORDER BY outbox.number, position",
}


def moments(record, owed, dice):
    """The places of the trace at which the power is lost: its end, the first answer after the first failed sync and after the last one, and a random
    place after the first failed sync."""
    failures = record.failures()
    if not failures:
        return [record.ends[-1]]
    answers = [min((one.mark for one in owed if one.mark >= failed), default=record.ends[-1]) for failed in (failures[0], failures[-1])]
    return sorted({record.ends[-1], *answers, dice.choice([end for end in record.ends if end >= failures[0]])})


class After:
    """The store of a desk after a loss of power."""

    def __init__(self, program, agreements, folder, image):
        self.program, self.folder = program, folder
        shutil.rmtree(folder, ignore_errors=True)
        os.makedirs(folder)
        shutil.copy(agreements, os.path.join(folder, "agreements.toml"))
        lay_out(image, folder)
        self.wrong = []

    def told(self, *words):
        """What a command prints. A status other than 0 is noted as wrong."""
        line = [self.program, "--agreements", "agreements.toml", "--store", "station.db", *words]
        ran = subprocess.run(line, cwd=self.folder, capture_output=True, timeout=PATIENCE, check=False)
        if ran.returncode:
            self.wrong.append(f"`{' '.join(words)}`: status {ran.returncode}, {ran.stderr.decode().strip()}")
        return ran.stdout.decode()

    def listed(self, box):
        return [json.loads(line) for line in self.told("list", box, "--format", "json").splitlines()]

    def contents(self, kind):
        """The contents by identifier or by number, as SQLite reads them."""
        found = {}
        base = sqlite3.connect(os.path.join(self.folder, "station.db"))
        try:
            for key, piece in base.execute(CONTENT[kind]):
                key = key.decode() if isinstance(key, bytes) else key
                found[key] = found.get(key, b"") + (piece or b"")
        except sqlite3.Error as fault:
            self.wrong.append(f"SQLite: {fault}")
        finally:
            base.close()
        return found

    def lacks(self, owed):
        """Everything that is wrong: what is missing of what is owed, and what the commands report."""
        taken, given = self.listed("in"), {one["number"]: one for one in self.listed("out")}
        verified = self.told("verify")
        if not verified.endswith(", 0 findings\n"):
            self.wrong.append(f"`verify`: {verified.splitlines()[:1]}")
        counts = collections.Counter(one["identifier"] for one in taken)
        self.wrong += [f"{name} is recorded {count} times" for name, count in counts.items() if count > 1]
        contents = {kind: self.contents(kind) for kind in CONTENT}
        for one in owed:
            fault = self.lack(one, counts, given, contents)
            if fault:
                self.wrong.append(fault)
        return self.wrong

    @staticmethod
    def lack(one, counts, given, contents):
        """What is missing of this one thing; None if nothing is."""
        is_there = one.key in (counts if one.kind == "post" else given)
        if not is_there:
            return f"{one.kind} {one.key} isn't there"
        if one.kind in CONTENT:
            return None if contents[one.kind].get(one.key) == one.value else f"{one.kind} {one.key} has another content"
        if one.kind == "tried":
            return None if given[one.key]["tries"] >= one.value else f"document {one.key} has lost a try: {given[one.key]['tries']} of {one.value}"
        return None if given[one.key]["state"] == one.value else f"document {one.key} was settled, and is {given[one.key]['state']}"


class Tally:
    """The results of a load: the files whose syncs failed, the number of disks, how many of them lacked something, and the first that did."""

    def __init__(self, failed):
        self.failed, self.mixes, self.lossy, self.first = failed, 0, 0, None

    def take(self, where, wrong):
        self.mixes += 1
        if wrong:
            self.lossy += 1
            self.first = self.first or f"{where}: {'; '.join(wrong[:3])}"


def is_whole(record, folder):
    """Whether the trace is complete: the files that are rebuilt from it equal those that the program left."""
    image = record.disk(record.ends[-1]).image()
    for name, text in image.items():
        with open(os.path.join(folder, os.path.basename(name.decode())), "rb") as file:
            if file.read() != text:
                return False
    return {name for name in os.listdir(folder) if name.startswith("station.db") and not name.endswith(".ctl")} == {
        os.path.basename(name.decode()) for name in image}


def lose(program, desk, record, owed, most, seed):
    """Loses the power at some moments of a load, and looks at `most` disks at most for each. Returns the tally."""
    tally, dice = Tally(record.failed()), random.Random(seed)
    for end in moments(record, owed, dice):
        by_then = [one for one in owed if one.mark <= end]
        for how, image in mixes(record.disk(end), most, seed):
            if not by_then and not any(name.endswith(b"/station.db") for name in image):
                continue  # there is no store yet
            after = After(program, desk.path("agreements.toml"), desk.folder + ".after", image)
            tally.take(f"power lost at {end} of {record.ends[-1]}, {how}", after.lacks(by_then))
    return tally
