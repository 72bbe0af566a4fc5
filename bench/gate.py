#!/usr/bin/env python3
"""What the gate costs: runs `rt ci`, prints each of its own lines with the seconds since its start, and then the
processor minutes (user and system time) of proofs, tests, edits and runs, crate by crate. Words behind the log's file are
handed to `rt ci`: crates, which are then all that is proved with those below them, or `--anew`.

A process is known by its words: an edit's check works in a folder rt-edit-*, a check or build of tests has --test, and
what neither proves nor tries anything (linking, programs, rt itself) counts as runs. Times are read from /proc a few
times a second, so that the last moments of each process are missed; the whole is the system's own figure."""
import os
import re
import resource
import subprocess
import sys
import threading
import time

KINDS = ("proofs", "tests", "edits", "runs")
TICKS = os.sysconf("SC_CLK_TCK")
INTERVAL = 0.2  # seconds between two looks at /proc
OWN_LINE = re.compile(r"rt: |\d+ passed, \d+ failed")


def text_of(path):
    try:
        with open(path, encoding="utf-8", errors="replace") as it:
            return it.read()
    except OSError:
        return ""


def sort_of(pid):
    """Returns which crate a process works for, and at what; None while it has not yet become what it will be."""
    words = text_of(f"/proc/{pid}/cmdline").split("\0")
    if "-ISc" in words[:3]:
        return None
    verb = next((it for it in words[1:2] if it in ("check", "build")), "")
    if not words[0].endswith("/rattle") or not verb or "--crate-name" not in words:
        return "", "runs"
    crate = words[words.index("--crate-name") + 1]
    try:
        is_edit = "/rt-edit-" in os.readlink(f"/proc/{pid}/cwd")
    except OSError:
        return None
    if is_edit:
        return crate, "edits"
    if "--crate-checked" in words:
        return crate, "runs"
    return crate, "tests" if "--test" in words else "proofs"


class Watch(threading.Thread):
    """Sums the processor time of all processes that a command starts, by crate and kind."""

    def __init__(self, first):
        super().__init__(daemon=True)
        self.first, self.seen, self.ended = first, {}, threading.Event()

    def run(self):
        while not self.ended.wait(INTERVAL):
            self.look()

    def look(self):
        found = {}
        for pid in filter(str.isdigit, os.listdir("/proc")):
            # the name, in brackets, may hold blanks
            fields = text_of(f"/proc/{pid}/stat").rpartition(")")[2].split()
            if fields:
                found[int(pid)] = fields
        ours = {pid for pid, _ in self.seen} | {self.first}
        for pid, fields in found.items():
            parent, session, started = int(fields[1]), int(fields[3]), fields[19]
            if session != self.first and parent not in ours and (pid, started) not in self.seen:
                continue
            kind = self.seen.get((pid, started), (None, 0))[0] or sort_of(pid)
            self.seen[pid, started] = kind, (int(fields[11]) + int(fields[12])) / TICKS

    def minutes(self):
        """Returns the processor minutes of each crate and kind."""
        sums = {}
        for kind, seconds in self.seen.values():
            kind = kind or ("", "runs")
            sums[kind] = sums.get(kind, 0) + seconds / 60
        return sums


def main(words):
    with open(words[0] if words else os.devnull, "w", encoding="utf-8") as log:
        start = time.time()
        gate = subprocess.Popen(
            ["rt", "ci", *words[1:]], stdout=subprocess.PIPE, stderr=subprocess.STDOUT, errors="replace", start_new_session=True
        )
        watch = Watch(gate.pid)
        watch.start()
        for line in gate.stdout:
            log.write(line)
            log.flush()
            if OWN_LINE.match(line):
                print(f"{time.time() - start:6.0f} s  {line}", end="", flush=True)
        status = gate.wait()
        watch.ended.set()
        watch.join()
    spent = resource.getrusage(resource.RUSAGE_CHILDREN)
    whole, wall = (spent.ru_utime + spent.ru_stime) / 60, time.time() - start
    sums = watch.minutes()
    print(f"{'processor minutes':18}" + "".join(f"{it:>9}" for it in (*KINDS, "all")))
    for crate in dict.fromkeys(it for it, _ in sorted(sums) if it):
        each = [sums.get((crate, kind), 0) for kind in KINDS]
        print(f"{crate:18}" + "".join(f"{it:9.1f}" for it in (*each, sum(each))))
    each = [sum(it for (_, kind), it in sums.items() if kind == wanted) for wanted in KINDS]
    print(f"{'all crates':18}" + "".join(f"{it:9.1f}" for it in (*each, sum(each))))
    print(f"{whole:.1f} processor minutes in all, {wall:.0f} s, on {len(os.sched_getaffinity(0))} processors")
    return status


if __name__ == "__main__":
    sys.exit(main(sys.argv[1:]))
