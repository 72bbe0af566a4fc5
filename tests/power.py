"""Makes each of the first syncs of a loaded station fail, lets the station go on, and then loses the power. tests/power.sh runs it, outside the gate.

    tests/power.sh [--program FILE] [--syncs 200] [--mixes N] [CASE ...]

    run           posts, some at once, and submits to `run`, which sends the documents; refused requests are repeated until they are answered
    run-again     the same, and three syncs in succession fail
    run-twice     the same, and another sync fails soon after the first: one of those of the next open, for example
    run-died      the same, and the program is killed at the failed sync and started again
    run-dropped   the same, and after the failed sync reads show what is on the disk instead of what was written
    post          `post` and `submit`, one process for each request
    post-again, post-twice, post-died, post-dropped   the same variants of `post`
    send          `submit` and `send`, and sometimes `post`, one process for each
    send-died     the same, and the program is killed at the failed sync
    serve         posts to `serve`
    control       a disk that lies: losses must be found in `run` and `post`. And a program that, at each open, writes all anew that it finds:
                  no loss must be found

Each case has one load for each sync: sync 1 fails in the first load, sync 2 in the second, and so on. A shim (power/shim.c) makes the sync fail and
records what the program does to its files. From that record power/traces.py rebuilds the disks that are possible after the loss of power: the writes
that the failed sync held are there, or aren't, or some of them are, and the same goes for the writes that no sync followed. On each disk `list in`,
`list out` and `verify` must find everything that had been answered, sent and settled before the loss.

Each case prints one line, and before it a line for each load in which something was lost, up to a limit. The status is 1 if anything was lost. The
trial needs gcc and nm. The program is ./as2desk, or the file that --program names. --syncs 200 takes some 20 minutes on four idle cores, and twice
as long on busy ones; `--step 5` tries every fifth sync.
"""
import argparse
import collections
import concurrent.futures
import logging
import os
import pathlib
import subprocess
import sys
import tempfile
import time
import warnings

HERE = pathlib.Path(__file__).resolve().parent
sys.path[:0] = [str(HERE / "power"), str(HERE / "live"), str(HERE / "hostile")]
sys.dont_write_bytecode = True
import loads
import losses
from station import STARTER, Differences, room

# the syncs that fail, by the first of them
ONCE, AGAIN, TWICE = (lambda first: (first,)), (lambda first: (first, first + 1, first + 2)), (lambda first: (first, first + 1 + first * 7 % 24))
# the load, what happens at a failed sync, and which syncs fail
CASES = {
    "run": (loads.Runs, "keep", ONCE), "run-again": (loads.Runs, "keep", AGAIN), "run-twice": (loads.Runs, "keep", TWICE),
    "run-died": (loads.Runs, "kill", ONCE), "run-dropped": (loads.Runs, "drop", ONCE), "post": (loads.Commands, "keep", ONCE),
    "post-again": (loads.Commands, "keep", AGAIN), "post-twice": (loads.Commands, "keep", TWICE), "post-died": (loads.Commands, "kill", ONCE),
    "post-dropped": (loads.Commands, "drop", ONCE), "send": (loads.Sends, "keep", ONCE), "send-died": (loads.Sends, "kill", ONCE),
    "serve": (loads.Serves, "keep", ONCE),
}
CONTROLS = [(loads.Runs, "lie"), (loads.Commands, "lie"), (loads.Runs, "anew"), (loads.Commands, "anew")]
CONTROLLED = (61, 80, 100, 127)  # the syncs of the controls
SHOWN = 12  # lines of a case, at most
# functions that change files and that the shim doesn't see
UNSEEN = {
    "mmap", "mmap64", "pwritev", "pwritev64", "pwritev2", "sendfile", "sendfile64", "copy_file_range", "fallocate", "fallocate64", "posix_fallocate",
    "truncate", "truncate64", "link", "linkat", "renameat2", "syscall", "sync", "syncfs", "sync_file_range", "msync", "dup", "dup2", "dup3", "fopen",
    "creat", "splice",
}


def words():
    """The arguments of the command line."""
    asked = argparse.ArgumentParser(description=__doc__.splitlines()[0])
    asked.add_argument("cases", nargs="*", metavar="CASE", choices=[*CASES, "control", []], help=", ".join([*CASES, "control"]))
    asked.add_argument("--program", default=STARTER)
    asked.add_argument("--syncs", type=int, default=200, help="number of syncs that are made to fail, each in a load of its own")
    asked.add_argument("--first", type=int, default=1, help="the first sync that fails")
    asked.add_argument("--step", type=int, default=1, help="5 tries every fifth sync")
    asked.add_argument("--mixes", type=int, default=10, help="disks for each moment at which the power is lost, at most")
    asked.add_argument("--jobs", type=int, default=os.cpu_count(), help="number of loads at once")
    asked.add_argument("--seed", type=int, default=1)
    return asked.parse_args()


def resolved(program, folder):
    """The program's own file, in case a script starts it: the shim is loaded into the program only."""
    with open(program, "rb") as file:
        if file.read(4) == b"\x7fELF":
            return program
    agreements = HERE.parent / "examples" / "agreements.toml"
    started = subprocess.Popen([program, "--agreements", agreements, "--store", os.path.join(folder, "first.db"), "post"], stdin=subprocess.PIPE)
    with started:
        end = time.monotonic() + losses.PATIENCE
        while not (found := os.readlink(f"/proc/{started.pid}/exe")).endswith("as2desk"):
            if started.poll() is not None or time.monotonic() > end:
                raise RuntimeError(f"{program} doesn't come to the program")
            time.sleep(0.01)
    return found


def unseen(program):
    """The functions that the program calls and the shim doesn't see."""
    table = subprocess.run(["nm", "-D", "--undefined-only", program], capture_output=True, check=True, text=True).stdout
    return sorted(UNSEEN & {line.split()[-1].split("@")[0] for line in table.splitlines() if line.strip()})


class Trial:
    """The program, the shim, and a folder for the loads."""

    def __init__(self, given, folder, differences):
        self.given, self.folder, self.differences = given, folder, differences
        self.program, self.shim = resolved(os.path.abspath(given.program), folder), os.path.join(folder, "shim.so")
        subprocess.run(["gcc", "-O1", "-shared", "-fPIC", "-o", self.shim, HERE / "power" / "shim.c"], check=True)
        differences.expect("functions that the shim doesn't see", unseen(self.program), [])

    def load(self, name, kind, how, syncs):
        """Runs one load and loses the power at some of its moments. Returns the tally."""
        with tempfile.TemporaryDirectory(prefix=f"{name}-{syncs[0]}-", dir=self.folder) as folder:
            desk = os.path.join(folder, "desk")
            load = kind(self.program, desk, self.shim, syncs, how)
            record, owed = load.run()
            if not losses.is_whole(record, desk):
                raise RuntimeError("the trace doesn't tell all that was written")
            return losses.lose(self.program, load.desk, record, owed, self.given.mixes, self.given.seed * 1000 + syncs[0])

    def loads(self, name, kind, how, turns):
        """Runs a load for each of `turns`, some at once. Yields its first failing sync, the fault that broke it off or None, and its tally."""
        with concurrent.futures.ThreadPoolExecutor(self.given.jobs) as workers:
            begun = {workers.submit(self.load, name, kind, how, syncs): syncs for syncs in turns}
            for one in concurrent.futures.as_completed(begun):
                yield begun[one][0], one.exception(), None if one.exception() else one.result()

    def case(self, name):
        """Makes each sync fail in turn. Returns the text of the case's line."""
        kind, how, fails = CASES[name]
        turns = [fails(first) for first in range(self.given.first, self.given.first + self.given.syncs, self.given.step)]
        tallies, shown = [], []
        for first, fault, tally in self.loads(name, kind, how, turns):
            if fault:
                shown.append((first, f"{name}, sync {first}: it broke off", repr(fault)))
                continue
            tallies.append(tally)
            if tally.lossy:
                of = f"sync {first}, of {', '.join(tally.failed)}"
                shown.append((first, f"{name}, {of}: {tally.lossy} of {tally.mixes} disks lack something", tally.first))
        for _, what, text in sorted(shown)[:SHOWN]:
            self.differences.differ(what, text)
        if len(shown) > SHOWN:
            self.differences.differ(f"{name}: {len(shown) - SHOWN} syncs more", str([first for first, _, _ in sorted(shown)[SHOWN:]]))
        return summary(turns, tallies)

    def control(self):
        """Runs the loads in which losses are certain, and those in which there can be none. Returns the text of the case's line."""
        told = []
        for kind, how in CONTROLS:
            found = list(self.loads(f"control-{how}", kind, how, [(first,) for first in CONTROLLED]))
            broken = [fault for _, fault, _ in found if fault]
            lossy = [first for first, _, tally in found if tally and tally.lossy]
            self.differences.expect(f"control: {kind.__name__}, {how}: loads that broke off", broken, [])
            self.differences.expect(f"control: {kind.__name__}, {how}: loads with losses", len(lossy), len(CONTROLLED) if how == "lie" else 0)
            told.append(f"{len(lossy)} of {len(found)}")
        return f"loads in which a lying disk is found: {' and '.join(told[:2])}; with losses though all is written anew: {' and '.join(told[2:])}"


def counted(tallies):
    """The number of failed syncs of these loads, by file."""
    failed = collections.Counter(name for tally in tallies for name in tally.failed)
    return ", ".join(f"{count} of {name}" for name, count in sorted(failed.items())) or "none"


def summary(turns, tallies):
    """The text about these loads."""
    lossy = [tally for tally in tallies if tally.lossy]
    disks, lacking = sum(tally.mixes for tally in tallies), sum(tally.lossy for tally in tallies)
    told = f"{len(turns)} loads, failed syncs: {counted(tallies)}; {lacking} of {disks} disks lack something"
    return told + (f", of {len(lossy)} loads, with failed syncs: {counted(lossy)}" if lossy else "")


def tried(trial, name):
    """Tries a case. Returns whether all was as wanted."""
    before, began = len(trial.differences.found), time.monotonic()
    told = trial.control() if name == "control" else trial.case(name)
    wrong = len(trial.differences.found) - before
    print(f"{'WRONG' if wrong else 'ok   '} {name}: {told} ({time.monotonic() - began:.0f} s)", flush=True)
    return not wrong


def main():
    given, differences = words(), Differences()
    logging.getLogger("asyncio").setLevel(logging.CRITICAL)  # it warns of connections to a partner that ends
    warnings.filterwarnings("ignore", message="coroutine .* was never awaited")
    with room() as shared, tempfile.TemporaryDirectory(prefix="power-", dir=shared) as folder:
        trial = Trial(given, folder, differences)
        fine = [tried(trial, name) for name in given.cases or [*CASES, "control"]]
    print(f"{sum(fine)} cases are as wanted, {len(fine) - sum(fine)} aren't", flush=True)
    return 0 if all(fine) else 1


if __name__ == "__main__":
    sys.exit(main())
