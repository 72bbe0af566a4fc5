#!/usr/bin/env python3
"""Builds the program as2desk: proves the libraries below it side by side, each as soon as those that it stands on are
proved, then the program, and says on standard error how far it is.

`rt` keeps others out of the folders of a crate and of all below it while it works there, so two crates over a common one
wait for each other. Each crate is therefore proved in a workspace of its own, a folder with its sources and, as links, the
libraries below it, and what was made is then moved into the crate's own folder out/. A build that is broken off leaves
what is proved there and the rest in its workspace, and the next one goes on with both."""
import ctypes
import fcntl
import os
import shutil
import signal
import subprocess
import sys
import time

TOP = os.path.dirname(os.path.dirname(os.path.realpath(__file__)))
PROGRAM = "as2desk"
PARTS = ("src", "specs", "proofs")
MOST_JOBS = 4  # of one crate: more gain nothing
MEMORY = 3_000_000_000  # bytes that the proof of a crate may take
SECONDS_BETWEEN_LINES = 60
KILL_WITH_PARENT = 1  # PR_SET_PDEATHSIG of prctl


def crates_of(file):
    """Returns what each crate of crates.txt stands on, of the crates that the file lists."""
    listed = {}
    with open(file, encoding="utf-8") as lines:
        for line in lines:
            name, colon, uses = line.partition("#")[0].partition(":")
            if colon:
                listed[name.strip()] = uses.split()
    return {name: [it for it in uses if it in listed] for name, uses in listed.items()}


def below(crate, uses):
    """Returns the crates below one, the lowest first."""
    found = []
    for it in uses[crate]:
        found += [deep for deep in [*below(it, uses), it] if deep not in found]
    return found


def newest(folder):
    """Returns the moment at which the last of the crate's sources was written."""
    moments = [0.0]
    for part in PARTS:
        for at, _, names in os.walk(f"{folder}/{part}"):
            moments += [os.stat(f"{at}/{name}").st_mtime for name in names]
    return max(moments)


def end_with_parent():
    """Has a command end when this one is killed: rt then ends what it has started."""
    ctypes.CDLL(None).prctl(KILL_WITH_PARENT, signal.SIGKILL)


def link_tree(source, target):
    """Copies a folder by links, and by bytes where it can't be linked."""

    def link(one, other):
        try:
            os.link(one, other)
        except OSError:
            shutil.copy2(one, other)

    shutil.rmtree(target, ignore_errors=True)
    shutil.copytree(source, target, copy_function=link)


def places():
    """Returns how many crates may be proved side by side: one a processor, as far as memory goes."""
    free = MEMORY
    with open("/proc/meminfo", encoding="utf-8") as lines:
        for line in lines:
            if line.startswith("MemAvailable:"):
                free = 1024 * int(line.split()[1])
    return max(1, min(len(os.sched_getaffinity(0)), free // MEMORY))


class Voice:
    """Says how far the build is: a line for each crate and each minute, or one line that is drawn again on a terminal."""

    def __init__(self, count):
        self.count, self.start, self.last = count, time.monotonic(), time.monotonic()
        self.redraws = sys.stderr.isatty()

    def say(self, what, done):
        seconds = int(time.monotonic() - self.start)
        line = f"as2desk: {what}, {done} of {self.count}"
        if self.redraws:
            print(f"\r\033[K{line}, {seconds // 60}:{seconds % 60:02} min", end="", file=sys.stderr, flush=True)
        else:
            print(f"{line}, {seconds // 60} min", file=sys.stderr, flush=True)
        self.last = time.monotonic()

    def is_silent(self):
        return time.monotonic() - self.last >= (1 if self.redraws else SECONDS_BETWEEN_LINES)

    def end(self):
        if self.redraws:
            print("\r\033[K", end="", file=sys.stderr, flush=True)


class Task:
    """The proof of one crate, or the build of the program."""

    def __init__(self, crate, uses, room):
        self.crate, self.below, self.room = crate, below(crate, uses), f"{room}/{crate}"
        self.folder, self.made = f"{TOP}/crates/{crate}", f"{TOP}/crates/{crate}/out"
        self.log, self.start, self.seconds, self.process = f"{room}/{crate}.log", 0.0, 0.0, None

    def is_done(self):
        """Tells whether the library is newer than all that it is made from; rt itself looks closer."""
        stamp = f"{self.made}/rlib/stamp"
        if self.crate == PROGRAM or not os.path.isfile(stamp):
            return False
        made = os.stat(stamp).st_mtime
        lower = [f"{TOP}/crates/{it}/out/rlib/stamp" for it in self.below]
        return newest(self.folder) <= made and all(os.stat(it).st_mtime <= made for it in lower if os.path.isfile(it))

    def prepare(self):
        """Makes the crate's workspace, over what an earlier one has left of it."""
        own = f"{self.room}/crates/{self.crate}"
        os.makedirs(own, exist_ok=True)
        if not os.path.isdir(f"{own}/out") and os.path.isdir(self.made):
            os.rename(self.made, f"{own}/out")
        for part in PARTS:
            shutil.rmtree(f"{own}/{part}", ignore_errors=True)
            if os.path.isdir(f"{self.folder}/{part}"):
                shutil.copytree(f"{self.folder}/{part}", f"{own}/{part}")
        for crate in self.below:
            for part in (*PARTS, "out/rlib"):
                if os.path.isdir(f"{TOP}/crates/{crate}/{part}"):
                    link_tree(f"{TOP}/crates/{crate}/{part}", f"{self.room}/crates/{crate}/{part}")
        with open(f"{TOP}/crates.txt", encoding="utf-8") as listed, open(f"{self.room}/crates.txt", "w", encoding="utf-8") as some:
            some.writelines(it for it in listed if it.partition(":")[0].strip() in (*self.below, self.crate))

    def begin(self, jobs):
        """Starts the proof of a library in its workspace, or the build of the program in its own folder."""
        self.start = time.monotonic()
        words, folder = ["rt", "run", "--", "--version"], self.folder
        if self.crate != PROGRAM:
            self.prepare()
            words, folder = ["rt", "lib", "--jobs", str(jobs)], f"{self.room}/crates/{self.crate}"
        with open(self.log, "w", encoding="utf-8") as log:
            self.process = subprocess.Popen(
                words, cwd=folder, stdin=subprocess.DEVNULL, stdout=log, stderr=subprocess.STDOUT, preexec_fn=end_with_parent
            )

    def finish(self):
        """Moves what was made into the crate's own folder, and returns whether the crate is proved."""
        self.seconds = time.monotonic() - self.start
        if self.process.returncode:
            return False
        if self.crate != PROGRAM:
            shutil.rmtree(self.made, ignore_errors=True)
            os.rename(f"{self.room}/crates/{self.crate}/out", self.made)
            shutil.rmtree(self.room)
        return True


def longest_chain(tasks):
    """Returns the seconds of the longest chain of crates that stand on each other, as this build took them."""
    spent = {}
    for task in tasks:
        spent[task.crate] = task.seconds + max((spent[it] for it in task.below), default=0)
    return spent[PROGRAM]


def build(tasks, done, voice):
    """Runs all tasks, each once those below it are done. Returns the one that failed, if one did."""
    waiting, running = [it for it in tasks if it.crate not in done], []
    most, processors = places(), len(os.sched_getaffinity(0))
    while waiting or running:
        ready = [it for it in waiting if done.issuperset(it.below)]
        # the processors are shared among all that could be at work now, rounded up
        jobs = -(-processors // max(1, len(running) + len(ready)))
        for task in ready[: most - len(running)]:
            waiting.remove(task)
            running.append(task)
            task.begin(min(MOST_JOBS, jobs))
        time.sleep(0.2)
        for task in [it for it in running if it.process.poll() is not None]:
            running.remove(task)
            if not task.finish():
                return task
            done.add(task.crate)
            voice.say(f"{'built' if task.crate == PROGRAM else 'proved'} {task.crate}", len(done))
        if running and voice.is_silent():
            what = "building" if running[0].crate == PROGRAM else "proving"
            voice.say(f"{what} {', '.join(it.crate for it in running)}", len(done))
    return None


def main():
    uses = crates_of(f"{TOP}/crates.txt")
    git = f"{TOP}/.git"
    room = f"{git if os.path.isdir(git) else f'{TOP}/crates/{PROGRAM}/out'}/as2desk-build"
    os.makedirs(room, exist_ok=True)
    with open(f"{room}/lock", "w", encoding="utf-8") as lock:
        try:
            fcntl.flock(lock, fcntl.LOCK_EX | fcntl.LOCK_NB)
        except BlockingIOError:
            print("as2desk: another build is going on here; waiting for it", file=sys.stderr, flush=True)
            fcntl.flock(lock, fcntl.LOCK_EX)
        tasks = [Task(it, uses, room) for it in [*below(PROGRAM, uses), PROGRAM]]
        done = set()
        for task in tasks:
            if done.issuperset(task.below) and task.is_done():
                done.add(task.crate)
        voice = Voice(len(tasks))
        failed = build(tasks, done, voice)
        voice.end()
    if failed:
        with open(failed.log, encoding="utf-8", errors="replace") as log:
            print(f"{log.read()}as2desk: {failed.crate} could not be built; what was said is above", file=sys.stderr)
        return 1
    took = time.monotonic() - voice.start
    print(f"as2desk: built in {took:.0f} s, of which the longest chain of crates {longest_chain(tasks):.0f} s", file=sys.stderr)
    return 0


if __name__ == "__main__":
    try:
        sys.exit(main())
    except KeyboardInterrupt:
        sys.exit("\nas2desk: broken off; the next start goes on from here")
