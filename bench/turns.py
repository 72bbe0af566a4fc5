"""The measuring part of turns.sh: python3 turns.py FOLDER [OPTIONS]."""
import argparse
import itertools
import os
import pathlib
import subprocess
import sys

TOP = pathlib.Path(__file__).resolve().parent.parent
sys.path[:0] = [str(TOP / "tests" / "live"), str(TOP / "tests" / "hostile")]
sys.dont_write_bytecode = True
from crowds import at_place
from running import Running
from slow import beside, halt
from station import Desk
from turns import Poster, joined, pipeline, waits_of

KINDS = {"read": True, "don't read": False}  # what the clients do with the replies


def built():
    """The program that was proved and built here, or the release."""
    subprocess.run([TOP / "as2desk", "--version"], stdout=subprocess.DEVNULL, check=True)
    return next(path for path in (TOP / "crates/as2desk/out/as2desk", TOP / "dist/as2desk") if path.exists())


def version(program):
    """What a program says that it is."""
    return subprocess.run([program, "--version"], stdout=subprocess.PIPE, check=True, text=True).stdout.strip()


def measured(given, program, count, reads, place):
    """The waits of an honest poster, over new connections and over a kept one, beside so many clients."""
    with Running(Desk(program, f"{given.folder}/{place}")) as station:
        process = beside(pipeline, station.address, count, reads) if count else None
        found = [waits_of(Poster(station.address, given.most, is_kept), b"turn-%d" % is_kept, given.seconds) for is_kept in (False, True)]
        if process:
            halt(process)
    return joined(found)


def settings(given):
    """Each count of clients with what they do."""
    for count in given.clients:
        for kind in list(KINDS)[:len(KINDS) if count else 1]:
            yield count, kind


def line(count, kind, name, waits):
    """The line of the table for a program beside such clients."""
    middle, late = (1000 * at_place(waits.times, share) for share in (0.5, 0.99))
    clients = f"{count} that {kind}" if count else "none"
    return f"{clients:20} {name:28} {len(waits.times):7,} {middle:12,.1f} {late:16,.1f} {waits.missed:13,}"


def measure(given):
    """Prints how long honest posts take beside pipelining clients, for both programs side by side."""
    programs = {"program": given.program, "beside": given.beside} if given.beside else {"program": given.program}
    for role, program in programs.items():
        print(f"{role}: {version(program)}")
    print(f"Honest posts in {given.rounds} rounds of {2 * given.seconds:g} s, half of these over new connections; "
          f"one without an answer counts as {given.most:g} s")
    print(f"{'pipelining clients':20} {'':28} {'posts':>7} {'middle in ms':>12} {'99th percentile':>16} {'not answered':>13}")
    places = itertools.count()
    for count, kind in settings(given):
        found = {role: [] for role in programs}
        for _ in range(given.rounds):
            for role, program in programs.items():
                found[role].append(measured(given, program, count, KINDS[kind], next(places)))
        for role, parts in found.items():
            print(line(count, kind, role, joined(parts)), flush=True)


def main():
    words = argparse.ArgumentParser(description=__doc__)
    words.add_argument("folder")
    words.add_argument("--program", type=os.path.abspath)
    words.add_argument("--beside", type=os.path.abspath)
    words.add_argument("--clients", type=int, nargs="*", default=[0, 63, 64, 500])
    words.add_argument("--rounds", type=int, default=3)
    words.add_argument("--seconds", type=float, default=3)
    words.add_argument("--most", type=float, default=5)
    given = words.parse_args()
    given.program = str(given.program or built())
    measure(given)


if __name__ == "__main__":
    main()
