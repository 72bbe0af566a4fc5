"""Tries `as2desk run`, a station that serves and can be asked, outside the gate. tests/live.sh runs it.

    tests/live.sh [--program FILE] [CASE ...]

    crowd      1,000 connections at once, each of which posts: all are answered, and recorded
    slow       slow heads, slow bodies and peers that don't read: honest posters wait at most twice as long beside them
    greedy     peers that hold more bytes than a station takes in: honest ones are served beside them
    broken     resets in a head, a body and a reply, and half-closes
    full       no descriptor left, and no place left: those that wait are served later, and nothing spins
    kills      `kill -9` under load, in starts and in stops: no answered post is lost
    commands   each command with a station and without one, compared byte for byte
    two        a second station, other paths of the control socket, and links
    control    the control socket: its mode, another user, garbage, and who says nothing
    stop       `stop`, with slow requests under way too; other agreements; what is refused while a station runs
    lines      what it says on standard error, also where nobody reads it
    memory     some minutes of load, behind which it has no more memory
    lost       a disk that gets full while many post at once: who was answered is recorded, and who wasn't was told nothing
    sending    documents to four partners: one hangs, one refuses, one answers a byte a second, one posts its receipts half an hour later
    sending-kills  `kill -9` while it sends: no document is lost or tried too often, and all are settled afterwards
    silent     silent addresses and a partner that hangs: an honest document goes out beside them
    links      documents that wait for one partner: as many links to it as may be are at work
    hung       partners that hang with many documents and receipts each: others' go out beside them
    gone       documents of a partner who isn't in the agreements any more: those behind go out, and a line a minute
    receipts-to  `--receipts-to`: a receipt goes to no other address
    halts      `stop` while links are open; the next station tries again what was under way
    latency    from `submit` to the first byte at the partner
    pipelining clients that pipeline, and read the replies or don't: each honest post beside them is answered in time
    bodies     slow bodies that fill the room for bytes: small and great honest documents beside them are answered in time
    descriptors  few descriptors, and idle peers that take them all: honest posts and a command are done in time
    askers     slow clients at all seats of the control socket: a command and `stop` are done in time
    extensions a body whose extensions of chunks pass the bytes of one connection: it is over with it, and with nobody else
    replies    the requests of corpus/, of hostile clients and mutated ones, to `run` and to `serve`: the same replies; curl and http.client

Without a CASE all are tried. Each prints a line, and one before it for each thing that isn't as wanted; the status is 1 where there is one.
The program is ./as2desk, or the file that --program names. The counts of the options are those of a whole trial, which takes some 15
minutes, and those that send as long again; `--minutes 20` has the load of `memory` take 20. With a slow program take small counts, and
greater `--slack` and `--patience`.
"""
import argparse
import os
import pathlib
import sys
import tempfile
import time

HERE = pathlib.Path(__file__).resolve().parent
sys.path[:0] = [str(HERE / "live"), str(HERE / "hostile")]
sys.dont_write_bytecode = True
import asking
import cutting
import doors
import fairness
import killing
import lasting
import losing
import many
import replies
import running
import sending
import shortage
import slow
import stopping
import turns
from station import STARTER, Differences

CASES = {
    "crowd": many.crowd, "slow": slow.slow, "greedy": slow.greedy, "broken": many.broken, "full": many.full, "kills": killing.kills,
    "commands": asking.commands, "two": doors.two, "control": doors.control, "stop": stopping.stop, "lines": stopping.lines,
    "memory": lasting.memory, "lost": losing.lost, "replies": replies.replies, "sending": sending.sending, "sending-kills": cutting.sending_kills, "silent": sending.silent,
    "links": sending.links, "hung": fairness.hung, "gone": sending.gone, "receipts-to": sending.receipts_to, "halts": sending.halts, "latency": sending.latency,
    "pipelining": turns.pipelining, "bodies": shortage.bodies, "descriptors": shortage.descriptors, "askers": shortage.askers, "extensions": shortage.extensions,
}


def words():
    """The words of the command line."""
    asked = argparse.ArgumentParser(description=__doc__.splitlines()[0])
    asked.add_argument("cases", nargs="*", metavar="CASE", choices=[*CASES, []], help=", ".join(CASES))
    asked.add_argument("--program", default=STARTER)
    asked.add_argument("--connections", type=int, default=1000, help="of `crowd`; with less than 1,000 `full` leaves out the places")
    asked.add_argument("--honest", type=int, default=8, help="honest posters of `slow`")
    asked.add_argument("--slow", type=int, default=100, help="slow peers of each kind")
    asked.add_argument("--greedy", type=int, default=300, help="greedy peers")
    asked.add_argument("--rounds", type=int, default=3, help="of `slow`, each without slow peers and with them")
    asked.add_argument("--seconds", type=float, default=3, help="that honest posters are looked at in a round")
    asked.add_argument("--turns", type=int, default=50, help="of `broken`, `greedy` and `control`")
    asked.add_argument("--kills", type=int, default=200, help="of `kills` and of `sending-kills`")
    asked.add_argument("--minutes", type=float, default=1, help="of `memory`; 20 are the full trial")
    asked.add_argument("--mutated", type=int, default=3000, help="mutated requests of `replies`")
    asked.add_argument("--documents", type=int, default=5000, help="of `sending`")
    asked.add_argument("--waiting", type=int, default=1500, help="documents of `silent`, `gone` and `hung` for a partner that hangs")
    asked.add_argument("--hung", type=int, default=4, help="partners of `hung` that hang")
    asked.add_argument("--watch", type=float, default=65, help="seconds that `gone` looks on")
    asked.add_argument("--latencies", type=int, default=300, help="documents of `latency`")
    asked.add_argument("--milliseconds", type=float, default=50, help="the most that one of a hundred of them may not pass")
    asked.add_argument("--pipelining", type=int, nargs="*", default=[63, 64, 500], help="clients of `pipelining`")
    asked.add_argument("--bodies", type=int, default=400, help="slow bodies of `bodies`")
    asked.add_argument("--idle", type=int, default=200, help="idle peers of `descriptors`")
    asked.add_argument("--asked", type=float, default=12, help="seconds in which a command of `askers` is to be done, besides the slack")
    asked.add_argument("--unanswered", type=float, default=10, help="seconds after which an honest post of these four counts as not answered")
    asked.add_argument("--seed", type=int, default=1)
    asked.add_argument("--slack", type=float, default=3, help="seconds that a machine under load may add to any wait")
    asked.add_argument("--patience", type=float, default=60, help="seconds that anything is waited for")
    return asked.parse_args()


def tried(name, given, differences):
    """Tries a case in a folder of its own; whether all was as wanted."""
    before, began = len(differences.found), time.monotonic()
    with tempfile.TemporaryDirectory(prefix="live-") as folder:
        os.chmod(folder, 0o755)  # another user may come to what is in it
        try:
            told = CASES[name](given, os.path.join(folder, "desk"), differences)
        except Exception as fault:  # the next case is tried all the same
            differences.differ(f"{name}: it broke off", repr(fault))
            told = "broke off"
    wrong = len(differences.found) - before
    print(f"{'WRONG' if wrong else 'ok   '} {name}: {told} ({time.monotonic() - began:.0f} s)", flush=True)
    return not wrong


def main():
    given = words()
    given.program = os.path.abspath(given.program)
    running.PATIENCE = given.patience
    differences = Differences()
    fine = [tried(name, given, differences) for name in given.cases or CASES]
    print(f"{sum(fine)} cases are as wanted, {len(fine) - sum(fine)} aren't", flush=True)
    return 0 if all(fine) else 1


if __name__ == "__main__":
    sys.exit(main())
