"""Hostile clients of `as2desk serve`, and hostile answers to `as2desk send`, over sockets of the loopback.

First clients that are slow, silent, deaf, half-closed or reset, requests that two readers would frame otherwise, and a thousand
connections: each gets the reply that docs/PROFILE.md has or none, the next honest client is answered within ten times `--timeout`,
and the process's peak of memory stays below 32 MiB. Then mutated requests of a small corpus, each on a connection of its own, and
mutated receipts in answers, by a seeded generator. Each reply, each end of a connection, what is recorded and how each document
stands is compared with a model written from docs/PROFILE.md; a document counts as a success only where Python's `email`, `hashlib`
and `base64` say so too.

    tests/hostile.sh [--program FILE] [--seed N] [--count N] [--answers N] [--control]

100,000 requests and 10,000 answers take some 2 minutes. A line that begins with KNOWN tells of today's behaviour where another is
wanted. `--control` runs a little of it with readers that are wrong, and fails where they aren't found out. The last line has the
counts; the status is 1 where something differs.
"""
import argparse
import os
import shutil
import sys
import time

import mutations
import peers
import readers
from station import STARTER, Differences, room

ORDER = ("hostile clients", "requests refused", "connections reset", "stops and goes on", "answers without end", "requests mutated",
         "answers cut by a reset", "posts recorded", "documents settled by a post", "answers mutated", "documents settled by an answer",
         "successes that email doesn't read", "lost")


class Quiet(Differences):
    """Differences that are counted alone."""

    def differ(self, what, text=""):
        self.found.append(what)


def always(*_):
    """A reader that calls every receipt a success."""
    return "S processed"


def never(*_):
    """A reader that calls none a success."""
    return "R retry"


def templates(program, folder):
    """Two stores: documents that were never tried, and the same behind a try that failed."""
    desk = mutations.submitted(program, f"{folder}/documents")
    shutil.copy(desk.path(desk.store), f"{folder}/new.db")
    desk.run("send")
    shutil.copy(desk.path(desk.store), f"{folder}/begun.db")
    return f"{folder}/new.db", f"{folder}/begun.db"


def control(program, folder, seed):
    """Whether readers that are wrong are found out: by the answers, and by the posts. The status."""
    new, begun = templates(program, folder)
    missed = 0
    for name, reader in (("the right reader", readers.verdict), ("a reader that calls everything a success", always), ("a reader that calls nothing one", never)):
        for what in (mutations.Answers, mutations.Requests):
            found = Quiet()
            part = what(program, f"{folder}/{what.__name__}", new if what is mutations.Answers else begun, seed, found, reader)
            part.batch(*(() if what is mutations.Answers else (1000,)))
            is_right = bool(found.found) == (reader is not readers.verdict)
            missed += not is_right
            print(f"{'ok   ' if is_right else 'WRONG'} {name}, {what.__name__.lower()}: {len(found.found)} differ", flush=True)
    print(f"{missed} controls failed")
    return 1 if missed else 0


def mutate(program, folder, given, differences):
    """The mutated requests, and then the mutated answers."""
    new, begun = templates(program, folder)
    requests = mutations.Requests(program, f"{folder}/requests", begun, given.seed, differences)
    while requests.sent < given.count and len(differences.found) < 50:
        before = requests.sent
        requests.batch(min(mutations.BATCH, given.count - requests.sent))
        if requests.sent == before:
            break
    differences.expect("memory", requests.peak <= peers.MEMORY_LIMIT, True)
    statuses = ", ".join(f"{count} of {status}" for status, count in sorted(requests.statuses.items()))
    print(f"ok    {requests.sent} mutated requests: {statuses}, peak {requests.peak} KiB", flush=True)
    answers = mutations.Answers(program, f"{folder}/answers", new, given.seed, differences)
    while differences.counts.get("answers mutated", 0) < given.answers and len(differences.found) < 50:
        answers.batch()
    details = ", ".join(f"{count} {detail}" for detail, count in sorted(answers.details.items()))
    print(f"ok    mutated answers: {details}", flush=True)


def main():
    words = argparse.ArgumentParser(description=__doc__.splitlines()[0])
    words.add_argument("--program", default=STARTER)
    words.add_argument("--seed", type=int, default=1)
    words.add_argument("--count", type=int, default=100_000)
    words.add_argument("--answers", type=int, default=10_000)
    words.add_argument("--control", action="store_true")
    given = words.parse_args()
    program, differences, began = os.path.abspath(given.program), Differences(), time.monotonic()
    with room() as folder:
        if given.control:
            return control(program, folder, given.seed)
        peers.peers(program, folder, differences)
        mutate(program, folder, given, differences)
    print(f"{time.monotonic() - began:.0f} seconds, seed {given.seed}")
    return differences.end(ORDER)


if __name__ == "__main__":
    sys.exit(main())
