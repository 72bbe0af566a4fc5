"""The measuring part of streams.sh: python3 streams.py PROGRAM PEER AGREEMENTS FOLDER [ROUNDS]."""
import statistics
import subprocess
import sys
import time

from posts import commands, without_store, write_posts

STREAMS = ((2_000, 3_000), (50, 1_048_576))
MOST = {"file": 1.5, "memory": 3.0}


def run(command, posts, replies):
    """Returns the seconds that a command takes over the posts, and writes the replies."""
    with open(posts, "rb") as given, open(replies, "wb") as written:
        start = time.perf_counter()
        subprocess.run(command, stdin=given, stdout=written, check=True)
        return time.perf_counter() - start


def same_replies(count, one, other):
    """Returns whether both files have so many replies, the same byte for byte."""
    with open(one, "rb") as first, open(other, "rb") as second:
        text, same = first.read(), second.read()
    return text == same and text.count(b"HTTP/1.1 200 OK\r\n") == count


def compare(program, peer, agreements, folder, count, size, place, rounds):
    """Prints the times of both over one stream, and their ratio."""
    posts, store = f"{folder}/posts", f"{folder}/store" if place == "file" else ":memory:"
    write_posts(posts, count, size)
    both = commands(program, peer, agreements, store)
    times = {name: [] for name in both}
    for _ in range(rounds):
        for name, command in both.items():
            without_store(folder)
            times[name].append(run(command, posts, f"{folder}/replies-{name}"))
    if not same_replies(count, f"{folder}/replies-as2desk", f"{folder}/replies-peer"):
        sys.exit("the replies differ")
    middle = {name: statistics.median(found) for name, found in times.items()}
    ratio = middle["as2desk"] / middle["peer"]
    print(
        f"{count:5} posts of {size:9,} bytes, {place:6}: as2desk {middle['as2desk'] * 1000 / count:8.3f} ms a post,"
        f" peer {middle['peer'] * 1000 / count:8.3f}, ratio {ratio:5.2f} (at most {MOST[place]})"
    )


def main():
    program, peer, agreements, folder = sys.argv[1:5]
    rounds = int(sys.argv[5]) if len(sys.argv) > 5 else 5
    for count, size in STREAMS:
        for place in MOST:
            compare(program, peer, agreements, folder, count, size, place, rounds)


main()
