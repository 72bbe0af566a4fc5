"""The measuring part of chunks.sh: python3 chunks.py PROGRAM AGREEMENTS FOLDER [ROUNDS]."""
import os
import statistics
import subprocess
import sys
import time

from posts import commands, write_posts

COUNT, SIZE = 20, 1_048_576
CHUNKS = (None, 65_536, 1_024, 1)


def seconds(command, posts):
    """Returns the seconds that a command takes over the posts, and what it replies."""
    with open(posts, "rb") as given:
        start = time.perf_counter()
        ran = subprocess.run(command, stdin=given, stdout=subprocess.PIPE, check=True)
        return time.perf_counter() - start, ran.stdout


def main():
    program, agreements, folder = sys.argv[1:4]
    rounds = int(sys.argv[4]) if len(sys.argv) > 4 else 5
    command = commands(program, None, agreements, ":memory:")["as2desk"]
    times, replies = {chunk: [] for chunk in CHUNKS}, set()
    for chunk in CHUNKS:
        write_posts(f"{folder}/posts-{chunk}", COUNT, SIZE, chunk)
    for _ in range(rounds):
        for chunk in CHUNKS:
            took, reply = seconds(command, f"{folder}/posts-{chunk}")
            times[chunk].append(took)
            replies.add(reply)
    if len(replies) != 1 or replies.pop().count(b"HTTP/1.1 200 OK\r\n") != COUNT:
        sys.exit("the replies differ")
    by_length = statistics.median(times[None])
    for chunk in CHUNKS:
        middle, size = statistics.median(times[chunk]), os.path.getsize(f"{folder}/posts-{chunk}") // COUNT
        name = f"in chunks of {chunk:,}" if chunk else "by length"
        print(f"{name:20}: {middle * 1000 / COUNT:8.2f} ms a post of {size:9,} bytes, ratio {middle / by_length:5.2f}")


main()
