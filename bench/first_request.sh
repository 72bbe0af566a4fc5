#!/bin/sh
# The speed of the first request: starts of the program per second on the plain post, beside starts of `true`; and the
# time of a post of 1,048,576 bytes, beside `sha1sum` of the same bytes. Each pair is measured in turn in one run.
set -eu
. "$(dirname "$0")/program.sh"
exec python3 - "$program" "$top/examples/plain-post.http" "$top/examples/agreements.toml" <<'END'
import os, statistics, subprocess, sys, tempfile, time

program, plain, agreements = sys.argv[1:]
OPTIONS = ["--agreements", agreements, "--store", ":memory:", "--moment", "1000", "post"]
SIZE = 1_048_576


def seconds(command, path):
    with open(path, "rb") as given:
        start = time.perf_counter()
        done = subprocess.run(command, stdin=given, stdout=subprocess.DEVNULL, check=True)
        return time.perf_counter() - start


def compare(names, commands, path, rounds):
    times = [[] for _ in commands]
    for _ in range(rounds):
        for found, command in zip(times, commands):
            found.append(seconds(command, path))
    middle = [statistics.median(found) for found in times]
    for name, found in zip(names, middle):
        print(f"{name:28} {found * 1000:8.2f} ms  {1 / found:8.0f} a second")
    print(f"{'ratio':28} {middle[0] / middle[1]:8.2f}")


print("the plain post")
compare(["as2desk", "true"], [[program, *OPTIONS], ["true"]], plain, 400)

head, _ = open(plain, "rb").read().split(b"\r\n\r\n", 1)
content = os.urandom(SIZE)
with tempfile.TemporaryDirectory() as folder:
    post, bare = os.path.join(folder, "post"), os.path.join(folder, "content")
    with open(post, "wb") as f:
        f.write(head.replace(b"Content-Length: 3", b"Content-Length: %d" % SIZE) + b"\r\n\r\n" + content)
    with open(bare, "wb") as f:
        f.write(content)
    print("a post of 1,048,576 bytes")
    times = {"as2desk": [], "sha1sum": []}
    for _ in range(100):
        times["as2desk"].append(seconds([program, *OPTIONS], post))
        times["sha1sum"].append(seconds(["sha1sum"], bare))
    middle = {name: statistics.median(found) for name, found in times.items()}
    for name, found in middle.items():
        print(f"{name:28} {found * 1000:8.2f} ms")
    print(f"{'ratio':28} {middle['as2desk'] / middle['sha1sum']:8.2f}")
END
