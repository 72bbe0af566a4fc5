"""The measuring part of verify.sh: python3 verify.py PROGRAM AGREEMENTS FOLDER [COUNT COUNT]."""
import os
import sys

from migrate import STORES, TURNS, Desk, measured, middle, show
from posts import write_posts

# A verification takes at most so many times what opening the file and the digests alone take.
MOST = 1.5


def main():
    program, agreements, folder, *counts = sys.argv[1:]
    worst = 0
    for place, (count, size) in enumerate(STORES):
        count = int(counts[place]) if len(counts) > place else count
        posts, store, contents = (os.path.join(folder, f"{name}-{place}") for name in ("posts", "store.db", "contents"))
        write_posts(posts, count, size)
        desk = Desk(program, agreements, store)
        desk.fill(posts, count)
        with open(contents, "wb") as to:
            for _ in range(count):
                to.write(bytes(size))
        found = {"outstanding": [], "sha1sum": [], "verify": []}
        for _ in range(TURNS):
            found["outstanding"].append(desk.measured("outstanding"))
            found["sha1sum"].append(measured(["sha1sum", contents]))
            found["verify"].append(desk.measured("verify"))
        print(f"{count} posts of {size} bytes, a file of {os.path.getsize(store) / 1e6:.1f} MB")
        for what, times in found.items():
            show(what, times)
        ratio = middle(found["verify"])[0] / (middle(found["outstanding"])[0] + middle(found["sha1sum"])[0])
        print(f"  verify takes {ratio:.2f} of the other two together; at most {MOST} is wanted")
        worst = max(worst, ratio)
        for file in (posts, store, contents):
            os.remove(file)
    return int(worst > MOST)


if __name__ == "__main__":
    sys.exit(main())
