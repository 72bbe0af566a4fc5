"""The measuring part of hub.sh: python3 hub.py AGREEMENTS FOLDER [ROUNDS | --try]."""
import re
import statistics
import subprocess
import sys

from posts import HEAD

SIZE, CONNECTIONS, EACH = 3_000, 64, 100
PIECES = {65_536: "at least 0.9 wanted", 4_096: "for comparison"}
TRIED_CONNECTIONS, TRIED_EACH = 5, 4


def write_posts(path, count):
    """Writes so many posts, each with an identifier of its own and as long as each other. Returns how many bytes one has."""
    body = (b"UNH+1+ORDERS:D:96A:UN'" * (SIZE // 22 + 1))[:SIZE]
    posts = [HEAD.format(number=f"{number:06}", framing=f"Content-Length: {SIZE}").encode() + body for number in range(count)]
    with open(path, "wb") as written:
        written.write(b"".join(posts))
    return len(posts[0])


def run(words):
    """Runs the program, and returns the seconds that it says the answering took, without what came before."""
    done = subprocess.run(words, capture_output=True, text=True, check=False)
    if done.returncode != 0:
        sys.exit(f"{done.stdout}{done.stderr}{words[2]}: status {done.returncode}")
    took = re.search(r" in (\d+) microseconds", done.stdout)
    return int(took[1]) / 1e6 if took else 0


def try_out(agreements, folder):
    """Looks by `rt try` whether both give the same replies, to few posts, whose pieces end anywhere."""
    size = write_posts(f"{folder}/posts", TRIED_CONNECTIONS * TRIED_EACH)
    words = ["rt", "try", "--seconds", "600", "--data", f"agreements={agreements}", "--data", f"posts={folder}/posts", "--"]
    words += ["agreements", "both", "posts", size, TRIED_CONNECTIONS, size, 1_000, 65_536]
    done = subprocess.run([str(it) for it in words], cwd=f"{folder}/crates/hub_bench", capture_output=True, text=True, check=False)
    print(done.stdout, end="", flush=True)
    if done.returncode != 0 or len(re.findall("the same$", done.stdout, re.M)) != 3:
        sys.exit(f"{done.stderr}rt try: status {done.returncode}")


def measure(agreements, folder, rounds):
    """Prints the posts a second of both, and their ratio."""
    program, count = f"{folder}/crates/hub_bench/out/hub_bench", CONNECTIONS * EACH
    size = write_posts(f"{folder}/posts", count)
    for piece, wanted in PIECES.items():
        behind = [f"{folder}/posts", str(size), str(CONNECTIONS), str(piece)]
        run([program, agreements, "both", *behind])
        took = {"hub": [], "stream": []}
        for _ in range(rounds):
            for what, found in took.items():
                found.append(run([program, agreements, what, *behind]))
        hub, stream = (count / statistics.median(found) for found in took.values())
        print(
            f"{count} posts of {SIZE:,} bytes, {CONNECTIONS} connections, pieces of {piece:6,} bytes: hub {hub:8,.0f} a second,"
            f" stream {stream:8,.0f}, ratio {hub / stream:5.2f} ({wanted})",
            flush=True,
        )


def main():
    agreements, folder, *words = sys.argv[1:]
    if words == ["--try"]:
        try_out(agreements, folder)
    else:
        measure(agreements, folder, int(words[0]) if words else 5)


main()
