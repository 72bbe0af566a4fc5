"""The measuring part of profile.sh: python3 profile.py PROGRAM PEER AGREEMENTS FOLDER. What a post costs is what a longer stream
costs more than a shorter one, so that a start isn't counted."""
import re
import subprocess
import sys

from posts import commands, without_store, write_posts

STREAMS = ((200, 1_000, 3_000), (5, 15, 1_048_576))
SHOWN = 8
COST = re.compile(r"\s*([\d,]+) \(\s*[\d.]+%\)\s+(\S.*)")
CALL = re.compile(r"(\w+)\(.*= (\d+)$")


def run(command, folder, output):
    """Runs a command over the posts, and writes its replies."""
    without_store(folder)
    with open(f"{folder}/posts", "rb") as given, open(output, "wb") as written:
        subprocess.run(command, stdin=given, stdout=written, stderr=subprocess.DEVNULL, check=True)


def instructions(command, folder):
    """Returns the instructions of a run by function; PROGRAM TOTALS are all of them."""
    counted = f"{folder}/counted"
    run(["valgrind", "--tool=callgrind", f"--callgrind-out-file={counted}", *command], folder, f"{folder}/replies")
    lines = subprocess.run(["callgrind_annotate", "--inclusive=no", counted], capture_output=True, text=True, check=True)
    found = {}
    for line in lines.stdout.splitlines():
        cost = COST.match(line)
        if cost:
            name = cost.group(2).split(" [")[0].split(":", 1)[-1]
            found[name] = found.get(name, 0) + int(cost.group(1).replace(",", ""))
    return found


def calls(command, folder):
    """Returns the bytes that a run writes to its files, and how often it syncs."""
    traced = f"{folder}/traced"
    run(["strace", "-f", "-e", "trace=pwrite64,fsync,fdatasync", "-o", traced, *command], folder, f"{folder}/replies")
    written, syncs = 0, 0
    with open(traced, encoding="utf-8", errors="replace") as lines:
        for call in filter(None, map(CALL.search, map(str.rstrip, lines))):
            written += int(call.group(2)) if call.group(1) == "pwrite64" else 0
            syncs += call.group(1) != "pwrite64"
    return written, syncs


def show(name, few, many, size, found):
    """Prints what a post costs by the difference of two runs."""
    count = many - few
    (less, written, syncs), (more, later, last) = found
    each = {key: (more[key] - less.get(key, 0)) / count for key in more}
    total = each.pop("PROGRAM TOTALS", 0) or each.pop("TOTALS", 0)
    print(f"{size:9,} bytes, {name}: {total:,.0f} instructions, {(later - written) / count:,.0f} bytes written, {(last - syncs) / count:.2f} syncs a post")
    for key, cost in sorted(each.items(), key=lambda it: -it[1])[:SHOWN]:
        print(f"    {100 * cost / total:5.1f} % {key}")


def main():
    program, peer, agreements, folder = sys.argv[1:5]
    for few, many, size in STREAMS:
        for name, command in commands(program, peer, agreements, f"{folder}/store").items():
            found = []
            for count in (few, many):
                write_posts(f"{folder}/posts", count, size)
                found.append((instructions(command, folder), *calls(command, folder)))
            show(name, few, many, size, found)


main()
