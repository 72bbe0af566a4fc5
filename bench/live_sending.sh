#!/bin/sh
# How fast a station that runs sends: documents of 3,000 bytes a second to a partner on the loopback over 64 links, 16 to each of its four
# ports, and over 16 to one port, beside `send`; at once, and where the partner takes 50 ms to answer. The two run in turn, three times, each
# over a new store in a file. And the time from `submit` to the first byte at the partner, where nothing else is to be done.
# `bench/live_sending.sh [--program FILE] [--documents N] [--rounds N] [--latencies N]`: another program than ./as2desk, another count of
# documents than 4,000, of rounds than three, and of documents that are timed than 300.
set -eu
top=$(cd "$(dirname "$0")/.." && pwd)
folder=$(mktemp -d)
trap 'rm -rf "$folder"' EXIT
python3 "$top/bench/live_sending.py" "$folder" "$@"
