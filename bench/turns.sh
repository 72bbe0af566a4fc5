#!/bin/sh
# How long honest posts wait beside clients that pipeline: the middle and the 99th percentile of posts of 3 bytes, each recorded before it is
# answered, beside 0, 63, 64 and 500 clients whose requests never end, once where they read the replies and once where they don't. Of two
# programs, if `--beside` names another one: they run in turn, each time over a new store in a file. A post without an answer in 5 seconds
# counts as 5, and its connection is given up; after two of them a round ends.
# `bench/turns.sh [--program FILE] [--beside FILE] [--clients N ...] [--rounds N] [--seconds N] [--most N]`: another program than ./as2desk, one
# to compare it with, other counts of clients, other rounds than three, other seconds than 3 of each half of a round, and another limit than 5 s.
set -eu
top=$(cd "$(dirname "$0")/.." && pwd)
folder=$(mktemp -d)
trap 'rm -rf "$folder"' EXIT
python3 "$top/bench/turns.py" "$folder" "$@"
