#!/bin/sh
# What a store in a file costs: starts a second (a post that repeats one, so that nothing is recorded) and posts a second (each
# recorded, each by a program of its own) over a store of 1,000 entries, with SQLite's sums of pages and without, beside starts
# over a store in memory. `bench/stores.sh PROGRAM` compares with another build of as2desk, over a store that it made.
set -eu
. "$(dirname "$0")/program.sh"
exec python3 "$top/bench/stores.py" "$top" "$program" "$@"
