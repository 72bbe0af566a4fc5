#!/bin/sh
# What the gate costs: runs `rt ci`, prints each of its own lines with the seconds since its start, and then the processor
# minutes of each crate's proofs, tests, edits and runs. The whole output is kept in the file that the first argument names,
# if there is one; `rt ci` gets the words behind it. On two processors: `taskset -c 0,1 bench/gate.sh`.
set -eu
cd "$(dirname "$0")/.."
exec python3 bench/gate.py "$@"
