#!/bin/sh
# What chunks cost: `post` over a stream of 20 posts of 1 MiB, in memory, by their length and in chunks of 65,536, of 1,024 and of 1
# byte, each measured in turn in one run.
set -eu
. "$(dirname "$0")/program.sh"
folder=$(mktemp -d)
trap 'rm -rf "$folder"' EXIT
python3 "$top/bench/chunks.py" "$program" "$top/examples/agreements.toml" "$folder" "$@"
