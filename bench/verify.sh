#!/bin/sh
# What `verify` costs beside what it can't do without: opening the file (`outstanding`), and the digest of each content (`sha1sum`, all contents
# in one file). Two stores, each made by one stream to `post`: 10,000 posts of 3,000 bytes, and 300 of 1 MiB. Prints the middle of three turns.
# `bench/verify.sh [PROGRAM [COUNT COUNT]]` takes another program than ./as2desk, and other counts of posts.
set -eu
top=$(cd "$(dirname "$0")/.." && pwd)
program=${1-}
if [ -z "$program" ]; then
    "$top/as2desk" --version > /dev/null
    program=$top/crates/as2desk/out/as2desk
    [ -x "$program" ] || program=$top/dist/as2desk
fi
[ $# -eq 0 ] || shift
folder=$(mktemp -d)
trap 'rm -rf "$folder"' EXIT
python3 "$top/bench/verify.py" "$(realpath "$program")" "$top/tests/migration/agreements.toml" "$folder" "$@"
