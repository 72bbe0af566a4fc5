#!/bin/sh
# What a migration costs. Release 0.5.0 makes two stores of version 1, each by one stream to `post`: 10,000 posts of 3,000 bytes, and
# 300 of 1 MiB. It opens each (`list in`). Then the program under test migrates a copy, where it has the command `migrate`, and opens
# what that gives. Prints seconds and memory of each, the middle of three turns, and the size of the file before and after.
# `bench/migrate.sh [PROGRAM [COUNT COUNT]]` takes another program than ./as2desk, and other counts of posts.
set -eu
top=$(cd "$(dirname "$0")/.." && pwd)
program=${1-}
if [ -z "$program" ]; then
    "$top/as2desk" --version > /dev/null
    program=$top/crates/as2desk/out/as2desk
    [ -x "$program" ] || program=$top/dist/as2desk
fi
[ $# -eq 0 ] || shift
folder=$(mktemp -d)
trap 'rm -rf "$folder"' EXIT
"$top/tests/migration/release.sh" "$folder/release"
python3 "$top/bench/migrate.py" "$folder/release" "$(realpath "$program")" "$top/tests/migration/agreements.toml" "$folder" "$@"
