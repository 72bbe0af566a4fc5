#!/bin/sh
# Kills the program 200 times at random moments of a migration over a file of 10,000 posts: see tests/migration.py. The first argument is
# another program than ./as2desk; what stands behind it are options of migration.py.
set -eu
top=$(cd "$(dirname "$0")/.." && pwd)
program=${1-}
if [ -z "$program" ]; then
    "$top/as2desk" --version > /dev/null
    program=$top/crates/as2desk/out/as2desk
    [ -x "$program" ] || program=$top/dist/as2desk
fi
[ $# -eq 0 ] || shift
folder=$(mktemp -d)
trap 'rm -rf "$folder"' EXIT
"$top/tests/migration/release.sh" "$folder/release"
python3 "$top/tests/migration.py" "$folder/release" "$(realpath "$program")" "$folder" "$@"
