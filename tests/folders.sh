#!/bin/sh
# Has the scripts of examples/ that take documents out to a folder and in from one killed and fail at each of their steps: see
# tests/folders.py. The program is ./as2desk, or the file that the first argument names; a second one names a folder with other scripts.
set -eu
exec python3 "$(dirname "$0")/folders.py" "$@"
