#!/bin/sh
# Kills the program 1,000 times at random moments of post, send and serve over a file: see tests/kills.py.
set -eu
exec python3 "$(dirname "$0")/kills.py" "$@"
