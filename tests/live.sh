#!/bin/sh
# Tries `as2desk run`, a station that serves and can be asked: see tests/live.py.
set -eu
exec python3 "$(dirname "$0")/live.py" "$@"
