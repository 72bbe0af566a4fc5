#!/bin/sh
# Kills, foreign files and damage: see tests/files.py.
set -eu
exec python3 "$(dirname "$0")/files.py" "$@"
