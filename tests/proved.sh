#!/bin/sh
# Makes the tables of public calls anew, compares them with those of docs/PROVED.md, and tries that a wrong one is found: see tests/proved.py.
set -eu
exec python3 "$(dirname "$0")/proved.py" "$@"
