#!/bin/sh
# Makes syncs of a loaded station fail, and then loses the power: see tests/power.py.
set -eu
exec python3 "$(dirname "$0")/power.py" "$@"
