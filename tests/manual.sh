#!/bin/sh
# Makes the man page and the completion for bash anew, compares them with docs/as2desk.1 and deploy/as2desk.bash, and
# tries both: see tests/manual.py. The program is ./as2desk, or the file behind --program.
set -eu
exec python3 "$(dirname "$0")/manual.py" "$@"
