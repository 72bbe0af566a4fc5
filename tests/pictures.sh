#!/bin/sh
# Makes the pictures of docs/ anew from the texts in tools/pictures/, and compares them with those of the tree: see tools/pictures.py.
# Where one differs its lines are printed, and the status is 1. It changes nothing.
set -eu
exec python3 "$(dirname "$0")/../tools/pictures.py" --compare "$@"
