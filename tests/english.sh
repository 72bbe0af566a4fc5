#!/bin/sh
# Looks at the documents' English and at what they name: see tests/english.py.
set -eu
exec python3 "$(dirname "$0")/english.py" "$@"
