#!/bin/sh
# Runs the commands that README.md, docs/OPERATING.md, docs/QUESTIONS.md and docs/INTEGRATION.md show, as they stand there, and compares
# what they print: see tests/documents.py. The program is ./as2desk, or the file that the argument names. It needs the ports 8080, 8081, 8443 and 9443.
set -eu
exec python3 "$(dirname "$0")/documents.py" "$@"
