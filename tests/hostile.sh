#!/bin/sh
# Hostile clients, mutated requests and mutated receipts over a socket: see tests/hostile/sockets.py.
set -eu
exec python3 "$(dirname "$0")/hostile/sockets.py" "$@"
