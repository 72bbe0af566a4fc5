#!/bin/sh
# The speed of a station that runs: posts of 3,000 bytes a second, each recorded before it is answered, that `run` takes at 1, 16, 64 and 1,000
# connections which are kept; beside `peer.c`, a bare C program with one commit a post (WAL, FULL), over a stream from a file and over one
# connection; and beside `serve` over one connection. Then the memory of `run` at 1,000 connections that do nothing. The programs run in turn,
# three times, each over a new store in a file. Wants `cc` and the headers of libsqlite3 and OpenSSL.
# `bench/live.sh [--program FILE] [--posts N] [--rounds N] [--connections N ...] [--idle N]`: another program than ./as2desk, another count of
# posts than 4,000, of rounds than three, and others of connections.
set -eu
top=$(cd "$(dirname "$0")/.." && pwd)
folder=$(mktemp -d)
trap 'rm -rf "$folder"' EXIT
cc -O2 "$top/bench/peer.c" -o "$folder/peer" -lsqlite3 -lcrypto
cc -O2 "$top/bench/posters.c" -o "$folder/posters"
python3 "$top/bench/live.py" "$folder/peer" "$folder/posters" "$top/examples/agreements.toml" "$folder" "$@"
