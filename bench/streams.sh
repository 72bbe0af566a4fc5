#!/bin/sh
# The speed of a stream: `post` over one of 2,000 posts of 3,000 bytes and one of 50 posts of 1 MiB, beside `peer.c`, a bare C program
# over libsqlite3 and OpenSSL that does the same work with no checks (WAL, FULL, one transaction a post). Each pair is
# measured in turn in one run, to a new file and in memory. Wants `cc` and the headers of both libraries.
set -eu
. "$(dirname "$0")/program.sh"
folder=$(mktemp -d)
trap 'rm -rf "$folder"' EXIT
cc -O2 "$top/bench/peer.c" -o "$folder/peer" -lsqlite3 -lcrypto
python3 "$top/bench/streams.py" "$program" "$folder/peer" "$top/examples/agreements.toml" "$folder" "$@"
