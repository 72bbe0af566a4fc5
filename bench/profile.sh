#!/bin/sh
# Where a stream's time goes: what `post` and the bare C program of `peer.c` carry out a post, in instructions by function as valgrind
# counts them (a byte that is set or copied may count as one), and the bytes that they write and the syncs, to a new file.
# Wants `valgrind`, `strace`, `cc` and the headers of libsqlite3 and OpenSSL.
set -eu
. "$(dirname "$0")/program.sh"
folder=$(mktemp -d)
trap 'rm -rf "$folder"' EXIT
cc -O2 "$top/bench/peer.c" -o "$folder/peer" -lsqlite3 -lcrypto
python3 "$top/bench/profile.py" "$program" "$folder/peer" "$top/examples/agreements.toml" "$folder"
