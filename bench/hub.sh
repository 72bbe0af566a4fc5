#!/bin/sh
# The speed of many connections: 6,400 posts of 3,000 bytes, each with an identifier of its own, from 64 connections through a `Hub` before
# the station's desk, beside `serve_stream` over the same posts in one stream; in memory, and without a socket. Each round of the hub asks
# one request of each connection, and then all replies go. Either has a store of its own. The two run in turn, five times; the ratio of the
# medians, in posts a second, is to be at least 0.9 where pieces of up to 65,536 bytes come, as many as a stream reads at once. It is also
# told where pieces of 4,096 bytes come. That both give the same replies, byte by byte, is looked at first.
# Builds a small program over copies of the crates in a temporary folder, whose files stand in bench/hub/ and, where it is that of
# tests/hub.py, in tests/hub/. `bench/hub.sh --try` builds it unproved by `rt try` and looks at the replies to some posts alone;
# `bench/hub.sh ROUNDS` has other rounds than five.
set -eu
. "$(dirname "$0")/workspace.sh"

workspace sql_tables as2_names as2_media as2_parts as2_text as2_mic as2_framing as2_mdn as2_agreement as2_exchange as2_posts as2_messages as2_hub \
    as2_records as2_lists as2_audit as2_rows as2_views as2_json as2_store as2_kept as2_station as2_http as2_front
echo "hub_bench: as2_text as2_names as2_media as2_mic as2_mdn as2_agreement as2_exchange as2_posts as2_records as2_kept as2_station as2_messages as2_http as2_hub as2_front sqlite" >> "$work/crates.txt"
mkdir -p "$work/crates/hub_bench/src"
for file in "$top"/bench/hub/*.rattle "$top/tests/hub/second.rattle"; do
    name=$(basename "$file" .rattle)
    cp "$file" "$work/crates/hub_bench/src/$name.rt"
done
mkdir -p "$work/crates/hub_bench/proofs/second/Second/serve"
sed s/PROGRAM/hub_bench/ "$top/tests/hub/second.proof" > "$work/crates/hub_bench/proofs/second/Second/serve/Invariants.antt"
[ "${1:-}" = --try ] || build hub_bench

python3 "$top/bench/hub.py" "$top/examples/agreements.toml" "$work" "$@"
