#!/bin/sh
# What the network costs, over a store in a file: documents sent a second by one `send` to a partner on the loopback who answers with
# receipts, connections served a second by one `serve`, each with a post that is recorded, and how long as many bare writes take,
# each synced, as either syncs. Then `list out` of 100,000 documents: seconds, and the most memory held.
# `bench/sending.sh [COUNT [DOCUMENTS]]`: another count than 1,000, and another than 100,000.
set -eu
. "$(dirname "$0")/program.sh"
exec python3 "$top/bench/sending.py" "$top" "$program" "$@"
