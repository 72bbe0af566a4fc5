#!/bin/sh
# The digest of what the program is built from: `tools/sources.sh KIT`, where KIT is the line that `rt version` prints. It goes over the
# names and the bytes of all sources, specs and proofs, of crates.txt, and over that line.
set -eu
export LC_ALL=C
cd "$(dirname "$0")/.."
{
    printf '%s\n' "$1"
    sha256sum crates.txt
    find crates/*/src crates/*/specs crates/*/proofs -type f 2>/dev/null | sort | tr '\n' '\0' | xargs -0 sha256sum
} | sha256sum | cut -d' ' -f1
