#!/bin/sh
# Makes a release of the program that stands in crates/as2desk/out/, as `rt ci` or `./as2desk --prove` proved and built it from the
# sources as they stand: packed in dist/, with a text beside it that says of what it was built. `./as2desk` takes it on a checkout with
# exactly these sources.
set -eu
cd "$(dirname "$0")/.."
program=crates/as2desk/out/as2desk
release=dist/as2desk-x86_64-linux
if [ ! -x "$program" ]; then
    echo "release.sh: the program isn't built: './as2desk --prove', or 'rt ci', builds it" >&2
    exit 1
fi
if [ -n "$(find crates/*/src crates/*/specs crates/*/proofs crates.txt -newer "$program" -print -quit 2>/dev/null)" ]; then
    echo "release.sh: a source is newer than the program: './as2desk --prove' builds it" >&2
    exit 1
fi
kit=$(rt version)
mkdir -p dist
xz -9 -e -k -c "$program" > "$release.xz"
{
    echo "version: $("$program" --version | cut -d' ' -f2)"
    echo "kit: $kit"
    echo "sources: $(tools/sources.sh "$kit")"
    echo "glibc: $(objdump -T "$program" | grep -o 'GLIBC_[0-9.]*' | sort -Vu | tail -n 1 | cut -d_ -f2)"
    echo "program: $(sha256sum < "$program" | cut -d' ' -f1)"
    echo "packed: $(sha256sum < "$release.xz" | cut -d' ' -f1)"
} > "$release.txt"
cat "$release.txt"
