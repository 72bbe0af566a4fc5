#!/bin/sh
# Shows what a fresh checkout does with the release in dist/: with exactly its sources, and without `rt` on the path, the program starts;
# with one changed byte of a source, of the release or of its text it isn't taken, and the start says why. With the word `build` the
# program is built from nothing in another folder as well, which takes as long as a first start, and has to be the release's byte for byte.
# With `build FOLDER` it is the program that was built in that checkout, as by `rt ci`; the checkout has to be of the same sources.
set -eu
top=$(cd "$(dirname "$0")/.." && pwd)
built=${2:+$(cd "$2" && pwd)}
room=$(mktemp -d)
trap 'rm -rf "$room"' EXIT
without_rt=$(echo "$PATH" | tr ':' '\n' | while read -r at; do [ -x "$at/rt" ] || echo "$at"; done | paste -sd:)

# A fresh checkout of what is committed.
fresh() {
    cd "$room"
    rm -rf "$room/checkout"
    git clone --quiet "$top" "$room/checkout"
    cd "$room/checkout"
}

# Starts the program without `rt`, and looks for the words that it has to say on standard error.
says() {
    told=$(PATH=$without_rt ./as2desk --version 2>&1 >version.txt) || true
    case $told in
    *"$1"*) echo "ok    $1" ;;
    *)
        echo "WRONG wanted: $1; said: $told"
        exit 1
        ;;
    esac
}

fresh
says "built from these very sources"
grep -q '^as2desk ' version.txt
[ -z "$(PATH=$without_rt ./as2desk --version 2>&1 >/dev/null)" ] && echo "ok    and then it says nothing"
fresh
echo "-- a changed byte" >> crates/as2_names/specs/Names.antt
says "the release was built from other sources than these"
fresh
printf 'x' | dd of=dist/as2desk-x86_64-linux.xz bs=1 seek=5000 conv=notrunc 2>/dev/null
says "the release isn't the one that its text tells of"
fresh
sed -i 's/^glibc: .*/glibc: 99.9/' dist/as2desk-x86_64-linux.txt
says "the release needs glibc 99.9, which isn't here"
fresh
rm dist/as2desk-x86_64-linux.xz
says "there is no release beside these sources"
if [ "${1-}" = build ]; then
    if [ -z "$built" ]; then
        fresh
        ./as2desk --prove
        built=$room/checkout
    fi
    text=$top/dist/as2desk-x86_64-linux.txt
    [ "$(cd "$built" && tools/sources.sh "$(rt version)")" = "$(sed -n 's/^sources: //p' "$text")" ] || {
        echo "WRONG what was built there is of other sources than the release"
        exit 1
    }
    [ "$(sha256sum < "$built/crates/as2desk/out/as2desk" | cut -d' ' -f1)" = "$(sed -n 's/^program: //p' "$text")" ] || {
        echo "WRONG the program that was built there is another than the release's"
        exit 1
    }
    echo "ok    built there, byte for byte the release's"
fi
