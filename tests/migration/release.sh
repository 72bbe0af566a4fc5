#!/bin/sh
# Unpacks the program of release 0.5.0, the last that writes version 1, to the file that the argument names. It lies in dist/, or, where
# dist/ has another release by now, in the history of this repository.
set -eu
file=$(realpath "$1")
cd "$(dirname "$0")/../.."
program=4d45d6d3ac07d57a5dbd7f3b857acd4d2a5378b5f64f3a5c8968a96ef421b2ce
release=dist/as2desk-x86_64-linux

# The packed release.
packed() {
    if grep -qx "program: $program" $release.txt; then
        cat $release.xz
        return
    fi
    for commit in $(git log --format=%H -- dist); do
        if git show "$commit:$release.txt" | grep -qx "program: $program"; then
            git show "$commit:$release.xz"
            return
        fi
    done
    echo "release.sh: neither dist/ nor the history has release 0.5.0" >&2
}

packed | xz -dc > "$file"
[ "$(sha256sum < "$file" | cut -d' ' -f1)" = $program ]
chmod +x "$file"
