# For scripts beside it, which source it: a temporary workspace over copies of crates, in which a small program is built.
# `workspace CRATE..` makes it, in the folder $work; `build PROGRAM ARGS..` proves and builds the program there.
top=$(cd "$(dirname "$0")/.." && pwd)
work=$(mktemp -d)
trap 'rm -rf "$work"' EXIT

workspace() {
    git init -q "$work"
    for crate in "$@"; do
        mkdir -p "$work/crates/$crate"
        for part in src specs proofs out; do
            # out/ is the checker's kept work, where there is any
            [ ! -d "$top/crates/$crate/$part" ] || cp -rp "$top/crates/$crate/$part" "$work/crates/$crate/"
        done
        grep "^$crate:" "$top/crates.txt" >> "$work/crates.txt"
    done
}

build() {
    program=$1
    shift
    (cd "$work/crates/$program" && rt run -- "$@" < /dev/null > /dev/null 2> "$work/build.log") || { cat "$work/build.log" >&2; exit 1; }
}
