# For scripts beside it, which source it: $top is the top of the repository, and $program the program that was proved and built here, or the
# release where none was.
top=$(cd "$(dirname "$0")/.." && pwd)
"$top/as2desk" --version > /dev/null
program=$top/crates/as2desk/out/as2desk
[ -x "$program" ] || program=$top/dist/as2desk
