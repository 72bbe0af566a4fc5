#!/bin/sh
# What a monitor watches of a station: monitor.sh AGREEMENTS STORE [PROGRAM]. It asks under the lock that lies beside the store,
# station.lock, and waits five seconds for it. The status:
#   0  the station is well
#   1  somebody has to look: documents are in error, settled with a warning, or due for a quarter of an hour; their lines are printed
#   2  the station couldn't be asked: the lock wasn't had, a command failed, or none answered in a minute; standard error says why
[ $# -ge 2 ] && [ -s "$2" ] || { echo "monitor: wanted: agreements, and a store that is there" >&2; exit 2; }
agreements=$1 store=$2 program=${3:-as2desk}
exec 9> "$(dirname "$store")/station.lock"
flock -w 5 9 || { echo "monitor: the lock wasn't had in five seconds" >&2; exit 2; }
station() {
    timeout 60 "$program" --agreements "$agreements" --store "$store" "$@" && return 0 || status=$?
    [ "$status" -ne 124 ] || echo "monitor: no answer in a minute" >&2
    return "$status"
}

said=$(station list out --state E && station list out --state W) || exit 2
due=$(station --moment $(($(date +%s) - ${MONITOR_SECONDS:-900})) outstanding) || exit 2
# `no-receipt-asked` is as it should be. Behind its five counts `outstanding` has the documents that were due then: nobody sends them, or
# no receipt comes.
lines=$(printf '%s\n' "$said" | grep -v ' no-receipt-asked ' | grep . ; printf '%s\n' "$due" | sed 1,5d | grep .)
[ -z "$lines" ] && exit 0
printf '%s\n' "$lines"
exit 1
