#!/bin/sh
# A round of orders: hands in each file of a folder (by hand-in.sh, beside this script), and moves each file whose document has come to a
# good end from FOLDER/sent to FOLDER/done. A timer runs it. Of each other file that somebody has to look at it prints a line, in each round
# until the document is settled after all or the file is taken away: `failed` (state E), `warned` (W, by a receipt that doesn't confirm the
# bytes), `unknown` (the store has no such number), `refused` (it was never taken, and lies in FOLDER/refused).
# A station that runs sends by itself: what was handed in is done in a later round. Where none runs the script sends what is due. With
# ORDERS_SEND=no it doesn't.
# The status: 0 all is well; 1 somebody has to look; else the station wasn't reached, and the next round goes on.
# send-orders.sh AGREEMENTS STORE ORGANIZATION PARTNER FOLDER [PROGRAM]
set -eu
agreements=$1 store=$2 folder=$5 program=${6:-as2desk} status=0
"$(dirname "$0")/hand-in.sh" "$@" || { status=$?; [ "$status" -eq 1 ] || exit "$status"; }
exec 9> "$(dirname "$store")/station.lock"
flock -w 60 9 || { echo "send-orders: the lock wasn't had in a minute" >&2; exit 2; }
station() { "$program" --agreements "$agreements" --store "$store" "$@"; }
look() { printf '%s\n' "$*"; status=1; }

if [ "${ORDERS_SEND:-yes}" != no ]; then
    station tick > "$folder/.said"
    sending=0
    station send --timeout 5 > "$folder/.said" 2>&1 || sending=$?
    # (the station sends; any other refusal keeps all from being sent that is due behind it)
    if [ "$sending" -ne 1 ] || ! grep -qx 'refused: StationRuns' "$folder/.said"; then
        cat "$folder/.said" >&2
        [ "$sending" -le 1 ] || exit "$sending"
        [ "$sending" -eq 0 ] || status=1
    fi
fi

mkdir -p "$folder/done"
station list out > "$folder/.list"
for file in "$folder"/sent/*; do
    [ -f "$file" ] || continue
    name=${file##*/}
    stands=$(awk -v number="${name%%-*}" '$1 == number { print $2, $5 }' "$folder/.list")
    case $stands in
        'S '* | 'W no-receipt-asked') mv "$file" "$folder/done/" && echo "done: $name, $stands" ;;
        'E '*) look "failed: $name, $stands" ;;
        'W '*) look "warned: $name, $stands" ;;
        '') look "unknown: $name" ;;
    esac
done
for file in "$folder"/refused/*; do
    [ ! -f "$file" ] || look "refused: ${file##*/}"
done
exit "$status"
