#!/bin/sh
# Two stations run on this machine and exchange documents: Supplier's, and that of three firms, Buyer, Depot and Archive. Buyer sends its
# receipts in the answer, Depot later, Archive none. Both send by themselves what is due. Then the receiving station is killed, and goes on with its
# records; Supplier's tries again until it does. At last Supplier's is stopped, and single commands end what is left. All lies in a temporary
# folder, which is removed at the end. What differs from what is wanted ends the script with status 1.
#
# The program is ./as2desk, or the file that the argument names.
set -eu
top=$(cd "$(dirname "$0")/.." && pwd)
program=$(realpath "${1:-$top/as2desk}")
work=$(mktemp -d)

# Ends what still runs, and takes the folder away.
leave() {
    for process in "$work"/*.process; do
        [ ! -e "$process" ] || kill "$(cat "$process")" 2>/dev/null || true
    done
    rm -rf "$work"
}

trap leave EXIT
trap 'exit 1' INT TERM
cd "$work"
"$program" --version >/dev/null

# Says what comes next.
tell() {
    printf '\n%s\n' "$*"
}

# What, wanted, found: shows what was found, or what differs.
check() {
    if [ "$2" != "$3" ]; then
        printf 'two-stations: differs: %s\nwanted:\n%s\nfound:\n%s\n' "$1" "$2" "$3" >&2
        exit 1
    fi
    [ -z "$3" ] || printf '%s\n' "$3" | sed 's/^/    /'
}

# Each station over its own agreements and records.
supplier() {
    "$program" --agreements supplier.toml --store supplier.db "$@"
}
firms() {
    "$program" --agreements firms.toml --store firms.db "$@"
}

# What, wanted, and the words of a command: has it asked again until it says that, and shows it. What a station sends, it sends by itself.
await() {
    what=$1 wanted=$2
    shift 2
    for _ in $(seq 300); do
        found=$("$@")
        [ "$found" != "$wanted" ] || break
        sleep 0.1
    done
    check "$what" "$wanted" "$found"
}

# The line of a document in a station's list. How many tries it took depends on the machine, where there was more than one.
line_of() {
    "$1" list out | sed -n "$2p" | sed -E 's/ ([A-Z]) +([2-9]|[1-9][0-9]) ([-R]) / \1 2+ \3 /'
}

# Has a station listen at an address: its name, the address, and the command, `run` or `serve` with its options. The port is in `port` then.
listen() {
    name=$1 address=$2
    shift 2
    : >"$name.said"
    "$program" --agreements "$name.toml" --store "$name.db" "$@" --listen "$address" >"$name.ends" 2>"$name.said" </dev/null &
    echo $! >"$name.process"
    for _ in $(seq 500); do
        port=$(sed -n 's/^listening: 127\.0\.0\.1://p' "$name.said")
        [ -z "$port" ] || return 0
        kill -0 "$(cat "$name.process")" 2>/dev/null || break
        sleep 0.02
    done
    check "$name listens" "listening: $address" "$(cat "$name.said")"
}

# Has a station run: its name, the address.
start() {
    listen "$1" "$2" run
}

# Waits until a station has ended, and checks its status.
finish() {
    wait "$(cat "$1.process")" && ended=0 || ended=$?
    rm "$1.process"
    check "the status of the station" "$2" "status $ended"
}

# Stops a station that runs, and checks what it said since its store was open: each line once, without the moments, in any order. Its answers to
# `list` aren't told, nor how it was that a receipt came before the answer to its document was read.
stop() {
    check "what stop says" "" "$("$1" stop)"
    finish "$1" "status 0"
    said=$(sed 1,2d "$1.said" | sed 's/^[0-9T:-]*Z //; /^command list 0$/d; s/^\(sent document .*:\) already settled$/\1 delivered/' | awk '!said[$0]++')
    if [ "$(printf '%s\n' "$said" | sort)" = "$(printf '%s\n' "$2" | sort)" ]; then
        check "what the station did" "$said" "$said"
    else
        check "what the station did" "$2" "$said"
    fi
}

# The agreements: who each station is, and where and on what terms its partners are reached. The port of Supplier's station, and that
# of the firms'.
agreements() {
    cat >supplier.toml <<END
domain = "supplier.example"
return_url = "http://127.0.0.1:$1/as2"
[[organization]]
name = "Supplier"
END
    for partner in Buyer:sync Depot:async Archive:none; do
        cat >>supplier.toml <<END
[[partner]]
name = "${partner%:*}"
url = "http://127.0.0.1:$2/as2"
receipt = "${partner#*:}"
digest = "sha1"
content_type = "application/edi-x12"
max_tries = 99
retry_seconds = 1
overdue_seconds = 60
END
    done
    cat >firms.toml <<END
domain = "firms.example"
[[organization]]
name = "Buyer"
[[organization]]
name = "Depot"
[[organization]]
name = "Archive"
[[partner]]
name = "Supplier"
url = "http://127.0.0.1:$1/as2"
receipt = "sync"
digest = "sha1"
content_type = "application/edi-x12"
max_tries = 2
retry_seconds = 30
overdue_seconds = 60
END
}

# The port that the system chooses for a station.
choose() {
    start "$1" 127.0.0.1:0
    stop "$1" "command stop 0"
}

tell "Each station runs once, and is told a free port. Then each has its agreements with the other."
agreements 1 1
choose firms
firms_port=$port
choose supplier
supplier_port=$port
agreements "$supplier_port" "$firms_port"
check "the agreements of Supplier" "organizations 1, partners 3" "$(supplier check)"
check "the agreements of the firms" "organizations 3, partners 1" "$(firms check)"

tell "Both run. Supplier's takes an order for Buyer, and sends it at once. Buyer's receipt is in the answer, and settles the order. Under
other agreements nothing is done."
start firms "127.0.0.1:$firms_port"
start supplier "127.0.0.1:$supplier_port"
printf 'ISA*00*order of 12 crates of apples~\r\n' >order
printf 'ISA*00*list~' >list
printf 'ISA*00*report\000\377~' >report
check "the order's number" 1 "$(supplier submit --from Supplier --to Buyer order)"
await "the order's line" "           1 S  1 R processed        Supplier -> Buyer" line_of supplier 1
check "send, while it runs" "refused: StationRuns" "$(supplier send 2>&1)"
check "under other agreements" "refused: OtherAgreements" "$("$program" --agreements firms.toml --store supplier.db list out 2>&1)"

tell "A list for Depot, and a report for Archive. The firms' station sends the receipt that Depot owes by itself, and it settles the list. Archive is
asked for none."
check "the list's number" 2 "$(supplier submit --from Supplier --to Depot list)"
check "the report's number" 3 "$(supplier submit --from Supplier --to Archive report)"
await "list out of Supplier" "           1 S  1 R processed        Supplier -> Buyer
           2 S  1 R processed        Supplier -> Depot
           3 W  1 - no-receipt-asked Supplier -> Archive" supplier list out
await "list in of the firms" "           1 S S Supplier -> Buyer <out-1@supplier.example>
           2 S S Supplier -> Depot <out-2@supplier.example>
           3 S - Supplier -> Archive <out-3@supplier.example>" firms list in

tell "The order as Supplier has it, and its content as Buyer has it: the same bytes."
check "show 1" "number: 1
state: S processed
tries: 1
due: -
from: Supplier
to: Buyer
identifier: <out-1@supplier.example>
content: 38 bytes
receipt: R at some moment, some bytes" "$(supplier show 1 | sed 's/R at [0-9]*, [0-9]* bytes$/R at some moment, some bytes/')"
firms fetch 1 >fetched
check "fetch 1" "the same" "$(cmp order fetched && echo the same)"
firms fetch 3 >fetched
check "fetch 3" "the same" "$(cmp report fetched && echo the same)"
check "outstanding" "documents not sent: 0
documents in retry: 0
receipts awaited: 0
documents in error: 0
receipts to send: 0" "$(supplier outstanding)"
check "verify" "verified: 0 received, 3 sent, 0 findings" "$(supplier verify)"
stop firms "post Supplier -> Buyer <out-1@supplier.example> 200 processed
post Supplier -> Depot <out-2@supplier.example> 202
post Supplier -> Archive <out-3@supplier.example> 200
sent receipt 2: delivered
command fetch 0
command stop 0"
stop supplier "command submit 0
sent document 1: settled S processed
command list 1
sent document 2: delivered
post Depot -> Supplier <mdn-2@firms.example> 200
sent document 3: delivered
command show 0
command outstanding 0
command verify 0
command stop 0"

if command -v sqlite3 >/dev/null; then
    tell "The records are SQLite files, which its own program reads while no station runs: sqlite3 firms.db 'SELECT ..'"
    check "the inbox by sqlite3" "1|<out-1@supplier.example>|38
2|<out-2@supplier.example>|12
3|<out-3@supplier.example>|16" "$(sqlite3 -list firms.db 'SELECT number, CAST(identifier AS TEXT), length FROM inbox2 ORDER BY number')"
    check "the file is whole" "ok" "$(sqlite3 firms.db 'PRAGMA integrity_check')"
fi

tell "Both run again. An order arrives, and then the firms' station is killed, as by a power cut (kill -9). Supplier's next order finds nobody
there, and is tried again each second."
start firms "127.0.0.1:$firms_port"
start supplier "127.0.0.1:$supplier_port"
check "the next order's number" 4 "$(supplier submit --from Supplier --to Buyer order)"
await "its line" "           4 S  1 R processed        Supplier -> Buyer" line_of supplier 4
kill -9 "$(cat firms.process)"
finish firms "status 137" 2>/dev/null
check "the number of the one after" 5 "$(supplier submit --from Supplier --to Buyer list)"
await "its line" "           5 R 2+ - retry            Supplier -> Buyer" line_of supplier 5

tell "The firms' station starts over the same records. Supplier's next try finds it, and nobody has to ask for it."
start firms "127.0.0.1:$firms_port"
await "the line of that order" "           5 S 2+ R processed        Supplier -> Buyer" line_of supplier 5
stop supplier "command submit 0
sent document 4: settled S processed
sent document 5: try failed
hint: document 5: connection refused
sent document 5: settled S processed
command stop 0"
stop firms "post Supplier -> Buyer <out-5@supplier.example> 200 processed
command stop 0"

tell "Where no station runs, single commands do the same: 'serve' answers one connection, and 'send' sends what is due. Nothing is lost, and nothing
is there twice."
check "the last order's number" 6 "$(supplier submit --from Supplier --to Buyer order)"
listen firms "127.0.0.1:$firms_port" serve --count 1
check "what Supplier sent" "document 6: settled S processed" "$(supplier send)"
finish firms "status 0"
check "how the connection ended" "connection: Closed" "$(cat firms.ends)"
check "list in of the firms after that" "           1 S S Supplier -> Buyer <out-1@supplier.example>
           2 S S Supplier -> Depot <out-2@supplier.example>
           3 S - Supplier -> Archive <out-3@supplier.example>
           4 S S Supplier -> Buyer <out-4@supplier.example>
           5 S S Supplier -> Buyer <out-5@supplier.example>
           6 S S Supplier -> Buyer <out-6@supplier.example>" "$(firms list in)"
check "list out of Supplier after that" "           1 S  1 R processed        Supplier -> Buyer
           2 S  1 R processed        Supplier -> Depot
           3 W  1 - no-receipt-asked Supplier -> Archive
           4 S  1 R processed        Supplier -> Buyer
           5 S 2+ R processed        Supplier -> Buyer
           6 S  1 R processed        Supplier -> Buyer" "$(line_of supplier 1,9)"
firms fetch 4 >fetched
check "fetch 4" "the same" "$(cmp order fetched && echo the same)"

tell "All of it is as it should be."
