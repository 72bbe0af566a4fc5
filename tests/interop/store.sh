#!/bin/sh
# Runs as2desk over a store in a file, and reads the file's tables with SQLite's own program, `sqlite3`. The plain post is
# posted twice: both answers have the bytes of the program's stored run. A third post asks for its receipt later. The rows of
# the tables are then those of the two entries, and a post after `sqlite3` has had the file is answered as before. Prints a
# line for each comparison; the status is 1 where one fails. The program is ./as2desk, or the file that the argument names.
set -eu
top=$(cd "$(dirname "$0")/../.." && pwd)
program=$(realpath "${1:-$top/as2desk}")
work=$(mktemp -d)
trap 'rm -rf "$work"' EXIT
cd "$work"
status=0

# Posts standard input at that moment.
post() {
    "$program" --agreements "$top/examples/agreements.toml" --store station.db --moment "$1" post
}

# The rows that a query shows.
rows() {
    sqlite3 -list -separator '|' -nullvalue NULL station.db "$1"
}

# What, wanted, found.
compare() {
    if [ "$2" = "$3" ]; then
        printf 'ok    %s\n' "$1"
    else
        printf 'WRONG %s\nwanted:\n%s\nfound:\n%s\n' "$1" "$2" "$3"
        status=1
    fi
}

# What, a reply: it is the stored one.
compare_reply() {
    if cmp "$top/crates/as2desk/stdout" "$2"; then
        printf 'ok    %s\n' "$1"
    else
        printf 'WRONG %s\n' "$1"
        status=1
    fi
}

later='s|^Content-Length: 3|Receipt-Delivery-Option: http://127.0.0.1:8082/mdn\r\n&|'
post 1000 <"$top/examples/plain-post.http" >first
post 1000 <"$top/examples/plain-post.http" >second
sed -e 's/^AS2-From: Buyer/AS2-From: Depot/' -e "$later" "$top/examples/plain-post.http" | post 2000 >third
compare_reply "the answer to a post" first
compare_reply "the answer to its repeat" second
compare "the answer to a post whose receipt comes later" "HTTP/1.1 202 Accepted" "$(head -n 1 third | tr -d '\r')"

compare "the file is whole" "ok" "$(rows 'PRAGMA integrity_check')"
compare "every key has its row" "" "$(rows 'PRAGMA foreign_key_check')"
compare "meta" "as2-station|3|3|1" "$(rows 'SELECT * FROM meta')"
# Outcome 6: processed. Asked 2: in the answer, 3: by a request. Receipt 3: sent, 2: pending. Try 1: idle.
compare "inbox2" "1|Buyer|Supplier|m1@x|<m1@x>|application/edi-x12|3|1000|6|2|NULL|sha1|qZk+NkcGgWq6PiVxeFDCbJzQ2J0=|3|0|1|NULL
2|Depot|Supplier|m1@x|<m1@x>|application/edi-x12|3|2000|6|3|http://127.0.0.1:8082/mdn|sha1|qZk+NkcGgWq6PiVxeFDCbJzQ2J0=|2|0|1|2000" \
    "$(rows 'SELECT number, CAST(sender AS TEXT), CAST(receiver AS TEXT), CAST(identifier_value AS TEXT), CAST(identifier AS TEXT), CAST(content_type AS TEXT), length, moment, outcome, how, CAST(url AS TEXT), digest, CAST(mic AS TEXT), mdn, tries, attempt, due FROM inbox2 ORDER BY number')"
compare "the types of inbox" "integer|blob|blob|blob|blob|blob|integer|integer|integer|integer|null|text|blob|integer|integer|integer|null" \
    "$(rows 'SELECT typeof(number), typeof(sender), typeof(receiver), typeof(identifier_value), typeof(identifier), typeof(content_type), typeof(length), typeof(moment), typeof(outcome), typeof(how), typeof(url), typeof(digest), typeof(mic), typeof(mdn), typeof(tries), typeof(attempt), typeof(due) FROM inbox2 WHERE number = 1')"
compare "inbox2_piece" "1|0|616263
2|0|616263" "$(rows 'SELECT number, position, lower(hex(bytes)) FROM inbox2_piece ORDER BY number, position')"
# Kind 2: a receipt to send.
compare "waiting" "2|2|2000" "$(rows 'SELECT kind, number, due FROM waiting ORDER BY place')"
compare "the other tables are empty" "0|0|0" \
    "$(rows 'SELECT (SELECT count(*) FROM outbox), (SELECT count(*) FROM outbox_piece), (SELECT count(*) FROM evidence)')"

post 1000 <"$top/examples/plain-post.http" >fourth
compare_reply "the answer to a repeat after SQLite has had the file" fourth
compare "the entries are the same" "2" "$(rows 'SELECT count(*) FROM inbox2')"
exit $status
