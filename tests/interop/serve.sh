#!/bin/sh
# Posts to `as2desk serve` with real `curl`, and reads the receipts out of its answers: documents small, empty and of the greatest
# length, by their length and chunked, two on one connection, one repeated, requests that are refused; and one with Python's
# `http.client`, which chunks what comes of an iterator. Their digests are compared with Python's. Prints a line for each comparison;
# the status is 1 where one fails. The program is ./as2desk, or the file that the argument names.
set -eu
top=$(cd "$(dirname "$0")/../.." && pwd)
program=$(realpath "${1:-$top/as2desk}")
work=$(mktemp -d)
serving=
trap '[ -z "$serving" ] || kill "$serving" 2>/dev/null; rm -rf "$work"' EXIT
cd "$work"
status=0
count=13
from=Buyer

# What, wanted, found.
compare() {
    if [ "$2" = "$3" ]; then
        printf 'ok    %s\n' "$1"
    else
        printf 'WRONG %s\nwanted:\n%s\nfound:\n%s\n' "$1" "$2" "$3"
        status=1
    fi
}

# Posts a file under an identifier, with further words for curl; prints the status. The answer's body lies in the file `answer`.
post() {
    content=$1
    identifier=$2
    shift 2
    curl --silent --max-time 20 --output answer --write-out '%{http_code}' --data-binary "@$content" \
        -H 'AS2-Version: 1.0' -H "AS2-From: $from" -H 'AS2-To: Supplier' -H "Message-ID: <$identifier@x>" \
        -H 'Content-Type: application/edi-x12' -H 'Disposition-Notification-To: a@x' "$@" "http://$address/as2" || echo "curl ended with $?"
}

# The field of that name of the receipt in the file `answer`.
field() {
    tr -d '\r' <answer | sed -n "s/^$1: //p"
}

# What a receipt says of a file under SHA-1, and under another digest.
mic() {
    python3 -c 'import base64, hashlib, sys; print(base64.b64encode(hashlib.new(sys.argv[2], open(sys.argv[1], "rb").read()).digest()).decode() + ", " + sys.argv[2])' "$1" "${2:-sha1}"
}

"$program" --agreements "$top/examples/agreements.toml" --store station.db serve --listen 127.0.0.1:0 --count $count >ends 2>said </dev/null &
serving=$!
for _ in $(seq 1000); do
    address=$(sed -n 's/^listening: //p' said)
    [ -z "$address" ] || break
    sleep 0.02
done

printf 'UNB+UNOA:1+A+B\r\n\000\377' >order
compare "a document: the status" 200 "$(post order m1)"
compare "a document: its receipt names it" "<m1@x>" "$(field Original-Message-ID)"
compare "a document: it was processed" "automatic-action/MDN-sent-automatically; processed" "$(field Disposition)"
compare "a document: its digest" "$(mic order)" "$(field Received-content-MIC)"
cp answer first
compare "the same once more: the status" 200 "$(post order m1)"
compare "the same once more: the receipt" same "$(cmp -s first answer && echo same || echo another)"
compare "another document under its identifier" 409 "$(post /dev/null m1)"
compare "an empty document under MD5" 200 "$(post /dev/null m2 -H 'Disposition-Notification-Options: signed-receipt-micalg=optional, md5')"
compare "an empty document under MD5: its digest" "$(mic /dev/null md5)" "$(field Received-content-MIC)"

head -c 1048576 /dev/urandom >greatest
compare "the greatest document" 200 "$(post greatest m3)"
compare "the greatest document: its digest" "$(mic greatest)" "$(field Received-content-MIC)"
head -c 3000000 /dev/urandom >greater
compare "a greater one" 413 "$(post greater m4)"
compare "a greater one, all of it sent before the answer is read" 413 "$(post greater m4 -H 'Expect:')"

compare "a document in chunks" 200 "$(post order m6 -H 'Transfer-Encoding: chunked')"
compare "a document in chunks: its digest" "$(mic order)" "$(field Received-content-MIC)"
compare "the greatest document in chunks" 200 "$(post greatest m7 -H 'Transfer-Encoding: chunked')"
compare "the greatest document in chunks: its digest" "$(mic greatest)" "$(field Received-content-MIC)"
compare "a greater one in chunks" 413 "$(post greater m8 -H 'Transfer-Encoding: chunked' -H 'Expect:')"
compare "a document by http.client, line by line" 200 "$(python3 - "$address" order m9 <<'END'
import http.client
import sys

address, content, identifier = sys.argv[1:]
connection = http.client.HTTPConnection(address, timeout=20)
head = {"AS2-Version": "1.0", "AS2-From": "Buyer", "AS2-To": "Supplier", "Message-ID": f"<{identifier}@x>"}
head |= {"Content-Type": "application/edi-x12", "Disposition-Notification-To": "a@x"}
connection.request("POST", "/as2", (line for line in open(content, "rb")), head)
answer = connection.getresponse()
with open("answer", "wb") as file:
    file.write(answer.read())
print(answer.status)
END
)"
compare "a document by http.client: its digest" "$(mic order)" "$(field Received-content-MIC)"

compare "two requests on one connection" "405 404" "$(curl --silent --output /dev/null --write-out '%{http_code} ' "http://$address/as2" \
    --next --silent --output /dev/null --write-out '%{http_code}' --data-binary @order "http://$address/other")"
from=Nobody
compare "a partner of another name" 403 "$(post order m5)"

wait "$serving" && ended=0 || ended=$?
serving=
compare "the program's status" 0 "$ended"
compare "how the connections ended" "     10 connection: Closed
     3 connection: BadFraming" "$(sort -r ends | uniq -c | sed 's/^ *\([0-9]\)/     \1/')"
exit $status
