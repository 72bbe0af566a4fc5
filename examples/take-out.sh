#!/bin/sh
# Writes each received document that was processed to FOLDER/PARTNER/NUMBER, once, in the order of their numbers. PARTNER is the name of who
# sent it; a byte of it that isn't a letter, a digit or one of -_.~!*'() becomes %XX, and so does a dot at its beginning. A document that was
# not processed (E in `list in`) is left out, with a line on standard error. FOLDER belongs to one store. The script needs jq.
#
# It may be stopped at any moment; the next run goes on. A document is written under another name first. Then FOLDER/.taken notes its
# number, its PARTNER, the store's file and its identifier; then the document gets its name. Each step is on the disk before the next one
# begins. So no document is left out, and none is written twice, even if it was taken away meanwhile.
#
# If nothing came, a run asks for the next number alone. (`list in` lists all; it can't begin at a number.) After the store's file was
# replaced, each run lists the inbox until a document comes, since a copy may go on with greater numbers. If the last document that was taken
# out isn't listed, or another one has its number, an older copy is in place, and what comes may get numbers that .taken is past.
# Then the script says so and writes nothing; its status is 2.
# take-out.sh AGREEMENTS STORE FOLDER [PROGRAM]
set -eu
export LC_ALL=C
agreements=$1 store=$2 folder=$3 program=${4:-as2desk}
fail() { printf 'take-out: %s\n' "$1" >&2; exit 2; }
mkdir -p "$folder" || exit 2
exec 9> "$(dirname "$store")/station.lock"
flock -w 60 9 || fail "the lock wasn't had in a minute"
# (each command keeps the lock open, so one that outlives this script keeps the next run waiting)
station() { "$program" --agreements "$agreements" --store "$store" "$@" < /dev/null; }
# (some file systems can't sync a folder alone)
on_disk() { sync "$@" 2> /dev/null || sync -f "$@"; }
note() {
    { printf '%s %s %s %s\n' "$1" "$2" "$3" "$4" > "$folder/.noting" && sync "$folder/.noting" && mv "$folder/.noting" "$folder/.taken" &&
        on_disk "$folder"; } || fail "$folder/.taken can't be written"
}
# Gives a document that is noted its name, in one step: a partner's folder on another file system gets it under a hidden name first.
place() {
    whole=$folder/.whole-$1 near=$folder/$2/.whole-$1
    [ -e "$whole" ] || [ -e "$near" ] || return 0
    mkdir -p "$folder/$2" || exit 2
    if [ ! -e "$whole" ]; then
        whole=$near
    elif [ "$(stat -L -c %d "$folder")" != "$(stat -L -c %d "$folder/$2")" ]; then
        { mv "$whole" "$near" && sync "$near"; } || fail "$1 of $2 can't be written"
        whole=$near
    fi
    # (what has the name already is the same document, or one of another store, which is kept)
    if cmp -s "$whole" "$folder/$2/$1"; then backup=none; else backup=numbered; fi
    { mv -T --backup="$backup" "$whole" "$folder/$2/$1" && on_disk "$folder/$2"; } || fail "$1 of $2 can't get its name"
}

taken='' partner='' file='' identifier=''
if [ -e "$folder/.taken" ]; then
    read -r taken partner file identifier < "$folder/.taken" || :
    case $taken in '' | *[!0-9]*) fail "$folder/.taken is damaged: write the number of the last document that was taken out to it" ;; esac
    case ${partner:=-} in .* | */*) fail "$folder/.taken is damaged: write the number of the last document that was taken out to it" ;; esac
else
    for whole in "$folder"/.whole-* "$folder"/*/[0-9]*; do
        [ ! -e "$whole" ] || fail "$folder/.taken is gone: write the number of the last document that was taken out to it"
    done
    taken=0 partner=- identifier=-
    note 0 - - -
fi
# (noted before a stop, and without its name yet)
place "$taken" "$partner"

# Which file the store is: a copy that was put back is another one.
identify() { if [ -e "$store" ]; then stat -L -c %i.%W "$store"; else echo none; fi; }
if [ "$(identify)" = "$file" ]; then
    status=0
    said=$(station fetch $((taken + 1)) 2>&1 > /dev/null) || status=$?
    [ "$status $said" != '1 refused: NoSuchNumber' ] || exit 0
fi
station list in --format json > "$folder/.list"
jq -r --argjson taken "$taken" 'select(.number >= $taken) | "\(.number) \(.processed) " +
    (.from | gsub("(?<byte>[^A-Za-z0-9_.~!*()\\x27-])"; .byte | @uri) | sub("^[.]"; "%2E")) + " " + (.identifier | @uri)' \
    "$folder/.list" > "$folder/.new"
if [ "$taken" -ne 0 ]; then
    read -r number processed sender its < "$folder/.new" || number=none
    if [ "$number" = none ]; then
        fail "document $taken was taken out, and the store ends before it: an older copy is in place"
    elif [ "$number" -eq "$taken" ]; then
        [ "${identifier:--}" != - ] || { partner=$sender identifier=$its; }
        [ "$partner $identifier" = "$sender $its" ] || fail "document $taken isn't the one that was taken out: an older copy is in place"
    fi
    # (otherwise an older copy goes on with greater numbers)
fi
# Numbers follow one another without a gap once a document has come since this file was listed to its end (`?`).
now=$(identify)
case $file in "$now" | "$now?") file=$now ;; *) file=- ;; esac
while read -r number processed sender its; do
    [ "$number" -gt "$taken" ] || continue
    if [ "$processed" = true ]; then
        station fetch "$number" > "$folder/.whole-$number"
        { sync "$folder/.whole-$number" && on_disk "$folder"; } || fail "$folder/.whole-$number can't be written"
    else
        printf 'take-out: %s of %s was not processed\n' "$number" "$sender" >&2
    fi
    note "$number" "$sender" "$file" "$its"
    place "$number" "$sender"
    taken=$number partner=$sender identifier=$its
done < "$folder/.new"
[ "$file" != - ] || note "$taken" "$partner" "$now?" "$identifier"
