#!/bin/sh
# Hands in each file of a folder, once, and moves it to FOLDER/sent as NUMBER-NAME. Several folders may be handed in to one store, one for
# each partner. A station may run over the store, and others may submit documents to it at any time.
#
# It may be stopped at any moment; the next run goes on, be it of another folder. For each file it
#   1. writes down in STORE.begun what it begins with,
#   2. moves the file to FOLDER/begun, so that no other file of the same name is taken for it,
#   3. submits it with the moment that is written down,
#   4. writes the number down in STORE.last, moves the file to FOLDER/sent, and removes STORE.begun.
# Each step is on the disk before the next one begins. If STORE.begun is there at the start of a run, and the file in FOLDER/begun, the file may
# have been taken. Then the run looks at each document from the number on that STORE.begun has. The file's document has its bytes, its
# sender, its partner and that moment; if there is none, the file is submitted. A document that somebody else submits is never
# taken for the file's, even with the same bytes: both are sent. (The exception: the same bytes for the same partner within the very second in
# which a run is stopped.)
#
# A file that is refused (TooLarge, say) goes to FOLDER/refused. If it isn't known whether a file was taken, it stays in FOLDER/begun for the next
# run; if the agreements or the names are wrong, it goes back to FOLDER.
# Names that begin with a dot, or end in .part or .tmp, are left alone: write a file under such a name, and rename it when it is whole.
# The status: 0 done; 1 somebody has to look at a file; otherwise the run ended early, and standard error says why.
# hand-in.sh AGREEMENTS STORE ORGANIZATION PARTNER FOLDER [PROGRAM]
set -eu
export LC_ALL=C
agreements=$1 store=$2 folder=$5 program=${6:-as2desk}
begun=$store.begun last=$store.last look=$store.look beside=$(dirname "$store") next='' status=0
line='
'
say() { printf 'hand-in: %s\n' "$1" >&2; }
fail() { say "$1"; exit 2; }
case $3$4$5 in *"$line"*) fail "a name has a line feed" ;; esac
mkdir -p "$folder/begun" "$folder/sent" "$folder/refused" || exit 2
folder=$(CDPATH='' cd "$folder" && pwd)

# An empty folder costs nothing, not even a wait for the lock.
waits() {
    for file in "$folder"/* "$folder"/begun/*; do
        case $file in *.part | *.tmp) continue ;; esac
        [ ! -f "$file" ] || return 0
    done
    return 1
}
[ -e "$begun" ] || waits || exit 0

exec 9> "$beside/station.lock"
flock -w 60 9 || fail "the lock wasn't had in a minute"
# (each command keeps the lock open, so one that outlives this script keeps the next run waiting)
station() { "$program" --agreements "$agreements" --store "$store" "$@" < /dev/null; }
is_number() { case $1 in '' | *[!0-9]*) return 1 ;; esac; }
# (some file systems can't sync a folder alone)
on_disk() { sync "$@" 2> /dev/null || sync -f "$@"; }
# Writes lines to a file beside the store. A fault or a stop leaves the file as it was.
note() {
    noted=$1
    shift
    { printf '%s\n' "$@" > "$noted.new" && sync "$noted.new" && mv "$noted.new" "$noted" && on_disk "$beside"; } || fail "$noted can't be written"
}
# Which file the store is: a copy that was put back is another one.
identify() { if [ -e "$store" ]; then stat -L -c %i.%W "$store"; else echo none; fi; }

# Finds in `next` the least number that the next document may have, and in `handed` the last one that was printed. Only a store whose file isn't
# the one of STORE.last is listed.
learn() {
    identity=$(identify) number='' of='' end=''
    [ ! -e "$last" ] || read -r number of end < "$last" || :
    { is_number "$number" && [ "$end" = end ]; } || number=0 of=''
    handed=$number
    if [ "$identity" = none ]; then
        next=1
    elif [ "$identity" = "$of" ]; then
        next=$((handed + 1))
    else
        listing=$(station list out) || exit
        number=$(printf '%s\n' "$listing" | awk 'NF { last = $1 } END { print last }')
        next=$((${number:-0} + 1))
    fi
}

begin() {
    moment=$(date +%s)
    note "$begun" 'hand-in 2' "$next" "$moment" "$identity" "$from" "$to" "$at" "$name" end
}

# Moves the file that is begun.
move() {
    { mv -T --backup=numbered "$at/begun/$name" "$1" && on_disk "$(dirname "$1")" "$at/begun"; } || fail "$name can't be moved to $1"
    rm "$begun"
}

# The file that is begun was taken as document `number`.
taken() {
    [ "$number" -gt "$handed" ] || { say "document $number was handed in after document $handed: an older store is in place, or another one"; status=1; }
    identity=$(identify) handed=$number
    note "$last" "$number $identity end"
    move "$at/sent/$number-$name"
    next=$((number + 1))
}

# Submits the file that is begun.
submit() {
    ended=0
    said=$(station --moment "$moment" submit --from "$from" --to "$to" "$at/begun/$name" 2>&1) || ended=$?
    number=$(printf '%s\n' "$said" | sed -n '/^[0-9][0-9]*$/p')
    printf '%s\n' "$said" | sed '/^[0-9]*$/d' >&2
    if [ "$ended" -eq 0 ] && is_number "$number"; then
        taken
        return
    fi
    # What says that nothing was recorded is of the file, or of how the station was asked. All else leaves it open.
    case $ended.$said in
        '1.refused: TooLarge'* | '1.refused: UnknownOrganization'* | '1.refused: UnknownPartner'*) outcome=refused ;;
        '1.refused: CannotRead'*) if cat "$at/begun/$name" > /dev/null 2>&1; then outcome=unasked; else outcome=refused; fi ;;
        '1.refused: OtherAgreements'* | '1.agreements: '* | 2.*) outcome=unasked ;;
        *) outcome=open ;;
    esac
    if [ "$outcome" = refused ]; then
        move "$at/refused/$name"
        say "$name is refused, and lies in $at/refused"
        status=1
        return
    fi
    if [ "$outcome" = unasked ]; then
        mv -n -T "$at/begun/$name" "$at/$name" || exit 2
        # (otherwise another file has come under its name)
        if [ ! -e "$at/begun/$name" ]; then
            on_disk "$at" "$at/begun" || exit 2
            rm "$begun"
            exit "$ended"
        fi
    fi
    say "whether $name was taken isn't known: it lies in $at/begun, and the next run looks"
    case $ended.$said in 0.* | '1.refused: NoStation'*) exit 2 ;; *) exit "$ended" ;; esac
}

# What the page of a document says; a name is freed of its quotes.
bare() { case $1 in '"'*'"') printf '%s\n' "$1" | sed 's/^"//; s/"$//; s/\\\(.\)/\1/g' ;; *) printf '%s\n' "$1" ;; esac; }
page() { sed -n "/^$1: /{s///p;q;}" "$look/sent-$number.txt"; }
is_it() {
    same=0
    cmp -s "$at/begun/$name" "$look/sent-$number.content" || same=$?
    [ "$same" -le 1 ] || fail "$at/begun/$name can't be compared with document $number"
    sender=$(bare "$(page from)") receiver=$(bare "$(page to)") submitted=$(page submitted)
    # (each of these has something to say, or it couldn't be read)
    case $sender$line$receiver$line$submitted in "$line"* | *"$line" | *"$line$line"*) fail "the page of document $number can't be read" ;; esac
    [ "$same" -eq 0 ] && [ "$sender" = "$(bare "$from")" ] && [ "$receiver" = "$(bare "$to")" ] && [ "$submitted" = "$date" ]
}

# Finds in `number` the document of the file that is begun, from `next` on. If there is none, `number` is past all that there are.
search() {
    date=$(date -u -d "@$moment" '+%a, %d %b %Y %H:%M:%S GMT') || exit 2
    number=$next gap=none
    while :; do
        { rm -rf "$look" && mkdir -m 700 "$look"; } || fail "$look can't be made"
        ended=0
        said=$(station evidence "$number" --out "$look" 2>&1 > /dev/null) || ended=$?
        case $ended.$said in
            0.*)
                ! is_it || return 0
                number=$((number + 1))
                ;;
            '1.refused: NoSuchNumber')
                # The last one, or a gap: a store that is put back may go on with greater numbers. Only the listing tells; and what
                # the station had still in hand it has done by now.
                [ "$gap" != "$number" ] || fail "document $number is listed, and can't be had"
                listing=$(station list out) || exit
                highest=$(printf '%s\n' "$listing" | awk 'NF { last = $1 } END { print last }')
                [ "${highest:-0}" -ge $((next - 1)) ] || fail "document $((next - 1)) isn't in the store, so $name can't be looked for: see $begun"
                gap=$(printf '%s\n' "$listing" | awk -v from="$number" '$1 + 0 >= from + 0 && !found { found = 1; print $1 }')
                [ -n "$gap" ] || return 1
                number=$gap
                ;;
            *)
                printf '%s\n' "$said" >&2
                say "whether $name was taken can't be asked: it lies in $at/begun"
                [ "$ended" -ne 0 ] || ended=2
                exit "$ended"
                ;;
        esac
    done
}

if [ -e "$begun" ]; then
    form='' end=''
    { IFS= read -r form && IFS= read -r next && IFS= read -r moment && IFS= read -r was && IFS= read -r from && IFS= read -r to &&
        IFS= read -r at && IFS= read -r name && IFS= read -r end; } < "$begun" || :
    { [ "$form $end" = 'hand-in 2 end' ] && is_number "$next" && is_number "$moment"; } || fail "$begun is damaged, or an earlier hand-in.sh made it"
    [ -d "$at/begun" ] || fail "$at/begun isn't there, and $name was begun: see $begun"
    if [ -f "$at/begun/$name" ]; then
        identity=$(identify) handed=$((next - 1))
        [ "$was" = none ] || [ "$was" = "$identity" ] || fail "$name was begun with another store than this one: see $begun"
        if search; then found=yes; else found=no; fi
        rm -rf "$look"
        if [ "$found" = yes ]; then
            taken
        else
            next=$number
            begin
            submit
        fi
    else
        # (it wasn't moved yet, or was moved to where it belongs)
        rm "$begun"
        next=''
    fi
fi

at=$folder from=$3 to=$4
for file in "$folder"/begun/*; do
    [ ! -f "$file" ] || fail "$file was begun, and there is no $begun: look in \`list out\` whether it was taken, and move it"
done
for file in "$folder"/*; do
    name=${file##*/}
    case $name in *.part | *.tmp) continue ;; esac
    [ -f "$file" ] || continue
    left=''
    case $name in *"$line"*) left="its name has a line feed" ;; esac
    # (`sent` has up to 13 bytes more)
    [ ${#name} -le 242 ] || left="its name has more than 242 bytes"
    [ ! -L "$file" ] || left="it is a link"
    if [ -n "$left" ]; then
        say "$name is left alone: $left"
        status=1
        continue
    fi
    [ -n "$next" ] || learn
    begin
    mv -T "$file" "$at/begun/$name" || :
    if [ ! -f "$at/begun/$name" ]; then
        [ ! -e "$file" ] || fail "$name can't be moved to $at/begun"
        # (somebody took it away)
        rm "$begun"
        continue
    fi
    on_disk "$at" "$at/begun" || fail "$at can't be written"
    # (its bytes as well; a file that can't be read is refused)
    sync "$at/begun/$name" 2> /dev/null || :
    submit
done
exit "$status"
