# The completion of as2desk for bash: source this file, or have bash-completion find it as `as2desk`.
# Made by tools/manual.py from what `as2desk --help` prints: don't change it by hand.
# shellcheck shell=bash disable=SC2034

# The options of that command, or of the program: those that must be given, and all.
_as2desk_options() {
    case $1 in
        '')
            required='--agreements --store'
            options='--agreements --store --store-limit --first --moment --help --version'
            ;;
        check | migrate | tick | resend | fetch | stop)
            required=''
            options='--help'
            ;;
        verify | outstanding | show)
            required=''
            options='--format --help'
            ;;
        evidence)
            required=''
            options='--received --out --help'
            ;;
        post)
            required=''
            options='--log --help'
            ;;
        submit)
            required='--from --to'
            options='--from --to --help'
            ;;
        send)
            required=''
            options='--timeout --help'
            ;;
        list)
            required=''
            options='--state --format --help'
            ;;
        serve)
            required='--listen --count'
            options='--listen --count --timeout --idle --help'
            ;;
        run)
            required='--listen'
            options='--listen --control --timeout --idle --receipts-to --help'
            ;;
        *) return 1 ;;
    esac
}

# What may stand for the value of that option of that command, or for its first value by itself.
_as2desk_values() {
    case $1:$2 in
        :1)
            values='check migrate verify evidence post submit send tick resend list outstanding show fetch
                serve run stop'
            ;;
        :--agreements | :--store | submit:1 | run:--control)
            values=':files'
            ;;
        :--store-limit | :--first | :--moment | evidence:1 | submit:--from | submit:--to | send:--timeout | \
            resend:1 | show:1 | fetch:1 | serve:--listen | serve:--count | serve:--timeout | serve:--idle | \
            run:--listen | run:--timeout | run:--idle | run:--receipts-to)
            values=''
            ;;
        verify:--format | list:--format | outstanding:--format | show:--format)
            values='text json'
            ;;
        evidence:--out)
            values=':folders'
            ;;
        list:--state)
            values='P R S W E'
            ;;
        list:1)
            values='out in'
            ;;
        *) return 1 ;;
    esac
}

# Joins the words that bash has split at `=`, `:`, `<` and `>`: into `words`, and `current` up to the cursor.
_as2desk_join() {
    local line=${COMP_LINE:0:COMP_POINT} i
    words=()
    for ((i = 0; i < COMP_CWORD; i++)); do
        if [[ $i == 0 || $line == [[:blank:]]* ]]; then
            words+=("${COMP_WORDS[i]}")
        else
            words[${#words[@]} - 1]+=${COMP_WORDS[i]}
        fi
        line=${line#*"${COMP_WORDS[i]}"}
    done
    if [[ $line == [[:blank:]]* ]]; then
        current=${line#"${line%%[![:blank:]]*}"}
    else
        current=${words[${#words[@]} - 1]}$line
        unset "words[${#words[@]} - 1]"
    fi
}

# Takes a word that stands before the current one. `taking` is the option, or the `<` or `>`, whose value comes next.
_as2desk_take() {
    if [[ -n $taking ]]; then
        taking=
    elif [[ $1 == [\<\>]* || $1 == [0-9][\<\>]* ]]; then
        [[ $1 != *[\<\>] ]] || taking='<'
    elif [[ $1 == -* ]]; then
        given+="${1%%=*} "
        ! _as2desk_values "$command" "$1" || taking=$1
    elif [[ -z $command ]]; then
        command=$1 given=' '
    else
        ((++place))
    fi
}

# Offers the words of `values` that begin as the current one does, or the names of files or folders.
_as2desk_offer() {
    local word
    case $values in
        :files) compopt -o default ;;
        :folders) compopt -o dirnames ;;
        *)
            for word in $values; do
                [[ $word != "$current"* ]] || COMPREPLY+=("$prefix$word")
            done
            ;;
    esac
}

# The words among these that aren't given yet.
_as2desk_left() {
    local word
    left=
    for word; do
        [[ $given == *" $word "* ]] || left+=" $word"
    done
}

# What may stand where no value is awaited: options, a command, or a value by itself.
_as2desk_plain() {
    values=
    _as2desk_options "$command" || return 0
    if [[ $current == -* ]]; then
        # shellcheck disable=SC2086
        _as2desk_left $options
        values=$left
    else
        # shellcheck disable=SC2086
        _as2desk_left $required
        [[ -z $current ]] || left=
        _as2desk_values "$command" "$place" || values=
        [[ -z $left || $values == :* ]] || values="$left $values"
        [[ -z $left || $values != :* ]] || values=$left
    fi
}

_as2desk() {
    local IFS=$' \t\n'
    local current='' taking='' command='' place=1 given=' ' required='' options='' values='' left='' prefix='' word
    local -a words
    COMPREPLY=()
    _as2desk_join
    for word in "${words[@]:1}"; do
        _as2desk_take "$word"
    done
    if [[ -z $taking && $current == --*=* ]]; then
        taking=${current%%=*}
        [[ $COMP_WORDBREAKS == *=* ]] || prefix=$taking=
        current=${current#*=}
    fi
    if [[ $taking == '<' || -z $taking && $current == [\<\>]* || -z $taking && $current == [0-9][\<\>]* ]]; then
        values=:files
    elif [[ -n $taking ]]; then
        _as2desk_values "$command" "$taking" || values=
    else
        _as2desk_plain
    fi
    _as2desk_offer
}

complete -F _as2desk as2desk
