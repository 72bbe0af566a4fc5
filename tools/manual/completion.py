"""The completion for bash: commands, options, values where they are few, files where an option takes one."""
import re
import textwrap

from reading import Fault

FILES, FOLDERS = ":files", ":folders"
QUOTED = re.compile(r"'([a-z]+)' for ")
LETTERS = re.compile(r": ([A-Z](?:, [A-Z])*) or ([A-Z])$")


def quoted(text):
    """The words that a text has between quotes, each with what it is for."""
    return " ".join(QUOTED.findall(text))


def letters(text):
    """The letters at the end of a text."""
    found = LETTERS.search(text)
    return " ".join([*found[1].split(", "), found[2]]) if found else ""


def anything(_):
    return None


# What may stand for each kind of value, as its text says it.
VALUES = {
    "FILE": lambda _: FILES, "PATH": lambda _: FILES, "FOLDER": lambda _: FOLDERS,
    "FORMAT": quoted, "KIND": quoted, "S": letters,
    "N": anything, "SECONDS": anything, "MIB": anything, "ADDRESS": anything, "NAME": anything,
    "HOST[:PORT],..": anything,
}

HEAD = r"""# The completion of as2desk for bash: source this file, or have bash-completion find it as `as2desk`.
# Made by tools/manual.py from what `as2desk --help` prints: don't change it by hand.
# shellcheck shell=bash disable=SC2034

"""

OPTIONS = "# The options of that command, or of the program: those that must be given, and all.\n"
VALUES_HEAD = "\n# What may stand for the value of that option of that command, or for its first value by itself.\n"

BODY = r"""
# Joins the words that bash has split at `=`, `:`, `<` and `>`: into `words`, and `current` up to the cursor.
_as2desk_join() {
    local line=${COMP_LINE:0:COMP_POINT} i
    words=()
    for ((i = 0; i < COMP_CWORD; i++)); do
        if [[ $i == 0 || $line == [[:blank:]]* ]]; then
            words+=("${COMP_WORDS[i]}")
        else
            words[${#words[@]} - 1]+=${COMP_WORDS[i]}
        fi
        line=${line#*"${COMP_WORDS[i]}"}
    done
    if [[ $line == [[:blank:]]* ]]; then
        current=${line#"${line%%[![:blank:]]*}"}
    else
        current=${words[${#words[@]} - 1]}$line
        unset "words[${#words[@]} - 1]"
    fi
}

# Takes a word that stands before the current one. `taking` is the option, or the `<` or `>`, whose value comes next.
_as2desk_take() {
    if [[ -n $taking ]]; then
        taking=
    elif [[ $1 == [\<\>]* || $1 == [0-9][\<\>]* ]]; then
        [[ $1 != *[\<\>] ]] || taking='<'
    elif [[ $1 == -* ]]; then
        given+="${1%%=*} "
        ! _as2desk_values "$command" "$1" || taking=$1
    elif [[ -z $command ]]; then
        command=$1 given=' '
    else
        ((++place))
    fi
}

# Offers the words of `values` that begin as the current one does, or the names of files or folders.
_as2desk_offer() {
    local word
    case $values in
        :files) compopt -o default ;;
        :folders) compopt -o dirnames ;;
        *)
            for word in $values; do
                [[ $word != "$current"* ]] || COMPREPLY+=("$prefix$word")
            done
            ;;
    esac
}

# The words among these that aren't given yet.
_as2desk_left() {
    local word
    left=
    for word; do
        [[ $given == *" $word "* ]] || left+=" $word"
    done
}

# What may stand where no value is awaited: options, a command, or a value by itself.
_as2desk_plain() {
    values=
    _as2desk_options "$command" || return 0
    if [[ $current == -* ]]; then
        # shellcheck disable=SC2086
        _as2desk_left $options
        values=$left
    else
        # shellcheck disable=SC2086
        _as2desk_left $required
        [[ -z $current ]] || left=
        _as2desk_values "$command" "$place" || values=
        [[ -z $left || $values == :* ]] || values="$left $values"
        [[ -z $left || $values != :* ]] || values=$left
    fi
}

_as2desk() {
    local IFS=$' \t\n'
    local current='' taking='' command='' place=1 given=' ' required='' options='' values='' left='' prefix='' word
    local -a words
    COMPREPLY=()
    _as2desk_join
    for word in "${words[@]:1}"; do
        _as2desk_take "$word"
    done
    if [[ -z $taking && $current == --*=* ]]; then
        taking=${current%%=*}
        [[ $COMP_WORDBREAKS == *=* ]] || prefix=$taking=
        current=${current#*=}
    fi
    if [[ $taking == '<' || -z $taking && $current == [\<\>]* || -z $taking && $current == [0-9][\<\>]* ]]; then
        values=:files
    elif [[ -n $taking ]]; then
        _as2desk_values "$command" "$taking" || values=
    else
        _as2desk_plain
    fi
    _as2desk_offer
}

complete -F _as2desk as2desk
"""


def values_of(where, it):
    """What may stand for the value of an option or argument, as words; nothing where that is anything."""
    if it.value not in VALUES:
        raise Fault(f"{where}: what may stand for <{it.value}> isn't known")
    found = VALUES[it.value](it.text)
    if found == "":
        raise Fault(f"{where}: {it.text!r} names no values")
    return found or ""


def folded(words):
    """Words on lines that aren't too long."""
    return f"\n{' ' * 16}".join(textwrap.wrap(words, 90))


def cases(title, subject, rows):
    """A function that looks a word up, and returns 1 where it isn't there. `rows` are words, each with what is done."""
    found = {}
    for word, action in rows:
        found.setdefault(action, []).append(word)
    lines = [f"{title}() {{", f"    case {subject} in"]
    for action, words in found.items():
        patterns = textwrap.wrap(" | ".join(words) + ")", 100, break_long_words=False, break_on_hyphens=False)
        lines += ["        " + " \\\n            ".join(patterns)]
        lines += [f"            {it}" for it in action] + ["            ;;"]
    return "\n".join([*lines, "        *) return 1 ;;", "    esac", "}", ""])


def options_function(program):
    rows = []
    for name, it in [("", program), *[(it.name, it) for it in program.commands]]:
        names = " ".join(option.long for option in it.options)
        rows.append((name or "''", (f"required='{' '.join(it.required)}'", f"options='{names}'")))
    return cases("_as2desk_options", "$1", rows)


def values_function(program):
    commands = " ".join(it.name for it in program.commands)
    rows = [(":1", (f"values='{folded(commands)}'",))]
    for name, it in [("", program), *[(it.name, it) for it in program.commands]]:
        taken = [(option.long, option) for option in it.options if option.value]
        taken += [(f"{i}", argument) for i, argument in enumerate(getattr(it, "arguments", []), 1)]
        rows += [(f"{name}:{key}", (f"values='{values_of(f'{name} {key}', taker)}'",)) for key, taker in taken]
    return cases("_as2desk_values", "$1:$2", rows)


def completion_of(program):
    """The whole file."""
    return "".join([HEAD, OPTIONS, options_function(program), VALUES_HEAD, values_function(program), BODY])
