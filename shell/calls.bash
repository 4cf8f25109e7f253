# A call of the program, with what helps a person beside it on standard error. Standard output and the status are the program's.

# Calls the program with these words.
call_program() {
    local status
    if [ -z "$fault$asked" ] && ! [ -t 2 ]; then
        exec "$program" "$@"
    fi
    if [ -z "$fault$asked" ]; then
        call_shown "$@"
        status=$?
        [ $status != 4 ] || say_prepare "$@"
        exit $status
    fi
    "$program" "$@"
    status=$?
    # The sentence stands only beside the program's own answer.
    [ $status != 2 ] || say_help
    exit $status
}

# After a refusal, on a terminal: that there is an object which is accepted, if `prepare` finds one.
say_prepare() {
    local made name
    local -a words
    local -A values=()
    case $1 in compile | run | ref | report) ;; *) return ;; esac
    read_values "${@:2}"
    made=$(mktemp) || return
    words=("--object=${values[object]}" "--output=$made")
    for name in program hash-cap; do
        [ -z "${values[$name]+x}" ] || words+=("--$name=${values[$name]}")
    done
    if "$program" prepare "${words[@]}" >/dev/null 2>&1; then
        echo 'ehdl: `ehdl prepare` makes an object of this one that is accepted and does the same; `ehdl prepare --help` says how' >&2
    fi
    rm -f "$made"
}

# What helps after `usage`: the help that was asked for, or which word is wrong.
say_help() {
    local of=ehdl
    case $asked in
    program) say_texts ehdl statuses ;;
    version) say_version ;;
    '')
        [ -z "$topic" ] || of="ehdl $topic"
        printf 'ehdl: %s\nehdl: %s\n' "$fault" "\`$of --help\` says what it takes"
        ;;
    *) say_texts "$asked" statuses ;;
    esac >&2
}

# Texts of the help, one after another. They name a document by its place in the sources, and it is told by the place where it lies.
say_texts() {
    local name text between='' at
    at=$(cd "$(documents)" && pwd)
    for name in "$@"; do
        text=$(<"$root/help/$name.txt")
        printf '%s%s\n' "$between" "${text//docs\/REFUSALS.md/$at/REFUSALS.md}"
        between=$'\n'
    done
}

# Which version this is: that of a release, or of a checkout.
say_version() {
    local commit
    if [ -e "$root/version.txt" ]; then
        cat "$root/version.txt"
        return
    fi
    echo "ehdl $(cat "$root/VERSION")"
    if commit=$(git -C "$root" describe --always --dirty 2>/dev/null); then
        echo "commit $commit"
    fi
    if is_proved; then
        echo "program: proved"
    else
        echo "program: built without its proofs, with checks when it runs"
    fi
    if command -v rt >/dev/null; then
        echo "toolchain: $(rt version)"
    fi
}

# Runs the program with the line of calls beside it.
call_shown() {
    local status said_by_it='' begun
    printf -v begun '%(%s)T' -1
    trap 'stop_call INT' INT
    trap 'stop_call TERM' TERM
    trap 'stop_call HUP' HUP
    # Where standard output is a terminal, too, what the program prints waits until the line is cleared.
    if [ -t 1 ] && said_by_it=$(mktemp); then
        "$program" "$@" <&0 >"$said_by_it" &
    else
        "$program" "$@" <&0 &
    fi
    calling=$!
    show_line 0.5 line_of_call "$begun" "$@"
    wait "$calling"
    status=$?
    end_line
    if [ -n "$said_by_it" ]; then
        cat "$said_by_it"
        rm -f "$said_by_it"
    fi
    return $status
}

# A signal ends the program, and this shell in the same way.
stop_call() {
    kill -TERM "$calling" 2>/dev/null
    wait "$calling" 2>/dev/null
    end_line
    [ -z "$said_by_it" ] || rm -f "$said_by_it"
    trap - "$1"
    kill -"$1" $$
}

# What can be seen of a call: its command, how long it has taken, and of the files that it has begun to write how large they are.
line_of_call() {
    local seconds=$1 begun=$2 command=$3 file name at size spelled
    local -A values=()
    read_values "${@:4}"
    spell_seconds "$seconds"
    said="ehdl $command: $spelled"
    for name in ${_ehdl_written[$command]}; do
        file=${values[$name]-}
        # A file that is older than the call has not been begun.
        if [ -f "$file" ] && read -r at size < <(stat -c '%Y %s' -- "$file" 2>/dev/null) && [ "$at" -ge "$begun" ]; then
            said+="; ${file##*/} $(spell_size "$size")"
        fi
    done
}

# What options have in these words, which are right ones, into `values`.
read_values() {
    local word of=''
    for word in "$@"; do
        case $word in
        --*=*) word=${word#--} && values[${word%%=*}]=${word#*=} ;;
        *) if [ -n "$of" ]; then values[$of]=$word of=; else of=${word#--}; fi ;;
        esac
    done
}

spell_size() {
    if [ "$1" -lt 10000 ]; then echo "$1 bytes"; elif [ "$1" -lt 10000000 ]; then echo "$(($1 / 1000)) kB"; else echo "$(($1 / 1000000)) MB"; fi
}
