# One line on a terminal that says how far something is, and that is cleared when it is over.
#
# It is written to standard error by a shell of its own, and takes what it says from outside: the clock, and what files and processes the system shows.

line_writer=

# Shows what a function says in `said`, from the first second on, and again after so many seconds each; it gets the seconds so far, and the words after
# its name.
show_line() {
    (
        trap - EXIT INT TERM HUP
        # (a pipe that nothing is written to: to read it is to wait, with no process more)
        exec {silent}<> <(:)
        begun=$SECONDS
        width=$({ stty size <&2; } 2>/dev/null)
        width=${width#* }
        [ "${width:-0}" -gt 1 ] || width=80
        read -rt 1 -u "$silent"
        while :; do
            if is_in_front; then
                said=
                "$2" $((SECONDS - begun)) "${@:3}"
                printf '\r\033[K%s' "${said:0:width-1}" >&2
            fi
            read -rt "$1" -u "$silent"
        done
    ) &
    line_writer=$!
    line_begun=$SECONDS
}

# Clears the line.
end_line() {
    [ -n "$line_writer" ] || return 0
    kill "$line_writer" 2>/dev/null
    wait "$line_writer" 2>/dev/null
    line_writer=
    [ "$SECONDS" = "$line_begun" ] || ! is_in_front || printf '\r\033[K' >&2
}

# Whether the terminal is not another job's: a call in the background writes no line into what a person types.
is_in_front() {
    local line fields
    read -r line 2>/dev/null </proc/$$/stat || return 0
    read -ra fields <<<"${line##*) }"
    # (the group of this process, and the one in front of its terminal: -1 where it has none)
    [ "${fields[5]}" -le 0 ] || [ "${fields[2]}" = "${fields[5]}" ]
}

# Seconds as a person reads them, in `spelled`.
spell_seconds() {
    if [ "$1" -lt 60 ]; then spelled="$1 s"; else printf -v spelled '%d min %02d s' $(($1 / 60)) $(($1 % 60)); fi
}
