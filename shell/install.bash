# Puts program, help, manual page and completion where a user wants them.

# Of `--install FOLDER`.
install_to() {
    local folder=${1-}
    if [ $# != 1 ] || [ -z "$folder" ]; then
        echo "ehdl: \`--install\` takes a folder, as \`ehdl --install ~/.local\`" >&2
        exit 2
    fi
    find_program
    [ -n "$program" ] || build_program
    if [ -z "$program" ]; then
        echo "ehdl: the program could not be built to a file, so there is nothing to install" >&2
        exit 1
    fi
    say_version 2>&1 | lay_out "$folder" "$program" || { echo "ehdl: not all could be written to $folder" >&2; exit 1; }
    echo "ehdl: installed as $folder/bin/ehdl" >&2
    [[ :$PATH: == *":$(cd "$folder/bin" && pwd):"* ]] || echo "ehdl: $folder/bin is not in PATH" >&2
}

# Lays the files out below a folder; what `--version` is to say is read from standard input.
lay_out() {
    local folder=$1 program=$2 own=$1/lib/ehdl file
    mkdir -p "$folder/bin" "$own/shell" "$own/help" "$folder/share/man/man1" "$folder/share/bash-completion/completions" || return 1
    # (what is run may be what is written over: a new file takes the place of the old one)
    cat >"$own/version.new" && mv "$own/version.new" "$own/version.txt" || return 1
    put 755 "$program" "$own/program" || return 1
    put 755 "$root/ehdl" "$own/ehdl" || return 1
    for file in "$root"/shell/*.bash "$root"/help/*.txt; do
        put 644 "$file" "$own/${file#"$root"/}" || return 1
    done
    mkdir -p "$folder/share/doc/ehdl/docs" && put 644 "$(documents)/REFUSALS.md" "$folder/share/doc/ehdl/docs/REFUSALS.md" || return 1
    ln -sfn ../lib/ehdl/ehdl "$folder/bin/ehdl" || return 1
    manual "$own/version.txt" | gzip -9n >"$folder/share/man/man1/ehdl.1.gz" || return 1
    cat "$root/shell/options.bash" "$root/shell/completion.bash" >"$folder/share/bash-completion/completions/ehdl"
}

# Where the documents lie: in a checkout, or where this was laid out.
documents() {
    if [ -e "$root/docs" ]; then echo "$root/docs"; else echo "$root/../../share/doc/ehdl/docs"; fi
}

# A file with these rights, by a new one.
put() {
    [ "$2" -ef "$3" ] || { cp "$2" "$3.new" && chmod "$1" "$3.new" && mv "$3.new" "$3"; }
}

# The manual page, from the help.
manual() {
    local file
    printf '.TH EHDL 1 "" "%s"\n.SH NAME\nehdl \\- XDP programs into hardware packet pipelines\n' "$(head -1 "$1")"
    printf '.SH SYNOPSIS\n.nf\n'
    for file in $_ehdl_commands; do
        sed -n '3s/^ *//p' "$root/help/$file.txt"
    done
    printf '.fi\n.SH DESCRIPTION\n'
    sed 1,2d "$root/help/ehdl.txt" | manual_part
    printf '.SH COMMANDS\n'
    for file in $_ehdl_commands; do
        printf '.SS %s\n' "$file"
        manual_part <"$root/help/$file.txt"
    done
    printf '.SH EXIT STATUS\n'
    manual_part <"$root/help/statuses.txt"
}

# A text of the help: its lines stay as they are where they are an example or a table, else they are filled.
manual_part() {
    sed 's/\\/\\\\/g; s/-/\\-/g; s/`\([^`]*\)`/\\fB\1\\fR/g; s/^\([.'"'"']\)/\\\&\1/' | awk '
        function fill(on) { if (on != filled) print on ? ".fi" : ".nf"; filled = on }
        BEGIN { filled = 1 }
        /^$/ { print ".PP"; next }
        # An option or a command with what it is: the name, and the rest behind it.
        match($0, /^[^ ]+( [A-Z])?( ([A-Z]+|\.\.))?   *[^ ]/) && RLENGTH > 4 && substr($0, RLENGTH - 2, 2) == "  " {
            fill(1); name = substr($0, 1, RLENGTH - 1); sub(/ +$/, "", name); rest = substr($0, RLENGTH); gsub(/   +/, ": ", rest)
            print ".TP"; print ".B " name; print rest; next
        }
        /^    / { fill(0); sub(/^ */, "    "); print; next }
        { fill(1); print }
        END { fill(1) }'
}
