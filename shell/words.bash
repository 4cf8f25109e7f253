# Which word of a call the program does not take, in a sentence.
#
# The rules are those of `read_words` (crates/command_line), which reads the words with the kit's `clap`: a command, then its options in any order, each once,
# as `--NAME VALUE` or `--NAME=VALUE`. They stand here again for the sentence alone: what a call does is said by the program. `checks/help` compares both.

# What was found: `asked` is `program`, `version` or a command where help was asked for, `fault` is the sentence where the words ask for nothing, else both are
# empty; `topic` is the command whose help has what is missing; `is_text` is no where a word is no UTF-8, of which the program prints no line.
asked='' fault='' topic='' is_text=yes

read_words() {
    local word
    asked='' fault='' topic='' is_text=yes
    for word in "$@"; do
        if ! is_utf8 "$word"; then
            is_text=no
            fault="the word $(shown "$word") is no UTF-8"
            return
        fi
    done
    if [ $# = 0 ]; then
        fault="a command is missing: ${_ehdl_commands// /, }"
        return
    fi
    case $1 in
    help) read_topic "${@:2}" ;;
    --help | -h*) asked=program ;;
    --version | -V) asked=version ;;
    --) fault="a command is missing before \`--\`" ;;
    -?*) fault="the option $(shown "$1") stands in front, where the command stands: ${_ehdl_commands// /, }" ;;
    *)
        if is_command "$1"; then
            topic=$1
            read_options "$@"
        else
            fault="no command $(shown "$1")$(meant "$1" '' $_ehdl_commands help)"
        fi
        ;;
    esac
}

# `help`, and what may come after it.
read_topic() {
    if [ $# = 0 ]; then
        asked=program
    elif is_command "$1"; then
        asked=$1
    else
        fault="no help on $(shown "$1")$(meant "$1" '' $_ehdl_commands)"
    fi
}

# The words of a command, its name first.
read_options() {
    local command=$1 word name known=" ${_ehdl_required[$1]} ${_ehdl_optional[$1]} " waiting='' is_over=no
    local -A values=()
    shift
    while [ $# -gt 0 ]; do
        word=$1
        shift
        if [ $is_over = yes ]; then
            fault="the word $(shown "$word") belongs to no option of \`$command\`"
        elif [ "$word" = -- ]; then
            is_over=yes
            [ -z "$waiting" ] || fault="\`--$waiting\` has no value in front of \`--\`"
        elif [[ $word == --* ]]; then
            name=${word#--}
            name=${name%%=*}
            if [ -n "$waiting" ]; then
                fault="\`--$waiting\` has no value: the option $(shown "${word%%=*}") follows it"
            elif [ "$word" = --help ]; then
                asked=$command
            elif [ "$name" = help ]; then
                fault="\`--help\` takes no value"
            elif [[ -z $name || $name == *' '* || $known != *" $name "* ]]; then
                fault="no option $(shown "--$name") of \`$command\`$(meant_option "$name")"
            elif [ -n "${values[$name]+x}" ]; then
                fault="\`--$name\` of \`$command\` stands twice"
            elif [[ $word == *=* ]]; then
                values[$name]=${word#*=}
            else
                waiting=$name
            fi
        elif [[ $word == -?* ]]; then
            if [ -n "$waiting" ]; then
                fault="\`--$waiting\` has no value: one that begins with \`-\` is given as $(shown "--$waiting=$word")"
            elif [[ $word == -h* ]]; then
                asked=$command
            else
                fault="no option $(shown "$word") of \`$command\`$(meant_option "${word#-}")"
            fi
        elif [ -n "$waiting" ]; then
            values[$waiting]=$word
            waiting=
        else
            fault="the word $(shown "$word") belongs to no option of \`$command\`$(meant_option "$word")"
        fi
        [ -z "$fault$asked" ] || return
    done
    if [ -n "$waiting" ]; then
        fault="\`--$waiting\` has no value: the words end with it"
        return
    fi
    read_missing
    [ -n "$fault" ] || read_numbers
    [ -n "$fault" ] || read_files
}

# The options of `command` that `values` lacks.
read_missing() {
    local name missing=''
    for name in ${_ehdl_required[$command]}; do
        [ -n "${values[$name]+x}" ] || missing+="${missing:+, }\`--$name\`"
    done
    [ -z "$missing" ] || fault="\`$command\` needs $missing"
}

# The numbers in `values`: decimal, and in their ranges.
read_numbers() {
    local name value low high
    for name in ${_ehdl_required[$command]} ${_ehdl_optional[$command]}; do
        if [ -z "${values[$name]+x}" ] || [ -z "${_ehdl_range[$name]+x}" ]; then
            continue
        fi
        value=${values[$name]}
        read -r low high <<<"${_ehdl_range[$name]}"
        if ! [[ $value =~ ^(0|[123456789][0123456789]*)$ ]]; then
            fault="\`--$name\` takes a number from $(parted "$low") to $(parted "$high"), in decimal without a sign or a needless zero: $(shown "$value") is none"
        elif [ ${#value} -gt 10 ] || [ "$value" -lt "$low" ] || [ "$value" -gt "$high" ]; then
            fault="\`--$name\` takes a number from $(parted "$low") to $(parted "$high"): $(shown "$value") is out of this range"
        else
            continue
        fi
        return
    done
}

# The files in `values`: no two have one name.
read_files() {
    local name other
    for name in $_ehdl_files; do
        [ -n "${values[$name]+x}" ] || continue
        for other in $_ehdl_files; do
            [ "$other" != "$name" ] || break
            if [ -n "${values[$other]+x}" ] && [ "${values[$other]}" = "${values[$name]}" ]; then
                fault="\`--$other\` and \`--$name\` name one file, $(shown "${values[$name]}")"
                return
            fi
        done
    done
}

is_command() {
    [[ -n $1 && $1 != *' '* && " $_ehdl_commands " == *" $1 "* ]]
}

# A word as it is shown: in a shell's spelling where it has other than printable characters.
shown() {
    if [[ $1 =~ ^[[:print:]]*$ ]]; then
        printf '`%s`' "$1"
    else
        printf '`%q`' "$1"
    fi
}

# A number with its thousands parted.
parted() {
    local digits=$1 text=''
    while [ ${#digits} -gt 3 ]; do
        text=,${digits: -3}$text
        digits=${digits:0:-3}
    done
    printf '%s' "$digits$text"
}

# Whether a word is UTF-8, as far as this machine can tell.
is_utf8() {
    local LC_ALL=C
    case $1 in
    *[!\ -~]*) ! command -v iconv >/dev/null || printf '%s' "$1" | iconv -f UTF-8 -t UTF-8 >/dev/null 2>&1 ;;
    esac
}

# What may have been meant by an option's name: one of `command`, or that others have it.
meant_option() {
    local other with=''
    for other in $_ehdl_commands; do
        [[ " ${_ehdl_required[$other]} ${_ehdl_optional[$other]} " != *" $1 "* ]] || with+="${with:+, }\`$other\`"
    done
    if [[ -n $1 && $1 != *' '* && -n $with && $known != *" $1 "* ]]; then
        printf ', which %s may have' "$with"
    else
        meant "$1" -- $known help
    fi
}

# The nearest of these names, in front of which such a mark stands: `; did you mean ..?`, or nothing where none is near.
meant() {
    local word=$1 mark=$2 name best='' least=$((1 + ${#1} / 3)) edits
    shift 2
    for name in "$@"; do
        edits=$(edits_between "${word:0:32}" "$name")
        # A beginning of a name counts as near.
        if [ ${#word} -gt 1 ] && [[ $name == "$word"* ]] && [ "$edits" -gt 1 ]; then
            edits=1
        fi
        if [ "$edits" -le "$least" ] && [ "$edits" -lt "${#name}" ] && { [ -z "$best" ] || [ "$edits" -lt "$least" ]; }; then
            best=$name
            least=$edits
        fi
    done
    [ -z "$best" ] || printf '; did you mean `%s%s`?' "$mark" "$best"
}

# How many letters are to be put in, left out, changed or swapped with the next one to make one word of the other.
edits_between() {
    local a=$1 b=$2 i j cost best
    local -a before=() last row=()
    for ((j = 0; j <= ${#b}; j++)); do row[j]=$j; done
    for ((i = 1; i <= ${#a}; i++)); do
        last=("${before[@]}")
        before=("${row[@]}")
        row=("$i")
        for ((j = 1; j <= ${#b}; j++)); do
            [ "${a:i-1:1}" = "${b:j-1:1}" ] && cost=0 || cost=1
            best=$((before[j - 1] + cost))
            ((before[j] + 1 < best)) && best=$((before[j] + 1))
            ((row[j - 1] + 1 < best)) && best=$((row[j - 1] + 1))
            if ((i > 1 && j > 1)) && [ "${a:i-1:1}" = "${b:j-2:1}" ] && [ "${a:i-2:1}" = "${b:j-1:1}" ]; then
                ((last[j - 2] + 1 < best)) && best=$((last[j - 2] + 1))
            fi
            row[j]=$best
        done
    done
    printf '%s' "${row[${#b}]}"
}
