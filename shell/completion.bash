
# The completion of words for bash: commands, then options that are not there yet, then files.
_ehdl() {
    local word=${COMP_WORDS[COMP_CWORD]} before=${COMP_WORDS[COMP_CWORD - 1]} command=${COMP_WORDS[1]-} name names=
    COMPREPLY=()
    if [ "$COMP_CWORD" = 1 ]; then
        COMPREPLY=($(compgen -W "$_ehdl_commands help --help --version --install" -- "$word"))
        return
    fi
    if [ "$command" = help ]; then
        COMPREPLY=($(compgen -W "$_ehdl_commands" -- "$word"))
        return
    fi
    if [ "$command" = --install ]; then
        mapfile -t COMPREPLY < <(compgen -d -- "$word")
        return
    fi
    case $before in
    --program) return ;;
    --help) return ;;
    --?*)
        if [ -n "${_ehdl_range[${before#--}]+x}" ]; then
            return
        elif [[ " $_ehdl_files " == *" ${before#--} "* ]]; then
            compopt -o filenames 2>/dev/null
            mapfile -t COMPREPLY < <(compgen -f -- "$word")
            return
        fi
        ;;
    esac
    for name in ${_ehdl_required[$command]-} ${_ehdl_optional[$command]-} help; do
        [[ " ${COMP_WORDS[*]:1:COMP_CWORD-1} " == *" --$name "* ]] || names+=" --$name"
    done
    COMPREPLY=($(compgen -W "$names" -- "$word"))
}
complete -F _ehdl ehdl
