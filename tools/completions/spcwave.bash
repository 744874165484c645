# Completion of spcwave's commands, options and files for bash. Commands and options are those that `spcwave help` prints.
_spcwave() {
    local word=${COMP_WORDS[COMP_CWORD]} command=${COMP_WORDS[1]-}
    COMPREPLY=()
    if [ "$COMP_CWORD" -eq 1 ]; then
        mapfile -t COMPREPLY < <(compgen -W "$(spcwave help 2>/dev/null | sed -n 's/^  spcwave \([a-z]*\).*/\1/p')" -- "$word")
    elif [[ $word == -* ]]; then
        mapfile -t COMPREPLY < <(compgen -W "$(spcwave help 2>/dev/null | sed -n "s/^  spcwave $command\b\(.*\):.*/\1/p" | grep -o -- '--[a-z-]*')" -- "$word")
    fi
}
complete -o bashdefault -o default -F _spcwave spcwave
