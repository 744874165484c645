# Completion of spc2wav's options, SPC files and folders for bash.
_spc2wav() {
    local word=${COMP_WORDS[COMP_CWORD]} before=${COMP_WORDS[COMP_CWORD - 1]}
    local IFS=$'\n'
    COMPREPLY=()
    if [[ $word == -* ]]; then
        COMPREPLY=($(compgen -W $'-o\n--flac\n--force\n--jobs\n--help' -- "$word"))
    elif [ "$before" = -o ]; then
        COMPREPLY=($(compgen -d -- "$word"))
    else
        COMPREPLY=($(compgen -f -X '!*.[sS][pP][cC]' -- "$word") $(compgen -d -- "$word"))
    fi
}
complete -o filenames -F _spc2wav spc2wav
