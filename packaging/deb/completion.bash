# Completion of the words of mx_federd for bash; where no word fits, of files.

_mx_federd() {
    local word=${COMP_WORDS[COMP_CWORD]} before=${COMP_WORDS[COMP_CWORD - 1]} subcommand=${COMP_WORDS[1]} words
    case $before in
    --data)
        mapfile -t COMPREPLY < <(compgen -d -- "$word")
        return
        ;;
    --host | --rooms | --log)
        mapfile -t COMPREPLY < <(compgen -f -- "$word")
        return
        ;;
    --log-level)
        mapfile -t COMPREPLY < <(compgen -W "info warn error" -- "$word")
        return
        ;;
    --log-format)
        mapfile -t COMPREPLY < <(compgen -W "text json" -- "$word")
        return
        ;;
    esac
    if [ "$COMP_CWORD" = 1 ]; then
        words=$(mx_federd --help 2>&1 | sed -n '/^Commands:/,/^$/s/^  \([a-z]*\).*/\1/p')
    else
        words=$(mx_federd "$subcommand" --help 2>&1 | grep -o -- '--[a-z-]*' | sort -u)
    fi
    mapfile -t COMPREPLY < <(compgen -W "$words" -- "$word")
}

complete -o default -F _mx_federd mx_federd
