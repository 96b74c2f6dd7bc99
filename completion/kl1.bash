# Words for kl1 in bash: it reads a script, as in kl1 < FILE, or a journal, as in kl1 replay < FILE. Source this file, or put it
# where bash looks for completions, under the name kl1.

_kl1() {
    local word=${COMP_WORDS[COMP_CWORD]} before=${COMP_WORDS[COMP_CWORD - 1]}
    COMPREPLY=()
    case $before in
    '<')
        compopt -o filenames 2>/dev/null
        mapfile -t COMPREPLY < <(
            compgen -f -X "!*.$([[ " ${COMP_WORDS[*]} " == *" replay "* ]] && echo journal || echo script)" -- "$word"
            compgen -d -- "$word"
        )
        ;;
    '>' | '>>')
        compopt -o filenames 2>/dev/null
        mapfile -t COMPREPLY < <(compgen -f -- "$word")
        ;;
    kl1)
        mapfile -t COMPREPLY < <(compgen -W replay -- "$word")
        ;;
    esac
}

complete -F _kl1 kl1
