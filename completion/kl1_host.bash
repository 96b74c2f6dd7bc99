# Words for kl1_host in bash: source this file, or put it where bash looks for completions, under the name kl1_host.

_kl1_host() {
    local word=${COMP_WORDS[COMP_CWORD]}
    COMPREPLY=()
    case $COMP_CWORD in
    1)
        mapfile -t COMPREPLY < <(compgen -W "init add rekey remove export import reload run check status stop --help --version" -- "$word")
        ;;
    2)
        # The folder.
        compopt -o filenames 2>/dev/null
        mapfile -t COMPREPLY < <(compgen -d -- "$word")
        ;;
    3)
        if [ "${COMP_WORDS[1]}" = run ]; then
            mapfile -t COMPREPLY < <(compgen -W "--repair" -- "$word")
        fi
        ;;
    esac
}

complete -F _kl1_host kl1_host
