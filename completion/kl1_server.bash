# Words for kl1_server in bash: source this file, or put it where bash looks for completions, under the name kl1_server.

_kl1_server() {
    local word=${COMP_WORDS[COMP_CWORD]}
    COMPREPLY=()
    case $COMP_CWORD in
    1)
        # The file of accounts.
        compopt -o filenames 2>/dev/null
        mapfile -t COMPREPLY < <(compgen -f -- "$word")
        ;;
    2)
        mapfile -t COMPREPLY < <(compgen -W "127.0.0.1:7411" -- "$word")
        ;;
    3)
        # As many workers as processors, at most 16.
        local count
        count=$(nproc 2>/dev/null || echo 4)
        mapfile -t COMPREPLY < <(compgen -W "$((count > 16 ? 16 : count))" -- "$word")
        ;;
    4)
        mapfile -t COMPREPLY < <(compgen -W "1024" -- "$word")
        ;;
    esac
}

complete -F _kl1_server kl1_server
