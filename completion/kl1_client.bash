# Words for kl1_client in bash: source this file, or put it where bash looks for completions, under the name kl1_client.

_kl1_client() {
    local word=${COMP_WORDS[COMP_CWORD]} before=${COMP_WORDS[COMP_CWORD - 1]}
    local options="--key-file --all --timeout --reconnect --command --help --version"
    local commands="load start run reduce quiet stop resume abort allow answer forget value status reports modules journal reset save wait watch help quit logout"
    COMPREPLY=()
    case $before in
    --key-file)
        # A file of any name.
        compopt -o filenames 2>/dev/null
        mapfile -t COMPREPLY < <(compgen -f -- "$word")
        return
        ;;
    --timeout)
        # A number.
        return
        ;;
    -c | --command)
        # The first word of a command.
        mapfile -t COMPREPLY < <(compgen -W "$commands" -- "$word")
        return
        ;;
    esac
    if [[ $word == -* ]]; then
        mapfile -t COMPREPLY < <(compgen -W "$options" -- "$word")
    fi
}

complete -F _kl1_client kl1_client
