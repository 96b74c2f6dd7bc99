# Words for kl1_trace in bash: source this file, or put it where bash looks for completions, under the name kl1_trace.

_kl1_trace() {
    local word=${COMP_WORDS[COMP_CWORD]} before=${COMP_WORDS[COMP_CWORD - 1]}
    local options="--trace --profile --timeline --lanes --help --version"
    COMPREPLY=()
    case $before in
    --lanes)
        # A pattern.
        return
        ;;
    esac
    if [[ $word == -* ]]; then
        mapfile -t COMPREPLY < <(compgen -W "$options" -- "$word")
    else
        # Journals have names of any kind.
        compopt -o filenames 2>/dev/null
        mapfile -t COMPREPLY < <(compgen -f -- "$word")
    fi
}

complete -F _kl1_trace kl1_trace
