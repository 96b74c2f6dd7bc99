# Words for kl1_fmt in bash: source this file, or put it where bash looks for completions, under the name kl1_fmt.

_kl1_fmt() {
    local word=${COMP_WORDS[COMP_CWORD]}
    COMPREPLY=()
    if [[ $word == -* ]]; then
        mapfile -t COMPREPLY < <(compgen -W "--check --help --version" -- "$word")
    else
        # Files of modules, and folders on the way to them.
        compopt -o filenames 2>/dev/null
        mapfile -t COMPREPLY < <(
            compgen -f -X '!*.kl1' -- "$word"
            compgen -d -- "$word"
        )
    fi
}

complete -F _kl1_fmt kl1_fmt
