# Words for kl1_test in bash: source this file, or put it where bash looks for completions, under the name kl1_test.

_kl1_test() {
    local word=${COMP_WORDS[COMP_CWORD]}
    COMPREPLY=()
    if [[ $word == -* ]]; then
        mapfile -t COMPREPLY < <(compgen -W "--help --version" -- "$word")
    else
        # Files of modules, and folders on the way to them.
        compopt -o filenames 2>/dev/null
        mapfile -t COMPREPLY < <(
            compgen -f -X '!*.kl1' -- "$word"
            compgen -d -- "$word"
        )
    fi
}

complete -F _kl1_test kl1_test
