# Words for kl1_run in bash: source this file, or put it where bash looks for completions, under the name kl1_run.

_kl1_run() {
    local word=${COMP_WORDS[COMP_CWORD]} before=${COMP_WORDS[COMP_CWORD - 1]}
    local options="--steps --allowance --rules --reports --whole --bindings --infix --waits --stats --trace --profile --timeline --lanes --journal --check --warn --script --prompt --help --version"
    COMPREPLY=()
    if ((COMP_CWORD > 1)); then
        # The first word may say that another program is wanted, which has fewer options.
        case ${COMP_WORDS[1]} in
        test) options="--help --version" ;;
        fmt) options="--check --help --version" ;;
        trace) options="--trace --profile --timeline --lanes --help --version" ;;
        esac
    fi
    case $before in
    --steps | --allowance | --lanes)
        # A number, or a pattern.
        return
        ;;
    --rules)
        mapfile -t COMPREPLY < <(compgen -W "3 4 5" -- "$word")
        return
        ;;
    --warn)
        mapfile -t COMPREPLY < <(compgen -W "error" -- "$word")
        return
        ;;
    --waits)
        mapfile -t COMPREPLY < <(compgen -W "all none" -- "$word")
        return
        ;;
    --journal | --timeline)
        # A file of any name.
        compopt -o filenames 2>/dev/null
        mapfile -t COMPREPLY < <(compgen -f -- "$word")
        return
        ;;
    esac
    if [[ $word == -* ]]; then
        mapfile -t COMPREPLY < <(compgen -W "$options" -- "$word")
        return
    fi
    compopt -o filenames 2>/dev/null
    if ((COMP_CWORD > 1)) && [[ ${COMP_WORDS[1]} == trace ]]; then
        # Journals have names of any kind.
        mapfile -t COMPREPLY < <(compgen -f -- "$word")
        return
    fi
    # Files of modules, and folders on the way to them.
    mapfile -t COMPREPLY < <(
        ((COMP_CWORD > 1)) || compgen -W "test fmt trace" -- "$word"
        compgen -f -X '!*.kl1' -- "$word"
        compgen -d -- "$word"
    )
}

complete -F _kl1_run kl1_run
